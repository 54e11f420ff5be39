# shellcheck shell=sh disable=SC2034,SC2154
# A kit whose clang is another command: a folder of links to the kit, which itself is only read. The script that names
# this file sets $work to a folder before it calls `kit_with_clang` or `kit_for`, and removes it when it ends.

# linked FOLDER NAME..: links in $work/kit to what the kit has in this folder, but for these names, which are made here
linked() {
    folder_of_kit=$1
    shift
    mkdir -p "$work/kit$folder_of_kit"
    for file in "$kit$folder_of_kit"/*; do
        case " $* " in *" ${file##*/} "*) ;; *) ln -s "$file" "$work/kit$folder_of_kit" ;; esac
    done
}

# kit_with_clang SCRIPT: the kit as $work/kit, whose clang is this shell script, in which $clang is the kit's own. The
# script rt finds the kit by the place where it stands itself.
kit_with_clang() {
    command -v rt > /dev/null || { echo "$0: rt is not on the path: this needs the kit" >&2; exit 2; }
    kit=$(dirname "$(dirname "$(realpath "$(command -v rt)")")")
    rm -rf "$work/kit"
    linked '' bin toolchain
    linked /bin rt rtlib.py
    cp "$kit/bin/rt" "$kit/bin/rtlib.py" "$work/kit/bin"
    linked /toolchain bin
    linked /toolchain/bin clang
    printf "#!/bin/sh\nclang='%s/toolchain/bin/clang'\n%s\n" "$kit" "$1" > "$work/kit/toolchain/bin/clang"
    chmod 755 "$work/kit/toolchain/bin/clang"
}

# kit_for LEVEL TOP: sets $rt to the rt that builds for this level, by the list in the sources TOP. For x86-64-v3 clang
# gets two options more. The functions of tools/aligned.csv keep vectors of 32 bytes on the stack: by the first option
# their frames begin at a multiple of 32, since BLAKE3 may lose half of its speed if such a vector lies over the end of
# a page. By the second it inlines larger functions, from which short messages of BLAKE2 gain. What clang reports of a
# name that the module lacks, as the program lacks some, is left out: tests/library/library counts the frames.
kit_for() {
    rt=rt
    [ "$1" = x86-64-v3 ] || return 0
    kit_with_clang "said=\$(mktemp)
\"\$clang\" \"\$@\" -mllvm -forceattrs-csv-path='$2/tools/aligned.csv' -mllvm -inline-threshold=350 2> \"\$said\"
status=\$?
grep -v '^Function in CSV file at line [0-9]* does not exist\\.\$' \"\$said\" >&2
rm -f \"\$said\"
exit \$status"
    rt=$work/kit/bin/rt
}
