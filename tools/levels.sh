# shellcheck shell=sh
# The processor level that code chooses by is one number in a file of words. Each commit has 3, for x86-64-v3. A build
# writes that of its own level, and 3 again when it ends, by itself or by a signal. aarch64 has the 2 of x86-64-v2: its
# vectors have four words, and it has a shuffle of bytes.

# write_level LEVEL CRATES: writes the number of the level into the folder of crates, if another stands there
write_level() {
    case $1 in x86-64) number=1 ;; aarch64) number=2 ;; *) number=${1#x86-64-v} ;; esac
    grep -qx "    $number" "$2/words/src/levels.rt" || sed -i "s/^    [123]\$/    $number/" "$2/words/src/levels.rt"
}

# for_level LEVEL CRATES: what is built there until the script ends is for the level
for_level() {
    crates=$2
    trap 'write_level x86-64-v3 "$crates"' EXIT
    trap 'exit 2' HUP INT TERM
    write_level "$1" "$crates"
}
