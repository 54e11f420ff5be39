# shellcheck shell=sh
# What the shell scripts of tests share. They source it first: `here` is then their folder, `work` a new one that goes at
# the end, and cases are counted. With STOPS=1 in the environment a script ends at its first case that is wrong. POSIX
# functions have no variables of their own, so those of this file begin with `case_`.
set -u
here=$(cd "$(dirname "$0")" && pwd) || exit 1
work=$(mktemp -d) || exit 1
trap 'rm -rf "$work"' EXIT
passed=0 failed=0 missing=

# tell_usage: the script's usage, with the lines that go on with it, as a wrong call
tell_usage() {
    sed -n '/^# usage: /,/^[^#]/{ s/^# \(usage: .*\)/\1/p; s/^# \( .*\)/\1/p; }' "$0" >&2
    exit 2
}

# takes_program WORD..: sets `program` to the path in the first word; without one the script stops and tells its usage
takes_program() {
    [ $# -gt 0 ] || tell_usage
    program=$(realpath "$1")
    if [ ! -x "$program" ]; then
        echo "there is no $program"
        echo '0 passed, 1 failed'
        exit 1
    fi
}

# holds NAME COMMAND..: counts a case, whose command has to succeed; else what it said is shown
holds() {
    case_name=$1
    shift
    if "$@" > "$work/said" 2>&1; then
        passed=$((passed + 1))
    else
        failed=$((failed + 1))
        echo "$case_name: wrong"
        head -c 2000 "$work/said"
        if [ -n "${STOPS-}" ]; then finish; exit 1; fi
    fi
}

# equal NAME GOT WANTED: counts a case, whose two texts have to be the same
equal() {
    holds "$1" is_equal "$2" "$3"
}

is_equal() {
    printf 'got    %s\nwanted %s\n' "$1" "$2"
    [ "$1" = "$2" ]
}

# is_empty FILE: for `holds`; else its content is said
is_empty() {
    cat "$1"
    [ ! -s "$1" ]
}

# ends STATUS COMMAND..: for `holds`: the command ends with this status
ends() {
    case_status=$1
    shift
    "$@"
    case_got=$?
    echo "status $case_got, wanted $case_status"
    [ $case_got = "$case_status" ]
}

# prints NAME TEXT COMMAND..: counts a case, whose command has to succeed and print this on standard output
prints() {
    case_name=$1
    shift
    holds "$case_name" is_printed "$@"
}

is_printed() {
    case_wanted="status 0, $1"
    shift
    "$@" > "$work/printed"
    is_equal "status $?, $(cat "$work/printed")" "$case_wanted"
}

# answers NAME STATUS TEXT COMMAND..: counts a case, whose command has to end with this status and print this on both
# streams together
answers() {
    case_name=$1
    shift
    holds "$case_name" is_answered "$@"
}

is_answered() {
    case_wanted="status $1, $2"
    shift 2
    "$@" > "$work/printed" 2>&1
    is_equal "status $?, $(cat "$work/printed")" "$case_wanted"
}

# has TOOL WHAT: whether a command is installed; else it is told at the end that WHAT was not tried, and which package
# of Debian's has the command, if that is called otherwise
has() {
    command -v "$1" > /dev/null && return
    case $1 in
        aarch64-linux-gnu-gcc) case_package=gcc-aarch64-linux-gnu ;;
        abidiff) case_package=abigail-tools ;;
        dh) case_package=debhelper ;;
        go | gofmt) case_package=golang-go ;;
        man) case_package=man-db ;;
        musl-gcc) case_package=musl-tools ;;
        node) case_package=nodejs ;;
        objdump) case_package=binutils ;;
        qemu-aarch64-static) case_package=qemu-user-static ;;
        qemu-*) case_package=qemu-user ;;
        script) case_package=bsdutils ;;
        setpriv | unshare) case_package=util-linux ;;
        tsc) case_package=node-typescript ;;
        *) lacks "$1" "$2"; return ;;
    esac
    lacks "$1 (package $case_package)" "$2"
}

# lacks NAME WHAT: tells at the end that something is not installed
lacks() {
    missing="$missing$1 is not installed: $2
"
    return 1
}

# has_python WHAT: sets `python` to one that the extension of Python can be built with
has_python() {
    has python3 "$1" || return
    python=$(python3 -c 'import sys; print(sys.executable)')
    "$python" -c 'import setuptools, sysconfig; open(sysconfig.get_path("include") + "/Python.h").close()' \
        2> /dev/null || lacks 'python3-dev or python3-setuptools' "$1"
}

# make_files: the files of files.tsv, in this folder
make_files() {
    "$here/../tables.py" files
}

# hashes: the names of the hashes of hashes.tsv, a line each
hashes() {
    "$here/../tables.py" hashes
}

# text CELL: what a cell of a table stands for
text() {
    "$here/../tables.py" text "$1"
}

# make_trees: files whose Merkle trees have one leaf or some, short ones and leaves of zeros; $work/roots is what
# tests/merkle.py prints of them
make_trees() {
    mkdir "$work/trees"
    for case_size in 1 16383 16384 16385 49153 131072 1000000; do
        seq 1000000 | head -c $case_size > "$work/trees/$case_size"
    done
    "$here/../merkle.py" "$work/trees"/* > "$work/roots"
}

# each_tree COMMAND..: the command with each of those files
each_tree() {
    for case_file in "$work/trees"/*; do "$@" "$case_file" || return; done
}

# page_of LANGUAGE: the lines of code on the page of its package, but for those of a file of settings
page_of() {
    sed -n '/^    \(require\|replace\) /d; s/^    //p' "$here/../../bindings/$1/README.md"
}

# stand_in_sha2 FOLDER: files in the place of the kit's definitions of SHA-2, as tools/installed.sh names them
stand_in_sha2() (
    # shellcheck disable=SC2034 # sha2_files takes it
    sha2=$1
    sha2_files stand_in
)

stand_in() {
    mkdir -p "${2%/*}" && echo "of the kit, for $3" > "$2"
}

# adds_up FILE: adds up the cases of a script, whose output FILE has; whether all of them passed
adds_up() {
    case_last=$(tail -n 1 "$1")
    case $case_last in
        *[0-9]' passed, '[0-9]*' failed')
            passed=$((passed + ${case_last%% passed*}))
            case_last=${case_last#*, }
            case_last=${case_last%% failed*} ;;
        *) case_last=1 ;;
    esac
    failed=$((failed + case_last))
    [ "$case_last" = 0 ]
}

# finish: what was not tried, and the last line with its status
finish() {
    printf '%s' "$missing"
    echo "$passed passed, $failed failed"
    [ "$failed" = 0 ]
}
