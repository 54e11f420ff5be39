# shellcheck shell=sh
# What the scripts of bench share.
bench=$(cd "$(dirname "$0")" && pwd)

# kept NAME: makes the folder where data is kept and everything is built for the next time, and sets `folder` to it
kept() {
    folder=${TMPDIR:-/tmp}/sums-bench${1:+/$1}
    mkdir -p "$folder"
}

# ---- programs that are timed

# data_of_mib COUNT: so many MiB of random bytes in the file data, of the folder
data_of_mib() {
    if [ ! -f data ] || [ "$(wc -c < data)" != $(($1 << 20)) ]; then head -c $(($1 << 20)) /dev/urandom > data; fi
}

# takes NAME COMMAND..: one run, whose output goes to answer, as a line of milliseconds in the file times.txt
takes() {
    row=$1
    shift
    rm -f answer
    start=$(date +%s%N)
    "$@" > answer
    end=$(date +%s%N)
    echo "$row $(((end - start) / 1000000))" >> times.txt
}

# rounds DO: does it as often as ROUNDS says, 15 times where it does not
rounds() {
    for round in $(seq "${ROUNDS:-15}"); do
        echo "$0: round $round of ${ROUNDS:-15}" >&2
        "$1"
    done
}

# tabled WORD..: prints a table of the times, by the program of awk on standard input and best.awk
tabled() {
    awk "$@" -f "$bench/best.awk" -f - times.txt
    rm -f times.txt answer
}

# processor: its name
processor() {
    sed -n 's/^model name[^:]*: //p' /proc/cpuinfo | head -n 1
}

# ---- libraries that are timed in one process

# needs PACKAGE FILE: stops where there is no such file, and names the Debian package that has it.
needs() {
    if [ ! -e "$2" ]; then
        echo "$0: no $2: apt-get install $1" >&2
        exit 2
    fi
}

# tool NAME PACKAGE: the same of a command.
tool() {
    if ! command -v "$1" > /dev/null; then
        echo "$0: no $1: apt-get install $2" >&2
        exit 2
    fi
}

# each_level DO [LEVEL..]: does it with each level, x86-64-v2 and x86-64-v3 where none is named
each_level() {
    do=$1
    shift
    [ $# -gt 0 ] || set -- x86-64-v2 x86-64-v3
    machine
    for level in "$@"; do "$do" "$level"; done
}

# The crates of Debian.
registry=/usr/share/cargo/registry

# crates_of_blake2 LEVEL: builds blake2b_simd and blake2s_simd for it, as $folder/simd/target/release/libsimd.a
crates_of_blake2() {
    mkdir -p "$folder/simd/.cargo"
    cp -R "$bench/memory/simd/." "$folder/simd"
    printf '[source.crates-io]\nreplace-with = "debian"\n[source.debian]\ndirectory = "%s"\n' $registry \
        > "$folder/simd/.cargo/config.toml"
    (cd "$folder/simd" && RUSTFLAGS="-C target-cpu=$1" cargo build --quiet --release --offline)
}

# sources_of_blake3: sets `c` to the sources of the C library of BLAKE3
sources_of_blake3() {
    c=$(echo $registry/blake3-1*/c)
    needs librust-blake3-dev "$c"
}

# with_blake3 LEVEL COMMAND..: the compiler's command with the C library of BLAKE3, kept to the instructions of a level
with_blake3() {
    of_level=$1
    shift
    set -- "$@" -I"$c" -DBLAKE3_NO_AVX512 "$c/blake3_sse2_x86-64_unix.S" "$c/blake3_sse41_x86-64_unix.S" \
        "$c/blake3.c" "$c/blake3_dispatch.c" "$c/blake3_portable.c"
    case $of_level in
        x86-64-v2) "$@" -DBLAKE3_NO_AVX2 ;;
        x86-64-v3) "$@" "$c/blake3_avx2_x86-64_unix.S" ;;
        *)
            echo "$0: the C library of BLAKE3 can be kept to x86-64-v2 or x86-64-v3, not to $of_level" >&2
            exit 2
            ;;
    esac
}

# rt_for LEVEL: sets $rt to the rt by which tools/build builds for this level
rt_for() {
    . "$bench/../tools/kit.sh"
    work=$folder
    kit_for "$1" "$(dirname "$bench")"
}

# exports NAME FROM LEVEL CRATE..: proves those crates of the checkout FROM, and above them a static library whose
# source comes on standard input, all in a copy of their own; the library is then $folder/NAME-LEVEL.a. What is
# proved in FROM is not proved again.
exports() {
    copy=$folder/$1
    library=$folder/$1-$3.a
    from=$2
    level=$3
    shift 3
    mkdir -p "$copy/crates/exports/src"
    {
        echo "exports staticlib: $*"
        for crate in "$@"; do grep "^$crate:" "$from/crates.txt"; done
    } > "$copy/crates.txt"
    for crate in "$@"; do
        mkdir -p "$copy/crates/$crate"
        for part in src specs proofs out; do
            if [ -d "$from/crates/$crate/$part" ]; then
                rm -rf "$copy/crates/$crate/$part"
                cp -Rp "$from/crates/$crate/$part" "$copy/crates/$crate/$part"
            fi
        done
    done
    cat > "$copy/crates/exports/src/lib.rt"
    . "$bench/../tools/levels.sh"
    # another checkout may have no such file
    [ ! -e "$copy/crates/words/src/levels.rt" ] || write_level "$level" "$copy/crates"
    echo "$0: proving and building the library of $from for $level (at first some minutes)" >&2
    rt_for "$level"
    if ! (cd "$copy/crates/exports" && "$rt" lib --cpu="$level") > "$library.log" 2>&1; then
        cat "$library.log" >&2
        exit 1
    fi
    cp "$copy/crates/exports/out/libexports.a" "$library"
}

# The processor, by its numbers too, since processors of one name differ, and the day.
machine() {
    awk -F': *' -v day="$(date +%Y-%m-%d)" '
        /^model name/ { name = $2 } /^cpu family/ { family = $2 } /^model\t/ { model = $2 }
        /^stepping/ { print name " (family " family ", model " model ", stepping " $2 "), " day; exit }' /proc/cpuinfo
}
