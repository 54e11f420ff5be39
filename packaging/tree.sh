# shellcheck shell=sh disable=SC2154
# What tools/package and its checks share: the files of a release, of what was built for several levels of x86-64, or
# for aarch64, which has one. It runs at the top of the repository, after tools/installed.sh, whose names it takes.
# BUILT/LEVEL/sums and BUILT/LEVEL/libhash_c.a are there for each of $levels, which are named lowest first and are for
# $processor.

# launcher FILE LIBEXEC: the program that begins the build for this processor; LIBEXEC is where the builds are if they
# are not beside it, and empty where there is no such place
launcher() {
    # shellcheck disable=SC2086 # CC and the flags are words
    ${CC:-cc} -std=gnu11 ${CFLAGS:--O2 -fstack-protector-strong -fcf-protection -D_FORTIFY_SOURCE=2} -fPIE -pie \
        -ffile-prefix-map="$PWD"=. -DLIBEXEC="\"$2\"" -o "$1" packaging/launcher.c \
        ${LDFLAGS:--Wl,-z,relro,-z,now,-z,noexecstack} -Wl,--build-id=sha1
}

# program_builds BUILT ROOT PREFIX: the launcher, and the program for each level; where the processor has one, the
# program alone
program_builds() {
    mkdir -p "$2/bin"
    if [ "$levels" = aarch64 ]; then
        install -m 755 "$1/aarch64/sums" "$2/bin/sums"
        return
    fi
    launcher "$2/bin/sums" "${3:+$3/libexec/sums}"
    chmod 755 "$2/bin/sums"
    for level in $levels; do
        mkdir -p "$2/libexec/sums/$level"
        install -m 755 "$1/$level/sums" "$2/libexec/sums/$level/sums"
    done
}

# library_builds BUILT ROOT LIBDIR: the library for each level, the lowest in the usual place, the others where the
# loader looks first on a processor that has their level; and the archive
library_builds() {
    place=$2/$3
    for level in $levels; do
        mkdir -p "$place"
        shared "$1/$level/libhash_c.a" "$place/$soname" "$level"
        chmod 644 "$place/$soname"
        is_whole "$place/$soname" || refuse "the archive of $level has not the header's calls"
        place=$2/$3/glibc-hwcaps/$(above "$level")
    done
    archive "$1" "$2/$3/libsums_hash.a"
    ln -s "$soname" "$2/$3/libsums_hash.so"
}

# archive BUILT FILE: one archive of all levels
archive() {
    if [ "$levels" = aarch64 ]; then
        install -D -m 644 "$1/aarch64/libhash_c.a" "$2"
    else
        # shellcheck disable=SC2086 # a level has no space
        packaging/fat "$1" "$2" $levels
    fi
}

# provider_build ROOT PREFIX LIBDIR: the provider for OpenSSL, over the shared library that the loader takes; where
# ROOT may stand anywhere, it is found from the module's own folder
provider_build() {
    # shellcheck disable=SC2016 # $ORIGIN is the loader's
    case $2 in '') from='$ORIGIN/..' ;; *) from= ;; esac
    provider "$1/$3/$soname" "$1/$3/ossl-modules/sums.so" "$from" "$processor"
    chmod 644 "$1/$3/ossl-modules/sums.so"
}

# above LEVEL: the next one of $levels
above() {
    echo "$levels" | tr ' ' '\n' | sed -n "/^$1\$/{ n; p; }"
}

# is_whole LIBRARY: whether a shared library has the calls that the header declares
is_whole() {
    [ "$(nm --quiet --dynamic --defined-only "$1" | sed -n 's/.* T \(.*\)@@.*/\1/p' | sort)" = "$(functions | sort)" ]
}

# tree BUILT ROOT PREFIX LIBDIR ZSH: all files of a release in the folder ROOT, which is to stand at PREFIX, or anywhere
# where that is empty; LIBDIR is the folder of libraries below it, ZSH that of zsh's completions. These are made by what
# $sums says, one of the programs that runs here.
tree() {
    root=$2
    program_builds "$1" "$root" "$3"
    library_builds "$1" "$root" "$4"
    provider_build "$root" "$3" "$4"
    completions=$work/completion
    tools/completions.py "$sums" "$completions"
    prefix=${3:-\${pcfiledir\}/../..} libdir=$4
    program_texts put "$5"
    documents put
    library_texts put "$libdir"
    provider_text put
}

# put MODE FILE PLACE
put() {
    mkdir -p "$root/${3%/*}"
    case $1 in
        link) ln -s "$2" "$root/$3" ;;
        text) text_for "$3" "$prefix" "$libdir" > "$root/$3" ;;
        *) install -m "$1" "$2" "$root/$3" ;;
    esac
}
