# shellcheck shell=sh
# What tools/build, tools/install, tools/uninstall, tools/package and the checks share: the version, the C library's
# files, and where each file of an installation goes. They run at the top of the repository.
#
# CC, CC_AARCH64, CFLAGS and LDFLAGS are taken from the environment. LIBDIR is the folder of libraries below the prefix,
# lib if it is not set; one that begins with the prefix is fine.

version=$(cat VERSION)
# What would break a program that is linked already changes the first number, and so the name that it asks for.
soname=libsums_hash.so.${version%%.*}
# The folder of the completions, which tools/completions.py makes.
completions=completion
# The folder of the kit's definitions of SHA-2, which tools/build copies.
sha2=kit/sha2
# The provider for OpenSSL, if tools/build lib has made it.
provider_module=lib/ossl-modules/sums.so

# processor_of LEVEL: the processor that a build of this level is for, as `uname -m` names it
processor_of() {
    case $1 in aarch64) echo aarch64 ;; *) echo x86_64 ;; esac
}

# compiler_for PROCESSOR: the C compiler: CC, or for aarch64 on another machine a cross compiler, which CC_AARCH64 may name
compiler_for() {
    if [ "$1" != aarch64 ] || [ "$(uname -m)" = aarch64 ]; then
        echo "${CC:-cc}"
    else
        echo "${CC_AARCH64:-aarch64-linux-gnu-gcc}"
    fi
}

# make_runnable PROGRAM FILE: writes FILE, a script by which this machine runs a program for aarch64; whether it can
make_runnable() {
    emulator=
    if [ "$(uname -m)" != aarch64 ]; then
        emulator='qemu-aarch64 -L /usr/aarch64-linux-gnu'
        command -v qemu-aarch64 > /dev/null || return
    fi
    printf '#!/bin/sh\nexec %s "%s" "$@"\n' "$emulator" "$(realpath "$1")" > "$2"
    chmod 755 "$2"
}

# refuse TEXT: ends with a fault of the words
refuse() {
    echo "$0: $1" >&2
    exit 2
}

# is_folder PATH: whether a folder stands there, and no link to one
is_folder() {
    [ -d "$1" ] && [ ! -L "$1" ]
}

# pkgconfig PREFIX LIBDIR INCLUDEDIR LIBS: the text of the library's pkg-config file, in which each blank, quote,
# backslash and # of a path has a backslash before it
pkgconfig() {
    cat <<END
prefix=$(escaped "$1")
libdir=$(escaped "$2")
includedir=$(escaped "$3")

Name: sums_hash
Description: BLAKE2, BLAKE3, SHA-2, HMAC and HKDF, proved against their definitions
Version: $version
Cflags: -I\${includedir}
Libs: $4
END
}

escaped() {
    printf '%s\n' "$1" | sed 's/[[:blank:]"'\''\\#]/\\&/g'
}

# cmake_config LIBDIR: the text by which CMake finds the library, which stands in LIBDIR/cmake/sums_hash
cmake_config() {
    cat <<END
# find_package(sums_hash): the targets are sums_hash::sums_hash, the shared library, and sums_hash::sums_hash_static.
# They are found from the place of this file, so that the whole installation can be moved.
if(TARGET sums_hash::sums_hash)
    return()
endif()
get_filename_component(_sums_hash_libdir "\${CMAKE_CURRENT_LIST_DIR}/../.." REALPATH)
get_filename_component(_sums_hash_prefix "\${_sums_hash_libdir}/$(echo "$1" | sed 's/[^/][^/]*/../g')" ABSOLUTE)
add_library(sums_hash::sums_hash SHARED IMPORTED)
set_target_properties(sums_hash::sums_hash PROPERTIES
    IMPORTED_LOCATION "\${_sums_hash_libdir}/$soname"
    IMPORTED_SONAME $soname
    INTERFACE_INCLUDE_DIRECTORIES "\${_sums_hash_prefix}/include")
add_library(sums_hash::sums_hash_static STATIC IMPORTED)
set_target_properties(sums_hash::sums_hash_static PROPERTIES
    IMPORTED_LOCATION "\${_sums_hash_libdir}/libsums_hash.a"
    IMPORTED_LINK_INTERFACE_LANGUAGES C
    INTERFACE_INCLUDE_DIRECTORIES "\${_sums_hash_prefix}/include")
unset(_sums_hash_libdir)
unset(_sums_hash_prefix)
END
}

# cmake_version: the text by which CMake knows whether the version is one that was asked for
cmake_version() {
    cat <<END
set(PACKAGE_VERSION $version)
if(CMAKE_SIZEOF_VOID_P AND NOT CMAKE_SIZEOF_VOID_P EQUAL 8)
    set(PACKAGE_VERSION_UNSUITABLE TRUE)
endif()
if(PACKAGE_FIND_VERSION_MAJOR EQUAL ${version%%.*} AND NOT PACKAGE_FIND_VERSION VERSION_GREATER PACKAGE_VERSION)
    set(PACKAGE_VERSION_COMPATIBLE TRUE)
endif()
if(PACKAGE_FIND_VERSION VERSION_EQUAL PACKAGE_VERSION)
    set(PACKAGE_VERSION_EXACT TRUE)
endif()
END
}

# text_for PLACE PREFIX LIBDIR: what stands in a file that is written for an installation at PREFIX
text_for() {
    case $1 in
        *.pc) pkgconfig "$2" "\${prefix}/$3" "\${prefix}/include" "-L\${libdir} -lsums_hash" ;;
        *-config.cmake) cmake_config "$3" ;;
        *-version.cmake) cmake_version ;;
    esac
}

# shared ARCHIVE FILE [LEVEL]: the archive as a shared library. If LEVEL is named, the loader refuses it on a
# processor below, which would else end the program by a signal. No file of the C compiler's own goes in, since the
# library has nothing to do at its beginning and end: its bytes depend on the archive and the linker alone.
shared() {
    case ${3-} in
        '' | aarch64) needed= ;;
        x86-64) needed=,-z,x86-64-baseline ;;
        *) needed=,-z,$3 ;;
    esac
    # shellcheck disable=SC2086 # CC and the flags are words
    $(compiler_for "$(processor_of "${3-}")") ${CFLAGS-} -shared -nostartfiles -o "$2" -Wl,-soname,"$soname" \
        -Wl,--version-script=bindings/c/sums_hash.map -Wl,--build-id=sha1,--hash-style=gnu \
        -Wl,-z,text,-z,defs,-z,relro,-z,now,-z,noexecstack"$needed" ${LDFLAGS-} \
        -Wl,--whole-archive "$1" -Wl,--no-whole-archive
}

# library ARCHIVE FOLDER [LEVEL]: the archive as a library of C, with its shared form, header and pkg-config file. A
# program that is linked by this pkg-config file takes the archive, and so runs wherever it is.
library() {
    mkdir -p "$2"
    cp "$1" "$2/libsums_hash.a"
    shared "$2/libsums_hash.a" "$2/$soname" "${3-}"
    ln -sf "$soname" "$2/libsums_hash.so"
    cp bindings/c/sums_hash.h "$2"
    pkgconfig "\${pcfiledir}" "\${prefix}" "\${prefix}" "\${libdir}/libsums_hash.a" > "$2/sums_hash.pc"
}

# compile_with_openssl PROCESSOR WORD..: the C compiler for this processor, with the headers of OpenSSL. Debian keeps
# two of them apart for each processor. If another's are not installed, this machine's are taken: they say the same
# to the provider, which tests/packages/check_arm64 tries.
compile_with_openssl() {
    openssl_compiler=$(compiler_for "$1")
    [ "$1" = "$(uname -m)" ] || openssl_compiler="$openssl_compiler -idirafter /usr/include/$(uname -m)-linux-gnu"
    shift
    # shellcheck disable=SC2086 # the compiler and its flags are words
    $openssl_compiler "$@"
}

# has_openssl PROCESSOR: whether the C compiler for it finds the headers of OpenSSL 3, which the provider is built with
has_openssl() {
    # shellcheck disable=SC2086 # the flags are words
    echo '#include <openssl/core_dispatch.h>' |
        compile_with_openssl "$1" ${CFLAGS-} -E - > /dev/null 2>&1
}

# provider LIBRARY FILE [FOLDER [PROCESSOR]]: the provider for OpenSSL, a module over the shared library LIBRARY, which
# the loader looks for in FOLDER first. It links nothing of OpenSSL.
provider() {
    mkdir -p "$(dirname "$2")"
    # shellcheck disable=SC2086 # the flags are words
    compile_with_openssl "${4:-$(uname -m)}" -std=gnu11 \
        ${CFLAGS:--O2 -fstack-protector-strong -D_FORTIFY_SOURCE=2} -fPIC -shared -fvisibility=hidden \
        -ffile-prefix-map="$PWD"=. -Ibindings/c -o "$2" bindings/openssl/sums.c "$1" \
        ${LDFLAGS:--Wl,-z,relro,-z,now,-z,noexecstack} -Wl,-z,defs,--as-needed,--build-id=sha1 ${3:+-Wl,-rpath,"$3"}
}

# functions: the names that the header declares, one a line
functions() {
    sed -n 's/^\(uint32_t\|size_t\|void\) \(sums_[a-z0-9_]*\)(.*/\2/p' bindings/c/sums_hash.h
}

# Each of the next nine calls DO MODE FILE PLACE for each file that belongs to it, DO link TARGET PLACE for each link,
# and DO text - PLACE for each file that text_for writes. PLACE is below the prefix. `built_in` is the folder with the
# bin/ and lib/ that tools/build has made, as aarch64/, and empty if they stand here.
built_in=

# program_texts DO [ZSH]: the program's manual pages and completions; ZSH is the folder for those of zsh
program_texts() {
    for page in sums sums-hash sums-mac sums-kdf sums-check sums-part sums-join; do
        "$1" 644 "man/$page.1" "share/man/man1/$page.1"
    done
    "$1" 644 "$completions/sums.bash" share/bash-completion/completions/sums
    "$1" 644 "$completions/_sums" "${2:-share/zsh/site-functions}/_sums"
    "$1" 644 "$completions/sums.fish" share/fish/vendor_completions.d/sums.fish
}

# parallel_files DO [ZSH]: sums-parallel, which stands beside the program, with what begins its runs, its manual page and
# completions
parallel_files() {
    "$1" 755 scripts/sums-parallel bin/sums-parallel
    "$1" 755 scripts/sums-shares libexec/sums-shares
    "$1" 644 man/sums-parallel.1 share/man/man1/sums-parallel.1
    "$1" 644 "$completions/sums-parallel.bash" share/bash-completion/completions/sums-parallel
    "$1" 644 "$completions/_sums-parallel" "${2:-share/zsh/site-functions}/_sums-parallel"
    "$1" 644 "$completions/sums-parallel.fish" share/fish/vendor_completions.d/sums-parallel.fish
}

# documents DO: the pages with all that they link, each in the folder that it has here, so that links hold there too:
# the definitions that a reader of the proofs has to believe, the kit's of SHA-2 among them, and the sources with the
# contracts that docs/PROOFS.md names and with the lines that ask the system
documents() {
    for document in README.md CHANGELOG.md LICENSE-MIT LICENSE-APACHE THIRD-PARTY docs/*.md docs/*.svg bindings/*/README.md \
        web/README.md web/*.png bindings/openssl/configuration bindings/c/sums_hash.h crates/*/CALLING.md \
        packaging/aarch64.c $(grep -o 'crates/[a-z0-9_]*/src/[a-z0-9_/]*\.rt' docs/PROOFS.md | sort -u) \
        $(find crates/*/specs -type f); do
        "$1" 644 "$document" "share/doc/sums/$document"
    done
    sha2_files "$1"
}

# sha2_files DO: the kit's definitions of SHA-2, which those of this repository cite, with the licences they are under
sha2_files() {
    for document in LICENSE-MIT LICENSE-APACHE specs/Lib.antt specs/Sha256.antt specs/Sha512.antt specs/Hashers.antt; do
        "$1" 644 "$sha2/${document%.antt}" "share/doc/sums/crates/sha2/$document"
    done
}

# take_sha2: copies them from the kit into $sha2; without .antt at the end, since rt ci refuses a file of that name that
# it does not check
take_sha2() {
    of_kit=$(dirname "$(dirname "$(realpath "$(command -v rt)")")")/rattle/sha2
    sha2_files take_file
}

take_file() {
    install -D -m "$1" "$of_kit/${3#share/doc/sums/crates/sha2/}" "$2"
}

# library_texts DO [LIBDIR]: what a caller of the C library and his tools read
library_texts() {
    "$1" 644 bindings/c/sums_hash.h include/sums_hash.h
    "$1" text - "${2:-lib}/pkgconfig/sums_hash.pc"
    "$1" text - "${2:-lib}/cmake/sums_hash/sums_hash-config.cmake"
    "$1" text - "${2:-lib}/cmake/sums_hash/sums_hash-config-version.cmake"
    "$1" 644 man/sums_hash.3 share/man/man3/sums_hash.3
    for function in $(functions); do "$1" link sums_hash.3 "share/man/man3/$function.3"; done
}

# library_files DO [LIBDIR]: the C library
library_files() {
    "$1" 644 "${built_in}lib/libsums_hash.a" "${2:-lib}/libsums_hash.a"
    "$1" 755 "${built_in}lib/$soname" "${2:-lib}/$soname"
    "$1" link "$soname" "${2:-lib}/libsums_hash.so"
    library_texts "$1" "${2-}"
}

# provider_text DO: what a user of the provider for OpenSSL reads
provider_text() {
    "$1" 644 man/OSSL_PROVIDER-sums.7 share/man/man7/OSSL_PROVIDER-sums.7
}

# provider_files DO [LIBDIR]: the provider for OpenSSL
provider_files() {
    "$1" 644 "$built_in$provider_module" "${2:-lib}/ossl-modules/sums.so"
    provider_text "$1"
}

# program_files DO: the program, sums-parallel and the documents
program_files() {
    "$1" 755 "${built_in}bin/sums" bin/sums
    program_texts "$1"
    parallel_files "$1"
    documents "$1"
}

# each_file DO [LIBDIR]: all of an installation
each_file() {
    program_files "$1"
    library_files "$1" "${2-}"
    provider_files "$1" "${2-}"
}

# root PREFIX: the folder that an installation goes into
root() {
    case $1:${DESTDIR:-/} in
        /*:/*) printf '%s\n' "${DESTDIR-}${1%/}" ;;
        /*) refuse "DESTDIR has to begin with /: $DESTDIR" ;;
        *) refuse "PREFIX has to begin with /: $1" ;;
    esac
}

# library_folder PREFIX: the folder of libraries, below the prefix
library_folder() {
    folder=${LIBDIR:-lib}
    folder=${folder#"${1%/}/"}
    case /$folder/ in
        //*) refuse "LIBDIR is not below $1: $LIBDIR" ;;
        */../*) refuse "LIBDIR may have no ..: $LIBDIR" ;;
    esac
    printf '%s\n' "${folder%/}"
}

# refresh_loader: as root, lets the loader find a shared library that was added or removed
refresh_loader() {
    if [ -z "${DESTDIR-}" ] && [ "$(id -u)" = 0 ] && command -v ldconfig > /dev/null; then ldconfig; fi
}
