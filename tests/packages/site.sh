# shellcheck shell=sh disable=SC2154
# What tests/packages/site and tests/packages/check_site share; tests/harness.sh and tools/installed.sh come before it.
# The folder that is served is $work/www, and its address SITE.

# serve: serves $work/www, which need not be there yet, until the script ends
serve() {
    python3 -u -m http.server 0 --bind 127.0.0.1 --directory "$work/www" > "$work/server" 2>&1 &
    server=$!
    trap 'kill $server; gpgconf --kill gpg-agent; rm -rf "$work"' EXIT
    trap 'exit 2' HUP INT TERM
    for _ in $(seq 100); do
        port=$(sed -n 's/^Serving HTTP on .* port \([0-9]*\) .*/\1/p' "$work/server" 2> /dev/null)
        [ -z "$port" ] || break
        sleep 0.1
    done
    SITE=http://127.0.0.1:$port SITE_CONTACT=faults@localhost
    export SITE SITE_CONTACT
}

# make_key: a key of gpg that signs, older than what it is for
make_key() {
    GNUPGHOME=$work/gnupg SITE_KEY='A test <sums@localhost>'
    export GNUPGHOME SITE_KEY
    mkdir -m 700 "$GNUPGHOME"
    gpg --batch --quiet --faked-system-time 20200101T000000! --passphrase '' --quick-generate-key "$SITE_KEY" ed25519 \
        sign never 2> "$work/said"
}

# with_version VERSION DEB FOLDER: writes there the package with another version, and so a dependency on it
with_version() {
    rm -rf "$work/unpacked"
    dpkg-deb -R "$2" "$work/unpacked"
    sed -i "s/^\(Version: \).*/\1$1/; /^Depends: /s/= $version/= $1/g; /^Depends: /s/>= $version/>= $1/g" \
        "$work/unpacked/DEBIAN/control"
    dpkg-deb --root-owner-group -b "$work/unpacked" "$3" > /dev/null
}

# lists FOLDER: the lists of digests of packages that stand there
lists() {
    (cd "$1" && rm -f SHA256SUMS B3SUMS && sha256sum -- * > "$work/listed" && "$program" hash -a blake3 -- * > B3SUMS &&
        mv "$work/listed" SHA256SUMS)
}

# block NAME: the lines that the first page has under this name
block() {
    "$here/site_pages.py" block "$work/www/index.html" "$1"
}
