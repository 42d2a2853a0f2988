# What deb.sh and deb-client.sh share: `name` is the package's, `here` this folder, `root` the tree.
umask 022
export LC_ALL=C TZ=UTC
root=$(dirname -- "$here")

fail() {
    echo "packaging/${0##*/}: $*" >&2
    exit 1
}
# wants TOOL..: they are installed.
wants() {
    for tool in "$@"; do command -v "$tool" > /dev/null || fail "$tool is needed"; done
}
# versioned WHAT VERSION COMMIT: the version must be the newest in CHANGELOG.md. The package's has the
# commit's time and hash, and is lower than the one without.
versioned() {
    newest=$(sed -n '/^## /{s/^## \([^ ,]*\).*/\1/p;q}' "$root/CHANGELOG.md")
    [ "$2" = "$newest" ] || fail "$1 has version $2, and CHANGELOG.md $newest"
    committed=$(git -C "$root" log -1 --format=%ct)
    version=$2~git$(date -d "@$committed" +%Y%m%d%H%M%S).$(echo "$3" | cut -c1-8)
    SOURCE_DATE_EPOCH=${SOURCE_DATE_EPOCH:-$committed}
    export SOURCE_DATE_EPOCH
    maintainer=$(git -C "$root" log -1 --format='%an <%ae>')
}
# place MODE FROM TO: a file of the package.
place() { install -D -m "$1" "$2" "$tree/$3"; }
# launched TOOL WORD..: the launcher, and the modules of python/ that find takes by these words, which
# it finds by the path of the link.
launched() {
    place 755 "$1" "usr/lib/$name/${1##*/}"
    mkdir -p "$tree/usr/bin"
    ln -s "../lib/$name/${1##*/}" "$tree/usr/bin/${1##*/}"
    shift
    (cd "$root/python" && find kovelamiru -name '*.py' "$@") > "$room/modules"
    while read -r module; do
        place 644 "$root/python/$module" "usr/lib/$name/$module"
    done < "$room/modules"
}
# packed FILE: the same bytes each time.
packed() { gzip -9n "$1"; }
# documented: the changes, and the copyright according to the repository: a licence, or that there is
# none; what is given goes below it.
documented() {
    cp "$root/CHANGELOG.md" "$room/CHANGELOG.md"
    {
        printf '%s (%s) unstable; urgency=medium\n\n' "$name" "$version"
        printf '  * CHANGELOG.md.gz has the changes.\n\n'
        printf ' -- %s  %s\n' "$maintainer" \
            "$(date -d "@$SOURCE_DATE_EPOCH" '+%a, %d %b %Y %H:%M:%S +0000')"
    } > "$room/changelog"
    for text in CHANGELOG.md changelog; do
        packed "$room/$text"
        place 644 "$room/$text.gz" "usr/share/doc/$name/$text.gz"
    done
    {
        printf 'Kovelamiru, a Secure Boot signing and revocation desk. Copyright: its owner, %s.\n\n' \
            "$(date -d "@$SOURCE_DATE_EPOCH" +%Y)"
        if [ -e "$root/LICENSE" ]; then
            cat "$root/LICENSE"
        else
            grep 'no LICENSE file' "$root/CONTRIBUTING.md" || fail 'CONTRIBUTING.md says nothing of a licence'
            printf 'So this package is for those whom the owner lets have it, and is not to be '
            printf 'passed on before a licence is named.\n'
        fi
        cat
    } > "$room/copyright"
    place 644 "$room/copyright" "usr/share/doc/$name/copyright"
}
# built ARCHITECTURE: the package of the tree with these rows and this text of its control file.
built() {
    mkdir -p "$tree/DEBIAN"
    size=$(find "$tree" -type f ! -path '*/DEBIAN/*' -printf '%s\n' |
        awk '{ kib += int(($1 + 1023) / 1024) } END { print kib }')
    {
        printf 'Package: %s\nVersion: %s\nArchitecture: %s\n' "$name" "$version" "$1"
        printf 'Maintainer: %s\nInstalled-Size: %s\n' "$maintainer" "$size"
        cat
    } > "$tree/DEBIAN/control"
    (cd "$tree" && find . -path ./DEBIAN -prune -o -type f -printf '%P\n' | sort | xargs md5sum) \
        > "$room/md5sums"
    place 644 "$room/md5sums" DEBIAN/md5sums
    find "$tree" -exec touch -h -d "@$SOURCE_DATE_EPOCH" {} +
    deb=$out/${name}_${version}_$1.deb
    dpkg-deb --root-owner-group --threads-max=1 -Zxz --build "$tree" "$deb" > "$room/built"
    echo "$deb"
}

room=$(mktemp -d)
trap 'rm -rf "$room"' EXIT
trap 'exit 1' HUP INT TERM
tree=$room/tree
