#!/bin/sh
# Makes the package kovelamiru-desk_VERSION_amd64.deb of a proved program, in the working folder or
# the named one, and prints its path: deb.sh PROGRAM [OUT]. The program goes in unchanged. Beside it
# stands the record that it was proved (packaging/record), of this commit and no edited tree; else,
# and of a trial program, there is no package. VERSION is the program's own, which must be the
# newest in CHANGELOG.md, with the commit's time and hash. The same program, tree and
# SOURCE_DATE_EPOCH (by default the commit's date) give the same bytes. It needs dpkg-dev, git, gzip
# and python3.
set -eu
here=$(dirname -- "$(readlink -f -- "$0")")
name=kovelamiru-desk
. "$here/deb-common.sh"

if [ $# -lt 1 ] || [ $# -gt 2 ]; then fail 'deb.sh PROGRAM [OUT]'; fi
program=$(readlink -f -- "$1") || fail "there is no $1"
out=$(readlink -f -- "${2-.}")
wants dpkg-deb dpkg-shlibdeps git gzip python3
# An executable for x86-64 that asks for the loader of every Debian system.
readelf -hl "$program" 2> /dev/null > /dev/null || fail "$program is no program"
readelf -h "$program" | grep -q 'Machine: .*X86-64' || fail "$program is for another machine"
readelf -l "$program" | grep -q 'interpreter: /lib64/ld-linux-x86-64.so.2' ||
    fail "$program asks for a loader of its own"


record=$("$here/record" read "$program")
# record_value KEY: prints it.
record_value() { echo "$record" | sed -n "s/^$1 //p"; }
commit=$(record_value commit)
# As `desk 0.2.0`.
versioned 'the program' "$("$program" --version | sed -n 's/^desk \([^ ]*\).*/\1/p')" "$commit"

# ---- the files

place 755 "$program" usr/bin/desk
for unit in desk.service publish.service publish.timer standby.service standby.timer mirror.service mirror.timer; do
    place 644 "$here/kovelamiru-$unit" "usr/lib/systemd/system/kovelamiru-$unit"
done
place 644 "$here/10-sandbox.conf" usr/lib/systemd/system/kovelamiru-.service.d/10-sandbox.conf
place 644 "$here/kovelamiru-desk.sysusers" usr/lib/sysusers.d/kovelamiru-desk.conf
place 644 "$here/desk.bash" usr/share/bash-completion/completions/desk
place 644 "$here/desk.nft" "usr/share/doc/$name/examples/desk.nft"
for site in "$here"/nginx*.conf; do
    case ${site##*/} in
        # (the part that the sites include)
        nginx-desk.conf) place 644 "$site" "usr/share/$name/nginx-desk.conf" ;;
        *) place 644 "$site" "usr/share/doc/$name/examples/${site##*/}" ;;
    esac
done
for runbook in "$here"/runbooks/*.md; do
    place 644 "$runbook" "usr/share/doc/$name/runbooks/${runbook##*/}"
done
for file in "$here"/cluster/*; do
    place 644 "$file" "usr/share/doc/$name/cluster/${file##*/}"
done
for page in AUDIT INTEROPERATION TOOLS WALKTHROUGH; do
    sed -f "$here/links.sed" "$root/docs/$page.md" > "$room/$page.md"
    place 644 "$room/$page.md" "usr/share/doc/$name/$page.md"
done
for tool in desk-publish desk-standby kovelamiru-mirror; do
    launched "$here/$tool" ! -path '*/deskctl/*'
done
ln -s "../../../share/$name/page/wire" "$tree/usr/lib/$name/kovelamiru/wire"
place 644 "$here/lintian-overrides" "usr/share/lintian/overrides/$name"
# The page (its .json files are for editors, tsc and node), and the data that it reads.
find "$root/page" -type f ! -name "*.json" ! -path "*/wire/*" -printf '%P\n' | while read -r file; do
    place 644 "$root/page/$file" "usr/share/$name/page/$file"
done
for file in "$root"/page/wire/*.json; do place 644 "$file" "usr/share/$name/page/wire/${file##*/}"; done
# The demo and the files that it takes, each at its place in the repository.
demo=usr/lib/$name/demo
for file in "$here"/nginx*.conf "$root/checks/common.sh" "$root/checks/support/ports.py" \
    "$root/examples/signed.efi" "$root/examples/tiny.efi" "$root/examples/certificate.der"; do
    place 644 "$file" "$demo/${file#"$root/"}"
done
place 755 "$here/demo.sh" "$demo/packaging/demo.sh"
ln -s ../../../bin/desk "$tree/$demo/desk"
ln -s "../../../share/$name/page" "$tree/$demo/page"
ln -s "../lib/$name/demo/packaging/demo.sh" "$tree/usr/bin/desk-demo"

python3 "$here/man.py" "$program" "$(date -d "@$SOURCE_DATE_EPOCH" +%F)" "$room"
for page in desk.1 desk-http.7 desk-operate.7 desk-demo.1 desk-publish.1 desk-standby.1 kovelamiru-mirror.1; do
    packed "$room/$page"
    place 644 "$room/$page.gz" "usr/share/man/man${page##*.}/$page.gz"
done

documented << KIT

The program was built by the Rattle kit ($(record_value kit)), whose libraries are part of it.
KIT
cat > "$room/README.Debian" << README
Whoever made this package says that \`$(record_value by)\` proved and built /usr/bin/desk from this
commit, without an edit, and that rt said of it last what stands here. No signature, and nothing in
the package, shows that this is true.

commit   $commit
kit      $(record_value kit)
sources  $(record_value sources) (their sum, by \`./prove --sources desk\`)
SHA-256  $(record_value program)
rt said  $(record_value rt)

To see it for yourself, prove and build the program again, with that kit, in a clone of the
repository; both sums should be that SHA-256:

    git checkout $commit
    ./prove desk
    sha256sum crates/desk/out/desk /usr/bin/desk

No desk is made, and nothing is started, by the installation. desk-operate(7) says how to make one,
how to let it serve, how to copy it, and what an older copy means. Neither remove nor purge takes
/var/lib/kovelamiru-desk away.
README
place 644 "$room/README.Debian" "usr/share/doc/$name/README.Debian"

# ---- the package

# The program's dependencies, by the libraries that it names and the versions of their symbols.
mkdir "$room/debian" "$tree/DEBIAN"
printf 'Source: %s\n\nPackage: %s\nArchitecture: amd64\n' "$name" "$name" > "$room/debian/control"
needs=$(cd "$room" && dpkg-shlibdeps -O -e"$tree/usr/bin/desk" 2> needs.err |
    sed -n 's/^shlibs:Depends=//p') || fail "$(cat "$room/needs.err")"
[ -n "$needs" ] || fail "no libraries are found: $(cat "$room/needs.err")"
for script in preinst postinst prerm postrm; do
    place 755 "$here/$script" "DEBIAN/$script"
done
built amd64 << CONTROL
Depends: $needs, systemd | systemd-standalone-sysusers | systemd-sysusers
Recommends: python3 (>= 3.9)
Suggests: nginx, curl, nftables, efitools, kovelamiru-deskctl, bash-completion
Section: admin
Priority: optional
Description: Secure Boot signing and revocation desk
 For the people of a distribution who decide which boot images get a
 signature and which are revoked. The desk keeps requests, reviews, what is
 listed (db) and what is revoked (dbx, SBAT level) in one file, takes calls
 over HTTP and on the command line, reads EFI images, gives verdicts and
 exports the bytes. One officer proposes a revocation, another one confirms
 it; a listing takes one officer. The desk neither makes nor checks
 signatures, and keeps no image.
 .
 That acknowledged commands are never lost is proved.
CONTROL
