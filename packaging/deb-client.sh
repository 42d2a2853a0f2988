#!/bin/sh
# Makes the package kovelamiru-deskctl_VERSION_all.deb of client/ and python/, in the working folder
# or the named one, and prints its path: deb-client.sh [OUT]. The page and the completions are those
# of client/pages.py. Its version must be the newest in CHANGELOG.md. The same tree and
# SOURCE_DATE_EPOCH (by default the commit's date) give the same bytes. It needs dpkg-deb, git, gzip
# and python3.
set -eu
here=$(dirname -- "$(readlink -f -- "$0")")
name=kovelamiru-deskctl
. "$here/deb-common.sh"

if [ $# -gt 1 ]; then fail 'deb-client.sh [OUT]'; fi
out=$(readlink -f -- "${1-.}")
wants dpkg-deb git gzip python3
commit=$(git -C "$root" describe --always --dirty --abbrev=40 --exclude='*')
versioned deskctl "$(sed -n 's/^VERSION = "\(.*\)"$/\1/p' "$root/python/kovelamiru/__init__.py")" "$commit"

# ---- the files

# (but for what other programs alone take)
launched "$root/client/deskctl" ! -path '*/publish/*' ! -name checkpoints.py ! -name fetch.py \
    ! -name programs.py ! -name reader.py ! -name standby.py ! -name shim.py
for file in "$root"/page/wire/*.json; do
    place 644 "$file" "usr/lib/$name/kovelamiru/wire/${file##*/}"
done
python3 "$root/client/pages.py" "$room"
packed "$room/deskctl.1"
place 644 "$room/deskctl.1.gz" usr/share/man/man1/deskctl.1.gz
place 644 "$room/deskctl.bash" usr/share/bash-completion/completions/deskctl
place 644 "$room/_deskctl" usr/share/zsh/vendor-completions/_deskctl
place 644 "$room/deskctl.fish" usr/share/fish/vendor_completions.d/deskctl.fish
sed -f "$root/packaging/links.sed" "$root/client/README.md" > "$room/README.md"
place 644 "$room/README.md" "usr/share/doc/$name/README.md"
for unit in service timer; do
    unit=deskctl-watch.$unit
    place 644 "$root/client/watch/$unit" "usr/share/doc/$name/examples/$unit"
done

documented < /dev/null
printf 'Commit %s.\n\ndeskctl is not proved. README.md and deskctl(1) say how to use it.\n' \
    "$commit" > "$room/README.Debian"
place 644 "$room/README.Debian" "usr/share/doc/$name/README.Debian"

# ---- the package

built all << CONTROL
Depends: python3 (>= 3.9)
Suggests: kovelamiru-desk, bash-completion, sbsigntool
Section: admin
Priority: optional
Description: Secure Boot signing and revocation desk, from a terminal
 deskctl asks a Kovelamiru desk over HTTP, for packagers, reviewers, signing
 machines, officers and build systems. It makes each command once, whatever
 answer is lost, reads the revocations that others publish, and asks before
 what can't be taken back.
 .
 It decides nothing and isn't proved: the desk is.
CONTROL
