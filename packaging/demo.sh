#!/bin/sh
# A desk to look at, in a browser: demo.sh [PROGRAM [FOLDER]], or desk-demo where the package is
# installed. It makes a desk in a new folder (people of each role, requests in every state, two open
# proposals, images of examples/), serves it behind nginx without TLS on loopback, and prints the
# address, a token for each person, and which program this is: by itself the one that ./desk runs, or
# that of the package. Ctrl-C ends both; a folder that wasn't named is then removed. The site is
# packaging/nginx.conf without its TLS and with ports that are free. It needs curl, nginx and python3.
# Not for work: whoever can read the folder has the tokens.
set -eu
umask 077
PATH=$PATH:/usr/sbin:/sbin
. "$(dirname -- "$(readlink -f -- "$0")")/../checks/common.sh"
needs curl nginx python3
# (the package has a link to its program in the place of ./desk)
if [ $# -eq 0 ] && [ -L "$root/desk" ]; then set -- "$root/desk"; fi
find_program "$@"
trap 'exit 0' INT
if [ $# -gt 1 ]; then
    mkdir -- "$2"
    cd -- "$2"
else
    enter_room
fi
folder=$(pwd -P)
day=$(date -u +%Y%m%d)
people='ann/submitter rita/reviewer raul/reviewer rosa/reviewer sid/signer olga/officer otto/officer'

# ---- the desk and its people

"$program" init desk.db 00112233-4455-6677-8899-aabbccddeeff
for person in $people; do
    name=${person%/*}
    od -An -N16 -tx1 /dev/urandom | tr -d ' \n' > "$name.token"
    printf 'Desk-Token: %s\n' "$(cat "$name.token")" > "$name.field"
    "$program" person desk.db "$name" "${person#*/}" "demo-$name" < "$name.token" > added
done

hold 3
port=${ports%% *}
others=${ports#* }
serve desk.db 1000000 0

# ---- what happened at it so far

key=0
# as NAME PATH BODY [CURL-WORD..]: this person's command, with a file or a text as its body.
as() {
    who=$1 path=$2 body=$3
    shift 3
    key=$((key + 1))
    curl -sS --max-time 60 --fail-with-body -H "@$who.field" -H "Desk-Key: $(date -u +%Y%m%dT%H%M%SZ)-demo-$key" --data-binary "$body" "$@" \
        "http://127.0.0.1:$port$path" > said 2> curl.err || fail "$who at $path: $(cat said curl.err)"
}
# image NUMBER ROW..: makes signed.NUMBER, the signed image of examples/ with these rows of SBAT below
# the first one and a byte of its own, and image.NUMBER, the same without its certificate table.
image() {
    number=$1
    shift
    cp "$root/examples/signed.efi" "signed.$number"
    # puts PLACE: writes its input there.
    puts() { dd of="signed.$number" bs=1 seek="$1" conv=notrunc 2> dd.err; }
    printf '%b' "\\0$(printf '%03o' "$number")" | puts 752
    # The VirtualSize of .sbat, 512: its text ends before the zeros.
    printf '\000\002' | puts 376
    printf '%s\n' 'sbat,1,SBAT Version,sbat,1,https://github.com/rhboot/shim/blob/main/SBAT.md' "$@" | puts 1024
    head -c 1536 "signed.$number" > "image.$number"
    printf '\000\000\000\000\000\000\000\000' | dd of="image.$number" bs=1 seek=232 conv=notrunc 2> dd.err
}
# submit NAME NUMBER TITLE: asks for a signature for image.NUMBER; the requests have the same numbers.
submit() { as "$1" /requests "@image.$2" -H "Desk-Title: $3"; }
# votes NAME NUMBER yes|no NOTE
votes() { as "$1" "/requests/$2/review" "{\"note\":\"$4\",\"vote\":\"$3\"}"; }
# raises NAME COMPONENT GENERATION STAMP: proposes a generation of the level.
raises() { as "$1" /level "{\"component\":\"$2\",\"generation\":$3,\"stamp\":$4}"; }

debian='https://tracker.debian.org/pkg'
image 1 'shim,4,UEFI shim,shim,1,https://github.com/rhboot/shim' "shim.debian,1,Debian,shim,16.1-1,$debian/shim"
image 2 'grub,3,Free Software Foundation,grub,2.12,https://www.gnu.org/software/grub/' "grub.debian,4,Debian,grub2,2.12-9,$debian/grub2"
cp "$root/examples/tiny.efi" image.3
image 4 'grub,3,Free Software Foundation,grub,2.12,https://www.gnu.org/software/grub/' "grub.debian,4,Debian,grub2,2.12-9,$debian/grub2"
image 5 'systemd,1,The systemd Developers,systemd,257,https://systemd.io/' "systemd.debian,1,Debian,systemd,257.9-1,$debian/systemd"
image 6 'linux,1,Linux,linux,6.12.57,https://kernel.org/' "linux.debian,1,Debian,linux,6.12.57-1,$debian/linux"
{ cat "$root/examples/tiny.efi"; echo last; } > image.7
image 8 'shim,4,UEFI shim,shim,1,https://github.com/rhboot/shim' "shim.debian,1,Debian,shim,16.1-2,$debian/shim"
image 9 'grub,2,Free Software Foundation,grub,2.06,https://www.gnu.org/software/grub/' "grub.debian,3,Debian,grub2,2.06-13,$debian/grub2"
as olga /db/certificates "@$root/examples/certificate.der"
submit ann 1 'shim 16.1-1 amd64'
submit ann 2 'grub2 2.12-9 / amd64'
submit ann 3 'fwupd-efi 1.7-1 amd64'
submit ann 4 'grub2 2.12-9 / arm64'
submit ann 5 'systemd-boot 257.9-1 amd64'
submit ann 6 'linux 6.12.57-1 amd64, the kernel of the 13.3 point release'
submit rita 7 'memtest86+ 7.20-1 amd64'
submit ann 8 'shim 16.1-2 amd64'
submit ann 9 'grub2 2.06-13 amd64'
# This bars request 9.
raises olga grub 3 "${day}00"
as otto /proposals/1/confirm ''
for number in 1 2 4; do
    votes rita "$number" yes 'built it again: the same bytes'
    votes raul "$number" yes 'compared with the build log'
done
votes raul 3 no 'it has no .sbat section'
votes rosa 6 yes 'the changelog names the CVE'
as ann /requests/5/withdraw ''
for number in 1 2; do as sid "/requests/$number/return" "@signed.$number"; done
as otto /dbx/digests '{"digest":"ba7816bf8f01cfea414140de5dae2223b00361a396177a9cb410ff61f20015ad"}'
as olga /proposals/2/confirm ''
raises otto shim 5 "${day}01"
as otto /proposals/3/drop ''
raises olga grub 4 "${day}01"
{
    echo 'kind,value,generation'
    for digit in 1 2 3 4 5 6 7 8 9 a b c; do echo "sha256,$(printf "%064d" 0 | tr 0 "$digit"),"; done
    echo 'x509_sha256,2c7e1db0e9c5d03f3c0b8ee2b3ef1f7d2b07d6ab5f2a1e7d0f7d6f0f9b1b7a55,'
    echo 'sbat,shim,4'
} > revocations.csv
as otto /imports/csv @revocations.csv -H "Desk-Stamp: ${day}02"

# ---- nginx

# proxies PORT: whether nginx serves the page and the desk at this port.
proxies() {
    sed "s|127\.0\.0\.1:880;|127.0.0.1:$port;|
         s|127\.0\.0\.1:881;|127.0.0.1:${others#* };|
         s|listen 443 ssl;|listen 127.0.0.1:$1;|
         /listen \[::\]:443 ssl;/d
         /^ *ssl_/d
         s|root /usr/share/kovelamiru-desk;|root $root;|
         s|include /usr/share/kovelamiru-desk/|include $root/packaging/|
         s|/etc/nginx/|$folder/|
         s|/var/log/nginx/|$folder/|" "$root/packaging/nginx.conf" > site.conf
    for line in "server 127.0.0.1:$port;" "listen 127.0.0.1:$1;" "root $root;"; do
        grep -qF "$line" site.conf || fail "packaging/nginx.conf has no place for $line"
    done
    {
        if [ "$(id -u)" -eq 0 ]; then echo 'user root root;'; fi
        echo "daemon off; pid $folder/nginx.pid; error_log $folder/nginx.err warn;"
        echo "events { worker_connections 256; }"
        echo "http {"
        echo "    access_log off;"
        for kind in client_body proxy fastcgi uwsgi scgi; do echo "    ${kind}_temp_path $folder/$kind;"; done
        echo "    include $folder/site.conf;"
        echo "}"
    } > nginx.conf
    nginx -p "$folder/" -e "$folder/nginx.err" -c nginx.conf 2> nginx.said &
    proxy=$!
    until_listens "$proxy" "$1" && return 0
    grep -q 'Address already in use' nginx.err || fail "nginx: $(cat nginx.said nginx.err)"
    return 1
}
address=8088
if ! proxies "$address"; then
    address=${others% *}
    proxies "$address" || fail "nginx: $(cat nginx.err)"
fi

echo "http://127.0.0.1:$address/ has a demo desk. Sign in as one of these people; Ctrl-C ends it."
for person in $people; do
    printf '%-6s %-10s %s\n' "${person%/*}" "${person#*/}" "$(cat "${person%/*}.token")"
done
echo "$folder has image.N of each request N, signed.4 to return for request 4, and revocations.csv to import."
if [ "$program" = "$root/out/trial/desk" ]; then
    echo "It shows a trial program, not proved: $program"
elif [ "$(sed -n 's/^program //p' "$program.record" 2> /dev/null)" = "$(sha256sum < "$program" | cut -d' ' -f1)" ]; then
    sed -n "s|^by \(.*\)|It shows the program that \`\1\` proved: $program|p" "$program.record"
elif [ -L "$root/desk" ]; then
    echo "It shows the package's program; /usr/share/doc/kovelamiru-desk/README.Debian says what proved it"
else
    echo "It shows $program, which has no record that it was proved"
fi
while is_running "$server" && is_running "$proxy"; do sleep 1; done
fail "the desk or nginx ended: $(cat served.err nginx.err)"
