#!/bin/sh
# What firmware and shim decide, beside the verdicts of a desk whose exports they have: firmware.sh
# [PROGRAM [SHIM]], with the built program or the named one. A hundred images of every kind are made
# and signed by sbsign, pesign, osslsigncode and openssl; a desk lists and revokes what they need.
# OVMF boots a loader that decides about each of them without the desk's lists, with db, and with db
# and dbx, both set as the authenticated updates that docs/INTEROPERATION.md makes; they are read
# back byte for byte. shim, built from Debian's source package as that page says, decides about them
# with dbx as its vendor_dbx, and with shim-dbx.esl of `desk shim`; its level is once a
# variable, once that page's revocations_sbat.efi. checks/firmware/decisions.tsv has each decision,
# and why one isn't the desk's: another firmware, another shim or a change of ours shows.
# Firmware has to refuse a db with an elliptic certificate, and a dbx that is too long.
#
# SHIM is a folder with shim's source; without it apt-get fetches that of Debian's package. A boot
# may take ten minutes, the whole twenty; with nothing beside it, it takes one or two. It needs
# binutils, dos2unix, efitools, gcc, gnu-efi, libnss3-tools, make, openssl, osslsigncode, ovmf,
# pesign, python3, qemu-system-x86 and sbsigntool; to fetch shim dpkg-dev.
set -eu
. "$(dirname -- "$(readlink -f -- "$0")")/common.sh"
needs as certutil dos2unix gcc ld make objcopy openssl osslsigncode pesign pk12util python3 \
    cert-to-efi-sig-list qemu-system-x86_64 sbsign sign-efi-sig-list
ovmf=/usr/share/OVMF/OVMF_CODE_4M.secboot.fd
for file in "$ovmf" /usr/share/ovmf/PkKek-1-snakeoil.key /usr/include/efi/efi.h; do
    [ -e "$file" ] || fail "it needs $file, of ovmf or gnu-efi"
done
find_program "$@"
source=${2:+$(readlink -f -- "$2")}
enter_room
# Everything that is made here goes with the room.
TMPDIR=$room
export TMPDIR

# ---- the loader and the candidates' code: flat, without relocations

for name in candidate loader; do
    gcc -c -Os -Wall -Wextra -Werror -ffreestanding -fpie -fvisibility=hidden \
        -fno-stack-protector -fno-asynchronous-unwind-tables -fno-strict-aliasing \
        -fno-tree-loop-distribute-patterns -mno-red-zone -mno-sse -mno-mmx -fshort-wchar \
        -maccumulate-outgoing-args -DGNU_EFI_USE_MS_ABI -isystem /usr/include/efi \
        -isystem /usr/include/efi/x86_64 -isystem /usr/include/efi/protocol \
        "$root/checks/firmware/$name.c" -o "$name.o"
    ld --no-warn-rwx-segments -T "$root/checks/firmware/flat.lds" -e entry --build-id=none \
        -o "$name.elf" "$name.o"
    objcopy -O binary -j .all "$name.elf" "$name.bin"
done

# ---- shim's source

# fetch: Debian's source of shim, by apt-get with lists of its own.
fetch() {
    needs apt-get dpkg-source
    mkdir -p apt/lists/partial apt/cache/archives/partial apt/parts fetched
    codename=$(sed -n 's/^VERSION_CODENAME=//p' /etc/os-release)
    keys=/usr/share/keyrings/debian-archive-keyring.gpg
    echo "deb-src [signed-by=$keys] http://deb.debian.org/debian $codename main" > apt/sources
    for place in Etc::sourcelist=sources Etc::sourceparts=parts State::lists=lists Cache=cache; do
        echo "Dir::${place%%=*} \"$room/apt/${place#*=}\";"
    done > apt/conf
    export APT_CONFIG="$room/apt/conf"
    # (what apt-get downloads as root is read by a user of its own)
    chmod 711 "$room"
    cd fetched
    timeout 150 apt-get -q update && timeout 150 apt-get -q source shim
}
if [ -z "$source" ]; then
    (fetch) > fetched.log 2>&1 || fail "shim's source: $(tail -n 3 fetched.log)"
    for source in fetched/shim-*/; do :; done
fi
[ -e "$source/shim.c" ] || fail "no source of shim in $source"
cp -a "$source" shim

PYTHONPATH=$root within 1200 python3 -B -m checks.firmware.decide "$program"
