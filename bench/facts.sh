#!/bin/sh
# bench/facts.sh [PROGRAM]: measures `desk facts` on a PE32+ image of 120 MiB with three sections,
# against openssl, sha256sum and (if installed) pesign on the same file: the least processor time of
# 7 rounds each, the ratio of `facts` to it, its own ratio to two runs of openssl, which is the
# least that two hashes cost here, and its peak memory. `facts` reads the file once and makes two
# hashes of it, one of the whole and one as Authenticode does. If PROGRAM is given, another build of
# `desk`, its `facts` is measured in the same rounds. Fails if `facts` takes more memory than the
# file and 8 MiB. Not part of the gate.
set -eu
other=${1:+$(readlink -f -- "$1" || echo "$1")}
. "$(dirname -- "$(readlink -f -- "$0")")/../checks/common.sh"
needs openssl python3 sha256sum
[ -z "$other" ] || [ -x "$other" ] || fail "there is no program $1"
find_program
enter_room
python3 - "$room/image.efi" << 'PYTHON'
import random
import struct
import sys

MIB = 1 << 20

# The image: headers of 512 bytes, and three sections of 40 MiB less what the headers take.
sizes = [40 * MIB, 40 * MIB, 40 * MIB - 512]
image = bytearray(random.Random(1).randbytes(120 * MIB))
image[:512] = bytes(512)
image[0:2] = b"MZ"
struct.pack_into("<I", image, 60, 64)
image[64:68] = b"PE\0\0"
struct.pack_into("<HHIIIHH", image, 68, 0x8664, 3, 0, 0, 0, 240, 0x22e)
struct.pack_into("<H", image, 88, 0x20b)
struct.pack_into("<II", image, 88 + 32, 4096, 512)
struct.pack_into("<II", image, 88 + 56, 256 * MIB, 512)
struct.pack_into("<H", image, 88 + 68, 10)
struct.pack_into("<I", image, 88 + 108, 16)
begin, address = 512, 4096
for number, size in enumerate(sizes):
    name = [b".text", b".data", b".linux"][number]
    struct.pack_into("<8sIIII", image, 328 + 40 * number, name, size, address, size, begin)
    begin += size
    address += 64 * MIB
with open(sys.argv[1], "wb") as file:
    file.write(image)
PYTHON
# A process of its own: the memory that is reported for a child includes that of the process that
# began it.
python3 - "$program" "$room/image.efi" "$other" << 'PYTHON'
import os
import shutil
import subprocess
import sys

program, path, other = sys.argv[1:]
rivals = [
    ("desk facts", [program, "facts", path]),
    ("facts of PROGRAM", [other, "facts", path]),
    ("openssl dgst -sha256", ["openssl", "dgst", "-sha256", path]),
    ("sha256sum", ["sha256sum", path]),
    ("pesign -h", ["pesign", "-h", "-d", "sha256", "-i", path]),
]
rivals = [(name, words) for name, words in rivals if words[0] and shutil.which(words[0])]
least = {}
peak = {}
for _ in range(7):
    for name, words in rivals:
        process = subprocess.Popen(words, stdout=subprocess.DEVNULL)
        _, status, usage = os.wait4(process.pid, 0)
        spent = usage.ru_utime + usage.ru_stime
        if status != 0:
            sys.exit(f"{name}: status {status}")
        least[name] = min(spent, least.get(name, spent))
        peak[name] = max(usage.ru_maxrss, peak.get(name, 0))
two = 2 * least["openssl dgst -sha256"]
print(f"{'':22} {'seconds':>9} {'facts to it':>12} {'two openssl dgst':>17} {'memory':>9}")
for name, _ in rivals:
    ratio = least["desk facts"] / least[name]
    print(
        f"{name:22} {least[name]:9.3f} {ratio:12.2f} {least[name] / two:17.2f}"
        f" {peak[name] // 1024:5} MiB"
    )
if "pesign -h" in least:
    both = least["sha256sum"] + least["pesign -h"]
    print(f"{'sha256sum, pesign -h':22} {both:9.3f} {least['desk facts'] / both:12.2f}")
if peak["desk facts"] * 1024 > os.path.getsize(path) + (8 << 20):
    sys.exit("desk facts: more memory than the file and 8 MiB")
PYTHON
