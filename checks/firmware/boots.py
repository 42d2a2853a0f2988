"""For firmware.sh: boots of OVMF in QEMU, without KVM. Firmware's code, its variable store and the
key that this store takes updates from are of one package, ovmf."""
from __future__ import annotations

import os
import shutil
import subprocess
from typing import List, NamedTuple, Sequence, Tuple

from checks.firmware.candidates import Candidates
from checks.firmware.images import Shape, image
from checks.firmware.keys import Tools, run
from checks.support.says import fail

CODE = "/usr/share/OVMF/OVMF_CODE_4M.secboot.fd"
VARIABLES = "/usr/share/OVMF/OVMF_VARS_4M.snakeoil.fd"
KEK, KEK_KEY = (f"/usr/share/ovmf/PkKek-1-snakeoil.{one}" for one in ("pem", "key"))
OWNER = "00112233-4455-6677-8899-aabbccddeeff"
# Of db and dbx: non-volatile, for both kinds of services, with time-based authentication.
AUTHENTICATED = "27"
# EFI_STATUS, as the loader says it.
STATUS = {
    "0000000000000000": "loads", "8000000000000002": "invalid", "8000000000000003": "unsupported",
    "8000000000000009": "full", "800000000000000f": "denied", "800000000000001a": "violation",
}
SECONDS = 600  # of a boot, at most; on an idle machine it takes some ten


def update(name: str, lists: bytes, path: str, stamp: str = "2026-11-28 12:00:00") -> None:
    """An authenticated update of db or dbx, as the owner of the KEK makes it."""
    with open("lists.esl", "wb") as file:
        file.write(lists)
    run(
        "sign-efi-sig-list", "-t", stamp, "-k", "snakeoil.key", "-c", "snakeoil.pem", "-g", OWNER,
        name, "lists.esl", path,
    )


class Line(NamedTuple):
    """What the loader says of a step."""

    word: str
    name: str
    status: str
    rest: str


class Boot:
    """A volume in a folder, with the candidates and a loader that firmware trusts; what it said."""

    def __init__(self, folder: str, candidates: Candidates, tools: Tools) -> None:
        self.folder = folder
        self.lines: List[Line] = []
        self.ran: List[str] = []
        self.names: List[Tuple[str, str]] = []
        for number, one in enumerate(candidates.all):
            self.names.append((one.name, f"/c/{number}.efi"))
            self.write(f"c/{number}.efi", one.image)
        with open("loader.bin", "rb") as file:
            self.loader = image(file.read(), Shape())
        self.write("EFI/BOOT/BOOTX64.EFI", tools.sbsign(self.loader, "snakeoil"))

    def write(self, path: str, data: bytes) -> None:
        whole = os.path.join(self.folder, path)
        os.makedirs(os.path.dirname(whole), exist_ok=True)
        with open(whole, "wb") as file:
            file.write(data)

    def steps(self, name: str, steps: Sequence[str]) -> None:
        self.write(name, "".join(f"{one}\n" for one in steps).encode())

    def command(self, said: str) -> List[str]:
        store = f"{self.folder}.variables"
        shutil.copyfile(VARIABLES, store)
        disk = "virtio-blk-pci,drive=disk,bootindex=1"
        return [
            "qemu-system-x86_64", "-machine", "q35,smm=on,accel=tcg", "-cpu", "max", "-m", "512",
            "-nodefaults", "-net", "none", "-display", "none", "-monitor", "none", "-no-reboot",
            "-global", "driver=cfi.pflash01,property=secure,value=on",
            "-drive", f"if=pflash,format=raw,unit=0,readonly=on,file={CODE}",
            "-drive", f"if=pflash,format=raw,unit=1,file={store}",
            "-drive", f"if=none,id=disk,format=raw,readonly=on,file=fat:{self.folder}",
            "-device", disk, "-chardev", f"file,id=said,path={said}",
            "-device", "isa-debugcon,iobase=0x403,chardev=said",
            "-serial", f"file:{self.folder}.console",
        ]

    def run(self) -> None:
        """Boots, and waits until the machine is switched off."""
        said = f"{self.folder}.said"
        try:
            ran = subprocess.run(
                self.command(said), capture_output=True, timeout=SECONDS, check=False
            )
        except subprocess.TimeoutExpired:
            text = self.beginning(said)[-500:]
            fail(f"the boot of {self.folder} took more than {SECONDS} seconds; it said {text!r}")
        text = self.beginning(said)
        if ran.returncode or not text.endswith("end\n"):
            why = f"status {ran.returncode}, {ran.stderr[-500:]!r}; it said {text[-500:]!r}"
            fail(f"the boot of {self.folder}: {why}")
        for line in text.splitlines():
            self.read(line)

    @staticmethod
    def beginning(said: str) -> str:
        if not os.path.exists(said):
            return ""
        with open(said, encoding="latin-1") as file:
            return file.read()

    def read(self, line: str) -> None:
        words = line.split(" ")
        if words[0] == "ran":
            self.ran.append(words[1])
        elif words[0] in ("set", "get", "load", "start", "verify"):
            self.lines.append(Line(words[0], words[1], words[2], " ".join(words[3:])))
        elif line != "end":
            fail(f"the boot of {self.folder} said {line!r}")

    def status(self, word: str, name: str) -> str:
        """What came of a step, in a word; there has to be one such step."""
        found = [one.status for one in self.lines if (one.word, one.name) == (word, name)]
        if len(found) != 1:
            fail(f"the boot of {self.folder}: {word} {name} {len(found)} times")
        return STATUS.get(found[0], found[0])

    def decision(self, name: str) -> str:
        """Of LoadImage and StartImage: `runs`, `loads` or why not."""
        found = self.status("load", name)
        return "runs" if found == "loads" and name.split(":")[-1] in self.ran else found

    def sets(self, name: str, path: str) -> None:
        """SetVariable of this file went well."""
        wanted = ("set", name, path)
        found = [one.status for one in self.lines if (one.word, one.name, one.rest) == wanted]
        if found != ["0" * 16]:
            fail(f"the boot of {self.folder}: SetVariable of {name} from {path}: {found}")

    def variable(self, name: str) -> bytes:
        found = [one for one in self.lines if (one.word, one.name) == ("get", name)]
        if len(found) != 1 or found[0].status != "0" * 16:
            statuses = [one.status for one in found]
            fail(f"the boot of {self.folder}: GetVariable of {name}: {statuses}")
        return bytes.fromhex(found[0].rest)
