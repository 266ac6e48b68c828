"""Images of floppies of DOS, made by hand: a boot sector with its program, two FATs of 12 bits, the root and files."""
import struct
from typing import Dict, NamedTuple

SECTOR, ENTRY = 512, 32
LAST = 0xFFF
MESSAGE = b"This disk has no system. Put another one in, and press a key\r\n\0"
# PUSH CS, POP DS, and a jump over the message; then PUSH CS, POP ES, and a loop that types it.
PROGRAM = b"\x0e\x1f\xeb%c" % len(MESSAGE) + MESSAGE + bytes.fromhex(
    "0e07 be427c ac 0ac0 7409 b40e bb0700 cd10 ebf2 cd16 cd19")


class Format(NamedTuple):
    """A format of disks: sectors, those of a cluster, entries of the root, sectors of a FAT, media byte, sectors of a
    track, sides."""

    sectors: int
    cluster: int
    roots: int
    fat: int
    media: int
    track: int
    sides: int


FORMATS = {"160K": Format(320, 1, 64, 1, 0xFE, 8, 1), "720K": Format(1440, 2, 112, 3, 0xF9, 9, 2)}


def boot_sector(form: Format) -> bytes:
    """The first sector: a jump, the table of the disk, the program, and the mark at the end."""
    table = struct.pack("<HBHBHHBHHHI", SECTOR, form.cluster, 1, 2, form.roots, form.sectors, form.media, form.fat,
                        form.track, form.sides, 0)
    name = struct.pack("<IBBBI11s8s", 0, 0, 0, 0x29, 0x19840114, b"PAGES".ljust(11), b"FAT12".ljust(8))
    return (b"\xeb\x3c\x90MSDOS3.3" + table + name + PROGRAM).ljust(SECTOR - 2, b"\0") + b"\x55\xaa"


def floppy(files: Dict[str, bytes], name: str = "720K", fill: bytes = b"\xf6") -> bytes:
    """A disk that was formatted, which fills its clusters, and to which files were written one after another."""
    form = FORMATS[name]
    fat, root, data = [0xF00 | form.media, LAST], b"", b""
    for path, page in files.items():
        clusters = -(-len(page) // (form.cluster * SECTOR))
        stem, _, ending = path.partition(".")
        root += struct.pack("<8s3sB10xHHHI", stem.ljust(8).encode("ascii"), ending.ljust(3).encode("ascii"), 0x20,
                            12 << 11, 4 << 9 | 1 << 5 | 14, len(fat), len(page))
        fat += [*range(len(fat) + 1, len(fat) + clusters), LAST]
        sectors = page + bytes(-len(page) % SECTOR)
        data += sectors + fill * (clusters * form.cluster * SECTOR - len(sectors))
    bits = sum(value << 12 * number for number, value in enumerate(fat))
    table = bits.to_bytes(form.fat * SECTOR, "little")
    disk = boot_sector(form) + table * 2 + root.ljust(form.roots * ENTRY, b"\0") + data
    return disk + fill * (form.sectors * SECTOR - len(disk))
