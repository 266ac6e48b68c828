"""A box of files of all kinds, as an archive has one: pages, copies, captures, images of disks, packs, texts, files of
other formats, in folders of any depth and with names of any bytes."""
import os
from random import Random

from boxes import box
from floppies import floppy
from naplps.client import Client
from packers import pack
from planted import files, pool, rest
from samples import with_parity
from scans import tree

TEXTS = (b"A letter of some words.\r\n" * 30, "Un été à Québec\n".encode("latin-1") * 20,
         "Un été à Québec\n".encode() * 20)
FOLDERS = (b"", b"disk 1", b"disk 2", b"disk 2/NEWS", b"captures", b"\xe9t\xe9", b"a/" * 40 + b"deep")


def image(chance, pages):
    """The image of a disk: sectors of pages, fills and other bytes."""
    data = bytearray(chance.randbytes(chance.randrange(2000, 6000)))
    for page in chance.sample(pages, chance.randrange(0, 5)):
        data += b"\xf6" * (-len(data) % 512) + page + b"\xf6" * (512 + -len(page) % 512) + chance.randbytes(600)
    return bytes(data)


def mixed(count, seed, program):
    """Files by their paths, as bytes; the same for the same seed."""
    chance, pages = Random(seed), pool(program)
    some = list(box(count // 2, seed).values())
    some += [each.data for each in files(count // 4, program, seed)]
    some += [image(chance, pages) for _ in range(max(3, count // 100))]
    some += [*TEXTS, b"", with_parity(pages[0]), b"\xff\xd8\xff" + chance.randbytes(900)]
    while len(some) < count:
        kind = chance.randrange(4)
        one = chance.choice(some)
        some.append(one if kind == 0 else one[:chance.randrange(len(one) + 1)] if kind == 1 else
                    chance.choice(pages) + b"\x1a" + rest(chance) if kind == 2 else chance.choice(pages))
    made = {}
    for number, data in enumerate(some):
        folder = chance.choice(FOLDERS)
        made[os.path.join(folder, b"%s%05d.%s" % (chance.choice((b"PAGE", b"p\xe2que", b"old ")), number,
                                                  chance.choice((b"nap", b"NAP", b"cap", b"dat"))))] = data
    made[b"disk 1/FLOPPY.IMG"] = floppy({"A.NAP": pages[1], "B.NAP": pages[2]}, "160K")
    made[b"disk 2/LOGO.GIF"] = b"GIF89a" + bytes(90) + pages[3] + b"\xff" * 90
    return made


def write(folder, count, seed, naplps):
    """Writes such a box, with packs of some of its files too."""
    program = Client(naplps)
    try:
        some = mixed(count, seed, program)
    finally:
        program.close()
    tree(folder, some)
    for number, ending in enumerate((".zip", ".tar", ".tar.gz")):
        members = {f"m{at}.nap": data for at, data in enumerate(list(some.values())[number::max(7, count // 20)])}
        pack(os.path.join(folder, f"pack{number}{ending}"), members)
