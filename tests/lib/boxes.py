"""Boxes of files as an archive has them: pages of the gallery and made by chance, copies, pages that end early or are
refused, and files of other kinds."""
import random

from gallery import pages
from naplps_pages.file_kinds import MAGIC
from samples import OUTSIDE
from strategies import PARTS
from stream_writer import StreamWriter


def made_page(chance):
    """A page of shapes, text and controls, with coordinates anywhere."""
    page = StreamWriter(chance.randrange(1, 9))
    page.domain((chance.random() / 8, chance.random() / 8)) if chance.random() < 0.7 else page.domain()
    top = 1 - 2.0 ** (1 - 3 * page.words)
    for _ in range(chance.randrange(1, 12)):
        places = [(chance.random(), chance.random()) for _ in range(chance.randrange(2, 7))]
        chance.choice(PARTS)(page, [(min(x, top), min(y, top)) for x, y in places])
    return page.made()


def box(count, seed):
    """So many files, by their names: the same for the same seed."""
    chance, gallery = random.Random(seed), [*pages().values()]
    some = [*gallery, *(bytes(magic.offset) + magic.data + b"\xff\0" * 40 for magic in MAGIC), b"", OUTSIDE,
            b"A text of some words.\r\n" * 40]
    while len(some) < count:
        kind = chance.randrange(10)
        if kind == 0:
            some.append(chance.choice(some))
        elif kind == 1:
            page = chance.choice(gallery)
            some.append(page[:chance.randrange(len(page))] + chance.choice([b"", b"\x18", OUTSIDE]))
        else:
            some.append(made_page(chance))
    chance.shuffle(some)
    return {f"{number:05}.nap": data for number, data in enumerate(some[:count])}
