"""The signatures of pages: by file(1), and as DROID and siegfried are given them."""
import os
import re
import shlex
import subprocess
import xml.etree.ElementTree as tree
from pathlib import Path
from random import Random

import pytest

import gallery
from command import COMMAND, TOP, file
from pictures import picture, writing
from samples import POINT, has, with_parity

FOLDER = os.path.join(TOP, "docs", "signature")
MAGIC = os.path.join(FOLDER, "naplps.magic")
SPACE = "{http://www.nationalarchives.gov.uk/pronom/SignatureFile}"
CANONICAL, LIKELY = "NAPLPS page, canonical", "NAPLPS page, likely"
needs_file = pytest.mark.skipif(not has("file"), reason="there is no file(1)")


def said_by_file(tmp_path, some):
    """What file(1) says of these bytes."""
    paths = [file(tmp_path, "%05d" % at, data) for at, data in enumerate(some)]
    said = subprocess.run(["file", "-b", "-m", MAGIC, "-f", "-"], input="\n".join(paths).encode(), capture_output=True,
                          check=True)
    assert not said.stderr
    return [line if line.startswith("NAPLPS") else "" for line in said.stdout.decode().splitlines()]


def expression(text):
    """A sequence of DROID as a regular expression: bytes, and ranges of them."""
    parts = re.findall(r"\[([0-9A-F]{2}):([0-9A-F]{2})\]|([0-9A-F]{2})", text)
    assert "".join("[%s:%s]" % part[:2] if part[0] else part[2] for part in parts) == text
    return b"".join(b"[\\x%s-\\x%s]" % (low.encode(), high.encode()) if low else b"\\x" + one.encode()
                    for low, high, one in parts)


def signatures():
    """The formats of the file for DROID: name, expression, and how far from the start it may begin."""
    top = tree.parse(os.path.join(FOLDER, "naplps.xml")).getroot()
    known = {}
    for each in top.iter(SPACE + "InternalSignature"):
        (some,) = each.iter(SPACE + "SubSequence")
        right = some.find(SPACE + "RightFragment")
        text = some.findtext(SPACE + "Sequence") + ("" if right is None else right.text)
        known[each.get("ID")] = re.compile(expression(text), re.DOTALL), int(some.get("SubSeqMaxOffset"))
    for each in top.iter(SPACE + "FileFormat"):
        yield (each.get("Name"), *known[each.findtext(SPACE + "InternalSignatureID")])


def said_by_droid(some):
    """What a reader of the file for DROID says; the first format has priority over the second."""
    formats = list(signatures())
    assert [name for name, _, _ in formats] == [CANONICAL, LIKELY]
    for data in some:
        yield next((name for name, wanted, most in formats if wanted.search(data, 0, most + 16)
                    and wanted.search(data).start() <= most), "")


def made():
    """Pages and other files, and what the signature says of each."""
    chance = Random(1983)
    some = [(picture(chance, number), LIKELY) for number in range(3000)]
    some += [(page, LIKELY if name in gallery.SPELLED else CANONICAL) for name, page in gallery.pages().items()]
    some += [(writing(chance, number), "") for number in range(300)]
    some += [(chance.randbytes(1000), "") for _ in range(1000)]
    some += [(with_parity(picture(chance, number)), "") for number in range(20)]
    return some


def test_for_droid():
    some = made()
    assert list(said_by_droid(data for data, _ in some)) == [said for _, said in some]


@needs_file
def test_by_file(tmp_path):
    some = made()
    assert said_by_file(tmp_path, [data for data, _ in some]) == [said for _, said in some]


@needs_file
def test_canonical_pages(run, tmp_path):
    chance = Random(7)
    paths = [file(tmp_path, "page %d" % number, picture(chance, number)) for number in range(50)]
    assert run(["canon", *paths, "-o", str(tmp_path / "to")]).returncode == 0
    some = [page.read_bytes() for page in (tmp_path / "to").iterdir()]
    assert said_by_file(tmp_path, some) == [CANONICAL] * 50 == list(said_by_droid(some))


@needs_file
def test_what_is_missed(tmp_path):
    page = POINT + b"\x0f" + b"A" * 20
    some = [b"A" * 500 + page, b"A" * 513 + page, page + b"\xffA" * 200, b"\x0e\x0f" + page, b"\xff" + page,
            b"plain text\n", POINT]
    assert said_by_file(tmp_path, some) == [LIKELY, "", "", "", "", "", LIKELY]
    assert list(said_by_droid(some)) == [LIKELY, "", LIKELY, LIKELY, LIKELY, "", ""]


@needs_file
def test_what_the_document_prints(naplps):
    document = Path(TOP, "docs", "SIGNATURE.md").read_text("utf-8")
    shown = re.findall(r"^    (?!# )(.*)\n    # (.*)\n", document, re.MULTILINE)
    assert len(shown) == 2
    for command, printed in shown:
        words = command.replace("pages/naplps-pages", shlex.quote(COMMAND))
        said = subprocess.run(["sh", "-c", words], capture_output=True, cwd=TOP, env=dict(os.environ, NAPLPS=naplps))
        assert said.stdout.decode() == printed + "\n"
