"""The three readers of canonical streams, and the program, asked about many streams at once."""
import hashlib
import json
import os
import subprocess
from typing import Iterable, Iterator, List, NamedTuple, Optional, Sequence, Tuple

from command import LIB
from naplps.canonical import NotCanonical, read

from dev.vectors.batch import answers

ANSWERS = os.path.join(LIB, "canonical_answers.mjs")
WORDS = os.path.join(LIB, "canonical_words.c")


class CanonicalAnswer(NamedTuple):
    """What Python's reader says: its line, as that of canonical_answers.mjs, and the lines of its entries."""

    line: str
    lines: bytes

    @property
    def accepted(self) -> bool:
        """Whether the stream is accepted."""
        return self.line.startswith("accepted ")


class ListedStream(NamedTuple):
    """What the program says of a stream: its list, None where it is refused; and its canonical stream."""

    lines: Optional[bytes]
    canonical: bytes


def spoken(stream: bytes) -> CanonicalAnswer:
    """What Python's reader says of a stream; it raises nothing but its own refusal."""
    try:
        entries = list(read(stream))
    except NotCanonical as refusal:
        return CanonicalAnswer(str(refusal), b"")
    lines = "".join(f"{entry.line}\n" for entry in entries).encode("ascii")
    members = "".join(json.dumps(entry.members, separators=(",", ":")) + "\n" for entry in entries).encode("ascii")
    sums = (hashlib.sha256(each).hexdigest() for each in (lines, members))
    return CanonicalAnswer(f"accepted {len(entries)} {' '.join(sums)}", lines)


def framed(streams: Iterable[bytes]) -> bytes:
    """Streams one after another, each after its length."""
    return b"".join(len(stream).to_bytes(4, "big") + stream for stream in streams)


def by_node(streams: Sequence[bytes]) -> List[str]:
    """What the reader in JavaScript says of each."""
    result = subprocess.run(["node", ANSWERS], input=framed(streams), capture_output=True, check=True)
    assert result.stderr == b""
    return result.stdout.decode("ascii").split("\n")[:-1]


def build_words(folder: str) -> str:
    """The path of the example in C, built for many streams with sanitizers."""
    built = os.path.join(folder, "words")
    words = ["cc", "-std=c99", "-D_POSIX_C_SOURCE=200809L", "-O1", "-fsanitize=address,undefined",
             "-fno-sanitize-recover=all", "-o", built, WORDS]
    subprocess.run(words, check=True)
    return built


def by_words(built: str, streams: Sequence[bytes]) -> Iterator[Tuple[str, bytes]]:
    """The line of the example in C on each, and what it prints."""
    result = subprocess.run([built], input=framed(streams), capture_output=True, check=True)
    assert result.stderr == b""
    at, text = 0, result.stdout
    for _ in streams:
        end = text.index(b"\n", at)
        line = text[at:end].decode("ascii")
        size = int(line[9:]) if line.startswith("accepted ") else 0
        yield line, text[end + 1:end + 1 + size]
        at = end + 1 + size
    assert at == len(text)


def words_of(lines: Iterable[str]) -> bytes:
    """The words of a list with their places, by its lines alone."""
    found: List[str] = []
    place, column, word, defining = "", 0, "", False
    for line in [*lines, ""]:
        fields = line.split(" ")
        letter = fields[0] == "CHAR" and fields[1] == "primary"
        code = int(fields[2], 16) if letter else 0
        starts = letter and (not place or fields[3] != "pen=after")
        if word and (starts or not 0x20 < code < 0x7F):
            found.append(f"{place} +{column - len(word)} {word}\n")
            word = ""
        if starts:
            place, column = fields[3][4:], 0
        defining = fields[0] in ("GLYPH", "MASK") or defining and fields[0] != "END"
        place = place if letter else ""
        word += chr(code) if 0x20 < code < 0x7F and not defining else ""
        column += 1
    return "".join(found).encode("ascii")


def asked(naplps: str, streams: Iterable[bytes]) -> List[ListedStream]:
    """What the program lists of each stream, and its canonical stream, by one `naplps batch`."""
    requests = ([("list", 1 << 20, stream), ("canon", 1 << 20, stream)] for stream in streams)
    return [ListedStream(listed.data if listed.line.startswith("accepted ") else None, canonical.data)
            for listed, canonical in answers([naplps, "batch"], requests)]


def made(naplps: str, lists: Iterable[Sequence[str]]) -> List[bytes]:
    """The canonical stream of each list of lines."""
    requests = ([("make", 0, "".join(f"{line}\n" for line in lines).encode("ascii"))] for lines in lists)
    found = [answer for [answer] in answers([naplps, "batch"], requests)]
    assert [answer.line for answer in found if not answer.line.startswith("accepted ")] == []
    return [answer.data for answer in found]
