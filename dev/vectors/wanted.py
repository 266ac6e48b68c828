"""What the calls of the library have to answer to vectors, asked by requests as of `naplps batch`."""
from typing import Dict, Iterator, List, Sequence, Tuple

from dev.vectors.batch import answers
from dev.vectors.lines import Row
from dev.vectors.notation import bytes_of, lines_of, numbers_of
from dev.vectors.rows import Vector

COMMANDS = ("check", "list", "canon", "places", "form1", "plain")


def wanted_of(vector: Vector) -> Dict[str, Tuple[str, bytes]]:
    """The line and the bytes that each command has to answer to a vector; of places only the entries."""
    lines, accepted = lines_of(vector.list), vector.accepted
    line = f"accepted {len(lines)} entries" if accepted else vector.ending
    text = bytes_of(vector.ending) if accepted else b""
    form1 = bytes_of(vector.more["form1"]) if "form1" in vector.more else text
    listing = "".join(f"{entry}\n" for entry in lines).encode()
    plain = "plain" if "plain" in vector.more else "not plain"
    return {"check": (line, b""), "list": (line, listing if accepted else b""), "canon": (line, text),
            "places": (line, listing), "form1": (line, form1), "plain": (plain, b"")}


def parted(text: bytes) -> Tuple[List[int], bytes]:
    """The places of entries, and their lines."""
    parts = [line.partition(b" ") for line in text.splitlines(keepends=True)]
    return [int(place) for place, _, _ in parts], b"".join(line for _, _, line in parts)


def wrong_answers(words: Sequence[str], vectors: Sequence[Vector]) -> Iterator[str]:
    """Asks a program about vectors, and names each wrong answer."""
    requests = ([(command, vector.budget, vector.data) for command in COMMANDS] for vector in vectors)
    for bodies, vector in zip(answers(words, requests), vectors):
        expected = wanted_of(vector)
        for command, body in zip(COMMANDS, bodies):
            places, text = parted(body.data) if command == "places" else ([], body.data)
            if (body.line, text) != expected[command]:
                yield f"{vector.place}: {command}: {body.line}, wanted {expected[command][0]}"
            if command == "places" and "places" in vector.more and places != numbers_of(vector.more["places"]):
                yield f"{vector.place}: places {places[:20]}"


def wrong_pages(words: Sequence[str], rows: Sequence[Row]) -> Iterator[str]:
    """Asks a program to make pages of vectors of lines, and names each wrong answer."""
    for body, row in zip(next(answers(words, [[("make", 0, row.lines) for row in rows]])), rows):
        expected = row.told.decode() or f"accepted {row.lines.count(10)} entries", row.text or b""
        if (body.line, body.data) != expected:
            yield f"{row.place}: {body.line}, wanted {expected[0]}"
