"""What two independent readings and a program say of a stream. The readings stand in a folder that is given."""
import importlib
import multiprocessing
import subprocess
import sys
from concurrent.futures import ThreadPoolExecutor
from pathlib import Path
from typing import Any, Iterator, List, NamedTuple, Optional, Tuple

SHORT = 4096  # the longest stream whose entries have places
NICE = ["nice", "-n", "5"]
CARGO = """[package]
name = "second-reading"
version = "0.1.0"
edition = "2021"
[[bin]]
name = "second-reading"
path = "{source}"
[dependencies]
naplps-ref = {{ path = "{reading}" }}
[workspace]
"""


class Answer(NamedTuple):
    """All that is said of a stream."""

    refusal: Optional[str]
    early: bool
    fed: int
    turns: int
    charged: int
    plain: bool
    places: Optional[List[int]]
    text: Optional[bytes]
    form1: Optional[bytes]
    lines: List[str]


Stream = Tuple[bytes, int]
_reading: Any = None


def _open_first(folder: str) -> None:
    global _reading
    sys.path.insert(0, folder)
    sys.setrecursionlimit(10_000)
    _reading = importlib.import_module(next(Path(folder).glob("naplps_*.py")).stem)


def _first(stream: Stream) -> Answer:
    data, budget = stream
    prefix, means = _reading.begun(data, budget), _reading.means(data, budget)
    refusal = None if means.refusal is None else _reading.refusal_line(means.refusal)
    accepted = refusal is None
    return Answer(
        refusal, prefix.refusal is not None, means.fed, means.turns, means.charged, _reading.is_plain(data),
        _places(data, budget, len(means.entries)), _reading.canon(means.entries) if accepted else None,
        _reading.canon_form1(means.entries) if accepted else None, [_reading.line_of(entry) for entry in means.entries])


def _places(data: bytes, budget: int, entries: int) -> Optional[List[int]]:
    """The byte with which each entry came, by halving: where both ends have equal counts, nothing came between."""
    if len(data) > SHORT:
        return None

    def count(fed: int) -> int:
        return len(_reading.begun(data[:fed], budget).entries)

    def places_between(low: int, below: int, high: int, above: int) -> Iterator[int]:
        if below == above:
            return
        if high - low == 1:
            yield from [low] * (above - below)
            return
        middle = (low + high) // 2
        entries_there = count(middle)
        yield from places_between(low, below, middle, entries_there)
        yield from places_between(middle, entries_there, high, above)

    fed = count(len(data))
    return [*places_between(0, 0, len(data), fed), *[len(data)] * (entries - fed)]


def first_answers(folder: Path, streams: List[Stream]) -> List[Answer]:
    """What the first reading says: definitions on whole lists, in Python."""
    with multiprocessing.Pool(initializer=_open_first, initargs=(str(folder),)) as pool:
        return pool.map(_first, streams, chunksize=8)


def second_answers(folder: Path, temp: Path, streams: List[Stream]) -> List[Answer]:
    """What the second reading says: a machine that is fed, in Rust. It is built in a folder of its own."""
    source = Path(__file__).with_name("second_reading.rs")
    (temp / "Cargo.toml").write_text(CARGO.format(source=source, reading=folder / "rust"), "ascii")
    words = ["cargo", "run", "--quiet", "--release", "--offline", "--manifest-path", str(temp / "Cargo.toml")]
    requests = "".join(f"{data.hex()} {budget}\n" for data, budget in streams)
    run = subprocess.run([*NICE, *words], input=requests, stdout=subprocess.PIPE, check=True, encoding="ascii")
    return [_second(line) for line in run.stdout.splitlines()]


def _second(line: str) -> Answer:
    refusal, early, fed, turns, charged, plain, places, text, form1, lines = line.split("\t")
    accepted = refusal == "accepted"
    return Answer(
        None if accepted else refusal, early == "true", int(fed), int(turns), int(charged), plain == "true",
        None if places == "-" else [int(place) for place in places.split()], bytes.fromhex(text) if accepted else None,
        bytes.fromhex(form1) if accepted else None, lines.split(";") if lines else [])


class Told(NamedTuple):
    """What a program prints of a stream: the line of `check`, and the lines and the bytes where it is accepted."""

    verdict: str
    lines: Optional[List[str]]
    text: Optional[bytes]


def told_of(answer: Answer) -> Told:
    """What a program should print where this is the answer."""
    if answer.refusal is not None:
        return Told(answer.refusal, None, None)
    return Told(f"accepted {len(answer.lines)} entries", answer.lines, answer.text)


def program_tells(program: str, streams: List[Stream]) -> List[Told]:
    """What a program prints of each stream by its three commands."""

    def run(command: str, stream: Stream) -> "subprocess.CompletedProcess[bytes]":
        words = [program, command, "--hex", "--budget", str(stream[1])]
        return subprocess.run(words, input=stream[0].hex().encode(), stdout=subprocess.PIPE, stderr=subprocess.PIPE)

    def tell(stream: Stream) -> Told:
        check, listing, canon = (run(command, stream) for command in ("check", "list", "canon"))
        verdict = check.stdout.decode().rstrip("\n")
        if check.returncode:
            is_same = {listing.stderr, canon.stderr} == {check.stdout} and not listing.stdout and not canon.stdout
            return Told(verdict if is_same else "its three commands differ", None, None)
        return Told(verdict, listing.stdout.decode().splitlines(), bytes.fromhex(canon.stdout.decode()))

    with ThreadPoolExecutor(4) as pool:
        return list(pool.map(tell, streams))
