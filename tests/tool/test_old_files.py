"""A made box of old files, in which it is known what each is: all that is told of it is compared with that."""
import json
import os
import re
import subprocess
from collections import Counter
from pathlib import Path

import pytest

from command import COMMAND, file
from naplps.answers import Accepted
from naplps.client import Client
from naplps.treating.treatments import grade_of
from naplps_pages.collection.status import PERHAPS_SEVERAL
from old_files import LOOKS, STOPS, box
from packers import pack
from samples import POINT

KINDS = {"picture": "page", "copy": "page", "spelling": "page", "text": "text", "note": "text", "blank": "blank",
         "swallowed": "page"}
# What stops the files of some sorts, and by which refusal; of others the eighth bit does, or what it makes of a code.
ANNOUNCER, DESIGNATION = "1B 22 46 (designation of a C1 set)", "1B 28 41 (unknown set into G0)"
SWITCH = "1B 25 41 (switch to another coding system)"
STOPPED = {"can": (6, "CAN"), "nsr": (6, "NSR"), "place": (6, "NSR"), "mixed": (6, "NSR"), "end": (6, "SDC"),
           "lines": (6, "SDC"), "sauce": (6, "SDC"), "art": (6, "SDC"), "disk": (6, "SDC"),
           "designation": (2, ANNOUNCER), "unknown": (2, DESIGNATION)}
FRONTS = {b"\x18": (6, "CAN"), b"\x1f": (6, "NSR"), b"\x1b\x22": (2, ANNOUNCER), b"\x1b\x25": (2, SWITCH)}


@pytest.fixture(scope="module")
def files():
    """The files, by their names."""
    some = {each.name: each for each in box()}
    assert len(some) >= 3000
    return some


@pytest.fixture(scope="module")
def folder(files, tmp_path_factory):
    """The folder of the files."""
    made = str(tmp_path_factory.mktemp("box"))
    for name, each in files.items():
        file(made, name, each.data)
    return made


@pytest.fixture(scope="module")
def ask(naplps, folder):
    """Runs a command on all files, or on those of some names, in their folder."""
    def asks(*words, names=None):
        some = sorted(os.listdir(folder)) if names is None else list(names)
        return subprocess.run([COMMAND, *words, "--timeout", "600", *some], cwd=folder, capture_output=True,
                              env=dict(os.environ, NAPLPS=naplps))
    return asks


@pytest.fixture(scope="module")
def checked(ask):
    """What check says of each file."""
    said = ask("check", "--json")
    assert (said.stderr, said.returncode) == (b"", 1)
    return {row["name"]: row for row in map(json.loads, said.stdout.splitlines())}


def test_each_file_has_its_kind(files, checked):
    for name, each in files.items():
        pages = each.data.count(b"\x0c\x0e") if each.sort == "capture" else None
        assert (checked[name]["kind"], checked[name]["pages"]) == ("capture" if pages else KINDS.get(each.sort), pages)
        if each.sort == "junk":
            assert checked[name]["status"] == "refused", name
            assert checked[name]["looks_like"] == LOOKS.get(name.split(" ")[1]), name
        elif not each.sort.startswith("three"):
            assert checked[name]["looks_like"] is None, name


def test_each_treatable_file_is_treated_and_gives_its_page(files, checked, naplps, ask):
    refused = [name for name, row in checked.items() if row["status"] == "refused"]
    said = ask("fix", "--only", "repair", "--json", names=refused)
    assert (said.stderr, said.returncode) == (b"", 1)
    rows = {row["name"]: row for row in map(json.loads, said.stdout.splitlines())}
    program = Client(naplps)
    try:
        for name in refused:
            each, cure = files[name], rows[name]["cure"]
            if each.page is None:
                assert cure is None, name
                continue
            names = [treatment["treatment"] for treatment in cure["treatments"]]
            assert sorted(names) == sorted(each.treatments) and cure["grade"] == grade_of("+".join(names)), name
            made = applied(each.data, cure["treatments"])
            if made != each.page:
                assert "eight-bit" in names and canon(program, made) == canon(program, each.page), name
    finally:
        program.close()


def applied(data, treatments):
    """The copy, made of the source by what is told of each treatment."""
    for each in treatments:
        if each["parity"]:
            data = bytes(byte & 0x7F for byte in data)
        for edit in reversed(each["edits"]):
            taken, at = bytes.fromhex(edit["taken"]), edit["offset"]
            assert data[at:at + len(taken)] == taken
            data = data[:at] + bytes.fromhex(edit["put"]) + data[at + len(taken):]
    return data


def canon(program, data):
    """The canonical bytes."""
    answer = program.ask("canon", data)
    assert isinstance(answer, Accepted)
    return answer.body


def test_captures_are_cut_into_pages_that_are_readable(files, ask, tmp_path, folder):
    captures = [name for name, each in files.items() if each.sort == "capture"]
    to = str(tmp_path / "pages")
    said = ask("fix", "-o", to, names=captures)
    assert (said.stderr, said.returncode) == (b"", 0)
    made = sorted(name for name in os.listdir(to) if not name.endswith(".json"))
    for name in captures:
        stem = name[:-4] + "-"
        parts = [each for each in made if each.startswith(stem)]
        data = files[name].data
        assert len(parts) == data.count(b"\x0c\x0e")
        notes = [json.loads(Path(to, part + ".json").read_bytes()) for part in parts]
        assert b"".join(bytes.fromhex(note["before"]) + Path(to, part).read_bytes() + bytes.fromhex(note["after"])
                        for part, note in zip(parts, notes)) == data
    assert ask("check", names=[os.path.join(to, each) for each in made]).returncode == 0


def test_a_scan_leaves_out_the_notes_of_this_tool_alone(run, tmp_path):
    data = {"a.nap": POINT + b"\x1a", "tape.nap": b"\x0c" + POINT + b"\x1f" + POINT, "b\xff.nap": b"\x18" + POINT}
    names = [file(tmp_path, os.fsencode(name.replace("\xff", "\udcff")), each) for name, each in data.items()]
    top = str(tmp_path / "made")
    for words, status in ((["--only", "repair", *names], 1), ([names[0]], 0), (["--only", "split", names[1]], 0)):
        assert run(["fix", *words, "-o", top]).returncode == status
    for name, text in (("x.json", b'{\n  "source_name": "y",\n  "tool": "another 1.0"\n}\n'), ("y.json", b"{}"),
                       ("z.txt", Path(top, "a.nap.json").read_bytes())):
        file(top, name, text)
    wanted = [b"a.nap", b"b\xff.nap", b"tape-001.nap", b"tape-002.nap", b"x.json", b"y.json", b"z.txt"]
    assert sorted(os.listdir(os.fsencode(top))) == sorted(wanted + [
        each + b".json" for each in wanted if each.endswith(b".nap")])
    for number in (0, len(wanted)):
        said = run(["scan", top, "-o", str(tmp_path / "s.db")]).stdout.decode()
        assert said.startswith(f"{len(wanted)} files: ") and f"; {number} known, " in said
    pack(tmp_path / "made.tar", {path.name: path.read_bytes() for path in Path(top).iterdir()})
    said = run(["scan", str(tmp_path / "made.tar"), "-o", str(tmp_path / "p.db")]).stdout
    assert said.startswith(b"%d files: " % len(wanted))


@pytest.fixture(scope="module")
def store(files, naplps, folder, tmp_path_factory):
    """A store of all files, with treatments."""
    path = str(tmp_path_factory.mktemp("store") / "box.db")
    said = asked(naplps, "scan", folder, "-o", path, "--skip", "words", "--timeout", "600")
    kinds = Counter(KINDS[each.sort] for each in files.values() if each.sort in KINDS and each.sort != "note")
    notes = sum(each.sort == "note" for each in files.values())
    captures = sum(each.sort == "capture" for each in files.values())
    line = "%d files: %d accepted (%d pages, %d texts, %d blank), %d refused (%d captures); " % (
        len(files) - notes, sum(kinds.values()), kinds["page"], kinds["text"], kinds["blank"],
        len(files) - notes - sum(kinds.values()), captures)
    assert notes > 50 and said.decode().startswith(line)
    return path


def asked(naplps, *words):
    """What a command says."""
    said = subprocess.run([COMMAND, *words], env=dict(os.environ, NAPLPS=naplps), check=True, capture_output=True)
    assert said.stderr == b""
    return said.stdout


def kept(files):
    """The files that a scan takes, by their names."""
    return {name: each for name, each in files.items() if each.sort != "note"}


def stop(each, row):
    """The refusal of a file and what stops it, as its maker knows it; else as `check` says."""
    if each.sort == "refused":
        return 6, each.name.split(" ")[1]
    if each.sort in ("front", "capture"):
        return next(told for code, told in FRONTS.items() if each.data.startswith(code))
    return STOPPED.get(each.sort) or (row["number"], row["code"] or "")


def test_the_status_counts_what_was_put_in(files, naplps, store):
    some = kept(files)
    told = [line.strip() for line in asked(naplps, "files", store).decode().splitlines()]
    kinds = Counter(KINDS[each.sort] for each in some.values() if each.sort in KINDS)
    looks = Counter(LOOKS[name.split(" ")[1]] for name, each in some.items()
                    if each.sort == "junk" and name.split(" ")[1] in LOOKS)
    several = sum(each.sort == "swallowed" for each in some.values())
    captures = [each.data.count(b"\x0c\x0e") for each in some.values() if each.sort == "capture"]
    assert several > 5 and sorted(line for line in told if line[0].isdigit()) == sorted([
        *(f"{number}: {kind}" for kind, number in kinds.items()), f"{several}: {PERHAPS_SEVERAL}",
        f"{len(captures)}: capture, of {sum(captures)} pages",
        *(f"{number}: looks like {look}" for look, number in looks.items())])
    assert {f"accepted:        {sum(kinds.values())}", f"refused:         {len(some) - sum(kinds.values())}",
            f"distinct pages:  {len({each.data for each in some.values()})}", "left:            nothing"} < set(told)


def test_refused_counts_what_was_put_in(files, checked, naplps, store):
    rows = [json.loads(line) for line in asked(naplps, "files", store, "--refused", "--json").splitlines()]
    some = {name: each for name, each in kept(files).items() if each.sort not in KINDS}
    assert sorted(os.path.basename(row["name"]) for row in rows) == sorted(some)
    for row in rows:
        each = some[os.path.basename(row["name"])]
        assert sorted((row["treatments"] or "").split("+")) == (sorted(each.treatments) or [""]), row["name"]
        assert row["grade"] == (grade_of("+".join(each.treatments)) if each.treatments else None)
        number, code = stop(each, checked[each.name])
        assert (row["number"], row["code"] or row["stops"] or "") == (number, code or row["stops"] or ""), row["name"]
    counts = Counter(stop(each, checked[name]) for name, each in some.items())
    for (number, code), many in counts.items():
        if number in (2, 6) and code:
            assert asked(naplps, "files", store, "-0", "--reason", code.split(" (")[0]).count(b"\0") == many
    assert {ANNOUNCER, DESIGNATION, SWITCH, *STOPS} < {code for _, code in counts}
    assert asked(naplps, "files", store, "-0", "--reason", "EighthBit").count(b"\0") == sum(
        row["number"] == 1 for row in checked.values())


def test_the_census_of_the_store_counts_what_was_put_in(files, checked, naplps, store):
    row = json.loads(asked(naplps, "files", "--census", store, "--json"))
    pages = {each.data: each for each in kept(files).values() if each.sort not in KINDS}
    others = [each for each in pages.values() if checked[each.name]["looks_like"]]
    assert row["other_formats"] == len(others) > 100
    first = Counter(stop(each, checked[each.name]) for each in pages.values() if each not in others)
    named = {code: number for (_, code), number in first.items() if code}
    told = {each["code"]: each for each in row["codes"]}
    assert {code: told[code]["first"] for code in named} == named
    assert sum(each["first"] for each in row["codes"]) == row["refused"] - len(others) == len(pages) - len(others)
    assert row["accepted"] == len({each.data for each in kept(files).values() if each.sort in KINDS})
    assert (row["no_answer"], row["in_part"]) == (0, 0)
    for code in STOPS:  # (after the refusals of junk such codes are found by chance)
        assert told[code]["alone"] == named[code] <= told[code]["pages"] <= told[code]["times"]


def test_equal_joins_what_was_put_in(files, naplps, store):
    def told(*words):
        said = asked(naplps, "equal", store, "--json", "--skip", "copies", *words)
        return [json.loads(line) for line in said.splitlines()]
    spellings, guesses = {}, {}
    for each in kept(files).values():
        if each.sort in ("picture", "copy", "blank") or (each.page and grade_of("+".join(each.treatments)) == "around"):
            page = b"" if each.sort == "blank" else each.page or each.data
            spellings.setdefault(page, {}).setdefault(each.data, []).append(each.name)
        elif each.page:
            guesses.setdefault(each.page, {}).setdefault(each.data, []).append(each.name)
    groups, treated = told("--include", "guesses"), told("--include", "treated")
    assert [group for group in groups if "others" not in group] == treated
    assert members(treated) == wanted(some for some in spellings.values() if len(some) > 1) and len(treated) > 100
    assert members(group for group in groups if "others" in group) == wanted(
        some for page, some in guesses.items() if len(some) > 1 or page in spellings)
    for group in groups:
        for spelling in group["spellings"]:
            for name in names(spelling):
                each = files[name]
                assert sorted(spelling.get("treatments", "").split("+")) == (sorted(each.treatments) or [""])
                if "others" in group:
                    assert group["others"] == sum(map(len, spellings.get(each.page, {}).values())) > 0
    as_they_are = [{data: some for data, some in group.items() if not files[some[0]].treatments}
                   for group in spellings.values()]
    assert members(told()) == wanted(some for some in as_they_are if len(some) > 1)


def names(spelling):
    """The names of its files."""
    return [os.path.basename(file["name"]) for file in spelling["files"]]


def members(groups):
    """The groups as names of files by spellings, in an order."""
    return sorted(sorted(sorted(names(spelling)) for spelling in group["spellings"]) for group in groups)


def wanted(groups):
    """The groups in the same order."""
    return sorted(sorted(map(sorted, some.values())) for some in groups)


def as_they_are(files, treated=False):
    """The files that are accepted, and those that are after treatments too: for each page that they draw its spellings,
    with the names of each."""
    pages = {}
    for each in kept(files).values():
        if each.sort in KINDS or treated and each.page is not None:
            page = b"" if each.sort == "blank" else each.page or each.data
            pages.setdefault(page, {}).setdefault(each.data, []).append(each.name)
    return list(pages.values())


def test_the_report_counts_what_was_put_in(files, checked, naplps, store, tmp_path):
    path = str(tmp_path / "report.html")
    asked(naplps, "report", store, "-o", path, "--max-pictures", "40", "--timeout", "600")
    some = kept(files)
    text = Path(path).read_text("utf-8")
    counts = {name: int(number.replace(",", "")) for name, number in re.findall(r"<dt>([^<]*)</dt><dd>([\d,]*)", text)}
    kinds = Counter(KINDS[each.sort] for each in some.values() if each.sort in KINDS)
    assert (counts["files"], counts["accepted"], counts["refused"]) == (
        len(some), sum(kinds.values()), len(some) - sum(kinds.values()))
    assert (counts["accepted: pages"], counts["accepted: texts"], counts["accepted: blank"]) == (
        kinds["page"], kinds["text"], kinds["blank"])
    drawn = as_they_are(files, treated=True)
    spelled = [spellings for spellings in drawn if len(spellings) > 1]
    alone = [names for spellings in drawn if len(spellings) == 1 for names in spellings.values()]
    assert counts["groups of equal pages that are spelled differently"] == len(spelled) > 50
    assert counts["groups of copies alone"] == sum(len(names) > 1 for names in alone) > 50
    assert counts["different pages"] == len({each.data for each in some.values()})
    readable = {}
    for name, each in some.items():
        if each.treatments:
            key = " ".join(str(part) for part in (
                checked[name]["number"], checked[name]["fault"], checked[name]["code"]) if part)
            readable[key] = readable.get(key, 0) + 1
    told = {reason: sum(int(each.replace(",", "")) for each in re.findall(r"([\d,]+) by ", means))
            for reason, means in re.findall(r'data-answer="([^"]*)".*?class="means">([^<]*)<', text)}
    assert {reason: number for reason, number in told.items() if number} == readable
