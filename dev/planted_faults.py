"""Faults that somebody could make, and the test that catches each: the table of python3 -m dev.try_faults."""
import re
from pathlib import Path
from typing import Callable, NamedTuple

KEPT = "dist/x86_64-linux-gnu"


class Edit(NamedTuple):
    """The file in which a fault is planted, and what plants it there."""

    name: str
    change: Callable[[Path], object]

    def make(self, top: Path) -> None:
        """Plants the fault; raises ValueError where the file hasn't the text that goes."""
        self.change(top / self.name)


class Fault(NamedTuple):
    """A fault: its name, the edit that plants it, the test that catches it, and a text of that test's failure.

    The test is a file of pytest, or one test in it; or a command line.
    """

    name: str
    edit: Edit
    test: str
    text: str


def other_byte(name: str) -> Edit:
    """Changes a byte of a file."""
    def change(path: Path) -> None:
        data = bytearray(path.read_bytes())
        data[4096] ^= 1
        path.write_bytes(data)
    return Edit(name, change)


def put(name: str, pattern: str, text: str) -> Edit:
    """Replaces the first match of a pattern, which has to be there."""
    def change(path: Path) -> None:
        changed, number = re.subn(pattern, lambda _: text, path.read_text("utf-8"), count=1)
        if number != 1:
            raise ValueError(f"{name} has no {pattern}")
        path.write_text(changed, "utf-8")
    return Edit(name, change)


def swap(name: str, old: str, new: str) -> Edit:
    """Replaces a text, which has to stand once in the file."""
    def change(path: Path) -> None:
        before = path.read_text("utf-8")
        if before.count(old) != 1:
            raise ValueError(f"{name} has {before.count(old)} times {old}")
        path.write_text(before.replace(old, new), "utf-8")
    return Edit(name, change)


def add(name: str, text: str) -> Edit:
    """Adds a text to the end of a file."""
    return Edit(name, lambda path: path.write_text(path.read_text("utf-8") + text, "utf-8"))


def rename(name: str, to: str) -> Edit:
    """Gives a file another name in its folder."""
    return Edit(name, lambda path: path.rename(path.with_name(to)))


MADE = f"{KEPT}/MADE"
IN_MADE = "tests/packages/test_kept.py::test_made_has_"
VERDICTS, LISTED = (f"tests/sources/test_wrong_bodies.py::test_{name}" for name in ("verdicts", "list"))
BODY = "crates/nap_cli/wrong-bodies/parse_takes_wrong_words_as_list.edit"
NUMBERED_RULE = f"\nThis follows {'requirement'} 7.\n"
STARTED = "./naplps --version"
ASSERTIONS, COUNTS = "tests/sources/test_assertions.py", "tests/sources/test_counts.py"
CONSTANT = add("crates/nap_lines/src/lib.rt", "pub const MORE: u8 = 0;\n")
IN_PYTHON, IN_RUST = "\n\ndef test_it():\n    len('')\n", "\n#[test]\nfn nothing_is_so() {\n    let _ = 1;\n}\n"
OF_SOURCES = (
    Fault("a byte of the kept program", other_byte(f"{KEPT}/naplps"), f"{IN_MADE}the_file",
          "naplps isn't that of MADE"),
    Fault("a byte of the kept program, started", other_byte(f"{KEPT}/naplps"), STARTED, "has other bytes"),
    Fault("a byte of the kept library", other_byte(f"{KEPT}/libnap_c.a"), f"{IN_MADE}the_file",
          "libnap_c.a isn't that of MADE"),
    Fault("a verdict that only assumes", put(MADE, "=proved", "=assumed"), f"{IN_MADE}a_verdict",
          "no verdict on nap_values"),
    Fault("a verdict that proves nothing", put(MADE, "=proved", "=unproved"), f"{IN_MADE}a_verdict",
          "no verdict on nap_values"),
    Fault("a verdict on fewer functions", put(MADE, r"(?<=functions=)\d+", "1"), f"{IN_MADE}a_verdict",
          "rt ci said"),
    Fault("a verdict with another number of axioms", put(MADE, "axioms=13", "axioms=14"), f"{IN_MADE}a_verdict",
          "rt ci said"),
    Fault("a source without its program", CONSTANT, f"{IN_MADE}the_sources", "made from other sources of nap_cli"),
    Fault("a source without its program, started", CONSTANT, STARTED, "was made from other sources"),
    Fault("a verdict on a wrong body that was accepted",
          put("crates/nap_cli/wrong-bodies/refused", r"list [0-9a-f].*", "list accepted"), VERDICTS, "has no verdict"),
    Fault("a wrong body that changed", put(BODY, r"(?m)^new: ", "new:  "), VERDICTS, "has no verdict"),
    Fault("a start that looks at no proofs", swap("scripts/files-sum", "/{src,specs,proofs}", "/{src,specs}"),
          f"{IN_MADE}the_files_of_the_program", "MADE hasn't the checksum of the files"),
    Fault("a target whose command isn't there", swap("Makefile", "python3 -m dev.try_faults", "python3 -m dev.faults"),
          "tests/sources/test_commands.py", "try_faults"),
    Fault("a wrong body without its row", rename(BODY, "other.edit"), LISTED, "other"),
    Fault("a definition that changed", put("crates/nap_values/specs/Operands.antt", r"\b64\b", "65"), VERDICTS,
          "has no verdict"),
    Fault("the row of a wrong body that names another file",
          put("docs/wrong-bodies.tsv", r"(?<=list\t)src/words\.rt", "src/program.rt"), LISTED, "src/words.rt"),
    Fault("a test in Python that asserts nothing", add("tests/tool/test_text.py", IN_PYTHON), ASSERTIONS, "test_it"),
    Fault("a test in Rust that asserts nothing", add("crates/nap_tests/src/tests/devices.rt", IN_RUST), ASSERTIONS,
          "nothing_is_so"),
    Fault("a sentence that names a rule by a number alone", add("docs/MODEL.md", NUMBERED_RULE),
          "tests/sources/test_stands_alone.py", "MODEL.md"),
    Fault("a name that is imported in vain", put("python/naplps/names.py", r"(?m)^import ", "import zlib\nimport "),
          "tests/sources/test_python.py::test_pyflakes_finds_nothing", "zlib"),
    Fault("a count that is another", put("docs/LIBRARY.md", r"\btwelve calls", "ten calls"), COUNTS, "ten calls"),
    Fault("a module that isn't there", put("python/README.md", "`canon_filling`", "`canon_filler`"), COUNTS,
          "canon_filler"),
    Fault("a promise by a function that isn't there", put("docs/PROMISES.md", "`set_at`", "`at`"),
          "tests/sources/test_promises.py", "no function at"),
    Fault("a clause on one function more than its row has",
          swap("tests/sources/repeated-clauses.tsv", "nap_draw\t35\tStatesAgree", "nap_draw\t34\tStatesAgree"),
          "tests/sources/test_repeated_clauses.py", "stands on more than 34 functions"),
    Fault("a step of a way that names no file", put("docs/ARCHITECTURE.md", r"`crates/nap_codes/src/opcode\.rt`",
                                                    "`crates/nap_codes/src/opcodes.rt`"),
          "tests/sources/test_ways.py", "there is no such path"),
    Fault("a clause of the headline in other words", put("docs/HEADLINE.md", r"canonical streams have equal bytes",
                                                         "canonical streams have the same bytes"),
          "tests/sources/test_headline.py", "HEADLINE.md"),
)
OF_CRATES = (
    Fault("a row that expects another size",
          put("crates/nap_rows/data/text.rows", "text=0,0/small/----", "text=0,0/normal/----"),
          "tests/program/test_batch_pages.py::test_rows", "text.rows"),
    Fault("a public function without a sentence",
          swap("crates/nap_values/src/word.rt", "    /// Returns the number of the word, from 0 to 63.\n", ""),
          "tests/sources/test_public_items.py", "fn get has no sentence"),
    Fault("Whether before a function that gives no bool",
          swap("crates/nap_values/src/word.rt", "/// Returns the number of", "/// Whether the number of"),
          "tests/sources/test_public_items.py", "begins with no verb"),
    Fault("a clause on one more function",
          add("crates/nap_draw/src/lib.rt", "\nfn more(code: u8)\n    requires { IsMade code.now }\n{}\n"),
          "tests/sources/test_repeated_clauses.py", "stands on more than 4 functions"),
    Fault("a name that two files define", put("crates/nap_lines/specs/Writing.antt", "line_limit", "run_limit"),
          "tests/sources/test_names.py", "nap_draw/specs/Limits.antt, crates/nap_lines/specs/Writing.antt"),
    Fault("a citation of another crate's lemma",
          add("crates/nap_draw/proofs/Lib.antt", "use Rattle.nap_list.proofs.Common.{refl}\n"),
          "tests/sources/test_citations.py", "crates/nap_draw/proofs/Lib.antt"),
    Fault("a public call by another name",
          swap("crates/nap_values/src/point.rt", "pub fn by(", "pub fn moved("),
          "tests/sources/test_public_names.py", "nap_values has no such call Point::by"),
    Fault("a mark that the compiler drops",
          swap("crates/nap_canon/src/pending/prelude.rt", "#[inline(never)]\n    fn append_colour(",
               "#[inline(always)]\n    fn append_colour("),
          "tests/sources/test_inline_marks.py", "Pending::append_colour is marked, and stands by itself"),
)
OF_TOOL = (
    Fault("an accent's sign by another mark",
          swap("python/naplps/letters.py", "bare[-1] in _MARKED else ()", "bare[0] in _MARKED else ()"),
          "tests/tool/test_authoring.py::test_letters", "not 'é'"),
    Fault("the pen after a rectangle is its corner",
          swap("python/naplps/writer.py", "return (entry.end[0], entry.start[1])",
               "return (entry.start[0], entry.end[1])"),
          "tests/tool/test_authoring.py::test_parts_that_are_left_out_stand", "AssertionError"),
    Fault("END without a definition",
          swap("python/naplps/writer.py", "isinstance(entry, DefEnd) and self.saved is None",
               "isinstance(entry, DefEnd) and self.saved is not None"),
          "tests/tool/test_authoring.py::test_why_a_line_cannot_come", "TypeError"),
    Fault("a definition within a definition",
          swap("python/naplps/writer.py", "isinstance(entry, (GlyphStart, MaskStart)) and self.saved is not None",
               "isinstance(entry, GlyphStart) and self.saved is not None"),
          "tests/tool/test_authoring.py::test_why_a_line_cannot_come", "TypeError"),
    Fault("RESET's colour stays known",
          swap("python/naplps/writer.py", "            self.known.clear()\n", "            pass\n"),
          "tests/tool/test_authoring.py::test_colours_of_the_map_that_are_set_again_are_left_out", "AssertionError"),
    Fault("SI shifts as SO does",
          swap("python/naplps/treating/borders.py", "self.left = 1 if byte == 0x0E else 0",
               "self.left = 0 if byte == 0x0E else 1"),
          "tests/tool/test_borders.py::test_bytes_that_draw", "AssertionError"),
    Fault("single shifts are swapped",
          swap("python/naplps/treating/borders.py", "2 if byte == 0x19 else 3)", "3 if byte == 0x19 else 2)"),
          "tests/tool/test_borders.py::test_bytes_that_do_not_draw", "AssertionError"),
    Fault("RESET 7 begins no page",
          swap("python/naplps/treating/borders.py", "CLEARS = (1, 2, 5, 6, 7)", "CLEARS = (1, 2, 5, 6)"),
          "tests/tool/test_borders.py::test_a_page_that_clears_the_screen_again", "AssertionError"),
    Fault("a code of a mask below A",
          swap("python/naplps/canonical.py", "self._argument(0x41, 0x44)", "self._argument(0x40, 0x44)"),
          "tests/tool/test_canonical.py::test_random_and_changed_bytes", "AssertionError"),
    Fault("the pen after a glyph is its own",
          swap("python/naplps/canonical.py", "self.state, self.saved = self.saved, None", "self.saved = None"),
          "tests/tool/test_canonical.py::test_vectors_and_rows_by_their_documented_lines", "AssertionError"),
    Fault("a repeat behind any entry",
          swap("python/naplps/canonical.py", 'self._refuse_if(not self.after_character, "NothingToRepeat", place)',
               "pass"),
          "tests/tool/test_canonical.py::test_random_and_changed_bytes", "AssertionError"),
    Fault("a point on the edge of the screen",
          swap("python/naplps/canonical.py", "0 <= each < ONE for points", "0 <= each <= ONE for points"),
          "tests/tool/test_canonical.py::test_each_row_of_the_table_of_refusals_has_vectors_that_all_three_refuse",
          "AssertionError"),
    Fault("delay and off are swapped",
          swap("python/naplps/canonical.py", "on, off, delay = words[4:]", "on, delay, off = words[4:]"),
          "tests/tool/test_canonical.py::test_vectors_and_rows_by_their_documented_lines", "AssertionError"),
    Fault("RESET keeps the texture", swap("python/naplps/canonical.py", "if second & 8:", "if second & 4:"),
          "tests/tool/test_canonical.py::test_vectors_and_rows_by_their_documented_lines", "AssertionError"),
    Fault("RESET's base colour stays",
          swap("python/naplps/canonical.py", 'if code == 1:\n            state["base"]',
               'if code == 2:\n            state["base"]'),
          "tests/tool/test_canonical.py::test_vectors_and_rows_by_their_documented_lines", "AssertionError"),
    Fault("a refusal's number one too great", swap("python/naplps/answers.py", "number > 22", "number > 23"),
          "tests/tool/test_client.py::test_lines_that_are_no_answers", "DID NOT RAISE"),
    Fault("a place behind the page", swap("python/naplps/answers.py", "place > length)", "place > length + 1)"),
          "tests/tool/test_client.py::test_lines_that_are_no_answers", "DID NOT RAISE"),
    Fault("a text of letters alone is a page",
          swap("python/naplps_pages/file_kinds.py", "return PAGE if any(", "return PAGE if not any("),
          "tests/tool/test_file_kinds.py::test_kinds_of_accepted_files", "AssertionError"),
    Fault("capitals are other letters", swap("python/naplps_pages/page_words.py", "return text.lower()", "return text"),
          "tests/tool/test_find.py::test_lines_that_are_found", "AssertionError"),
    Fault("the last line is never the wrong one",
          swap("python/naplps/answers.py", "self.wrong_line.number > count", "self.wrong_line.number >= count"),
          "tests/tool/test_make.py::test_each_line_is_known", "NoAnswer"),
    Fault("two threads in one checker",
          swap("python/naplps/pages.py", "self._lock.acquire(blocking=False)", "self._lock.acquire()"),
          "tests/tool/test_module_threads.py::test_one_thread_at_a_time_feeds", "is_busy"),
    Fault("offsets of a guess from the file's start",
          swap("python/naplps_pages/guessing.py", "str(place - first)", "str(place)"),
          "tests/tool/test_past.py::test_a_page_after_others_has_its_own_offsets", "AssertionError"),
    Fault("a shift before a refused byte stays",
          swap("python/naplps_pages/guessing.py", "return Span(place - 1, place)", "return Span(place, place + 1)"),
          "tests/tool/test_past.py::test_what_is_refused_is_passed_over", "AssertionError"),
    Fault("a guess with nothing new",
          swap("python/naplps_pages/guessing.py", "if len(lines) == same:", "if len(lines) < same:"),
          "tests/tool/test_past.py::test_nothing_is_behind", "AssertionError"),
    Fault("a line that goes down is upside down",
          swap("python/naplps/dots/shapes.py", "if a[1] > b[1]:", "if a[1] < b[1]:"),
          "tests/tool/test_raster.py::test_shapes_as_the_document_has_them", "AssertionError"),
    Fault("the top row of a box is left out",
          swap("python/naplps/dots/shapes.py", "range(max(low, 0), min(top, grid.high))]",
               "range(max(low, 0), min(top, grid.high) - 1)]"),
          "tests/tool/test_raster.py::test_shapes_as_the_document_has_them", "AssertionError"),
    Fault("a cosine with two digits swapped", swap("python/naplps/dots/shapes.py", "64827", "64287"),
          "tests/tool/test_raster.py::test_shapes_as_the_document_has_them", "AssertionError"),
    Fault("a hexadecimal mark is a name",
          swap("python/naplps_pages/refusals.py", 'word[2:] if word.startswith("0x") else word', "word"),
          "tests/tool/test_reasons.py::test_refused_by_a_reason", "AssertionError"),
    Fault("path and spacing are swapped",
          swap("python/naplps/drawing/writing.py", "look.first >> 2 & 3, look.first >> 4 & 3",
               "look.first >> 4 & 3, look.first >> 2 & 3"),
          "tests/tool/test_text_layout.py::test_letters_in_proportional_spacing_advance_by_their_columns",
          "AssertionError"),
    Fault("home is above the field",
          swap("python/naplps/drawing/writing.py", "self.field[3] - abs(size.high)\n        self.scrolled",
               "self.field[3]\n        self.scrolled"),
          "tests/tool/test_text_layout.py::test_a_word_goes_to_the_next_line_whole", "AssertionError"),
    Fault("a whole side lies outside",
          swap("python/naplps/writer.py", "(ONE // self._steps), ONE - 1)", "(ONE // self._steps), ONE)"),
          "tests/tool/test_writer.py::test_shapes", "NotMade"),
)
OF_SCRIPTS = (
    Fault("the last byte is one too many",
          swap("browser/fetching.js", "length + value.length > most", "length + value.length >= most"),
          "tests/browser/test_fetching.py::test_no_more_is_read_than_the_limit_and_a_piece", "AssertionError"),
    Fault("an error page is a page", swap("browser/fetching.js", "if (!response.ok)", "if (false)"),
          "tests/browser/test_fetching.py::test_what_the_header_promises_too_long_is_not_read", "fetched: 404"),
    Fault("a coded length counts", swap("browser/fetching.js", '!headers.get("Content-Encoding") && ', ""),
          "tests/browser/test_fetching.py::test_what_the_header_promises_too_long_is_not_read", "AssertionError"),
    Fault("bytes after the end", swap("browser/fetching.js", "return bytes.slice(0, length);", "return bytes;"),
          "tests/browser/test_fetching.py::test_the_module_has_64_mebibytes_of_memory", "AssertionError"),
    Fault("another colour of the map, in JavaScript", swap("browser/picture.js", ">> 20 & 15", ">> 16 & 15"),
          "tests/browser/test_element.py::test_pictures_are_the_sketches", "AssertionError"),
    Fault("RESET 7 leaves the screen, in JavaScript",
          swap("browser/raster.js", "const TO_BLACK = [1, 7]", "const TO_BLACK = [1]"),
          "tests/tool/test_raster_script.py::test_lists_by_chance", "AssertionError"),
    Fault("reverse letters are plain, in JavaScript",
          swap("browser/raster.js", "[ground === null ? BLACK : ground, first] : [first, ground]",
               "[first, ground] : [first, ground]"),
          "tests/tool/test_raster_script.py::test_the_vectors", "AssertionError"),
    Fault("the wrong mask, in JavaScript", swap("browser/raster.js", '"ABCD"[which - 4]', '"ABCD"[which - 3]'),
          "tests/tool/test_raster_script.py::test_the_vectors", "AssertionError"),
    Fault("no edge of an area, in JavaScript",
          swap("browser/raster.js", "(entry.texture.word & 4) !== 0", "(entry.texture.word & 8) !== 0"),
          "tests/tool/test_raster_script.py::test_the_vectors", "AssertionError"),
    Fault("a blinking page doesn't blink, in JavaScript",
          swap("browser/raster.js", 'kind === "BLINK-START" ? MARK : 0', 'kind === "BLINK-START" ? 0 : MARK'),
          "tests/tool/test_raster_script.py::test_the_vectors", "AssertionError"),
)
OF_DEV = (
    Fault("a semicolon within brackets ends a head",
          swap("dev/rattle/tokens.py", 'depth += (sign in "([") - (sign in ")]")', "depth = 0"),
          "tests/sources/test_items.py", "test_items_have_kinds_names_and_owners"),
    Fault("a name is of the last file that defines it",
          swap("dev/rattle/logic.py", "found.setdefault(name, []).append(str(path.relative_to(top)))",
               "found[name] = [str(path.relative_to(top))]"),
          "tests/sources/test_logic.py", "test_files_of_a_name"),
    Fault("a type has no name", swap("dev/rattle/logic.py", "head[1] or head[2] if head", "head[2] if head"),
          "tests/sources/test_logic.py", "test_names_are_those_of_heads"),
    Fault("a group within a group ends it",
          swap("dev/rattle/paths.py", 'depth += 1 if found[0] == "{" else -1', 'depth -= found[0] == "}"'),
          "tests/sources/test_logic.py", "test_names_of_paths"),
    Fault("a name that is imported is called as here",
          swap("dev/rattle/paths.py", 'path.partition(" as ")[0].strip()', 'path.rpartition(" as ")[2].strip()'),
          "tests/sources/test_logic.py", "test_names_of_paths"),
    Fault("a late command has a status",
          swap("dev/judging.py", "Answer(LATE if status == -signal.SIGXCPU else status,", "Answer(status,"),
          "tests/sources/test_judging.py", "test_an_answer_that_comes_too_late"),
    Fault("a process that has ended is a failure",
          swap("dev/judging.py", "contextlib.suppress(ProcessLookupError, PermissionError)",
               "contextlib.suppress(PermissionError)"),
          "tests/sources/test_judging.py", "ProcessLookupError"),
    Fault("a comment within a comment ends it",
          swap("dev/rattle/tokens.py", 'depth += 1 if found["begins"] else -1\n',
               'depth = 1 if found["begins"] else 0\n'),
          "tests/sources/test_tokens.py::test_texts_with_the_same_tokens", "tokens_of_rattle"),
    Fault("blanks in a text of the logic don't count",
          swap("dev/rattle/logic.py", 'if kept and \'"\' not in kept and', "if kept and"),
          "tests/sources/test_tokens.py", "test_texts_with_other_tokens"),
    Fault("a body below each promise",
          swap("dev/rattle/promises.py", "if row.promises[0] == promise:", "if promise in row.promises:"),
          "tests/sources/test_promises_page.py", "test_the_page_is_that_of_the_list"),
    Fault("two bodies of one name", swap("dev/rattle/promises.py", "having[row.edit] == 1", "having[row.edit] >= 1"),
          "tests/sources/test_promises_page.py", "test_the_page_is_that_of_the_list"),
    Fault("a sentence by its lines from below",
          swap("dev/rattle/items.py", '" ".join(reversed(lines))', '" ".join(lines)'),
          "tests/sources/test_items.py", "test_items_have_attributes_comments_and_visibility"),
    Fault("a result has its bounds",
          swap("dev/rattle/items.py", 're.split(r"\\bwhere\\b", head.kept[end:].partition("->")[2])[0].strip()',
               'head.kept[end:].partition("->")[2].strip()'),
          "tests/sources/test_items.py", "test_signatures"),
    Fault("a plant that isn't found any more is no news",
          swap("dev/rattle/plants.py", "known - planted.findings if planted.is_whole and",
               "known - planted.findings if not planted.is_whole and"),
          "tests/sources/test_plants.py", "test_what_is_new_or_gone"),
    Fault("an edit that fits twice is made",
          swap("dev/rattle/edits.py", "if times != 1:", "if times > 1:"),
          "tests/sources/test_edits.py", "test_an_edit_that_does_not_fit"),
    Fault("a loop has no head",
          swap("dev/rattle/edits.py", "max(start + 1, end)", "start"),
          "tests/sources/test_edits.py", "test_where_an_edit_is"),
    Fault("a crate isn't among those below it", swap("dev/crates.py", "found = {name}", "found = {*crates[name]}"),
          "tests/sources/test_tables.py", "test_crates"),
    Fault("crates below by the wrong order", swap("dev/crates.py", "reversed([*crates])", "[*crates]"),
          "tests/sources/test_tables.py", "test_crates"),
    Fault("a comment of crates.txt is a need",
          swap("dev/crates.py", 'line.partition("#")[0].partition(":")', 'line.partition(":")'),
          "tests/sources/test_tables.py", "test_crates"),
    Fault("a table's hole is a text", swap("dev/tables.py", "or not all(row) ", ""),
          "tests/sources/test_tables.py", "test_a_table_with_a_hole_or_other_columns_is_refused"),
    Fault("a table's head has any names", swap("dev/tables.py", "number == 1 and row", "number == 0 and row"),
          "tests/sources/test_tables.py", "test_a_table_with_a_hole_or_other_columns_is_refused"),
    Fault("a version that is marked twice", swap("dev/rattle/unproved.py", "if count != 1:", "if count > 1:"),
          "tests/sources/test_unproved.py", "NotProved"),
)
FAULTS = (*OF_SOURCES, *OF_CRATES, *OF_TOOL, *OF_SCRIPTS, *OF_DEV)
