"""The document of a report, with what is embedded in it."""
import base64
import json
import os
import re
import zlib
from html import escape
from typing import Dict, List, Sequence, Tuple

from ..player import component, policy_hash, resource
from .facts import Choice, Facts, GroupSummary, ReasonRow, of_spellings

# (9 takes twice the time of 7, and leaves 2 bytes in a hundred less)
LEVEL = 7


def packed(value: object) -> str:
    """The value as base64."""
    return packed_json(json.dumps(value, ensure_ascii=True, separators=(",", ":")))


def packed_json(text: str) -> str:
    """JSON in ASCII as base64."""
    return base64.b64encode(zlib.compress(text.encode("ascii"), LEVEL)).decode("ascii")


HERE = os.path.dirname(os.path.abspath(__file__))
POLICY = ("default-src 'none'; script-src %s; style-src %s; img-src blob:; %sbase-uri 'none'; form-action 'none'")
# What a page that is served may ask for: its own server.
ASKING = "connect-src 'self'; "
SCRIPTS = ("elements.js", "wall.js", "play_tab.js", "page.js", "report.js")
READABLE = " Copies that treatments made readable are among them, and marked; a guess may draw something else."
MARK = re.compile(r"@([A-Z]+)@")


class Document:
    """A page with its style and script, the only ones that may act in it."""

    def __init__(self, facts: Facts, groups: List[GroupSummary], source: str) -> None:
        """`source` names the script of where the files, groups and drawings come from."""
        style, script = component()
        style, script = _resource("report.css") + style, _resource(source) + script + "".join(map(_resource, SCRIPTS))
        self.policy = POLICY % (policy_hash(script), policy_hash(style), ASKING if source == "asked.js" else "")
        self.parts: Dict[str, str] = {
            "POLICY": escape(self.policy), "STYLE": style, "SCRIPT": script, "TITLE": escape(_title(facts)),
            "SCAN": _scan(facts), "COUNTS": _counts(facts.counts), "CHART": chart(facts.reasons, facts.files),
            "ANSWERS": _options(facts.choices.answers), "GROUPS": _groups_sentence(groups),
            "COPIES": " checked" if groups and not of_spellings(groups) else "",
            "FIND": "words, or part of a name" if source == "held.js" or facts.has_words else "part of a name",
            "KINDS": _choice("kind", "Kind", "each kind", facts.choices.kinds),
            "CURES": _choice("cure", "Treatment", "each", facts.choices.cures),
            "FOLDERS": _choice("folder", "Folder", "each folder", facts.choices.folders),
            "OTHERS": _others(facts.choices.others)}

    def html(self, held: str, data: str) -> str:
        """The page, with a sentence on what it holds and with its data."""
        parts = {**self.parts, "HELD": escape(held), "DATA": data}
        return MARK.sub(lambda found: parts[found[1]], _resource("report.html"))


def data_of(table: str, blocks: Sequence[str], texts: Sequence[str], played: Sequence[str]) -> str:
    """The elements with packed data."""
    return '<script type="text/plain" id="table">%s</script>\n' % table + "".join(
        '<script type="text/plain" class="%s">%s</script>\n' % (name, data)
        for name, some in (("block", blocks), ("texts", texts), ("played-block", played)) for data in some)


def _resource(name: str) -> str:
    return resource(HERE, name)


def _title(facts: Facts) -> str:
    names = [name for _, name in facts.roots.names]
    return "NAPLPS pages" + (" of " + ", ".join(names[:3]) if names else "") + (" .." if len(names) > 3 else "")


def _scan(facts: Facts) -> str:
    run = facts.run
    if run is None:
        return "Nothing was scanned."
    ended = "Scanned on" if run.ended else "The scan was not ended that began on"
    return "%s <time>%s</time> UTC by %s, with a budget of %s bytes." % (
        ended, escape(run.began), escape(run.version), "{:,}".format(run.budget))


def _counts(counts: List[Tuple[str, int]]) -> str:
    return "".join("<div><dt>%s</dt><dd>%s</dd></div>" % (escape(name), "{:,}".format(number))
                   for name, number in counts)


def _options(some: List[Choice]) -> str:
    return "".join('<option value="%s">%s (%s)</option>' % (escape(name), escape(name), "{:,}".format(number))
                   for name, number in some)


def _choice(name: str, label: str, every: str, some: List[Choice]) -> str:
    """A field of the form, where there is something to choose."""
    if not some:
        return ""
    return ('<span class="field"><label for="%s">%s</label>\n<select id="%s"><option value="">%s</option>%s</select>'
            "</span>\n" % (name, label, name, every, _options(some)))


def _groups_sentence(groups: List[GroupSummary]) -> str:
    if not groups:
        return "No two files have equal pages."
    spelled, copies = of_spellings(groups), any(group.copies for group in groups)
    return "Pages of one group draw the same. %s differently spelled pages, %s plain copies alone.%s" % (
        _so_many(spelled), _so_many(len(groups) - spelled), READABLE if copies else "")


def _others(number: int) -> str:
    """The box that shows files that aren't pages, where there are any."""
    text = "also texts, blank files and others ({:,})".format(number)
    return f'<label class="check"><input type="checkbox" id="others"> {text}</label>\n' if number else ""


def _so_many(number: int) -> str:
    return "1 group has" if number == 1 else "{:,} groups have".format(number)


WIDE = 300
# The greatest number of treatments that are named for a reason.
MOST_TOLD = 4
HEAD = ('<table class="chart"><thead><tr><th scope="col">Reason<th scope="col" class="bar">'
        '<span class="unseen">Bar</span><th scope="col" class="number">Files<th scope="col" class="number">Of all'
        '<th scope="col" class="means">It means</tr></thead>')
BAR = '<svg viewBox="0 0 %d 16" preserveAspectRatio="none" aria-hidden="true"><rect width="%.1f" height="16"/></svg>'


def chart(reasons: List[ReasonRow], files: int) -> str:
    """A row for each reason, with a bar that is as long as it has files."""
    if not reasons:
        return "<p>No page is refused.</p>"
    most = max(reason.files for reason in reasons)
    return "%s<tbody>%s</tbody></table>" % (HEAD, "".join(_row(reason, most, files) for reason in reasons))


def _row(reason: ReasonRow, most: int, files: int) -> str:
    bar = BAR % (WIDE, max(2.0, WIDE * reason.files / most))
    text = escape(reason.title)
    return ('<tr><th scope="row"><button class="name" data-answer="%s">%s</button><td class="bar">%s'
            '<td class="number">%s<td class="number">%.2f%%<td class="means">%s</tr>') % (
        text, text, bar, "{:,}".format(reason.files), 100 * reason.files / max(files, 1),
        escape(" ".join(part for part in (reason.means, _readable(reason.readable)) if part)))


def _readable(some: List[Tuple[str, int]]) -> str:
    """How many files of a reason are readable by which treatments, those of most first."""
    text = ["{:,} by {}".format(files, by) for by, files in some[:MOST_TOLD]]
    left = sum(files for _, files in some[MOST_TOLD:])
    text += ["{:,} by others".format(left)] if left else []
    return "Readable when treated: %s." % ", ".join(text) if text else ""
