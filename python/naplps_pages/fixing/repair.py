"""Repairs that make refused pages readable, and the copies that they make."""
from __future__ import annotations

from typing import TYPE_CHECKING, Dict, List, Optional

from naplps.names import shown

if TYPE_CHECKING:
    from naplps.answers import Answer, Refusal
    from naplps.names import Members
    from naplps.treating.treatments import Cure
    from ..page_session import Session
    from ..source import Page


def repair(session: Session, page: Page, answer: Refusal) -> Optional[Dict[str, str]]:
    """Tells of the repair that makes a refused page readable, and writes the copy; where there is none, answers the
    repairs that weren't tried, and why."""
    from naplps.treating.treatments import TreatmentSearch
    assert page.data is not None
    search = TreatmentSearch(session.program.ask)
    cure = search.find(page.data, answer.place)
    if cure is None:
        return search.unsure
    report(session, page, answer, cure)
    if session.into is not None:
        _write(session, page, answer, cure)
    return None


def report(session: Session, page: Page, answer: Answer, cure: Optional[Cure],
           unsure: Optional[Dict[str, str]] = None) -> None:
    """Tells of a page, of the copy that a repair makes, or of the repairs that aren't sure."""
    from naplps.answers import Accepted, Refusal
    from ..notes import treatment_members
    from ..schema import answered, dumps
    if session.json:
        reasons = None if cure or not isinstance(answer, Refusal) else [
            {"treatment": name, "reason": why} for name, why in (unsure or {}).items()]
        session.output.line(dumps({
            **answered(page.name, answer), "cure": treatment_members(page.data or b"", cure) if cure else None,
            "unsure": reasons}))
        return
    lines = [answer.line] if isinstance(answer, (Accepted, Refusal)) else []
    if isinstance(answer, Refusal):
        lines += _treatment_lines(page, cure) if cure else ["no repair makes it readable", *(
            "%s: not tried, since it isn't sure: %s" % each for each in (unsure or {}).items())]
    for line in lines:
        session.output.line(session.front(page.name) + line)


def _treatment_lines(page: Page, cure: Cure) -> List[str]:
    import hashlib
    from ..notes import warning
    assert page.data is not None
    lines = ["%s, %s: %s: %s" % (each.treatment, each.grade, "rewritten" if each.added else "taken away", each.what)
             for each in cure.treated.changes]
    lines.append(f"then: accepted {cure.entries} entries")
    for when, data in (("before", page.data), ("after", cure.treated.data)):
        lines.append(f"{when}: {len(data)} bytes, sha256 {hashlib.sha256(data).hexdigest()}")
    return lines + [warning(cure)]


def _write(session: Session, page: Page, answer: Refusal, cure: Cure) -> None:
    """Writes the treated copy, and before it, beside it, where it comes from."""
    from naplps.client import version
    from ..notes import paths_with_notes, put_treated, treated_note, treatment_members
    path = session.path_for(page.name, making=lambda path: paths_with_notes([path]))
    treatment: Members = {**treatment_members(page.data or b"", cure),
                          "program": version(session.program.path, session.program.limits)}
    note = treated_note(page.name, answer, treatment, session.program.budget)
    put_treated(path, cure.treated.data, {**note, **session.path_members(path)})
    if not session.json:
        session.output.line(f"{session.front(page.name)}written: {shown(path)}, and {shown(path + '.json')}")
