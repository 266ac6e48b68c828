"""The drawing of sketches in time, beside that of players in browser/: the elements that a sketch has, each with the
entry that it came with, and what changes the colours of what stands. Its colours of the map are addresses, since the
map is live."""
import json
from dataclasses import dataclass
from typing import Dict, List, Optional

from naplps.entry import Blink, BlinkEnd, BlinkMark, Entry, Map, Wait
from naplps.drawing.colours import BLACK, FIRST, Palette, direct
from naplps.drawing.measure import HEIGHT, WIDTH
from naplps.drawing.paper import AROUND, MOST_BYTES, Cost, Element, Full, LetterCells, Paper
from naplps.drawing.walk import ENDS, Lines, Walk, entries_of
from naplps.drawing.weight import Weight

# What stands before an address of the map, where a sketch has the colour.
ADDRESS = "@n"


@dataclass(frozen=True)
class Timeline:
    """A drawing in time as JSON, how many of the entries are drawn, and why no more of them where it ends before."""

    json: str
    drawn: int
    end: str


class AddressPalette(Palette):
    """The addresses of the map in place of their colours."""

    def __init__(self) -> None:
        super().__init__(())

    def at(self, address: int) -> str:
        """The address."""
        return f"{ADDRESS}{address}"


class TimelinePaper(Paper):
    """Keeps elements as they are in JSON, with the entries that they came with."""

    def __init__(self) -> None:
        super().__init__(lambda: "n")
        self.steps: List[Dict[str, object]] = []
        self.named: Dict[str, Dict[str, object]] = {}
        self.held = 0
        self.highest = 0.0

    def _count(self, cost: Cost, size: int, weight: float) -> None:
        super()._count(cost, size, weight)
        self.held += size
        if self.held > MOST_BYTES - AROUND and not self.full:  # (what CLEAR takes away was there before)
            self.full = True
            raise Full

    def has_room(self, size: int, weight: Weight) -> bool:
        """Whether something of this cost can be drawn, and the drawing continues."""
        return super().has_room(size, weight) and self.held + size <= MOST_BYTES - AROUND

    def step(self, **members: object) -> None:
        """Adds a step, which came with the entry that is drawn."""
        self.steps.append({"entry": self.entry, **members})

    def keep_on_page(self, element: Element, markup: str, letters: Optional[LetterCells]) -> None:
        """Adds a step that draws."""
        if letters is None:
            self.step(draw=_members(element))
        else:
            self.step(draw=_members(element), entry=letters.entries[0], letters=letters.entries, x=round(letters.x, 2),
                      cell=round(letters.wide, 4))

    def keep_definition(self, element: Element, markup: str) -> None:
        """Keeps a definition by its name."""
        self.named[element.attributes["id"]] = _members(element)

    def clear(self, colour: str) -> None:
        """Adds a step that clears."""
        self.highest = max(self.highest, self.top)
        super().clear(colour)
        if self.on_page:
            self.step(clear=colour)


class TimelineWalk(Walk):
    """Walks over the entries, and adds steps of those that a sketch leaves out."""

    def __init__(self, lines: Lines) -> None:
        self.timeline = TimelinePaper()
        super().__init__(lines, AddressPalette(), self.timeline)

    def entry(self, entry: Entry) -> None:
        """Draws an entry, or adds the step that it is."""
        super().entry(entry)
        step, palette = self.timeline.step, self.palette
        if isinstance(entry, Map):
            step(map=palette.at(entry.address), to=direct(entry.value))
        elif isinstance(entry, Blink):
            step(blink=palette.front(entry.colour), to=palette.at(entry.address), on=entry.on, off=entry.off,
                 delay=entry.delay)
        elif isinstance(entry, BlinkEnd):
            step(steady=palette.front(entry.colour))
        elif isinstance(entry, BlinkMark):
            step(blinking=entry.on)
        elif isinstance(entry, Wait):
            step(wait=entry.tenths)


def timeline(lines: Lines) -> Timeline:
    """The drawing of the page with these lines or entries, in time. It has the bounds of a sketch."""
    entries = entries_of(lines)
    walk = TimelineWalk(entries)
    drawn = walk.draw()
    paper = walk.timeline
    is_tall = max(paper.top, paper.highest) > HEIGHT / WIDTH + 0.001
    members = {"wide": WIDTH, "high": WIDTH if is_tall else HEIGHT, "foot": HEIGHT, "ground": BLACK, "first": FIRST,
               "address": ADDRESS, "drawn": drawn, "named": paper.named, "steps": paper.steps}
    told = json.dumps(members, separators=(",", ":"))
    return Timeline(told, drawn, "" if drawn == len(entries) else ENDS % (drawn + 1))


def _members(element: Element) -> Dict[str, object]:
    members: Dict[str, object] = {"name": element.name, "attributes": element.attributes}
    if element.inside:
        members["inside"] = [_members(each) for each in element.inside]
    if element.text:
        members["text"] = element.text
    return members
