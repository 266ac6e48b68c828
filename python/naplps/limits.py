"""How much a page may cost: its budget, its length as a request, and what the program may take to answer."""
import operator
from typing import NamedTuple

# How many bytes of macro bodies a page may be charged with.
USUAL_BUDGET = 1048576
MOST_BUDGET = 67108864
# A longer page is no request of `naplps batch`.
MOST_PAGE = 16 << 20
# Of a page with more entries than these none is shown.
MOST_LISTED = 200_000


class Limits(NamedTuple):
    """What the program may take for one page: seconds, bytes of memory, bytes of an answer."""

    seconds: float = 20.0
    memory: int = 1 << 30
    answer: int = 1 << 29


# What the program may take for entries that are to be shown.
MODEST = Limits(memory=256 << 20, answer=64 << 20)


def budget_of(number: int) -> int:
    """The budget as an int. Raises TypeError for what is no whole number, and ValueError beyond 0 to MOST_BUDGET."""
    budget = operator.index(number)
    if not 0 <= budget <= MOST_BUDGET:
        raise ValueError(f"a budget is from 0 to {MOST_BUDGET}, not {budget}")
    return budget
