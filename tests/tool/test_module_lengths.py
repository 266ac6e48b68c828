"""The module reads a page by the length that its memory has, whatever a class of the caller's own says of it."""
import os
import subprocess
import sys

import pytest

from command import PACKAGES
from libraries import library_path
from samples import POINT_AND_BELL

# Each is a member of a class above bytes or bytearray that says something else than there is.
LIES = {
    "long": "def __len__(self): return 1 << 40", "longer": "def __len__(self): return 4096",
    "short": "def __len__(self): return 1", "empty": "def __len__(self): return 0",
    "no length": "def __len__(self): raise ZeroDivisionError",
    "no truth": "def __bool__(self): raise ZeroDivisionError", "other bytes": "def __bytes__(self): return b'x' * 100",
    "other items": "def __getitem__(self, at): return 0", "other order": "def __iter__(self): return iter(b'xyz')",
    "other buffer": "def __buffer__(self, flags): return memoryview(b'xyz' * 99)",
    "other sum": "def __radd__(self, left): return b'xyz'\n    def __add__(self, right): return b'xyz'",
    "other class": "@property\n    def __class__(self): return memoryview",
    "other attributes": "nbytes = 1 << 40\n    readonly = False\n    def tobytes(self): return 5",
    "equal to all": "def __eq__(self, other): return True\n    def __hash__(self): return 1",
}
PROGRAM = """
import sys
sys.path.insert(0, %(packages)r)
import naplps
def fed(page):
    checker = naplps.Checker()
    checker.feed(page)
    checker.feed(page)
    return checker.finish()
def treated(page):
    cure = naplps.treatments(page)
    return cure and cure.data
calls = [naplps.check, naplps.entries, naplps.lines, naplps.canon, naplps.places, naplps.svg, naplps.text,
         treated, fed] + ([naplps.canon_form1, naplps.is_plain] if %(library)r else [])
page, refused = %(page)r, b"\\x0e\\x26\\x40\\x40\\xff"
def told(call, page):
    try:
        return repr(call(page))
    except naplps.Refused as reason:
        return str(reason)
count = 0
for kind in (bytes, bytearray):
    class Page(kind):
        %(lie)s
    for whole in (page, refused, page * 40):
        for call in calls:
            assert told(call, Page(whole)) == told(call, whole), (kind, call, whole)
            count += 1
class Fake:
    __class__ = bytes
for call in calls:
    try:
        call(Fake())
    except TypeError:
        count += 1
print(count)
"""


@pytest.mark.parametrize("lie", LIES)
@pytest.mark.parametrize("kind", ["library", "program"])
def test_a_class_of_the_callers_own_changes_nothing(kind, lie, naplps):
    """In a process of its own, which a read out of bounds would end."""
    library = kind == "library"
    program = PROGRAM % {"packages": PACKAGES, "library": library, "page": POINT_AND_BELL,
                         "lie": LIES[lie].replace("\n", "\n    ")}
    named = {"NAPLPS_LIBRARY": library_path()} if library else {"NAPLPS_LIBRARY": "", "NAPLPS": naplps}
    run = subprocess.run([sys.executable, "-c", program], env=dict(os.environ, **named), capture_output=True, text=True)
    assert (run.returncode, run.stderr) == (0, "")
    calls = 11 if library else 9
    assert int(run.stdout) == 2 * 3 * calls + calls
