"""The library that tests ask, and libraries that aren't it."""
import os
import shutil
import subprocess

import pytest

from command import TOP
from naplps.backends import SONAME

# (tests set the variable)
NAMED = os.environ.get("NAPLPS_LIBRARY") or os.path.join(TOP, "out")
NAMES = ("check", "list", "canon", "canon_form1", "places", "is_plain")
HEAD = """#include <stdint.h>
#include <stdlib.h>
struct answer { uint32_t status, number; uint64_t place, length; char name[32]; };
_Bool naplps_is_plain(const uint8_t *page, size_t length) { return 1; }
struct answer naplps_check_begin(void **page, uint32_t budget) { return (struct answer){0}; }
struct answer naplps_check_feed(void **page, const uint8_t *piece, size_t length) { return (struct answer){4}; }
struct answer naplps_check_finish(void **page) { return (struct answer){4}; }
void naplps_check_drop(void **page) {}
"""
CALL = "struct answer naplps_%s(uint32_t budget, uint8_t *page, size_t length%s) { return (struct answer){%s}; }\n"


# Calls of pieces that take their time, and answer a status that there isn't where two are in one page at once.
SLOW = """#include <stdint.h>
#include <unistd.h>
struct answer { uint32_t status, number; uint64_t place, length; char name[32]; };
struct page { void *at; };
static int inside;
static struct answer slowly(uint64_t entries) {
    int others = __atomic_fetch_add(&inside, 1, __ATOMIC_SEQ_CST);
    usleep(200000);
    __atomic_fetch_sub(&inside, 1, __ATOMIC_SEQ_CST);
    return (struct answer){others ? 99 : 0, 0, 0, entries};
}
struct answer naplps_check_begin(struct page *page, uint32_t budget) { return (struct answer){0}; }
struct answer naplps_check_feed(struct page *page, const uint8_t *piece, size_t length) { return slowly(0); }
struct answer naplps_check_finish(struct page *page) { return slowly(7); }
void naplps_check_drop(struct page *page) { if (__atomic_load_n(&inside, __ATOMIC_SEQ_CST)) _exit(9); }
_Bool naplps_is_plain(const uint8_t *page, size_t length) { return 1; }
"""


def library_path():
    """The path of the library: in the folder that NAPLPS_LIBRARY names, or in that of library/make-library."""
    path = os.path.abspath(os.path.join(NAMED, SONAME) if os.path.isdir(NAMED) else NAMED)
    if not os.path.isfile(path):
        pytest.skip("not tried: there is no library %s (library/make-library makes it)" % path)
    return path


def made_up(folder, answer, without="", head=HEAD):
    """Builds a library that gives this answer, the values of the struct in C, to each call; one name may lack."""
    if shutil.which("cc") is None:
        pytest.skip("not tried: there is no cc")
    source, path = os.path.join(folder, "made-up.c"), os.path.join(folder, SONAME)
    with open(source, "w", encoding="ascii") as file:
        file.write(head)
        for name in NAMES[:-1]:
            if name != without:
                file.write(CALL % (name, "" if name == "check" else ", uint8_t *room, size_t size", answer))
    subprocess.run(["cc", "-shared", "-fPIC", "-w", "-o", path, source], check=True)
    return path
