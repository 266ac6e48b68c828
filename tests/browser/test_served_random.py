"""A served report in a browser, used by chance: nothing acts, nothing fails, nothing else is asked, nothing changes.

It takes seconds. FUZZ_SECONDS=600 lets it run for so long.
"""
import collections
import json
import os
import random
import re
import socket
import time

from browser import GIVES_WAY, Browser
from folders import file_hashes
from random_requests import HOST, SECONDS, piece
from reports import ADDRESSES, HOSTILE, collection
from samples import needs_chromium
from scans import start, tree

pytestmark = needs_chromium
WAYS = r"((files|find|groups|details|drawing|thumbnail|played)\?[A-Za-z0-9=&%+*._~-]*)?"
TEXTS = [*HOSTILE, "", "page", "a", "PAGE 7", '"', '"unended', "a*", "NOT", "a OR b", "many/page 1", "\0", "\u202e",
         "x" * 5000, "%00", "../../etc/passwd", "&from=-1", "\x1b[31m"]
VIEWS = ["#list", "#equal", "#summary", "#pages", "", *("#" + each for each in ADDRESSES)]
KEYS = ["Enter", "Tab", "Escape", " ", "End", "Home", "ArrowLeft", "ArrowRight", "ArrowDown"]
# What can be pressed, and what can be chosen.
PRESSED = ("(() => {const some = [...document.querySelectorAll('button, a, summary, label, .leaf, [role=tab]')]; "
           "const it = some[Math.floor(%r * some.length)]; if (it) it.click(); return it?.textContent.slice(0, 20)})()")
CHOSEN = ("(() => {const some = [...document.querySelectorAll('select')]; const it = some[Math.floor(%r * "
          "some.length)]; if (!it) return; it.selectedIndex = Math.floor(%r * it.options.length); "
          "it.dispatchEvent(new Event('change', {bubbles: true}))})()")
FOUND = "(() => {const field = document.getElementById('text'); if (field) {field.focus(); field.value = ''}})()"
# What Chromium tells where an address names a page that the store hasn't.
NO_SUCH_PAGE = "the server responded with a status of 404"
NO_HASH = re.compile(r".*(there is no page of this hash|a page's hash has 16 digits or more|"
                     r"there is no page of the hash .{64})", re.DOTALL)
SOUND = "[typeof hacked, document.body?.dataset.fault ?? '', document.title]"


def find(browser, chance):
    """Types a text into the field for names."""
    browser.run(FOUND)
    browser.call("Input.insertText", text=chance.choice(TEXTS))


# What a visitor may do, and how often of all.
ACTS = {
    "press": (6, lambda browser, chance: browser.run(PRESSED % chance.random())),
    "choose": (2, lambda browser, chance: browser.run(CHOSEN % (chance.random(), chance.random()))),
    "find": (2, find),
    "key": (2, lambda browser, chance: browser.press(chance.choice(KEYS))),
    "view": (1, lambda browser, chance: browser.run("location.hash = " + json.dumps(chance.choice(VIEWS)))),
    # (never before the report: about:blank is first)
    "back": (1, lambda browser, chance: browser.run(
        "history.length > 2 && history.%s()" % chance.choice(("back", "forward")))),
    "size": (1, lambda browser, chance: browser.call(
        "Emulation.setDeviceMetricsOverride", width=chance.choice((390, 800, 1240)), height=900, deviceScaleFactor=1,
        mobile=False)),
    "reload": (1, lambda browser, chance: browser.call("Page.reload")),
}


def act(browser, chance):
    """One thing by chance; its name. A page that gives way to another meanwhile is no fault."""
    [name] = chance.choices([*ACTS], [often for often, _ in ACTS.values()])
    try:
        ACTS[name][1](browser, chance)
    except RuntimeError as error:
        if not any(each in str(error) for each in GIVES_WAY):
            raise
    return name


def test_a_browser_by_chance(naplps, run, tmp_path):
    home = tree(str(tmp_path / "home"), {".profile": b"x", ".ssh/id": b"secret"})
    collection(os.path.join(home, "pages"))
    assert run(["scan", "pages", "-o", "../x.db"], cwd=home, keeps="words repair").returncode in (0, 1)
    before, seed = file_hashes(home), os.environ.get("FUZZ_SEED") or str(time.time())
    chance, served = random.Random(seed), start(["report", "../x.db", "--serve", "--port", "0"], naplps, cwd=home)
    address = served.stdout.readline().decode().strip()
    port, key = int(address.split(":")[2].split("/")[0]), address.split("/")[3].encode()
    own, asked = re.compile(re.escape(address) + WAYS + "|blob:.*"), 0
    browser = Browser()
    try:
        browser.open(address)
        did, end = collections.Counter(), time.monotonic() + SECONDS
        while time.monotonic() < end:
            did[act(browser, chance)] += 1
            if chance.random() < 0.2:
                with socket.create_connection((HOST, port), 60) as client:
                    client.sendall(b"".join(piece(chance, key) for _ in range(9)).replace(b"%d", b"%d" % port))
            require_sound(browser, own, seed)
            asked += len(browser.requests)
            browser.requests.clear()
        browser.open(address + "#list")
        browser.until("document.querySelectorAll('#files tr').length > 50")
        require_sound(browser, own, seed)
    finally:
        browser.close()
        served.terminate()
    assert served.wait(60) < 0 and served.stderr.read() == b"" and file_hashes(home) == before
    print(sum(did.values()), "acts", dict(did), asked, "requests")


def require_sound(browser, own, seed):
    """Nothing of a page or a name has acted, and nothing but the report is asked for.

    What an address names that there isn't the report says itself.
    """
    faults = [each for each in browser.errors if NO_SUCH_PAGE not in each]
    assert faults == [] == browser.referers, (seed, faults, browser.requests)
    assert [each for each in browser.requests if not own.fullmatch(each) and each != "about:blank"] == [], seed
    try:
        hacked, fault, title = browser.run(SOUND)
    except RuntimeError as error:
        assert any(each in str(error) for each in GIVES_WAY), error
        return
    assert hacked == "undefined" and title in ("", "NAPLPS pages of pages"), (seed, title)
    assert not fault or NO_HASH.fullmatch(fault), (seed, fault)
