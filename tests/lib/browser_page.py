"""The page naplps.html in a browser: files that are chosen, the cards, what is saved; and the memory of a page."""
import io
import os
import zipfile
from pathlib import Path
from typing import Dict, List, Sequence

import pytest

from browser import Browser
from command import TOP

from dev.measuring.costly_pages import drcs_repeats

# The WebAssembly module of the library.
MODULE = os.path.abspath(os.environ.get("NAPLPS_MODULE") or os.path.join(TOP, "dist", "browser", "naplps.wasm"))
needs_module = pytest.mark.skipif(
    not os.path.exists(MODULE), reason="there is no naplps.wasm (NAPLPS_MODULE names one)")
# A page of 1 KiB whose canonical stream has 176 MB.
LONG = drcs_repeats(1024, 1 << 20)
# What the module may take for one page.
MAX_MEMORY = 1 << 26


def opened(browser: Browser, folder: Path, text: str) -> None:
    """Opens the page from a file of a folder."""
    (folder / "naplps.html").write_text(text, "utf-8")
    browser.open((folder / "naplps.html").as_uri())


def choose(browser: Browser, paths: Sequence[Path]) -> None:
    """Chooses files, as people do, and waits until all are read."""
    before = int(browser.run("document.body.dataset.read || 0"))
    found = browser.call("Runtime.evaluate", expression="document.getElementById('files')")["result"]["objectId"]
    browser.call("DOM.setFileInputFiles", files=list(map(str, paths)), objectId=found)
    browser.until(f"Number(document.body.dataset.read || 0) === {before + len(paths)}")


def cards(browser: Browser) -> List[str]:
    """The texts of the cards."""
    return list(browser.run("[...document.querySelectorAll('.card')].map((card) => card.textContent)"))


def saved(browser: Browser, click: str) -> bytes:
    """What a click saves: the bytes of the blob."""
    return bytes(browser.run("""(async () => {
      const real = URL.createObjectURL;
      const blob = await new Promise((done) => {
        URL.createObjectURL = (it) => { if (it.type !== "image/svg+xml" || %s) done(it); return real.call(URL, it); };
        %s;
      });
      URL.createObjectURL = real;
      return [...new Uint8Array(await blob.arrayBuffer())];
    })()""" % ("true" if "SVG" in click else "false", click)))


def unpacked(packed: bytes) -> Dict[str, bytes]:
    """The files of a zip, whose names are all different."""
    with zipfile.ZipFile(io.BytesIO(packed)) as archive:
        assert len(archive.namelist()) == len({*archive.namelist()})
        return {name: archive.read(name) for name in archive.namelist()}


def clicked(word: str, number: int = 0) -> str:
    """What clicks the button of a card that has this word."""
    return (f"[...document.querySelectorAll('.card')][{number}].querySelectorAll('button').forEach((each) => "
            f"each.textContent === '{word}' && each.click())")
