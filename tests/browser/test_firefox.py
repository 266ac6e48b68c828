"""The page naplps.html in Firefox: it answers files, draws them, and saves canonical streams."""
import os

import pytest

from canonical_trial import asked
from command import TOP
from folders import write_files
from gallery import pages
from samples import OUTSIDE, POINT, SPELLED, has, lack

pytest.importorskip("tornado", reason="tornado isn't there (Debian: apt-get install python3-tornado)")
PAGE = os.path.join(TOP, "dist", "browser", "naplps.html")
pytestmark = pytest.mark.skipif(not has("firefox-esr"), reason=lack("firefox-esr"))
HOSTILE = "<img src=x onerror=alert(1)>.nap"


@pytest.fixture(scope="module")
def firefox():
    """A browser with the page."""
    from firefox import Firefox
    one = Firefox()
    one.open("file://" + PAGE)
    yield one
    one.close()


def test_files_are_answered_and_drawn(firefox, tmp_path, naplps):
    files = {"a.nap": POINT, "b.nap": SPELLED, HOSTILE: OUTSIDE, "weather.nap": pages()["weather.nap"], "e": b""}
    firefox.choose("files", write_files(tmp_path / "files", files))
    firefox.until("document.body.dataset.read === '5'")
    texts = "\n".join(firefox.run("[...document.querySelectorAll('.card')].map((each) => each.textContent)"))
    assert texts.count("accepted ") == 4 and "refused 10 Outside at 3" in texts and HOSTILE in texts
    assert "The same as b.nap" in texts
    firefox.until("[...document.querySelectorAll('.card img')].every((each) => each.naturalWidth)")
    [answer] = asked(naplps, [POINT])
    saved = firefox.run("""new Promise((done) => {
      const real = URL.createObjectURL;
      URL.createObjectURL = (blob) => {
        blob.arrayBuffer().then((bytes) => done([...new Uint8Array(bytes)]));
        return real.call(URL, blob);
      };
      [...document.querySelector('.card').querySelectorAll('button')].forEach((each) => (
        each.textContent === "Save canonical" && each.click()));
    })""")
    assert bytes(saved) == answer.canonical and firefox.errors == []


def test_a_page_is_shown_and_made(firefox):
    firefox.run("[...document.querySelectorAll('.card')].find((each) => each.textContent.includes('weather'))"
                ".querySelector('button').click()")
    firefox.until("document.querySelector('#detail canvas') && !document.getElementById('detail').hidden")
    assert firefox.run("document.querySelector('#detail pre').textContent").startswith("CLEAR pen=start\n")
    firefox.run("document.getElementById('making').open = true")
    firefox.until("document.getElementById('made').textContent === 'accepted 3 entries'")
    firefox.until("document.getElementById('draft').naturalWidth")
    assert firefox.errors == []
