"""How much <naplps-page> takes of what a server sends."""
import base64

from browser_page import LONG, MAX_MEMORY, MODULE, needs_module
from element_page import make_element, make_page
from node import ask_node
from samples import needs_chromium, needs_node
from sites import Strict, served

MOST, PIECE = 1 << 20, 1 << 16
TOO_LONG = f"it has more than {MOST} bytes"
# What a server sends that never ends, as far as this test is concerned.
ENDLESS = 1 << 28


def taken(status=200, piece=PIECE, count=ENDLESS // PIECE, **headers):
    """What the element takes of a response: how many bytes, whether it cancels the rest, and the message."""
    about = {"status": status, "headers": {name.replace("_", "-"): value for name, value in headers.items()},
             "piece": piece, "count": count}
    [result] = ask_node("element_reads.mjs", [about], MODULE)
    return result["taken"], result["isCancelled"], result["message"]


@needs_node
def test_no_more_is_read_than_the_limit_and_a_piece():
    assert taken() == (MOST + PIECE, True, TOO_LONG)
    assert taken(piece=3 * MOST) == (3 * MOST, True, TOO_LONG)
    assert taken(Content_Length="5") == (MOST + PIECE, True, TOO_LONG)
    assert taken(count=MOST // PIECE) == (MOST, False, "refused BadHeader at 0")
    assert taken(count=0) == (0, False, "refused BadHeader at 0")


@needs_node
def test_what_the_header_promises_too_long_is_not_read():
    assert taken(Content_Length=str(700 << 20)) == (0, True, TOO_LONG)
    assert taken(Content_Length=str(MOST + 1)) == (0, True, TOO_LONG)
    assert taken(Content_Length=str(MOST), count=MOST // PIECE) == (MOST, False, "refused BadHeader at 0")
    coded = taken(Content_Length=str(MOST + 1), Content_Encoding="br", count=1)
    assert coded == (PIECE, False, "refused BadHeader at 0")
    assert taken(status=404) == (0, True, "it can't be fetched: 404")


@needs_node
@needs_module
def test_the_module_has_64_mebibytes_of_memory():
    [result] = ask_node("element_reads.mjs", [{"page": base64.b64encode(LONG.page).decode("ascii")}], MODULE)
    assert result["message"] == f"it draws more than {MOST} bytes" and result["memory"] <= MAX_MEMORY


class Endless(Strict):
    """Sends a page without an end, and notes how much of it was taken."""

    sent = 0

    def do_GET(self):
        if not self.path.endswith("endless.nap"):
            super().do_GET()
            return
        self.send_response(200)
        self.end_headers()
        try:
            while Endless.sent < ENDLESS:
                self.wfile.write(b"A" * PIECE)
                Endless.sent += PIECE
        except OSError:
            pass  # (the browser has enough)


@needs_chromium
def test_a_browser_ends_what_is_too_long(browser, tmp_path):
    make_element(tmp_path / "naplps-page.js")
    make_page(tmp_path, "index.html", '<naplps-page id="a" src="endless.nap"></naplps-page>')
    with served(tmp_path, Endless) as address:
        browser.open(address + "index.html")
        assert browser.run("told") == [["a", "error", TOO_LONG]]
        assert MOST < Endless.sent < ENDLESS // 4 and browser.errors == []
