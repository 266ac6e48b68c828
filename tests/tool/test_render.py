"""What viewers make of the gallery's sketches: Chromium and librsvg show the same, and neither asks for anything."""
import json
import os
import platform
import signal
import subprocess
import sys
from pathlib import Path

import pytest

import gallery
from command import TOP, file
from no_connect import forbid_connect
from pngs import apart, greys
from samples import lack

FOLDER = os.path.join(TOP, "examples", "gallery")
WIDE, HIGH = 512, 414
MOST_APART = 4.0
ON_X86 = platform.machine() == "x86_64"
MISSING = lack("chromium") or lack("rsvg-convert")
pytestmark = pytest.mark.skipif(bool(MISSING), reason=MISSING)


def by_librsvg(svg, folder):
    """A picture, by a process that would be ended if it connected to anything."""
    png = os.path.join(folder, "librsvg.png")
    subprocess.run(["rsvg-convert", "-w", str(WIDE), "-h", str(HIGH), "-o", png, svg], check=True, timeout=900,
                   preexec_fn=forbid_connect if ON_X86 else None)
    return png


def by_chromium(markup, folder):
    """A picture of some markup, and the addresses that it asked for. (No name is resolved.)"""
    png, log = os.path.join(folder, "chromium.png"), os.path.join(folder, "net.json")
    html = file(folder, "page.html", b"<body style='margin:0;background:#000'><style>svg{display:block;width:%dpx;"
                b"height:%dpx}</style>" % (WIDE, HIGH) + markup)
    subprocess.run(["chromium", "--headless", "--no-sandbox", "--disable-gpu", "--hide-scrollbars", "--no-first-run",
                    "--disable-background-networking", "--disable-component-update", "--disable-sync",
                    "--host-resolver-rules=MAP * ~NOTFOUND", "--user-data-dir=" + os.path.join(folder, "profile"),
                    "--log-net-log=" + log, "--window-size=%d,%d" % (WIDE, HIGH), "--screenshot=" + png,
                    "file://" + html], check=True, timeout=900, capture_output=True)
    return png, asked_for(log)


def asked_for(log):
    """The addresses that the page asked for, by a log of the network. (What Chromium asks for itself has no origin.)"""
    text = Path(log).read_text("utf-8").rstrip().rstrip(",")
    try:
        events = json.loads(text)["events"]
    except ValueError:  # it was ended before it closed the log
        events = json.loads(text + "]}")["events"]
    requests = [each["params"] for each in events if "initiator" in each.get("params", {})]
    return {each["url"] for each in requests if each["initiator"] != "not an origin"}


@pytest.mark.parametrize("name", [name for name in gallery.NAMES if "relative" not in name])
def test_both_draw_the_same_and_ask_for_nothing(name, tmp_path):
    svg = os.path.join(FOLDER, name + ".svg")
    png, asked = by_chromium(Path(svg).read_bytes(), str(tmp_path))
    assert asked == set()
    assert apart(greys(png), greys(by_librsvg(svg, str(tmp_path)))) < MOST_APART


def test_a_request_would_be_seen(tmp_path):
    markup = b"<svg xmlns='http://www.w3.org/2000/svg'><image href='http://127.0.0.1:9/x.png'/></svg>"
    assert by_chromium(markup, str(tmp_path))[1] == {"http://127.0.0.1:9/x.png"}


@pytest.mark.skipif(not ON_X86, reason="connections can't be forbidden on this machine")
def test_a_connection_would_be_seen():
    lines = "import socket; socket.socket(socket.AF_UNIX).connect('/nothing')"
    assert subprocess.run([sys.executable, "-c", lines], preexec_fn=forbid_connect).returncode == -signal.SIGSYS
