"""PNG of a page's dots: its bytes, what it shows over time, and what the command says."""
import os
import struct
import zlib

import naplps as nap
from command import TOP
from naplps.dots.frames import moving, png, stored
from naplps.entry import read_line
from pngs import chunks

GALLERY = os.path.join(TOP, "examples", "gallery")
DOT = "RECT-FILLED 0,0 32768,32768 pel=0,0 colour=%s texture=0/none"


def pixels(data):
    """The width, and the rows of pixels."""
    told = dict(chunks(data))
    wide, high, depth, kind = struct.unpack(">IIBB", told[b"IHDR"][:10])
    assert (depth, kind) == (8, 2)
    raw = zlib.decompress(told[b"IDAT"])
    rows = [raw[at:at + 1 + 3 * wide] for at in range(0, len(raw), 1 + 3 * wide)]
    assert len(rows) == high and all(row[0] == 0 for row in rows)
    return wide, [[row[at:at + 3] for at in range(1, len(row), 3)] for row in rows]


def test_a_picture_by_hand():
    # (one pixel of 1, 2, 3: the block that is stored has the length 4, its complement, a filter byte and the pixel)
    data = png([[0x010203]])
    body = b"\x78\x01" + b"\x01\x04\x00\xfb\xff" + b"\x00\x01\x02\x03" + struct.pack(">I", zlib.adler32(b"\0\1\2\3"))
    assert dict(chunks(data)) == {b"IHDR": b"\0\0\0\1\0\0\0\1\x08\x02\0\0\0", b"IDAT": body, b"IEND": b""}


def test_blocks_of_65535_bytes():
    for length in (0, 1, 65534, 65535, 65536, 131070, 131071):
        data = bytes(length)
        assert zlib.decompress(stored(data)) == data
    assert stored(bytes(65536))[2:7] == b"\x00\xff\xff\x00\x00" and len(stored(bytes(65536))) == 2 + 2 * 5 + 65536 + 4


def test_the_picture_has_the_dots(run):
    path = os.path.join(GALLERY, "ferry.nap")
    with open(path, "rb") as file:
        it = nap.raster(nap.entries(file.read()))
    colours = it.colours()
    for scale in (1, 3):
        said = run(["show", "--format", "png", "--scale", str(scale), path])
        wide, rows = pixels(said.stdout)
        assert (said.returncode, wide, len(rows)) == (0, 256 * scale, 200 * scale)
        assert all(rows[y * scale][x * scale] == rows[y * scale + scale - 1][x * scale + scale - 1]
                   == colours[it.ink(x, 199 - y)].to_bytes(3, "big") for y in range(200) for x in range(256))


def test_the_same_bytes_in_any_surroundings_and_spelling(run):
    paths = [os.path.join(GALLERY, f"skyline, {how}.nap") for how in ("absolute", "relative")]
    said = {run(["show", "--format", "png", path], env=env).stdout for path in paths for env in (
        {}, {"LC_ALL": "tr_TR.UTF-8", "TZ": "Asia/Kathmandu", "PYTHONHASHSEED": "7"}, {"LC_ALL": "C", "TZ": "UTC"})}
    assert len(said) == 1


def test_a_refused_page_is_told_and_drawn_up_to_there(run):
    said = run(["show", "--format", "png", os.path.join(GALLERY, "signature.nap")])
    assert said.returncode == 1 and b"the picture shows what comes before" in said.stderr and said.stdout


def film(*told, speed=1200, places=None):
    entries = [read_line(line) for line in told]
    return moving(entries, places or [0] * len(entries), speed)


def lower_left(frames):
    """The colours of dot 0, 0, and how long each is seen."""
    found = []
    for frame in frames:
        colour = frame.rows[-1][0]
        if found and found[-1][0] == colour:
            found[-1] = colour, found[-1][1] + frame.shown
        else:
            found.append((colour, frame.shown))
    return found


def test_waits_and_the_line_take_their_time():
    red, green = DOT % "direct:0,65535,0", DOT % "direct:65535,0,0"
    # (the first has 120 bytes before it, which take a second; then it stands for 1.5 seconds, and the end for 5)
    for speed, time in ((1200, 1000), (12000, 100)):
        it = film("BELL", red, "WAIT 15", green, places=[0, 120, 120, 120], speed=speed)
        assert lower_left(it.frames) == [(0, time), (0xFF0000, 1500), (0x00FF00, 5000)] and not it.was_cut


def test_a_blink_shows_its_other_colour_while_it_is_on():
    it = film("MAP 0 0,65535,0", "MAP 1048576 65535,0,0", DOT % "front:0", "BLINK 1048576 3,2,1 colour=front:0")
    seen = lower_left(it.frames)
    assert seen[:5] == [(0xFF0000, 100), (0x00FF00, 300), (0xFF0000, 200), (0x00FF00, 300), (0xFF0000, 200)]
    assert sum(long for _, long in seen) == 5000


def test_what_is_marked_is_dark_for_half_of_each_second():
    assert lower_left(film("BLINK-START colour=own-start", DOT % "own-start").frames) == 5 * [(0xFFFFFF, 500), (0, 500)]


def test_long_films_are_cut_with_a_message(run, tmp_path):
    page = tmp_path / "long.txt"
    page.write_text("".join("RECT-FILLED 0,0 32768,32768 pel=0,0 colour=direct:%d,0,0 texture=0/none\nWAIT 1\n" % (
        256 * (number % 256)) for number in range(600)))
    made = run(["make", "-o", str(tmp_path / "long.nap"), str(page)])
    assert made.returncode == 0, made.stderr
    said = run(["show", "--format", "apng", str(tmp_path / "long.nap")])
    assert said.returncode == 3 and b"the first 500 frames" in said.stderr
    told = chunks(said.stdout)
    assert dict(told)[b"acTL"] == struct.pack(">II", 500, 0)
    numbers = [struct.unpack(">I", body[:4])[0] for name, body in told if name in (b"fcTL", b"fdAT")]
    assert numbers == list(range(999))


def test_still_films_take_no_time_and_others_end():
    # (a blink to the colour that is there never shows another picture)
    waits = ["WAIT 63"] * 2000
    it = film(DOT % "own-start", *waits)
    assert len(it.frames) == 1 and it.frames[0].shown == 2000 * 6300 + 5000 and not it.was_cut
    it = film("BLINK 1 1,1,0 colour=front:1", DOT % "front:1", *waits)
    assert it.was_cut and len(it.frames) == 1
