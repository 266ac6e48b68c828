"""What tests of players share: a player in a browser, and how far its picture is from a sketch."""
import base64
import json
import os
import re
import subprocess
import zlib

from command import COMMAND, LIB

# Of the pels that either picture draws off the ground 95 in a hundred are so near.
NEAR, LEAST = 64, 0.95
# A small or a dim shape is little of that: in each part of PART pels both ways only MOST_FAR aren't very near.
VERY_NEAR, PART, MOST_FAR = 24, 16, 4
# Draws a sketch in the page of a player, which forbids that: so the tests go round its policy.
WANTED = """
(async (address, wide, high) => {
  const image = new Image();
  image.src = address;
  await image.decode();
  const context = Object.assign(document.createElement("canvas"), {width: wide, height: high}).getContext("2d");
  context.drawImage(image, 0, 0);
  window.wanted = context.getImageData(0, 0, wide, high).data;
})("@ADDRESS@", 1024, 800)
"""
COMPARED = """((wide, high, near, veryNear, part) => {
  const shown = player.screen.context.getImageData(0, 0, wide, high).data, across = Math.ceil(wide / part);
  const far = new Uint32Array(across * Math.ceil(high / part));
  let all = 0, others = 0;
  for (let at = 0; at < shown.length; at += 4) {
    let most = 0, isOff = false;
    for (let one = at; one < at + 3; one++) {
      most = Math.max(most, Math.abs(shown[one] - wanted[one]));
      isOff ||= shown[one] > 0 || wanted[one] > 0;
    }
    all += isOff;
    others += most > near;
    if (most > veryNear) far[Math.floor(at / 4 / wide / part) * across + Math.floor(at / 4 % wide / part)] += 1;
  }
  return {all, others, most: Math.max(...far)};
})""" + f"(1024, 800, {NEAR}, {VERY_NEAR}, {PART})"


def play(naplps, page, html, *words):
    """Makes the player of a page; what the command said, and the address."""
    result = subprocess.run([COMMAND, "show", page, "-o", html, *words], env=dict(os.environ, NAPLPS=naplps),
                            capture_output=True)
    return result, "file://" + os.path.abspath(html)


def held(html):
    """What a player holds of its page."""
    with open(html, encoding="utf-8") as file:
        packed = re.search('<script type="text/plain" id="page">([A-Za-z0-9+/=]*)</script>', file.read())
    return json.loads(zlib.decompress(base64.b64decode(packed[1])))


def drawn_of(*played):
    """What players show of what they hold, which comes as JSON; without the steps of their drawings."""
    result = subprocess.run(["node", os.path.join(LIB, "drawn_answers.mjs")], capture_output=True,
                            input="".join(f"{each}\n" for each in played).encode("ascii"))
    assert (result.returncode, result.stderr) == (0, b"")
    return [json.loads(line) for line in result.stdout.splitlines()]


def how_like(browser, svg):
    """How far what the player shows is from a sketch, without the caption below it."""
    address = "data:image/svg+xml;base64," + base64.b64encode(svg.encode("utf-8")).decode("ascii")
    browser.run(WANTED.replace("@ADDRESS@", address))
    return browser.run(COMPARED)


def like(how):
    """Whether that is near enough."""
    return how["others"] <= (1 - LEAST) * how["all"] and how["most"] <= MOST_FAR
