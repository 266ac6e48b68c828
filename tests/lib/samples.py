"""Small pages with known answers."""
import shutil

import pytest

POINT = bytes.fromhex("0E 26 52 40 40")
POINT_LINE = "POINT 4194304,4194304 pel=0,0 colour=own-start"
POINT_AND_BELL = POINT + b"\x07"
# Another spelling of the point.
SPELLED = bytes.fromhex("0E 27 52 40 40")
OUTSIDE = bytes.fromhex("0E 26 52 28 7F")
MACRO = bytes.fromhex("1B 40 41 0E 26 52 0F 1B 45 1B 2A 7A 19 41")
# A macro that repeats a character 63 times and 120 times again, called 2,862 times: 21 million entries.
BOMB = (bytes.fromhex("1B 2A 7A 1B 40 41") + b"A" + bytes.fromhex("1B 46 7F") * 120 + bytes.fromhex("1B 45 1B 40 42")
        + b"\x19A" * 54 + bytes.fromhex("1B 45") + b"\x19B" * 53)
# Each code that is left out, and its bytes after SO.
LEFT_OUT = {"CAN": "18", "SDC": "1A", "NSR": "1F", "DEFT": "1B 42", "UNPROTECT": "1B 5F", "EDC1": "1B 51",
            "EDC2": "1B 52", "EDC3": "1B 53", "EDC4": "1B 54", "INCREMENTAL-POINT": "39", "INCREMENTAL-LINE": "3A",
            "INCREMENTAL-POLY": "3B"}


def with_parity(data: bytes, odd: bool = False) -> bytes:
    """The bytes with a parity bit each."""
    return bytes(byte | 0x80 if (bin(byte).count("1") % 2 == 1) != odd else byte for byte in data)


def lack(command: str) -> str:
    """Why a command can't be run here; empty where it can."""
    return "" if shutil.which(command) else f"there is no {command}"


def need(command: str, package: str = "") -> None:
    """Skips the test where a command can't be run here."""
    if lack(command):
        pytest.skip(f"{lack(command)} (Debian: apt-get install {package or command})")


def has(command: str) -> bool:
    """Whether a command can be run here."""
    return not lack(command)


needs_chromium = pytest.mark.skipif(not has("chromium"), reason=lack("chromium"))
needs_node = pytest.mark.skipif(not has("node"), reason="not tried: there is no node (Debian: apt-get install nodejs)")
