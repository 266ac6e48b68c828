"""Names of files, as people are shown them and as JSON holds them."""
import os
import unicodedata
from typing import Dict

# The members of a JSON object.
Members = Dict[str, object]
SHORT = {"\n": "\\n", "\r": "\\r", "\t": "\\t", "\\": "\\\\"}
# Controls, marks of format and direction, lone surrogates, private and unknown characters, line and paragraph ends.
HIDDEN = ("Cc", "Cf", "Cs", "Co", "Cn", "Zl", "Zp")


def shown(name: str) -> str:
    """The name on one line, with an escape for whatever a terminal wouldn't show as itself."""
    if name.isprintable() and "\\" not in name:
        return name
    return "".join(_shown(each) for each in name)


def printable(text: str) -> str:
    """The text on one line, with such an escape too, but a backslash as it is."""
    return text if text.isprintable() else "".join(each if each == "\\" else _shown(each) for each in text)


def _shown(each: str) -> str:
    if each in SHORT:
        return SHORT[each]
    if "\udc80" <= each <= "\udcff":
        return f"\\x{ord(each) - 0xDC00:02x}"
    if unicodedata.category(each) not in HIDDEN:
        return each
    code = ord(each)
    if code < 0x100:
        return f"\\x{code:02x}"
    return f"\\u{code:04x}" if code < 0x10000 else f"\\U{code:08x}"


def quoted(name: str) -> str:
    """The name as a shell and a command read it, never as an option; PAGE where it can't be shown on one line as it is,
    or is standard input."""
    import shlex  # (which few commands need)
    if name == "-" or shown(name) != name:
        return "PAGE"
    return shlex.quote(f"./{name}" if name.startswith("-") else name)


def as_json(name: str) -> Members:
    """The members of a JSON object that name a file: its bytes in hexadecimal too, where they aren't UTF-8."""
    raw = os.fsencode(name)
    try:
        return {"name": raw.decode("utf-8")}
    except UnicodeDecodeError:
        return {"name": shown(name), "name_hex": raw.hex()}


def leaf(name: str) -> str:
    """The name without its folders, for a file that is made of it; 'page' for standard input."""
    return "page" if name == "-" else os.path.basename(os.path.normpath(name))
