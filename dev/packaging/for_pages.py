"""What is made of the modules of browser/ in one file, since files of a disk can't import others: the script of the
element <naplps-page>, and the page naplps.html."""
import base64
import hashlib
import json
import re
from html import escape
from pathlib import Path
from typing import Dict, List

from dev.layout import TOP
from naplps.version import VERSION
from naplps_pages import file_kinds, player, refusals

BROWSER, PAGE = TOP / "browser", TOP / "browser" / "page"
PLAYER = TOP / "python" / "naplps_pages" / "player"
POLICY = ("default-src 'none'; script-src %s 'wasm-unsafe-eval'; worker-src blob:; style-src %s; img-src blob:; "
          "base-uri 'none'; form-action 'none'")
MARK = re.compile(r"@([A-Z]+)@")
IMPORT = re.compile(r"^import \{(?P<names>[^}]*)\} from \"(?P<of>[^\"]+)\";\n", re.MULTILINE)
EXPORT = re.compile(r"^export \{(?P<names>[^}]*)\};\n?", re.MULTILINE)
EXPORTED = re.compile(r"^export (?P<rest>(?:const|class|function|async function) (?P<name>\w+))", re.MULTILINE)
# What a page doesn't need of naplps.mjs: its way to the module in a file of its own.
LOADING = "/**\n * Loads the module.\n"
# A comment alone on its lines.
COMMENT = re.compile(r"^ *(?://.*|/\*\*(?:.|\n)*?\*/)\n", re.MULTILINE)
# What a joined source may not have any more.
LEFT = re.compile(r"^(?:import|export)\b|\bimport\.meta\b|</script", re.MULTILINE)


class NotJoined(Exception):
    """A source has an import or an export of another form, or sources import each other."""


def joined(name: str, wanted: str = "") -> str:
    """The script of a source of browser/ and of all that it imports, each once and in a scope of its own. What the
    source exports has the name that is wanted."""
    scopes: Dict[Path, str] = {}
    _take((BROWSER / name).resolve(), scopes, [])
    numbers = {path: number for number, path in enumerate(scopes)}
    text = "".join(f"const module{numbers[path]} = {scope};\n" for path, scope in scopes.items())
    text = re.sub(r"module\{([^}\n]+)\}", lambda found: f"module{numbers[Path(found[1])]}", text)
    head, last = (f"const {wanted} = ", f"return module{len(numbers) - 1};\n") if wanted else ("", "")
    return f"{head}(() => {{\n\"use strict\";\n{text}{last}}})();\n"


def _take(path: Path, scopes: Dict[Path, str], above: List[Path]) -> None:
    """Takes a source after those that it imports."""
    if path in above:
        raise NotJoined(f"{path} imports itself")
    if path in scopes:
        return
    text = path.read_text("utf-8")
    if path.name == "naplps.mjs":
        text = text.partition(LOADING)[0]
    for found in IMPORT.finditer(text):
        _take((path.parent / found["of"]).resolve(), scopes, [*above, path])
    scopes[path] = _scope(path, text)


def _scope(path: Path, text: str) -> str:
    """A source as a function that is called at once and returns what it exports. (`module{PATH}` names another's.)"""
    exports = [name.strip() for found in EXPORT.finditer(text) for name in found["names"].split(",") if name.strip()]
    exports += [found["name"] for found in EXPORTED.finditer(text)]
    plain = IMPORT.sub(lambda found: (
        f"const {{{found['names']}}} = module{{{(path.parent / found['of']).resolve()}}};\n"), text)
    plain = COMMENT.sub("", EXPORTED.sub(r"\g<rest>", EXPORT.sub("", plain))).strip("\n")
    if LEFT.search(plain):
        raise NotJoined(f"{path} has an import or an export of another form")
    return f"(() => {{\n{plain}\nreturn {{ {', '.join(exports)} }};\n}})()"


def element() -> str:
    """The script of the element <naplps-page>."""
    head = "// <naplps-page src=\"page.nap\" alt=\"what it shows\">, by naplps: docs/BROWSER.md tells how it is used.\n"
    return head + joined("element.js")


def player_scripts() -> Dict[Path, str]:
    """The scripts with which players draw and paint dots, by their paths."""
    head = "// Made of browser/%s by `make browser`.\n"
    return {PLAYER / name: head % source + joined(source, wanted) for name, source, wanted in (
        (player.DRAWING, "playing.js", "Drawing"), (player.DOTS, "dots.js", "Dots"))}


def page(module: bytes) -> str:
    """The page in which files are dropped, with this module of the library."""
    player_style, player_script = player.component(draws=False)
    own = TOP / "python" / "naplps_pages" / "player" / "page.css"
    style = own.read_text("utf-8") + player_style + (PAGE / "page.css").read_text("utf-8")
    script = player_script + joined("page/page.js")
    sums = [f"'sha256-{base64.b64encode(hashlib.sha256(text.encode('utf-8')).digest()).decode('ascii')}'"
            for text in (script, style)]
    foot = (f"naplps {VERSION}. The module has the SHA-256 {hashlib.sha256(module).hexdigest()}. Which pages are "
            "accepted, their lists and their canonical streams are its answers; pictures are sketches.")
    parts = {"POLICY": escape(POLICY % tuple(sums)), "STYLE": style, "SCRIPT": script,
             "WORKER": joined("page/worker.js"), "MODULE": base64.b64encode(module).decode("ascii"),
             "REFUSALS": _refusals(), "KINDS": _told(kinds()), "FOOT": escape(foot)}
    return MARK.sub(lambda found: parts[found[1]], (PAGE / "page.html").read_text("utf-8"))


def _refusals() -> str:
    """The texts on refusals, those that `check --explain` shows, by number, name and code."""
    return _told({each.title: {"means": each.means, "causes": each.causes, "do": each.do}
                  for each in refusals.every() if not each.case})


def kinds() -> Dict[str, object]:
    """By what a format is known that isn't a page, as `check` knows it, for browser/page/looks.js."""
    it = file_kinds
    return {"most": it.MOST_LOOKED_AT, "magic": [[each.offset, each.data.hex(), each.name] for each in it.MAGIC],
            "archive": {"header": it.ARC_HEADER, "methods": it.MOST_ARC_METHOD, "name": _pattern(it.ARC_NAME)},
            "sectors": it.SECTORS, "texts": _pattern(it.TEXT_BYTES), "plain": it.LEAST_PLAIN,
            "codes": [[name, _pattern(letters)] for name, letters in it.CODES]}


def _pattern(of: bytes) -> str:
    """A pattern over bytes as one over the letters of Latin-1, which JavaScript has too."""
    return of.decode("ascii")


def _told(it: object) -> str:
    """It as JSON that can be in a document."""
    return json.dumps(it, separators=(",", ":")).replace("<", "\\u003c")
