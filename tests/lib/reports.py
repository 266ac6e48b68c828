"""What the tests of reports share: a collection with all that a report shows, how a report is made, and what stands in
its file."""
import base64
import contextlib
import json
import os
import re
import subprocess
import zlib

from command import COMMAND
from samples import OUTSIDE, POINT, SPELLED
from scans import start, tree
from stream_writer import StreamWriter

MARKUP = "<script>hacked=1</script><img src=x onerror=hacked=1>"
# Names that would act where they were taken for markup, for marks of the page or for code.
HOSTILE = ["<img src=x onerror=hacked=1>.nap", "\"'><svg onload=hacked=1>.nap", "<!--.nap",
           "@DATA@ @SCRIPT@ @HELD@.nap",
           "</script><script>hacked=1<", "';hacked=1;'.nap", "${hacked=1}.nap", "a\u202egnp.nap", "line\nend.nap",
           "javascript:hacked=1", "__proto__", "constructor", "&lt;b&gt;.nap"]
# Addresses within a report that would act, or name what there isn't.
ADDRESSES = ["page=<img src=x onerror=hacked=1>", "page=%3Cscript%3Ehacked%3D1%3C%2Fscript%3E", "page=__proto__",
             "page=constructor&beside=toString", "page=javascript:hacked=1", "page=" + "a" * 60_000,
             "page=\u202e\u0000", "page=0123456789abcdef", "page=" + "0" * 64 + "&beside=<svg onload=hacked=1>"]


def words(text):
    """A page that writes a text."""
    return StreamWriter().clear().domain().at(0.1, 0.5, text, "normal").made()


def collection(folder):
    """Makes the pages: some equal, some refused, some with hostile names or texts, and 150 that are different."""
    files = {"equal/one.nap": POINT, "equal/two.nap": SPELLED, "equal/copy of one.nap": POINT,
             "copies/a.nap": words("COPIED"), "copies/b.nap": words("COPIED"),
             "refused/outside.nap": OUTSIDE, "refused/cut.nap": b"\x1b", "refused/cancelled.nap": b"\x18",
             "hostile/text.nap": words(MARKUP), b"hostile/\xff\xfe.nap": words("BYTES"),
             "long/%s.nap" % ("a" * 200): words("LONG NAME")}
    files.update(("hostile/" + name.replace("/", "\u2215"), words("HOSTILE %d" % at))
                 for at, name in enumerate(HOSTILE))
    files.update(("many/page %03d.nap" % at, words("PAGE %d" % at)) for at in range(150))
    top = tree(folder, files)
    os.symlink("/etc/passwd", os.path.join(top, "link.nap"))
    return top, len(files) + 1


def held(path):
    """The table and the drawings that an HTML file holds."""
    with open(path, encoding="utf-8") as file:
        text = file.read()
    parts = {name: [json.loads(zlib.decompress(base64.b64decode(data))) for data in re.findall(
        '<script type="text/plain" %s>([A-Za-z0-9+/=]*)</script>' % name, text)]
        for name in ('id="table"', 'class="block"', 'class="texts"')}
    table, blocks, texts = parts.values()
    left = iter([each for some in texts for each in some])
    return table[0], [{**block, "text": [next(left) for _ in block["sketch"]]} for block in blocks]


def run_tool(naplps, folder, *words):
    """Runs naplps-pages with these words in a folder."""
    subprocess.run([COMMAND, *words], check=True, env=dict(os.environ, NAPLPS=naplps), capture_output=True, cwd=folder)


def report_address(naplps, store, name, *options):
    """Makes a report of the store; its address."""
    run_tool(naplps, os.path.dirname(store), "report", "pages.db", "-o", name, "--force", *options)
    return "file://" + os.path.join(os.path.dirname(store), name)


def scanned(naplps, folder, files):
    """Scans files of these names and bytes; the store."""
    tree(os.path.join(folder, "pages"), files)
    run_tool(naplps, folder, "scan", "pages", "-o", "pages.db")
    return os.path.join(folder, "pages.db")


@contextlib.contextmanager
def shown_report(naplps, store, kind):
    """The address of the report of a store: of a file, or of a server."""
    if kind == "file":
        yield report_address(naplps, store, "all.html")
        return
    with start(["report", store, "--serve"], naplps) as server:
        yield server.stdout.readline().decode().strip()
        server.terminate()
