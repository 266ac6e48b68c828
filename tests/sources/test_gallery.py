"""examples/gallery.html is the report that naplps-pages makes of the pages in examples."""
import pytest

from dev.gallery import GALLERY, make, parts


def test_the_gallery_is_the_report_of_its_pages(naplps: str, monkeypatch: pytest.MonkeyPatch) -> None:
    monkeypatch.setenv("NAPLPS", naplps)
    assert parts(GALLERY.read_bytes()) == parts(make()), "examples/gallery.html: run python3 -m dev.gallery"
