"""A name of specs/ is defined in one file, so that it means one thing wherever it is read."""
from dev.layout import TOP
from dev.rattle.logic import files_by_name


def test_a_name_is_defined_in_one_file() -> None:
    names = files_by_name(TOP)
    assert names, "no file defines a name"
    several = {name: files for name, files in names.items() if len(files) > 1}
    assert not several, "\n".join(f"{name}: {', '.join(files)}" for name, files in several.items())
