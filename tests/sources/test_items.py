"""The items of a source: functions with their clauses and bodies, types with their members, impls, imports."""
from dev.layout import TOP
from dev.rattle.items import Item, Signature, functions_in, items_in, members_of
from dev.rattle.tokens import Source
from halves import HALVES

ITEMS = [
    ("const", "MAX", ""), ("use", "low", ""), ("use", "Rattle", ""), ("struct", "Half", ""), ("struct", "Pair", ""),
    ("struct", "Unit", ""), ("enum", "Kind", ""), ("impl", "", ""), ("fn", "of", "impl<T: Copy> Half<T>"),
    ("fn", "is_even", "impl<T: Copy> Half<T>"), ("fn", "parity", "impl<T: Copy> Half<T>"),
    ("fn", "text", "impl<T: Copy> Half<T>"), ("ghost", "invariant", "impl<T: Copy> Half<T>"), ("trait", "Halves", ""),
    ("fn", "put", "pub trait Halves"), ("fn", "give", "pub trait Halves"), ("fn", "apart", ""), ("mod", "inner", ""),
    ("fn", "within", ""),
]
SOURCE = Source.of(HALVES)


def item(name: str) -> Item:
    """The item with a name."""
    return next(item for item in items_in(SOURCE) if item.name == name)


def test_items_have_kinds_names_and_owners() -> None:
    assert [(item.kind, item.name, item.owner) for item in items_in(SOURCE) if item.kind != "impl"] == [
        row for row in ITEMS if row[0] != "impl"]
    assert [item.kind for item in items_in(SOURCE)] == [kind for kind, _, _ in ITEMS]


def test_items_have_attributes_comments_and_visibility() -> None:
    half = item("Half")
    assert half.attributes == ["#[derive(Clone, Copy)]", "#[repr(C)]"]
    assert (half.comment, half.visibility, SOURCE.line(half.start)) == ("A half, which has no rest.", "pub(crate)", 17)
    assert (item("MAX").comment, item("MAX").attributes, item("MAX").visibility) == (
        "What is halved at most.", [], "pub")
    assert (item("text").attributes, item("text").comment, item("text").visibility) == (["#[inline]"], "", "")
    assert item("apart").attributes == ["#[unsafe(no_mangle)]"]
    assert [item.head for item in items_in(SOURCE) if item.kind == "use" and item.is_ghost] == [
        "ghost use Rattle.low.specs.Sizes.{ size, shape, }"]


def test_functions_have_clauses_and_bodies() -> None:
    found = [(function.name, [(clause.kind, clause.name, clause.text) for clause in function.clauses],
              HALVES.count("\n", *function.body)) for function in functions_in(HALVES)]
    assert found == [
        ("of", [("requires", "", "number < 64"),
                ("ensures", "half", "let double = 2 in result.number ≡ number / double")], 4),
        ("is_even", [], 0), ("parity", [], 0), ("text", [], 2), ("put", [("ensures", "", "kept")], 0),
        ("give", [], 0), ("apart", [], 0), ("within", [], 0),
    ]
    assert HALVES[slice(*item("apart").body)] == "{}"
    assert HALVES[slice(*item("put").body)] == ""


def test_signatures() -> None:
    assert Signature.of(item("of")) == (["u32", "(u32, [u8; 3])"], "Result<Half<T>, Fault<T>>")
    assert Signature.of(item("put")) == (["&mut self", "[u8; 3]"], "")
    assert Signature.of(item("text")) == (["&self"], "&str")
    assert Signature.of(item("apart")) == ([], "")


def test_members() -> None:
    def of(name: str) -> "list[tuple[str, str, str, bool]]":
        members = members_of(SOURCE, item(name))
        return [(member.kind, member.name, member.visibility, member.is_ghost) for member in members]

    assert of("Half") == [("field", "number", "pub(crate)", False), ("field", "call", "pub", False),
                          ("field", "even", "pub", True)]
    assert of("Pair") == [("part", "u8", "pub", False)]
    assert of("Kind") == [(("variant", name, "", False)) for name in ("Sized", "Named", "None")]
    assert of("Unit") == of("of") == []
    number, *_ = members_of(SOURCE, item("Half"))
    assert (number.comment, number.head) == ("A comment, with a comma.", "pub(crate) number: HashMap<u32, T>")


def test_all_sources_are_read() -> None:
    """Each item has a kind, and each word `fn` before a name outside the bodies of functions begins one."""
    for path in sorted(TOP.glob("crates/*/src/**/*.rt")):
        source = Source.of(path.read_text("utf-8"))
        items = list(items_in(source))
        assert all(item.kind for item in items), f"{path}: {[item.head for item in items if not item.kind]}"
        shape = source.shape
        for start, end in (item.body for item in items if item.kind == "fn"):
            shape = shape[:start] + " " * (end - start) + shape[end:]
        named = [words[words.index("fn") + 1] for words in map(str.split, shape.replace("<", " ").replace("(", " ")
                                                               .split("\n")) if "fn" in words[:-1]]
        assert named == [item.name for item in items if item.kind == "fn"], path
