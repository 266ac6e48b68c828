"""No clause stands letter for letter on more than two functions of one crate.

Those that do are in repeated-clauses.tsv, with the number of functions, which may only fall.
"""
from pathlib import Path
from typing import Dict, List, Tuple

from dev.crates import sources_of
from dev.layout import TOP
from dev.rattle.items import functions_in
from dev.tables import rows_in

MAX, COLUMNS = 2, ("crate", "functions", "clause")
TABLE = Path(__file__).with_name("repeated-clauses.tsv")
# A crate and a clause.
Place = Tuple[str, str]


def functions_by_clause(crate: Path) -> Dict[Place, List[str]]:
    """The functions of a crate that have a clause, for each clause."""
    found: Dict[Place, List[str]] = {}
    for source in sources_of(crate):
        for function in functions_in(source.read_text("utf-8")):
            for clause in {clause.text for clause in function.clauses}:
                found.setdefault((crate.name, clause), []).append(function.name)
    return found


def faults_of(found: Dict[Place, List[str]], table: Dict[Place, int]) -> List[str]:
    """The clauses that stand on too many functions, and the rows of the table that aren't so."""
    faults = [f"{TABLE.name}: {crate} has no clause {{ {clause} }} any more: take its row out"
              for crate, clause in table.keys() - found.keys()]
    for (crate, clause), names in found.items():
        number = table.get((crate, clause), MAX)
        if len(names) > number:
            faults.append(f"{crate}: {{ {clause} }} stands on more than {number} functions: {', '.join(names)}")
        elif len(names) < number and (crate, clause) in table:
            faults.append(f"{TABLE.name}: {crate}: {{ {clause} }} stands on {len(names)} functions now, not {number}")
    return faults


def test_clauses_stand_on_few_functions() -> None:
    table = {(crate, clause): int(number) for crate, number, clause in rows_in(TABLE, COLUMNS)}
    found: Dict[Place, List[str]] = {}
    for source in sorted(TOP.glob("crates/*/src")):
        found.update(functions_by_clause(source.parent))
    faults = faults_of(found, table)
    assert not faults, "\n".join(faults)


def test_what_is_wrong(tmp_path: Path) -> None:
    clauses = "\n    requires { low }\n    ensures { high }\n    ensures other { high }\n{}\n"
    (tmp_path / "src").mkdir()
    (tmp_path / "src" / "lib.rt").write_text("".join(f"fn {name}(){clauses}" for name in "abc"), "utf-8")
    (tmp_path / "src" / "tests.rt").write_text(f"fn d(){clauses}", "utf-8")
    found, crate = functions_by_clause(tmp_path), tmp_path.name
    assert found == {(crate, "low"): ["a", "b", "c"], (crate, "high"): ["a", "b", "c"]}
    assert len(faults_of(found, {})) == 2
    assert faults_of(found, {(crate, "low"): 3, (crate, "high"): 3}) == []
    more, gone = {(crate, "low"): 4, (crate, "high"): 3}, {(crate, "low"): 3, (crate, "high"): 3, (crate, "no"): 3}
    assert [fault.partition(":")[0] for fault in faults_of(found, more)] == [TABLE.name]
    assert "take its row out" in faults_of(found, gone)[0]
