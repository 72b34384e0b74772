"""What is asked of the sources besides types and style."""
import ast

from conftest import ROOT

from barrierfs_tools.checks.twin_list import TWINS
from barrierfs_tools.checks.twins import changed

MOST = 60  # lines of a function
PACKAGE = ROOT / "python" / "barrierfs_tools"


def test_functions_are_short() -> None:
    """No function is too long."""
    long = []
    for path in PACKAGE.rglob("*.py"):
        for node in ast.walk(ast.parse(path.read_text(encoding="utf-8"))):
            if isinstance(node, ast.FunctionDef) and (node.end_lineno or 0) - node.lineno >= MOST:
                long.append(f"{path.relative_to(PACKAGE)}: {node.name}")
    assert not long


def test_twins_change_one_place() -> None:
    """The old text of each wrong rule stands once, and names are different."""
    assert len({twin.name for twin in TWINS}) == len(TWINS)
    for twin in TWINS:
        assert changed(twin)
