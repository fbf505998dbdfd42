"""Writes a script of contrib/ with what it uses of this package, as one file that stands alone.

usage: python3 -m oracle.alone SCRIPT

The script's imports of this package are replaced by the modules themselves, each once and before what uses it. Its line
that lets it find the package is left out. All share one namespace, so no two may define the same name, and none may
import a name of this package under another one. It ends with 1, and prints nothing, if that isn't so.
"""
from __future__ import annotations

import ast
import os
import sys

HERE = os.path.dirname(os.path.abspath(__file__))
FUTURE = "from __future__ import annotations\n"


class Unfit(Exception):
    """A script that can't stand alone."""


class Alone:
    """The text that stands alone, as far as it was written, and the names that it defines."""

    def __init__(self) -> None:
        """Nothing was written."""
        self.pieces: list[str] = []
        self.written: set[str] = set()
        self.definer: dict[str, str] = {}

    def put(self, name: str, text: str) -> None:
        """Writes the statements of a module, after the modules that it uses."""
        lines = text.splitlines(keepends=True)
        body = ast.parse(text, name).body
        for node in body:
            if is_of_package(node):
                self.use(node)
        self.pieces.append(f"\n# ---- {name}\n\n")
        for at, node in enumerate(body):
            is_page = at == 0 and isinstance(node, ast.Expr)
            if is_page or is_left_out(node) or is_end(node) and name.startswith("oracle."):
                continue
            self.define(name, node)
            self.pieces.append(text_of(lines, node, body[at - 1] if at else None))

    def use(self, node: ast.ImportFrom) -> None:
        """Writes the module of an import, unless it was written."""
        if node.module == "oracle" or any(alias.asname for alias in node.names):
            raise Unfit(f"an import of {node.module} isn't of the form `from oracle.MODULE import NAME`")
        if node.module not in self.written:
            self.written.add(node.module)
            with open(os.path.join(HERE, f"{node.module.split('.')[1]}.py"), encoding="utf-8") as file:
                self.put(node.module, file.read())

    def define(self, name: str, node: ast.stmt) -> None:
        """Notes what a statement defines."""
        for word in defined_by(node):
            if self.definer.setdefault(word, name) != name:
                raise Unfit(f"{word} is defined by {self.definer[word]} and by {name}")


def is_of_package(node: ast.stmt) -> bool:
    """Whether a statement imports of this package."""
    return isinstance(node, ast.ImportFrom) and (node.module or "").split(".")[0] == "oracle"


def is_left_out(node: ast.stmt) -> bool:
    """Whether a statement has no place in a script that stands alone."""
    is_future = isinstance(node, ast.ImportFrom) and node.module == "__future__"
    is_path = isinstance(node, ast.Expr) and ast.unparse(node).startswith("sys.path.insert")
    return is_of_package(node) or is_future or is_path


def is_end(node: ast.stmt) -> bool:
    """Whether a statement runs the module as a program."""
    return isinstance(node, ast.If) and "__main__" in ast.unparse(node.test)


def defined_by(node: ast.stmt) -> list[str]:
    """The names that a statement defines, imports aside."""
    if isinstance(node, (ast.FunctionDef, ast.ClassDef)):
        return [node.name]
    if isinstance(node, ast.Assign):
        return [it.id for target in node.targets for it in ast.walk(target) if isinstance(it, ast.Name)]
    if isinstance(node, ast.AnnAssign) and isinstance(node.target, ast.Name):
        return [node.target.id]
    return []


def text_of(lines: list[str], node: ast.stmt, before: ast.stmt | None) -> str:
    """The lines of a statement, with its decorators and with what precedes them after the statement before."""
    start = before.end_lineno if before else 0
    return "".join(lines[start : node.end_lineno])


def alone(path: str) -> str:
    """The text of a script that stands alone."""
    with open(path, encoding="utf-8") as file:
        text = file.read()
    first, rest = text.split("\n", 1)
    page = ast.get_docstring(ast.parse(rest), clean=False)
    made = Alone()
    made.put(os.path.basename(path), rest)
    front = f'{first}\n"""{page}"""\n# Made of contrib/{os.path.basename(path)} and oracle/ of Lithiumfinch.\n{FUTURE}'
    return front + "".join(made.pieces)


def main() -> int:
    """Prints a script that stands alone."""
    if len(sys.argv) != 2:
        print("usage: python3 -m oracle.alone SCRIPT", file=sys.stderr)
        return 2
    try:
        print(alone(sys.argv[1]), end="")
    except Unfit as fault:
        print(f"alone: {sys.argv[1]}: {fault}", file=sys.stderr)
        return 1
    return 0


if __name__ == "__main__":
    sys.exit(main())
