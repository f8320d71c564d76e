"""The extension of flake8: I001 where imports are not sorted, I002 where the text is not understood.

flake8 finds it by the entry point of the wheel. Settings are searched from each file, or from the current folder for standard
input. Settings that are refused are I002 on the first line of each file."""

import ast
from typing import Any, Iterator, List, Tuple, Type

from . import __version__
from .differences import finding_in

_STANDARD_INPUT = ("-", "stdin")


class Checker:
    """Checks a file. flake8 hands in its tree, its name and its lines."""

    name = "fihroste"
    version = __version__

    def __init__(self, tree: ast.AST, filename: str, lines: List[str]) -> None:
        self.filename = "" if filename in _STANDARD_INPUT else filename
        self.lines = lines

    def run(self) -> Iterator[Tuple[int, int, str, Type[Any]]]:
        """The finding, if there is one: its line, its column, its words with the code, and this class."""
        finding = finding_in("".join(self.lines), self.filename)
        if finding is not None:
            yield finding.line, finding.column, f"{finding.code} {finding.words}", type(self)
