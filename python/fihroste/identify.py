"""The imports that are found."""

import enum
from pathlib import Path
from typing import NamedTuple, Optional, Tuple


class ImportKey(enum.Enum):
    """By what two imports count as one, for `unique` of a listing.

    PACKAGE: the leading dots and the first name of the module. MODULE: the module, with its leading dots. ATTRIBUTE: the
    module and the attribute. ALIAS: the module, the attribute and the alias."""

    PACKAGE = 1
    MODULE = 2
    ATTRIBUTE = 3
    ALIAS = 4


class Import(NamedTuple):
    """One name that an import statement binds.

    `line_number` is the line on which its statement begins, from 1: two names of one statement have the same one.
    `indented` says whether the logical line of that statement is indented. `module` is the module with its leading dots.
    `attribute` is the name after `from .. import`, or `*`, and `alias` the name after `as`; each is None where there is none.
    `cimport` is always False. `file_path` is the text's file, if it has one."""

    line_number: int
    indented: bool
    module: str
    attribute: Optional[str] = None
    alias: Optional[str] = None
    cimport: bool = False
    file_path: Optional[Path] = None

    def statement(self) -> str:
        """The import as a statement of its own."""
        whole = f"import {self.module}" if self.attribute is None else f"from {self.module} import {self.attribute}"
        return whole if self.alias is None else f"{whole} as {self.alias}"

    def __str__(self) -> str:
        indented = "indented " if self.indented else ""
        return f"{self.file_path or ''}:{self.line_number} {indented}{self.statement()}"


def key_of(found: Import, key: ImportKey) -> Tuple[Optional[str], ...]:
    """What imports have in common that count as one."""
    if key is ImportKey.PACKAGE:
        names = found.module.lstrip(".")
        return (found.module[: len(found.module) - len(names)] + names.split(".")[0],)
    return (found.module, found.attribute, found.alias)[: key.value - 1]
