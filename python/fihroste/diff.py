"""The difference between a text and its sorted text, in the form of isort 5."""

import os
import sys
from typing import Optional, TextIO, Union

_Path = Union[str, "os.PathLike[str]", None]


def expect_stream(show_diff: Union[bool, TextIO]) -> None:
    """Refuses what is neither a bool nor a stream."""
    if not isinstance(show_diff, bool) and not hasattr(show_diff, "write"):
        raise TypeError(f"show_diff has to be a bool or a stream, not {type(show_diff).__name__}")


def stream_of(show_diff: Union[bool, TextIO], where_true: Optional[TextIO] = None) -> TextIO:
    """The stream to which a difference goes: the one that is given, or that for True, which is standard output if no other
    is named."""
    return (where_true or sys.stdout) if isinstance(show_diff, bool) else show_diff


def write_diff(before: str, after: str, file_path: _Path, output: TextIO) -> None:
    """Writes the unified diff of two texts of a file, with three lines around each change. Nothing is written if they are
    equal."""
    import difflib

    name = "" if file_path is None else os.fspath(file_path)
    lines = difflib.unified_diff(
        before.splitlines(keepends=True),
        after.splitlines(keepends=True),
        fromfile=f"{name}:before",
        tofile=f"{name}:after",
        fromfiledate=_changed_at(name),
        tofiledate=_changed_at(""),
    )
    for line in lines:
        output.write(line)


def _changed_at(name: str) -> str:
    """When a file was last changed. Of a text without a file, or of one that isn't there, this moment."""
    from datetime import datetime

    try:
        return str(datetime.fromtimestamp(os.stat(name).st_mtime))
    except OSError:
        return str(datetime.now())
