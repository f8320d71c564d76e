"""Where a text isn't sorted, for plugins."""

import os
import re
from typing import List, NamedTuple, Optional

from .api import code
from .exceptions import ExistingSyntaxErrors, FileSkipComment, ISortError
from .settings import Config

# A line with its end. A form feed, say, ends none.
_LINE = re.compile(r"[^\r\n]*(?:\r\n|\r|\n)|[^\r\n]+")


class Finding(NamedTuple):
    """What is wrong with a text: its line from 1, its column in characters from 0, a code, and words."""

    line: int
    column: int
    code: str
    words: str


def config_of(path: str) -> Config:
    """The settings that hold for a file: those that are searched from it, or from the first folder above it that is there.
    Without a path, those that are searched from the current folder."""
    place = os.path.abspath(path or ".")
    while not os.path.exists(place):
        place = os.path.dirname(place)
    return Config(settings_path=os.path.realpath(place))


def lines_of(text: str) -> List[str]:
    """The lines of a text, each with its end."""
    return _LINE.findall(text)


def finding_of(text: str, config: Config) -> Optional[Finding]:
    """I001 where the text is not sorted, at the first line that sorting changes; I002 where it has a fault, there. None
    where it is sorted, or asks to be left as it is."""
    try:
        after = code(text, config=config)
    except FileSkipComment:
        return None
    except ExistingSyntaxErrors as fault:
        return Finding(fault.lineno, _column(text, fault.offset), "I002", f"{fault.label} {fault.words}")
    if text == after:
        return None
    return Finding(_first_changed(lines_of(text), lines_of(after)), 0, "I001", "imports are not sorted")


def finding_in(text: str, path: str) -> Optional[Finding]:
    """What finding_of tells of the text of a file, under the settings that hold for it. Settings that are refused or can't be
    read are I002 on the first line, and so is a text that is too long."""
    try:
        return finding_of(text, config_of(path))
    except (ISortError, OSError) as refusal:
        return Finding(1, 0, "I002", str(refusal))


def _first_changed(before: List[str], after: List[str]) -> int:
    """The first line that another list has not, from 1. It is in the first block that sorting changes."""
    same = 0
    while same < min(len(before), len(after)) and before[same] == after[same]:
        same += 1
    return min(same, len(before) - 1) + 1


def _column(text: str, offset: int) -> int:
    """The column of a byte: how many characters stand before it in its line."""
    whole = text.encode("utf-8", "surrogatepass")
    start = max(whole.rfind(b"\n", 0, offset), whole.rfind(b"\r", 0, offset)) + 1
    return len(whole[start:offset].decode("utf-8", "replace"))
