"""The wrap modes: the forms of a `from` import that is too long for one line."""

import enum


class WrapModes(enum.Enum):
    """The four wrap modes of `multi_line_output`. isort 5 has others after them, which are not here."""

    GRID = 0
    VERTICAL = 1
    HANGING_INDENT = 2
    VERTICAL_HANGING_INDENT = 3


def from_string(value: str) -> WrapModes:
    """The wrap mode of a name or of a number. Of anything else it raises ValueError."""
    named = WrapModes.__members__.get(str(value))
    return WrapModes(int(value)) if named is None else named
