"""The keywords that are settings: their types, and how values of other types become theirs."""

import enum
import re
from types import MappingProxyType
from typing import Any, Dict, FrozenSet, Mapping, NoReturn, Optional, Tuple

from .exceptions import UnsupportedSettings, shown
from .wrap_modes import WrapModes

# The keys of [tool.isort], with the types of their values. A list may be any collection of texts.
KINDS: Mapping[str, type] = MappingProxyType(
    {
        "profile": str,
        "line_length": int,
        "multi_line_output": int,
        "include_trailing_comma": bool,
        "force_grid_wrap": int,
        "use_parentheses": bool,
        "ensure_newline_before_comments": bool,
        "force_single_line": bool,
        "force_sort_within_sections": bool,
        "case_sensitive": bool,
        "combine_as_imports": bool,
        "order_by_type": bool,
        "lines_between_sections": int,
        "lines_between_types": int,
        "lines_after_imports": int,
        "default_section": str,
        "sections": list,
        "known_standard_library": list,
        "extra_standard_library": list,
        "known_third_party": list,
        "known_first_party": list,
        "known_local_folder": list,
        "known_future_library": list,
    }
)
# Keywords of isort 5 that change no result here, with the values that they have where they aren't given.
WITHOUT_EFFECT: Mapping[str, Any] = MappingProxyType(
    {
        "quiet": False,
        "verbose": False,
        "color_output": False,
        "only_modified": False,
        "atomic": False,
        "filter_files": False,
        "py_version": "3",
        "directory": "",
    }
)
# The versions of Python that `py_version` may name. There is one list of the standard library for all of them.
VALID_PY_TARGETS: Tuple[str, ...] = ("all", "2", "27", "3", *(f"3{minor}" for minor in range(5, 15)))

# The keys that may be the list of an own section. The libraries tell whether there is such a section.
OWN_LIST = re.compile("known_[a-z][a-z0-9_]*")

COLLECTIONS = (list, tuple, set, frozenset)
_TRUE: FrozenSet[str] = frozenset(("y", "yes", "t", "on", "1", "true"))
_FALSE: FrozenSet[str] = frozenset(("n", "no", "f", "off", "0", "false"))
_WORDS = {bool: "a bool", int: "an int", str: "a str", list: "a list of str"}


def known(keywords: Mapping[str, Any]) -> Dict[str, Any]:
    """The keywords that are keys, with values of their types, and lists as tuples.

    Those that are no keys raise UnsupportedSettings, and so do texts that are no value of their type. Values of other
    types raise TypeError."""
    return {key: _converted(key, value) for key, value in keywords.items() if key not in WITHOUT_EFFECT}


def without_effect(keywords: Mapping[str, Any]) -> Dict[str, Any]:
    """The keywords that change no result here, with values of their types."""
    taken = {key: _to_kind(key, type(WITHOUT_EFFECT[key]), value) for key, value in keywords.items() if key in WITHOUT_EFFECT}
    if taken.get("py_version", "auto") not in (*VALID_PY_TARGETS, "auto"):
        raise ValueError(f"py_version has to be auto or one of {', '.join(VALID_PY_TARGETS)}, not {shown(taken['py_version'])}")
    return taken


def _converted(key: str, value: Any) -> Any:
    kind = list if OWN_LIST.fullmatch(key) else KINDS.get(key)
    if kind is None:
        raise UnsupportedSettings(f"unknown setting {key}", key, value=value)
    return _to_kind(key, kind, value)


def _to_kind(key: str, kind: type, value: Any) -> Any:
    """The value as one of this type. Texts are read as isort 5 reads those of a settings file that has no types."""
    if key == "multi_line_output":
        value = _wrap_mode(value)
    converted: Any
    if kind is list:
        converted = _to_list(value)
    elif kind is bool:
        converted = _to_bool(key, value)
    elif kind is int:
        converted = _to_int(key, value)
    else:
        converted = value if isinstance(value, str) else None
    if converted is None:
        raise TypeError(f"{key} has to be {_WORDS[kind]}, not {shown(value)}")
    return converted


def _wrap_mode(value: Any) -> Any:
    """The number of a wrap mode that is given as itself, or by its name."""
    if isinstance(value, str):
        value = WrapModes.__members__.get(value, value)
    return value.value if isinstance(value, enum.Enum) else value


def _to_list(value: Any) -> Optional[Tuple[str, ...]]:
    if isinstance(value, str):
        return tuple(item.strip() for item in value.replace("\n", ",").split(",") if item.strip())
    if isinstance(value, COLLECTIONS) and all(isinstance(item, str) for item in value):
        return tuple(value)
    return None


def _to_bool(key: str, value: Any) -> Optional[bool]:
    if isinstance(value, str):
        word = value.lower()
        return True if word in _TRUE else False if word in _FALSE else _refuse(key, value)
    return bool(value) if isinstance(value, int) and value in (0, 1) else None


def _to_int(key: str, value: Any) -> Optional[int]:
    if isinstance(value, str):
        try:
            return int(value)
        except ValueError:
            _refuse(key, value)
    return int(value) if isinstance(value, int) and not isinstance(value, bool) else None


def _refuse(key: str, value: str) -> NoReturn:
    """Refuses a text that is no value of its key."""
    if key == "multi_line_output":
        raise UnsupportedSettings(f"unsupported {key}: {shown(value)}", key, "S4", value)
    raise UnsupportedSettings(f"bad value for {key}: {shown(value)}", key, "S2", value)
