"""The text of settings: TOML that is read, and TOML that is written for the libraries."""

import functools
import importlib
from typing import Any, Dict, Mapping, Optional

from .exceptions import UnsupportedSettings
from .keywords import COLLECTIONS


@functools.lru_cache(maxsize=1)
def reader() -> Any:
    """The module that reads TOML, if there is one: Python has one since 3.11."""
    for name in ("tomllib", "tomli"):
        try:
            return importlib.import_module(name)
        except ImportError:
            pass
    return None


def expect_reader(key: str) -> None:
    """Refuses a keyword that needs a reader where there is none."""
    if reader() is None:
        raise UnsupportedSettings(f"{key} over a settings file needs Python 3.11, or the package tomli", key)


def table_of(text: bytes) -> Optional[Dict[str, Any]]:
    """The table [tool.isort] of a text, empty if it has none. None if the text is no TOML, or has something else there, or
    there is no reader."""
    if reader() is None:
        return None
    try:
        tool = reader().loads(text.decode("utf-8-sig")).get("tool", {})
    except (ValueError, RecursionError):
        return None
    table = tool.get("isort", {}) if isinstance(tool, dict) else None
    return table if isinstance(table, dict) else None


def written(lines: Mapping[str, Any]) -> bytes:
    """The text with these keys in its table [tool.isort]."""
    text = "".join(f"{_text(key)} = {_value(value)}\n" for key, value in lines.items())
    return f"[tool.isort]\n{text}".encode()


def _value(value: Any) -> str:
    """The value as TOML. One that no key may have becomes a table, which no key may have either."""
    if isinstance(value, bool):
        return "true" if value else "false"
    if isinstance(value, int) and -(2**63) <= value < 2**63:
        return str(int(value))
    if isinstance(value, str) and _is_utf8(value):
        return _text(value)
    if isinstance(value, COLLECTIONS) and all(isinstance(item, str) and _is_utf8(item) for item in value):
        return "[" + ", ".join(map(_text, value)) + "]"
    return "{}"


def _is_utf8(text: str) -> bool:
    try:
        text.encode()
    except UnicodeEncodeError:
        return False
    return True


def _text(text: str) -> str:
    """The text as a string of TOML."""
    escaped = [f"\\u{ord(c):04x}" if c < " " or c in '"\\\x7f' else c for c in text]
    return f'"{"".join(escaped)}"'
