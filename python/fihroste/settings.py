"""Settings: those of a pyproject.toml, keywords, or keywords over a pyproject.toml."""

import os
import re
import stat
from types import MappingProxyType
from typing import Any, Dict, FrozenSet, List, Mapping, NoReturn, Optional, Tuple, Union

from . import _fihroste, search, toml_text
from .exceptions import RUNTIME_SOURCE, ProfileDoesNotExist, TextTooLong, UnsupportedSettings, shown
from .keywords import VALID_PY_TARGETS, WITHOUT_EFFECT, known, without_effect
from .profiles import profiles
from .sections import DEFAULT, THIRDPARTY
from .stdlibs.py3 import stdlib
from .wrap_modes import WrapModes

__all__ = ["DEFAULT_CONFIG", "VALID_PY_TARGETS", "Config"]

_Path = Union[str, "os.PathLike[str]"]

# The statuses and labels of fihroste.h.
_REFUSED = 4
_NOT_TOML, _BAD_VALUE, _UNKNOWN_PROFILE, _BAD_MODE = 1, 2, 3, 4

_PROFILES = MappingProxyType({"black": 1})
_NO_PROFILE = 0

# The values of settings where nothing says otherwise.
_DEFAULTS: Mapping[str, Any] = MappingProxyType(
    {
        "profile": "",
        "line_length": 79,
        "multi_line_output": 0,
        "include_trailing_comma": False,
        "force_grid_wrap": 0,
        "use_parentheses": False,
        "ensure_newline_before_comments": False,
        "force_single_line": False,
        "force_sort_within_sections": False,
        "case_sensitive": False,
        "combine_as_imports": False,
        "order_by_type": True,
        "lines_between_sections": 1,
        "lines_between_types": 0,
        "lines_after_imports": -1,
        "default_section": THIRDPARTY,
        "sections": DEFAULT,
        "known_standard_library": frozenset(stdlib),
        "extra_standard_library": frozenset(),
        "known_third_party": frozenset(),
        "known_first_party": frozenset(),
        "known_local_folder": frozenset(),
        "known_future_library": frozenset(("__future__",)),
    }
)
# The endings of files' names that hold Python, and those that don't.
_SUPPORTED: FrozenSet[str] = frozenset(("py", "pyi", "pyx", "pxd"))
_BLOCKED: FrozenSet[str] = frozenset(("pex",))
_SHEBANG = re.compile(rb"^#!.*\bpython[23w]?\b")
_SHEBANG_ROOM = 100


class Config:
    """Settings. They are read when the object is made, and never change.

    `settings_file` is a pyproject.toml. `settings_path` is a file or folder, and the nearest pyproject.toml with a table
    [tool.isort] at or above it is taken; it is not looked at beside `settings_file`. `config` is another Config, which stands
    in place of a file. The keywords are keys of [tool.isort], and win.

    Each setting is an attribute to read, such as `line_length`, with its value from a keyword, the file, the profile or the
    defaults. Lists of modules are frozensets, `sections` is a tuple, and `known_other` has the lists of own sections under
    the names of these in small letters. Configs with equal attributes are equal.

    It raises UnsupportedSettings, ProfileDoesNotExist and InvalidSettingsPath; OSError if `settings_file` can't be read;
    TypeError for a value of another type than its key's; ValueError for `config` beside a file or path."""

    __slots__ = ("_text", "_path", "_keywords", "_other", "_toml", "_profile", "_kept", "_values")

    _text: bytes
    _path: str
    _keywords: Dict[str, Any]
    _other: Dict[str, Any]
    _toml: bytes
    _profile: int
    _kept: object
    _values: Optional[Dict[str, Any]]

    def __init__(
        self,
        settings_file: _Path = "",
        settings_path: _Path = "",
        config: Optional["Config"] = None,
        **config_overrides: Any,
    ) -> None:
        if config is not None and not isinstance(config, Config):
            raise TypeError(f"config has to be a Config, not {type(config).__name__}")
        if config is not None and (settings_file or settings_path):
            raise ValueError("give a config, or a settings_file or settings_path, not both")
        path, text = _settings_text(os.fspath(settings_file or ""), os.fspath(settings_path or ""))
        if config is not None:
            path, text = config._path, config._text
        keywords = {**(config._keywords if config else {}), **known(config_overrides)}
        other = {**(config._other if config else {}), **without_effect(config_overrides)}
        toml, profile = _whole(text, keywords, path)
        kept, unknown = _read(toml, profile, text, keywords, path)
        self._set(text, path, keywords, other, toml, profile, kept)
        for key in unknown:
            if key in keywords:
                raise UnsupportedSettings(f"unknown setting {key}", key, value=keywords[key])
        for key in unknown if path and config is None else ():
            search.warn(f"{path}: settings: {key} ignored")

    def _set(self, *values: Any) -> None:
        for name, value in zip(self.__slots__, (*values, None)):
            object.__setattr__(self, name, value)

    def __setattr__(self, name: str, value: Any) -> NoReturn:
        raise AttributeError(f"a Config never changes: make one with Config(config=other, {name}=..)")

    def __delattr__(self, name: str) -> NoReturn:
        raise AttributeError("a Config never changes")

    def __reduce__(self) -> Tuple[Any, ...]:
        return _made, (self._text, self._path, self._keywords, self._other, self._toml, self._profile)

    def __getattr__(self, name: str) -> Any:
        values = {} if name.startswith("_") else self._all_values()
        if name not in values:
            raise AttributeError(f"a Config has no {name}")
        return values[name]

    def __dir__(self) -> List[str]:
        return [*super().__dir__(), *_DEFAULTS, *WITHOUT_EFFECT, "known_other", "supported_extensions", "blocked_extensions"]

    def __eq__(self, other: object) -> bool:
        if not isinstance(other, Config):
            return NotImplemented
        return bool(self._identity() == other._identity())

    def __hash__(self) -> int:
        return hash(self._identity())

    def __repr__(self) -> str:
        words = [f"{key}={shown(value)}" for key, value in {**self._keywords, **self._other}.items()]
        return f"Config({', '.join((['...'] if self._text else []) + words)})"

    def _all_values(self) -> Dict[str, Any]:
        """The values of all settings, in the types that isort 5 has for them."""
        if self._values is None:
            object.__setattr__(self, "_values", _values(self._text, self._keywords, self._other))
        assert self._values is not None
        return self._values

    def _identity(self) -> Tuple[Any, ...]:
        """What is equal of Configs with equal settings."""
        if self._text and toml_text.reader() is None:
            return self._toml, self._profile, *sorted(self._other.items())
        values = self._all_values()
        others = tuple(sorted(values["known_other"].items()))
        return others, *(value for key, value in sorted(values.items()) if key != "known_other")

    def is_supported_filetype(self, file_name: _Path) -> bool:
        """Whether the file is one of Python's: by the ending of its name, or else by its #! line."""
        file_name = os.fspath(file_name)
        ending = os.path.splitext(file_name)[1].lstrip(".")
        if ending in _SUPPORTED or ending in _BLOCKED:
            return ending in _SUPPORTED
        # A name that ends so is an editor's copy, and a pipe could be waited for without end.
        if file_name.endswith("~") or _is_pipe(file_name):
            return False
        try:
            with open(file_name, "rb") as source_file:
                return _SHEBANG.match(source_file.readline(_SHEBANG_ROOM)) is not None
        except OSError:
            return False

    def is_skipped(self, file_path: _Path) -> bool:
        """Whether settings say that the file is left as it is: never, since no setting does."""
        return False


def _made(*values: Any) -> Config:
    """The Config of a pickle."""
    text, path, keywords, _, toml, profile = values
    kept, _ = _read(toml, profile, text, keywords, path)
    config = object.__new__(Config)
    config._set(*values, kept)
    return config


def _is_pipe(path: str) -> bool:
    try:
        return stat.S_ISFIFO(os.stat(path).st_mode)
    except OSError:
        return False


def _settings_text(settings_file: str, settings_path: str) -> Tuple[str, bytes]:
    """The path and the text of a settings file: the one that is given, or the one that is found."""
    if settings_file:
        search.expect_project(settings_file)
        return settings_file, search.read(settings_file)
    return search.nearest(settings_path) if settings_path else ("", b"")


def _whole(text: bytes, keywords: Mapping[str, Any], path: str) -> Tuple[bytes, int]:
    """The text of settings that stands for a text under keywords, and the number of the profile that wins over it."""
    given = keywords.get("profile", "")
    profile = _PROFILES.get(given, _NO_PROFILE)
    lines = {key: value for key, value in keywords.items() if key != "profile" or (given and not profile)}
    takes_profile_away = given == "" and "profile" in keywords and b"profile" in text
    if not lines and not takes_profile_away:
        return text, profile
    table = _table(text, next(iter(lines), "profile"), path) if text else {}
    if takes_profile_away:
        table.pop("profile", None)
    return toml_text.written({**table, **lines}), profile


def _table(text: bytes, key: str, path: str) -> Dict[str, Any]:
    """The table [tool.isort] of the text of the file at `path`, which goes under a keyword."""
    toml_text.expect_reader(key)
    table = toml_text.table_of(text)
    if table is not None:
        return table
    # What is no TOML, or no table, is refused by the same rules as without keywords.
    _read(text, _NO_PROFILE, text, {}, path)
    raise UnsupportedSettings("the settings are not TOML", None, f"S{_NOT_TOML}", None, path)


def _read(
    toml: bytes, profile: int, text: bytes, keywords: Mapping[str, Any], path: str
) -> Tuple[object, List[str]]:
    """Reads settings, for all calls with them, and refuses them as the program does. Answers them, and the unknown keys.

    `toml` stands for `text`, which the file at `path` has, under the keywords."""
    try:
        status, label, _, _, value = _fihroste.read(toml, profile)
    except OverflowError:
        raise TextTooLong(path or "the settings") from None
    if status != _REFUSED:
        kept, unknown = value
        return kept, unknown
    if label == _NOT_TOML:
        raise UnsupportedSettings("the settings are not TOML", None, f"S{label}", None, path or RUNTIME_SOURCE)
    table = (toml_text.table_of(text) or {}) if text else {}
    key = {_UNKNOWN_PROFILE: "profile", _BAD_MODE: "multi_line_output"}.get(label) or str(value)
    source = RUNTIME_SOURCE if key in keywords or not path else path
    given = keywords.get(key, table.get(key))
    if label == _UNKNOWN_PROFILE:
        raise ProfileDoesNotExist(given, source)
    words = "unsupported" if label == _BAD_MODE else "bad value for"
    ending = f": {shown(given)}" if key in keywords or key in table else ""
    raise UnsupportedSettings(f"{words} {key}{ending}", key, f"S{label}", given, source)


def _values(text: bytes, keywords: Mapping[str, Any], other: Mapping[str, Any]) -> Dict[str, Any]:
    """The values of all settings. Those of a text need a reader of TOML."""
    if text:
        toml_text.expect_reader("reading a setting")
    table = {**((toml_text.table_of(text) or {}) if text else {}), **keywords}
    given = {**_DEFAULTS, **profiles.get(table.get("profile", ""), {}), **table}
    values = {key: _as_read(key, given[key]) for key in _DEFAULTS}
    own = {f"known_{section.lower()}": section.lower() for section in values["sections"] if section not in DEFAULT}
    values["known_other"] = {name: frozenset(given[key]) for key, name in own.items() if key in table}
    values.update(WITHOUT_EFFECT, supported_extensions=_SUPPORTED, blocked_extensions=_BLOCKED)
    values.update(other)
    version = values["py_version"]
    values["py_version"] = version if version == "all" else "py3" if version == "auto" else f"py{version}"
    return values


def _as_read(key: str, value: Any) -> Any:
    """The value of a setting in the type that isort 5 has for it."""
    if key == "multi_line_output":
        return WrapModes(value)
    if key == "sections":
        return tuple(value)
    return frozenset(value) if isinstance(value, (list, tuple)) else value


DEFAULT_CONFIG = Config()
