"""The exceptions of this package. Their names are those of isort.exceptions."""

import os
from typing import Any, Dict, Optional, Union

_Path = Union[str, "os.PathLike[str]", None]

# How much of a value an exception's text shows.
_MOST_SHOWN = 200
# The source of a setting that a keyword gave, as isort 5 calls it.
RUNTIME_SOURCE = "runtime"


def shown(value: Any) -> str:
    """The value as an exception's text shows it."""
    try:
        words = repr(value)
    except ValueError:
        # Python doesn't print whole numbers of more than some thousand digits.
        words = "a number that is too long to print"
    return words if len(words) <= _MOST_SHOWN else f"{words[:_MOST_SHOWN]}.."


def _source(file_path: _Path) -> str:
    """The words that stand for a text: its file, if it has one."""
    return str(file_path or "Passed in content")


class ISortError(Exception):
    """What all exceptions of this package are."""


class InvalidSettingsPath(ISortError):
    """The path from which settings are to be searched doesn't exist. `settings_path` is the path as it was given."""

    def __init__(self, settings_path: str) -> None:
        super().__init__(settings_path)
        self.settings_path = settings_path

    def __str__(self) -> str:
        return f"the settings path does not exist: {self.settings_path}"


class ExistingSyntaxErrors(ISortError):
    """The text isn't accepted.

    `label` is F1 to F10, and `words` says what it means. `lineno` is the line of the fault, from 1, and `offset` its place
    in bytes of the text in UTF-8, from 0. `file_path` is the text's file, if it has one."""

    def __init__(self, label: str, words: str, offset: int, lineno: int, file_path: _Path = None) -> None:
        super().__init__(label, words, offset, lineno, file_path)
        self.label = label
        self.words = words
        self.offset = offset
        self.lineno = lineno
        self.file_path = file_path

    def __str__(self) -> str:
        return f"{_source(self.file_path)}:{self.lineno}: {self.label} {self.words}"


class IntroducedSyntaxErrors(ISortError):
    """Never raised: a sorted text is always accepted. The name is there for callers that catch it."""

    def __init__(self, file_path: str) -> None:
        super().__init__(file_path)
        self.file_path = file_path


class TextTooLong(ISortError):
    """The text has more than 2^30 bytes in UTF-8. `file_path` is its file, if it has one."""

    def __init__(self, file_path: _Path = None) -> None:
        super().__init__(file_path)
        self.file_path = file_path

    def __str__(self) -> str:
        return f"{_source(self.file_path)}: R2 is too long"


class FileSkipped(ISortError):
    """The text asks to be left as it is. `file_path` is its file, if it has one."""

    def __init__(self, message: str, file_path: _Path) -> None:
        super().__init__(message, file_path)
        self.message = message
        self.file_path = file_path

    def __str__(self) -> str:
        return self.message


class FileSkipComment(FileSkipped):
    """The text asks by a comment to be left as it is. `file_path` is its file, if it has one."""

    def __init__(self, file_path: _Path = None) -> None:
        super().__init__(f"{_source(file_path)} has a skip_file comment, and was skipped", file_path)
        self.args = (file_path,)


class FileSkipSetting(FileSkipped):
    """Never raised: no setting skips a file. The name is there for callers that catch it."""

    def __init__(self, file_path: _Path = None) -> None:
        super().__init__(f"{_source(file_path)} was skipped by a setting", file_path)
        self.args = (file_path,)


class ProfileDoesNotExist(ISortError):
    """The settings name another profile than black.

    `profile` is its name, and None where that isn't known: where a settings file named it, and Python has no reader of TOML.
    `source` is "runtime" where a keyword named it, and else the path of the settings file."""

    def __init__(self, profile: Optional[str] = None, source: str = RUNTIME_SOURCE) -> None:
        super().__init__(profile, source)
        self.profile = profile
        self.source = source

    def __str__(self) -> str:
        given = "" if self.profile is None else f": {self.profile}"
        return f"{_prefix(self.source)}S3 unknown profile{given}"


class FormattingPluginDoesNotExist(ISortError):
    """Never raised: there are no formatting plugins. The name is there for callers that catch it."""

    def __init__(self, formatter: str) -> None:
        super().__init__(formatter)
        self.formatter = formatter


class LiteralParsingFailure(ISortError):
    """Never raised: no literals are sorted. The name is there for callers that catch it."""

    def __init__(self, code: str, original_error: Exception) -> None:
        super().__init__(code, original_error)
        self.code = code
        self.original_error = original_error


class LiteralSortTypeMismatch(ISortError):
    """Never raised: no literals are sorted. The name is there for callers that catch it."""

    def __init__(self, kind: type, expected_kind: type) -> None:
        super().__init__(kind, expected_kind)
        self.kind = kind
        self.expected_kind = expected_kind


class AssignmentsFormatMismatch(ISortError):
    """Never raised: no assignments are sorted. The name is there for callers that catch it."""

    def __init__(self, code: str) -> None:
        super().__init__(code)
        self.code = code


class UnsupportedSettings(ISortError):
    """A setting or parameter that isn't known, or a value that isn't taken.

    `key` is its name, and None where the text of a settings file is no TOML. `label` is S1, S2 or S4 of the program's
    messages, and None where the key isn't known. `value` is what it was given, and None where that isn't known. `source` is
    "runtime" where it was a keyword or a parameter, and else the path of the settings file."""

    def __init__(
        self,
        words: str,
        key: Optional[str] = None,
        label: Optional[str] = None,
        value: Any = None,
        source: str = RUNTIME_SOURCE,
    ) -> None:
        super().__init__(words, key, label, value, source)
        self.words = words
        self.key = key
        self.label = label
        self.value = value
        self.source = source

    @property
    def unsupported_settings(self) -> Dict[str, Dict[str, Any]]:
        """The setting under its name, with its value and its source, as isort 5 has it."""
        return {} if self.key is None else {self.key: {"value": self.value, "source": self.source}}

    def __str__(self) -> str:
        return f"{_prefix(self.source)}{'' if self.label is None else f'{self.label} '}{self.words}"


def _prefix(source: str) -> str:
    """What stands before the words of a refusal: the settings file, if it comes from one."""
    return "" if source == RUNTIME_SOURCE else f"{source}: "


class UnsupportedEncoding(ISortError):
    """Never raised: a text that is not UTF-8 is the fault F1. The name is there for callers that catch it."""

    def __init__(self, filename: _Path) -> None:
        super().__init__(filename)
        self.filename = filename
