"""The calls, with the names, parameters and defaults of isort 5.

Parameters that several calls have:

- `config`: a Config. Further keywords are settings, in its place.
- `file_path`: the file that a text comes from. If there is no `config`, settings are searched from it. Exceptions, imports and
  differences name it.
- `extension`: None or "py"; any other raises UnsupportedSettings.
- `disregard_skip`: without effect, since no setting skips a file.
- `show_diff`: True or a stream; see `code`, `stream`, `check_code` and `file`.

Exceptions that they have in common: ExistingSyntaxErrors, FileSkipComment, TextTooLong, UnsupportedSettings,
ProfileDoesNotExist and InvalidSettingsPath of `exceptions`; TypeError for arguments of other types; ValueError for a `config`
beside keywords; OSError where a file can't be read or written; MemoryError. After each of them the next call works."""

import io
import os
import sys
from pathlib import Path
from typing import Any, Callable, Dict, Iterable, Iterator, Optional, Set, TextIO, Tuple, Union

from . import _fihroste
from .diff import expect_stream, stream_of, write_diff
from .exceptions import ExistingSyntaxErrors, FileSkipComment, TextTooLong, UnsupportedSettings, shown
from .identify import Import, ImportKey, key_of
from .paths import files_of
from .replace import replaced
from .settings import DEFAULT_CONFIG, Config

_Path = Union[str, "os.PathLike[str]"]
_Text = Union[str, bytes]
_Answer = Tuple[int, int, int, int, Any]

# The statuses of fihroste.h.
_CHANGED, _SKIPPED, _FAULT, _ARGUMENT = 1, 2, 3, 6
_WORDS = (
    "not UTF-8",
    "unexpected character",
    "string not closed",
    "triple-quoted string not closed",
    "closing bracket without its opening",
    "bracket not closed",
    "backslash not before a line end",
    "more than 200 brackets open",
    "import statement not understood",
    "field not closed",
)
# No file is read beyond this: it is the size at which a text is too long, and one byte.
_MOST_BYTES = 2**30 + 1


def code(
    code: str,
    extension: Optional[str] = None,
    config: Config = DEFAULT_CONFIG,
    file_path: Optional[_Path] = None,
    disregard_skip: bool = False,
    show_diff: Union[bool, TextIO] = False,
    **config_kwargs: Any,
) -> str:
    """The text with its imports sorted. A text that asks to be left as it is raises FileSkipComment.

    As in isort 5, `show_diff` puts the difference in its place: with True that is what is answered, and nothing if the text is
    sorted; a stream is written to, and the answer is empty."""
    if extension or show_diff is not False:
        _refuse_parameters(show_diff, extension=extension)
    text = _expect_text(code)
    sorted_text = _sorted(text, _config(config, file_path, config_kwargs), file_path)
    after = text if sorted_text is None else sorted_text
    if not show_diff:
        return after
    difference = io.StringIO()
    write_diff(text, after, file_path, stream_of(show_diff, difference))
    return difference.getvalue()


def check_code(
    code: str,
    show_diff: Union[bool, TextIO] = False,
    extension: Optional[str] = None,
    config: Config = DEFAULT_CONFIG,
    file_path: Optional[_Path] = None,
    disregard_skip: bool = False,
    **config_kwargs: Any,
) -> bool:
    """Whether the text is sorted. A text that asks to be left as it is raises FileSkipComment.

    With `show_diff` the difference goes to the stream, or to standard output for True."""
    if extension or show_diff is not False:
        _refuse_parameters(show_diff, extension=extension)
    text = _expect_text(code)
    return _checked(text, _config(config, file_path, config_kwargs), file_path, show_diff)


def stream(
    input_stream: TextIO,
    output_stream: TextIO,
    extension: Optional[str] = None,
    config: Config = DEFAULT_CONFIG,
    file_path: Optional[_Path] = None,
    disregard_skip: bool = False,
    show_diff: Union[bool, TextIO] = False,
    raise_on_skip: bool = True,
    **config_kwargs: Any,
) -> bool:
    """Sorts what a stream has into another one, and answers whether that changed it. At an exception nothing is written.

    A text that asks to be left as it is raises FileSkipComment, and is written as it is without `raise_on_skip`. With
    `show_diff` the difference is written in place of the text: to `output_stream` for True, or else to the stream that it
    is."""
    if extension or show_diff is not False:
        _refuse_parameters(show_diff, extension=extension)
    config = _config(config, file_path, config_kwargs)
    text = _expect_text(input_stream.read())
    try:
        sorted_text = _sorted(text, config, file_path)
    except FileSkipComment:
        if raise_on_skip:
            raise
        sorted_text = None
    after = text if sorted_text is None else sorted_text
    if show_diff:
        write_diff(text, after, file_path, stream_of(show_diff, output_stream))
    else:
        output_stream.write(after)
    return sorted_text is not None


def check_stream(
    input_stream: TextIO,
    show_diff: Union[bool, TextIO] = False,
    extension: Optional[str] = None,
    config: Config = DEFAULT_CONFIG,
    file_path: Optional[_Path] = None,
    disregard_skip: bool = False,
    **config_kwargs: Any,
) -> bool:
    """Whether what a stream has is sorted, as check_code says it of a text."""
    if extension or show_diff is not False:
        _refuse_parameters(show_diff, extension=extension)
    config = _config(config, file_path, config_kwargs)
    return _checked(_expect_text(input_stream.read()), config, file_path, show_diff)


def file(
    filename: _Path,
    extension: Optional[str] = None,
    config: Config = DEFAULT_CONFIG,
    file_path: Optional[_Path] = None,
    disregard_skip: bool = True,
    ask_to_apply: bool = False,
    show_diff: Union[bool, TextIO] = False,
    write_to_stdout: bool = False,
    output: Optional[TextIO] = None,
    **config_kwargs: Any,
) -> bool:
    """Sorts a file where it stands, and answers whether that changed it. It is replaced whole, so no text is lost.

    With `write_to_stdout` or `output` the sorted text goes there, the file stays as it is, and the answer is whether the two
    differ. With `show_diff` the difference goes to the stream, or to standard output for True; the file stays as it is, and the
    answer is False. `ask_to_apply` has to be False. If there is no `config`, settings are searched beside the file, and beside
    its target if it is a link."""
    if extension or ask_to_apply or show_diff is not False:
        _refuse_parameters(show_diff, extension=extension, ask_to_apply=ask_to_apply)
    if show_diff and (write_to_stdout or output is not None):
        raise ValueError("give show_diff, or write_to_stdout or output, not both")
    text, seen = _read_and_seen(filename)
    actual_path = file_path or filename
    config = _config(config, file_path, config_kwargs, filename)
    sorted_text = _sorted(text, config, actual_path)
    if write_to_stdout or output is not None:
        stream = sys.stdout if output is None else output
        stream.write(text.decode("utf-8") if sorted_text is None else sorted_text)
        return sorted_text is not None
    if sorted_text is None:
        return False
    if show_diff:
        write_diff(text.decode("utf-8"), sorted_text, actual_path, stream_of(show_diff))
        return False
    name = os.fspath(filename)
    if replaced(name, seen, text, sorted_text.encode("utf-8")):
        return True
    from .program import rewrite

    return rewrite(name, config._toml, config._profile)


def check_file(
    filename: _Path,
    show_diff: Union[bool, TextIO] = False,
    config: Config = DEFAULT_CONFIG,
    file_path: Optional[_Path] = None,
    disregard_skip: bool = True,
    extension: Optional[str] = None,
    **config_kwargs: Any,
) -> bool:
    """Whether a file is sorted, as check_code says it of a text. Settings are searched as by `file`."""
    if extension or show_diff is not False:
        _refuse_parameters(show_diff, extension=extension)
    text = _read(filename)
    config = _config(config, file_path, config_kwargs, filename)
    return _checked(text, config, file_path or filename, show_diff)


def find_imports_in_code(
    code: str,
    config: Config = DEFAULT_CONFIG,
    file_path: Optional[_Path] = None,
    unique: Union[bool, ImportKey] = False,
    top_only: bool = False,
    **config_kwargs: Any,
) -> Iterator[Import]:
    """The imports of the text, in its order. The text's fault is raised after the imports before it.

    With `unique` only the first import of each key is given: True means ImportKey.ALIAS. With `top_only` only those are given
    that stand before the first function or class. Settings have no effect."""
    _config(config, None, config_kwargs)
    return _found(_expect_text(code), file_path, unique, top_only)


def find_imports_in_stream(
    input_stream: TextIO,
    config: Config = DEFAULT_CONFIG,
    file_path: Optional[_Path] = None,
    unique: Union[bool, ImportKey] = False,
    top_only: bool = False,
    **config_kwargs: Any,
) -> Iterator[Import]:
    """The imports of what a stream has, which is read whole at once, as find_imports_in_code gives them."""
    _config(config, None, config_kwargs)
    return _found(_expect_text(input_stream.read()), file_path, unique, top_only)


def find_imports_in_file(
    filename: _Path,
    config: Config = DEFAULT_CONFIG,
    file_path: Optional[_Path] = None,
    unique: Union[bool, ImportKey] = False,
    top_only: bool = False,
    **config_kwargs: Any,
) -> Iterator[Import]:
    """The imports of a file, as find_imports_in_code gives them."""
    _config(config, None, config_kwargs)
    return _found(_read(filename), file_path or filename, unique, top_only)


def find_imports_in_paths(
    paths: Iterable[_Path],
    config: Config = DEFAULT_CONFIG,
    file_path: Optional[_Path] = None,
    unique: Union[bool, ImportKey] = False,
    top_only: bool = False,
    **config_kwargs: Any,
) -> Iterator[Import]:
    """The imports of files, and of the files of Python below folders, as find_imports_in_code gives them.

    Paths are taken in their order, and what is below a folder in the order of the names. A file that is named is read whatever
    its ending. `unique` counts over all files. `file_path` has no effect. The first fault ends the listing, and so does the
    first file that can't be read."""
    if isinstance(paths, (str, bytes)):
        raise TypeError("paths has to be several paths, not one")
    config = _config(config, None, config_kwargs)
    return _in_paths(files_of(paths, config), _expect_key(unique), top_only)


def place_module(name: str, config: Config = DEFAULT_CONFIG, **config_kwargs: Any) -> str:
    """The section of a module: "FUTURE", "STDLIB", "THIRDPARTY", "FIRSTPARTY", "LOCALFOLDER", or an own one.

    A name with a lone surrogate raises ValueError."""
    return _place(name, _config(config, None, config_kwargs))


def place_module_with_reason(name: str, config: Config = DEFAULT_CONFIG, **config_kwargs: Any) -> Tuple[str, str]:
    """The section of a module, as place_module answers it, and why: the entry of a list, a leading dot, or the default."""
    config = _config(config, None, config_kwargs)
    section = _place(name, config)
    if name.startswith("."):
        return section, "Module name started with a dot."
    lists = [value for key, value in config._all_values().items() if key.startswith("known_") and key != "known_other"]
    listed: Set[str] = set().union(config.extra_standard_library, *config.known_other.values(), *lists)
    names = name.split(".")
    for count in range(len(names), 0, -1):
        entry = ".".join(names[:count])
        if entry in listed:
            return section, f"Matched configured known pattern {entry}"
    return section, "Default option in Config or universal default."


# The names that the calls have in isort.api.
sort_code_string = code
check_code_string = check_code
sort_stream = stream
sort_file = file


def _refuse_parameters(show_diff: Union[bool, TextIO], **given: Any) -> None:
    """Refuses the first parameter that asks for what isn't there."""
    for name, value in given.items():
        if value and not (name == "extension" and value == "py"):
            raise UnsupportedSettings(f"{name} is not supported", name, value=value)
    expect_stream(show_diff)


def _expect_text(text: Any) -> str:
    if not isinstance(text, str):
        raise TypeError(f"a text has to be a str, not {type(text).__name__}")
    return text


def _config(
    config: Config, file_path: Optional[_Path], keywords: Dict[str, Any], filename: Optional[_Path] = None
) -> Config:
    """The settings of a call: its config, or its keywords over those that are found for its file."""
    if config is not DEFAULT_CONFIG:
        if not isinstance(config, Config):
            raise TypeError(f"config has to be a Config, not {type(config).__name__}")
        if keywords:
            raise ValueError("give a config or keywords, not both")
        return config
    path = file_path or (os.path.realpath(filename) if filename else None)
    if path and not keywords.keys() & {"settings_file", "settings_path", "config"}:
        keywords = {**keywords, "settings_path": path}
    return Config(**keywords) if keywords else config


def _answered(call: Callable[..., _Answer], file_path: Optional[_Path], text: _Text, *words: Any) -> _Answer:
    """What a call of the extension answers. A lone surrogate becomes bytes that are not UTF-8."""
    try:
        try:
            return call(text, *words)
        except UnicodeEncodeError as error:
            return call(error.object.encode("utf-8", "surrogatepass"), *words)
    except OverflowError:
        raise TextTooLong(file_path) from None


def _expect_no_fault(answer: _Answer, file_path: Optional[_Path]) -> None:
    status, label, offset, line, _ = answer
    if status == _FAULT:
        raise ExistingSyntaxErrors(f"F{label}", _WORDS[label - 1], offset, line, file_path)


def _sorted(text: _Text, config: Config, file_path: Optional[_Path]) -> Optional[str]:
    """The sorted text, if it differs."""
    answer = _answered(_fihroste.sort, file_path, text, config._kept)
    _expect_no_fault(answer, file_path)
    if answer[0] == _SKIPPED:
        raise FileSkipComment(file_path)
    sorted_text: Optional[str] = answer[4]
    return sorted_text


def _checked(
    text: _Text, config: Config, file_path: Optional[_Path], show_diff: Union[bool, TextIO]
) -> bool:
    """Whether the text is sorted. If it isn't, the difference may be shown."""
    if show_diff:
        sorted_text = _sorted(text, config, file_path)
        if sorted_text is not None:
            before = text.decode("utf-8") if isinstance(text, bytes) else text
            write_diff(before, sorted_text, file_path, stream_of(show_diff))
        return sorted_text is None
    answer = _answered(_fihroste.check, file_path, text, config._kept)
    _expect_no_fault(answer, file_path)
    if answer[0] == _SKIPPED:
        raise FileSkipComment(file_path)
    return answer[0] != _CHANGED


def _place(name: str, config: Config) -> str:
    answer = _answered(_fihroste.place, None, _expect_text(name), config._kept)
    if answer[0] == _ARGUMENT:
        raise ValueError("the module's name is not UTF-8")
    section: str = answer[4]
    return section


def _expect_key(unique: Union[bool, ImportKey]) -> Optional[ImportKey]:
    """The key by which imports count as one, if they do."""
    if not isinstance(unique, (bool, ImportKey)):
        raise TypeError(f"unique has to be a bool or an ImportKey, not {shown(unique)}")
    return unique if isinstance(unique, ImportKey) else ImportKey.ALIAS if unique else None


def _found(
    text: _Text, file_path: Optional[_Path], unique: Union[bool, ImportKey], top_only: bool
) -> Iterator[Import]:
    key = _expect_key(unique)
    answer = _answered(_fihroste.find, file_path, text, key.value if key else 0, top_only)
    return _each(answer, Path(file_path) if file_path else None)


def _each(answer: _Answer, file_path: Optional[Path]) -> Iterator[Import]:
    for line_number, indented, module, attribute, alias in answer[4]:
        yield Import(line_number, indented, module, attribute, alias, False, file_path)
    _expect_no_fault(answer, file_path)


def _in_paths(files: Iterator[str], key: Optional[ImportKey], top_only: bool) -> Iterator[Import]:
    seen: Set[Tuple[Optional[str], ...]] = set()
    for name in files:
        for found in _found(_read(name), name, key or False, top_only):
            if key is not None and key_of(found, key) in seen:
                continue
            if key is not None:
                seen.add(key_of(found, key))
            yield found


def _read(path: _Path) -> bytes:
    return _read_and_seen(path)[0]


def _read_and_seen(path: _Path) -> Tuple[bytes, os.stat_result]:
    """The bytes of a file, and what the system said of it before they were read."""
    # A number would be a file that is open already.
    with open(Path(path), "rb") as source_file:
        seen = os.fstat(source_file.fileno())
        return source_file.read(_MOST_BYTES), seen
