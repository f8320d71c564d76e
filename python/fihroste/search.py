"""The search for the settings file of a path."""

import functools
import os
import sys
import warnings
from types import MappingProxyType
from typing import List, Mapping, Optional, Tuple

from .exceptions import InvalidSettingsPath, UnsupportedSettings
from .keywords import KINDS, WITHOUT_EFFECT
from .toml_text import reader, table_of

PROJECT = "pyproject.toml"
# The files in which isort 5 looks for settings, in its order, and the sections that it takes of them.
_SECTIONS: Mapping[str, Tuple[str, ...]] = MappingProxyType(
    {
        ".isort.cfg": ("settings", "isort"),
        PROJECT: (),
        "setup.cfg": ("isort", "tool:isort"),
        "tox.ini": ("isort", "tool:isort"),
        ".editorconfig": ("*", "*.py", "**.py"),
    }
)
# The keys that isort 5 takes of an .editorconfig.
_EDITOR_SETTINGS = frozenset((*KINDS, *WITHOUT_EFFECT)) | frozenset(
    """
    indent_style max_line_length force_to_top skip skip_glob skip_gitignore wrap_length line_ending no_sections
    forced_separate indent comment_prefix length_sort length_sort_straight length_sort_sections add_imports remove_imports
    append_only reverse_relative single_line_exclusions balanced_wrapping combine_star from_first force_adds
    force_alphabetical_sort_within_sections force_alphabetical_sort lexicographical group_by_package ignore_whitespace
    no_lines_before no_inline_sort ignore_comments virtual_env conda_env honor_noqa src_paths old_finders
    remove_redundant_aliases float_to_top formatter treat_comments_as_code treat_all_comments_as_code
    supported_extensions blocked_extensions constants classes variables dedup_headings only_sections
    auto_identify_namespace_packages namespace_packages
    """.split()
)
_WHAT_TO_DO = f"isort's settings there are not read: copy them to [tool.isort] of a {PROJECT}"

# How many folders are searched, and in which folders the search ends, as in isort 5.
_MOST_FOLDERS = 25
_LAST_FOLDERS = (".git", ".hg")


def expect_project(path: str) -> None:
    """Refuses a settings file of another form, by its name."""
    if os.path.basename(path) in _SECTIONS and os.path.basename(path) != PROJECT:
        raise UnsupportedSettings(f"{path}: {_WHAT_TO_DO}", "settings_file", value=path)


def read(path: str) -> bytes:
    with open(path, "rb") as settings_file:
        return settings_file.read()


def warn(words: str) -> None:
    """Warns whoever called the package."""
    level, frame = 1, sys._getframe()
    while frame.f_back is not None and frame.f_globals.get("__package__") == __package__:
        level, frame = level + 1, frame.f_back
    warnings.warn(words, stacklevel=level)


def nearest(path: str) -> Tuple[str, bytes]:
    """The nearest pyproject.toml with a table [tool.isort] at or above a path, up to the top of a repository, and its text.
    Both are empty if there is none. A file of another form that isort 5 would take before it is told by a warning."""
    if not os.path.exists(path):
        raise InvalidSettingsPath(path)
    folder = os.path.abspath(path)
    for _ in range(_MOST_FOLDERS):
        text = _project_in(folder)
        if text is not None:
            return os.path.join(folder, PROJECT), text
        above = os.path.dirname(folder)
        if above == folder or any(os.path.isdir(os.path.join(folder, name)) for name in _LAST_FOLDERS):
            break
        folder = above
    return "", b""


def _project_in(folder: str) -> Optional[bytes]:
    """The text of the folder's pyproject.toml, if it has the table. Warns of files of another form that would come first."""
    for name, sections in _SECTIONS.items():
        path = os.path.join(folder, name)
        if not os.path.isfile(path):
            continue
        if name == PROJECT:
            text = read(path)
            if _has_table(text):
                return text
        elif _takes(_text_of(path), sections, name == ".editorconfig"):
            warn(f"{path}: {_WHAT_TO_DO}")
    return None


def _text_of(path: str) -> bytes:
    """The bytes of a file of another form. One that can't be read says nothing, as in isort 5."""
    try:
        return read(path)
    except OSError:
        return b""


@functools.lru_cache(maxsize=64)
def _has_table(text: bytes) -> bool:
    """Whether the text of a pyproject.toml has a table [tool.isort] that says something, or is refused."""
    if reader() is None:
        return b"isort" in text
    # Without that word there is no such table, unless a key is written with escapes.
    return (b"isort" in text or b"\\" in text) and table_of(text) != {}


@functools.lru_cache(maxsize=64)
def _takes(text: bytes, sections: Tuple[str, ...], is_editor: bool) -> bool:
    """Whether isort 5 would take settings of a text in these sections."""
    import configparser

    parser = configparser.RawConfigParser(strict=False)
    words = text.decode("utf-8", "replace")
    try:
        # What stands before the first section of an .editorconfig is not for this reader.
        parser.read_string(words[max(words.find("["), 0) :] if is_editor else words)
    except configparser.Error:
        return False
    if not is_editor:
        return any(parser.has_section(name) and parser.items(name) for name in sections)
    named = [name for name in parser.sections() if name in sections or "py" in _endings(name)]
    return any(key in _EDITOR_SETTINGS or key.startswith("known_") for name in named for key, _ in parser.items(name))


def _endings(section: str) -> List[str]:
    """The endings of names that a section of an .editorconfig lists, as in [*.{py,pyi}]."""
    is_list = section.startswith("*.{") and section.endswith("}")
    return [ending.strip() for ending in section[len("*.{") : -1].split(",")] if is_list else []
