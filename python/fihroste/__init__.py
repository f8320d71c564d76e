"""Sorts, checks and lists the import statements of Python texts, with the calls of isort 5."""

from . import api, exceptions, profiles, sections, settings, stdlibs, wrap_modes
from .api import (
    check_code,
    check_file,
    check_stream,
    code,
    file,
    find_imports_in_code,
    find_imports_in_file,
    find_imports_in_paths,
    find_imports_in_stream,
    place_module,
    place_module_with_reason,
    stream,
)
from .identify import Import, ImportKey
from .settings import Config

__all__ = [
    "Config",
    "Import",
    "ImportKey",
    "api",
    "check_code",
    "check_file",
    "check_stream",
    "code",
    "exceptions",
    "file",
    "find_imports_in_code",
    "find_imports_in_file",
    "find_imports_in_paths",
    "find_imports_in_stream",
    "place_module",
    "place_module_with_reason",
    "profiles",
    "sections",
    "settings",
    "stdlibs",
    "stream",
    "wrap_modes",
]
# The wheel has the version of the file VERSION here.
__version__ = "@VERSION@"
