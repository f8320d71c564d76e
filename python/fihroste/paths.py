"""The files that paths stand for."""

import os
from typing import Iterable, Iterator, Set, Union

from .settings import Config

_Path = Union[str, "os.PathLike[str]"]


def files_of(paths: Iterable[_Path], config: Config) -> Iterator[str]:
    """The files among the paths, and those of Python below the folders, in the order of their names. A folder is searched
    once, however many links lead to it."""
    seen: Set[str] = set()
    for path in paths:
        name = os.fspath(path)
        if os.path.isdir(name):
            yield from _below(name, config, seen)
        else:
            yield name


def _below(folder: str, config: Config, seen: Set[str]) -> Iterator[str]:
    if os.path.realpath(folder) in seen:
        return
    seen.add(os.path.realpath(folder))
    for name in sorted(os.listdir(folder)):
        path = os.path.join(folder, name)
        if os.path.isdir(path):
            yield from _below(path, config, seen)
        elif os.path.isfile(path) and config.is_supported_filetype(path):
            yield path
