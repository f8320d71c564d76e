"""The modules that count as the standard library where no setting says otherwise. There is one list, for every Python."""

from . import all, py3

__all__ = ["all", "py3"]
