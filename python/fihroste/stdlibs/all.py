"""The same list as that of py3."""

from .py3 import stdlib

__all__ = ["stdlib"]
