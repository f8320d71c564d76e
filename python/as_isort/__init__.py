"""This is not isort. It is the package fihroste under the name of isort, whose calls it has.

It sorts by rules of its own, refuses texts that it doesn't understand, and refuses settings that it lacks. Where it differs from
isort 5, docs/FROM_ISORT5.md and docs/PYTHON.md of fihroste say."""

import importlib
import sys

from fihroste import *

# The version of isort 5 whose names are here. fihroste.__version__ is that of the code.
__version__ = "5.6.4"

for _name in (
    "api exceptions identify profiles sections settings stdlibs stdlibs.all stdlibs.py3 wrap_modes"
).split():
    sys.modules[f"{__name__}.{_name}"] = importlib.import_module(f"fihroste.{_name}")
