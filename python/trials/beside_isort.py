"""Compares the package with the isort 5 that is installed beside it.

    beside_isort.py

Each call that both have takes the parameters of isort's, in their order and with their defaults; it may have more of them
in between, since later versions of isort have. The exceptions of isort's are there, the names of its modules that clients
import, and the settings of a Config that both have, with its values. Texts that both sort alike come out alike, and their
differences are shown alike. Values of keywords become the same, and the same files are taken for Python's. Prints a line for
each difference, and then how many comparisons showed none."""

import contextlib
import inspect
import io
import os
import pathlib
import re
import sys
import tempfile
import warnings

import fihroste
import isort
import isort.api
import isort.exceptions
import isort.profiles
import isort.sections
import isort.settings
import isort.wrap_modes

CALLS = (
    "code check_code stream check_stream file check_file place_module place_module_with_reason find_imports_in_code "
    "find_imports_in_stream find_imports_in_file find_imports_in_paths"
).split()
API = (
    "sort_code_string check_code_string sort_stream check_stream sort_file check_file place_module "
    "place_module_with_reason"
).split()
# The settings that both have. Each has its own list of the standard library.
SETTINGS = (
    "profile line_length multi_line_output include_trailing_comma force_grid_wrap use_parentheses "
    "ensure_newline_before_comments force_single_line force_sort_within_sections case_sensitive combine_as_imports "
    "order_by_type lines_between_sections lines_between_types lines_after_imports default_section sections "
    "extra_standard_library known_third_party known_first_party known_local_folder known_future_library known_other "
    "quiet verbose color_output only_modified atomic filter_files py_version supported_extensions blocked_extensions"
).split()
# Keywords whose values both convert alike.
KEYWORDS = [
    {},
    {"profile": "black"},
    {"profile": "black", "line_length": "100", "force_grid_wrap": 2},
    {"multi_line_output": isort.wrap_modes.WrapModes.VERTICAL, "force_single_line": 1, "order_by_type": 0},
    {"known_first_party": ["a", "b"], "sections": ["STDLIB", "DJANGO"], "known_django": ["d"], "quiet": True},
    {"known_third_party": frozenset("a"), "py_version": "38", "atomic": True, "verbose": True},
]
FILES = [
    ("a.py", ""),
    ("a.pyi", ""),
    ("a.pex", "#!/usr/bin/python\n"),
    ("a.py~", "#!/usr/bin/python\n"),
    ("a.txt", "import os\n"),
    ("a", "#!/usr/bin/env python3\n"),
    ("b", "#!/bin/sh\n"),
    ("c", "#! /opt/python2w\n"),
    ("d", "#!/usr/bin/pythonic\n"),
]
TIMES = re.compile(r"\t[-0-9]+ [:.0-9]+$", re.M)
TEXTS = [
    ("import sys\nfrom basket import till as t, Cart\nimport os\n", {}),
    ("from basket import zero, one\nimport os, json\n\nx = 1\n", {"profile": "black"}),
    ("import shop\nimport os\n", {"known_first_party": ["shop"], "lines_between_sections": 2}),
    ("import os\n", {"line_length": 40}),
    (
        "import requests\nimport django.db\nimport os\n",
        {"sections": ["STDLIB", "DJANGO", "THIRDPARTY"], "known_django": ["django"]},
    ),
]


def parameters(call):
    """The names and defaults of a call, in order. The default settings stand for themselves."""
    own = inspect.signature(call).parameters.values()
    named = [one for one in own if one.kind is not one.VAR_KEYWORD]
    return [(one.name, "settings" if one.name == "config" else one.default) for one in named]


def comes_in_order(wanted, given):
    rest = iter(given)
    return all(one in rest for one in wanted)


def same_calls():
    for name in CALLS:
        if hasattr(isort, name):
            yield name, comes_in_order(parameters(getattr(isort, name)), parameters(getattr(fihroste, name)))
    for name in API:
        if hasattr(isort.api, name):
            yield name, comes_in_order(parameters(getattr(isort.api, name)), parameters(getattr(fihroste.api, name)))


def same_names():
    for name, error in vars(isort.exceptions).items():
        if inspect.isclass(error) and issubclass(error, isort.exceptions.ISortError):
            bases = [base.__name__ for base in error.__mro__]
            yield name, hasattr(fihroste.exceptions, name) and bases == [
                base.__name__ for base in getattr(fihroste.exceptions, name).__mro__
            ]
    for name in ("FUTURE", "STDLIB", "THIRDPARTY", "FIRSTPARTY", "LOCALFOLDER", "DEFAULT"):
        yield name, getattr(isort.sections, name) == getattr(fihroste.sections, name)
    yield "black", isort.profiles.black == fihroste.profiles.black
    yield "VALID_PY_TARGETS", set(isort.settings.VALID_PY_TARGETS) <= set(fihroste.settings.VALID_PY_TARGETS)
    for mode in fihroste.wrap_modes.WrapModes:
        yield mode.name, isort.wrap_modes.WrapModes[mode.name].value == mode.value


def plain(value):
    """A wrap mode by its name, since each has its own type of them."""
    return getattr(value, "name", value)


def same_settings():
    for keywords in KEYWORDS:
        config, other = isort.Config(**keywords), fihroste.Config(**keywords)
        for name in SETTINGS:
            yield f"{name} of {keywords}", plain(getattr(config, name)) == plain(getattr(other, name))


def same_files():
    with tempfile.TemporaryDirectory() as folder:
        for name, text in FILES:
            path = os.path.join(folder, name)
            with open(path, "w") as file:
                file.write(text)
            yield name, isort.Config().is_supported_filetype(path) == fihroste.Config().is_supported_filetype(path)


def shown(package, call, text, **words):
    """What a call answers and shows of a text, without times."""
    difference, printed = io.StringIO(), io.StringIO()
    with contextlib.redirect_stdout(printed), contextlib.redirect_stderr(io.StringIO()):
        answers = [call(package, text, show_diff=show, **words) for show in (True, difference)]
    return [TIMES.sub("", str(one)) for one in (*answers, printed.getvalue(), difference.getvalue())]


def same_differences():
    def sort_stream(package, text, show_diff, **words):
        output = io.StringIO()
        changed = package.stream(io.StringIO(text), output, show_diff=show_diff, **words)
        return changed, TIMES.sub("", output.getvalue())

    for text, words in TEXTS:
        for name, call in (
            ("code", lambda package, text, **words: package.code(text, **words)),
            ("check", lambda package, text, **words: package.check_code(text, **words)),
            ("stream", sort_stream),
        ):
            yield f"difference by {name} of {text!r}", shown(isort, call, text, **words) == shown(fihroste, call, text, **words)
    text = TEXTS[0][0] + "\n" + "x = 1\n" * 9
    with tempfile.TemporaryDirectory() as folder:
        path = pathlib.Path(folder, "a.py")
        path.write_text(text)
        for name in ("file", "check_file"):
            one, other = (
                shown(package, lambda it, _, **words: getattr(it, name)(path, **words), "") for package in (isort, fihroste)
            )
            yield f"difference by {name}", one == other
            yield f"{name} leaves the file", path.read_text() == text


def same_texts():
    for text, settings in TEXTS:
        yield f"code of {text!r}", isort.code(text, **settings) == fihroste.code(text, **settings)
        config, other = isort.Config(**settings), fihroste.Config(**settings)
        with contextlib.redirect_stderr(io.StringIO()):
            is_sorted = isort.check_code(text, config=config)
        yield f"check of {text!r}", is_sorted == fihroste.check_code(text, config=other)


def main():
    warnings.simplefilter("ignore")
    passed = failed = 0
    for compared in (same_calls(), same_names(), same_settings(), same_files(), same_differences(), same_texts()):
        for what, is_same in compared:
            passed, failed = passed + is_same, failed + (not is_same)
            if not is_same:
                print(f"{what} differs from isort {isort.__version__}")
    print(f"{passed} passed, {failed} failed")
    return 1 if failed else 0


if __name__ == "__main__":
    sys.exit(main())
