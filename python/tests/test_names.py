"""The names that isort 5 exports, and what they stand for."""

import os
import pathlib
import re
import tempfile
import unittest

import fihroste
from fihroste import api, profiles, sections, settings, stdlibs, wrap_modes

STANDARD_LIBRARY = pathlib.Path(__file__).parents[2] / "crates/isort_settings/specs/StandardLibrary.antt"


class Names(unittest.TestCase):
    def test_calls_have_their_names_of_the_api(self):
        for name, other in (
            ("sort_code_string", "code"),
            ("check_code_string", "check_code"),
            ("sort_stream", "stream"),
            ("check_stream", "check_stream"),
            ("sort_file", "file"),
            ("check_file", "check_file"),
            ("place_module", "place_module"),
            ("place_module_with_reason", "place_module_with_reason"),
            ("find_imports_in_paths", "find_imports_in_paths"),
        ):
            self.assertIs(getattr(api, name), getattr(fihroste, other))

    def test_settings(self):
        self.assertIs(settings.Config, fihroste.Config)
        self.assertEqual(settings.DEFAULT_CONFIG, fihroste.Config())
        self.assertLessEqual({"all", "2", "27", "3", "35", "36", "37", "38", "39"}, set(settings.VALID_PY_TARGETS))

    def test_profiles(self):
        black = {"multi_line_output": 3, "include_trailing_comma": True, "force_grid_wrap": 0, "use_parentheses": True}
        black.update(ensure_newline_before_comments=True, line_length=88)
        self.assertEqual((profiles.black, profiles.profiles), (black, {"black": black}))
        self.assertEqual(fihroste.Config(**profiles.black, profile="black"), fihroste.Config(profile="black"))

    def test_wrap_modes(self):
        modes = {"GRID": 0, "VERTICAL": 1, "HANGING_INDENT": 2, "VERTICAL_HANGING_INDENT": 3}
        self.assertEqual({mode.name: mode.value for mode in wrap_modes.WrapModes}, modes)
        self.assertIs(wrap_modes.from_string("GRID"), wrap_modes.WrapModes.GRID)
        self.assertIs(wrap_modes.from_string("2"), wrap_modes.WrapModes.HANGING_INDENT)
        with self.assertRaises(ValueError):
            wrap_modes.from_string("VERTICAL_GRID")

    def test_sections(self):
        self.assertEqual(sections.DEFAULT, ("FUTURE", "STDLIB", "THIRDPARTY", "FIRSTPARTY", "LOCALFOLDER"))
        self.assertEqual((sections.FUTURE, sections.LOCALFOLDER), ("FUTURE", "LOCALFOLDER"))

    def test_the_standard_library_is_that_of_the_libraries(self):
        names = re.findall(r'codes "([^"]+)"', STANDARD_LIBRARY.read_text())
        self.assertEqual(sorted(stdlibs.py3.stdlib), sorted(names))
        self.assertIs(stdlibs.all.stdlib, stdlibs.py3.stdlib)
        self.assertEqual({fihroste.place_module(name) for name in names}, {"STDLIB"})


class Files(unittest.TestCase):
    def test_nothing_is_skipped(self):
        for name in ("a.py", ".git", "venv", "node_modules/a.py"):
            self.assertFalse(fihroste.Config().is_skipped(pathlib.Path(name)))

    def test_files_of_python_are_known_by_their_names(self):
        config = fihroste.Config()
        for name in ("a.py", "a.pyi", "a.pyx", "a.pxd", "nothing/a.py"):
            self.assertTrue(config.is_supported_filetype(name), name)
        for name in ("a.pex", "a.py~", "a.txt", "a", "/dev/null"):
            self.assertFalse(config.is_supported_filetype(name), name)

    def test_files_of_python_are_known_by_their_first_line(self):
        config = fihroste.Config()
        with tempfile.TemporaryDirectory() as folder:
            for number, (line, is_python) in enumerate(
                (
                    ("#!/usr/bin/python", True),
                    ("#!/usr/bin/env python3", True),
                    ("#!/usr/bin/python3 -s", True),
                    ("#!/usr/bin/env python2", True),
                    ("#!/bin/sh", False),
                    ("#!/usr/bin/pythonic", False),
                    ("import os", False),
                    ("# " + "a" * 100 + "\n#!/usr/bin/python", False),
                )
            ):
                for ending in ("", ".cgi", ".pex", "~"):
                    path = os.path.join(folder, f"{number}{ending}")
                    with open(path, "w") as file:
                        file.write(line + "\n")
                    wanted = is_python and ending in ("", ".cgi")
                    self.assertEqual(config.is_supported_filetype(path), wanted, (line, ending))
            pipe = os.path.join(folder, "pipe")
            os.mkfifo(pipe)
            self.assertFalse(config.is_supported_filetype(pipe))


if __name__ == "__main__":
    unittest.main()
