"""Differences that are shown, and what plugins tell of a text."""

import contextlib
import io
import os
import re
import tempfile
import unittest

import fihroste
from fihroste.differences import Finding, config_of, finding_in, finding_of
from fihroste.exceptions import FileSkipComment, InvalidSettingsPath
from fihroste.flake8 import Checker

from texts import SKIPPED

TEXT = "import os\nimport abc\n\nx = 1\ny = 2\nz = 3\n"
SORTED = "import abc\nimport os\n\nx = 1\ny = 2\nz = 3\n"
CHANGES = "@@ -1,5 +1,5 @@\n+import abc\n import os\n-import abc\n \n x = 1\n y = 2\n"
TIME = r"\t\d{4}-\d\d-\d\d \d\d:\d\d:\d\d(\.\d+)?"


class Differences(unittest.TestCase):
    def expect(self, difference, name=""):
        """The difference of TEXT, as a file of this name."""
        head = f"--- {re.escape(name)}:before{TIME}\n\\+\\+\\+ {re.escape(name)}:after{TIME}\n"
        self.assertRegex(difference, f"^{head}{re.escape(CHANGES)}$")

    def test_of_a_text(self):
        self.expect(fihroste.code(TEXT, show_diff=True))
        output = io.StringIO()
        self.assertEqual(fihroste.code(TEXT, show_diff=output), "")
        self.expect(output.getvalue())
        self.assertEqual(fihroste.code(SORTED, show_diff=True), "")

    def test_of_a_check(self):
        for check, text in ((fihroste.check_code, TEXT), (fihroste.check_stream, io.StringIO(TEXT))):
            output = io.StringIO()
            self.assertFalse(check(text, show_diff=output))
            self.expect(output.getvalue())
        with contextlib.redirect_stdout(io.StringIO()) as printed:
            self.assertFalse(fihroste.check_code(TEXT, show_diff=True))
            self.assertTrue(fihroste.check_code(SORTED, show_diff=True))
        self.expect(printed.getvalue())

    def test_of_a_stream(self):
        output, difference = io.StringIO(), io.StringIO()
        self.assertTrue(fihroste.stream(io.StringIO(TEXT), output, show_diff=True))
        self.expect(output.getvalue())
        output = io.StringIO()
        self.assertTrue(fihroste.stream(io.StringIO(TEXT), output, show_diff=difference))
        self.expect(difference.getvalue())
        self.assertFalse(fihroste.stream(io.StringIO(SORTED), output, show_diff=True))
        self.assertFalse(fihroste.stream(io.StringIO(SKIPPED), output, show_diff=True, raise_on_skip=False))
        self.assertEqual(output.getvalue(), "")

    def test_of_a_file(self):
        with tempfile.TemporaryDirectory() as folder:
            path = os.path.join(folder, "a.py")
            with open(path, "w") as file:
                file.write(TEXT)
            output = io.StringIO()
            self.assertFalse(fihroste.file(path, show_diff=output))
            self.expect(output.getvalue(), path)
            with contextlib.redirect_stdout(io.StringIO()) as printed:
                self.assertFalse(fihroste.check_file(path, show_diff=True))
                self.assertFalse(fihroste.file(path, show_diff=True))
            parts = printed.getvalue().partition("\n--- ")
            self.expect(parts[0] + "\n", path)
            self.expect("--- " + parts[2], path)
            with open(path) as file:
                self.assertEqual(file.read(), TEXT)
            for words in ({"write_to_stdout": True}, {"output": io.StringIO()}):
                with self.assertRaises(ValueError):
                    fihroste.file(path, show_diff=True, **words)

    def test_of_a_name_that_is_no_file(self):
        output = io.StringIO()
        fihroste.check_code(TEXT, show_diff=output, config=fihroste.Config(line_length=80), file_path="nothing.py")
        self.expect(output.getvalue(), "nothing.py")

    def test_exceptions_are_the_same(self):
        with self.assertRaises(FileSkipComment):
            fihroste.check_code(SKIPPED, show_diff=True)
        with self.assertRaises(InvalidSettingsPath):
            fihroste.check_code(TEXT, show_diff=True, file_path="nothing.py")


class Findings(unittest.TestCase):
    def test_of_texts(self):
        for text, wanted in (
            (SORTED, None),
            (SKIPPED, None),
            ("", None),
            (TEXT, Finding(1, 0, "I001", "imports are not sorted")),
            ("x = 1\nimport a\nimport c\nimport b\n", Finding(3, 0, "I001", "imports are not sorted")),
            ("import a\r\nimport c\r\nimport b\r\n", Finding(2, 0, "I001", "imports are not sorted")),
            ("# \f\nimport c\nimport b", Finding(2, 0, "I001", "imports are not sorted")),
            ("import b\nx = (\n", Finding(2, 4, "I002", "F6 bracket not closed")),
            ("\u00e4\u00f6 = (\n", Finding(1, 5, "I002", "F6 bracket not closed")),
            ("import b\r\n  x\ud800\n", Finding(2, 3, "I002", "F1 not UTF-8")),
        ):
            with self.subTest(text=text):
                self.assertEqual(finding_of(text, fihroste.Config()), wanted)

    def test_settings_hold(self):
        with tempfile.TemporaryDirectory() as folder:
            with open(os.path.join(folder, "pyproject.toml"), "w") as file:
                file.write("[tool.isort]\nforce_single_line = true\n")
            config = config_of(os.path.join(folder, "not there", "a.py"))
            self.assertEqual(finding_of("from m import a, b\n", config).code, "I001")
            self.assertIsNone(finding_of("from m import a, b\n", fihroste.Config()))

    def test_refused_settings_are_told(self):
        with tempfile.TemporaryDirectory() as folder:
            with open(os.path.join(folder, "pyproject.toml"), "w") as file:
                file.write("[tool.isort]\nline_length = 0\n")
            finding = finding_in(SORTED, os.path.join(folder, "a.py"))
            self.assertEqual(finding[:3], (1, 0, "I002"))
            self.assertIn("S2 bad value for line_length", finding.words)
            self.assertEqual(finding_in(TEXT, "").code, "I001")

    def test_the_checker_of_flake8(self):
        rows = list(Checker(None, "stdin", TEXT.splitlines(keepends=True)).run())
        self.assertEqual(rows, [(1, 0, "I001 imports are not sorted", Checker)])
        self.assertEqual(list(Checker(None, "-", [SORTED]).run()), [])


if __name__ == "__main__":
    unittest.main()
