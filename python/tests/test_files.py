"""Sorting and checking of files, and the program."""

import contextlib
import errno
import io
import os
import pathlib
import subprocess
import sys
import tempfile
import unittest

import fihroste
from fihroste.exceptions import ExistingSyntaxErrors, FileSkipComment, UnsupportedSettings

from texts import SHOP, SHOP_SORTED, SKIPPED


class Files(unittest.TestCase):
    def setUp(self):
        folder = tempfile.TemporaryDirectory()
        self.addCleanup(folder.cleanup)
        self.path = os.path.join(folder.name, "-shop \u00e4.py")
        self.write(SHOP.encode())

    def write(self, text):
        with open(self.path, "wb") as file:
            file.write(text)

    def read(self):
        with open(self.path, "rb") as file:
            return file.read()

    def test_a_file_is_sorted_where_it_stands(self):
        os.chmod(self.path, 0o640)
        self.assertFalse(fihroste.check_file(self.path))
        self.assertTrue(fihroste.file(self.path))
        self.assertEqual(self.read(), SHOP_SORTED.encode())
        self.assertEqual(os.stat(self.path).st_mode & 0o777, 0o640)
        self.assertTrue(fihroste.check_file(self.path))
        self.assertFalse(fihroste.file(self.path))
        self.assertEqual(os.listdir(os.path.dirname(self.path)), [os.path.basename(self.path)])

    def test_settings_hold_for_files(self):
        self.write(b"from m import a, b\n")
        self.assertTrue(fihroste.file(self.path, force_single_line=True))
        self.assertEqual(self.read(), b"from m import a\nfrom m import b\n")
        with open(os.path.join(os.path.dirname(self.path), "pyproject.toml"), "w") as file:
            file.write("[tool.isort]\nprofile = 'black'\nline_length = 20\n")
        self.write(b"from m import aaaaaaa, bbbbbbb\n")
        self.assertTrue(fihroste.file(self.path))
        self.assertEqual(self.read(), b"from m import (\n    aaaaaaa,\n    bbbbbbb,\n)\n")
        self.assertTrue(fihroste.file(self.path, config=fihroste.Config(line_length=100)))
        self.assertEqual(self.read(), b"from m import aaaaaaa, bbbbbbb\n")

    def test_a_link_stays(self):
        link = self.path + ".link"
        os.symlink(self.path, link)
        self.assertTrue(fihroste.file(link))
        self.assertTrue(os.path.islink(link))
        self.assertEqual(self.read(), SHOP_SORTED.encode())

    def test_a_file_may_go_elsewhere(self):
        output = io.StringIO()
        self.assertTrue(fihroste.file(self.path, output=output))
        with contextlib.redirect_stdout(io.StringIO()) as printed:
            self.assertTrue(fihroste.file(self.path, write_to_stdout=True))
        self.assertEqual((output.getvalue(), printed.getvalue()), (SHOP_SORTED, SHOP_SORTED))
        self.assertEqual(self.read(), SHOP.encode())

    def test_files_that_stay_as_they_are(self):
        for text, exception in (
            (SKIPPED.encode(), FileSkipComment),
            (b"import b\nimport a\nx = (\n", ExistingSyntaxErrors),
            (b"import b\nimport a\n# \xe4\n", ExistingSyntaxErrors),
        ):
            self.write(text)
            for call in (fihroste.file, fihroste.check_file):
                with self.assertRaises(exception) as raised:
                    call(self.path)
                self.assertEqual(raised.exception.file_path, self.path)
            self.assertEqual(self.read(), text)

    def test_files_that_cannot_be_read(self):
        for path, number in ((self.path + ".not", errno.ENOENT), (os.path.dirname(self.path), errno.EISDIR)):
            for call in (fihroste.file, fihroste.check_file, fihroste.find_imports_in_file):
                with self.subTest(path=path, call=call), self.assertRaises(OSError) as raised:
                    call(path)
                self.assertEqual((raised.exception.errno, str(raised.exception.filename)), (number, path))

    def test_names_may_be_paths(self):
        for path in (pathlib.Path(self.path), pathlib.PurePath(self.path)):
            self.assertFalse(fihroste.check_file(path))
            self.assertFalse(fihroste.check_code(SHOP, file_path=path))
            self.assertEqual(next(fihroste.find_imports_in_file(path)).file_path, pathlib.Path(self.path))
        self.assertTrue(fihroste.file(pathlib.PurePath(self.path)))
        self.assertEqual(self.read(), SHOP_SORTED.encode())

    def test_names_that_are_not_utf8(self):
        folder = os.path.join(os.path.dirname(self.path), os.fsdecode(b"\xfe"))
        os.mkdir(folder)
        for name in ("a.py", os.fsdecode(b"\xff.py")):
            self.path = os.path.join(folder, name)
            self.write(SHOP.encode())
            self.assertFalse(fihroste.check_file(self.path))
            self.assertTrue(fihroste.file(self.path))
            self.assertEqual(self.read(), SHOP_SORTED.encode())
            self.assertFalse(fihroste.file(self.path))

    def test_names_of_other_types(self):
        for name in (0, b"a.py", None, ["a.py"]):
            for call in (fihroste.file, fihroste.check_file, fihroste.find_imports_in_file):
                with self.subTest(name=name, call=call), self.assertRaises(TypeError):
                    call(name)

    @unittest.skipIf(os.geteuid() == 0, "root may write each file")
    def test_files_that_cannot_be_written(self):
        os.chmod(self.path, 0o444)
        with self.assertRaisesRegex(OSError, "R3 cannot be written") as raised:
            fihroste.file(self.path)
        self.assertEqual((raised.exception.errno, raised.exception.filename), (errno.EACCES, self.path))
        self.assertEqual(self.read(), SHOP.encode())

    def test_parameters_that_are_missing_are_named(self):
        for words in ({"ask_to_apply": True}, {"extension": "pyi"}):
            with self.subTest(words=words), self.assertRaises(UnsupportedSettings) as raised:
                fihroste.file(self.path, **words)
            self.assertEqual([raised.exception.key], list(words))
        self.assertEqual(self.read(), SHOP.encode())

    def test_the_program_runs(self):
        command = [sys.executable, "-m", "fihroste"]
        run = subprocess.run([*command, "-"], input=SHOP.encode(), stdout=subprocess.PIPE)
        self.assertEqual((run.returncode, run.stdout), (0, SHOP_SORTED.encode()))
        run = subprocess.run([*command, "-c", "--", self.path], stdout=subprocess.PIPE, stderr=subprocess.PIPE)
        self.assertEqual(run.returncode, 1)
        self.assertIn(b"incorrectly sorted", run.stderr)


# Makes calls over a text for which there is too little memory, and then over a short one.
SHORT_OF_MEMORY = """
import fihroste, resource
text = "import os\\nimport abc\\n\\n" + "x = 1\\n" * 5_000_000
fihroste.check_code("import os\\nimport abc\\n")
pages = int(open("/proc/self/statm").read().split()[0])
limit = pages * resource.getpagesize() + 16 * 2**20
resource.setrlimit(resource.RLIMIT_AS, (limit, limit))
for call in (fihroste.code, fihroste.find_imports_in_code):
    try:
        call(text)
    except MemoryError:
        print(fihroste.code("import os\\nimport abc\\n"), end="")
"""


class Limits(unittest.TestCase):
    @unittest.skipIf("LD_PRELOAD" in os.environ, "a sanitizer takes memory of its own")
    def test_memory_that_runs_out(self):
        run = subprocess.run([sys.executable, "-c", SHORT_OF_MEMORY], stdout=subprocess.PIPE, stderr=subprocess.PIPE)
        self.assertEqual((run.stdout, run.stderr), (b"import abc\nimport os\n" * 2, b""))

    def test_texts_that_are_too_long(self):
        text = "#" * (2**30 + 1)
        for call in (fihroste.code, fihroste.check_code, fihroste.find_imports_in_code, fihroste.place_module):
            with self.subTest(call=call), self.assertRaises(fihroste.exceptions.TextTooLong):
                call(text)
        self.assertEqual(fihroste.code("import b\nimport a\n"), "import a\nimport b\n")

    def test_texts_with_lone_surrogates_that_are_too_long(self):
        def call(text):
            # What the extension does with such a text of more than 2^30 bytes, which takes gigabytes.
            raise OverflowError if isinstance(text, bytes) else UnicodeEncodeError("utf-8", text, 0, 1, "a surrogate")

        with self.assertRaises(fihroste.exceptions.TextTooLong) as raised:
            fihroste.api._answered(call, "a.py", "\udc80")
        self.assertEqual(raised.exception.file_path, "a.py")


if __name__ == "__main__":
    unittest.main()
