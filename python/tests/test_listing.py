"""Listing of imports, and sections of modules."""

import io
import os
import tempfile
import unittest

import fihroste
from fihroste import Import, ImportKey
from fihroste.exceptions import ExistingSyntaxErrors

from texts import FAULTS, SHOP, SHOP_IMPORTS

TOP = "import os\nfrom a.b import c as d, e\nfrom a.b import c\nimport a.b\n\n\ndef f():\n    import os\n    from . import *\n"
LIST = [
    Import(1, False, "os"),
    Import(2, False, "a.b", "c", "d"),
    Import(2, False, "a.b", "e"),
    Import(3, False, "a.b", "c"),
    Import(4, False, "a.b"),
    Import(8, True, "os"),
    Import(9, True, ".", "*"),
]
# By each key, the places in LIST that are the first of theirs.
FIRSTS = {
    ImportKey.PACKAGE: [0, 1, 6],
    ImportKey.MODULE: [0, 1, 6],
    ImportKey.ATTRIBUTE: [0, 1, 2, 4, 6],
    ImportKey.ALIAS: [0, 1, 2, 3, 4, 6],
}


class Listing(unittest.TestCase):
    def test_imports_are_listed(self):
        self.assertEqual(list(fihroste.find_imports_in_code(SHOP)), [Import(*fields) for fields in SHOP_IMPORTS])
        self.assertEqual(list(fihroste.find_imports_in_stream(io.StringIO(TOP))), LIST)
        self.assertEqual(list(fihroste.find_imports_in_code("x = 1\n")), [])

    def test_imports_before_the_first_declaration(self):
        self.assertEqual(list(fihroste.find_imports_in_code(TOP, top_only=True)), LIST[:5])

    def test_first_imports_of_each_key(self):
        for key, places in FIRSTS.items():
            with self.subTest(key=key):
                found = list(fihroste.find_imports_in_code(TOP, unique=key))
                self.assertEqual(found, [LIST[place] for place in places])
        self.assertEqual(
            list(fihroste.find_imports_in_code(TOP, unique=True)),
            list(fihroste.find_imports_in_code(TOP, unique=ImportKey.ALIAS)),
        )

    def test_imports_of_a_file_name_it(self):
        with tempfile.TemporaryDirectory() as folder:
            path = os.path.join(folder, "shop.py")
            with open(path, "w") as file:
                file.write(SHOP)
            found = list(fihroste.find_imports_in_file(path))
        self.assertEqual([fields[:5] for fields in found], SHOP_IMPORTS)
        self.assertEqual(str(found[1]), f"{path}:2 from basket import till as t")

    def test_imports_of_paths(self):
        with tempfile.TemporaryDirectory() as folder:
            for name, text in (
                ("b.py", "import os\nfrom a import b as c\n"),
                ("a/d.py", "import os.path\nimport os\n"),
                ("a/c.txt", "import never\n"),
                ("a/script", "#!/usr/bin/env python3\nfrom a import b\n"),
                ("named.txt", "import named\n"),
            ):
                path = os.path.join(folder, name)
                os.makedirs(os.path.dirname(path), exist_ok=True)
                with open(path, "w") as file:
                    file.write(text)
            os.symlink(folder, os.path.join(folder, "a", "round"))
            both = [folder, os.path.join(folder, "named.txt")]
            found = list(fihroste.find_imports_in_paths(both))
            where = [f"{os.path.relpath(one.file_path, folder)}: {one.statement()}" for one in found]
            wanted = ["a/d.py: import os.path", "a/d.py: import os", "a/script: from a import b", "b.py: import os"]
            wanted += ["b.py: from a import b as c", "named.txt: import named"]
            self.assertEqual(where, wanted)
            for key, places in (
                (ImportKey.PACKAGE, [0, 2, 5]),
                (ImportKey.MODULE, [0, 1, 2, 5]),
                (ImportKey.ATTRIBUTE, [0, 1, 2, 5]),
                (ImportKey.ALIAS, [0, 1, 2, 4, 5]),
                (True, [0, 1, 2, 4, 5]),
            ):
                one_each = list(fihroste.find_imports_in_paths(iter(both), unique=key))
                self.assertEqual(one_each, [found[place] for place in places], key)
            with self.assertRaises(TypeError):
                fihroste.find_imports_in_paths(folder)
            with self.assertRaises(FileNotFoundError):
                list(fihroste.find_imports_in_paths([os.path.join(folder, "nothing.py")]))

    def test_statements(self):
        wanted = ["import os", "from a.b import c as d", "from a.b import e"]
        self.assertEqual([found.statement() for found in LIST[:3]], wanted)
        self.assertEqual(str(LIST[5]), ":8 indented import os")
        self.assertEqual(Import(1, False, "a", None, "b").statement(), "import a as b")

    def test_imports_before_a_fault_come_first(self):
        for text, label, offset, line, wanted in FAULTS:
            before = []
            with self.subTest(text=text), self.assertRaises(ExistingSyntaxErrors) as raised:
                for found in fihroste.find_imports_in_code(text):
                    before.append(found.statement())
            fault = raised.exception
            self.assertEqual((fault.label, fault.offset, fault.lineno), (label, offset, line))
            self.assertEqual(before, wanted)

    def test_wrong_types(self):
        for words in ({"unique": "alias"}, {"unique": 2}, {"config": {}}, {"file_path": 3}):
            with self.subTest(words=words), self.assertRaises(TypeError):
                fihroste.find_imports_in_code("import a\n", **words)
        for text in (b"import a\n", None, 3):
            with self.subTest(text=text), self.assertRaises(TypeError):
                fihroste.find_imports_in_code(text)


class Sections(unittest.TestCase):
    def test_modules_have_sections(self):
        for module, section in (
            ("os.path", "STDLIB"),
            ("requests", "THIRDPARTY"),
            ("..a", "LOCALFOLDER"),
            ("__future__", "FUTURE"),
        ):
            self.assertEqual(fihroste.place_module(module), section)

    def test_settings_say_where_modules_go(self):
        config = fihroste.Config(known_first_party=["a"], known_third_party=["a.b"])
        self.assertEqual(fihroste.place_module("a.b.c", config), "THIRDPARTY")
        self.assertEqual(fihroste.place_module("a.c", config=config), "FIRSTPARTY")
        self.assertEqual(fihroste.place_module("ab", config), "THIRDPARTY")
        self.assertEqual(fihroste.place_module("os.path", known_third_party=["os"]), "THIRDPARTY")

    def test_sections_have_reasons(self):
        config = fihroste.Config(known_first_party=["a.b"], sections=["Own"], known_own=["x"])
        default, pattern = "Default option in Config or universal default.", "Matched configured known pattern "
        for module, section, reason in (
            ("..a", "LOCALFOLDER", "Module name started with a dot."),
            ("a.b.c", "FIRSTPARTY", pattern + "a.b"),
            ("a", "THIRDPARTY", default),
            ("x.y", "Own", pattern + "x"),
            ("os.path", "STDLIB", pattern + "os"),
        ):
            self.assertEqual(fihroste.place_module_with_reason(module, config), (section, reason))
        self.assertEqual(fihroste.place_module_with_reason("a", known_third_party="a"), ("THIRDPARTY", pattern + "a"))

    def test_own_sections_have_names(self):
        config = fihroste.Config(sections=["Own", "Other"], known_own=["a"], known_other=["a.b", "os"])
        self.assertEqual(fihroste.place_module("a.b.c", config), "Other")
        self.assertEqual(fihroste.place_module("a.c", config), "Own")
        self.assertEqual(fihroste.place_module("os.path", config), "Other")
        self.assertEqual(fihroste.place_module(".a", config), "LOCALFOLDER")

    def test_names_that_are_no_text(self):
        with self.assertRaises(TypeError):
            fihroste.place_module(b"os")
        with self.assertRaises(ValueError):
            fihroste.place_module("\ud800")


if __name__ == "__main__":
    unittest.main()
