"""Settings: keywords, files, and what is refused."""

import copy
import os
import pickle
import sys
import tempfile
import unittest
import warnings

import fihroste
from fihroste import Config
from fihroste.wrap_modes import WrapModes
from fihroste.exceptions import InvalidSettingsPath, ISortError, ProfileDoesNotExist, UnsupportedSettings

NAMES = "from m import aaaaaaaaaaaaaaaaaaaaaaaaaaaaaaaaa, bbbbbbbbbbbbbbbbbbbbbbbbbbbbbbbbbbb, ccccccccccccccc\n"
BLACK = (
    "from m import (\n"
    "    aaaaaaaaaaaaaaaaaaaaaaaaaaaaaaaaa,\n"
    "    bbbbbbbbbbbbbbbbbbbbbbbbbbbbbbbbbbb,\n"
    "    ccccccccccccccc,\n"
    ")\n"
)
TWO = "import sys\nimport mine\nimport other\n"
TWO_SECTIONS = "import sys\n\nimport other\n\nimport mine\n"
TWO_SORTED = "import sys\n\nimport mine\nimport other\n"
DEFAULTS = {
    "profile": "",
    "line_length": 79,
    "multi_line_output": WrapModes.GRID,
    "include_trailing_comma": False,
    "order_by_type": True,
    "lines_between_sections": 1,
    "lines_between_types": 0,
    "lines_after_imports": -1,
    "default_section": "THIRDPARTY",
    "sections": ("FUTURE", "STDLIB", "THIRDPARTY", "FIRSTPARTY", "LOCALFOLDER"),
    "known_first_party": frozenset(),
    "known_future_library": frozenset(("__future__",)),
    "known_other": {},
    "quiet": False,
    "py_version": "py3",
    "supported_extensions": frozenset(("py", "pyi", "pyx", "pxd")),
}
BLACK_VALUES = {
    "multi_line_output": WrapModes.VERTICAL_HANGING_INDENT,
    "include_trailing_comma": True,
    "force_grid_wrap": 0,
    "use_parentheses": True,
    "ensure_newline_before_comments": True,
}
HAS_READER = sys.version_info >= (3, 11)


class Keywords(unittest.TestCase):
    def test_keywords_are_settings(self):
        self.assertEqual(fihroste.code(NAMES, profile="black"), BLACK)
        self.assertEqual(fihroste.code(TWO, known_first_party=["mine"]), TWO_SECTIONS)
        self.assertFalse(fihroste.check_code(TWO, known_first_party=["mine"]))
        self.assertEqual(fihroste.code("from m import a, b\n", force_single_line=True), "from m import a\nfrom m import b\n")

    def test_every_key_is_taken(self):
        numbers = dict.fromkeys(("line_length", "multi_line_output", "force_grid_wrap", "lines_between_sections"), 1)
        numbers.update(lines_between_types=1, lines_after_imports=-1)
        flags = dict.fromkeys(
            (
                "include_trailing_comma use_parentheses ensure_newline_before_comments force_single_line "
                "force_sort_within_sections case_sensitive combine_as_imports order_by_type"
            ).split(),
            True,
        )
        lists = dict.fromkeys(
            (
                "known_standard_library extra_standard_library known_third_party known_first_party "
                "known_local_folder known_future_library"
            ).split(),
            ("a", "b.c"),
        )
        config = Config(profile="black", default_section="FIRSTPARTY", **numbers, **flags, **lists)
        self.assertEqual(fihroste.place_module("unknown", config), "FIRSTPARTY")

    def test_collections_are_lists(self):
        for collection in (["mine"], ("mine",), {"mine"}, frozenset(["mine"])):
            self.assertEqual(fihroste.place_module("mine", known_first_party=collection), "FIRSTPARTY")

    def test_a_config_never_changes(self):
        names = ["mine"]
        config = Config(known_first_party=names)
        names.append("other")
        self.assertEqual(fihroste.place_module("other", Config(config=config, line_length=100)), "THIRDPARTY")

    def test_texts_need_no_escapes(self):
        for name in ('"', "\\", "\n", "\x7f", "\0", "\u00e4", "'''", "\U0001d400"):
            self.assertEqual(fihroste.place_module(name, known_first_party=[name]), "FIRSTPARTY", name)

    def test_own_sections(self):
        config = Config(sections=["FUTURE", "STDLIB", "Django", "THIRDPARTY"], known_django=["django"])
        text = "import requests\nimport django.db\nimport os\nfrom . import z\n"
        wanted = "import os\n\nimport django.db\n\nimport requests\n\nfrom . import z\n"
        self.assertEqual(fihroste.code(text, config=config), wanted)
        self.assertEqual(fihroste.place_module("django.db", config), "Django")
        self.assertEqual(fihroste.place_module("os", config), "STDLIB")
        long = "a" * 1000
        self.assertEqual(fihroste.place_module("b", sections=[long], default_section=long), long)

    def test_a_config_goes_on_from_another_with_own_sections(self):
        other = Config(sections=("Own",), known_own={"mine"})
        self.assertEqual(fihroste.place_module("mine", Config(config=other, line_length=100)), "Own")
        self.assertEqual(fihroste.place_module("yours", Config(config=other, known_own=["yours"])), "Own")

    def test_a_config_goes_on_from_another(self):
        config = Config(config=Config(profile="black", known_first_party=["mine"]), line_length=200)
        self.assertEqual(fihroste.code(NAMES, config=config), NAMES)
        self.assertEqual(fihroste.place_module("mine", config), "FIRSTPARTY")


    def test_values_are_converted(self):
        for keywords, name, wanted in (
            ({"line_length": "88"}, "line_length", 88),
            ({"lines_after_imports": "-1"}, "lines_after_imports", -1),
            ({"multi_line_output": "3"}, "multi_line_output", WrapModes.VERTICAL_HANGING_INDENT),
            ({"multi_line_output": "HANGING_INDENT"}, "multi_line_output", WrapModes.HANGING_INDENT),
            ({"multi_line_output": WrapModes.VERTICAL}, "multi_line_output", WrapModes.VERTICAL),
            ({"known_first_party": "a,b"}, "known_first_party", frozenset(("a", "b"))),
            ({"known_first_party": " a ,\nb,, "}, "known_first_party", frozenset(("a", "b"))),
            ({"sections": "STDLIB,FUTURE"}, "sections", ("STDLIB", "FUTURE")),
            ({"sections": "Own", "known_own": "a"}, "known_other", {"own": frozenset("a")}),
            *(({"atomic": word}, "atomic", True) for word in ("true", "True", "yes", "y", "t", "on", "1", 1)),
            *(({"order_by_type": word}, "order_by_type", False) for word in ("false", "no", "n", "f", "off", "0", 0)),
        ):
            with self.subTest(**keywords):
                self.assertEqual(getattr(Config(**keywords), name), wanted)
        self.assertEqual(fihroste.code("from m import a, b\n", force_single_line="1"), "from m import a\nfrom m import b\n")

    def test_keywords_without_effect(self):
        flags = dict.fromkeys("quiet verbose color_output only_modified atomic filter_files".split(), True)
        config = Config(**flags, py_version="38", directory="a", profile="")
        self.assertEqual(fihroste.code(TWO, config=config), TWO_SORTED)
        self.assertEqual((config.quiet, config.py_version, config.directory, config.profile), (True, "py38", "a", ""))
        self.assertEqual(fihroste.code(TWO, quiet="yes", py_version="auto", atomic=1), TWO_SORTED)
        self.assertEqual(Config(py_version="auto").py_version, "py3")
        self.assertEqual(fihroste.code(TWO, disregard_skip=True), TWO_SORTED)
        for version in ("all", "2", "27", "3", "35", "311"):
            self.assertEqual(fihroste.code(TWO, py_version=version), TWO_SORTED)
        with self.assertRaises(ValueError):
            Config(py_version="4")
        with self.assertRaises(TypeError):
            Config(quiet=2)
        self.assertEqual(Config(config=Config(profile="black"), profile="").line_length, 79)

    def test_settings_are_attributes(self):
        self.assertEqual([getattr(Config(), name) for name in DEFAULTS], list(DEFAULTS.values()))
        config = Config(profile="black", force_sort_within_sections=True, line_length=100)
        self.assertEqual([getattr(config, name) for name in BLACK_VALUES], list(BLACK_VALUES.values()))
        self.assertEqual((config.line_length, config.profile, config.force_sort_within_sections), (100, "black", True))
        self.assertEqual(Config(config=config, lines_after_imports=2).line_length, 100)
        with self.assertRaises(AttributeError):
            config.length_sort
        self.assertIn("line_length", dir(config))

    def test_a_config_is_a_value(self):
        one = Config(profile="black", known_first_party=["a", "b"], sections=["Own"], known_own=["x"])
        other = Config(known_first_party=("b", "a", "a"), profile="black", line_length=88, sections="Own", known_own="x")
        self.assertEqual((one, hash(one)), (other, hash(other)))
        self.assertNotEqual(one, Config(config=one, line_length=89))
        self.assertNotEqual(one, Config(config=one, known_own=["y"]))
        self.assertNotEqual(Config(), Config(quiet=True))
        self.assertNotEqual(Config(), "")
        for protocol in range(pickle.HIGHEST_PROTOCOL + 1):
            again = pickle.loads(pickle.dumps(one, protocol))
            self.assertEqual((again, hash(again), repr(again)), (one, hash(one), repr(one)))
            self.assertEqual(fihroste.code(NAMES, config=again), fihroste.code(NAMES, config=one))
        self.assertEqual(copy.deepcopy(one), one)

    def test_assignment_is_refused(self):
        config = Config(line_length=80)
        for name in ("line_length", "_toml", "other"):
            with self.subTest(name=name), self.assertRaises(AttributeError):
                setattr(config, name, 100)
        with self.assertRaises(AttributeError):
            del config.line_length
        self.assertEqual(config.line_length, 80)


class Refusals(unittest.TestCase):
    def expect(self, key, label, **keywords):
        with self.subTest(**keywords), self.assertRaises(UnsupportedSettings) as raised:
            fihroste.code("", **keywords)
        self.assertEqual((raised.exception.key, raised.exception.label), (key, label))
        self.assertEqual(fihroste.code("import b\nimport a\n"), "import a\nimport b\n")

    def test_unknown_keys_are_named(self):
        for key in "skip length_sort Line_Length Known_django known_Django known_1 known_\ud800 add_imports".split():
            self.expect(key, None, **{key: True})
        self.expect("known_django", None, known_django=["django"])
        self.expect("known_django", None, sections=["Own"], known_django=["django"])

    def test_bad_values_name_their_key(self):
        self.expect("line_length", "S2", line_length=0)
        self.expect("line_length", "S2", line_length=10**30)
        self.expect("line_length", "S2", line_length=10**5000)
        self.expect("line_length", "S2", line_length="eighty")
        self.expect("force_single_line", "S2", force_single_line="perhaps")
        self.expect("lines_after_imports", "S2", lines_after_imports=-2)
        self.expect("default_section", "S2", default_section="third")
        self.expect("known_third_party", "S2", known_third_party=["a*"])
        self.expect("known_third_party", "S2", known_third_party=["\ud800"])
        self.expect("sections", "S2", sections=["Own", "own"])
        self.expect("sections", "S2", sections=["1"], known_first_party=["a"])
        self.expect("known_own", "S2", sections=["Own"], known_own=["a*"])
        self.expect("default_section", "S2", sections=["Own"], default_section="own")
        self.expect("multi_line_output", "S4", multi_line_output=4)
        self.expect("multi_line_output", "S4", multi_line_output="4")
        self.expect("multi_line_output", "S4", multi_line_output="NOQA")

    def test_other_profiles_do_not_exist(self):
        with self.assertRaises(ProfileDoesNotExist) as raised:
            fihroste.code("", profile="django")
        self.assertEqual(raised.exception.profile, "django")

    def test_wrong_types(self):
        for keywords in (
            {"line_length": 88.0},
            {"line_length": True},
            {"line_length": None},
            {"force_single_line": 2},
            {"profile": None},
            {"show_diff": 1},
            {"known_first_party": [1]},
            {"known_first_party": {"a": 1}},
            {"known_own": b"abc"},
            {"config": {}},
            {"settings_file": 1.5},
        ):
            with self.subTest(**keywords), self.assertRaises(TypeError):
                fihroste.code("", **keywords)
        with self.assertRaisesRegex(TypeError, "^line_length has to be an int, not None$"):
            fihroste.code("", line_length=None)

    def test_parameters_that_are_missing_are_named(self):
        for call in (fihroste.code, fihroste.check_code):
            with self.assertRaises(UnsupportedSettings) as raised:
                call("import a\n", extension="pyx")
            self.assertEqual(raised.exception.unsupported_settings, {"extension": {"value": "pyx", "source": "runtime"}})
            call("import a\n", extension="py", disregard_skip=False, show_diff=False)

    def test_refusals_have_their_setting_as_in_isort(self):
        for keywords in ({"line_length": 0}, {"length_sort": True}, {"known_third_party": ("a*",)}):
            with self.subTest(**keywords), self.assertRaises(UnsupportedSettings) as raised:
                Config(**keywords)
            ((key, value),) = keywords.items()
            self.assertEqual(raised.exception.unsupported_settings, {key: {"value": value, "source": "runtime"}})

    def test_a_config_and_keywords(self):
        with self.assertRaises(ValueError):
            fihroste.code("", config=Config(profile="black"), line_length=80)

    def test_exceptions_can_be_pickled(self):
        for keywords in ({"line_length": 0}, {"nothing": 1}, {"profile": "x"}):
            with self.assertRaises(ISortError) as raised:
                fihroste.code("", **keywords)
            again = pickle.loads(pickle.dumps(raised.exception))
            self.assertEqual((type(again), str(again)), (type(raised.exception), str(raised.exception)))


class Files(unittest.TestCase):
    def setUp(self):
        folder = tempfile.TemporaryDirectory()
        self.addCleanup(folder.cleanup)
        self.folder = os.path.realpath(folder.name)

    def write(self, text, *names):
        path = os.path.join(self.folder, *names)
        os.makedirs(os.path.dirname(path), exist_ok=True)
        with open(path, "w") as file:
            file.write(text)
        return path

    def test_a_file_has_settings(self):
        path = self.write('[tool.isort]\nprofile = "black"\n', "settings.toml")
        self.assertEqual(fihroste.code(NAMES, config=Config(path)), BLACK)
        self.assertEqual(fihroste.code(NAMES, settings_file=path), BLACK)

    def test_the_nearest_file_is_found(self):
        self.write("[tool.isort]\nline_length = 200\n", "pyproject.toml")
        self.write('[tool.isort]\nprofile = "black"\n', "a", "pyproject.toml")
        path = self.write(NAMES, "a", "b", "c.py")
        self.assertEqual(fihroste.code(NAMES, settings_path=path), BLACK)
        self.assertEqual(fihroste.code(NAMES, file_path=path), BLACK)
        self.assertEqual(fihroste.code(NAMES, settings_path=self.folder), NAMES)

    def test_a_file_without_the_table_is_passed_over(self):
        self.write('[tool.isort]\nprofile = "black"\n', "pyproject.toml")
        for text in ("[tool.other]\na = 1\n", "# isort\n[tool.isort]\n", "[project]\nname = 'isort'\n"):
            if not HAS_READER and "isort" in text:
                continue
            self.write(text, "a", "pyproject.toml")
            path = self.write(NAMES, "a", "b.py")
            with self.subTest(text=text):
                self.assertEqual(fihroste.code(NAMES, file_path=path), BLACK)

    def test_settings_of_other_files_are_told(self):
        self.write('[tool.isort]\nprofile = "black"\n', "pyproject.toml")
        path = self.write(NAMES, "a", "b.py")
        for name, text in (
            (".isort.cfg", "[settings]\nline_length = 100\n"),
            (".isort.cfg", "[isort]\nline_length = 100\n"),
            ("setup.cfg", "[isort]\nline_length = 100\n"),
            ("tox.ini", "[tool:isort]\nline_length = 100\n"),
            (".editorconfig", "root = true\n[*.py]\nmax_line_length = 100\n"),
            (".editorconfig", "[*.{js, py}]\nindent_style = space\n"),
        ):
            other = self.write(text, "a", name)
            with self.subTest(text=text), warnings.catch_warnings(record=True) as told:
                warnings.simplefilter("always")
                self.assertEqual(fihroste.code(NAMES, file_path=path), BLACK)
            words = f"{other}: isort's settings there are not read: copy them to [tool.isort] of a pyproject.toml"
            self.assertEqual([(str(one.message), one.filename) for one in told], [(words, __file__)])
            os.remove(other)

    def test_other_files_without_settings_are_passed_over(self):
        path = self.write(NAMES, "b.py")
        self.write("[metadata]\nname = a\n[tool:pytest]\na = 1\n", "setup.cfg")
        self.write("[isort]\n", "tox.ini")
        self.write("[*.js]\nmax_line_length = 100\n[*.py]\ncharset = utf-8\n", ".editorconfig")
        self.write("no section\n", ".isort.cfg")
        with warnings.catch_warnings():
            warnings.simplefilter("error")
            self.assertNotEqual(fihroste.code(NAMES, file_path=path), BLACK)

    def test_a_project_comes_before_other_files_of_its_folder(self):
        self.write('[tool.isort]\nprofile = "black"\n', "pyproject.toml")
        self.write("[isort]\nline_length = 100\n", "setup.cfg")
        with warnings.catch_warnings():
            warnings.simplefilter("error")
            self.assertEqual(fihroste.code(NAMES, settings_path=self.folder), BLACK)

    def test_other_files_are_refused(self):
        for name in (".isort.cfg", "setup.cfg", "tox.ini", ".editorconfig"):
            path = self.write('[tool.isort]\nprofile = "black"\n', name)
            with self.subTest(name=name), self.assertRaises(UnsupportedSettings) as raised:
                Config(settings_file=path)
            self.assertEqual(raised.exception.key, "settings_file")
            self.assertIn(path, str(raised.exception))

    def test_settings_are_searched_beside_the_target_of_a_link(self):
        self.write('[tool.isort]\nprofile = "black"\n', "a", "pyproject.toml")
        target, link = self.write(NAMES, "a", "b.py"), os.path.join(self.folder, "link.py")
        os.symlink(target, link)
        self.assertFalse(fihroste.check_file(link))
        self.assertTrue(fihroste.file(link))
        with open(target) as file:
            self.assertEqual(file.read(), BLACK)
        self.assertTrue(fihroste.check_file(link))

    def test_the_search_ends_with_a_repository(self):
        self.write('[tool.isort]\nprofile = "black"\n', "pyproject.toml")
        self.write("", "a", ".git", "HEAD")
        path = self.write(NAMES, "a", "b.py")
        self.assertNotEqual(fihroste.code(NAMES, file_path=path), BLACK)

    def test_a_path_that_does_not_exist(self):
        with self.assertRaises(InvalidSettingsPath) as raised:
            Config(settings_path=os.path.join(self.folder, "nothing"))
        self.assertEqual(raised.exception.settings_path, os.path.join(self.folder, "nothing"))
        with self.assertRaises(OSError):
            Config(settings_file=os.path.join(self.folder, "nothing"))

    def test_one_source_of_settings(self):
        path = self.write('[tool.isort]\nprofile = "black"\n', "settings.toml")
        self.assertEqual(Config(settings_file=path, settings_path=self.folder).profile if HAS_READER else "black", "black")
        self.assertEqual(fihroste.code(NAMES, settings_file=path, settings_path=self.folder), BLACK)
        for keyword in ("settings_file", "settings_path"):
            with self.assertRaises(ValueError):
                Config(config=Config(), **{keyword: path})

    @unittest.skipUnless(HAS_READER, "needs a reader of TOML")
    def test_a_file_has_attributes(self):
        text = '[tool.isort]\nprofile = "black"\nsections = ["Own", "FUTURE"]\nknown_own = ["a"]\nline_length = 90\n'
        path = self.write(text, "settings.toml")
        config = Config(settings_file=path, combine_as_imports=True)
        with warnings.catch_warnings():
            warnings.simplefilter("ignore")
            self.assertEqual(Config(self.write(f"{text}known_x = 1\n", "settings.toml")).known_other, {"own": frozenset("a")})
        self.write(text, "settings.toml")
        self.assertEqual((config.profile, config.line_length, config.include_trailing_comma), ("black", 90, True))
        self.assertEqual((config.sections, config.known_other), (("Own", "FUTURE"), {"own": frozenset("a")}))
        keywords = {"profile": "black", "line_length": 90, "combine_as_imports": True, "sections": ["Own", "FUTURE"]}
        self.assertEqual(config, Config(**keywords, known_own=["a"]))
        self.assertEqual(pickle.loads(pickle.dumps(config)), config)
        self.assertEqual(fihroste.code(NAMES, settings_file=path, profile="", line_length=200), NAMES)

    @unittest.skipUnless(HAS_READER, "needs a reader of TOML")
    def test_refusals_of_a_file_name_it(self):
        for text, key, value, words in (
            ("line_length = 'x'\n", "line_length", "x", "S2 bad value for line_length: 'x'"),
            ("multi_line_output = 9\n", "multi_line_output", 9, "S4 unsupported multi_line_output: 9"),
        ):
            path = self.write(f"[tool.isort]\n{text}", "settings.toml")
            for keywords in ({}, {"case_sensitive": True}):
                with self.subTest(text=text), self.assertRaises(UnsupportedSettings) as raised:
                    Config(path, **keywords)
                self.assertEqual(str(raised.exception), f"{path}: {words}")
                self.assertEqual(raised.exception.unsupported_settings, {key: {"value": value, "source": path}})
        path = self.write("[tool.isort]\nprofile = 'x'\n", "settings.toml")
        with self.assertRaises(ProfileDoesNotExist) as raised:
            Config(path)
        self.assertEqual((raised.exception.profile, str(raised.exception)), ("x", f"{path}: S3 unknown profile: x"))
        with self.assertRaises(UnsupportedSettings) as raised:
            Config(self.write("[tool.isort\n", "settings.toml"))
        self.assertEqual(str(raised.exception), f"{path}: S1 the settings are not TOML")

    def test_a_profile_wins_over_a_file(self):
        path = self.write('[tool.isort]\nprofile = "django"\nline_length = 200\n', "settings.toml")
        self.assertEqual(fihroste.code(NAMES, settings_file=path, profile="black"), NAMES)

    @unittest.skipUnless(HAS_READER, "needs a reader of TOML")
    def test_keywords_win_over_a_file(self):
        path = self.write('\ufeff[tool.isort]\nprofile = "black"\nline_length = 200\nextra = 1\n', "settings.toml")
        with warnings.catch_warnings():
            warnings.simplefilter("ignore")
            self.assertEqual(fihroste.code(NAMES, settings_file=path, line_length=88), BLACK)
            self.assertEqual(fihroste.code(NAMES, settings_file=path, case_sensitive=True), NAMES)
        self.assertEqual(fihroste.code(NAMES, settings_file=self.write("", "empty.toml"), line_length=200), NAMES)

    @unittest.skipUnless(HAS_READER, "needs a reader of TOML")
    def test_keywords_win_over_a_file_with_own_sections(self):
        path = self.write('[tool.isort]\nsections = ["Own"]\nknown_own = ["mine"]\nknown_x = [1.5]\n', "settings.toml")
        with warnings.catch_warnings(record=True) as told:
            warnings.simplefilter("always")
            self.assertEqual(fihroste.place_module("mine", settings_file=path, line_length=100), "Own")
            self.assertEqual(fihroste.place_module("mine", settings_file=path, known_own=["a"]), "THIRDPARTY")
            self.assertEqual(fihroste.place_module("mine", settings_file=path, sections=["X"], known_x=["mine"]), "X")
        wanted = [f"{path}: settings: {key} ignored" for key in ("known_x", "known_x", "known_own")]
        self.assertEqual([str(one.message) for one in told], wanted)

    @unittest.skipIf(HAS_READER, "there is a reader of TOML")
    def test_keywords_over_a_file_need_a_reader(self):
        path = self.write("[tool.isort]\nline_length = 200\n", "settings.toml")
        with self.assertRaises(UnsupportedSettings) as raised:
            fihroste.code(NAMES, settings_file=path, case_sensitive=True)
        self.assertEqual(raised.exception.key, "case_sensitive")

    def test_unknown_keys_are_told(self):
        path = self.write("[tool.isort]\nskip = ['a']\nb = 1\n", "settings.toml")
        for keywords in ({}, {"profile": "black"}, {"case_sensitive": True}) if HAS_READER else ({},):
            with warnings.catch_warnings(record=True) as told:
                warnings.simplefilter("always")
                Config(path, **keywords)
            wanted = [f"{path}: settings: {key} ignored" for key in ("b", "skip")]
            self.assertEqual([str(one.message) for one in told], wanted)

    def test_files_that_are_refused(self):
        for text, exception, key, label in (
            ("[tool.isort\n", UnsupportedSettings, None, "S1"),
            ("[tool.isort]\nline_length = 'x'\n", UnsupportedSettings, "line_length", "S2"),
            ("tool = 1\n", UnsupportedSettings, "tool", "S2"),
            ("[tool]\nisort = 1\n", UnsupportedSettings, "tool.isort", "S2"),
            ("[tool]\nisort = []\n", UnsupportedSettings, "tool.isort", "S2"),
            ("[tool.isort]\nmulti_line_output = 9\n", UnsupportedSettings, "multi_line_output", "S4"),
            ("[tool.isort]\nsections = ['A']\nknown_a = 1.5\nline_length = 2.5\n", UnsupportedSettings, "known_a", "S2"),
            ("[tool.isort]\nsections = ['1a']\nknown_1a = 1.5\n", UnsupportedSettings, "sections", "S2"),
        ):
            path = self.write(text, "settings.toml")
            for keywords in ({}, {"case_sensitive": True}) if HAS_READER else ({},):
                with self.subTest(text=text), self.assertRaises(exception) as raised:
                    Config(path, **keywords)
                self.assertEqual((raised.exception.key, raised.exception.label), (key, label))
        with self.assertRaises(ProfileDoesNotExist):
            Config(self.write("[tool.isort]\nprofile = 'x'\n", "settings.toml"))


if __name__ == "__main__":
    unittest.main()
