"""The calls have the names, parameters and defaults of isort 5, in its order."""

import inspect
import pickle
import unittest

import fihroste

# `config` stands for the default settings.
PARAMETERS = {
    "code": "code extension=None config file_path=None disregard_skip=False show_diff=False",
    "check_code": "code show_diff=False extension=None config file_path=None disregard_skip=False",
    "stream": "input_stream output_stream extension=None config file_path=None disregard_skip=False show_diff=False "
    "raise_on_skip=True",
    "check_stream": "input_stream show_diff=False extension=None config file_path=None disregard_skip=False",
    "file": "filename extension=None config file_path=None disregard_skip=True ask_to_apply=False show_diff=False "
    "write_to_stdout=False output=None",
    "check_file": "filename show_diff=False config file_path=None disregard_skip=True extension=None",
    "find_imports_in_code": "code config file_path=None unique=False top_only=False",
    "find_imports_in_stream": "input_stream config file_path=None unique=False top_only=False",
    "find_imports_in_file": "filename config file_path=None unique=False top_only=False",
    "find_imports_in_paths": "paths config file_path=None unique=False top_only=False",
    "place_module": "name config",
    "place_module_with_reason": "name config",
}


def parameters(call):
    words = []
    for parameter in inspect.signature(call).parameters.values():
        if parameter.kind is parameter.VAR_KEYWORD:
            continue
        if parameter.name == "config" or parameter.default is parameter.empty:
            words.append(parameter.name)
        else:
            words.append(f"{parameter.name}={parameter.default}")
    return " ".join(words)


class Signatures(unittest.TestCase):
    def test_parameters(self):
        for name, wanted in PARAMETERS.items():
            self.assertEqual(parameters(getattr(fihroste, name)), wanted, name)

    def test_exceptions(self):
        names = (
            "ISortError InvalidSettingsPath ExistingSyntaxErrors IntroducedSyntaxErrors FileSkipped FileSkipComment "
            "FileSkipSetting ProfileDoesNotExist FormattingPluginDoesNotExist LiteralParsingFailure LiteralSortTypeMismatch "
            "AssignmentsFormatMismatch UnsupportedSettings UnsupportedEncoding"
        ).split()
        for name in names:
            self.assertTrue(issubclass(getattr(fihroste.exceptions, name), fihroste.exceptions.ISortError))

    def test_exceptions_that_are_never_raised_can_be_made(self):
        made = fihroste.exceptions
        self.assertEqual(made.FileSkipped("why", "a.py").file_path, "a.py")
        self.assertEqual(str(made.FileSkipped("why", "a.py")), "why")
        self.assertEqual(made.FileSkipSetting("a.py").file_path, "a.py")
        self.assertEqual(made.IntroducedSyntaxErrors("a.py").file_path, "a.py")
        self.assertEqual(made.UnsupportedEncoding("a.py").filename, "a.py")
        self.assertEqual(made.FormattingPluginDoesNotExist("x").formatter, "x")
        self.assertEqual(made.LiteralSortTypeMismatch(int, list).expected_kind, list)
        for one in (made.FileSkipped("why", "a.py"), made.FileSkipComment("a.py"), made.FileSkipSetting("a.py")):
            again = pickle.loads(pickle.dumps(one))
            self.assertEqual((type(again), str(again), again.file_path), (type(one), str(one), "a.py"))

    def test_keys(self):
        self.assertEqual([key.name for key in fihroste.ImportKey], ["PACKAGE", "MODULE", "ATTRIBUTE", "ALIAS"])


if __name__ == "__main__":
    unittest.main()
