"""Sorting and checking of texts and streams."""

import io
import unittest

import fihroste
from fihroste.exceptions import ExistingSyntaxErrors, FileSkipComment

from texts import FAULTS, SAME, SHOP, SHOP_SORTED, SKIPPED, SORTED


class Sorting(unittest.TestCase):
    def test_texts_are_sorted(self):
        for text, wanted in SORTED:
            with self.subTest(text=text):
                self.assertEqual(fihroste.code(text), wanted)
                self.assertEqual(fihroste.check_code(text), text == wanted)
                self.assertTrue(fihroste.check_code(wanted))

    def test_sorted_texts_stay(self):
        for text in SAME:
            with self.subTest(text=text):
                self.assertEqual(fihroste.code(text), text)
                self.assertTrue(fihroste.check_code(text))

    def test_long_texts_are_sorted(self):
        rest = "x = [1, 'a', 2.0]  # \u00e4\n" * 40000
        self.assertEqual(fihroste.code("import os\nimport abc\n\n" + rest), "import abc\nimport os\n\n" + rest)

    def test_a_result_may_be_much_longer_than_its_text(self):
        names = ", ".join(f"a{number}" for number in range(3000))
        single = fihroste.code(f"from package_of_many_names import {names}\n", force_single_line=True)
        lines = [f"from package_of_many_names import a{number}\n" for number in range(3000)]
        self.assertEqual(single, "".join(lines))

    def test_skipped_texts_raise(self):
        for call in (fihroste.code, fihroste.check_code):
            with self.assertRaises(FileSkipComment) as raised:
                call(SKIPPED)
            self.assertIsNone(raised.exception.file_path)
        self.assertTrue(fihroste.check_code("x = 'skip_file'\n"))

    def test_faults_have_label_line_and_offset(self):
        for text, label, offset, line, _ in FAULTS:
            for call in (fihroste.code, fihroste.check_code):
                with self.subTest(text=text, call=call), self.assertRaises(ExistingSyntaxErrors) as raised:
                    call(text)
                fault = raised.exception
                self.assertEqual((fault.label, fault.offset, fault.lineno), (label, offset, line))
            self.assertEqual(fihroste.code(SHOP), SHOP_SORTED)

    def test_faults_name_their_source(self):
        with self.assertRaises(ExistingSyntaxErrors) as raised:
            fihroste.code("x = (\n")
        self.assertEqual(str(raised.exception), "Passed in content:1: F6 bracket not closed")


class Streams(unittest.TestCase):
    def test_a_stream_is_sorted(self):
        output = io.StringIO()
        self.assertTrue(fihroste.stream(io.StringIO(SHOP), output))
        self.assertEqual(output.getvalue(), SHOP_SORTED)

    def test_a_sorted_stream_is_handed_on(self):
        output = io.StringIO()
        self.assertFalse(fihroste.stream(io.StringIO(SHOP_SORTED), output))
        self.assertEqual(output.getvalue(), SHOP_SORTED)

    def test_streams_are_checked(self):
        self.assertFalse(fihroste.check_stream(io.StringIO(SHOP)))
        self.assertTrue(fihroste.check_stream(io.StringIO(SHOP_SORTED)))

    def test_nothing_is_written_at_an_exception(self):
        for text, exception in ((SKIPPED, FileSkipComment), ("x = (\n", ExistingSyntaxErrors)):
            output = io.StringIO()
            with self.assertRaises(exception):
                fihroste.stream(io.StringIO(text), output)
            self.assertEqual(output.getvalue(), "")

    def test_a_skipped_stream_may_be_handed_on(self):
        output = io.StringIO()
        self.assertFalse(fihroste.stream(io.StringIO(SKIPPED), output, raise_on_skip=False))
        self.assertEqual(output.getvalue(), SKIPPED)

    def test_bytes_are_no_text(self):
        with self.assertRaises(TypeError):
            fihroste.stream(io.BytesIO(b"import a\n"), io.StringIO())


if __name__ == "__main__":
    unittest.main()
