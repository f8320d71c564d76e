"""Texts and what they come to, from the README and the documents of the program."""

# A text and its sorted text, under the default settings.
SHOP = "import sys\nfrom basket import (till as t,\n    Cart)\nimport os, json  # the standard ones\n"
SHOP_SORTED = (
    "import json\nimport os  # the standard ones\nimport sys\n\nfrom basket import Cart\nfrom basket import till as t\n"
)
SHOP_IMPORTS = [
    (1, False, "sys", None, None),
    (2, False, "basket", "till", "t"),
    (2, False, "basket", "Cart", None),
    (4, False, "os", None, None),
    (4, False, "json", None, None),
]

SORTED = [
    (SHOP, SHOP_SORTED),
    ("", ""),
    ("import os\nimport abc\n", "import abc\nimport os\n"),
    ("import b as c, b\n", "import b\nimport b as c\n"),
    ("import a  # one\nimport a  # two\n", "import a  # one; two\n"),
    ("import b, B, a, A\n", "import A\nimport a\nimport B\nimport b\n"),
    ("from m import \u00c4\u00d6, \u00c9a, b, A\n", "from m import A, b, \u00c4\u00d6, \u00c9a\n"),
    ("import z\n\n# about a group\n\nimport b\n", "# about a group\nimport b\nimport z\n"),
    ("x = 1\r\nimport b\nimport a\ny = 1\n", "x = 1\r\nimport a\r\nimport b\r\n\r\ny = 1\n"),
    ("import b\nimport a", "import a\nimport b"),
    ("\ufeffimport b\nimport a\n", "\ufeffimport a\nimport b\n"),
]

SAME = ["import c; import b\n", "x = 1\n", "import b\n# isort: split\nimport a\n", "x = '\U0001d400'\n"]

SKIPPED = "# isort: skip_file\nimport b\nimport a\n"

# A text; the label, the offset and the line of its fault; and the imports before it.
FAULTS = [
    ("import b\nimport a\nx = (\n", "F6", 22, 3, ["import b", "import a"]),
    ("import b,\nimport a\n", "F9", 0, 1, []),
    ("import a; import b,\n", "F9", 10, 1, []),
    ("x = 'a\n", "F3", 4, 1, []),
    ('import a\nx = f"{y\n', "F10", 15, 2, ["import a"]),
    ("import a\n$\n", "F2", 9, 2, ["import a"]),
    ("import a\n\0\n", "F2", 9, 2, ["import a"]),
    ("import a\nx = '\udc80'\n", "F1", 14, 2, ["import a"]),
]
