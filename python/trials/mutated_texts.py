"""Sorts, checks and lists mutated texts, and sees that the three agree.

    mutated_texts.py COUNT [SEED]

Each text is made of a known one by a few random edits, and is sorted under settings that are drawn as well. Then:
sorting, checking and listing name the same fault, or none does; a check accepts a text exactly if sorting leaves it; the
sorted text is accepted, and stays as it is when it is sorted again; and it imports what the text imports. Prints a line
for each text that shows a difference, and then how many texts showed none."""

import multiprocessing
import os
import random
import sys

import fihroste
from fihroste import Config
from fihroste.exceptions import ExistingSyntaxErrors, FileSkipComment

BATCH = 2000
TEXTS = [
    "import sys\nfrom basket import (till as t,\n    Cart)\nimport os, json  # the standard ones\n",
    "# about z\nimport z\n\n# about a group\n\nimport b\n# about c\nfrom c import d as e, f  # end\n\n\ndef f():\n    import b, a\n    return a\n",
    "from __future__ import annotations\nimport os.path as path\nfrom . import (  # one\n    b,\n    a,  # two\n)\nfrom .. import c\n",
    "'''a text'''\nimport b\n# isort: off\nimport d\nimport c\n# isort: on\nimport a\n# isort: split\nimport A\n",
    "import b;import a\nif x:\n    from m import \\\n        b, a\n    import c\nelse: import d\nimport b  # isort: skip\nimport a\n",
    "\ufeffimport b\r\nimport a\r\nfrom m import *\r\nfrom m import CONST, Klass, func, a1, a10, a9\r\nx = f'{1}' \"\"\"\r\n\"\"\"\r\n",
    "try:\n\timport b\n\timport a\nexcept ImportError:\n\tfrom n import (aaaaaaaaaaaaaaaaaaaaaaaaaaaaaaaa, bbbbbbbbbbbbbbbbbbbbbbbbbbbb, c)\n\n@d\nclass C: pass\n",
    "import b\nx = f'{\nimport d, c # }'\n:{w}}' + t\"\"\"{f\"{d[\"import\"]}\"!r:\n>{w}}\"\"\"\nimport e\nimport a\n",
    "from a import (b as c, b as d,\n    b, # k\n)\nimport a.b.c as d\nimport a.b.c\nimport \u00e4.\u00f6\nfrom \u00e4 import \u00d6, \u00c4\n",
]
PIECES = (
    "import |from |as |*|,|(|)|[|}|\\\n|\n|\n\n|\r\n|\r|\f|\t|    | |#|# k|# isort: skip\n|# isort: off\n|# isort: on\n"
    "|# isort: split\n|# isort: skip_file\n|'|\"|'''|\"\"\"|rb'|f\"{|t'|{{|}|\\N{|;|:|.|..|...|a|B|c1|CONST|\u00e9|\u4e00|\0|\ufeff|$|1|0x"
    "|import a\n|from a import b\n|from .a import (b, c as d)\n|def f():\n|class C:\n|if x: import a\n|x = 1\n"
).split("|")
SETTINGS = [
    {},
    {"profile": "black"},
    {"line_length": 20, "multi_line_output": 1},
    {"line_length": 20, "multi_line_output": 2, "combine_as_imports": True},
    {"line_length": 20, "multi_line_output": 3, "include_trailing_comma": True},
    {"line_length": 20, "use_parentheses": True, "include_trailing_comma": True},
    {"force_single_line": True, "case_sensitive": True},
    {"force_sort_within_sections": True, "order_by_type": False},
    {"lines_between_sections": 0, "lines_between_types": 2, "lines_after_imports": 3},
    {"force_grid_wrap": 2, "ensure_newline_before_comments": True},
    {"default_section": "LOCALFOLDER", "known_first_party": ["a", "m"], "known_third_party": ["a.b"]},
    {"sections": ["Own", "LOCALFOLDER"], "known_own": ["a", "b"], "default_section": "Own"},
]


def mutated(text, draw):
    """The text after one to six edits."""
    for _ in range(draw.randint(1, 6)):
        start = draw.randint(0, len(text))
        end = min(len(text), start + draw.choice((0, 0, 1, 3, 12)))
        kind = draw.randint(0, 3)
        if kind == 0:
            text = text[:start] + text[end:]
        elif kind == 1:
            other = draw.choice(TEXTS)
            begin = draw.randint(0, len(other))
            text = text[:start] + other[begin : begin + draw.randint(1, 40)] + text[end:]
        else:
            text = text[:start] + draw.choice(PIECES) + text[end:]
    return text


def fault_of(call, *words, **keywords):
    """What a call answers, and the words of its fault."""
    try:
        return call(*words, **keywords), None
    except ExistingSyntaxErrors as fault:
        return None, (fault.label, fault.offset, fault.lineno)


def statements(text):
    return {found.statement() for found in fihroste.find_imports_in_code(text)}


def difference(text, config):
    """What the calls disagree on, or nothing."""
    try:
        result, fault = fault_of(fihroste.code, text, config=config)
        is_sorted, check_fault = fault_of(fihroste.check_code, text, config=config)
    except FileSkipComment:
        return ""
    _, list_fault = fault_of(statements, text)
    if not fault == check_fault == list_fault:
        return f"faults {fault}, {check_fault}, {list_fault}"
    if fault:
        return ""
    if is_sorted != (result == text):
        return "checked otherwise than sorted"
    if fihroste.code(result, config=config) != result or not fihroste.check_code(result, config=config):
        return "sorted otherwise when sorted again"
    return "" if statements(result) == statements(text) else "other imports after sorting"


def try_batch(job):
    """Tries a batch of texts. Answers how many there were, and a line for each that differed."""
    seed, count = job
    draw = random.Random(seed)
    configs = [Config(**settings) for settings in SETTINGS]
    lines = []
    for _ in range(count):
        text, number = mutated(draw.choice(TEXTS), draw), draw.randrange(len(configs))
        what = difference(text, configs[number])
        if what:
            lines.append(f"{what}: {text!r} under {SETTINGS[number]}")
    return count, lines


def main():
    count, seed = int(sys.argv[1]), int(sys.argv[2]) if len(sys.argv) > 2 else 1
    jobs = [(f"{seed} {start}", min(BATCH, count - start)) for start in range(0, count, BATCH)]
    tried = failed = 0
    with multiprocessing.Pool(len(os.sched_getaffinity(0))) as pool:
        for number, lines in pool.imap_unordered(try_batch, jobs):
            tried += number
            failed += len(lines)
            for line in lines:
                print(line)
    print(f"{tried - failed} passed, {failed} failed")
    return 1 if failed else 0


if __name__ == "__main__":
    sys.exit(main())
