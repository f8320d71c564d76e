#!/usr/bin/env python3
"""Sorts texts twice, and sees that the second time changes nothing.

    checks/judges/stable.py PROGRAM [FOLDER..] [--every N] [--texts N] [--seed N]

PROGRAM is the built isort. The texts are all `*.py` files below the folders, or every N-th, and N small ones (20,000)
made at random of statements, comments, blank lines and code. Each is sorted under 40 settings: those of a row of
SETTINGS below, in each of the four wrap modes at the line lengths 30 and 79. Under each of them a text has its own line
ends, or LF, CR LF or CR in their place, by chance. A text that isort refuses has to stay as it is.

A line tells each text that is not sorted after it was sorted, with its settings. The last line says how many texts
passed and how many failed. The status is 1 where one failed."""

import argparse
import multiprocessing
import os
import random
import re
import subprocess
import sys
import tempfile
from pathlib import Path

BATCH = 500
SETTINGS = (
    "",
    'profile = "black"\n',
    "force_single_line = true\nlines_between_types = 1\n",
    "combine_as_imports = true\ninclude_trailing_comma = true\nlines_after_imports = 1\n",
    'force_sort_within_sections = true\ncase_sensitive = true\norder_by_type = false\nforce_grid_wrap = 2\n'
    'ensure_newline_before_comments = true\nlines_between_sections = 2\nlines_after_imports = 0\nknown_first_party = ["a", "pack"]\n',
)
LINE_ENDS = (None, b"\n", b"\r\n", b"\r")

NAMES = "a b c A B CONST Klass b9 b10 name_of_some_length another_quite_long_name_that_wraps".split()
MODULES = "os sys a a.b pack pack.part requests __future__ . .. .a ..pack.part ... .name_of_a_module".split()
COMMENTS = "# k|# two words|#|#:|# noqa|# a; b|#!x|#  wide  |# isort:skip|# a comment that is rather long and goes on".split("|")
CODE = (
    "x = 1", "def f():\n    import b, a\n    return a", "class A:\n    pass", "@d\ndef g(): pass", "if x:\n    import os\n    import a\nelse:\n    from b import c, a",
    "try:\n    import b\nexcept ImportError:\n    b = None", '"""doc\nimport z, a\n"""', "x = (\n    1,\n)", "# isort: off", "# isort: on", "# isort: split",
    "x = 1; import b", "import b; import a", "import b; x = 1", "async def h(): pass", "\x0c", "if x: import b, a", "    ", "\t", "x = f'{\nimport b, a\n}'", 'f"{d["import"]}"; import b',
)


def settings() -> list[str]:
    """The 40 tables: each row in each mode at each length."""
    lengths = ((mode, length) for mode in range(4) for length in (30, 79))
    return [f"[tool.isort]\n{row}multi_line_output = {mode}\nline_length = {length}\n" for mode, length in lengths for row in SETTINGS]


def item(some: random.Random) -> str:
    """A name, at times under another."""
    return some.choice(NAMES) + (f" as {some.choice(NAMES)}" if some.random() < 0.2 else "")


def comment(some: random.Random, share: float) -> str:
    """At times a comment, after some space."""
    return some.choice(("  ", " ", "", "\t")) + some.choice(COMMENTS) if some.random() < share else ""


def in_brackets(some: random.Random) -> str:
    """Names in brackets, on one line or many, with comments and a last comma at times."""
    lines = []
    for _ in range(some.randint(1, 5)):
        lines.append(f"{item(some)},{comment(some, 0.2)}\n" if some.random() < 0.6 else f"{item(some)}, {item(some)},\n")
        if some.random() < 0.1:
            lines.append(f"{some.choice(COMMENTS)}\n")
    text = "".join(f"    {line}" for line in lines)
    return f"({comment(some, 0.2)}\n{text})" if some.random() < 0.6 else f"({', '.join(item(some) for _ in range(some.randint(1, 6)))})"


def statement(some: random.Random) -> str:
    """An import statement, in one of its forms."""
    kind = some.random()
    if kind < 0.3:
        modules = [it for it in MODULES if not it.startswith(".")]
        return "import " + ", ".join(some.choice(modules) + (f" as {some.choice(NAMES)}" if some.random() < 0.2 else "") for _ in range(some.choice((1, 1, 1, 2, 3))))
    base = f"from {some.choice(MODULES)} import "
    if kind < 0.4:
        return base + "*"
    if kind < 0.65:
        return base + in_brackets(some)
    items = [item(some) for _ in range(some.choice((1, 1, 2, 3, 6)))]
    return base + (", \\\n    " if kind < 0.7 else ", ").join(items)


def block(some: random.Random) -> str:
    """Some statements with comments and blank lines between them."""
    indent = some.choice(("", "", "", "    ", "\t"))
    lines = [f"if x:\n{indent}pass\n"] if indent else []
    for _ in range(some.randint(1, 6)):
        lines.append("\n" * some.choice((0, 0, 0, 1, 2)))
        if some.random() < 0.2:
            lines.append(f"{indent}{some.choice(COMMENTS)}\n")
        lines.append(f"{indent}{statement(some)}{comment(some, 0.25)}\n")
    return "".join(lines)


def text_of(seed: int) -> bytes:
    """A small text of blocks and code."""
    some = random.Random(seed)
    parts = [block(some) if some.random() < 0.65 else some.choice(CODE) + "\n" for _ in range(some.randint(1, 5))]
    gap = some.choice(("", "\n", "\n\n", "\n\n\n\n"))
    text = gap.join(parts)
    text = text if some.random() < 0.8 else text.rstrip("\n")
    return ("\ufeff" if some.random() < 0.03 else "").encode() + text.encode()


def with_line_ends(text: bytes, end: bytes | None) -> bytes:
    return text if end is None else re.sub(rb"\r\n|\r|\n", end, text)


def unsorted(program: str, table: Path, files: list[str]) -> set[str]:
    """Which files isort says are not sorted."""
    run = subprocess.run([program, "-c", "--settings-file", str(table), *files], capture_output=True, text=True, errors="surrogateescape")
    if run.returncode not in (0, 1):
        sys.exit(f"{program}: status {run.returncode}: {run.stderr[:300]}")
    told = {*(run.stdout + run.stderr).split("\n")}
    return {it for it in files if f"ERROR: {it} Imports are incorrectly sorted and/or formatted." in told}


def try_batch(task: tuple[str, int, list[tuple[str, bytes]]]) -> tuple[int, list[tuple[int, str, bytes]]]:
    """Sorts each text of a batch twice under each of the settings. Returns how many texts were sorted so, and those that failed."""
    program, seed, texts = task
    count, failed = 0, []
    with tempfile.TemporaryDirectory(dir="/dev/shm" if os.path.isdir("/dev/shm") else None) as room:
        for at, table in enumerate(settings()):
            file = Path(room, "pyproject.toml")
            file.write_text(table)
            some = random.Random(seed * 100 + at)
            files = {}
            for number, (name, text) in enumerate(texts):
                files[path := f"{room}/{number}.py"] = name, with_line_ends(text, some.choice(LINE_ENDS))
                Path(path).write_bytes(files[path][1])
            before = unsorted(program, file, [*files])
            subprocess.run([program, "--settings-file", str(file), *files], capture_output=True)
            after = unsorted(program, file, [*files])
            for path in files:
                is_kept = Path(path).read_bytes() == files[path][1]
                # what was not sorted changes, and nothing else does
                if path in after or is_kept == (path in before):
                    failed.append((at, *files[path]))
            count += len(files)
    return count, failed


def main() -> int:
    parser = argparse.ArgumentParser(usage=__doc__)
    parser.add_argument("program")
    parser.add_argument("folder", nargs="*", default=[])
    parser.add_argument("--every", type=int, default=1)
    parser.add_argument("--texts", type=int, default=20_000)
    parser.add_argument("--seed", type=int, default=1)
    given = parser.parse_args()
    program = os.path.abspath(given.program)
    paths = sorted(path for folder in given.folder for path in Path(folder).rglob("*.py") if path.is_file())[:: given.every]
    sources = [("file", str(path)) for path in paths] + [("made", str(given.seed * 1_000_000 + number)) for number in range(given.texts)]
    passed, failed = 0, []
    with multiprocessing.Pool() as pool:
        for count, bad in pool.imap_unordered(try_batch, batches(program, sources)):
            passed, failed = passed + count - len(bad), failed + bad
    for at, name, text in sorted(failed, key=lambda it: len(it[2]))[:20]:
        print(f"{name}: sorted again it changes, under\n{settings()[at]}{text[:600]!r}")
    print(f"{passed} passed, {len(failed)} failed")
    return 1 if failed else 0


def batches(program: str, sources: list[tuple[str, str]]):
    """The texts, some at a time."""
    for seed, at in enumerate(range(0, len(sources), BATCH)):
        yield program, seed, [(name, Path(name).read_bytes() if kind == "file" else text_of(int(name))) for kind, name in sources[at : at + BATCH]]


if __name__ == "__main__":
    sys.exit(main())
