#!/usr/bin/env python3
"""Compares what isort lists with what Python's own parser finds.

    checks/judges/check_imports.py PROGRAM FOLDER..

PROGRAM is the built isort. The files are all `*.py` below the folders. Each import of each file is compared: its line,
module, attribute and alias, in the order written. Files that are not UTF-8, or that `ast.parse` refuses, are left out,
and so are those in which a coding comment names another encoding. The last line counts the files read, their imports,
and the files that differ. The status is 1 where one differs, or none was read."""

import argparse
import ast
import io
import subprocess
import sys
import tokenize
import warnings
from pathlib import Path


def is_utf8(text: bytes) -> bool:
    try:
        encoding, _ = tokenize.detect_encoding(io.BytesIO(text).readline)
        text.decode("utf-8")
    except (SyntaxError, UnicodeDecodeError):
        return False
    return encoding in ("utf-8", "utf-8-sig")


def statement(module: str | None, name: str, alias: str | None) -> str:
    text = f"import {name}" if module is None else f"from {module} import {name}"
    return text if alias is None else f"{text} as {alias}"


def parsed(text: bytes) -> list[str] | None:
    """The imports that `ast` finds, each as its line and statement, or None where it refuses the text."""
    try:
        with warnings.catch_warnings():
            warnings.simplefilter("ignore")
            tree = ast.parse(text)
    except (SyntaxError, ValueError, RecursionError):
        return None
    found = []
    for node in ast.walk(tree):
        if isinstance(node, ast.Import):
            module = None
        elif isinstance(node, ast.ImportFrom):
            module = "." * node.level + (node.module or "")
        else:
            continue
        place = (node.lineno, node.col_offset)
        found += [(place, f"{node.lineno} {statement(module, name.name, name.asname)}") for name in node.names]
    found.sort(key=lambda item: item[0])
    return [item for _, item in found]


def listed(program: str, text: bytes) -> list[str]:
    run = subprocess.run([program, "--identify", "-"], input=text, capture_output=True)
    if run.returncode != 0:
        return [run.stderr.decode().strip()]
    lines = run.stdout.decode().split("\n")[:-1]
    return [line.removeprefix("-:").replace(" indented ", " ", 1) for line in lines]


def main() -> int:
    parser = argparse.ArgumentParser(usage=__doc__)
    parser.add_argument("program")
    parser.add_argument("folders", nargs="+")
    given = parser.parse_args()
    files = imports = size = differences = 0
    for folder in given.folders:
        for path in sorted(Path(folder).rglob("*.py")):
            text = path.read_bytes()
            want = parsed(text) if is_utf8(text) else None
            if want is None:
                continue
            files += 1
            size += len(text)
            imports += len(want)
            got = listed(given.program, text)
            if got != want:
                differences += 1
                line = next((pair for pair in zip(want + [""], got + [""]) if pair[0] != pair[1]), ("", ""))
                print(f"{path}: ast has {line[0]!r}, isort {line[1]!r}")
    print(f"{files} files of {size} bytes with {imports} imports compared, {differences} differ")
    return 1 if differences or not files else 0


if __name__ == "__main__":
    sys.exit(main())
