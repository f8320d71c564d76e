#!/usr/bin/env python3
"""Lists the Python files that Python's own tokenizer accepts and isort's lexical layer refuses.

    checks/judges/check_lexer.py PROGRAM FOLDER..

PROGRAM is the built isort. The files are all `*.py` below the folders. Each word `import` and `from` of a file is
spelled otherwise first, with as many letters, so that no import statement is found and the whole file is read. Files
that are not UTF-8, or that the tokenizer refuses or finds an error token in, are left out. The tokenizer of Python 3.11
doesn't look into the fields of strings, so a file with a bad one counts as refused. The last line counts the files read
and those refused. The status is 1 where one is refused, or none was read."""

import argparse
import io
import re
import subprocess
import sys
import tokenize
from pathlib import Path

WORDS = re.compile(rb"\b(?:import|from)\b")


def is_tokenized(text: bytes) -> bool:
    try:
        for token in tokenize.tokenize(io.BytesIO(text).readline):
            if token.type == tokenize.ERRORTOKEN:
                return False
        text.decode("utf-8")
    except (tokenize.TokenError, SyntaxError, UnicodeDecodeError):
        return False
    return True


def main() -> int:
    parser = argparse.ArgumentParser(usage=__doc__)
    parser.add_argument("program")
    parser.add_argument("folders", nargs="+")
    given = parser.parse_args()
    read = refused = size = 0
    for folder in given.folders:
        for path in sorted(Path(folder).rglob("*.py")):
            text = path.read_bytes()
            if not is_tokenized(text):
                continue
            read += 1
            size += len(text)
            plain = WORDS.sub(lambda word: b"x" * len(word[0]), text)
            run = subprocess.run([given.program, "--identify", "-"], input=plain, capture_output=True)
            if run.returncode != 0:
                refused += 1
                print(f"{path}: {run.stderr.decode().strip()}")
    print(f"{read} files of {size} bytes read, {refused} refused")
    return 1 if refused or not read else 0


if __name__ == "__main__":
    sys.exit(main())
