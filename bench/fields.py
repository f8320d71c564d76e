#!/usr/bin/env python3
"""Measures how fast isort lists statements full of strings with fields, beside the same statements without them.

    bench/fields.py PROGRAM FOLDER.. [--size BYTES] [--rounds N] [--cpu N]

PROGRAM is the built isort. The text is made of all statements in `*.py` files below the folders that have an f-string, from the
first token to the line end, again and again up to BYTES (40,000,000). In the other text the `f` of each prefix is taken away.
Both are listed in turn, N times (25), on one processor if it is named, and the least CPU time counts. A Markdown table is
printed, with the number of strings and how many of them stand in each million bytes."""

import argparse
import io
import os
import re
import subprocess
import sys
import tempfile
import tokenize
from collections.abc import Iterator
from pathlib import Path

PREFIX = re.compile(r"(?i:f|fr|rf)(?=['\"])")
NO_CODE = (tokenize.NL, tokenize.COMMENT, tokenize.INDENT, tokenize.DEDENT)


def statements(source: str) -> Iterator[tuple[str, str, int]]:
    """Each logical line with an f-string: as it stands, without the prefixes, and how many such strings it has."""
    lines = source.splitlines(keepends=True)
    first, strings = None, []
    for token in tokenize.generate_tokens(io.StringIO(source).readline):
        if token.type in NO_CODE:
            continue
        first = first or token.start[0]
        if token.type == tokenize.STRING and PREFIX.match(token.string):
            strings.append(token)
        if token.type == tokenize.NEWLINE:
            own = lines[first - 1 : token.end[0]]
            if strings and own[-1].endswith("\n"):
                plain = list(own)
                for row, column in sorted((string.start for string in strings), reverse=True):
                    line = plain[row - first]
                    prefix = PREFIX.match(line, column).group()
                    plain[row - first] = line[:column] + re.sub("[fF]", "", prefix) + line[column + len(prefix) :]
                yield "".join(own), "".join(plain), len(strings)
            first, strings = None, []


def texts(folders: list[str]) -> tuple[bytes, bytes, int]:
    with_fields, without, strings = [], [], 0
    for path in sorted(path for folder in folders for path in Path(folder).rglob("*.py")):
        try:
            for own, plain, count in statements(path.read_text("utf-8")):
                with_fields.append(own)
                without.append(plain)
                strings += count
        except (SyntaxError, UnicodeDecodeError, tokenize.TokenError):
            continue
    return "".join(with_fields).encode(), "".join(without).encode(), strings


def seconds(program: str, path: Path, cpu: int | None) -> float:
    """The CPU seconds of one listing."""
    with path.open("rb") as text:
        pinned = (lambda: os.sched_setaffinity(0, {cpu})) if cpu is not None else None
        process = subprocess.Popen([program, "--identify", "-"], stdin=text, stdout=subprocess.DEVNULL, preexec_fn=pinned)
        _, status, used = os.wait4(process.pid, 0)
    process.returncode = os.waitstatus_to_exitcode(status)
    if process.returncode != 0:
        sys.exit(f"{program} ended with status {process.returncode} on {path.name}")
    return used.ru_utime + used.ru_stime


def main() -> int:
    parser = argparse.ArgumentParser(usage=__doc__)
    parser.add_argument("program")
    parser.add_argument("folders", nargs="+")
    parser.add_argument("--size", type=int, default=40_000_000)
    parser.add_argument("--rounds", type=int, default=25)
    parser.add_argument("--cpu", type=int)
    options = parser.parse_args()
    own, plain, strings = texts(options.folders)
    if not strings:
        sys.exit("no f-string was found")
    times = max(1, options.size // len(own))
    with tempfile.TemporaryDirectory() as work:
        paths = [Path(work) / name for name in ("with", "without")]
        for path, text in zip(paths, (own, plain)):
            path.write_bytes(text * times)
        least = [float("inf")] * 2
        for _ in range(options.rounds):
            least = [min(best, seconds(options.program, path, options.cpu)) for best, path in zip(least, paths)]
    print("| Strings | in a million bytes | with `f`, s | without, s | ratio |")
    print("|---|---|---|---|---|")
    print(f"| {strings * times} | {strings * 10**6 // len(own)} | {least[0]:.3f} | {least[1]:.3f} | {least[0] / least[1]:.2f} |")
    return 0


if __name__ == "__main__":
    sys.exit(main())
