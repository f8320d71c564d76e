#!/usr/bin/env python3
"""Measures how fast isort lists unusual texts, and how its time grows with their size.

    bench/lex.py PROGRAM [OTHER] [--text FILE] [--size BYTES] [--rounds N]

PROGRAM and OTHER are built isorts; OTHER may be left out. Each text is made of one short part again and again, up to a
quarter, a half and the whole of BYTES (40,000,000). With `--text` the first row is FILE, such as a text of Python files.
The passes are run in turn, N times (5), and the least CPU time of each counts: `PROGRAM --identify -`, `OTHER --identify
-`, and `wc -m` for the whole size. A Markdown table is printed. The last column is the time of the whole size over four
times that of a quarter: about 1 where time grows with the size alone."""

import argparse
import os
import subprocess
import sys
import tempfile
from pathlib import Path

NESTED = b"(" * 200 + b")" * 200

# What a text is called, its part, and what stands before and after all parts.
TEXTS = {
    "LF": (b"\n", b"", b""),
    "CR": (b"\r", b"", b""),
    "CR LF": (b"\r\n", b"", b""),
    "operators": (b"+", b"", b"\n"),
    "200 brackets deep": (NESTED, b"", b"\n"),
    "`;`": (b";", b"", b"\n"),
    "`import a`": (b"import a\n", b"", b""),
    "one `import a, b, ..`": (b"a, ", b"import ", b"a\n"),
    "empty comments": (b"#\n", b"", b""),
    "comments": (b"# a comment of some words, as it may stand in a file\n", b"", b""),
    "one long string": (b"some words of a long string\n", b'"""', b'"""\n'),
    "short strings": (b"'some words', ", b"", b"\n"),
    "strings with a field": (b"f'some {words}', ", b"", b"\n"),
    "one string of fields": (b"{x}", b"f'", b"'\n"),
    "one string with a long field": (b"words + ", b"f'{", b"words}'\n"),
    "100 fields deep": (b'f"{' * 100 + b'}"' * 100 + b", ", b"", b"\n"),
    "LF in brackets": (b"\n", b"(", b")\n"),
    "joins": (b"\\\n", b"", b"\n"),
    "words of other scripts": ("λόγος ".encode(), b"", b"\n"),
}


def spelled(part: bytes, before: bytes, after: bytes, size: int) -> bytes:
    return before + part * max(1, (size - len(before) - len(after)) // len(part)) + after


def seconds(command: list[str], path: Path) -> float:
    """The CPU seconds of one process that reads the file."""
    with path.open("rb") as text:
        process = subprocess.Popen(command, stdin=text, stdout=subprocess.DEVNULL, stderr=subprocess.DEVNULL)
        _, status, used = os.wait4(process.pid, 0)
    process.returncode = os.waitstatus_to_exitcode(status)
    if process.returncode != 0:
        sys.exit(f"{command[0]} ended with status {process.returncode} on {path.name}")
    return used.ru_utime + used.ru_stime


def least(commands: dict[str, list[str]], path: Path, rounds: int) -> dict[str, float]:
    times = {name: float("inf") for name in commands}
    for _ in range(rounds):
        for name, command in commands.items():
            times[name] = min(times[name], seconds(command, path))
    return times


def main() -> int:
    parser = argparse.ArgumentParser(usage=__doc__)
    parser.add_argument("program")
    parser.add_argument("other", nargs="?")
    parser.add_argument("--text")
    parser.add_argument("--size", type=int, default=40_000_000)
    parser.add_argument("--rounds", type=int, default=5)
    options = parser.parse_args()
    isorts = {"isort": [options.program, "--identify", "-"]}
    if options.other:
        isorts["other"] = [options.other, "--identify", "-"]
    passes = isorts | {"wc -m": ["wc", "-m"]}
    print(f"| Text | {' | '.join(f'{name}, s' for name in passes)} | growth |")
    print("|---" * (len(passes) + 2) + "|")
    with tempfile.TemporaryDirectory() as work:
        path = Path(work) / "text"
        if options.text:
            times = least(passes, Path(options.text), options.rounds)
            print(f"| {Path(options.text).name} | {' | '.join(f'{s:.3f}' for s in times.values())} | |", flush=True)
        for name, (part, before, after) in TEXTS.items():
            own = []
            for share in (4, 2, 1):
                path.write_bytes(spelled(part, before, after, options.size // share))
                times = least(passes if share == 1 else {"isort": isorts["isort"]}, path, options.rounds)
                own.append(times["isort"])
            told = " | ".join(f"{s:.3f}" for s in times.values())
            print(f"| {name} | {told} | {own[2] / own[0] / 4:.2f} |", flush=True)
    return 0


if __name__ == "__main__":
    sys.exit(main())
