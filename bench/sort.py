#!/usr/bin/env python3
"""Measures how fast isort sorts texts that are one block.

    bench/sort.py PROGRAM [ROUNDS]

PROGRAM is the built isort. The texts have 1,000, 10,000 and 100,000 import lines, in an order that a fixed seed shuffles:
a third of them `import MODULE`, the others `from MODULE import NAME` with ten names for each module. Each is sorted under
the default settings, and with 64 own sections of 20 names each, which hold two thirds of the modules. The program reads
the text from standard input, and writes the sorted text, which goes nowhere.

Each text is sorted ROUNDS times (15) under each of the settings in turn, and the least CPU time counts, that of the start
of the process in it. The time of the program on an empty text under the same settings is taken off. A Markdown table is
printed, with the time per line and per doubling of lines, which n log n keeps the same, and with how many times as long
as under the default settings it takes."""

import argparse
import json
import math
import os
import random
import subprocess
import sys
import tempfile
from pathlib import Path


def text_of(count: int) -> bytes:
    """Import lines that are one block."""
    lines = []
    for number in range(count):
        if number % 3 == 0:
            lines.append(f"import package{number % 97}.module{number}")
        else:
            lines.append(f"from package{number % 89}.part{number // 10} import name{number}")
    random.Random(1).shuffle(lines)
    return "".join(line + "\n" for line in lines).encode()


def own_sections() -> str:
    """The settings with 64 own sections of 20 names each, one of which is a package of the texts."""
    names = [f"Own{number}" for number in range(64)]
    lines = [f"sections = {json.dumps(names)}"]
    for number, name in enumerate(names):
        modules = [f"package{number}", *(f"own{number}.part{part}" for part in range(19))]
        lines.append(f"known_{name.lower()} = {json.dumps(modules)}")
    return "".join(f"{line}\n" for line in ["[tool.isort]", *lines])


def seconds(words: list[str], path: Path) -> float:
    """The CPU time of one run."""
    with path.open("rb") as text:
        run = subprocess.Popen(words, stdin=text, stdout=subprocess.DEVNULL)
        _, status, used = os.wait4(run.pid, 0)
    run.returncode = os.waitstatus_to_exitcode(status)
    if run.returncode != 0:
        sys.exit(f"bench/sort.py: {' '.join(words)} gave {run.returncode}")
    return used.ru_utime + used.ru_stime


def least(commands: list[list[str]], path: Path, rounds: int) -> list[float]:
    """The least CPU time of each command, run in turn with the others."""
    best = [math.inf] * len(commands)
    for _ in range(rounds):
        best = [min(found, seconds(words, path)) for found, words in zip(best, commands)]
    return best


def main() -> int:
    parser = argparse.ArgumentParser(usage=__doc__)
    parser.add_argument("program")
    parser.add_argument("rounds", type=int, nargs="?", default=15)
    given = parser.parse_args()
    program, rounds = str(Path(given.program).resolve()), given.rounds
    with tempfile.TemporaryDirectory() as work:
        folder = Path(work)
        path = folder / "text.py"
        commands = []
        for name, table in (("none", ""), ("64", own_sections())):
            settings = folder / f"{name}.toml"
            settings.write_text(table)
            commands.append([program, "--settings-file", str(settings), "-"])
        path.write_bytes(b"")
        starts = least(commands, path, rounds)
        print("| Import lines | Bytes | Own sections | Seconds | Nanoseconds a line | and a doubling | over none |")
        print("|---|---|---|---|---|---|---|")
        for count in (1_000, 10_000, 100_000):
            text = text_of(count)
            path.write_bytes(text)
            taken = [time - start for time, start in zip(least(commands, path, rounds), starts)]
            for own, time in zip(("none", "64"), taken):
                line = time / count * 1e9
                doubling = line / math.log2(count)
                print(f"| {count} | {len(text)} | {own} | {time:.4f} | {line:.0f} | {doubling:.0f} | {time / taken[0]:.2f} |")
    return 0


if __name__ == "__main__":
    sys.exit(main())
