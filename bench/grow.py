#!/usr/bin/env python3
"""Measures how the time of isort grows with a text, or with the lists of its settings.

    bench/grow.py PROGRAM [NAME..] [--rounds N] [--seconds S]

PROGRAM is the built isort. Each text, or each whose name holds a NAME, is made of n parts. n begins at 500 and is doubled
until sorting takes S (0.1) seconds, and then n, 2n and 4n parts are sorted. Each is sorted N times (3) from standard input,
under settings of its own where it has some, and the least CPU time counts. A few texts are listed in place of sorting. The
time on an empty text is taken off; the time that reading the settings takes is not.

A row of a Markdown table is printed for each text: n, the bytes of text and settings at 4n, the three times, and the
exponent e for which 4n parts take 4^e times as long as n. It is 1 where time grows with the size alone, and 2 where
twice the parts take four times as long. The status is 1 if one exponent is above 1.4,
which n log n and a table that outgrows the cache stay below."""

import argparse
import functools
import itertools
import json
import math
import os
import random
import subprocess
import sys
import tempfile
from collections.abc import Callable
from pathlib import Path
from typing import NamedTuple

MOST = 1.4
LARGEST = 100_000_000
OWN = '[tool.isort]\nsections = ["FUTURE", "Own"]\nknown_own = %s\n'


# The hash of the toolchain's maps, where they are given no other: 16 bytes at a time are multiplied as two numbers, and the
# halves of the product are joined by xor. It begins with a fixed seed, so names can be chosen that have one hash.
SEED, MULTIPLIER, WORD = 0x243F6A8885A308D3, 0x9E3779B97F4A7C15, (1 << 64) - 1
# Its state after the number of an enum's first variant.
FIRST_VARIANT = SEED * (MULTIPLIER ^ 16) & WORD ^ SEED * (MULTIPLIER ^ 16) >> 64


class Growing(NamedTuple):
    """A text of n parts, settings for it, and the options to list it by where it isn't sorted."""

    text: Callable[[int], str]
    settings: Callable[[int], str] = lambda n: ""
    listing: tuple[str, ...] = ()


def shuffled(lines: list[str]) -> str:
    random.Random(1).shuffle(lines)
    return "".join(lines)


@functools.cache
def common_start(state: int) -> str:
    """24 letters and digits: the hash is the same of all names of 32 that begin with them, after this state of the hash.

    The last eight are its state after the first 16, so the next product is 0 whatever the name's last eight are."""
    for number in itertools.count():
        start = f"a{number:015}".encode()
        first, second = (int.from_bytes(start[place : place + 8], "little") for place in (0, 8))
        product = (first ^ (state + 32) & WORD) * (second ^ MULTIPLIER)
        after = (product & WORD ^ product >> 64).to_bytes(8, "little")
        if after.isalnum():
            return (start + after).decode()
    raise AssertionError


def colliding(n: int, state: int = SEED) -> list[str]:
    """n names with one hash after this state."""
    return [f"{common_start(state)}{i:08}" for i in range(n)]


def imports(n: int) -> str:
    return shuffled([f"import module{i}\n" for i in range(n)])


def modules(n: int) -> str:
    return json.dumps([f"module{i}" for i in range(n)])


def table(key: str) -> Callable[[int], str]:
    """A table with a list of n modules under the key."""
    return lambda n: f"[tool.isort]\n{key} = {modules(n)}\n"


def own(n: int) -> str:
    """A table with an own section of one short module."""
    return OWN % '["b"]'


def own_lists(n: int) -> str:
    """A table with 64 own sections, and n modules in their lists."""
    lines = ["[tool.isort]", f"sections = {json.dumps([f'Own{i}' for i in range(64)])}"]
    lines += [f"known_own{i} = {json.dumps([f'module{j}' for j in range(i, n, 64)])}" for i in range(64)]
    return "\n".join(lines) + "\n"


def two_lists(n: int) -> str:
    """A table with two lists of n modules, of which the first has none of the text's."""
    others = json.dumps([f"other{i}" for i in range(n)])
    return f"[tool.isort]\nknown_local_folder = {others}\nknown_third_party = {modules(n)}\n"


TEXTS = {
    "a module of n names": Growing(lambda n: f"import {'a.' * n}a\n"),
    "a module of n names, an own section": Growing(lambda n: f"import {'a.' * n}a\n", own),
    "a module of n names, known modules": Growing(lambda n: f"import {'a.' * n}a\n", lambda n: table("known_first_party")(100)),
    "n modules of a few names": Growing(lambda n: shuffled([f"import a{i}.b.c.d\n" for i in range(n)]), own),
    "n modules": Growing(imports),
    "n modules in a known list": Growing(imports, table("known_first_party")),
    "n modules in the second known list": Growing(imports, two_lists),
    "n modules in `known_standard_library`": Growing(imports, table("known_standard_library")),
    "n modules in the list of an own section": Growing(imports, lambda n: OWN % modules(n)),
    "n modules in the lists of 64 own sections": Growing(imports, own_lists),
    "n modules whose hashes would collide": Growing(
        lambda n: shuffled([f"import {name}\n" for name in colliding(n, FIRST_VARIANT)])
    ),
    "n comments whose hashes would collide": Growing(lambda n: "".join(f"import a  # {name}\n" for name in colliding(n))),
    "n modules whose hashes would collide, listed once each": Growing(
        lambda n: shuffled([f"import {name}\n" for name in colliding(n)]), listing=("--identify", "--unique")
    ),
    "one statement n times": Growing(lambda n: "import a\n" * n),
    "n statements of one module": Growing(lambda n: shuffled([f"from a import b{i}\n" for i in range(n)])),
    "n names in brackets": Growing(lambda n: f"from a import ({', '.join(f'b{i}' for i in range(n))})\n"),
    "n aliases of a module": Growing(lambda n: shuffled([f"import a as b{i}\n" for i in range(n)])),
    "n aliases of a name": Growing(lambda n: f"from a import {', '.join(f'b as c{i}' for i in range(n))}\n"),
    "n leading dots": Growing(lambda n: f"from {'.' * n} import a\n"),
    "numbers of n digits": Growing(lambda n: f"import a{'1' * n}2\nimport a{'1' * n}\n"),
    "n comments above a statement": Growing(lambda n: "import b\n" + "# c\n" * n + "import a\n"),
    "n comments in brackets": Growing(lambda n: "from a import (\n" + "".join(f"    b{i},  # c{i}\n" for i in range(n)) + ")\n"),
    "n statements with one comment each": Growing(lambda n: "".join(f"from a import b{i}  # c{i}\n" for i in range(n))),
    "n blocks": Growing(lambda n: "import b\nimport a\nx = 1\n" * n),
    "n blocks in branches": Growing(lambda n: "if x:\n    import b\n    import a\n" * n),
    "n regions that are off": Growing(lambda n: "import b\n# isort: off\nimport a\n# isort: on\n" * n),
    "n statements with `;`": Growing(lambda n: "import b; import a\n" * n),
    "n blank lines": Growing(lambda n: "import b\n" + "\n" * n + "import a\n"),
    "n joins": Growing(lambda n: f"import b, {chr(92)}{chr(10)}{f'{chr(92)}{chr(10)}' * n}a\n"),
    "n brackets, 200 deep": Growing(lambda n: f"import b\nimport a\nx = {('(' * 200 + ')' * 200) * (n // 200 + 1)}\n"),
    "n fields": Growing(lambda n: f"import b\nimport a\nx = f'{'{x}' * n}'\n"),
    "n strings with a field": Growing(lambda n: "import b\nimport a\nx = [\n" + "    f'some {words}',\n" * n + "]\n"),
    "a string of n lines": Growing(lambda n: 'import b\nimport a\n"""\n' + "import c\n" * n + '"""\n'),
}


def seconds(words: list[str], path: Path) -> float:
    """The CPU time of one run."""
    with path.open("rb") as text:
        run = subprocess.Popen(words, stdin=text, stdout=subprocess.DEVNULL)
        _, status, used = os.wait4(run.pid, 0)
    run.returncode = os.waitstatus_to_exitcode(status)
    if run.returncode != 0:
        sys.exit(f"bench/grow.py: {' '.join(words)} gave {run.returncode}")
    return used.ru_utime + used.ru_stime


class Bench:
    """Sorts texts with one program, in one folder."""

    def __init__(self, program: str, folder: Path, rounds: int) -> None:
        self.text, self.settings, self.rounds = folder / "text.py", folder / "pyproject.toml", rounds
        self.program = program
        empty = Growing(lambda n: "")
        self.write(empty, 0)
        self.start = min(seconds(self.words(empty), self.text) for _ in range(10))

    def words(self, growing: Growing) -> list[str]:
        """The command that sorts the text, or lists it."""
        options = growing.listing or ("--settings-file", str(self.settings))
        return [self.program, *options, "-"]

    def write(self, growing: Growing, n: int) -> int:
        """Writes the text of n parts and its settings, and answers how many bytes both have."""
        return self.text.write_text(growing.text(n)) + self.settings.write_text(growing.settings(n))

    def sort(self, growing: Growing, n: int, rounds: int) -> tuple[int, float]:
        """The bytes of the text of n parts and its settings, and the seconds that sorting it takes."""
        size = self.write(growing, n)
        return size, min(seconds(self.words(growing), self.text) for _ in range(rounds)) - self.start

    def least_count(self, growing: Growing, enough: float) -> int:
        """The first n, doubled again and again, for which sorting takes long enough."""
        n = 500
        while True:
            size, taken = self.sort(growing, n, 1)
            if taken >= enough or 8 * size > LARGEST:
                return n
            n *= 2

    def row(self, name: str, growing: Growing, enough: float) -> float:
        """Prints the row of a text, and answers its exponent."""
        n = self.least_count(growing, enough)
        runs = [self.sort(growing, n * times, self.rounds) for times in (1, 2, 4)]
        taken = [max(time, 1e-6) for _, time in runs]
        exponent = math.log(taken[2] / taken[0], 4)
        told = " | ".join(f"{time:.3f}" for time in taken)
        print(f"| {name} | {n} | {runs[2][0]} | {told} | {exponent:.2f} |", flush=True)
        return exponent


def main() -> int:
    parser = argparse.ArgumentParser(usage=__doc__)
    parser.add_argument("program")
    parser.add_argument("names", nargs="*", default=[])
    parser.add_argument("--rounds", type=int, default=3)
    parser.add_argument("--seconds", type=float, default=0.1)
    options = parser.parse_intermixed_args()
    chosen = {
        name: growing
        for name, growing in TEXTS.items()
        if not options.names or any(word in name for word in options.names)
    }
    if not chosen:
        sys.exit(f"bench/grow.py: no text is named {' or '.join(options.names)}")
    print("| Text | n | bytes at 4n | s at n | s at 2n | s at 4n | exponent |")
    print("|---|---|---|---|---|---|---|")
    with tempfile.TemporaryDirectory() as work:
        bench = Bench(str(Path(options.program).resolve()), Path(work), options.rounds)
        exponents = [bench.row(name, growing, options.seconds) for name, growing in chosen.items()]
    above = sum(exponent > MOST for exponent in exponents)
    print(f"\n{len(exponents)} texts, {above} of them with an exponent above {MOST}")
    return 1 if above else 0


if __name__ == "__main__":
    sys.exit(main())
