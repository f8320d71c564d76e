#!/usr/bin/env python3
"""Measures how fast isort lists imports, and compares it with three other passes over the same bytes. Then it measures how
much memory isort takes for a large text.

    bench/find.py PROGRAM FOLDER [ROUNDS]

PROGRAM is the built isort. The corpus is every `*.py` file below FOLDER, except in `site-packages`, that is UTF-8
without a byte order mark, ends in a line feed, is listed by isort without a fault, and is accepted by `ast.parse`. It is
taken twice: the files apart, one process for each, and concatenated, from the first again as often as needed, to one
text of about 40 MB. The passes are

- `isort --identify -`;
- `wc -m`, which counts characters;
- a loop over bytes in C, which counts line feeds;
- Python's `ast.parse` with a walk that collects the imports, in one process.

Each is run ROUNDS times (3), and the best time counts. Times are wall clock and include the start of the processes,
except for `ast`, which is timed inside its process. A Markdown table is printed, and after it the peak memory of one
process that lists 400 MB: the one text ten times over, from a pipe. It is read from `/proc` (Linux)."""

import argparse
import ast
import subprocess
import sys
import tempfile
import time
import warnings
from pathlib import Path

SIZE = 40_000_000

BYTE_LOOP = r"""
#include <stdio.h>
int main(void) {
    static unsigned char buffer[65536];
    size_t n, lines = 0;
    while ((n = fread(buffer, 1, sizeof buffer, stdin)) > 0)
        for (size_t i = 0; i < n; i++)
            if (buffer[i] == '\n') lines++;
    printf("%zu\n", lines);
    return 0;
}
"""


def corpus(program: str, folder: str) -> list[bytes]:
    texts = []
    for path in sorted(Path(folder).rglob("*.py")):
        if "site-packages" in path.parts:
            continue
        text = path.read_bytes()
        try:
            text.decode("utf-8")
        except UnicodeDecodeError:
            continue
        if text.startswith(b"\xef\xbb\xbf") or not text.endswith(b"\n"):
            continue
        run = subprocess.run([program, "--identify", "-"], input=text, capture_output=True)
        if run.returncode == 0 and is_parsed(text):
            texts.append(text)
    return texts


def is_parsed(text: bytes) -> bool:
    try:
        ast.parse(text)
    except (SyntaxError, ValueError, RecursionError):
        return False
    return True


def whole(texts: list[bytes]) -> bytes:
    parts, size = [], 0
    while size < SIZE:
        parts.append(texts[len(parts) % len(texts)])
        size += len(parts[-1])
    return b"".join(parts)


def run_over(command: list[str], texts: list[bytes], folder: str, rounds: int) -> float:
    """The seconds of one process for each text, each read from a file."""
    paths = []
    for number, text in enumerate(texts):
        path = Path(folder) / str(number)
        path.write_bytes(text)
        paths.append(path)
    best = float("inf")
    for _ in range(rounds):
        begun = time.perf_counter()
        for path in paths:
            with path.open("rb") as text:
                subprocess.run(command, stdin=text, stdout=subprocess.DEVNULL, check=True)
        best = min(best, time.perf_counter() - begun)
    for path in paths:
        path.unlink()
    return best


def walk_over(texts: list[bytes], rounds: int) -> float:
    """The seconds of `ast.parse` and a walk over the trees of all texts."""
    best = float("inf")
    for _ in range(rounds):
        begun = time.perf_counter()
        for text in texts:
            tree = ast.parse(text)
            found = [node for node in ast.walk(tree) if isinstance(node, (ast.Import, ast.ImportFrom))]
            del tree, found
        best = min(best, time.perf_counter() - begun)
    return best


def peak_memory(command: list[str], text: bytes, times: int) -> int:
    """The most kilobytes that one process holds, which is fed the text so many times through a pipe."""
    process = subprocess.Popen(command, stdin=subprocess.PIPE, stdout=subprocess.DEVNULL)
    for _ in range(times):
        process.stdin.write(text)
    process.stdin.flush()
    status = Path(f"/proc/{process.pid}/status").read_text()
    process.stdin.close()
    if process.wait() != 0:
        sys.exit(f"{command[0]} ended with status {process.returncode}")
    return next(int(line.split()[1]) for line in status.splitlines() if line.startswith("VmHWM:"))


def main() -> int:
    parser = argparse.ArgumentParser(usage=__doc__)
    parser.add_argument("program")
    parser.add_argument("folder")
    parser.add_argument("rounds", type=int, nargs="?", default=3)
    given = parser.parse_args()
    program, folder, rounds = given.program, given.folder, given.rounds
    warnings.simplefilter("ignore")
    texts = corpus(program, folder)
    sets = {"one text": [whole(texts)], f"{len(texts)} files": texts}
    print("| Corpus | Bytes | Pass | Seconds | MB/s | isort's time over its |")
    print("|---|---|---|---|---|---|")
    with tempfile.TemporaryDirectory() as work:
        source = Path(work) / "bytes.c"
        source.write_text(BYTE_LOOP)
        loop = str(Path(work) / "bytes")
        subprocess.run(["cc", "-O2", "-o", loop, str(source)], check=True)
        for name, parts in sets.items():
            size = sum(map(len, parts))
            times = {
                "isort --identify -": run_over([program, "--identify", "-"], parts, work, rounds),
                "wc -m": run_over(["wc", "-m"], parts, work, rounds),
                "a loop over bytes": run_over([loop], parts, work, rounds),
                "ast.parse and a walk": walk_over(parts, 1 if len(parts) == 1 else rounds),
            }
            own = times["isort --identify -"]
            for what, seconds in times.items():
                print(f"| {name} | {size} | {what} | {seconds:.2f} | {size / seconds / 1e6:.0f} | {own / seconds:.2f} |")
    text = sets["one text"][0]
    peak = peak_memory([program, "--identify", "-"], text, 10)
    print(f"\n{10 * len(text)} bytes are listed with a peak of {peak / 1e3:.1f} MB.")
    return 0


if __name__ == "__main__":
    sys.exit(main())
