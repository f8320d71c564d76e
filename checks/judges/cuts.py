#!/usr/bin/env python3
"""Cuts real files into pieces, truncates them and changes bytes, and sees that isort answers as it should.

    checks/judges/cuts.py PROGRAM FOLDER.. [--every N] [--seed N]

PROGRAM is the built isort. The files are all `*.py` below the folders, or every N-th. For each file:

- it is sent through a pipe in pieces of 1, 2, 3, 7, 4095, 4096, 32767 and 32768 bytes and of random sizes. The listing, the
  sorted text and the fault are those of the whole file. Up to 4096 bytes each read gets one piece;
- each 97th prefix of it, and as many copies of it with one byte changed, are listed and sorted. Both answer status 0, or
  status 1 with the same fault, in words that docs/MESSAGES.md has; and what was sorted is sorted.

Files of more than 40,000 bytes are cut to that length first. A line tells each difference. The last line counts the files,
the runs, and the files that differ. The status is 1 where one differs, or there is none."""

import argparse
import multiprocessing
import os
import random
import re
import subprocess
import sys
import tempfile
from pathlib import Path

LONGEST = 40_000
STEP = 97
PIECES = (1, 2, 3, 7, 4095, 4096, 32767, 32768)
PIPE_BUF = 4096

# A status, and what was written to both outputs.
Answer = tuple[int, bytes, bytes]


def known_faults() -> set[bytes]:
    """The words of each fault, as the page of messages has them."""
    page = (Path(__file__).resolve().parents[2] / "docs/MESSAGES.md").read_text()
    return {words.encode() for words in re.findall(r"`FILE:LINE: (F\d+ [^`]+)`", page)}


class Runs:
    """Runs the program over one file, and counts."""

    def __init__(self, program: str, faults: set[bytes]):
        self.program = program
        self.faults = faults
        self.count = 0
        self.told: list[str] = []

    def whole(self, words: list[str], text: bytes) -> Answer:
        self.count += 1
        run = subprocess.run([self.program, *words, "-"], input=text, capture_output=True)
        return run.returncode, run.stdout, run.stderr

    def in_pieces(self, words: list[str], pieces: list[bytes]) -> Answer:
        """In packets, one for each piece, where the pieces are small enough for them."""
        self.count += 1
        is_small = all(len(piece) <= PIPE_BUF for piece in pieces)
        reader, writer = os.pipe2(os.O_DIRECT if is_small else 0)
        with tempfile.TemporaryFile() as out, tempfile.TemporaryFile() as err:
            run = subprocess.Popen([self.program, *words, "-"], stdin=reader, stdout=out, stderr=err)
            os.close(reader)
            try:
                for piece in pieces:
                    while piece:
                        piece = piece[os.write(writer, piece) :]
            except BrokenPipeError:
                pass
            os.close(writer)
            status = run.wait()
            out.seek(0)
            err.seek(0)
            return status, out.read(), err.read()

    def is_sound(self, answer: Answer) -> bool:
        """Whether the status and the message are such as the documents have."""
        status, _, message = answer
        if status == 0:
            return message == b""
        fault = re.fullmatch(rb"-:\d+: (F\d+ .+)\n", message)
        return status == 1 and fault is not None and fault[1] in self.faults

    def tell(self, what: str) -> None:
        if len(self.told) < 5:
            self.told.append(what)

    def try_pieces(self, text: bytes, seed: str) -> None:
        wanted = [self.whole(["--identify"], text), self.whole([], text)]
        at_random = random.Random(seed)
        cuts = [(str(size), [text[i : i + size] for i in range(0, len(text), size)]) for size in PIECES]
        places = sorted(at_random.choices(range(len(text) + 1), k=20))
        cuts.append((f"at {places}", [text[i:j] for i, j in zip([0, *places], [*places, len(text)]) if i < j]))
        for name, pieces in cuts:
            # (a pipe of packets holds few, so small pieces of long texts would take long)
            if len(pieces) > 6_000:
                pieces = pieces[:6_000]
                short = b"".join(pieces)
                expected = [self.whole(["--identify"], short), self.whole([], short)]
            else:
                expected = wanted
            for words, want in zip((["--identify"], []), expected):
                if self.in_pieces(words, pieces) != want:
                    self.tell(f"in pieces {name}: {' '.join(words)} differs from the whole text")

    def try_text(self, name: str, text: bytes) -> None:
        listed, sorted_text = self.whole(["--identify"], text), self.whole([], text)
        if not self.is_sound(listed) or not self.is_sound(sorted_text):
            self.tell(f"{name}: status or message: {listed[0]} {listed[2]!r}, {sorted_text[0]} {sorted_text[2]!r}")
        elif listed[0] != sorted_text[0] or listed[2] != sorted_text[2]:
            self.tell(f"{name}: listing says {listed[2]!r}, sorting {sorted_text[2]!r}")
        elif sorted_text[0] != 0 and sorted_text[1] != b"":
            self.tell(f"{name}: something was written of a text that has a fault")
        elif sorted_text[0] == 0 and self.whole(["-c"], sorted_text[1])[0] != 0:
            self.tell(f"{name}: what was sorted is not sorted")


def try_file(job: tuple[str, set[bytes], Path, int]) -> tuple[Path, int, list[str]]:
    program, faults, path, seed = job
    try:
        text = path.read_bytes()[:LONGEST]
    except OSError:
        return path, 0, []
    runs = Runs(program, faults)
    runs.try_pieces(text, f"{seed} {path}")
    at_random = random.Random(f"{seed} {path} bytes")
    for stop in range(0, len(text), STEP):
        runs.try_text(f"the first {stop} bytes", text[:stop])
        place, byte = at_random.randrange(len(text)), at_random.randrange(256)
        changed = text[:place] + bytes([byte]) + text[place + 1 :]
        runs.try_text(f"byte {place} made {byte}", changed)
    return path, runs.count, runs.told


def main() -> int:
    words = argparse.ArgumentParser(usage=__doc__)
    words.add_argument("program")
    words.add_argument("folders", nargs="+")
    words.add_argument("--every", type=int, default=1)
    words.add_argument("--seed", type=int, default=1)
    given = words.parse_args()
    faults = known_faults()
    paths = sorted(path for folder in given.folders for path in Path(folder).rglob("*.py") if path.is_file())
    jobs = [(os.path.abspath(given.program), faults, path, given.seed) for path in paths[:: given.every]]
    count = differ = 0
    with multiprocessing.Pool() as pool:
        for path, runs, told in pool.imap_unordered(try_file, jobs):
            count += runs
            differ += bool(told)
            for what in told:
                print(f"{path}: {what}")
    print(f"{len(jobs)} files, {count} runs: {differ} files differ")
    return 1 if differ or not jobs else 0


if __name__ == "__main__":
    sys.exit(main())
