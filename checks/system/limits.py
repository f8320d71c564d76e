#!/usr/bin/env python3
"""Gives isort too little memory, and sees that it says so and changes nothing.

    checks/system/limits.py PROGRAM [MEGABYTES]

PROGRAM is the built isort. It lists, checks, prints and rewrites a file of so many megabytes (10) under limits of its
address space: from the least under which it prints its help, in steps of 64 kB, up to the least under which it does what it
has to. Under each limit it either says R5 with status 1, or does exactly what it does with all memory. At R5 nothing but
whole lines of the listing was written, and the file is as it was. A line tells each difference, and for each task how many
limits were tried. The status is 1 where one differs."""

import argparse
import os
import resource
import subprocess
import sys
import tempfile
from pathlib import Path

STEP = 64 * 1024
MOST = 4 << 30

# What the file begins with, which is not sorted, and what it has again and again.
HEAD = b"""import sys, os  # both
from basket import (till as t,
    Cart)
"""
BODY = b"""

def price(cart):
    # The price of all that is in the cart.
    return sum(item.price for item in cart) + len(str({"cart": "empty"}))
"""

# A status, what was written to both outputs, and the file after it.
Answer = tuple[int, bytes, bytes, bytes]


def run(words: list[str], limit: int) -> tuple[int, bytes, bytes]:
    def lower() -> None:
        resource.setrlimit(resource.RLIMIT_AS, (limit, limit))

    try:
        done = subprocess.run(words, capture_output=True, preexec_fn=lower)
    except (OSError, subprocess.SubprocessError):
        return -1, b"", b""
    return done.returncode, done.stdout, done.stderr


def least(works, low: int, high: int) -> int:
    """The least limit, up to a step, that works: it doesn't at the low one, and does at the high one."""
    while high - low > STEP:
        middle = (low + high) // 2
        low, high = (low, middle) if works(middle) else (middle, high)
    return high


def main() -> int:
    parser = argparse.ArgumentParser(usage=__doc__)
    parser.add_argument("program", type=os.path.abspath)
    parser.add_argument("megabytes", type=int, nargs="?", default=10)
    given = parser.parse_args()
    program, size = given.program, given.megabytes
    text = HEAD + BODY * (size * 1_000_000 // len(BODY))
    differ = 0
    with tempfile.TemporaryDirectory() as folder:
        os.chdir(folder)
        path = Path("a.py")

        def answer(words: list[str], limit: int) -> Answer:
            path.write_bytes(text)
            return *run([program, *words, "a.py"], limit), path.read_bytes()

        start = least(lambda limit: run([program, "--help"], limit)[0] == 0, 0, MOST)
        for words in (["--identify"], ["-c"], ["-d"], []):
            name = " ".join(words) or "rewrite"
            wanted = answer(words, MOST)
            if wanted[0] < 0 or b"R5" in wanted[2]:
                print(f"{name}: {wanted[0]} {wanted[2]!r} with all memory")
                return 1
            enough = least(lambda limit: answer(words, limit) == wanted, start - STEP, MOST)
            tried = refused = 0
            for limit in range(start, enough + 8 * STEP, STEP):
                got = answer(words, limit)
                tried += 1
                if got == wanted:
                    continue
                status, out, err, after = got
                is_listing = words == ["--identify"]
                is_prefix = out == b"" or is_listing and wanted[1].startswith(out)
                if status == 1 and err == b"isort: a.py: R5 out of memory\n" and is_prefix and after == text:
                    refused += 1
                else:
                    differ += 1
                    print(f"{name}: at {limit // 1024} kB: status {status}, {err!r}, {len(out)} bytes out, file {'same' if after == text else 'changed'}")
            print(f"{name}: {tried} limits from {start // 1024} kB, {refused} refused, done from {enough // 1024} kB")
    print("no limit differs" if differ == 0 else f"{differ} limits differ")
    return 1 if differ else 0


if __name__ == "__main__":
    sys.exit(main())
