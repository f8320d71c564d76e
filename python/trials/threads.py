"""Makes calls in eight threads at once, and sees that each gives what it gives alone.

    threads.py FOLDER.. [--every N]

Each thread sorts, checks and lists each `*.py`, or every N-th, below the folders, in an order of its own. Prints a line
for each answer that differs, how long one thread took and how long eight, and how many answers agreed."""

import argparse
import random
import sys
import threading
import time
from pathlib import Path

import fihroste

THREADS = 8


def answers(text):
    """What the calls say of a text."""
    said = []
    for call in (fihroste.code, fihroste.check_code, lambda text: list(fihroste.find_imports_in_code(text))):
        try:
            said.append(call(text))
        except fihroste.exceptions.ISortError as error:
            said.append(repr(error))
    return said


def work(number, texts, alone, differing):
    order = list(range(len(texts)))
    random.Random(number).shuffle(order)
    for place in order:
        if answers(texts[place]) != alone[place]:
            differing.append(place)


def main():
    parser = argparse.ArgumentParser()
    parser.add_argument("folders", nargs="+")
    parser.add_argument("--every", type=int, default=1)
    words = parser.parse_args()
    files = [path for folder in words.folders for path in sorted(Path(folder).rglob("*.py")) if path.is_file()]
    texts = [path.read_bytes().decode("utf-8", "surrogateescape") for path in files[:: words.every]]
    begun = time.perf_counter()
    alone = [answers(text) for text in texts]
    one = time.perf_counter() - begun
    differing = []
    threads = [threading.Thread(target=work, args=(number, texts, alone, differing)) for number in range(THREADS)]
    begun = time.perf_counter()
    for thread in threads:
        thread.start()
    for thread in threads:
        thread.join()
    all_at_once = time.perf_counter() - begun
    for place in differing:
        print(f"{files[place * words.every]}: other answers in threads")
    print(f"{len(texts)} files: {one:.2f} s in one thread, {all_at_once:.2f} s {THREADS} times in {THREADS} threads")
    print(f"{THREADS * len(texts) - len(differing)} passed, {len(differing)} failed")
    return 1 if differing else 0


if __name__ == "__main__":
    sys.exit(main())
