#!/usr/bin/env python3
"""Measures the Python package beside isort 5, in one run of one Python.

    bench/python.py WHEEL FOLDER [ROUNDS]

WHEEL is the package's, which `python/build` makes. The Python that runs this has isort 5: /usr/bin/python3 of Debian, with
its package `isort`. The texts are the `*.py` files of 8,000 to 12,000 bytes below FOLDER that both take, 60 at most and
evenly drawn, and one of two lines. `code`, `check_code` and `find_imports_in_code` are called on each text, the package and
isort 5 in turn, ROUNDS times (5), and the least CPU time of each counts. Both have their default settings. If isort 5 has no
`find_imports_in_code`, as 5.6, then `ast.parse` and a walk over the tree stand in its place. The other rows are calls with a
`Config` of settings files of 98 and 2,006 lines, and making one; sorting with settings as keywords; `file`, where it writes a
file of two lines anew; eight threads at once; and starting Python with an import of the package.

Prints a Markdown table, with the time of a text and how many times as long isort 5 takes, and the load. The rows of `file`, of
threads and of starting are by the clock."""

import argparse
import ast
import io
import os
import subprocess
import sys
import tempfile
import threading
import time
import warnings
import zipfile
from contextlib import redirect_stderr, redirect_stdout
from pathlib import Path

SMALLEST, LARGEST, MOST = 8_000, 12_000, 60
TWO_LINES = "import os\nimport abc\n"
REPEATS = 200
THREADS = 8
# How many lines the settings files have.
SETTINGS = (98, 2_006)
MODULE = "os.path"


def taken(call, text):
    """Whether a call takes a text, and says nothing of it."""
    try:
        with redirect_stdout(io.StringIO()), redirect_stderr(io.StringIO()):
            call(text)
    except Exception:
        return False
    return True


def texts_below(folder, calls):
    """Texts of about 10,000 bytes that all calls take."""
    paths = [path for path in sorted(Path(folder).rglob("*.py")) if path.is_file()]
    paths = [path for path in paths if SMALLEST <= path.stat().st_size <= LARGEST]
    texts = []
    for path in paths[:: max(1, len(paths) // MOST)]:
        try:
            text = path.read_bytes().decode()
        except UnicodeDecodeError:
            continue
        if all(taken(call, text) for call in calls):
            texts.append(text)
    return texts[:MOST]


def seconds(call, text, repeats):
    """The CPU time of a call, which other work on the machine hurts less than the time by the clock."""
    begun = time.thread_time()
    for _ in range(repeats):
        call(text)
    return (time.thread_time() - begun) / repeats


def beside(ours, theirs, texts, rounds, repeats):
    """The least times of both calls over all texts, in seconds a text."""
    totals = [0.0, 0.0]
    for text in texts:
        least = [float("inf")] * 2
        for _ in range(rounds):
            for place, (call, times) in enumerate(((ours, repeats), (theirs, max(1, repeats // 10)))):
                least[place] = min(least[place], seconds(call, text, times))
        totals = [total + one for total, one in zip(totals, least)]
    return [total / len(texts) for total in totals]


def walked(text):
    """The imports by Python's own parser."""
    return [node for node in ast.walk(ast.parse(text)) if isinstance(node, (ast.Import, ast.ImportFrom))]


def row(name, what, times):
    print(f"| {name} | {what} | {times[0] * 1e6:.1f} | {times[1] * 1e6:.1f} | {times[1] / times[0]:.1f} |")


def settings_of(lines):
    """The text of a settings file with so many lines."""
    keys = ["[tool.isort]", 'profile = "black"', "line_length = 100", "known_first_party = ["]
    modules = [f'    "package_{number}",' for number in range(lines - len(keys) - 1)]
    return "\n".join([*keys, *modules, "]", ""])


def rewritten(calls, rounds):
    """The least times by the clock of calls that write a file anew, in turn, in seconds."""
    least = [float("inf")] * len(calls)
    with tempfile.TemporaryDirectory() as folder:
        path = Path(folder, "two.py")
        for place, call in [*enumerate(calls)] * (10 * rounds):
            path.write_text(TWO_LINES)
            with redirect_stdout(io.StringIO()):
                begun = time.perf_counter()
                call(str(path))
                least[place] = min(least[place], time.perf_counter() - begun)
    return least


def measure_configs(fihroste, isort, rounds):
    """Prints the rows of calls with a Config."""
    both, two = (fihroste, isort), [TWO_LINES]
    row("`place_module`", "one module", beside(*[package.place_module for package in both], [MODULE], rounds, REPEATS))
    for lines in SETTINGS:
        with tempfile.TemporaryDirectory() as folder:
            file = Path(folder, "pyproject.toml")
            file.write_text(settings_of(lines))
            configs = [package.Config(settings_file=str(file)) for package in both]
            with_config = f"with a `Config` of {lines:,} lines"
            pair = [lambda name, of=of, config=config: of.place_module(name, config=config) for of, config in zip(both, configs)]
            row(f"`place_module` {with_config}", "one module", beside(*pair, [MODULE], rounds, REPEATS))
            pair = [lambda text, of=of, config=config: of.code(text, config=config) for of, config in zip(both, configs)]
            row(f"`code` {with_config}", "two lines", beside(*pair, two, rounds, REPEATS))
            pair = [lambda path, of=of: of.Config(settings_file=path) for of in both]
            row(f"making a `Config` of {lines:,} lines", "", beside(*pair, [str(file)], rounds, 10))
    row("`file`, written anew", "two lines", rewritten([package.file for package in both], rounds))


def in_threads(call, texts):
    """The seconds that THREADS threads take over all texts, each over all, and one thread over as many."""
    def work():
        for text in texts:
            call(text)

    begun = time.perf_counter()
    for _ in range(THREADS):
        work()
    alone = time.perf_counter() - begun
    threads = [threading.Thread(target=work) for _ in range(THREADS)]
    begun = time.perf_counter()
    for thread in threads:
        thread.start()
    for thread in threads:
        thread.join()
    return alone, time.perf_counter() - begun


def started(folder, module):
    """The least time of starting Python and importing a module, of 20, in seconds."""
    command = [sys.executable, "-c", f"import {module}"]
    environment = {**os.environ, "PYTHONPATH": folder}
    least = float("inf")
    for _ in range(20):
        begun = time.perf_counter()
        subprocess.run(command, env=environment, check=True)
        least = min(least, time.perf_counter() - begun)
    return least


def measure(fihroste, isort, folder, rounds):
    """Prints the rows of all texts."""
    calls = [isort.code, fihroste.code, walked]
    texts = texts_below(folder, calls)
    two = [TWO_LINES]
    size = sum(len(text.encode()) for text in texts) / len(texts)
    files = f"{len(texts)} files of {size:,.0f} bytes on average"
    theirs_of_listing = getattr(isort, "find_imports_in_code", None)
    listing = "`find_imports_in_code`" if theirs_of_listing else "`find_imports_in_code`, beside `ast`"
    theirs = (lambda text: list(theirs_of_listing(text))) if theirs_of_listing else walked
    rows = (
        ("`code`", fihroste.code, isort.code),
        ("`check_code`", fihroste.check_code, isort.check_code),
        (listing, lambda text: list(fihroste.find_imports_in_code(text)), theirs),
    )
    print("| Call | Text | fihroste, us | isort 5, us | times |")
    print("|---|---|---|---|---|")
    for name, ours, others in rows:
        row(name, files, beside(ours, others, texts, rounds, 10))
    for name, ours, others in rows:
        row(name, "two lines", beside(ours, others, two, rounds, REPEATS))
    keywords = {"line_length": 100, "known_first_party": ["shop"]}
    pair = [lambda text, call=call: call(text, **keywords) for call in (fihroste.code, isort.code)]
    row("`code` with keywords", "two lines", beside(*pair, two, rounds, REPEATS))
    measure_configs(fihroste, isort, rounds)
    alone, at_once = in_threads(fihroste.code, [text * 20 for text in texts])
    print(f"\n{THREADS} threads at once sort {alone / at_once:.1f} times as fast as one, over texts of {20 * size:,.0f} bytes.")


def main():
    parser = argparse.ArgumentParser(usage=__doc__)
    parser.add_argument("wheel")
    parser.add_argument("folder")
    parser.add_argument("rounds", type=int, nargs="?", default=5)
    given = parser.parse_args()
    wheel, folder, rounds = given.wheel, given.folder, given.rounds
    warnings.simplefilter("ignore")
    with tempfile.TemporaryDirectory() as unpacked:
        zipfile.ZipFile(wheel).extractall(unpacked)
        # An archive that is unpacked so loses the mode of the program, which `file` starts.
        Path(unpacked, "fihroste", "isort").chmod(0o755)
        sys.path.insert(0, unpacked)
        import fihroste
        import isort

        print(f"isort {isort.__version__}, Python {sys.version.split()[0]}, load {os.getloadavg()[0]:.1f}\n")
        with redirect_stderr(io.StringIO()):
            measure(fihroste, isort, folder, rounds)
        ours, theirs = started(unpacked, "fihroste"), started(unpacked, "isort")
        print(f"Starting Python takes {ours * 1e3:.0f} ms with fihroste and {theirs * 1e3:.0f} ms with isort 5.")
    print(f"Load at the end {os.getloadavg()[0]:.1f}.")


if __name__ == "__main__":
    main()
