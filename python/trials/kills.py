"""Kills Python while `file` replaces files, and sorts the same files by several processes, and sees that no text is lost.

    kills.py [RUNS]

A Python that calls `file` on 100 files is ended by SIGKILL, SIGINT or SIGTERM after a random time, RUNS times (300). Then each
file has its old text or its sorted text, byte for byte, and its permissions, and nothing else stands in the folder but files
`.NAME.isort-PID-N.tmp`, which are counted and removed.

Then, RUNS / 10 times, two such Pythons and the program take the same files at once, each in an order of its own. Then each file
is sorted, has its permissions, and nothing else stands in the folder. What a process says is that a file can't be written,
since another one changed it.

Prints a line for each run after which this isn't so, and 'N passed, M failed'. The files stand in a new folder of TMPDIR, so
this tries the file system of that."""

import os
import random
import re
import signal
import statistics
import subprocess
import sys
import tempfile
import time
from pathlib import Path

import fihroste
from fihroste.program import PROGRAM

FILES = 100
HEADS = (b"import sys, os, json, re\n\n", b"import sys\nimport os\nimport sys\nimport os\n\n\n\n\n")
BODY = b"price = sum(item.price for item in cart)  # of all that is in it\n" * 50
MODE = 0o640
SIGNALS = (signal.SIGKILL, signal.SIGINT, signal.SIGTERM)
LEFT = re.compile(r"\.f\d+\.py\.isort-\d+-\d+\.tmp")
CHANGED = re.compile(rb"isort: f\d+\.py: R3 cannot be written\n")
# Says when it begins.
SORTS = """
import sys, fihroste
print("begins", flush=True)
for name in sys.argv[1:]:
    try:
        fihroste.file(name)
    except OSError as error:
        sys.stderr.write(f"{error.strerror}\\n")
"""


class Files:
    """The files, and what they are to have."""

    def __init__(self, folder):
        self.folder = Path(folder)
        self.old = {f"f{number}.py": HEADS[number % 2] + BODY for number in range(FILES)}
        self.new = {name: fihroste.code(text.decode()).encode() for name, text in self.old.items()}
        self.left = 0

    def lay_out(self):
        for name, text in self.old.items():
            path = self.folder / name
            path.write_bytes(text)
            path.chmod(MODE)

    def wrong(self, wanted):
        """What is wrong of the files. Each may have the text that one of the tables in `wanted` has for it."""
        wrong = []
        for name in sorted(set(os.listdir(self.folder)) - set(self.old)):
            wrong += [] if LEFT.fullmatch(name) else [f"{name} is new"]
            self.left += 1
            (self.folder / name).unlink()
        for name in self.old:
            path = self.folder / name
            text = path.read_bytes() if path.exists() else None
            if all(text != table[name] for table in wanted):
                wrong.append(f"{name} is gone" if text is None else f"{name} has {len(text)} bytes")
            elif path.stat().st_mode & 0o7777 != MODE:
                wrong.append(f"{name} has other permissions")
        return wrong

    def start(self, command):
        names = random.sample(sorted(self.old), FILES)
        pipe = subprocess.PIPE
        return subprocess.Popen([*command, *names], cwd=self.folder, stdout=pipe, stderr=pipe)


def kill(files, usual):
    """Ends one Python after a random time, or none if there is no usual time. Answers what is wrong then, how long the sorting
    took, and whether it was ended."""
    files.lay_out()
    with files.start([sys.executable, "-c", SORTS]) as process:
        process.stdout.readline()
        begun = time.perf_counter()
        ended = random.choice(SIGNALS)
        if usual:
            time.sleep(random.uniform(0, usual))
            process.send_signal(ended)
        process.stdout.read()
        took = time.perf_counter() - begun
    wrong = files.wrong([files.new, files.old] if usual else [files.new])
    if process.returncode not in ((0, -ended) if usual else (0,)):
        wrong.append(f"status {process.returncode}")
    return wrong, took, process.returncode != 0


def at_once(files):
    """Sorts the files by several processes at once, and answers what is wrong then."""
    files.lay_out()
    left = files.left
    processes = [files.start(command) for command in ([sys.executable, "-c", SORTS], [sys.executable, "-c", SORTS], [PROGRAM])]
    wrong = []
    for process in processes:
        said = process.communicate()[1]
        if CHANGED.sub(b"", said):
            wrong.append(f"said {said.decode()}")
    wrong += files.wrong([files.new])
    return wrong if files.left == left else [*wrong, f"{files.left - left} new files are left"]


def main():
    runs = int(sys.argv[1]) if len(sys.argv) > 1 else 300
    with tempfile.TemporaryDirectory() as folder:
        files = Files(folder)
        usual = statistics.median(kill(files, 0)[1] for _ in range(3))
        results = [kill(files, usual) for _ in range(runs)]
        killed = sum(was_killed for _, _, was_killed in results)
        print(f"{runs} runs, {killed} killed, {files.left} new files left")
        results = [wrong for wrong, _, _ in results] + [at_once(files) for _ in range(max(1, runs // 10))]
    for wrong in filter(None, results):
        print(", ".join(wrong))
    failed = sum(map(bool, results))
    print(f"{len(results) - failed} passed, {failed} failed")
    return 1 if failed else 0


if __name__ == "__main__":
    sys.exit(main())
