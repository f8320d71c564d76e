#!/usr/bin/env python3
"""Measures how fast isort tells whether files are sorted, beside isort 5, and how fast it starts.

    bench/check.py PROGRAM FOLDER [ROUNDS] [ISORT5]

PROGRAM is the built isort, and ISORT5 the command of isort 5 (/usr/bin/isort). The corpus is every `*.py` file below
FOLDER, except in `site-packages`, that isort accepts. It is copied to a temporary folder, where no settings are found.
The passes take all files in one call:

- `isort -c`;
- `isort --identify`, which lists the imports;
- `isort -c` of isort 5, with one job and with as many jobs as there are cores;
- `wc -m`, which counts characters, here of UTF-8.

Start-up is the time of `isort --help`, of `isort -c` on an empty file, and of `/bin/true`, each 40 times a round.

Each is run ROUNDS times (3). Wall clock and CPU time are each the best of all runs. CPU time is that of the process and
of those that it started, so it is hurt less by other work on the machine. Two Markdown tables are printed, and the load
before and after."""

import argparse
import os
import shutil
import subprocess
import sys
import tempfile
import time
from pathlib import Path

STARTS = 40


def timed(command: list[str]) -> tuple[float, float]:
    """The wall clock and the CPU time of a command, in seconds, whatever it prints and answers."""
    null = [(os.POSIX_SPAWN_OPEN, 0, os.devnull, os.O_RDONLY, 0)]
    null += [(os.POSIX_SPAWN_OPEN, stream, os.devnull, os.O_WRONLY, 0) for stream in (1, 2)]
    begun = time.perf_counter()
    process = os.posix_spawn(command[0], command, os.environ, file_actions=null)
    _, status, usage = os.wait4(process, 0)
    wall = time.perf_counter() - begun
    if os.waitstatus_to_exitcode(status) not in (0, 1):
        sys.exit(f"{' '.join(command[:3])} .. ended with {os.waitstatus_to_exitcode(status)}")
    return wall, usage.ru_utime + usage.ru_stime


def corpus(program: str, folder: str, copy: Path) -> list[Path]:
    """The files that isort accepts, copied under numbers."""
    paths = []
    for path in sorted(Path(folder).rglob("*.py")):
        if "site-packages" in path.parts:
            continue
        run = subprocess.run([program, "--identify", str(path)], capture_output=True)
        if run.returncode == 0:
            paths.append(copy / f"file{len(paths)}.py")
            shutil.copyfile(path, paths[-1])
    return paths


def best(command: list[str], runs: int) -> tuple[float, float]:
    times = [timed(command) for _ in range(runs)]
    return min(wall for wall, _ in times), min(cpu for _, cpu in times)


def main() -> int:
    parser = argparse.ArgumentParser(usage=__doc__)
    parser.add_argument("program", type=os.path.abspath)
    parser.add_argument("folder", type=os.path.abspath)
    parser.add_argument("rounds", type=int, nargs="?", default=3)
    parser.add_argument("isort5", nargs="?", default="/usr/bin/isort")
    given = parser.parse_args()
    program, folder, rounds, isort5 = given.program, given.folder, given.rounds, given.isort5
    cores = os.cpu_count() or 1
    os.environ["LC_ALL"] = "C.UTF-8"
    print(f"load before: {os.getloadavg()}")
    with tempfile.TemporaryDirectory() as work:
        os.chdir(work)
        (Path(work) / "files").mkdir()
        paths = corpus(program, folder, Path(work) / "files")
        size = sum(path.stat().st_size for path in paths)
        files = [f"files/{path.name}" for path in paths]
        passes = {
            "`isort -c`": [program, "-c", *files],
            "`isort --identify`": [program, "--identify", *files],
            "`isort -c` of isort 5, one job": [isort5, "-c", *files],
            f"`isort -c -j {cores}` of isort 5": [isort5, "-c", "-j", str(cores), *files],
            "`wc -m`": [shutil.which("wc"), "-m", *files],
        }
        print(f"\n{len(files)} files, {size} bytes:\n")
        print("| Pass | Wall clock, s | over that of `isort -c` | CPU time, s | over that of `isort -c` |")
        print("|---|---|---|---|---|")
        own = None
        for name, command in passes.items():
            wall, cpu = best(command, rounds)
            own = own or (wall, cpu)
            print(f"| {name} | {wall:.2f} | {wall / own[0]:.2f} | {cpu:.2f} | {cpu / own[1]:.2f} |")
        empty = Path(work) / "empty.py"
        empty.touch()
        starts = {
            "`isort --help`": [program, "--help"],
            "`isort -c` of an empty file": [program, "-c", str(empty)],
            "`/bin/true`": ["/bin/true"],
        }
        print("\n| Start-up | Wall clock, ms | CPU time, ms |")
        print("|---|---|---|")
        for name, command in starts.items():
            wall, cpu = best(command, STARTS * rounds)
            print(f"| {name} | {wall * 1e3:.2f} | {cpu * 1e3:.2f} |")
    print(f"\nload after: {os.getloadavg()}")
    return 0


if __name__ == "__main__":
    sys.exit(main())
