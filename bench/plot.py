#!/usr/bin/env python3
"""Measures checking beside isort 5, and draws what was measured.

    bench/plot.py measure JSON PROGRAM FOLDER [ROUNDS] [ISORT5]
    bench/plot.py draw JSON SVG

PROGRAM, FOLDER, ROUNDS (3) and ISORT5 (/usr/bin/isort) are those of bench/check.py, and so are the files: all that isort
accepts below FOLDER, in one call. JSON gets the wall clock of each pass, the best of all rounds, with the number and the size of
the files, the cores, and the load of the machine before and after. The passes are isort 5 with one job and with as many as there
are cores, `isort -c`, and `cat`, which only reads the files: the limit. Measure on a machine that does nothing else.

The picture has no figure that JSON hasn't. Drawing needs matplotlib (Debian: python3-matplotlib)."""

import json
import os
import sys
import tempfile
from pathlib import Path

import check


def measure(result: str, program: str, folder: str, rounds: int, isort5: str) -> None:
    result, program, folder = (str(Path(path).resolve()) for path in (result, program, folder))
    cores = os.cpu_count() or 1
    os.environ["LC_ALL"] = "C.UTF-8"
    before = os.getloadavg()
    with tempfile.TemporaryDirectory() as work:
        os.chdir(work)
        Path("files").mkdir()
        paths = check.corpus(program, folder, Path(work) / "files")
        files = [f"files/{path.name}" for path in paths]
        passes = {
            "isort 5, one core": [isort5, "-c", *files],
            f"isort 5, {cores} cores": [isort5, "-c", "-j", str(cores), *files],
            "isort, one core": [program, "-c", *files],
            "cat": ["/bin/cat", *files],
        }
        measured = {
            "files": len(files),
            "bytes": sum(path.stat().st_size for path in paths),
            "cores": cores,
            "load before": before,
            "seconds": {name: round(check.best(command, rounds)[0], 3) for name, command in passes.items()},
            "load after": os.getloadavg(),
        }
        os.chdir("/")
    Path(result).write_text(json.dumps(measured, indent=1) + "\n")


def draw(measured: dict, picture: str) -> None:
    import matplotlib

    matplotlib.use("svg")
    # Equal figures make an equal picture.
    matplotlib.rcParams["svg.hashsalt"] = "isort"
    from matplotlib import pyplot

    names, seconds = list(measured["seconds"]), list(measured["seconds"].values())
    figure, axes = pyplot.subplots(figsize=(7, 2.2))
    bars = axes.barh(names, seconds, color=["0.7", "0.7", "tab:blue", "0.85"])
    axes.bar_label(bars, [f"{value:g} s" for value in seconds], padding=4)
    axes.set_xlim(0, max(seconds) * 1.15)
    axes.invert_yaxis()
    axes.set_title(f"Checking {measured['files']:,} files, {measured['bytes'] / 1e6:.0f} MB", loc="left", fontsize=10)
    axes.xaxis.set_visible(False)
    for side in ("top", "right", "bottom"):
        axes.spines[side].set_visible(False)
    figure.savefig(picture, bbox_inches="tight", metadata={"Date": None})


def main() -> None:
    words = sys.argv[1:]
    if words[:1] == ["measure"] and 4 <= len(words) <= 6:
        rounds = int(words[4]) if len(words) > 4 else 3
        measure(words[1], words[2], words[3], rounds, words[5] if len(words) > 5 else "/usr/bin/isort")
    elif words[:1] == ["draw"] and len(words) == 3:
        draw(json.loads(Path(words[1]).read_text()), words[2])
    else:
        sys.exit(__doc__)


if __name__ == "__main__":
    main()
