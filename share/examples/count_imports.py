"""Counts the imports of many Python files by their top-level package, on the workers of a Dask cluster.

    python count_imports.py [--workers N | --cluster ADDRESS] [--out FILE] PATH..

PATH is a folder, of which every *.py and *.pyi file below is read, or an archive (.zip, .whl, .tar, .tar.gz, .tgz, .tar.xz,
.tar.bz2). Folders and archives have to be where each worker sees them under the same name. FILE (imports.csv) becomes a table: a
package, on how many lines an import statement of it begins, and in how many files. A file with a fault is counted up to it, one
that is not UTF-8 is left out, and both are told at the end. Relative imports are not counted.

Without a cluster's address, N (4) processes of this machine are the workers. It needs the package fihroste on each worker, and
Dask's distributed (Debian: python3-distributed)."""

import argparse
import csv
import os
import tarfile
import zipfile
from collections import Counter
from pathlib import Path
from typing import Dict, Iterable, Iterator, List, Tuple

import fihroste

ENDS = (".py", ".pyi")
ZIPS = (".zip", ".whl")
TARS = (".tar", ".tar.gz", ".tgz", ".tar.xz", ".tar.bz2")
# How many files one task reads: enough that the work of passing tasks around is small beside theirs.
FILES_OF_A_TASK = 500

# On how many lines a package is imported, in how many files, and which files have which fault.
Counts = Tuple[Dict[str, int], Dict[str, int], List[str]]


def texts_of_archive(path: str) -> Iterator[Tuple[str, bytes]]:
    """The name and the contents of each Python file of an archive."""
    if path.endswith(ZIPS):
        with zipfile.ZipFile(path) as archive:
            for name in archive.namelist():
                if name.endswith(ENDS):
                    yield f"{path}:{name}", archive.read(name)
        return
    with tarfile.open(path) as archive:
        for member in archive:
            if member.isfile() and member.name.endswith(ENDS):
                contents = archive.extractfile(member)
                if contents is not None:
                    yield f"{path}:{member.name}", contents.read()


def texts(paths: Iterable[str]) -> Iterator[Tuple[str, bytes]]:
    """The name and the contents of each Python file of a task."""
    for path in paths:
        if path.endswith(ZIPS + TARS):
            yield from texts_of_archive(path)
        elif os.path.isfile(path):
            # (a link may lead nowhere)
            yield path, Path(path).read_bytes()


def packages_of(text: str, packages: "Counter[str]") -> None:
    """Counts the packages of a text, those before a fault too."""
    seen = set()
    for found in fihroste.find_imports_in_code(text):
        package = found.module.split(".")[0]
        # `from m import a, b` has two imports, on one line.
        if package and (found.line_number, package) not in seen:
            seen.add((found.line_number, package))
            packages[package] += 1


def count(paths: List[str]) -> Counts:
    """What a task answers."""
    lines: "Counter[str]" = Counter()
    files: "Counter[str]" = Counter()
    faults: List[str] = []
    for name, contents in texts(paths):
        packages: "Counter[str]" = Counter()
        try:
            packages_of(contents.decode("utf-8"), packages)
        except fihroste.exceptions.ExistingSyntaxErrors as fault:
            faults.append(f"{name}:{fault.lineno}: {fault.label}")
        except UnicodeDecodeError:
            faults.append(f"{name}: not UTF-8")
        lines.update(packages)
        files.update(packages.keys())
    return dict(lines), dict(files), faults


def tasks(paths: Iterable[str]) -> Iterator[List[str]]:
    """Lists of files, and each archive alone."""
    waiting: List[str] = []
    for path in paths:
        if os.path.isfile(path):
            yield [path]
            continue
        if not os.path.isdir(path):
            raise SystemExit(f"{path}: no such file or folder")
        for folder, _, names in os.walk(path):
            for name in names:
                if name.endswith(ENDS):
                    waiting.append(os.path.join(folder, name))
                    if len(waiting) == FILES_OF_A_TASK:
                        yield waiting
                        waiting = []
    if waiting:
        yield waiting


def write_table(path: str, lines: "Counter[str]", files: "Counter[str]") -> None:
    with open(path, "w", newline="") as table:
        rows = csv.writer(table)
        rows.writerow(["package", "lines", "files"])
        for package in sorted(lines, key=lambda name: (-lines[name], name)):
            rows.writerow([package, lines[package], files[package]])


def main() -> None:
    parser = argparse.ArgumentParser()
    parser.add_argument("--workers", type=int, default=4)
    parser.add_argument("--cluster", help="the address of a scheduler, such as tcp://host:8786")
    parser.add_argument("--out", default="imports.csv")
    parser.add_argument("paths", nargs="+", metavar="PATH")
    words = parser.parse_args()

    lines: "Counter[str]" = Counter()
    files: "Counter[str]" = Counter()
    faults: List[str] = []
    for some_lines, some_files, some_faults in answers(words):
        lines.update(some_lines)
        files.update(some_files)
        faults += some_faults
    write_table(words.out, lines, files)
    print(*sorted(faults), sep="\n", end="\n" if faults else "")
    print(f"{sum(lines.values())} lines, {len(lines)} packages, {len(faults)} files with a fault: {words.out}")


def answers(words: argparse.Namespace) -> Iterator[Counts]:
    """The answers of all tasks, in whatever order they come. With no worker this process does the work."""
    if not words.cluster and words.workers == 0:
        yield from map(count, tasks(words.paths))
        return
    from distributed import Client, LocalCluster, as_completed

    cluster = words.cluster or LocalCluster(n_workers=words.workers, threads_per_worker=1, dashboard_address=None)
    with Client(cluster) as client:
        for future, answer in as_completed(client.map(count, list(tasks(words.paths)), pure=False), with_results=True):
            yield answer
            future.release()


if __name__ == "__main__":
    main()
