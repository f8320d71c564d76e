"""Compares each call of the package with the program on real files.

    against_program.py PROGRAM FOLDER.. [--every N]

The files are each `*.py`, or every N-th, below the folders. Each is sorted, checked and listed by the package and by
PROGRAM, under two settings and by all ten kinds of listing; what has to agree is the text, or the message of the fault.
Prints a line for each call that differs, and then how many calls agreed."""

import argparse
import io
import os
import shutil
import subprocess
import sys
import tempfile
from pathlib import Path

import fihroste
from fihroste import Config, ImportKey
from fihroste.exceptions import ExistingSyntaxErrors, FileSkipComment

SETTINGS = """[tool.isort]
profile = "black"
line_length = 60
sections = ["Network", "FUTURE", "STDLIB"]
known_network = ["socket", "http", "urllib.request"]
known_first_party = ["test", "pip"]
force_sort_within_sections = true
"""
KEYS = {
    None: False,
    "--packages": ImportKey.PACKAGE,
    "--modules": ImportKey.MODULE,
    "--attributes": ImportKey.ATTRIBUTE,
    "--unique": ImportKey.ALIAS,
}


class Trial:
    """Counts what agrees and what differs."""

    def __init__(self, program):
        self.program = program
        self.passed = self.failed = 0

    def compare(self, call, path, got, wanted):
        if got == wanted:
            self.passed += 1
        else:
            self.failed += 1
            print(f"{path}: {call} differs: {got!r:.100} and {wanted!r:.100}")

    def run(self, *words):
        return subprocess.run([self.program, *words], stdout=subprocess.PIPE, stderr=subprocess.PIPE)


def outcome(call, *words, **keywords):
    """What a call answers, or the words of its fault, or None where the text asks to be left as it is."""
    try:
        return call(*words, **keywords)
    except ExistingSyntaxErrors as fault:
        return str(fault)
    except FileSkipComment:
        return None


def told(run):
    """The words of a fault that a run told of."""
    return run.stderr.decode().strip()


def compare_sorting(trial, path, raw, config, options):
    run = trial.run("-d", *options, path)
    check = trial.run("-c", *options, path)
    wanted = run.stdout.decode() if run.returncode == 0 else told(run)
    is_sorted = check.returncode == 0 if run.returncode == 0 else told(run)
    text = raw.decode("utf-8", "surrogateescape")
    is_skipped = outcome(fihroste.check_code, text, config=config) is None
    wanted, is_sorted = (None, None) if is_skipped and wanted == text else (wanted, is_sorted)
    words = {"config": config, "file_path": path}
    output = io.StringIO()
    trial.compare("code", path, outcome(fihroste.code, text, **words), wanted)
    trial.compare("check_code", path, outcome(fihroste.check_code, text, **words), is_sorted)
    outcome(fihroste.stream, io.StringIO(text, newline=""), output, **words)
    handed_on = wanted if wanted is not None and run.returncode == 0 else ""
    trial.compare("stream", path, output.getvalue(), handed_on)
    got = outcome(fihroste.check_stream, io.StringIO(text, newline=""), **words)
    trial.compare("check_stream", path, got, is_sorted)
    trial.compare("check_file", path, outcome(fihroste.check_file, path, config=config), is_sorted)


def compare_rewriting(trial, path, config, options, folder):
    ours, theirs = os.path.join(folder, "ours.py"), os.path.join(folder, "theirs.py")
    shutil.copy(path, ours)
    shutil.copy(path, theirs)
    outcome(fihroste.file, ours, config=config)
    trial.run(*options, theirs)
    trial.compare("file", path, Path(ours).read_bytes(), Path(theirs).read_bytes())


def listing(call, *words, **keywords):
    """The lines of a listing, and the words of its fault."""
    lines = []
    try:
        for found in call(*words, **keywords):
            lines.append(f"{found}\n")
    except ExistingSyntaxErrors as fault:
        return "".join(lines), str(fault)
    return "".join(lines), ""


def compare_listing(trial, path, raw):
    text = raw.decode("utf-8", "surrogateescape")
    for option, unique in KEYS.items():
        for top_only in (False, True):
            words = [*([option] if option else []), *(["--top-only"] if top_only else [])]
            run = trial.run("--identify", *words, path)
            wanted = run.stdout.decode(), told(run)
            kind = {"unique": unique, "top_only": top_only}
            got = listing(fihroste.find_imports_in_code, text, file_path=path, **kind)
            trial.compare("find_imports_in_code", path, got, wanted)
            got = listing(fihroste.find_imports_in_file, path, **kind)
            trial.compare("find_imports_in_file", path, got, wanted)
    got = listing(fihroste.find_imports_in_stream, io.StringIO(text, newline=""), file_path=path, **kind)
    trial.compare("find_imports_in_stream", path, got, wanted)


def main():
    parser = argparse.ArgumentParser()
    parser.add_argument("program")
    parser.add_argument("folders", nargs="+")
    parser.add_argument("--every", type=int, default=1)
    words = parser.parse_args()
    files = [path for folder in words.folders for path in sorted(Path(folder).rglob("*.py")) if path.is_file()]
    trial = Trial(words.program)
    with tempfile.TemporaryDirectory() as folder:
        settings_file = os.path.join(folder, "settings.toml")
        Path(settings_file).write_text(SETTINGS)
        empty = os.path.join(folder, "empty.toml")
        Path(empty).write_text("")
        for path in map(str, files[:: words.every]):
            raw = Path(path).read_bytes()
            for settings in (empty, settings_file):
                config, options = Config(settings), ("--settings-file", settings)
                compare_sorting(trial, path, raw, config, options)
                compare_rewriting(trial, path, config, options, folder)
            compare_listing(trial, path, raw)
    print(f"{trial.passed} passed, {trial.failed} failed")
    return 1 if trial.failed else 0


if __name__ == "__main__":
    sys.exit(main())
