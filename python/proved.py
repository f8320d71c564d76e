"""Proves and builds the static library and the program.

Where `rt ci` has left proved libraries that are as new as their sources, only what stands on them is proved. Otherwise
everything is proved from nothing, as by the script `isort` at the top, and nothing is kept but the two results."""

import os
import shutil
import subprocess
import tempfile
from concurrent.futures import Future, ThreadPoolExecutor
from pathlib import Path
from typing import Dict, Iterable, List

TOP = Path(__file__).resolve().parent.parent
CRATES = TOP / "crates"
LIBRARY = CRATES / "isort_c" / "out" / "libisort_c.a"
PROGRAM = CRATES / "isort" / "out" / "isort"


class NotProved(Exception):
    """A crate that the prover refused, or that was not built. Its text is what the prover said."""


def kit() -> Path:
    """The folder of the toolchain."""
    return Path(os.path.realpath(shutil.which("rt") or "rt")).parents[1]


def called_by(crate: str) -> List[str]:
    """The libraries that a crate calls, as crates.txt has them; std is always one."""
    for line in (TOP / "crates.txt").read_text().splitlines():
        name, _, called = line.partition(":")
        if name.split()[:1] == [crate]:
            return ["std", *called.split()]
    return ["std"]


def crates_below(crates: Iterable[str]) -> List[str]:
    """The crates, and those of this repository that they call, each after those that it calls."""
    found: List[str] = []
    for crate in crates:
        if (CRATES / crate).is_dir():
            found += [*crates_below(called_by(crate)), crate]
    return list(dict.fromkeys(found))


def is_current(built: Path, crate: str) -> bool:
    """Whether no source of a crate, or of one below it, is newer than what was built."""
    if not built.exists():
        return False
    folders = [CRATES / name / part for name in crates_below([crate]) for part in ("src", "specs", "proofs")]
    sources = [TOP / "crates.txt", *(path for folder in folders for path in folder.rglob("*"))]
    return all(path.stat().st_mtime <= built.stat().st_mtime for path in sources)


def kept(crate: str) -> Path:
    """Where `rt ci` leaves a proved library: a folder. Its time is when the library was put there. The files in it can be older than
    a new clone: where an earlier run proved the same sources, by their checksums, `rt ci` links what that run made."""
    return CRATES / crate / "out" / "rlib" / f"{crate}.rlib"


class Build:
    """A build of some crates, side by side where none stands on the other."""

    def __init__(self, work: Path, targets: List[str]) -> None:
        self.work = work
        below = [crate for crate in crates_below(targets) if crate not in targets]
        self.takes_kept = all(is_current(kept(crate), crate) for crate in below)
        self.crates = targets if self.takes_kept else [*below, *targets]
        # Two crates or three are proved at once, except for the last, or where there is only one.
        self.jobs = max(1, len(os.sched_getaffinity(0)) // min(2, len(self.crates)))
        self.running: Dict[str, "Future[None]"] = {}

    def run(self) -> None:
        with ThreadPoolExecutor(len(self.crates)) as pool:
            # A crate waits only for crates that were handed in before it, so some run always goes on.
            for crate in self.crates:
                self.running[crate] = pool.submit(self.prove, crate)
            for future in self.running.values():
                future.result()

    def library(self, crate: str) -> Path:
        """Where a library is found."""
        if not (CRATES / crate).is_dir():
            return kit() / "rlibs" / f"{crate}.rlib"
        return kept(crate) if self.takes_kept else self.work / f"{crate}.rlib"

    def prove(self, crate: str) -> None:
        """Proves and builds one crate, when those are proved that it calls."""
        for name in called_by(crate):
            if name in self.running:
                self.running[name].result()
        run = subprocess.run(
            self.command(crate),
            cwd=CRATES / crate,
            stdin=subprocess.DEVNULL,
            stdout=subprocess.PIPE,
            stderr=subprocess.STDOUT,
            universal_newlines=True,
            errors="replace",
        )
        if run.returncode != 0:
            raise NotProved(f"{run.stdout}{crate} is not proved: the prover ended with status {run.returncode}")
        print(f"fihroste: {crate} is proved", flush=True)

    def command(self, crate: str) -> List[str]:
        own = kit()
        words = [str(own / "bin" / "rattle"), "build", "--crate-name", crate, "--jobs", str(self.jobs)]
        words += ["--links", f"{crate}=", "-L", f"dependency={own / 'rlibs'}"]
        for name in crates_below([crate])[:-1]:
            words += ["-L", f"dependency={self.library(name).parent}"]
        for name in called_by(crate):
            words += ["--extern", f"{name}={self.library(name)}"]
        words += ["--antt-project", str(own / "rattle" / "logic" / "antt-project.json")]
        words += ["--logic-built", str(own / "logic_built")]
        native = ["--toolchain", str(own / "toolchain"), "--backend", "llvm"]
        if crate == "isort":
            return [*words, "src/main.rt", *native, "-o", str(self.work / "isort.o")]
        if crate == "isort_c":
            return [*words, "src/lib.rt", *native, "--crate-type", "staticlib", "-o", str(self.work / LIBRARY.name)]
        return [*words, "src/lib.rt", "--statements", "-o", str(self.work / f"{crate}.rlib")]


def link_program(work: Path) -> Path:
    own = kit()
    words = [str(own / "bin" / "rattle-link"), "--target", "x86_64-unknown-linux-gnu"]
    words += ["--toolchain", str(own / "toolchain"), "-o", str(work / "isort"), str(work / "isort.o")]
    words += [str(own / "c" / "libos_c.a"), str(own / "c" / "liblibc_c.a")]
    run = subprocess.run(words, stdout=subprocess.PIPE, stderr=subprocess.STDOUT, universal_newlines=True)
    if run.returncode != 0:
        raise NotProved(f"{run.stdout}the program was not linked")
    return work / "isort"


def build(library: bool, program: bool) -> None:
    """Proves and builds those of the two that are not current."""
    wanted = {"isort_c": library and not is_current(LIBRARY, "isort_c"), "isort": program and not is_current(PROGRAM, "isort")}
    targets = [crate for crate, is_wanted in wanted.items() if is_wanted]
    if not targets:
        return
    print("fihroste: building: the proofs are checked first, which takes some minutes", flush=True)
    for built in (LIBRARY, PROGRAM):
        built.parent.mkdir(exist_ok=True)
    with tempfile.TemporaryDirectory(dir=LIBRARY.parent) as folder:
        work = Path(folder)
        begun = work / "begun"
        begun.touch()
        Build(work, targets).run()
        made = {LIBRARY: work / LIBRARY.name} if wanted["isort_c"] else {}
        if wanted["isort"]:
            made[PROGRAM] = link_program(work)
        for place, result in made.items():
            # It counts as being of the time when the build began, so that an edit since then is seen.
            os.utime(result, ns=(begun.stat().st_mtime_ns, begun.stat().st_mtime_ns))
            os.replace(result, place)
