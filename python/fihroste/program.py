"""The program isort, which the package carries."""

import errno
import os
import re
from contextlib import contextmanager
from typing import Iterator

PROGRAM = os.path.join(os.path.dirname(os.path.abspath(__file__)), "isort")

# The words that stand for a profile's number.
_PROFILES = ((), ("--profile", "black"))
# What the program prints when memory ran out.
_MEMORY = re.compile(rb"\bR5 out of memory$", re.M)


def rewrite(path: str, settings: bytes, profile: int) -> bool:
    """Has the program sort the file under the text of a settings file and a profile. Answers whether it was written.

    The program takes only names in UTF-8: a file of another name it gets by a link, and writes it in place."""
    import subprocess
    import tempfile

    # A file without a name is the quickest to make and to be rid of.
    with tempfile.TemporaryFile() as settings_file, _name_of(path) as name:
        settings_file.write(settings)
        settings_file.flush()
        number = settings_file.fileno()
        words = ["--settings-file", f"/proc/self/fd/{number}", *_PROFILES[profile], "--", name]
        run = subprocess.run(
            [PROGRAM, *words],
            stdin=subprocess.DEVNULL,
            stdout=subprocess.PIPE,
            stderr=subprocess.PIPE,
            pass_fds=(number,),
        )
    if run.returncode == 0:
        return run.stdout.startswith(b"Fixing ")
    if _MEMORY.search(run.stderr):
        raise MemoryError
    said = os.fsdecode(run.stderr).strip() or f"the program ended with status {run.returncode}"
    raise OSError(_reason(path), said.replace(name, path), path)


@contextmanager
def _name_of(path: str) -> Iterator[str]:
    """A name of the file in UTF-8: its own, or one of a link that is there for the time of the call."""
    import tempfile

    # The name `-` would be standard input. No `..` is taken away, since the name before it may be one of a link.
    name = os.path.join(os.getcwd(), path)
    if _is_utf8(name):
        yield name
        return
    with tempfile.TemporaryDirectory() as folder:
        link = os.path.join(folder, "file")
        os.symlink(name, link)
        yield link


def _is_utf8(name: str) -> bool:
    try:
        os.fsencode(name).decode("utf-8")
    except UnicodeDecodeError:
        return False
    return True


def _reason(path: str) -> int:
    """The number of the system's error for which a file was most likely not written."""
    folder = os.path.dirname(path) or os.curdir
    if not os.path.exists(path):
        return errno.ENOENT
    return errno.EACCES if not os.access(path, os.W_OK) or not os.access(folder, os.W_OK) else errno.EIO
