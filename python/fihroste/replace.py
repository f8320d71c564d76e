"""Replacing a file such that its text is never lost: the program's way, in this process.

It is for plain files whose folder lets them be replaced. The program does the rest: it can write in place, too."""

import itertools
import os
import stat
from contextlib import suppress
from typing import Tuple

# The numbers of the new files: no two of this process have one name, also in threads.
_NUMBERS = itertools.count()


def replaced(path: str, seen: os.stat_result, old: bytes, new: bytes) -> bool:
    """Puts a file with a new text, and the old one's owner and permissions, in the place of the file at `path`. Answers
    whether it did.

    `seen` is what the system said of the file when its old text was read. Nothing is done if the file is something else
    now, if it is a link or has several links, or if a call of the system fails: the file has its old text then, and the
    new file is gone. A kill, and seldom Ctrl-C, can leave the new file."""
    if not stat.S_ISREG(seen.st_mode) or seen.st_nlink != 1:
        return False
    try:
        # A file that may not be written is refused here, although its folder might let it be replaced.
        file = os.open(path, os.O_RDWR | os.O_NOFOLLOW)
        try:
            _put_over(path, file, seen, old, new)
        finally:
            with suppress(OSError):
                os.close(file)
    except OSError:
        return False
    return True


def _put_over(path: str, file: int, seen: os.stat_result, old: bytes, new: bytes) -> None:
    """Renames a new file over the one at `path`, which is open as `file`, if that still is what it was."""
    _expect_same(os.fstat(file), seen)
    folder, name = os.path.split(path)
    beside = os.path.join(folder, f".{name}.isort-{os.getpid()}-{next(_NUMBERS)}.tmp")
    made = os.open(beside, os.O_WRONLY | os.O_CREAT | os.O_EXCL, 0o600)
    try:
        try:
            _fill(made, seen, new)
        finally:
            with suppress(OSError):
                os.close(made)
        if os.read(file, len(old) + 1) != old:
            raise OSError("the file was changed")
        _expect_same(os.lstat(path), seen)
        os.rename(beside, path)
    except BaseException:
        # An exception right after the renaming comes here, too: there is no such file then.
        with suppress(OSError):
            os.unlink(beside)
        raise


def _fill(made: int, seen: os.stat_result, new: bytes) -> None:
    """Gives the new file its owner, text and permissions, in this order: a new owner may take permissions away. Its text is
    on the disk then."""
    os.fchown(made, seen.st_uid, seen.st_gid)
    left = memoryview(new)
    while left:
        left = left[os.write(made, left) :]
    os.fchmod(made, stat.S_IMODE(seen.st_mode))
    os.fdatasync(made)


def _expect_same(now: os.stat_result, seen: os.stat_result) -> None:
    if _state(now) != _state(seen):
        raise OSError("the file was changed")


def _state(of: os.stat_result) -> Tuple[int, ...]:
    """What changes if a file is replaced, written, or given to somebody."""
    return of.st_dev, of.st_ino, of.st_mode, of.st_nlink, of.st_size, of.st_mtime_ns, of.st_ctime_ns
