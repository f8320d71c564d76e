"""Replacing a file: failing calls of the system, exceptions, changes by others, and what is left to the program."""

import contextlib
import errno
import os
import stat
import tempfile
import threading
import unittest
from unittest import mock

import fihroste
from fihroste import program, replace

from texts import SHOP, SHOP_SORTED

OLD, NEW = SHOP.encode(), SHOP_SORTED.encode()
# A text as long as the old one.
OTHER = OLD.replace(b"sys", b"abc")
MODE = 0o640
NOBODY = 65534
# What the system is called for, one after another.
CALLS = ["open", "fstat", "open", "fchown", "write", "fchmod", "fdatasync", "close", "read", "lstat", "rename", "close"]
CREATE, READ, RENAME = CALLS.index("open", 1), CALLS.index("read"), CALLS.index("rename")


class Calls:
    """Stands in the place of the module `os`. `acts` is handed the number of each of CALLS, the call, and its words."""

    def __init__(self, acts):
        self.acts = acts
        self.made = []

    def __getattr__(self, name):
        value = getattr(os, name)
        return (lambda *words: self.make(name, value, words)) if name in CALLS else value

    def make(self, name, call, words):
        self.made.append(name)
        return self.acts(len(self.made) - 1, call, *words)


def plainly(number, call, *words):
    return call(*words)


@contextlib.contextmanager
def without_rights():
    """Takes the rights of root away for a while."""
    user, group = os.geteuid(), os.getegid()
    os.setegid(group if user else NOBODY)
    os.seteuid(user or NOBODY)
    try:
        yield
    finally:
        os.seteuid(user)
        os.setegid(group)


class OneFile(unittest.TestCase):
    def setUp(self):
        folder = tempfile.TemporaryDirectory()
        self.addCleanup(folder.cleanup)
        self.folder = folder.name
        self.path = os.path.join(self.folder, "shop.py")
        self.write(OLD)

    def give_away(self, path):
        """Gives a file or folder to a user who may do less than root."""
        if os.geteuid() == 0:
            os.chown(path, NOBODY, NOBODY)

    def write(self, text):
        with open(self.path, "wb") as file:
            file.write(text)
        os.chmod(self.path, MODE)

    def read(self):
        with open(self.path, "rb") as file:
            return file.read()

    def replaced(self, acts):
        """What replacing the file answers if its calls are made by `acts`."""
        calls = Calls(acts)
        seen = os.stat(self.path)
        with mock.patch.object(replace, "os", calls):
            answer = replace.replaced(self.path, seen, OLD, NEW)
        self.made = calls.made
        return answer

    def expect(self, text, others=()):
        """That the file has the text and its permissions, and that only the others stand beside it."""
        self.assertEqual(self.read(), text)
        self.assertEqual(stat.S_IMODE(os.stat(self.path).st_mode), MODE)
        names = [os.path.basename(self.path), *others]
        self.assertEqual(sorted(os.listdir(os.path.dirname(self.path))), sorted(names))


class Replace(OneFile):
    def test_the_calls(self):
        inode = os.stat(self.path).st_ino
        self.assertTrue(self.replaced(plainly))
        self.assertEqual(self.made, CALLS)
        self.assertNotEqual(os.stat(self.path).st_ino, inode)
        self.expect(NEW)

    def test_all_permissions_stay(self):
        os.chmod(self.path, 0o4751)
        self.assertTrue(self.replaced(plainly))
        self.assertEqual((self.read(), stat.S_IMODE(os.stat(self.path).st_mode)), (NEW, 0o4751))

    def test_the_program_is_not_started(self):
        with mock.patch.object(program, "rewrite", side_effect=AssertionError):
            self.assertTrue(fihroste.file(self.path))
            self.assertFalse(fihroste.file(self.path))
        self.expect(NEW)

    def test_calls_that_fail(self):
        for place, name in enumerate(CALLS):

            def acts(number, call, *words):
                # A file is closed, too, if the system says that this failed.
                if number == place and name == "close":
                    call(*words)
                if number == place:
                    raise OSError(errno.EIO, "failed")
                return call(*words)

            with self.subTest(place=place, name=name):
                self.assertEqual(self.replaced(acts), name == "close")
                self.expect(NEW if name == "close" else OLD)
                self.write(OLD)
                with mock.patch.object(replace, "os", Calls(acts)):
                    self.assertTrue(fihroste.file(self.path))
                self.expect(NEW)
                self.write(OLD)

    def test_exceptions_between_calls(self):
        for place, is_after in ((place, is_after) for place in range(len(CALLS)) for is_after in (False, True)):

            def acts(number, call, *words):
                answer = call(*words) if number != place or is_after else None
                if number == place:
                    raise KeyboardInterrupt
                return answer

            with self.subTest(call=CALLS[place], place=place, is_after=is_after):
                with self.assertRaises(KeyboardInterrupt):
                    self.replaced(acts)
                left = [name for name in os.listdir(self.folder) if name.endswith(".tmp")]
                # Only a new file of which nobody knows yet stays.
                self.assertEqual(len(left), int((place, is_after) == (CREATE, True)))
                self.expect(NEW if (place, is_after) >= (RENAME, True) else OLD, left)
                for name in left:
                    os.unlink(os.path.join(self.folder, name))
                self.write(OLD)

    def test_texts_that_are_written_in_pieces(self):
        def acts(number, call, *words):
            return call(words[0], words[1][:7]) if call is os.write else call(*words)

        self.assertTrue(self.replaced(acts))
        self.assertGreater(self.made.count("write"), len(NEW) // 7)
        self.expect(NEW)

    def test_changes_by_others_stay(self):
        def in_place():
            was = os.stat(self.path)
            self.write(OTHER)
            os.utime(self.path, ns=(was.st_atime_ns, was.st_mtime_ns))

        def by_another_file():
            path = self.path
            self.path += ".other"
            self.write(OTHER)
            os.replace(self.path, path)
            self.path = path

        # What another writes in place after the text was read again may be lost.
        for change, last in ((in_place, READ), (by_another_file, RENAME - 1)):
            for place in range(last + 1):

                def acts(number, call, *words):
                    if number == place:
                        change()
                    return call(*words)

                with self.subTest(change=change.__name__, call=CALLS[place]):
                    self.assertFalse(self.replaced(acts))
                    self.expect(OTHER)
                    self.write(OLD)

    def test_a_name_that_is_taken(self):
        taken = f".shop.py.isort-{os.getpid()}-7.tmp"
        path = self.path
        self.path = os.path.join(self.folder, taken)
        self.write(OTHER)
        with mock.patch.object(replace, "_NUMBERS", iter([7])):
            self.assertFalse(replace.replaced(path, os.stat(path), OLD, NEW))
        self.expect(OTHER, ["shop.py"])
        self.path = path
        self.expect(OLD, [taken])

    def test_nobody_else_may_read_the_new_file_before_it_has_its_permissions(self):
        def acts(number, call, *words):
            if number == CREATE + 1:
                self.assertEqual(stat.S_IMODE(os.fstat(words[0]).st_mode), 0o600)
            return call(*words)

        self.assertTrue(self.replaced(acts))

    def test_files_that_cannot_be_written(self):
        self.give_away(self.folder)
        self.give_away(self.path)
        os.chmod(self.path, 0o444)
        with without_rights():
            self.assertFalse(self.replaced(plainly))
        self.assertEqual((self.read(), os.listdir(self.folder)), (OLD, ["shop.py"]))

    def test_folders_that_cannot_be_written(self):
        self.give_away(self.path)
        os.chmod(self.path, MODE)
        self.addCleanup(os.chmod, self.folder, 0o700)
        os.chmod(self.folder, 0o555)
        with without_rights():
            self.assertFalse(self.replaced(plainly))
        self.expect(OLD)

    def test_what_was_seen_before_counts(self):
        seen = os.stat(self.path)
        os.utime(self.path, ns=(seen.st_atime_ns, seen.st_mtime_ns + 1))
        self.assertFalse(replace.replaced(self.path, seen, OLD, NEW))
        self.expect(OLD)

    def test_names_that_are_not_utf8(self):
        folder = os.path.join(self.folder, os.fsdecode(b"\xfe"))
        os.mkdir(folder)
        self.path = os.path.join(folder, os.fsdecode(b"\xff.py"))
        self.write(OLD)
        with mock.patch.object(program, "rewrite", side_effect=AssertionError):
            self.assertTrue(fihroste.file(self.path))
        self.expect(NEW)

    def test_names_in_the_current_folder(self):
        self.addCleanup(os.chdir, os.getcwd())
        os.chdir(self.folder)
        for name in ("shop.py", "./shop.py", "-"):
            os.rename(self.path, name)
            self.assertTrue(fihroste.file(name))
            os.rename(name, self.path)
            self.expect(NEW)
            self.write(OLD)

    @unittest.skipIf(os.geteuid() != 0, "only root gives files away")
    def test_the_owner_stays(self):
        os.chown(self.path, NOBODY, NOBODY - 1)
        os.chmod(self.path, MODE)
        self.assertTrue(self.replaced(plainly))
        now = os.stat(self.path)
        self.assertEqual((now.st_uid, now.st_gid), (NOBODY, NOBODY - 1))
        self.expect(NEW)

    def test_threads_at_once(self):
        others = [f"f{number}.py" for number in range(20)]
        paths = [self.path, *(os.path.join(self.folder, other) for other in others)]
        for self.path in reversed(paths):
            self.write(OLD)
        refused = []

        def work():
            for path in paths:
                try:
                    fihroste.file(path)
                except OSError as error:
                    refused.append(str(error))

        threads = [threading.Thread(target=work) for _ in range(8)]
        for thread in threads:
            thread.start()
        for thread in threads:
            thread.join()
        # The program says so if another thread writes a file meanwhile.
        self.assertEqual([words for words in refused if "R3 cannot be written" not in words], [])
        for self.path in paths:
            self.expect(NEW, [os.path.basename(path) for path in paths if path != self.path])


class LeftToTheProgram(OneFile):
    """What is sorted, but not replaced in this process."""

    def sort(self, path):
        """Has the program sort the file. Answers whether it still is the same one."""
        inode = os.stat(path).st_ino
        self.assertFalse(replace.replaced(path, os.stat(path), OLD, NEW))
        self.assertEqual(self.read(), OLD)
        self.assertTrue(fihroste.file(path))
        self.assertEqual(self.read(), NEW)
        return os.stat(path).st_ino == inode

    def test_links(self):
        link = os.path.join(self.folder, "link.py")
        os.symlink(self.path, link)
        self.assertFalse(self.sort(link))
        self.assertTrue(os.path.islink(link))
        self.expect(NEW, ["link.py"])

    def test_second_links(self):
        second = os.path.join(self.folder, "second.py")
        os.link(self.path, second)
        self.assertTrue(self.sort(self.path))
        self.expect(NEW, ["second.py"])
        self.assertTrue(os.path.samefile(self.path, second))

    def test_names_with_links_of_folders(self):
        os.makedirs(os.path.join(self.folder, "inner", "most"))
        link = os.path.join(self.folder, "link")
        os.symlink(os.path.join("inner", "most"), link)
        # The folder above a link's target is not the one above the link.
        self.path = os.path.join(link, "..", "shop.py")
        self.write(OLD)
        os.link(self.path, os.path.join(link, "second.py"))
        self.assertTrue(self.sort(self.path))
        self.expect(NEW, ["most"])

    def test_long_names(self):
        self.path = os.path.join(self.folder, "long", "a" * 252 + ".py")
        os.mkdir(os.path.dirname(self.path))
        self.write(OLD)
        self.assertTrue(self.sort(self.path))
        self.expect(NEW)

    def test_names_that_are_not_utf8(self):
        self.path = os.path.join(self.folder, os.fsdecode(b"\xff.py"))
        self.write(OLD)
        os.link(self.path, os.path.join(self.folder, "second.py"))
        self.assertTrue(self.sort(self.path))
        self.expect(NEW, ["second.py", "shop.py"])

    @unittest.skipIf(os.geteuid() == 0, "root may write into each folder")
    def test_closed_folders(self):
        self.addCleanup(os.chmod, self.folder, 0o700)
        os.chmod(self.folder, 0o500)
        self.assertTrue(self.sort(self.path))

    def test_pipes(self):
        pipe = os.path.join(self.folder, "pipe")
        os.mkfifo(pipe)
        self.assertFalse(replace.replaced(pipe, os.stat(pipe), OLD, NEW))
        self.assertTrue(stat.S_ISFIFO(os.stat(pipe).st_mode))
        self.expect(OLD, ["pipe"])


if __name__ == "__main__":
    unittest.main()
