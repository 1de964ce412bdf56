"""The libraries between a program and the C library, by programs of the system whose calls are known."""
import pathlib
import shutil
import sys
import tempfile
import unittest

from rrv_tools import preload


def python(*lines: str) -> list[str]:
    """The words that run lines of Python, whose calls of the system are those of its module os."""
    return [sys.executable, "-c", "\n".join(["import os", *lines])]


class Libraries(unittest.TestCase):
    """Both libraries, over programs of the system."""

    seconds = 2
    folder: pathlib.Path

    def setUp(self) -> None:
        self.folder = pathlib.Path(self.enterContext(tempfile.TemporaryDirectory()))

    def test_calls_are_noted(self) -> None:
        """A write to standard output, and one to a file at a place, with its sync."""
        lines = ["os.write(1, b'text')", "f = os.open('file', os.O_CREAT | os.O_RDWR)", "os.pwrite(f, b'data', 7)"]
        ended, moments = preload.run(preload.needed(self.folder), python(*lines, "os.fsync(f)"), cwd=self.folder)
        self.assertEqual(ended, (0, b"text", b""))
        calls = [it for it in moments if it.call in preload.CHANGES]
        self.assertEqual([it.call for it in calls], ["write", "write", "pwrite", "pwrite", "fsync", "fsync"])
        self.assertEqual([it.has_ended for it in calls], 3 * [False, True])
        self.assertEqual([(it.at, it.result, it.data) for it in calls[:4]],
                         [(0, 0, b"text"), (0, 4, b""), (7, 0, b"data"), (7, 4, b"")])
        self.assertEqual(calls[4].data.decode(), str(self.folder.resolve() / "file"))

    def test_a_chosen_write_fails(self) -> None:
        """The second write to standard output fails by ENOSPC, which is 28, after half of its bytes."""
        options = {"CHOSEN_CALLS": "o", "CHOSEN_NTH": 2, "CHOSEN_DONE": 1, "CHOSEN_ERROR": 28}
        words = python("os.write(1, b'one')", "os.write(1, b'text')")
        ended, moments = preload.run(preload.needed(self.folder), words, options)
        self.assertEqual((ended.status, ended.out), (1, b"onete"))
        self.assertIn(b"[Errno 28]", ended.err)
        self.assertEqual([it.result for it in moments if it.is_chosen], [-1])

    def test_growths_are_refused(self) -> None:
        """`sort` can't go on without its first growth, and reaches no growth of a number that is never asked for."""
        shared, words = preload.needed(self.folder, "refusing"), [shutil.which("sort") or "sort"]
        reached, ended = preload.refuse(shared, words, 1, preload.ALL, input=b"b\na\n")
        self.assertTrue(reached and ended and ended.status != 0)
        self.assertEqual(preload.refuse(shared, words, 1 << 40, input=b"b\na\n"), (False, (0, b"a\nb\n", b"")))
