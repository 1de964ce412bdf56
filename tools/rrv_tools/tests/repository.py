"""A made-up repository in which the tests of the prover's aids run these, with a toolchain that is made up too."""
import contextlib
import os
import pathlib
import shutil
import signal
import subprocess
import sys
import tempfile
import unittest
from collections.abc import Iterator, Mapping
from dataclasses import dataclass

ROOT = pathlib.Path(__file__).resolve().parents[3]


@dataclass(frozen=True)
class Done:
    """The status of a command, and the lines that it printed."""

    status: int
    lines: list[str]


class InRepository(unittest.TestCase):
    """Each case has a repository with the package, two scripts, these files, and this text as its `rt`."""

    seconds = 3.0
    files: Mapping[str, str] = {}
    rt = "#!/bin/sh\necho 'kit logic 1'\n"

    def setUp(self) -> None:
        super().setUp()
        self.folder = pathlib.Path(self.enterContext(tempfile.TemporaryDirectory())).resolve()
        self.root, self.log = self.folder / "repository", self.folder / "log"
        package = "tools/rrv_tools"
        made = shutil.ignore_patterns("__pycache__")
        shutil.copytree(ROOT / package / "prover", self.root / package / "prover", ignore=made)
        for it in (f"{package}/__init__.py", f"{package}/__main__.py", "tools/run", "tools/program", "tools/text_sum"):
            shutil.copy(ROOT / it, self.root / it)
        for path, text in self.files.items():
            self.write(path, text)
        self.write("HANDLES", "")
        self.write("../kit/bin/rt", self.rt)
        for it in ("KIT-ID", "WHAT"):
            self.write(f"../kit/{it}", it)
        (self.folder / "kit/bin/rt").chmod(0o755)
        # What the PATH has may be a script that looks for Python first.
        (self.folder / "kit/bin/python3").symlink_to(sys.executable)

    def write(self, path: str, text: str) -> None:
        """Writes a file of the repository."""
        file = self.root / path
        file.parent.mkdir(parents=True, exist_ok=True)
        file.write_text(text, encoding="utf-8")

    def read(self, path: str) -> str:
        """The text of a file of the repository."""
        return (self.root / path).read_text(encoding="utf-8")

    def change(self, path: str, old: str, new: str) -> None:
        """Puts a text in the place of another, which has to stand in the file once."""
        self.assertEqual(self.read(path).count(old), 1)
        self.write(path, self.read(path).replace(old, new))

    def logged(self) -> list[str]:
        """What `rt` wrote down."""
        return self.log.read_text(encoding="utf-8").splitlines() if self.log.exists() else []

    def environment(self, **more: str) -> dict[str, str]:
        """The environment of a tool, with the toolchain that is made up on the PATH."""
        path = f"{self.folder}/kit/bin:{os.environ['PATH']}"
        return {**os.environ, "PATH": path, "LOG": str(self.log), "PYTHONDONTWRITEBYTECODE": "1", **more}

    def path_without_rt(self) -> str:
        """A PATH without `rt`."""
        folders = os.environ["PATH"].split(os.pathsep)
        return os.pathsep.join(it for it in folders if not os.path.exists(f"{it}/rt"))

    @contextlib.contextmanager
    def begin(self, *words: str, command: str = "tools/run", **more: str) -> Iterator[subprocess.Popen[str]]:
        """Starts a tool, or another command of the repository, in a group of processes of its own. That is ended if
        what is done meanwhile fails."""
        with subprocess.Popen([self.root / command, *words], cwd=self.folder, env=self.environment(**more),
                              stdin=subprocess.DEVNULL, stdout=subprocess.PIPE, stderr=subprocess.STDOUT, text=True,
                              start_new_session=True) as ran:
            try:
                yield ran
            except BaseException:
                if ran.poll() is None:
                    os.killpg(ran.pid, signal.SIGKILL)
                raise

    def tool(self, *words: str, **more: str) -> Done:
        """Runs a tool to its end."""
        with self.begin(*words, **more) as ran:
            printed = ran.communicate(timeout=300)[0]
        return Done(ran.returncode, printed.splitlines())

    def passes(self, count: int, *words: str) -> None:
        """A look passes, and counts so many."""
        self.assertEqual(self.tool(*words), Done(0, [f"{count} passed, 0 failed"]))

    def fails(self, *words: str, says: str) -> None:
        """A look fails in one thing alone, which a line names."""
        done = self.tool(*words)
        self.assertEqual(done.status, 1, done)
        self.assertRegex(done.lines[-1], r"^\d+ passed, 1 failed$")
        self.assertTrue(any(says in it for it in done.lines[:-1]), done)
