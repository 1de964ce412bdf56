"""The commands of README.md, docs/GUIDE.md and docs/BUILDING.md: each prints what stands below it.

Expected values: the lines below the commands. The counts, records, states and digest of the race that stand there agree
with a restatement in Python (rrv_tools.threads).

A command is a line of a code block that begins with `$ `. The lines below it are what it prints, on standard output
and standard error: `...` alone on a line stands for any lines, also for none, and `..` within a line for letters,
digits and signs without a space. All commands of a page are run by one shell, in a folder that has a copy of
examples/, the release, the tools, and the program as ./rrv, which is first on the PATH.

Those that LEFT_OUT lists aren't run. The guide's section on one's own program needs a C library, so only
`./check --real` runs it. Those of the compiler's package, which begin with `riscv64-`, are run only if the
environment variable RRV_COMPILER is set: they print what its version prints.

One page kills `rrv` while it records four guests. What each guest had printed has to be a beginning of what is
replayed.
"""
import os
import pathlib
import re
import shlex
import shutil
import signal
import subprocess
from typing import ClassVar, NamedTuple

from rrv_tools import musl
from rrv_tools.program import ROOT
from rrv_tools.testing import Case, rows

PAGES = ("README.md", "docs/GUIDE.md", "docs/BUILDING.md")
INDENT, PROMPT, COMPILER, DEBUGGER = "    ", "$ ", "riscv64-", "gdb-multiarch"
END = "-- end of a command --"
SECONDS = 600
# The section of the guide whose commands compile over musl.
OWN = "## Your own program"
# The commands that no page's run can have, by how they begin, and why.
LEFT_OUT = {
    "git clone ": "it needs the place of a repository",
    "./check": "it runs these cases itself, and takes minutes to hours",
    "tools/run release": "it writes the release of the repository",
    "tools/run package": "it takes the program of the repository, and cases look at what it makes",
    "examples/musl/build-": "it takes minutes, and ./check --real builds what it builds",
}


class Command(NamedTuple):
    """A command of a page: the number of its line, its words, and the lines that it has to print."""

    number: int
    words: str
    lines: list[str]

    def reason(self) -> str:
        """Why it isn't run; nothing if it is."""
        if self.words.startswith(DEBUGGER):
            return "" if shutil.which(DEBUGGER) else f"{DEBUGGER} is not installed"
        if self.words.startswith(COMPILER):
            return "" if os.environ.get("RRV_COMPILER") else "it needs the compiler, and RRV_COMPILER to be set"
        return next((reason for begins, reason in LEFT_OUT.items() if self.words.startswith(begins)), "")


def commands_of(page: str, of_own: bool = False) -> dict[str, Command]:
    """The commands of a page, in order, by the names of their cases: those of the section OWN, or all others."""
    found: list[Command] = []
    is_inside, is_own = False, False
    for number, line in enumerate((ROOT / page).read_text(encoding="utf-8").splitlines(), 1):
        if line.startswith("## "):
            is_own = line == OWN
        if is_own != of_own:
            continue
        if line.startswith(INDENT + PROMPT):
            found.append(Command(number, line.removeprefix(INDENT + PROMPT), []))
            is_inside = True
        elif is_inside and line.startswith(INDENT):
            found[-1].lines.append(line.removeprefix(INDENT))
        else:
            is_inside = False
    return {f"{it.number} {it.words:.60}": it for it in found}


def pattern_of(lines: list[str]) -> str:
    """What these lines stand for, as an expression."""
    texts = (r"\S+".join(map(re.escape, re.split(r"(?<!\.)\.\.(?!\.)", it))) + r"\n" for it in lines)
    return "".join(r"(?:.*\n)*?" if it.strip() == "..." else text for it, text in zip(lines, texts, strict=True))


def furnish(folder: pathlib.Path, program: pathlib.Path) -> None:
    """Puts into a folder what commands take from the top of the repository. A tool there runs the repository's own."""
    shutil.copytree(ROOT / "examples", folder / "examples")
    (folder / "rrv").symlink_to(program)
    (folder / "release").symlink_to(ROOT / "release")
    (folder / "tools").mkdir()
    for tool in (ROOT / "tools").iterdir():
        if tool.is_file() and os.access(tool, os.X_OK):
            named = folder / "tools" / tool.name
            named.write_text(f'#!/bin/sh\nexec {shlex.quote(str(tool))} "$@"\n', encoding="utf-8")
            named.chmod(0o755)


def run_all(words: list[str], folder: pathlib.Path) -> list[str]:
    """What each of these commands prints, as far as they come."""
    script = "".join(f"{it}\nprintf '\\n%s\\n' '{END}'\n" for it in words)
    environment = {**os.environ, "PATH": f"{folder}:{os.environ.get('PATH', os.defpath)}", "LC_ALL": "C"}
    with subprocess.Popen(["sh", "-c", script], cwd=folder, env=environment, start_new_session=True,
                          stdin=subprocess.DEVNULL, stdout=subprocess.PIPE, stderr=subprocess.STDOUT) as shell:
        try:
            printed, _ = shell.communicate(timeout=SECONDS)
        except subprocess.TimeoutExpired:
            os.killpg(shell.pid, signal.SIGKILL)
            printed, _ = shell.communicate()
        except BaseException:
            os.killpg(shell.pid, signal.SIGKILL)
            raise
    return printed.decode(errors="replace").split(f"\n{END}\n")[:-1]


class Page(Case):
    """A page, whose commands run before its first case."""

    shares_folder = True
    commands: ClassVar[dict[str, Command]]
    printed: ClassVar[dict[int, str]]

    @classmethod
    def setUpClass(cls) -> None:
        super().setUpClass()
        cls.prepare()
        furnish(cls.class_folder, cls.program.path)
        kept = [it for it in cls.commands.values() if not it.reason()]
        printed = run_all([it.words for it in kept], cls.class_folder)
        cls.printed = {it.number: text for it, text in zip(kept, printed, strict=False)}

    @classmethod
    def prepare(cls) -> None:
        """What has to be there before the commands."""

    def follow(self, command: Command) -> None:
        """Compares what a command printed with what stands there."""
        if command.reason():
            self.skipTest(f"{command.words}: {command.reason()}")
        text = self.printed.get(command.number)
        if text is None or not re.fullmatch(pattern_of(command.lines), text):
            came = "it did not end" if text is None else f"it prints\n{text}"
            wanted = "".join(f"{it}\n" for it in command.lines)
            raise self.failureException(f"line {command.number}: {command.words}\nwanted\n{wanted}{came}")


@rows(commands_of("README.md"), "follow")
class Readme(Page):
    """README.md."""

    commands = commands_of("README.md")


@rows(commands_of("docs/GUIDE.md"), "follow")
class Guide(Page):
    """docs/GUIDE.md."""

    seconds = 8
    commands = commands_of("docs/GUIDE.md")


@rows(commands_of("docs/GUIDE.md", of_own=True), "follow")
class OwnProgram(Page):
    """The section of docs/GUIDE.md that compiles a program."""

    is_real = True
    seconds = 30
    commands = commands_of("docs/GUIDE.md", of_own=True)

    @classmethod
    def prepare(cls) -> None:
        musl.need()
        musl.need_cxx()


@rows(commands_of("docs/BUILDING.md"), "follow")
class Building(Page):
    """docs/BUILDING.md, and that each entry of LEFT_OUT is needed."""

    commands = commands_of("docs/BUILDING.md")

    def test_left_out(self) -> None:
        """Each entry of LEFT_OUT is the beginning of a command of a page."""
        words = [it.words for page in PAGES for own in (False, True) for it in commands_of(page, own).values()]
        self.need("entries that no page has", [], [it for it in LEFT_OUT if not any(w.startswith(it) for w in words)])
