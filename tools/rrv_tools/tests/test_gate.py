"""The gate, in a repository and with a toolchain that are made up: what fails it, and what it looks at then."""
import contextlib
import io
import pathlib
import re
import shutil
import subprocess
import sys
import tempfile
import unittest
from unittest import mock

from rrv_tools import check, gate
from rrv_tools.testing import rows
from rrv_tools.tests.repository import ROOT, Done, InRepository
from rrv_tools.tests.test_release import BUILT, PROGRAM, SOURCE, sum_of

PACKAGE, FROM, RELEASE = "tools/rrv_tools", "release/FROM", "release/rrv"
MODULES = ("check", "gate", "jobs", "musl", "preload", "program", "testing")
# Has a command of the toolchain do this for `rt ci`.
RT = "#!/bin/sh\ncase $1 in\nversion) echo 'kit-1 logic 5eed' ;;\nci) echo proving\n{} ;;\nesac\n"
WELL = "echo '3 passed, 0 failed'"
# In place of tools/run, this notes its words, and passes. The release is compared by the package's tool; with RUN_BUILD
# that builds too, so that it notes of what it built the program, which then is started.
RUN = """#!/bin/sh
echo "$*" >> "$LOG"
case $1 in
build) shift 2; exec "$@" ;;
release) exec "${0%/*}/run_tool" "$@" ;;
*) echo '1 passed, 0 failed' ;;
esac
"""
RUN_BUILD = RUN.replace("build) shift 2; exec \"$@\" ;;\nrelease)", "build | release)")
CASES = """import os
import unittest

class Lines(unittest.TestCase):
    def test_it(self):
        with open(os.environ["LOG"], "a") as log:
            log.write(f"cases of {os.path.relpath(os.environ['RRV_PROGRAM'])}\\n")
"""
# What the gate runs to prove, and to compare the release; and what it looks at then.
PROVES, COMPARES = "build --by rt ci", "release --check"
LOOKS = [" ".join(it.words[1:]) for it in (*check.OF_PROOFS, *check.LOOKS)]
# How many it counts if all is well: the logic, those of `rt ci`, the looks at the release, and a case.
COUNTED = 1 + 3 + 4 + len(LOOKS) + 1
# The same if release/FROM names another kit: its case runs on both programs too, and the bytes are not compared.
BOTH_COUNTED = COUNTED - 1 + 2
BOTH_LOOKS = [PROVES, COMPARES, *LOOKS, f"cases of {BUILT}", *2 * [f"cases of {RELEASE}"]]
# What `rt ci` does, and how many it counts as passed.
FAILURES = {
    "a failure that is counted": ("echo '2 passed, 1 failed'; exit 1", 2),
    "a failure that is counted, with the status 0": ("echo '2 passed, 1 failed'", 2),
    "another status": (f"{WELL}; exit 3", 3),
    "a signal": (f"{WELL}; kill $$", 3),
    "no count": ("echo '3 passed'", 0),
    "a count that is not the last line": (f"{WELL}; echo more", 0),
}


@rows(FAILURES, "refuse_to_look")
class Gate(InRepository):
    """`./check --proofs`."""

    seconds = 15
    rt = RT.format(WELL)
    files = {
        "crates.txt": "rrv: std\n", SOURCE: "text\n", f"{PACKAGE}/tests/__init__.py": "",
        f"{PACKAGE}/cases/__init__.py": "", f"{PACKAGE}/cases/lines.py": CASES,
        FROM: "version: 1.2.3\nmachine: x86-64 Linux, GLIBC 2.34 or later\nkit: kit-1 logic 5eed\n"
              f"text: {sum_of('text' + chr(10))}\n",
        **dict.fromkeys((BUILT, RELEASE), PROGRAM.replace("SUM", sum_of("text\n")[:12])),
    }

    def setUp(self) -> None:
        super().setUp()
        for it in ("check", *(f"{PACKAGE}/{name}.py" for name in MODULES)):
            shutil.copy(ROOT / it, self.root / it)
        shutil.copy(self.root / "tools/run", self.root / "tools/run_tool")
        for it in (BUILT, RELEASE):
            (self.root / it).chmod(0o755)
        self.write("tools/run", RUN)

    def gate(self, *words: str, **more: str) -> Done:
        """Runs the gate."""
        return self.tool("--proofs", *words, command="check", **more)

    def need(self, done: Done, passed: int, failed: int, looked_at: list[str], *lines: str) -> None:
        """The gate counted these, looked at these, in any order, and printed these lines among others."""
        self.assertEqual((done.status, done.lines[-1]), (min(failed, 1), f"{passed} passed, {failed} failed"), done)
        self.assertEqual(sorted(self.logged()), sorted(looked_at))
        self.assertEqual([it for it in lines if it not in done.lines], [], done)

    def test_well(self) -> None:
        """It prints what `rt ci` prints but its count, and looks at what that built."""
        self.write("tools/run", RUN_BUILD)
        done = self.gate()
        self.need(done, COUNTED, 0, [PROVES, COMPARES, *LOOKS, f"cases of {BUILT}"])
        self.assertEqual(done.lines[:2], ["proving", f"the program is {BUILT}"])

    def test_no_toolchain(self) -> None:
        """Nothing is looked at."""
        text = "check: --proofs needs the Rattle toolchain: its command rt is not on the PATH"
        self.need(self.gate(PATH=self.path_without_rt()), 0, 1, [], text)

    def test_other_logic(self) -> None:
        """That fails it."""
        self.change(FROM, "logic 5eed", "logic 0ff")
        self.need(self.gate(), BOTH_COUNTED - 1, 1, BOTH_LOOKS,
                  "check: release/FROM names the logic 0ff, and rt version prints kit-1 logic 5eed")

    def test_other_kit(self) -> None:
        """With the same logic it passes, and the bytes of both programs may differ."""
        self.change(FROM, "kit-1", "kit-2")
        self.change(BUILT, "# GLIBC_2.4", "# GLIBC_2.5")
        self.need(self.gate(), BOTH_COUNTED, 0, BOTH_LOOKS, "compare both")

    def test_no_release(self) -> None:
        """Neither its logic nor its bytes can be compared."""
        self.write("tools/run", RUN_BUILD)
        (self.root / FROM).unlink()
        self.need(self.gate(), COUNTED - 5, 2, [PROVES, COMPARES, *LOOKS, f"cases of {BUILT}"],
                  "release: there is no release: tools/run release writes it")

    def test_release_that_differs(self) -> None:
        self.change(RELEASE, "# GLIBC_2.4", "# GLIBC_2.5")
        text = "release: release/rrv is not the program that was built: they differ at byte 52, wanted none"
        self.need(self.gate(), COUNTED - 1, 1, [PROVES, COMPARES, *LOOKS, f"cases of {RELEASE}"], text)

    def test_look_that_fails(self) -> None:
        self.write("tools/run", RUN.replace("*)", "places) echo '0 passed, 1 failed'; exit 1 ;;\n*)"))
        self.need(self.gate(), COUNTED - 1, 1, [PROVES, COMPARES, *LOOKS, f"cases of {RELEASE}"])

    def refuse_to_look(self, row: tuple[str, int]) -> None:
        """If `rt ci` doesn't pass, no program is looked at."""
        does, passed = row
        self.write("../kit/bin/rt", RT.format(does))
        text = "check: the proofs and tests don't pass, so there is no program to look at"
        self.need(self.gate(), 1 + passed, 1, [PROVES], "proving", text)

    def test_times(self) -> None:
        """A process of the prover that ran for a second has less than a tenth of a minute."""
        (self.folder / "kit/bin/rattle").symlink_to(sys.executable)
        self.write("../kit/bin/rt", RT.format(f"rattle -c 'import time; time.sleep(1)' --crate-name rrv; {WELL}"))
        done = self.gate("--times")
        self.need(done, COUNTED, 0, [PROVES, COMPARES, *LOOKS, f"cases of {RELEASE}"])
        self.assertEqual([it.split() for it in done.lines[1:4]],
                         [["minutes", "proofs", "tests", "edits"], ["rrv", *3 * ["0.0"]], ["all", *3 * ["0.0"]]])


class Times(unittest.TestCase):
    """The table of the prover's processes."""

    # The names of a process and of its folder, a word after its crate, and what it counts as.
    PROCESSES = (("rattle", "low", "--edition", "proofs"), ("rattle", "low", "--test", "tests"),
                 ("rattle", "rt-edit-1", "--test", "edits"), ("other", "low", "--test", ""))

    def known(self, name: str, place: str, word: str) -> list[tuple[str, str]]:
        """What is known of a process once it was looked at."""
        folder, times = pathlib.Path(self.enterContext(tempfile.TemporaryDirectory())), gate.Times()
        (folder / place).mkdir()
        (folder / name).symlink_to(sys.executable)
        words = [str(folder / name), "-c", "print('begun', flush=True); input()", "--crate-name", "low", word]
        with subprocess.Popen(words, cwd=folder / place, stdin=subprocess.PIPE, stdout=subprocess.PIPE) as ran:
            # Before that it may not have its words yet.
            self.assertEqual(ran.stdout and ran.stdout.readline(), b"begun\n")
            times.look_at(str(ran.pid))
            ran.communicate(b"\n")
        return [*times.known.values()]

    def test_kinds(self) -> None:
        """Each process has its crate and its kind; one of another name has none."""
        for *words, kind in self.PROCESSES:
            self.assertEqual(self.known(*words), [("low", kind)] if kind else [])

    def test_a_process_of_another(self) -> None:
        """One that the gate didn't start has no kind."""
        with mock.patch("os.getpid", lambda: 1 << 30):
            self.assertEqual(self.known("rattle", "low", "--test"), [])

    def test_table(self) -> None:
        """Minutes by crate and kind, the crate that took longest at the end, and their sum."""
        times, printed = gate.Times(), io.StringIO()
        made = (("low", "proofs", 90.0), ("high", "proofs", 120.0), ("high", "tests", 30.0), ("high", "tests", 6.0),
                ("low", "edits", 12.0))
        for number, (crate, kind, seconds) in enumerate(made):
            times.known[f"{number}", ""], times.seconds[f"{number}", ""] = (crate, kind), seconds
        with contextlib.redirect_stdout(printed):
            times.print()
        self.assertEqual(re.sub(" +", " ", printed.getvalue()).splitlines(),
                         ["minutes proofs tests edits", "low 1.5 0.0 0.2", "high 2.0 0.6 0.0", "all 3.5 0.6 0.2"])
