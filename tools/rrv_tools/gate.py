"""The gate, `./check --proofs`: it has `rt ci` prove and test all, and compares the release with what that built."""
import collections
import os
import pathlib
import re
import shutil
import subprocess
import sys
import threading
from collections.abc import Callable

from rrv_tools.jobs import COUNT, Counts, counts_in
from rrv_tools.program import ROOT
from rrv_tools.prover.libraries import checks_at_once

PROGRAM, RELEASE = ROOT / "crates" / "rrv" / "out" / "rrv", ROOT / "release" / "rrv"
TICKS = os.sysconf("SC_CLK_TCK")
PROC = pathlib.Path("/proc")
# Looks at a program, and returns what they counted.
LookAt = Callable[[pathlib.Path], list[Counts]]


class Times:
    """The processor time of each process of the prover, by crate and by kind, as long as it runs."""

    def __init__(self) -> None:
        self.seconds: dict[tuple[str, str], float] = {}
        self.known: dict[tuple[str, str], tuple[str, str]] = {}
        self.ended = threading.Event()
        self.thread = threading.Thread(target=self.watch, daemon=True)

    def watch(self) -> None:
        """Looks at all processes twice a second."""
        while not self.ended.wait(0.5):
            for pid in filter(str.isdigit, os.listdir(PROC)):
                self.look_at(pid)

    def look_at(self, pid: str) -> None:
        """Keeps the time of a process, if it is one of the prover."""
        try:
            fields = fields_of(pid)
            key = pid, fields[19]
            # One that was just started may still be to become the prover, so it is looked up again.
            kind = self.known.get(key) or kind_of(pid)
            if kind:
                self.known[key] = kind
                self.seconds[key] = (int(fields[11]) + int(fields[12])) / TICKS
        except (OSError, IndexError, ValueError):
            pass

    def end(self) -> None:
        """Ends its thread."""
        self.ended.set()
        self.thread.join()

    def print(self) -> None:
        """Prints the minutes of each crate."""
        kinds = ("proofs", "tests", "edits")
        rows: dict[str, dict[str, float]] = collections.defaultdict(lambda: dict.fromkeys(kinds, 0.0))
        for key, seconds in self.seconds.items():
            crate, kind = self.known[key]
            rows[crate][kind] += seconds / 60
        rows["all"] = {kind: sum(it[kind] for it in rows.values()) for kind in kinds}
        print(f"{'minutes':16}" + "".join(f"{it:>9}" for it in kinds))
        for crate, row in sorted(rows.items(), key=lambda it: sum(it[1].values())):
            print(f"{crate:16}" + "".join(f"{row[it]:9.1f}" for it in kinds), flush=True)


def fields_of(pid: str) -> list[str]:
    """What the system says of a process, after its name."""
    return (PROC / pid / "stat").read_text(encoding="utf-8", errors="replace").rpartition(")")[2].split()


def is_ours(pid: str) -> bool:
    """Whether this gate started the process, or one that did."""
    while pid not in ("0", "1", str(os.getpid())):
        pid = fields_of(pid)[1]
    return pid == str(os.getpid())


def kind_of(pid: str) -> tuple[str, str] | None:
    """The crate, and whether its proof, its tests or an edit is checked; None for another process."""
    words = (PROC / pid / "cmdline").read_text(encoding="utf-8", errors="replace").split("\0")
    if os.path.basename(words[0]) != "rattle" or "--crate-name" not in words or not is_ours(pid):
        return None
    of_edit = "rt-edit-" in os.path.basename(os.readlink(PROC / pid / "cwd"))
    kind = "edits" if of_edit else "tests" if "--test" in words else "proofs"
    return words[words.index("--crate-name") + 1], kind


def run(*words: str | pathlib.Path) -> tuple[Counts, str]:
    """Runs a command of the gate, prints what it prints but its last count, and returns that with all the rest. Each
    check that `rt ci` runs has one job: each further one would read all libraries once more, which takes up to as much
    processor time again."""
    environment = {"RT_JOBS": str(checks_at_once()), **os.environ}
    printed, held = [], ""
    with subprocess.Popen(words, cwd=ROOT, env=environment, stdin=subprocess.DEVNULL, stdout=subprocess.PIPE, text=True,
                          errors="replace") as ran:
        for line in ran.stdout or ():
            print(held, end="", flush=True)
            held = line if COUNT.fullmatch(line) else ""
            print("" if held else line, end="", flush=True)
            printed.append(line)
    text = "".join(printed)
    return counts_in(text, ran.returncode), text


def compare_logic() -> Counts:
    """Whether the kit in use proves by the logic that release/FROM names. The kit's own name differs from machine to
    machine, the logic's doesn't."""
    said = subprocess.run(["rt", "version"], stdout=subprocess.PIPE, text=True, check=False).stdout
    try:
        named = re.findall(r"\blogic:?\s+(\w+)", (ROOT / "release" / "FROM").read_text(encoding="utf-8"))
    except OSError as error:
        print(f"check: there is no release to compare with: {error}")
        return 0, 1
    if named and re.findall(r"\blogic (\w+)", said) == named:
        return 1, 0
    print(f"check: release/FROM names the logic {' '.join(named)}, and rt version prints {said.strip()}", flush=True)
    return 0, 1


def prove(with_times: bool) -> Counts:
    """Has `rt ci` prove and test all."""
    times = Times()
    if with_times:
        times.thread.start()
    counts, _ = run(ROOT / "tools" / "run", "build", "--by", "rt", "ci")
    if with_times:
        times.end()
        times.print()
    return counts


def compare_release(look_at_both: LookAt) -> list[Counts]:
    """Compares the release with what the gate built; by some looks at both, if another kit built it."""
    counts, printed = run(ROOT / "tools" / "run", "release", "--check")
    found = [counts]
    if "compare both" in printed.splitlines():
        for program in (RELEASE, PROGRAM):
            print(f"the program is {program.relative_to(ROOT)}", flush=True)
            found += look_at_both(program)
    return found


def gate(with_times: bool, look_at_both: LookAt, look: Callable[[], list[Counts]]) -> list[Counts]:
    """Proves all, compares the release, and looks at the program."""
    if not shutil.which("rt"):
        print("check: --proofs needs the Rattle toolchain: its command rt is not on the PATH", file=sys.stderr)
        return [(0, 1)]
    counts = [compare_logic(), prove(with_times)]
    if counts[-1][1]:
        print("check: the proofs and tests don't pass, so there is no program to look at", flush=True)
        return counts
    return counts + compare_release(look_at_both) + look()
