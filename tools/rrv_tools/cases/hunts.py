"""The faults of the programs of examples/hunt, as `hunt` finds them, and recordings by what it found.

Expected values: the table of examples/hunt/README.md, which has the end of each fault and how many switches it takes.
"""
import pathlib
import re
import subprocess
from typing import NamedTuple

from rrv_tools.program import ROOT
from rrv_tools.testing import Case, difference, rows

HUNTS = ROOT / "examples" / "hunt"
SECONDS = 600
# The lists are the same with any number of jobs. More than one would make some after the one that is found.
SEED, LISTS, JOBS = 3, 300, 1
PROGRAMS = 4


class Fault(NamedTuple):
    """Of a program its end once its fault is found, and how many switches the shortened list has at most."""

    name: str
    end: str
    switches: int


ROW = re.compile(r"(?m)^\| `(\w+)\.c` \|[^|]*\| list \d+: `end (.*?)`[^|]* after (\d+) switch")
TABLE = {name: Fault(name, end, int(switches))
         for name, end, switches in ROW.findall((HUNTS / "README.md").read_text(encoding="utf-8"))}


@rows(TABLE, "hunt")
class Hunts(Case):
    """The hunts of the table."""

    seconds = 45

    def hunt(self, fault: Fault) -> None:
        """Finds a list, and records the guest by it."""
        file = HUNTS / f"{fault.name}.elf"
        options = ["--seed", str(SEED), "--lists", str(LISTS), "--jobs", str(JOBS)]
        words = [str(HUNTS / "hunt"), "--rrv", str(self.program.path), *options, str(file)]
        done = subprocess.run(words, stdin=subprocess.DEVNULL, capture_output=True, text=True, timeout=SECONDS,
                              check=False)
        head = re.match(rf"# {fault.name}\.elf: end (.*?), switches (\d+)\.", done.stdout)
        if done.returncode != 0 or not head:
            raise self.failureException(f"hunt: status {done.returncode}\n{done.stdout}\n{done.stderr}")
        self.need("end", fault.end, head[1])
        self.assertLessEqual(int(head[2]), fault.switches, "switches")
        pathlib.Path("choices").write_text(done.stdout, encoding="utf-8")
        self.need_again(fault, file)

    def need_again(self, fault: Fault, file: pathlib.Path) -> None:
        """By the list, the guest ends so again."""
        self.need_line("new", "s")
        report = self.need_line("record", "--choices", "choices", "s", file, out=None, err=None).err.decode()
        begin = f"g0: end {fault.end}, records "
        if not report.startswith(begin):
            raise self.failureException(difference("report", f"{begin}..", report))
        verified = self.need_line("verify", "s", 0, out=None).out.decode()
        self.need("end of the verification", f" end {fault.end}\n", verified[verified.find(" end "):])

    def test_table(self) -> None:
        """The table has all programs."""
        self.need("programs", PROGRAMS, len(TABLE))
