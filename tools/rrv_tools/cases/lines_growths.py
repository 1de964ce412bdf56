"""Lines of the program, once more for each of their growths of memory, which is then refused.

Expected values: what the line prints and leaves if no growth is refused, and the text of the refusal.

The program has to print that it is out of memory, with nothing in its output and no core file, or to do all that the
line asks for without that growth. `list`, `dump` and `last` print each line once they have read what it needs, so there
the output may be the first of the lines. `ask` may answer one of its questions so, and has to answer all others as
before.
"""
import contextlib
import itertools
import pathlib
import re
from typing import NamedTuple

from rrv_tools import preload
from rrv_tools.cases.lines import MIXED
from rrv_tools.lines import FILES, write_files
from rrv_tools.store import EMPTY
from rrv_tools.testing import Case, rows

MADE = ("new s", "record s exit_five", "new w", "record w writes")
# Braces stand for the growth's number: `record` and `copy` get a new store each time, and `core` a new file.
REFUSED = (
    "help", "help list", "new n{}", "record r{} exit_five", "record --name five m{} exit_five exit_five",
    "record --limit 200 l{} spins", "record --choices unfit c{} exit_five", "record --upgrade u{} exit_five",
    "check exit_five", "check compressed", "elf s 0", "list s", "list --long s", "dump s 0", "dump --places s 0",
    "dump --trace-events s 0", "verify s 0", "verify --long s 0", "replay s 0", f"replay --at end {MIXED} s 0",
    "back s 0 3 1", "last s 0 3 7FFFFF90", "last --word --times 3 --short w 0 end 10000", "choices s 0",
    "copy s 0 t{}", "core s 0 end core.{}", "ask s 0",
)  # fmt: skip
# Those that print each line once they have read what it needs. The line of no words does as `dump`, and then verifies.
PRINT_AS_READ = ("list ", "dump ", "last ")
# What `ask` reads: each answer is the same at each place of that guest, so also after a question that was refused.
QUESTIONS = ("at end", "last 7FFFFF90", "choices", "at 2", "next 7FFFFF90", "memory 10000:96", "go", "forward 4",
             "back 4", "at 0", "quiet", "at 1", "full", "help")
READ = "".join(f"{it}\n" for it in QUESTIONS).encode()
MEMORY = b"rrv: out of memory\n"


class End(NamedTuple):
    """How a line ended, and the core file that it left."""

    status: int
    out: bytes
    err: bytes
    core: bytes | None


def beginnings(text: bytes, most: int) -> list[bytes]:
    """The beginnings of a text by lines, less than a number of them."""
    lines = text.splitlines(keepends=True)
    return [b"".join(lines[:it]) for it in range(min(most, len(lines)))] or [b""]


def answers_memory(done: End, whole: End) -> bool:
    """Whether `ask` answered one question by printing that there is no memory, and all others as before; or printed so
    in place of reading on."""
    answers, wanted = (re.split(rb"^\.\n", it.out, flags=re.M) for it in (done, whole))
    if done.status == 1:
        return done.err == MEMORY and answers == [*wanted[: len(answers) - 1], b""]
    others = [one for one, other in zip(answers, wanted, strict=False) if one != other]
    return (done.status, done.err, len(answers), others) == (0, b"", len(wanted), [MEMORY])


def prints_memory(words: str, done: End, whole: End) -> bool:
    """Whether a line printed that there is no memory, after no output or, if it prints as it reads, the first of the
    lines, and after no report or, if more lines of reports follow, the first of them; and left no core file."""
    if words.startswith("ask"):
        return answers_memory(done, whole)
    begins = beginnings(whole.out, 1 << 30 if words.startswith(PRINT_AS_READ) or not words else 1)
    if "--trace-events" in words:
        # A comma comes with the event after it, and so does the newline.
        begins += [it.removesuffix(b"\n").removesuffix(b",") for it in begins]
    refused = [it + MEMORY for it in beginnings(whole.err, 1 << 30)]
    return done.status == 1 and done.err in refused and done.out in begins and done.core is None


def numbered(words: str, number: int) -> list[str]:
    """The words for the growth of this number, with the new store that they need."""
    if words.startswith(("record", "copy")):
        name = next(it for it in words.split() if "{}" in it)
        pathlib.Path(name.format(number)).write_bytes(EMPTY)
    return words.format(number).split()


@rows({"no words": "", "option help": "--help", **{it: it for it in REFUSED}}, "refuse_each")
class Growths(Case):
    """Each growth of a line is refused in turn."""

    seconds, library, shares_folder = 160, "refusing", True

    @classmethod
    def setUpClass(cls) -> None:
        super().setUpClass()
        write_files(FILES)
        for it in MADE:
            cls.program.run_well(*it.split())

    def ended(self, words: list[str], nth: int) -> tuple[bool, End]:
        """Whether a line came to its growth of this number, which is refused, and how it ended."""
        read = READ if words[:1] == ["ask"] else b""
        reached, result = preload.refuse(self.shared, self.program.words(*words), nth, input=read)
        if result is None:
            raise self.failureException(f"without growth {nth} it did not end")
        core = None
        if words[:1] == ["core"]:
            with contextlib.suppress(FileNotFoundError):
                core = pathlib.Path(words[-1]).read_bytes()
        return reached, End(*result, core)

    def refuse_each(self, words: str) -> None:
        """Refuses each growth of a line, of which one at least has to be printed."""
        # There is no growth number 0.
        _, whole = self.ended(numbered(words, 0), 1 << 62)
        printed, wrong = 0, []
        for nth in itertools.count(1):
            reached, done = self.ended(numbered(words, nth), nth)
            if not reached:
                break
            if prints_memory(words, done, whole):
                printed += 1
            elif done != whole:
                wrong.append(f"growth {nth}: {done!r:.300}")
        if wrong or not printed:
            raise self.failureException("\n".join([f"rrv {words}: out of memory {printed} times", *wrong[:3]]))
