"""Control characters of words, of names of files and of questions are printed escaped.

Expected values: docs/FORMATS.md, "Escapes", which `escaped` has in Python; the texts around them are those that
docs/FORMATS.md and docs/rrv.1 list, and of bad lines those of clap.

Words with control characters of each kind stand in each place of a line from which the program repeats one: commands,
options and values, names of files that are refused, also on a terminal and of files of choices, and questions to `ask`.
"""
import os
import pathlib
import pty
import subprocess
import unicodedata
from typing import NamedTuple

from rrv_tools import known
from rrv_tools.cases.progress import read_to_end
from rrv_tools.program import PATIENCE
from rrv_tools.testing import Case, rows

# How many characters of a word and of the name of a file are printed.
WORD, PATH = 200, 4096
# Words with control characters: an escape sequence of C0, and one of C1; all of C0 but 0, which no word can have; DEL;
# all of C1; and two that would begin a line of their own.
CONTROLS = {
    "an escape sequence": "\x1b]0;owned\a\x1b[31m", "one of C1": "\x9b31m", "C0": "".join(map(chr, range(1, 32))),
    "DEL": "a\x7fb", "C1": "".join(map(chr, range(128, 160))), "a newline": "x\nrrv: done", "a return": "x\rrrv: done",
}  # fmt: skip
# Words that are printed as they are: what looks like an escape, and characters of two to four bytes beside those of C1.
PLAIN = {
    "backslashes": r"\x1b \n\\",
    "other characters": "\u00a0\u00a1\u00e4\u07ff\u0800\u2028\uffff\U0001d11e\U0010ffff",
}
# Long ones: as many characters as are printed, one more, and many.
LONG = {"as long as may be": "\u00e4" * WORD, "longer by one": "\u00e4" * (WORD + 1), "of 100,000": "x" * 100_000}
WORDS = {**CONTROLS, **PLAIN, **LONG}
PLACES = "a number of instructions, or end"
LINES = {"list": "list [OPTIONS] <STORE>", "record": "record [OPTIONS] <STORE> <ELF>..."}


def escaped(text: str, most: int = WORD) -> str:
    """What is printed of a text: each byte of a control character by its number, and two points for the characters
    after so many."""
    shown = [it if unicodedata.category(it) != "Cc" else "".join(f"\\x{byte:02x}" for byte in it.encode())
             for it in text[:most]]
    return "".join(shown) + (".." if len(text) > most else "")


class BadLine(NamedTuple):
    """The words of a bad line, the message about it, and its usage; braces stand for a word."""

    words: tuple[str, ...]
    message: str
    usage: str = "<COMMAND>"


VALUE = "invalid value '{}' for '%s': not %s"
BAD = {
    "a command": BadLine(("{}",), "unrecognized subcommand '{}'"),
    "a word too many": BadLine(("list", "s", "{}"), "unexpected argument '{}' found", LINES["list"]),
    "an option": BadLine(
        ("list", "--{}", "s"),
        "unexpected argument '--{0}' found\n\n  tip: to pass '--{0}' as a value, use '-- --{0}'",
        LINES["list"],
    ),
    "a value of a flag": BadLine(
        ("list", "--long={}", "s"), "unexpected value '{}' for '--long' found; no more were expected",
        "list --long <STORE>",
    ),
    "a number": BadLine(
        ("verify", "s", "{}"), VALUE % ("GUEST", "a number from 0 to 18446744073709551615"),
        "verify [OPTIONS] <STORE> <GUEST>",
    ),
    "a place": BadLine(
        ("core", "s", "0", "{}", "c"), VALUE % ("AT", f"a place: {PLACES}"),
        "core [OPTIONS] <STORE> <GUEST> <AT> <FILE>",
    ),
    "one of two": BadLine(("record", "--then", "{}", "s", "f"), VALUE % ("then", "turns or none"), LINES["record"]),
    "a name": BadLine(
        ("record", "--name", "{}", "s", "f"), VALUE % ("name", "1 to 32 characters from ! to ~"), LINES["record"]
    ),
    "memory": BadLine(
        ("replay", "--at", "0", "--memory", "{}", "s", "0"),
        VALUE % ("memory", "ADDR:LEN, with 1 to 8 hexadecimal digits and a length from 1 to 65536"),
        "replay [OPTIONS] <STORE> <GUEST>",
    ),
    "help": BadLine(("help", "{}"), VALUE % ("COMMAND", "a command"), "help [COMMAND]"),
}  # fmt: skip
ROWS = {f"{kind} in {place}": (line, word) for place, line in BAD.items() for kind, word in WORDS.items()}


@rows(ROWS, "need_escaped")
class Words(Case):
    """Words of bad lines."""

    seconds = 1

    def need_escaped(self, row: tuple[BadLine, str]) -> None:
        """The message has the word as it is printed."""
        line, word = row
        words = [it.format(word) for it in line.words]
        shown = [escaped(it) for it in words]
        whole = next(it for it, pattern in zip(shown, line.words, strict=True) if "{" in pattern)
        before = next(it for it in line.words if "{" in it).partition("{")[0]
        self.need_bad(*words, message=line.message.format(whole.removeprefix(before)), usage=line.usage)

    def test_options_of_one_letter(self) -> None:
        """The parser would print the first that it doesn't know: its text has no word then."""
        for word in ("-\x1b[31m", "-Q\x1b", "-\x9b"):
            self.need_bad("list", "s", word, message="unexpected argument found", usage=LINES["list"])
        self.need_bad(
            "list", "s", "-Q[31m", usage=LINES["list"],
            message="unexpected argument '-Q' found\n\n  tip: to pass '-Q' as a value, use '-- -Q'",
        )  # fmt: skip

    def test_help_is_as_ever(self) -> None:
        """Other words change nothing in help and in the version."""
        for option in ("--help", "--version"):
            self.need_line(option, "-\x1b", out=self.run_line(option).out)
        self.need_line("list", "--help", "\x1b", out=self.run_line("list", "--help").out)


# ---- names of files

# Names that a folder can hold.
NAMES = {kind: name for kind, name in WORDS.items() if len(name.encode()) < 256}


@rows(NAMES, "need_escaped")
class Names(Case):
    """Names of files that are refused."""

    seconds = 1

    def setUp(self) -> None:
        super().setUp()
        (self.folder / "f").write_bytes(known.FIVE.file)
        self.need_line("new", "s")

    def need_escaped(self, name: str) -> None:
        """A name is printed so of a file that is not there, of one that is no program, and of one of choices."""
        shown = escaped(name, PATH)
        self.need_refused("check", name, err=f"rrv: {shown}: not found\n")
        pathlib.Path(name).write_bytes(b"1 64\n1\n")
        why = f"{shown}: shorter than an ELF header (refusal 1): is it whole?\n"
        self.need_refused("check", name, err=f"rrv: {why}")
        self.need_refused("record", "--choices", name, "s", "f", err=f"rrv: bad choices\n{shown}:2\n")
        self.need_on_terminal(name, f"rrv: guest 0: elf refusal 1\n{why}")

    def need_on_terminal(self, name: str, wanted: str) -> None:
        """What `record` writes to a terminal of a file of this name."""
        reader, writer = pty.openpty()
        ran = subprocess.run(self.program.words("record", "s", name), stdin=subprocess.DEVNULL, stdout=subprocess.PIPE,
                             stderr=writer, timeout=PATIENCE, check=False)
        os.close(writer)
        shown = read_to_end(reader)
        os.close(reader)
        self.need("how it ended on a terminal", (1, b"", wanted.encode()), (ran.returncode, ran.stdout, shown))

    def test_a_path_of_5000_characters(self) -> None:
        """It is cut after 4,096."""
        self.need_refused("check", "x" * 5000, err=f"rrv: {'x' * PATH}..: can't be read\n")
        self.need_refused("check", "\x1b" * 4000, err="rrv: " + "\\x1b" * 4000 + ": can't be read\n")


# ---- questions


@rows(WORDS, "need_escaped")
class Questions(Case):
    """Lines of `ask`."""

    seconds = 1
    shares_folder = True

    @classmethod
    def setUpClass(cls) -> None:
        super().setUpClass()
        pathlib.Path("f").write_bytes(known.FIVE.file)
        cls.program.run_well("new", "s")
        cls.program.run_well("record", "s", "f")

    def need_escaped(self, word: str) -> None:
        """A question that it doesn't know, and a value that isn't wanted. No word has a newline or a space there, and a
        line has 8,192 bytes at most."""
        word = word.replace("\n", "").replace(" ", "")[:8000]
        shown = escaped(word)
        asked = f"{word}\nat {word}\nwhere {word}\ncore missing/{word}\n"
        self.need_line("ask", "s", 0, stdin=asked.encode(), out=(
            f"rrv: no question '{shown}': help lists them\n.\n"
            f"rrv: invalid value '{shown}' for 'at': not a place: {PLACES}\n.\n"
            f"rrv: unexpected value '{shown}' for 'where'\n.\n"
            "rrv: cannot make core file\n.\n"))  # fmt: skip
