"""The program's help beside the manual page, docs/rrv.1, and what the completions, docs/rrv.bash, offer.

Expected values: of the page the program's help; of the completions the page; of the refusals docs/FORMATS.md.
"""
import re
import subprocess
from collections.abc import Iterator, Set
from typing import ClassVar, NamedTuple

from rrv_tools.program import ROOT, Program
from rrv_tools.testing import Case, rows

DOCS = ROOT / "docs"
# Offers what Bash offers after words, the last of which is being typed.
OFFER = 'COMP_WORDS=("$@"); COMP_CWORD=$(($# - 1)); compopt() { :; }; _rrv; printf "%s\\n" "${COMPREPLY[@]}"'
# The values that are files, and those that may be one of some words.
OF_FILES = {"STORE", "ELF", "FILE", "TO"}
WORDS = {"THEN": {"turns", "none"}, "T": {"end"}, "FROM": {"end"}, "AT": {"end"}}
# The words that an option takes beside numbers.
AFTER = {"--every": {"auto"}}
# An option: its names, its value and its default, which may both be empty.
Option = tuple[str, str, str]
# The name of a value, which is empty after a command's last argument, and the words after which it is typed.
Value = tuple[str, tuple[str, ...]]


class Taken(NamedTuple):
    """What a line takes: its arguments as a usage line has them, and its options."""

    arguments: str
    options: set[Option]


def section(text: str, head: str) -> list[str]:
    """The lines of a part of a help, up to the empty line after it."""
    return text.partition(f"{head}:\n")[2].partition("\n\n")[0].splitlines()


def helped(text: str) -> Taken:
    """What a line takes, as its help says it."""
    usage, options = re.search(r"^Usage: rrv ?\S* ?(.*)$", text, re.M), set()
    for line in section(text, "Options"):
        names = re.match(r" +((?:-\w)?(?:, )?(?:--[\w-]+)?)(?: <([\w:]+)>)?", line)
        default = re.search(r"\[default: (.*?)\]", line)
        options.add((names[1].strip() if names else line, names and names[2] or "", default[1] if default else ""))
    return Taken(usage[1] if usage else NOTHING.arguments, options)


def of_program(program: Program) -> dict[str, Taken]:
    """For each command, and for none, what its help says that it takes."""
    text = program.run("--help").out.decode()
    commands = [line.split()[0] for line in section(text, "Commands")]
    taken = {it: helped(program.run(it, "--help").out.decode()) for it in commands}
    return {"": Taken("", helped(text).options), **taken}


def usage_of(words: list[str]) -> str:
    """The words of a page's item as a usage line has them."""
    text = " ".join(words).replace("Oo Ar OPTIONS Oc", "[OPTIONS]")
    return re.sub(r"Ar (\w+)", r"<\1>", re.sub(r"Op Ar (\w+)", r"[\1]", text)).replace("> ...", ">...")


def option_of(words: list[str], text: str) -> Option:
    """An option of the page, with its default as the text below it says it."""
    flags, _, value = " ".join(words).partition(" Ar ")
    default = re.search(r"^The default is(?: (\d+)|\n\.Cm (\w+) )\.$", text, re.M)
    names = re.sub(r" ?Fl ", "-", flags.replace(" ,", ",")).replace(",-", ", -")
    return names, value, default[1] or default[2] if default else ""


def of_page(text: str) -> dict[str, Taken]:
    """For each command, and for none, what the page says that it takes."""
    taken, name = {"": Taken("", set())}, ""
    for item in re.split(r"^\.It ", text.partition(".Sh LIMITS")[0], flags=re.M)[1:]:
        line, _, below = item.partition("\n")
        match line.split():
            case ["Ic", name, *words]:
                taken[name] = Taken(usage_of(words), set())
            case ["Fl", *_]:
                taken[name].options.add(option_of(line.split(), below))
    for_each = {it for it in taken[""].options if it[0].endswith("--help")}
    return {name: Taken(it.arguments, it.options | for_each) for name, it in taken.items()}


def values_of(command: str, taken: Taken) -> Iterator[tuple[str, Value]]:
    """The values of a command, by names of their own. After the last argument comes none, or one more of these."""
    arguments = [it.strip("<>[].") for it in taken.arguments.split() if it != "[OPTIONS]"]
    arguments.append(arguments[-1] if taken.arguments.endswith("...") else "")
    yield from ((f"{command} {it}", (name, (command, *["rrv.1"] * it))) for it, name in enumerate(arguments))
    yield from ((f"{command} {it}", (name, (command, it))) for it, name, _ in sorted(taken.options) if name)


def output_of(*words: str) -> str:
    """What a command prints in the folder of the documents."""
    return subprocess.run(words, cwd=DOCS, stdin=subprocess.DEVNULL, stdout=subprocess.PIPE, stderr=subprocess.STDOUT,
                          text=True, check=False).stdout


def offered(*words: str) -> set[str]:
    """What the completions offer after these words, of which the last is being typed."""
    return set(output_of("bash", "-c", f"source ./rrv.bash; {OFFER}", "bash", "rrv", *words).split())


PAGE_TEXT = (DOCS / "rrv.1").read_text(encoding="utf-8")
PAGE = of_page(PAGE_TEXT)
NOTHING = Taken("no usage", set())
# The values by the page, of which arguments and options are compared with the help's.
VALUES = dict(value for name, taken in PAGE.items() if name for value in values_of(name, taken))


class Compared(Case):
    """The help is read once."""

    shares_folder = True
    taken: ClassVar[dict[str, Taken]]

    @classmethod
    def setUpClass(cls) -> None:
        super().setUpClass()
        cls.taken = of_program(cls.program)


@rows({f"arguments of {it or 'rrv'}": it for it in PAGE}, "need_arguments")
@rows({f"options of {it or 'rrv'}": it for it in PAGE}, "need_options")
class Page(Compared):
    """The page beside the help, and beside docs/FORMATS.md."""

    def need_arguments(self, name: str) -> None:
        """Compares the arguments of a command."""
        self.need("the page", self.taken.get(name, NOTHING).arguments, PAGE[name].arguments)

    def need_options(self, name: str) -> None:
        """Compares the options of a command, or of none."""
        self.assertSetEqual(self.taken.get(name, NOTHING).options, PAGE[name].options)

    def test_commands(self) -> None:
        """The page has the commands of the help."""
        self.assertSetEqual(set(self.taken), set(PAGE))

    def test_refusals(self) -> None:
        """The page has the refusals of the formats."""
        formats = (DOCS / "FORMATS.md").read_text(encoding="utf-8").partition("Refusals stand behind")[2]
        table = re.findall(r"^\| (`.*?) \|", formats.partition("\n\n| Text |")[2].partition("\n\n")[0], re.M)
        said = re.findall(r"^\.It Sy (.*)$", PAGE_TEXT.partition(".Sh DIAGNOSTICS")[2], re.M)
        self.assertTrue(table)
        wanted = {re.sub(r"\d+", "N", it) for row in table for it in re.findall(r"`(.*?)`", row)}
        self.assertSetEqual(wanted, {re.sub(r"\d+", "N", it) for it in said})


@rows({f"words after {it}": value for it, value in VALUES.items()}, "need_words")
@rows({f"files after {it}": value for it, value in VALUES.items()}, "need_files")
@rows({f"options of {it or 'rrv'}": it for it in PAGE}, "need_options")
class Completions(Compared):
    """What the completions offer beside what lines take."""

    needs = ("bash",)

    def need_offered(self, wanted: Set[str], *words: str) -> None:
        """Compares what is offered beside files."""
        self.assertSetEqual(set(wanted), offered(*words) - {it.name for it in DOCS.iterdir()})

    def need_words(self, value: Value) -> None:
        """Compares the words that are offered for a value."""
        words = WORDS.get(value[0], AFTER.get(value[1][-1], set()))
        some = self.taken.keys() - {""} if value[0] == "COMMAND" else words
        self.need_offered(some, *value[1], "")

    def need_files(self, value: Value) -> None:
        """Compares whether files are offered, which is wanted just for a value that may be one."""
        self.need("whether files are offered", value[0] in OF_FILES, "rrv.bash" in offered(*value[1], "rrv.b"))

    def need_options(self, name: str) -> None:
        """Compares the options that are offered of a command; of none, the commands too."""
        names = {it for names, _, _ in self.taken.get(name, NOTHING).options for it in names.split(", ")}
        self.need_offered(names if name else names | self.taken.keys() - {""}, *([name, "-"] if name else [""]))


class Lint(Case):
    """The page beside the rules of mdoc."""

    needs = ("mandoc",)

    def test_lint(self) -> None:
        """`mandoc -T lint` prints nothing."""
        self.need("mandoc -T lint", "", output_of("mandoc", "-T", "lint", "rrv.1"))
