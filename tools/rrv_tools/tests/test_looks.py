"""Tests that the looks at pages, lists, long lines and the release see what is wrong."""
from collections.abc import Callable

from rrv_tools.testing import rows
from rrv_tools.tests.repository import Done, InRepository

# The path of a file, a text in it, and what takes its place; and what a look then says.
Change = tuple[str, str, str, str]

PAGE, LIST = "docs/ARCHITECTURE.md", "CONTRIBUTING.md"
CRATES = "outcomes:\nlow: outcomes std\nrates: low\nrrv: low outcomes\n"
ARCHITECTURE = """# Architecture

## The layers

    +----------------------------+
    | rrv       the program      |
    +----------------------------+
    | low       what is below    |
    +----------------------------+
    | outcomes  the lowest       |
    +----------------------------+

## The crates

| Crate | What | Stands on | More |
|---|---|---|---|
| outcomes | it | | |
| low | it | outcomes | |
| rates | it | low | |
| rrv | it | low | |

## An order to read in

`low/src/lib.rt` (`start`, `end`), then [the list](../CONTRIBUTING.md#to-add-a-call).

## Words

A *slice* is a part of a run.
"""
README = "# rrv\n\nIt records.\n\n## Commands\n\nA slice is a part.\n"
CONTRIBUTING = """# Contributing

## To add a call

| File | What |
|---|---|
| low/src/{lib,calls}.rt | `getpid` |

| Tests | What |
|---|---|
| low/wrong-bodies/ | an edit |

## To add an instruction

| File | What |
|---|---|
| docs/GUEST.md | mulhsu |

## To add a record kind

| File | What |
|---|---|
| docs/GUEST.md | stuck |

## To add a command

| File | What |
|---|---|
| docs/GUEST.md | back |
"""
LONG = "long_name : ℕ → ℕ\nlong_name n = " + " + ".join(["(first n second)"] * 10) + "\n"
FILES = {
    "crates.txt": CRATES, PAGE: ARCHITECTURE, "README.md": README, LIST: CONTRIBUTING,
    "docs/GUEST.md": "mulhsu, stuck, `rrv back STORE`\n",
    "docs/PROOFS.md": "Proved with the logic `old`.\n\n<!-- tools/run proofs_page --write makes this of "
                      "tools/minutes.toml -->\n<!-- and this is its end -->\n",
    "release/FROM": "kit: kit-3 logic 5eed\n",
    "tools/minutes.toml": "low = { proof = 2.0, tests = 1.5 }\noutcomes.proof = 1.0\nrrv = { proof = 0.5 }\n",
    "crates/low/src/lib.rt": "//! Is low.\n//!\n//! More.\n//!\n//! # Contracts\n//!\n//! - `start`\n\n// getpid\n"
                             "fn start() {}\nfn end() { getpid() }\n",
    "crates/low/src/calls.rt": "getpid\n",
    "crates/low/wrong-bodies/other.edit": "getpid\n",
    "crates/low/wrong-bodies/tried": "00 1\n",
    "crates/low/out/getpid.rt": "getpid\n",
    "crates/low/proofs/Laws.antt": LONG.replace(" + (first", "\n    + (first"),
    "crates/rates/src/lib.rt": "//! Rates.\n", "crates/outcomes/src/lib.rt": "//! Outcomes.\n",
    "crates/rrv/src/main.rt": "//! Runs.\n",
}
ARCHITECTURE_CHANGES: dict[str, Change] = {
    "a crate missing from the table": (PAGE, "| low | it | outcomes | |\n", "", "low stands 0 times in the table"),
    "a crate twice in the table": (
        PAGE, "| rates |", "| low | it | outcomes | |\n| rates |", "low stands 2 times in the table"),
    "a row above what it stands on": (
        PAGE, "| low | it | outcomes | |\n| rates | it | low | |\n",
        "| rates | it | low | |\n| low | it | outcomes | |\n", "whose row isn't above it"),
    "a row of what crates.txt does not say": (
        PAGE, "| rates | it | low |", "| rates | it | outcomes |", "rates stands on outcomes by the table"),
    "a crate missing from the picture": (
        PAGE, "| low       what", "|           what", "low stands 0 times in the picture"),
    "a crate below what it stands on": (
        PAGE, "| low       what is below    |\n    +----------------------------+\n    | outcomes  the lowest       |",
        "| outcomes  the lowest       |\n    | low       what is below    |", "low stands on outcomes, which isn't"),
    "a file that is gone": (PAGE, "low/src/lib.rt", "low/src/old.rt", "crates/low/src/old.rt, which isn't there"),
    "a name that is gone": (PAGE, "`end`", "`ends`", "ends of crates/low/src/lib.rt, which has no such name"),
    "a word of the glossary": ("README.md", "It records.", "It records a slice.", "README.md:3: the first screen uses"),
    "a long first page": ("README.md", "A slice is a part.", "\n" * 150, "README.md has more than 150 lines"),
    "a link to no file": (PAGE, "(../CONTRIBUTING.md#", "(CONTRIBUTING.md#", "leads to no file"),
    "a link to no heading": (LIST, "## To add a call", "## To call", "leads to no heading"),
    "another graph": ("docs/crates.svg", ">low<", ">lou<", "docs/crates.svg: not what tools/run crates_graph draws"),
}
PLACES_CHANGES: dict[str, Change] = {
    "a file missing from the list": (LIST, "{lib,calls}", "lib", "crates/low/src/calls.rt isn't in the list"),
    "a new file": ("crates/rates/src/lib.rt", "", "getpid", "crates/rates/src/lib.rt isn't in the list"),
    "a file without the neighbour": (
        "crates/low/src/calls.rt", "getpid", "", "crates/low/src/calls.rt is in the list, and nothing"),
    "a comment alone": (
        "crates/low/src/calls.rt", "getpid", "// getpid", "crates/low/src/calls.rt is in the list, and nothing"),
    "a folder without the neighbour": (
        "crates/low/wrong-bodies/other.edit", "getpid", "", "crates/low/wrong-bodies/ is in the list, and nothing"),
    "a file twice": (LIST, "| docs/GUEST.md | stuck |", "| docs/{GUEST,GUEST}.md | stuck |", "in the list twice"),
    "no list": (LIST, "| docs/GUEST.md | mulhsu |", "", "'To add an instruction': there is no list"),
}


class Look(InRepository):
    """A look that passes over the files, and fails after each change."""

    files = FILES

    def play_change(self, change: Change, *words: str) -> None:
        """The look, which passes before a change, fails after it in one thing alone."""
        path, old, new, says = change
        self.assertIn(old, self.read(path))
        self.write(path, self.read(path).replace(old, new, 1))
        self.fails(*words, says=says)


@rows(ARCHITECTURE_CHANGES, "play")
class Architecture(Look):
    graph = ""

    def setUp(self) -> None:
        super().setUp()
        if not self.graph:
            self.assertEqual(self.tool("crates_graph"), Done(0, []))
            type(self).graph = self.read("docs/crates.svg")
        self.write("docs/crates.svg", self.graph)

    def play(self, change: Change) -> None:
        """The look at the page of crates."""
        self.play_change(change, "architecture")

    def test_all(self) -> None:
        self.passes(6, "architecture")
        self.passes(1, "crates_graph", "--check")

    def test_order_of_crates(self) -> None:
        self.write("crates.txt", "low: outcomes\noutcomes:\nrates: low\nrrv: low\n")
        for words in (["crates_graph"], ["crates_graph", "--check"]):
            self.fails(*words, says="crates.txt: low stands on outcomes, and not after it")


@rows(PLACES_CHANGES, "play")
class Places(Look):
    def play(self, change: Change) -> None:
        """The look at the lists."""
        self.play_change(change, "places")

    def test_all(self) -> None:
        self.passes(4, "places")
        self.assertEqual(self.tool("places", "--count").lines[0], "To add a call: 2, 1 files")


class WrapProofs(Look):
    def test_long_line(self) -> None:
        self.passes(1, "wrap_proofs", "--check")
        self.write("crates/low/specs/Long.antt", f"-- {'a comment ' * 20}\n{LONG}")
        self.fails("wrap_proofs", "--check", says="crates/low/specs/Long.antt has lines longer than 140 columns")
        self.assertEqual(self.tool("wrap_proofs"), Done(0, []))
        self.passes(2, "wrap_proofs", "--check")
        comment, *lines = self.read("crates/low/specs/Long.antt").splitlines()
        self.assertEqual(comment, f"-- {'a comment ' * 20}")
        self.assertEqual(" ".join(lines).split(), LONG.split())
        self.assertLessEqual(max(map(len, lines)), 140)
        self.assertEqual(lines[1], "long_name n =")
        self.assertRegex(lines[3], r"^    \+ \(first n second\)")


class ProofsPage(Look):
    wanted = """Proved with the logic `5eed`.

<!-- tools/run proofs_page --write makes this of tools/minutes.toml -->
| Crate | Proof | Tests | Edits |
|---|---|---|---|
| outcomes | 1.0 |  |  |
| low | 2.0 | 1.5 |  |
| rrv | 0.5 |  |  |
| all | 3.5 | 1.5 | 0.0 |

`tools/run build` orders the crates of `rrv` by the proofs' minutes, and says by them how long a build takes. They are
3.5 for its 3 crates. The longest chain takes 3.5 of them: outcomes, low, rrv.
<!-- and this is its end -->
"""

    def test_written(self) -> None:
        self.assertEqual(self.tool("proofs_page", "--check").lines[-1], "0 passed, 2 failed")
        self.assertEqual(self.tool("proofs_page", "--write"), Done(0, []))
        self.assertEqual(self.read("docs/PROOFS.md"), self.wanted)
        self.passes(2, "proofs_page", "--check")

    def test_old(self) -> None:
        changes: list[tuple[str, Callable[[], None]]] = [
            ("tools/minutes.toml: docs/PROOFS.md does", lambda: self.change("tools/minutes.toml", "2.0", "2.5")),
            ("release/FROM: docs/PROOFS.md does", lambda: self.change("release/FROM", "5eed", "5eee")),
            ("tools/minutes.toml: docs/PROOFS.md does", lambda: self.change("docs/PROOFS.md", "| 0.5 |", "| 0.6 |")),
            ("release/FROM: docs/PROOFS.md does", lambda: self.change("docs/PROOFS.md", "Proved with", "By"))]
        for says, change in changes:
            for path in ("tools/minutes.toml", "release/FROM", "docs/PROOFS.md"):
                self.write(path, self.files[path])
            self.tool("proofs_page", "--write")
            change()
            self.fails("proofs_page", "--check", says=says)

    def test_contracts(self) -> None:
        wanted = ["# What is proved, crate by crate", "", "## low", "", "Is low.", "", "### Contracts", "", "- `start`"]
        self.assertEqual(self.tool("proofs_page"), Done(0, wanted))
        self.assertEqual(self.tool("proofs_page", "rates"), Done(0, wanted[:1]))
        self.assertEqual(self.tool("proofs_page", "other").status, 2)
