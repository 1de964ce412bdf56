"""Compares docs/ARCHITECTURE.md, and what other pages have of it, with the tree.

usage: tools/run architecture

Six looks, each of which prints what is wrong:

- picture: each crate that rrv is made of stands in it once, above those that it stands on, and on none across the line
  in the middle;
- table: each of these, and `rates`, has one row, stands on rows above it alone, and on those that its row names;
- reading order: each file is there, and has the names that stand in brackets after it;
- graph: docs/crates.svg is what tools/run crates_graph draws;
- first screen: README.md has 150 lines at most, and uses no word of the glossary before its commands, but store,
  record, replay and place;
- links: each link of a page to a file of this repository leads to one that is there, and to a heading that it has.
"""
import re
from collections.abc import Callable, Iterable, Iterator, Sequence

from rrv_tools.prover import crates_graph
from rrv_tools.prover.crates import ROOT, Uses, listed, product, read, report

MEASURES = "rates"
# What the first screen may use of the glossary, and where it ends.
ALLOWED, FIRST_SCREEN_ENDS, MOST_LINES = {"store", "record", "replay", "place"}, "## Commands", 150


def part_of(text: str, heading: str) -> str:
    """A part of a page, without its heading."""
    return text.partition(f"\n## {heading}\n")[2].partition("\n## ")[0]


def twice_and_missing(found: list[str], wanted: list[str], what: str) -> Iterator[str]:
    """Which of those that are wanted are missing or stand there more than once, and which aren't wanted."""
    for name in wanted:
        if found.count(name) != 1:
            yield f"{name} stands {found.count(name)} times in the {what}"
    for name in sorted(set(found) - set(wanted)):
        yield f"{name} stands in the {what}, and rrv isn't made of it"


def picture_rows(text: str, uses: Uses) -> list[list[list[str]]]:
    """The crates of each row of the picture, by its columns."""
    rows = [line.strip() for line in part_of(text, "The layers").splitlines() if line.startswith("    |")]
    cells = [[it for it in re.split(r"[|+]", row)[1:-1] if not it.startswith("--")] for row in rows]
    names = re.compile(r"(?:^ |  )(\w+)(?=  | \w)")
    return [[[it for it in names.findall(cell) if it in uses] for cell in row] for row in cells]


def picture(text: str, uses: Uses) -> Iterator[str]:
    """What is wrong with the picture."""
    rows = picture_rows(text, uses)
    yield from twice_and_missing([it for row in rows for cell in row for it in cell], product(uses), "picture")
    row_of = {it: number for number, row in enumerate(rows) for cell in row for it in cell}
    side_of = {it: side for row in rows if len(row) == 2 for side, cell in enumerate(row) for it in cell}
    for name in row_of:
        for it in uses[name]:
            if row_of.get(it, len(rows)) <= row_of[name]:
                yield f"{name} stands on {it}, which isn't in a row below it"
            if side_of.get(it, side_of.get(name)) != side_of.get(name) and name in side_of:
                yield f"{name} stands on {it} across the line"


def table(text: str, uses: Uses) -> Iterator[str]:
    """What is wrong with the table of crates."""
    cells = re.findall(r"(?m)^\|" + r"([^|\n]*)\|" * 4 + "$", part_of(text, "The crates"))
    rows = [[cell.strip() for cell in row] for row in cells][2:]
    names = [it[0] for it in rows]
    yield from twice_and_missing(names, [*product(uses), MEASURES], "table")
    for number, (name, _, stands, _) in enumerate(rows):
        for it in re.findall(r"\w+", stands):
            if it in uses and it not in uses.get(name, ()):
                yield f"{name} stands on {it} by the table, and not by crates.txt"
        for it in uses.get(name, ()):
            if it in names and it not in names[:number]:
                yield f"{name} stands on {it}, whose row isn't above it"


def reading_order(text: str, _: Uses) -> Iterator[str]:
    """Which files or names of the reading order aren't there."""
    folder, found = ROOT, 0
    order = part_of(text, "An order to read in")
    for path, named in re.findall(r"`([\w/]+\.(?:rt|antt))`(?:\s\(((?:`\w+`(?:, )?)+))?", order):
        file = folder / path if "/" not in path else ROOT / "crates" / path.removeprefix("crates/")
        folder, found = file.parent, found + 1
        content = file.read_text(encoding="utf-8") if file.is_file() else None
        if content is None:
            yield f"the reading order names {file.relative_to(ROOT)}, which isn't there"
            continue
        for it in re.findall(r"\w+", named):
            if not re.search(rf"\b{it}\b", content):
                yield f"the reading order names {it} of {file.relative_to(ROOT)}, which has no such name"
    if not found:
        yield "there is no reading order"


def graph(_: str, __: Uses) -> Iterable[str]:
    """What is wrong with the graph."""
    return crates_graph.wrong_with()


def first_screen(text: str, _: Uses) -> Iterator[str]:
    """Which words of the glossary README's first screen uses."""
    words = {it.lower() for it in re.findall(r"\*(\w[\w ]*?)\*", part_of(text, "Words"))} - ALLOWED
    if not words:
        yield "there is no glossary"
    readme = read("README.md")
    screen, ends, _rest = readme.partition(FIRST_SCREEN_ENDS)
    if not ends:
        yield f"README.md has no part {FIRST_SCREEN_ENDS!r}"
    for number, line in enumerate(screen.splitlines(), 1):
        for it in sorted(words):
            if re.search(rf"(?i)\b{it}s?\b", line):
                yield f"README.md:{number}: the first screen uses {it!r}, a word of the glossary"
    if len(readme.splitlines()) > MOST_LINES:
        yield f"README.md has more than {MOST_LINES} lines"


def anchors(text: str) -> set[str]:
    """The anchors of a page's headings, as GitHub makes them."""
    heads = re.findall(r"(?m)^#+ (.+)$", text)
    return {re.sub(r"[^\w\- ]", "", it.lower()).replace(" ", "-") for it in heads}


def links(_: str, __: Uses) -> Iterator[str]:
    """Which links lead nowhere."""
    for page in sorted([*ROOT.glob("*.md"), *ROOT.glob("docs/*.md")]):
        text = page.read_text(encoding="utf-8")
        for target in re.findall(r"\]\(([^)\s]+)\)", re.sub(r"(?m)^    .*$", "", text)):
            path, _mark, anchor = target.partition("#")
            file = page.parent / path if path else page
            if "://" in target:
                continue
            if not file.exists():
                yield f"{page.relative_to(ROOT)}: {target} leads to no file"
            elif anchor and anchor not in anchors(file.read_text(encoding="utf-8")):
                yield f"{page.relative_to(ROOT)}: {target} leads to no heading"


LOOKS: tuple[Callable[[str, Uses], Iterable[str]], ...] = (picture, table, reading_order, graph, first_screen, links)


def main(words: Sequence[str]) -> int | None:
    """Looks at all, and counts."""
    if words:
        return None
    text, uses = read("docs/ARCHITECTURE.md"), listed()
    return report({look.__name__: (f"architecture: {it}" for it in look(text, uses)) for look in LOOKS})
