"""Prints what is proved, crate by crate, and what the tests of crates show, as one page in Markdown.

usage: tools/run proofs_page [NAME..]       of these crates, or of all, in the order of crates.txt
       tools/run proofs_page --write        writes into docs/PROOFS.md what it has of other files
       tools/run proofs_page --check        prints which of that is missing there, and counts

A crate says it in the comment at the top of its first file, src/lib.rt (of a program src/main.rt): its first paragraph
says what the crate is, and under "Contracts", and further headings, stands what is printed with it. A crate without
such a heading is left out.

docs/PROOFS.md has a table of tools/minutes.toml, with the longest chain of crates, between two marks, and the name of
the logic that release/FROM names.
"""
import re
import textwrap
from collections.abc import Sequence
from itertools import takewhile

from rrv_tools.prover.crates import MINUTES, PRODUCT, ROOT, chains, listed, minutes, product, read, report

PAGE, FROM = "docs/PROOFS.md", "release/FROM"
KINDS = ("proof", "tests", "edits")
# What the page has of other files, by the file.
PARTS = {
    MINUTES: re.compile(r"(?s)(?<=makes this of tools/minutes.toml -->\n).*?(?=<!-- and this is its end -->)"),
    FROM: re.compile(r"(?<=Proved with the logic `)\w+"),
}


def said(name: str) -> str:
    """The first paragraph of a crate's comment, and the rest from its first heading on; empty if it has no heading."""
    path = next(it for it in (f"crates/{name}/src/lib.rt", f"crates/{name}/src/main.rt") if (ROOT / it).is_file())
    comment = takewhile(lambda it: it.startswith("//!"), read(path).splitlines(keepends=True))
    text = "".join(re.sub(r"^//! ?", "", it) for it in comment)
    first, rest = text.partition("\n\n")[0], re.search(r"(?ms)^# .*\Z", text)
    return f"{first}\n\n{re.sub(r'(?m)^# ', '### ', rest[0])}" if rest else ""


def made() -> str:
    """The table, and what follows of it."""
    found, uses = minutes(), listed()
    total = {kind: sum(it.get(kind, 0) for it in found.values()) for kind in KINDS}
    of_crates = {**{it: found[it] for it in uses if it in found}, "all": total}
    cells = ([it, *(f"{of[kind]:.1f}" if kind in of else "" for kind in KINDS)] for it, of in of_crates.items())
    rows = "".join(f"| {' | '.join(it)} |\n" for it in cells)
    own = {it: uses[it] for it in product(uses)}
    proofs = {it: found.get(it, {}).get("proof", 0.0) for it in own}
    longest = max(chains(own, proofs).values(), key=lambda chain: sum(proofs[it] for it in chain))
    text = (
        f"`tools/run build` orders the crates of `{PRODUCT}` by the proofs' minutes, and says by them how long a build "
        f"takes. They are {sum(proofs.values()):.1f} for its {len(own)} crates. The longest chain takes "
        f"{sum(proofs[it] for it in longest):.1f} of them: {', '.join(longest)}."
    )
    return f"| Crate | Proof | Tests | Edits |\n|---|---|---|---|\n{rows}\n{textwrap.fill(text, 120)}\n"


def wanted() -> dict[str, str]:
    """What the page is to have of other files, by the file."""
    return {MINUTES: made(), FROM: "".join(re.findall(r"(?m)^kit: .*\blogic (\w+)", read(FROM)))}


def main(words: Sequence[str]) -> int | None:
    """Prints the page of contracts, or writes or compares what docs/PROOFS.md has of other files."""
    if [*words] == ["--check"]:
        page, why = read(PAGE), f"{PAGE} does not have what this says: run tools/run proofs_page --write"
        has = {it: PARTS[it].findall(page) == [text] for it, text in wanted().items()}
        return report({it: [] if is_same else [f"{it}: {why}"] for it, is_same in has.items()})
    if [*words] == ["--write"]:
        page = read(PAGE)
        for it, text in wanted().items():
            page = text.join(PARTS[it].split(page, 1))
        (ROOT / PAGE).write_text(page, encoding="utf-8")
        return 0
    if any(it not in listed() for it in words):
        return None
    print("# What is proved, crate by crate")
    for name in words or listed():
        if part := said(name):
            print(f"\n## {name}\n\n{part}", end="")
    return 0
