"""Compares the lists of CONTRIBUTING.md, "To add a call" and the like, with the tree.

usage: tools/run places
       tools/run places --count      also prints how many files each list has, by its tables

Who adds a call, an instruction, a record kind or a command finds the files in which one that is there already stands:
each list is that of such a neighbour. The list of a part of the page is the first column of its tables. A path there
stands at the top or below crates/; braces hold several names, and a path that ends in a slash names what is below it.
The files in which the neighbour stands, in any of its spellings, have to be just those. Of code and proofs the comments
are left out. Pages that only mention a neighbour are passed over.
"""
import re
from collections.abc import Iterator, Mapping, Sequence

from rrv_tools.prover.crates import ROOT, files_below, read, report

PAGE = "CONTRIBUTING.md"
# The parts of the page, and the spellings of the neighbour. Python's own getpid is another. `back` is a word too, so it
# is looked for as it stands in code, on a line of the program and in a page's list of commands.
BACK = (
    r"""["'`]back["'` ]""", r"\b(request|requests|Request::)?Back\b", r"\bNamesBack\b",
    r"\b(fn|cursor|print|show)[_ ]back\b", r"\bback_command\b", r"\b(Ic|rrv) back\b", r"\bback( STORE|:2| \|)",
)
NEIGHBOURS = {
    "To add a call": r"(?i)(?<!os\.)\b(getpid|getrandom)",
    "To add an instruction": r"(?i)\bmulhsu",
    "To add a record kind": r"(?i)\bstuck\b",
    "To add a command": "|".join(BACK),
}
# Where a spelling means something else: the command's cursor has moves of its own, and goes back in a library; and
# programs over a C library only use the neighbour, as any program does.
OTHERS = {
    "To add a call": r"(examples/musl/t(ests/|our)|tools/rrv_tools/cases/kit)",
    "To add a record kind": r"tools/rrv_tools/(cases/musl|posix)",
    "To add a command": r"(crates/(reverse_step|replay_cases|session_tests)|tools/rrv_tools/makers)/",
}
# What is looked through, and what is passed over: this tool, its tests, and pages that list no neighbour's files.
TOPS = ("bench", "check", "crates", "docs", "examples", "README.md", "tools")
PAGES = ("ARCHITECTURE", "BUILDING", "DECISIONS", "GUIDE", "MENDING", "PROOFS", "SPEED")
PASSED = {*(f"docs/{it}.md" for it in PAGES), "examples/hunt/README.md", "examples/hunt/rrv-hunt.1"}
PASSED |= {"examples/musl/README.md"}
PASSED |= {"tools/rrv_tools/prover/places.py", "tools/rrv_tools/tests/test_looks.py"}
COMMENTS = {".rt": r"(?m)^\s*//.*", ".antt": r"(?m)^\s*--.*"}


def texts() -> Iterator[tuple[str, str]]:
    """The files that are looked through, with their texts without comments; of one that isn't text an empty one."""
    for top in (ROOT / it for it in TOPS):
        for file in [top] if top.is_file() else files_below(top):
            path = str(file.relative_to(ROOT))
            if path not in PASSED:
                text = re.sub(COMMENTS.get(file.suffix, "(?!)"), "", file.read_bytes().decode("utf-8", "replace"))
                yield path, "" if "\0" in text else text


def expanded(path: str) -> list[str]:
    """The paths that one with braces says."""
    one = re.fullmatch(r"(.*)\{(.*)\}(.*)", path)
    return [f"{one[1]}{it.strip()}{one[3]}" for it in one[2].split(",")] if one else [path]


def tables(part: str) -> list[list[str]]:
    """The paths in the first columns of a part of the page, table by table."""
    found, heads = [], re.findall(rf"(?ms)^## {part}\n(.*?)(?=^## |\Z)", read(PAGE))
    for table in re.findall(r"(?m)(?:^\|.*\n)+", heads[0] if heads else ""):
        cells = [row.split("|")[1].strip() for row in table.splitlines()[2:]]
        paths = [path for it in cells for one in re.findall(r"(?:[^,{}\s]|\{[^}]*\})+", it) for path in expanded(one)]
        found.append([it if (ROOT / it).exists() else f"crates/{it}" for it in paths])
    return found


def compare(part: str, listed: list[str], known: Mapping[str, str]) -> list[str]:
    """What is wrong with a part's list."""
    others = OTHERS.get(part, "(?!)")
    found = [it for it, text in known.items() if re.search(NEIGHBOURS[part], text) and not re.match(others, it)]
    folders = tuple(it for it in listed if it.endswith("/"))
    wrong = [f"{it} isn't in the list" for it in found if it not in listed and not it.startswith(folders)]
    for it in listed:
        if it not in found and not (it.endswith("/") and any(that.startswith(it) for that in found)):
            wrong.append(f"{it} is in the list, and nothing of the neighbour stands there")
    wrong += [f"{it} is in the list twice" for it in sorted(set(listed)) if listed.count(it) > 1]
    return [f"{PAGE}, {part!r}: {it}" for it in (wrong if listed else ["there is no list"])]


def main(words: Sequence[str]) -> int | None:
    """Prints what is wrong, and the count."""
    if [*words] not in ([], ["--count"]):
        return None
    known, found = dict(texts()), {part: tables(part) for part in NEIGHBOURS}
    for part in NEIGHBOURS if words else ():
        print(f"{part}: {', '.join(str(len(it)) for it in found[part])} files")
    return report({part: compare(part, sum(it, []), known) for part, it in found.items()})
