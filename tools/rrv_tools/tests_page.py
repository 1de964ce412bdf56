"""Writes the table of docs/TESTS.md, which is made of the docstrings of modules, or compares it.

usage: tools/run tests_page --write       writes the table, if no docstring lacks what it takes
       tools/run tests_page --check       prints which docstring lacks what, or that the table is old, and counts

A row is a module of tools/rrv_tools/cases, or one of BY_HAND. The first sentence of its docstring says what it looks
at. A paragraph with one or two labels follows the first one; the text of a label may go on in the next lines:

    Expected values: where they come from.
    A larger run: what it found.

The second label is left out if no such run is known. The cases of a module are the methods that unittest's loader
finds; each counts for `compared`, if its class has that as a constant. A `+` follows if a class counts only as it runs
how much a case compared. A tool that is run by hand has no number.
"""
import importlib
import inspect
import pkgutil
import re
import types
import unittest
from collections.abc import Sequence
from typing import NamedTuple

import rrv_tools.cases
from rrv_tools.check import classes_in
from rrv_tools.prover.crates import ROOT, read, report

PAGE, LABEL = "docs/TESTS.md", "Expected values"
# What stands between the two marks of the page.
TABLE = re.compile(r"(?s)(?<=makes this of the docstrings of modules -->\n).*?(?=<!-- and this is its end -->)")
# A paragraph with the labels.
LABELS = re.compile(rf"(?s){LABEL}: (.+?)(?:\nA larger run: (.+))?")
# The tools without cases that are run by hand, by their modules, with their words.
BY_HAND = {"bench.changing_code": "bench changing_code", "refused_growths": "refused_growths"}
HEAD = f"| It looks at | Module | Cases | {LABEL} | A larger run |\n|---|---|---|---|---|\n"


class Row(NamedTuple):
    """What a module says: what it looks at, its name or the line that runs it, how many cases it has, where the
    expected values come from, and what a larger run found. A text that is missing is empty."""

    looks_at: str
    module: str
    cases: str
    wanted: str
    larger: str

    def lacks(self) -> list[str]:
        """What is wrong with the docstring, as lines."""
        wrong = {"no first sentence": self.looks_at, f"no line `{LABEL}: ..` after its first paragraph": self.wanted}
        return [f"{self.module}: its docstring has {what}" for what, text in wrong.items() if not text]

    def line(self) -> str:
        """The row in Markdown."""
        return f"| {' | '.join(it.replace('|', chr(92) + '|') for it in self)} |\n"


def flat(text: str | None) -> str:
    """A text on one line."""
    return " ".join((text or "").split())


def row_of(docstring: str, module: str, cases: str) -> Row:
    """The row of a module, by its docstring."""
    first, second = [*re.split(r"\n{2,}", inspect.cleandoc(docstring)), "", ""][:2]
    sentence, labels = re.match(r".*?\.(?= |$)", flat(first)), LABELS.fullmatch(second)
    said = (flat(labels[1]), flat(labels[2])) if labels else ("", "")
    return Row(sentence[0] if sentence else "", module, cases, *said)


def counted(module: types.ModuleType) -> str:
    """How many cases a module has, with a `+` if there may be more as they run."""
    classes, find = classes_in(module), unittest.defaultTestLoader.getTestCaseNames
    count = sum(len(find(it)) * int(getattr(it, "compared", 1)) for it in classes)
    sources = [inspect.getsource(base) for it in classes for base in it.__mro__ if base.__module__.startswith("rrv_")]
    return f"{count}{'+' if any('self.compared = ' in it for it in sources) else ''}"


def rows_found() -> list[Row]:
    """The rows of all modules of cases, by their names, and of the tools that are run by hand."""
    names = sorted(it.name for it in pkgutil.iter_modules(rrv_tools.cases.__path__))
    modules = {it: importlib.import_module(f"rrv_tools.cases.{it}") for it in names}
    tools = {f"`tools/run {words}`": importlib.import_module(f"rrv_tools.{it}") for it, words in BY_HAND.items()}
    of_cases = [row_of(module.__doc__ or "", f"`cases.{it}`", counted(module)) for it, module in modules.items()]
    return [*of_cases, *(row_of(module.__doc__ or "", it, "") for it, module in tools.items())]


def main(words: Sequence[str]) -> int | None:
    """Writes the table into docs/TESTS.md, or compares it; the status is 1 if something is missing or old."""
    if [*words] not in (["--write"], ["--check"]):
        return None
    rows = rows_found()
    wrong, page = {it.module: it.lacks() for it in rows}, read(PAGE)
    table = HEAD + "".join(it.line() for it in rows)
    if not any(wrong.values()):
        if [*words] == ["--write"]:
            (ROOT / PAGE).write_text(table.join(TABLE.split(page, 1)), encoding="utf-8")
            return 0
        is_same = TABLE.findall(page) == [table]
        wrong[PAGE] = [] if is_same else [f"{PAGE}: its table is old: run tools/run tests_page --write"]
    return report(wrong)
