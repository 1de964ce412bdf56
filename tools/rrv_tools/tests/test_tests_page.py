"""Tests that the table of docs/TESTS.md is made of docstrings, and that the look at it sees what is missing or old."""
import shutil

from rrv_tools.tests.repository import ROOT, Done, InRepository

PACKAGE, PAGE = "tools/rrv_tools", "docs/TESTS.md"
SMALL, MANY = f"{PACKAGE}/cases/small.py", f"{PACKAGE}/cases/many.py"
# The tool, and what it stands on.
MODULES = ("check", "gate", "jobs", "musl", "preload", "program", "testing", "tests_page")
FILES = {
    PAGE: "# Tests\n\nAbove.\n\n<!-- tools/run tests_page --write makes this of the docstrings of modules -->\n"
          "<!-- and this is its end -->\n\nBelow.\n",
    f"{PACKAGE}/cases/__init__.py": "", f"{PACKAGE}/tests/__init__.py": "", f"{PACKAGE}/bench/__init__.py": "",
    SMALL: '"""Files that are small, or\na|b.txt. They are read.\n\nExpected values: a page,\nby hand.\n'
           'A larger run: of 9,\nnone failed.\n\nMore.\n"""\nimport unittest\n\n\nclass Small(unittest.TestCase):\n'
           '    def test_one(self): ...\n    def test_two(self): ...\n',
    MANY: '"""Many things.\n\nExpected values: a page.\n"""\nimport unittest\n\n\nclass Five(unittest.TestCase):\n'
          '    compared = 5\n    def test_one(self): ...\n    def test_two(self): ...\n\n\n'
          'class More(unittest.TestCase):\n    def test_one(self):\n        self.compared = 7\n',
    f"{PACKAGE}/bench/changing_code.py": '"""Changes code.\n\nExpected values: qemu.\n"""\n',
    f"{PACKAGE}/refused_growths.py": '"""Refuses.\n\nusage: no\n\nExpected values: too late.\n"""\n',
}
WRITTEN = """# Tests

Above.

<!-- tools/run tests_page --write makes this of the docstrings of modules -->
| It looks at | Module | Cases | Expected values | A larger run |
|---|---|---|---|---|
| Many things. | `cases.many` | 11+ | a page. |  |
| Files that are small, or a\\|b.txt. | `cases.small` | 2 | a page, by hand. | of 9, none failed. |
| Changes code. | `tools/run bench changing_code` |  | qemu. |  |
| Refuses. | `tools/run refused_growths` |  | the test. |  |
<!-- and this is its end -->

Below.
"""
NO_LABEL = "its docstring has no line `Expected values: ..` after its first paragraph"


class TestsPage(InRepository):
    """The table of a repository with two modules of cases."""

    seconds = 6
    files = FILES

    def setUp(self) -> None:
        super().setUp()
        for it in MODULES:
            shutil.copy(ROOT / PACKAGE / f"{it}.py", self.root / PACKAGE / f"{it}.py")
        self.label_last()

    def label_last(self) -> None:
        """Puts the label of the last module at its place; the look sees that it wasn't there."""
        self.fails("tests_page", "--check", says=f"`tools/run refused_growths`: {NO_LABEL}")
        last = f"{PACKAGE}/refused_growths.py"
        self.change(last, "usage: no\n\nExpected values: too late", "Expected values: the test")

    def test_written(self) -> None:
        self.fails("tests_page", "--check", says=f"{PAGE}: its table is old")
        self.assertEqual(self.tool("tests_page", "--write"), Done(0, []))
        self.assertEqual(self.read(PAGE), WRITTEN)
        self.passes(5, "tests_page", "--check")

    def test_missing(self) -> None:
        """What a docstring lacks is printed, and nothing is written."""
        changes = (("Expected values: a", "A", NO_LABEL), ("Many things.", "Many things", "no first sentence"))
        for old, new, says in changes:
            self.write(MANY, FILES[MANY])
            self.change(MANY, old, new)
            for word in ("--check", "--write"):
                self.fails("tests_page", word, says=says)
        self.assertEqual(self.read(PAGE), FILES[PAGE])

    def test_old(self) -> None:
        for path, old, new in ((SMALL, "of 9", "of 8"), (SMALL, "test_two", "two"), (MANY, "= 5", "= 6"),
                               (MANY, "self.compared", "compared"), (PAGE, "| 2 |", "| 3 |"), (PAGE, "this of", "of")):
            self.write(path, WRITTEN if path == PAGE else FILES[path])
            self.tool("tests_page", "--write")
            self.passes(5, "tests_page", "--check")
            self.change(path, old, new)
            self.fails("tests_page", "--check", says=f"{PAGE}: its table is old")
            self.write(path, WRITTEN if path == PAGE else FILES[path])

    def test_new_module(self) -> None:
        """A module that is added is taken up."""
        self.tool("tests_page", "--write")
        self.write(f"{PACKAGE}/cases/added.py", FILES[SMALL].replace("Files", "Added files"))
        self.fails("tests_page", "--check", says=f"{PAGE}: its table is old")
        self.tool("tests_page", "--write")
        self.assertIn("| Added files that are small, or a\\|b.txt. | `cases.added` | 2 |", self.read(PAGE))

    def test_other_words(self) -> None:
        self.assertEqual(self.tool("tests_page").status, 2)
