"""That each growth of a test is refused in turn, and which tests are counted as failed, by a program whose tests and
growths are made up."""
import contextlib
import io
import pathlib
import shutil
import subprocess
import tempfile
import unittest
from typing import ClassVar
from unittest import mock

from rrv_tools import preload, refused_growths
from rrv_tools.refused_growths import ONE, TWO
from rrv_tools.testing import rows

# A program of tests in C, without headers, that takes the name of a test as its word, or from the row that it reads. A
# test needs one growth before its subject, which stores 5 after two more.
PROGRAM = """
typedef __SIZE_TYPE__ size;
void *malloc(size);
int puts(const char *), strcmp(const char *, const char *);
char *strtok(char *, const char *);
long read(int, void *, size);
enum { DONE, MEMORY };
static int stored;
static int store(int refused) {
    if (!malloc(8) || !malloc(8)) return refused;
    stored = 5;
    return DONE;
}
static int run(const char *name) {
    if (!malloc(8)) return 1;
    BODIES
    return 2;
}
int main(int count, char **words) {
    static char row[64];
    if (count == 1) return read(0, row, sizeof row - 1) < 10 || run(strtok(row + 10, " "));
    if (strcmp(words[1], "--list")) return run(words[1]);
    return puts("NAMES") < 0;
}
"""
# Tests: what each does once it has what it needs, and returns if it passes or fails; and what is counted of it.
TESTS = {
    "well": ("if (store(MEMORY) == MEMORY) store(MEMORY); return stored != 5;", "failed 1, passed 2"),
    "reports_success": ("if (store(DONE) == MEMORY) store(DONE); return stored != 5;", "failed 3, passed 0"),
    "grows_after_it": ("if (store(MEMORY) == MEMORY) store(MEMORY); return !malloc(8);", "failed 2, passed 2"),
    "needs_a_refusal": ("return store(MEMORY) != MEMORY;", "failed 1, passed 2"),
    "has_no_subject": ("return 0;", "failed 1, passed 0"),
    "goes_on": ("while (store(MEMORY)); return stored != 5;", "failed 1, passed 2"),
    "ends": ("return store(MEMORY) == DONE && stored != 5;", "failed 1, passed 2"),
}
PASSED = ("well", "goes_on", "ends")
WRONG = ": not as it has to"


@rows({it: it for it in TESTS}, "count_alone")
class Growths(unittest.TestCase):
    """`tools/run refused_growths`, in a repository with two crates of that program."""

    seconds = 3
    folder: ClassVar[pathlib.Path]

    @classmethod
    def setUpClass(cls) -> None:
        super().setUpClass()
        if shutil.which("cc") is None:
            raise unittest.SkipTest("cc is not installed")
        cls.folder = pathlib.Path(cls.enterClassContext(tempfile.TemporaryDirectory()))
        bodies = "".join(f'if (!strcmp(name, "{name}")) {{ {body} }}\n' for name, (body, _) in TESTS.items())
        source, crates = cls.folder / "program.c", cls.folder / "crates"
        text = PROGRAM.replace("BODIES", bodies).replace("NAMES", r"\n".join(f"{it}: test" for it in TESTS))
        source.write_text(text, encoding="utf-8")
        for it in ("made/out/made_tests", "storage_cases/out/storage_cases", "storage_cases/data/file"):
            (crates / it).parent.mkdir(parents=True)
        program = crates / "made/out/made_tests"
        subprocess.run(["cc", "-fno-builtin", "-w", "-o", program, source], check=True)
        shutil.copy(program, crates / "storage_cases/out/storage_cases")
        rows_read = "no-memory well = 5\nno-memory reports_success = 5\nother well = 5\n"
        (crates / "storage_cases/stdin").write_text(rows_read, encoding="utf-8")

    def need(self, words: list[str], passed: int, failed: int, *lines: str) -> None:
        """The tool counts these, and prints these lines."""
        printed = io.StringIO()
        with mock.patch.object(refused_growths, "ROOT", self.folder), contextlib.redirect_stdout(printed):
            status = refused_growths.main(words)
        self.assertEqual(printed.getvalue().splitlines(), [*lines, f"{passed} passed, {failed} failed"])
        self.assertEqual(status, min(failed, 1))

    def count_alone(self, name: str) -> None:
        """One test, with each of its growths refused."""
        passes = name in PASSED
        line = f"made {name}: {TESTS[name][1]}{'' if passes else WRONG}"
        self.need(["made", name], int(passes), int(not passes), line)

    def test_of_several(self) -> None:
        """All those whose names have the text; one that is not as it has to be fails them."""
        self.need(["made", "s_"], 1, 4, f"made reports_success: failed 3, passed 0{WRONG}",
                  f"made grows_after_it: failed 2, passed 2{WRONG}", f"made needs_a_refusal: failed 1, passed 2{WRONG}",
                  f"made has_no_subject: failed 1, passed 0{WRONG}", "made goes_on: failed 1, passed 2")

    def test_of_rows(self) -> None:
        """Rows of a program are what its tests are; those that begin otherwise are none."""
        self.need(["storage_cases"], 1, 1, "storage_cases no-memory well: failed 1, passed 2",
                  f"storage_cases no-memory reports_success: failed 3, passed 0{WRONG}")

    def test_of_looks(self) -> None:
        """With the next growth refused too, a second call has to be made once more; with all after it, none may be."""
        looks = (("made", "well", ONE), ("made", "well", TWO), ("made", "goes_on", TWO), ("made", "ends", preload.ALL))
        with mock.patch.object(refused_growths, "LOOKS", looks):
            self.need([], 3, 1, "made well: failed 1, passed 2",
                      f"made well, each with the next: failed 3, passed 0{WRONG}",
                      "made goes_on, each with the next: failed 1, passed 2",
                      "made ends, each from one on: failed 1, passed 2")

    def test_of_none(self) -> None:
        """A crate that isn't built, or has no test that is named so, is counted as failed."""
        for crate, text in (("other", "well"), ("made", "nothing")):
            self.need([crate, text], 0, 1, f"{crate}: it has no built test named {text}")
