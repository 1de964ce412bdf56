"""Rows, lines that are compared, and the jobs that run classes, by a module of cases that pass, fail, are left out, or
end their process."""
import os
import pathlib
import sys
import tempfile
import unittest
from collections.abc import Sequence
from unittest import mock

from rrv_tools import check, jobs, testing
from rrv_tools.jobs import Done, Job, Runner
from rrv_tools.program import Program, Result
from rrv_tools.testing import FAILED, LEFT_OUT, PASSED, Case, difference

# A module of cases, as a file that only these tests have.
MODULE = '''
import os
import unittest
from rrv_tools.testing import Case, rows

@rows({"of one": 1, "of two": 2}, "take")
class Rows(unittest.TestCase):
    def take(self, row):
        self.compared = 5
        self.assertEqual(row, 1, f"the row is {row}")

class Ends(unittest.TestCase):
    def test_first(self):
        pass
    def test_second(self):
        os._exit(3)

class Needs(Case):
    needs = ("no-such-program",)
    def test_it(self):
        raise OSError

class Folders(Case):
    def test_it_is_empty(self):
        assert os.listdir() == [] and os.getcwd() == str(self.folder)
        open("file", "w").close()
    test_it_is_empty_again = test_it_is_empty
    def test_that_raises(self):
        raise OSError("from outside")
'''


class Jobs(unittest.TestCase):
    """Jobs of that module."""

    folder: pathlib.Path

    def setUp(self) -> None:
        self.folder = pathlib.Path(self.enterContext(tempfile.TemporaryDirectory()))
        (self.folder / "made_cases.py").write_text(MODULE, encoding="utf-8")

    def run_cases(self, *cases: str) -> Done:
        """What a job of these cases of the folder's module does."""
        return self.run_names(*(f"made_cases.{it}" for it in cases))

    def run_names(self, *names: str) -> Done:
        """What a job of these names does, in the folder's modules in place of the package's."""
        program = self.folder / "program"
        program.touch(0o755)
        script = (f"import sys, rrv_tools\nrrv_tools.__path__.append({str(self.folder)!r})\n"
                  "from rrv_tools import testing\ntesting.main(sys.argv[1])")
        job = Job("made_cases", 1, cases=names)
        with mock.patch.object(Job, "command", lambda _, results: [sys.executable, "-c", script, str(results)]):
            return Runner(program, self.folder).run(job)

    def kinds(self, done: Done) -> list[tuple[str, str]]:
        """The outcomes, by the last part of the name."""
        return [(it.name.rpartition(".")[2], it.kind) for it in done.outcomes]

    def test_rows(self) -> None:
        """Each is a case, which counts for what it compared if it passed; what an assertion says is printed, with how
        to run it again."""
        done = self.run_cases("Rows.test_of_one", "Rows.test_of_two")
        self.assertEqual(self.kinds(done), [("test_of_one", PASSED), ("test_of_two", FAILED)])
        self.assertEqual(done.counts, (5, 1))
        name = "made_cases.Rows.test_of_two"
        with mock.patch.dict(os.environ, RRV_PROGRAM=""):
            self.assertEqual([it.strip() for it in done.lines()[1:]],
                             [name, "2 != 1 : the row is 2", f"run again: ./check -k {name}"])

    def test_what_runs_again(self) -> None:
        """The line names the program that RRV_PROGRAM does, and all cases of what failed around them."""
        with mock.patch.dict(os.environ, RRV_PROGRAM="a b"):
            self.assertEqual(jobs.again("cases.a.B.test_c"), "RRV_PROGRAM='a b' ./check -k cases.a.B.test_c")
        with mock.patch.dict(os.environ):
            os.environ.pop("RRV_PROGRAM", None)
            self.assertEqual(jobs.again("cases.a.B.setUpClass"), "./check -k cases.a.B.")
            self.assertEqual(jobs.again("cases.a.tearDownModule"), "./check -k cases.a.")

    def test_what_can_t_be_loaded(self) -> None:
        """A module that raises, one that isn't there, and a case that isn't: each fails by its name, and says why."""
        (self.folder / "raising_cases.py").write_text("raise OSError('from outside')", encoding="utf-8")
        whys = {"raising_cases": "OSError: from outside", "missing_cases": "missing_cases", "made_cases.No": "No"}
        for name, why in whys.items():
            with self.subTest(name):
                (found,) = self.run_names(name).outcomes
                self.assertEqual((found.name, found.kind), (name, FAILED))
                self.assertIn(why, found.text.splitlines()[-1])

    def test_a_process_that_ends(self) -> None:
        """Those that it didn't come to failed."""
        done = self.run_cases("Ends.test_first", "Ends.test_second")
        self.assertEqual(self.kinds(done), [("test_first", PASSED), ("test_second", FAILED)])
        self.assertIn("ended with 3", done.outcomes[1].text)

    def test_a_program_that_is_missing(self) -> None:
        """Its class is left out, and counts nothing."""
        done = self.run_cases("Needs.test_it")
        self.assertEqual((self.kinds(done), done.counts), ([("setUpClass", LEFT_OUT)], (0, 0)))
        self.assertEqual(done.lines()[1:], ["    left out: no-such-program is not installed"])

    def test_folders(self) -> None:
        """Each case has an empty one; another exception is printed with where it was raised."""
        done = self.run_cases("Folders.test_it_is_empty", "Folders.test_it_is_empty_again", "Folders.test_that_raises")
        self.assertEqual([kind for _, kind in self.kinds(done)], [PASSED, PASSED, FAILED])
        self.assertIn("OSError: from outside", done.outcomes[2].text)
        self.assertEqual(sorted(it.name for it in self.folder.iterdir()), ["made_cases.py", "program"])

    def test_a_script(self) -> None:
        """It is counted by its last line; one that has none failed, and so did one with another status than 0."""
        good = "3 passed, 0 failed\n"
        for text, status, counts in ((good, 0, (3, 0)), (good, 2, (3, 1)), ("text\n", 0, (0, 1))):
            self.assertEqual(jobs.counts_in(text, status), counts)
        self.assertEqual(jobs.counts_in("3 passed, 2 failed\n", 1), (3, 2))


class Lines(unittest.TestCase):
    """Lines of a program that echoes what it should not."""

    def need(self, words: Sequence[str], **wanted: bytes) -> str:
        """What a case says of a line of `sh`."""
        case = Case()
        with mock.patch.object(Case, "program", Program(pathlib.Path("/bin/sh")), create=True):
            try:
                case.need_line("-c", *words, **wanted)  # type: ignore[arg-type]
            except AssertionError as wrong:
                return str(wrong)
        return ""

    def test_what_differs(self) -> None:
        """The status, the output and the errors, after the words as a shell takes them."""
        self.assertEqual(self.need(["echo out"], out=b"out\n"), "")
        text = self.need(["echo 'a b'; exit 3"], out=b"c\n")
        self.assertEqual(text.splitlines()[0], """rrv -c 'echo '"'"'a b'"'"'; exit 3'""")
        self.assertEqual([it.strip() for it in text.splitlines()[1:]],
                         ["status: wanted 0", "came 3", r"output: wanted b'c\n'", r"came b'a b\n'"])

    def test_long_texts(self) -> None:
        """They are compared by a diff."""
        text = difference("output", b"a\nb\nc\nd\n", b"a\nb\nx\nd\n")
        self.assertEqual(text.splitlines()[-4:], [" b", "-c", "+x", " d"])

    def test_ends_of_long_texts(self) -> None:
        """A newline that is missing stands in the diff, and so does a carriage return."""
        text = difference("output", b"a\nb\nc\nd\n", b"a\nb\nc\nd")
        self.assertEqual(text.splitlines()[-3:], [" c", " d", "+\\ no newline at the end"])
        text = difference("output", "a\nb\nc\nd\n", "a\nb\nc\nd\r\n")
        self.assertEqual(text.splitlines()[-4:], [" b", " c", "-d", "+d\\r"])

    def test_texts_with_equal_lines(self) -> None:
        """A character that can't be printed is shown as others may be; then there is no diff."""
        text = difference("output", "a\nb\nc\n\7\n", "a\nb\nc\n\\x07\n")
        self.assertEqual([it.strip() for it in text.splitlines()],
                         [r"output: wanted 'a\nb\nc\n\x07\n'", r"came 'a\nb\nc\n\\x07\n'"])

    def test_bytes_that_are_no_text(self) -> None:
        """They are compared by the first that differs, however many newlines they have."""
        for other in (b"\0", b"\xff"):
            lines = difference("file", b"\n" * 300 + other + b"\n", b"\n" * 300 + b"a\n").splitlines()
            self.assertEqual(len(lines), 2)
            self.assertTrue(lines[0].startswith("file, from byte 300 on: wanted .. "))

    def test_long_values(self) -> None:
        """What is around the first place at which they differ is shown."""
        for wanted, came in ((b"a" * 1000, b"a" * 500 + b"bc" + b"a" * 498),
                             (["a"] * 500, ["a"] * 250 + ["bc"] + ["a"] * 249)):
            lines = difference("what", wanted, came).splitlines()
            self.assertEqual(["bc" in it for it in lines], [False, True])
            self.assertTrue(all(len(it) < 500 for it in lines))
        self.assertIn("from byte 500 on", difference("what", b"a" * 1000, b"a" * 500))

    def test_a_result(self) -> None:
        """It is what a tuple is."""
        self.assertEqual(Program(pathlib.Path("/bin/sh")).run("-c", "cat; exit 2", stdin=b"in"), Result(2, b"in", b""))


class Names(unittest.TestCase):
    """The names of cases, and the words that choose some."""

    def test_method_names(self) -> None:
        """What a name can't have is `_`, and two alike are an error."""
        self.assertEqual(testing.method_name("a store's 2 gates, and `list`"), "test_a_store_s_2_gates_and_list")
        with self.assertRaises(ValueError):
            testing.add_rows(type("Made", (unittest.TestCase,), {}), [("a b", 1), ("a-b", 2)], lambda case, row: None)

    def test_words(self) -> None:
        """A word is a part of a name, and a pattern the whole of it."""
        self.assertTrue(check.fits("cases.scenes.Scenes.test_bad", ["nothing", "scenes"]))
        self.assertTrue(check.fits("cases.scenes.Scenes.test_bad", ["*.test_b*"]))
        self.assertFalse(check.fits("cases.scenes.Scenes.test_bad", ["*.test_b"]))

    def test_a_whole_name(self) -> None:
        """It is that case alone, also if other names begin with it."""
        names = ["cases.a.A.test_b", "cases.a.A.test_b_c", "cases.a.A.test_d"]
        self.assertEqual(check.chosen(names, names[:1]), names[:1])
        self.assertEqual(check.chosen(names, [names[0], "test_d"]), [names[0], names[2]])
        self.assertEqual(check.chosen(names, ["A.test_b"]), names[:2])
        self.assertEqual(check.chosen(names, []), names)

    def test_real(self) -> None:
        """Classes that build programs are run by --real alone, and no look is."""
        plain, real = ({it.name.partition(" ")[0] for it in check.jobs_found(is_real=it)} for it in (False, True))
        self.assertEqual(plain & real, set())
        self.assertLess({"cases.musl.Programs", "cases.real.Recipes", "cases.guide.OwnProgram"}, real)
        self.assertLess({"cases.musl.RefusedLines", "cases.guide.Guide", "tools/places"}, plain)

    def test_shards(self) -> None:
        """A class of 90 seconds has three jobs, and each case is in one of them; of a third of it there is one job."""
        body = {f"test_{it}": lambda self: None for it in range(9)}
        made = type("Made", (unittest.TestCase,), {**body, "seconds": 90, "__module__": "rrv_tools.cases.made"})
        found = list(check.jobs_of_class(made, []))
        self.assertEqual([it.name for it in found], [f"cases.made.Made {it}/3" for it in (1, 2, 3)])
        every = [f"cases.made.Made.test_{it}" for it in range(9)]
        self.assertEqual(sorted(it for job in found for it in job.cases), every)
        self.assertEqual([it.cases for it in check.jobs_of_class(made, ["test_1"])], [("cases.made.Made.test_1",)])
