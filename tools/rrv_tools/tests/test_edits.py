"""Tries edits by a prover that is made up: a body that says WRONG is refused, and UNREAD is no Rattle."""
import sys
import unittest

from rrv_tools.prover.edits import batches_of, is_refused, is_unread
from rrv_tools.prover.wrong_bodies import Edit, Function, functions, owner_of
from rrv_tools.tests.repository import Done, InRepository

RT = f"#!{sys.executable} -IS" + r"""
import os, re, sys
text = open("src/lib.rt").read() if sys.argv[1] == "check" else ""
with open(os.environ["LOG"], "a") as log:
    log.write(" ".join(sys.argv[1:] + re.findall(r"WRONG\d|UNREAD|broken", text)) + "\n")
for body in re.finditer(r"fn (\w+)[^{]*\{[^}]*\}", text):
    is_wrong = "WRONG" in body[0] or "broken" in body[0]
    print(f"fn low::{body[1]}: {'not ' * is_wrong}proved")
    for it in re.finditer("WRONG", body[0]):
        line = text.count("\n", 0, body.start() + it.start()) + 1
        print(f"note: src/lib.rt:{line}:5: it is not proved")
if "UNREAD" in text:
    print("src/lib.rt:1:1: error: expected the end of a body")
is_proved = not re.search("WRONG|UNREAD|broken", text)
print("logic=proved 2 functions" if is_proved else "logic=not-proved")
"""
SOURCE = """//! A crate.

// Returns one.
pub fn one() -> u64 {
    1
}

pub fn two() -> u64 {
    2
}
"""
TRIED = "crates/low/wrong-bodies/tried"


def edit(old: str, new: str) -> str:
    """An edit of the source."""
    return f"file: src/lib.rt\nold: {old}\nnew: {new}\n"


class Edits(InRepository):
    rt = RT
    files = {"crates.txt": "low: std\n", "crates/low/src/lib.rt": SOURCE,
             "crates/low/must-fail/one_is_wrong.edit": edit("    1", "    WRONG1"),
             "crates/low/wrong-bodies/two_is_wrong.edit": edit("    2", "    WRONG2")}
    stale = "low: its text, or its wrong bodies, changed since these were tried: run tools/run edits low"

    def try_all(self) -> None:
        """Tries the edits, all of which are refused."""
        done = self.tool("edits")
        self.assertEqual((done.status, done.lines[-2:]), (0, ["low: 2 refused", "2 passed, 0 failed"]))

    def test_refused(self) -> None:
        self.fails("edits", "--stale", says=self.stale)
        self.try_all()
        self.assertRegex(self.read(TRIED), r"\A[0-9a-f]{32} 2\n\Z")
        # The crate as it stands, and then both edits in one batch.
        self.assertEqual(self.logged(), ["check --jobs 1", "check --jobs 1 --allow-holes WRONG1 WRONG2"])
        self.passes(1, "edits", "--stale")
        self.assertEqual(self.tool("edits"), Done(0, ["0 passed, 0 failed"]))

    def test_line_is_no_edit(self) -> None:
        self.try_all()
        line = self.read(TRIED)
        self.assertEqual(self.tool("edits", "low").lines[-1], "2 passed, 0 failed")
        self.assertEqual(self.read(TRIED), line)
        self.assertEqual(self.tool("edits", "--texts").lines, ["2 edits, 0 texts that don't stand just once"])

    def test_what_does_not_count(self) -> None:
        self.try_all()
        self.change("crates/low/src/lib.rt", "// Returns one.", "// Another comment.")
        self.change("crates/low/src/lib.rt", "pub fn two() -> u64", "pub  fn two()  -> u64")
        edit = self.root / "crates/low/must-fail/one_is_wrong.edit"
        edit.rename(edit.parents[1] / "wrong-bodies/one_is_wrong.edit")
        self.passes(1, "edits", "--stale")

    def test_definition_that_moves(self) -> None:
        self.change("crates/low/src/lib.rt", "// Returns one.", "use low::here::Thing;\nuse std::here::Thing;\n")
        self.try_all()
        self.change("crates/low/src/lib.rt", "low::here::Thing", "low::there::below::Thing")
        self.passes(1, "edits", "--stale")
        self.change("crates/low/src/lib.rt", "low::there::below::Thing", "low::there::below::Other")
        self.fails("edits", "--stale", says=self.stale)
        self.change("crates/low/src/lib.rt", "low::there::below::Other", "low::here::Thing")
        self.passes(1, "edits", "--stale")
        self.change("crates/low/src/lib.rt", "std::here::Thing", "std::there::Thing")
        self.fails("edits", "--stale", says=self.stale)

    def test_changed_source(self) -> None:
        self.try_all()
        self.change("crates/low/src/lib.rt", "-> u64 {\n    2", "-> u32 {\n    2")
        self.fails("edits", "--stale", says=self.stale)

    def test_changed_proof(self) -> None:
        self.try_all()
        self.write("crates/low/proofs/one/Answers.antt", "one : ℕ\n")
        self.fails("edits", "--stale", says=self.stale)

    def test_changed_edit(self) -> None:
        self.try_all()
        self.change("crates/low/wrong-bodies/two_is_wrong.edit", "WRONG2", "WRONG3")
        self.fails("edits", "--stale", says=self.stale)

    def test_another_edit(self) -> None:
        self.try_all()
        self.write("crates/low/wrong-bodies/three.edit", edit("    2", "    WRONG3"))
        self.fails("edits", "--stale", says=self.stale)

    def test_missing_edits(self) -> None:
        self.try_all()
        (self.root / "crates/low/must-fail/one_is_wrong.edit").unlink()
        (self.root / "crates/low/wrong-bodies/two_is_wrong.edit").unlink()
        self.fails("edits", "--stale", says=self.stale)

    def test_survivor(self) -> None:
        self.try_all()
        self.write("crates/low/wrong-bodies/survives.edit", edit("    2", "    1 + 1"))
        line = self.read(TRIED)
        self.fails("edits", says="low/survives: NOT REFUSED: the crate is proved with it")
        # It was tried in batches and then alone, without holes.
        self.assertIn("check --jobs 1", self.logged()[3:])
        self.assertEqual(self.read(TRIED), line)
        self.fails("edits", "--stale", says=self.stale)

    def test_survivor_in_a_refused_batch(self) -> None:
        self.write("crates/low/wrong-bodies/two_is_wrong.edit", edit("    2", "    1 + 1"))
        self.fails("edits", "low", says="low/two_is_wrong: NOT REFUSED: the crate is proved with it")

    def test_unread(self) -> None:
        self.write("crates/low/wrong-bodies/unread.edit", edit("    2", "    UNREAD"))
        self.fails("edits", "low", says="low/unread: BAD EDIT: it did not reach the prover: src/lib.rt:1:1: error")

    def test_text_that_stands_twice(self) -> None:
        self.write("crates/low/wrong-bodies/twice.edit", edit("pub fn", "fn"))
        self.fails("edits", "low", says="low/twice: BAD EDIT: one of its texts doesn't stand just once")
        done = self.tool("edits", "--texts")
        self.assertEqual(done, Done(1, ["low/twice: 2 times in src/lib.rt: pub fn",
                                        "3 edits, 1 texts that don't stand just once"]))

    def test_layout_that_loses_a_text(self) -> None:
        self.try_all()
        self.change("crates/low/src/lib.rt", "\n    2", "\n  2")
        self.fails("edits", "--stale", says="low/two_is_wrong: 0 times in src/lib.rt: 2")

    def test_edit_without_a_text(self) -> None:
        self.write("crates/low/wrong-bodies/empty.edit", "file: src/lib.rt\n")
        self.fails("edits", "low", says="low/empty: BAD EDIT")

    def test_crate_that_is_not_proved(self) -> None:
        self.change("crates/low/src/lib.rt", "    2", "    2 // broken")
        done = self.tool("edits", "low")
        self.assertEqual((done.status, done.lines[-1]), (1, "0 passed, 2 failed"))
        self.assertFalse((self.root / TRIED).exists())

    def test_two_functions_in_one_edit(self) -> None:
        self.write("crates/low/wrong-bodies/both.edit", edit("    1", "    WRONG1") + "old:     2\nnew:     WRONG2\n")
        self.assertEqual(self.tool("edits", "low").lines[-1], "3 passed, 0 failed")
        tried = ["check --jobs 1 --allow-holes WRONG1 WRONG2", "check --jobs 1 WRONG1 WRONG2"]
        self.assertEqual(self.logged()[1:], tried)

    def test_only(self) -> None:
        self.assertEqual(self.tool("edits", "--only", "^two", "low").lines[-1], "1 passed, 0 failed")
        self.assertFalse((self.root / TRIED).exists())


class Reading(unittest.TestCase):
    """What is read of a prover's lines, and of a source."""

    text = "impl<T> Reads<T> for Log<T> {\n    pub fn len(&self) -> u64 {\n        1\n    }\n}\n"

    def edit(self) -> Edit:
        """An edit of the function of the text."""
        function = Function("len", "LogReads", 1, 2, 3)
        return Edit("low", "e", [], "src/log.rt", function, "low::log::LogReads::len")

    def refused(self, *lines: str) -> bool:
        """Whether the edit counts as refused by these lines."""
        return is_refused(self.edit(), self.text, lines)

    def test_functions(self) -> None:
        self.assertEqual([*functions(self.text)], [self.edit().function])

    def test_owners(self) -> None:
        wanted = {"impl Log {": "Log", "pub trait Reads {": "Reads", "impl Reads for Log {": "LogReads", "let x;": "",
                  "impl<A: Of<B>> From<A> for Fault where A: Copy {": "FaultFrom", "implies": ""}
        self.assertEqual({it: owner_of(it) for it in wanted}, wanted)

    def test_a_goal_of_the_function(self) -> None:
        own = "fn low::log::LogReads::len: not proved"
        self.assertTrue(self.refused(own, "note: src/log.rt:3:9: it is not proved"))
        self.assertTrue(self.refused(own, "./proofs/log/LogReads/len/Answers.antt:3:9: error: `x`: no goal"))
        self.assertTrue(self.refused("fn low::log::LogReads::len: no proof: expected answers in proofs/log"))

    def test_no_goal_of_the_function(self) -> None:
        own, goal = "fn low::log::LogReads::len: not proved", "note: src/log.rt:3:9: it is not proved"
        self.assertFalse(self.refused(own))
        self.assertFalse(self.refused("fn low::log::LogReads::len: proved", goal))
        self.assertFalse(self.refused("fn low::log::LogReads::is: not proved", goal))
        self.assertFalse(self.refused(own, goal.replace(":3:", ":6:")))
        self.assertFalse(self.refused(own, "note: src/other.rt:3:9: it is not proved"))
        self.assertFalse(self.refused(own, "proofs/log/LogReads/len/Answers.antt:3:9: error: `x` is not in scope"))
        self.assertFalse(self.refused(own, "proofs/log/LogReads/is/Answers.antt:3:9: error: `x`: no goal"))

    def test_unread_lines(self) -> None:
        texts = {"src/log.rt": ""}
        self.assertTrue(is_unread("src/log.rt:3:9: error: expected the end of a body", texts))
        self.assertTrue(is_unread("./specs/Log.antt:3:9: error: `len`: `x` is not in scope", texts))
        self.assertFalse(is_unread("src/log.rt:3:9: error: `len`: the goal is false", texts))
        self.assertFalse(is_unread("proofs/log/len/Answers.antt:3:9: error: expected the end", texts))

    def test_batches(self) -> None:
        names = ("a0", "a1", "a2", "b0", "b1", "c0")
        edits = [Edit("low", it, proved_name=it[0]) for it in names]
        found = [[it.name for it in batch] for batch in batches_of(edits, 2)]
        self.assertEqual(found, [["a0", "b0"], ["a1", "b1"], ["a2", "c0"]])
