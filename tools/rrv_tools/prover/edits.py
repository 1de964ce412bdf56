"""Tries the wrong bodies of crates: the prover has to refuse each.

usage: tools/run edits [--lanes N] [--batch N] [--only PATTERN] [NAME..]
           tries those of these crates, or of each crate that changed since they were tried
       tools/run edits --stale             prints which crates changed since, and ends with 1 if any
       tools/run edits --texts [NAME..]    prints which texts of edits don't stand just once, and ends with 1 if any

A wrong body is an edit, a file NAME.edit of crates/NAME/must-fail (which the gate tries too) or of
crates/NAME/wrong-bodies (which is tried here alone), in the form that the toolchain has for must-fail. Up to a batch
of them, each of another function, go into one copy of the crate, which is checked once, by `rt check --allow-holes`:
so a function is judged though one that it calls is refused, by that one's contract, which no edit changes. An edit
counts as refused only if the prover's own line on its function says so and names a goal of that function. Any other is
tried again in a batch, and at last alone and without that flag; so are from the start those that change more than the
body of one function. Each check begins with the kept work of the crate as it stands, which has to be proved first.

If all edits of a crate are refused, crates/NAME/wrong-bodies/tried gets a line: a sum of its code, specs, proofs and
edits, and how many were refused. Comments and layout don't count, nor in which of the two folders an edit stands, nor
how imports are grouped and from which of this repository's modules they bring a name: a definition may move to another
module or crate as it is. The gate fails if a line is not that of the crate as it stands, or if a text of an edit no
longer stands just once.
"""
import argparse
import collections
import functools
import re
import shutil
import subprocess
import tempfile
from collections.abc import Iterable, Sequence
from concurrent.futures import ThreadPoolExecutor
from dataclasses import dataclass
from pathlib import Path

from rrv_tools.prover.crates import ROOT, TEXTS, Uses, below, lines, link, listed, reduced, report
from rrv_tools.prover.wrong_bodies import Edit, Texts, edits_of, functions, is_stale, lost_texts, note

# What the prover says of a proof file that only names what an edit took away.
NAME_IS_GONE = re.compile(r"(\./)?proofs/.*(has no field|is not in scope|has no `|was not admitted)")
# What it says of a text that it can't read.
UNREAD = re.compile(r"is not in scope|has no field|is no name|operand is missing|expected the end|cannot continue")
say = functools.partial(print, sep="\n", flush=True)


# ---- checks


def rt(folder: Path, *words: str) -> list[str]:
    """The lines that a command of the toolchain prints in a folder."""
    ran = subprocess.run(["rt", *words], cwd=folder, stdin=subprocess.DEVNULL, capture_output=True, check=False)
    return (ran.stdout + ran.stderr).decode(errors="replace").split("\n")


@dataclass
class Trial:
    """A crate under trial, in a folder of this run."""

    name: str
    uses: Uses
    room: Path
    work: Path | None = None

    def workspace(self) -> Path:
        """A workspace with a copy of the crate, the libraries that it stands on, and its kept work."""
        at, lower = Path(tempfile.mkdtemp(dir=self.room)), below(self.uses, self.name)
        rows = (line for it, line in lines().items() if it in {self.name, *lower})
        (at / "crates.txt").write_text("".join(f"{it}\n" for it in rows), encoding="utf-8")
        shutil.copy2(ROOT / "HANDLES", at)
        for it, part in ((it, part) for it in (*lower, self.name) for part in (*TEXTS, "out/rlib")):
            source, target = ROOT / "crates" / it / part, at / "crates" / it / part
            if it != self.name and source.is_dir():
                shutil.copytree(source, target, copy_function=link)
            elif part in TEXTS and source.is_dir():
                shutil.copytree(source, target)
        if self.work and self.work.is_dir():
            shutil.copytree(self.work, at / "crates" / self.name / "out/incremental")
        return at / "crates" / self.name

    def check(self, texts: Texts, *flags: str) -> tuple[list[str], Path]:
        """What `rt check` says of the crate with these texts, and where the crate's copy stands."""
        at = self.workspace()
        for file, text in texts.items():
            (at / file).write_text(text, encoding="utf-8")
        return rt(at, "check", "--jobs", "1", *flags), at

    def prove(self) -> set[str] | None:
        """Proves the crate as it stands, and returns the functions that it has; None if it isn't proved."""
        # This builds what is below each of these too.
        for it in reduced(self.uses, self.name):
            rt(ROOT / "crates" / it, "lib")
        self.work = ROOT / "crates" / self.name / "out/incremental"
        said, at = self.check({})
        self.work = at / "out/incremental"
        proved = {*re.findall(r"(?m)^fn (\S+): proved", "\n".join(said))}
        return proved if has(said, "logic=proved ") else None

    def tried(self, texts: Texts, *flags: str) -> tuple[list[str], bool]:
        """What a check over the kept work of the proved crate says, and whether the prover judged it."""
        said, at = self.check(texts, *flags)
        shutil.rmtree(at.parents[1], ignore_errors=True)
        return said, has(said, r"logic=not-proved|holes=\d+") and not any(is_unread(it, texts) for it in said)


def has(said: Iterable[str], pattern: str) -> bool:
    """Whether a line begins so."""
    return any(re.match(pattern, it) for it in said)


def is_unread(line: str, changed: Texts) -> bool:
    """Whether the prover could not read a text: an edit that only makes a statement false reads well."""
    at = re.match(r"(?:\./)?(\S+?):\d+:\d+: error: (?:(`[^`]*`): )?(.*)", line)
    if not at or at[1] not in changed and not at[1].startswith(("src/", "specs/")):
        return False
    return not at[2] or bool(UNREAD.search(re.sub(r"`[^`]*`", "", at[3])))


def is_refused(edit: Edit, text: str, said: Iterable[str]) -> bool:
    """Whether the prover's line on an edit's function says that it is refused, and names a goal of that function."""
    line = next((it for it in said if it.startswith(f"fn {edit.proved_name}: ")), "")
    if ": no proof: expected answers in" in line:
        return True
    if not line.startswith(f"fn {edit.proved_name}: not proved") or not edit.function:
        return False
    folder = re.escape("/".join((edit.proved_name or "").split("::")[1:]))
    of = edit.function.owner, edit.function.name
    own = [range(it.head + 1, it.last + 2) for it in functions(text) if (it.owner, it.name) == of]
    for it in said:
        if re.match(rf"(\./)?proofs/{folder}/\S+:\d+:\d+: error", it) and not NAME_IS_GONE.match(it):
            return True
        at = re.match(rf"note: {re.escape(edit.file)}:(\d+):\d+: it is not proved", it)
        if at and any(int(at[1]) in rows for rows in own):
            return True
    return False


# ---- trials


def batches_of(edits: Iterable[Edit], size: int) -> list[list[Edit]]:
    """Batches in which each edit has a function of its own."""
    made: list[list[Edit]] = []
    by_function = collections.defaultdict(list)
    for it in edits:
        by_function[it.proved_name].append(it)
    for row in sorted(by_function.values(), key=len, reverse=True):
        for place, it in enumerate(row):
            # A batch that has an edit of this function got it last.
            fitting = (batch for batch in made[place:] if len(batch) < size and batch[-1] not in row)
            if batch := next(fitting, None):
                batch.append(it)
            else:
                made.append([it])
    return made


def try_batch(trial: Trial, batch: Iterable[Edit]) -> list[Edit]:
    """The edits of a batch that are refused."""
    texts: Texts = {}
    taken: list[Edit] = []
    for it in batch:
        made, lost = it.applied(texts)
        if not lost:
            texts, taken = made, [*taken, it]
    said, judged = trial.tried(texts, "--allow-holes")
    return [it for it in taken if judged and is_refused(it, texts[it.file], said)]


def try_alone(trial: Trial, edit: Edit) -> str | None:
    """What is said of an edit that is tried alone: None if it is refused."""
    texts, lost = edit.applied({})
    if lost:
        return "BAD EDIT: one of its texts doesn't stand just once"
    said, judged = trial.tried(texts)
    if judged and has(said, "logic=not-proved"):
        return None
    if has(said, "logic=proved"):
        return "NOT REFUSED: the crate is proved with it"
    bad = [it for it in said if is_unread(it, texts)] or [it for it in said if it.strip()][-3:]
    return f"BAD EDIT: it did not reach the prover: {' | '.join(bad)[:300]}"


def left_by_batches(trial: Trial, edits: list[Edit], pool: ThreadPoolExecutor, size: int) -> list[Edit]:
    """Those of these edits, each of one body, that two batches leave undecided."""
    left = edits
    for then in ("once more", "are tried alone"):
        refused = {it for batch in pool.map(lambda it: try_batch(trial, it), batches_of(left, size)) for it in batch}
        left = [it for it in left if it not in refused]
        if len(left) < 2:
            break
        say(f"{trial.name}: {len(edits) - len(left)} refused in batches; {len(left)} {then}")
    return left


def try_crate(trial: Trial, pool: ThreadPoolExecutor, size: int, only: str) -> tuple[int, list[str]]:
    """Tries the edits of a crate. Returns how many are refused, and what is said of the others."""
    name, names = trial.name, trial.prove()
    edits = [Edit.of(name, it) for it in edits_of(name) if re.search(only, it.name)]
    if names is None:
        return 0, [f"{name}: not proved as it stands"] * max(1, len(edits))
    for it in edits:
        it.find_among(names)
    single = [it for it in edits if it.proved_name]
    say(f"{name}: {len(edits)} edits, {len(single)} of one body each")
    alone = [it for it in edits if not it.proved_name] + left_by_batches(trial, single, pool, size)
    tried = zip(alone, pool.map(lambda it: try_alone(trial, it), alone), strict=True)
    wrong = [f"{name}/{it.name}: {why}" for it, why in tried if why]
    if not wrong and not only:
        note(name)
    return len(edits) - len(wrong), wrong


def try_all(names: Iterable[str], lanes: int, size: int, only: str) -> int:
    """Tries the edits of these crates, and prints what comes of each."""
    uses, passed, failed = listed(), 0, 0
    with ThreadPoolExecutor(lanes) as pool:
        for name in names:
            with tempfile.TemporaryDirectory(prefix="edits-") as room:
                refused, wrong = try_crate(Trial(name, uses, Path(room)), pool, size, only)
            passed, failed = passed + refused, failed + len(wrong)
            say(f"{name}: {refused} refused", *wrong)
    say(f"{passed} passed, {failed} failed")
    return int(bool(failed))


def main(words: Sequence[str]) -> int:
    """Tries edits, or reports on them."""
    want = argparse.ArgumentParser(prog="tools/run edits", usage=(__doc__ or "").partition("usage: ")[2])
    want.add_argument("--lanes", type=int, default=1, help="how many checks run side by side (1)")
    want.add_argument("--batch", type=int, default=12, help="how many edits a check has at most (12)")
    want.add_argument("--only", default="", metavar="PATTERN", help="only edits whose names it matches; notes nothing")
    want.add_argument("--stale", action="store_true", help="print which crates changed since")
    want.add_argument("--texts", action="store_true", help="print which texts of edits don't stand just once")
    want.add_argument("names", nargs="*", metavar="NAME", help="a crate")
    said = want.parse_args(words)
    if said.texts:
        names = said.names or [*listed()]
        lost = [it for name in names for it in lost_texts(name)]
        say(*lost, f"{sum(len(edits_of(it)) for it in names)} edits, {len(lost)} texts that don't stand just once")
        return int(bool(lost))
    if said.stale:
        why = "its text, or its wrong bodies, changed since these were tried: run tools/run edits"
        found = {it: [f"{it}: {why} {it}", *lost_texts(it)] if is_stale(it) else [] for it in listed()}
        return report({it: wrong for it, wrong in found.items() if wrong or edits_of(it)})
    return try_all(said.names or [*filter(is_stale, listed())], said.lanes, said.batch, said.only)
