"""Writes the release: release/rrv, which is the program that was built here, and release/FROM, which says from what.

usage: tools/run release            writes both, if crates/rrv/out/rrv was built of this very text
       tools/run release --check    compares the release with the text and with the program that the gate built

FROM names the version, the machine, the kit and its logic, and the sum of the text (tools/text_sum). It says nothing of
the program's bytes: --check compares these, if the program here was built by the same kit. With another kit it prints
the line `compare both`, since then what the two print is to be compared. Its last line is 'N passed, M failed'.
"""
import re
import shutil
import subprocess
import sys
from collections.abc import Sequence
from pathlib import Path
from subprocess import DEVNULL

from rrv_tools.prover.crates import ROOT, read, report

BUILT, RELEASE, FROM = "crates/rrv/out/rrv", "release/rrv", "release/FROM"


def output(*words: str | Path) -> str | None:
    """What a command prints, or None if it fails or can't be run."""
    try:
        done = subprocess.run(words, stdin=DEVNULL, capture_output=True, cwd=ROOT, errors="replace", check=False)
    except OSError:
        return None
    return done.stdout.strip() if done.returncode == 0 else None


def needed(text: str | None, why: str) -> str:
    """A text; without it this ends with the reason."""
    return sys.exit(f"release: {why}") if text is None else text


def sum_and_kit() -> tuple[str, str]:
    """The sum of the text, and the kit in use."""
    total = needed(output(ROOT / "tools/text_sum"), "the sum of the text could not be computed")
    return total, needed(output("rt", "version"), "rt is needed, to name the kit")


def machine_of(program: Path) -> str:
    """The machine that a program is for, by the newest version of GLIBC that it asks for."""
    newest = max((int(it) for it in re.findall(rb"GLIBC_2\.([0-9]+)", program.read_bytes())), default=0)
    return f"x86-64 Linux, GLIBC 2.{newest} or later"


def write() -> int:
    """Writes the release."""
    (total, kit), built = sum_and_kit(), ROOT / BUILT
    version = needed(output(built, "--version"), f"{BUILT} does not print its version: tools/run build builds it")
    named = re.fullmatch(r"rrv (\S+) \((\w+)\)", version)
    if not named or named[2] != total[:12]:
        sys.exit(f"release: {BUILT} was not built of this text: it prints {version!r}, and the text's sum is {total}")
    text = f"version: {named[1]}\nmachine: {machine_of(built)}\nkit: {kit}\ntext: {total}\n"
    (ROOT / RELEASE).parent.mkdir(exist_ok=True)
    shutil.copyfile(built, ROOT / f"{RELEASE}.new")
    (ROOT / f"{RELEASE}.new").chmod(0o755)
    (ROOT / f"{FROM}.new").write_text(text, encoding="utf-8")
    for it in (RELEASE, FROM):
        (ROOT / f"{it}.new").replace(ROOT / it)
    return 0


def differing(one: Path, other: Path) -> str:
    """Where two programs differ first, or that one is missing; empty if they are the same."""
    if not other.is_file():
        return "there is no such file"
    left, right = one.read_bytes(), other.read_bytes()
    same = next((at for at, (a, b) in enumerate(zip(left, right, strict=False)) if a != b), min(len(left), len(right)))
    return "" if left == right else f"they differ at byte {same}"


def check() -> int:
    """Compares the release."""
    (total, kit), release = sum_and_kit(), ROOT / RELEASE
    if not release.is_file() or not (ROOT / FROM).is_file():
        sys.exit("release: there is no release: tools/run release writes it")
    of = dict(re.findall(r"(?m)^(\w+): (.*)$", read(FROM)))
    older = f"{FROM} is of another text, so tools/run release is to write the release anew; the sum of its text is"
    version = f"rrv {of.get('version')} ({total[:12]})"
    looks = [(older, of.get("text"), total), (f"{RELEASE} prints", output(release, "--version"), version)]
    looks.append((f"the machine in {FROM} is", of.get("machine"), machine_of(release)))
    if of.get("kit") == kit:
        looks.append((f"{RELEASE} is not the program that was built:", differing(release, ROOT / BUILT), ""))
    else:
        print(f"release: {RELEASE} was built by {of.get('kit')}, and the kit here is {kit}\ncompare both")
    return report({what: [] if got == wanted else [f"release: {what} {got}, wanted {wanted or 'none'}"]
                   for what, got, wanted in looks})


def main(words: Sequence[str]) -> int | None:
    """Writes, or compares."""
    if [*words] not in ([], ["--check"]):
        return None
    return check() if words else write()
