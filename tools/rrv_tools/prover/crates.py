"""The repository's files, what crates.txt says of the crates, and how a look reports what it found."""

import os
import shutil
import tomllib
from collections.abc import Iterable, Iterator, Mapping
from pathlib import Path

ROOT = Path(__file__).resolve().parents[3]
PRODUCT = "rrv"
MINUTES = "tools/minutes.toml"
# What a proof reads of a crate.
TEXTS = ("src", "specs", "proofs")
# The folders of what is made.
MADE = ("out", "__pycache__", ".mypy_cache")

Uses = dict[str, list[str]]


def read(path: str | Path) -> str:
    """The text of a file, by its path from the root."""
    return (ROOT / path).read_text(encoding="utf-8")


def files_of(name: str, folders: Iterable[str]) -> Iterator[Path]:
    """The files in these folders of a crate, folder by folder in the order of their names."""
    for folder in folders:
        yield from files_below(ROOT / "crates" / name / folder)


def files_below(folder: Path) -> Iterator[Path]:
    """The files in a folder, and then those of the folders in it, in the order of their names, but what is made."""
    found = sorted(folder.iterdir()) if folder.is_dir() else []
    yield from (it for it in found if it.is_file())
    for it in found:
        if it.is_dir() and it.name not in MADE:
            yield from files_below(it)


def lines() -> dict[str, str]:
    """The lines of crates.txt without their comments, by the crate that each is of."""
    found = (it.partition("#")[0].strip() for it in read("crates.txt").splitlines())
    return {it.partition(":")[0].split()[0]: it for it in found if it}


def listed() -> Uses:
    """The crates in the order of crates.txt, each with those of them that it names; crates of the kit are left out."""
    found = lines()
    return {name: [it for it in line.partition(":")[2].split() if it in found] for name, line in found.items()}


def below(uses: Uses, name: str) -> list[str]:
    """The crates that one stands on, directly or by others, each after those that it stands on."""
    found: dict[str, None] = {}

    def find(it: str) -> None:
        for that in uses[it]:
            if that not in found:
                find(that)
                found[that] = None

    find(name)
    return [*found]


def reduced(uses: Uses, name: str) -> list[str]:
    """Those that a crate names and that none of the others which it names stands on."""
    further = {that for it in uses[name] for that in below(uses, it)}
    return [it for it in uses[name] if it not in further]


def product(uses: Uses) -> list[str]:
    """The crates that rrv is made of, in their order."""
    kept = {*below(uses, PRODUCT), PRODUCT}
    return [it for it in uses if it in kept]


def chains(uses: Uses, minutes: Mapping[str, float]) -> dict[str, list[str]]:
    """The chain of crates that takes longest, from each on up to rrv. Each crate has to follow those that it uses."""
    found: dict[str, list[str]] = {}
    for name in reversed(uses):
        above = [chain for it, chain in found.items() if name in uses[it]]
        found[name] = [name, *max(above, key=lambda chain: sum(minutes[it] for it in chain), default=[])]
    return found


def minutes() -> dict[str, dict[str, float]]:
    """The minutes that a gate took for each crate: "proof", "tests" and "edits"; none if the file is missing."""
    found: dict[str, dict[str, float]] = tomllib.loads(read(MINUTES)) if (ROOT / MINUTES).is_file() else {}
    return found


def link(one: str, other: str) -> None:
    """Gives a file a second name, or copies it if that can't be had. Nothing may write to either."""
    try:
        os.link(one, other)
    except OSError:
        shutil.copy2(one, other)


def report(wrong: Mapping[str, Iterable[str]]) -> int:
    """Prints what is wrong with each of these, line by line, and the count. The status is 1 if something is wrong."""
    failed = sum(bool([print(it) for it in found]) for found in wrong.values())
    print(f"{len(wrong) - failed} passed, {failed} failed")
    return int(bool(failed))
