"""A store in a file that is recorded to again and again, and what is known of the guests in it, and of the Mark. What
isn't as it has to be is `Wrong`."""
import dataclasses
import os
import pathlib
import re
from collections.abc import Sequence

from rrv_tools import store as stores
from rrv_tools.guests import Printer, Threads
from rrv_tools.program import Program, Result, Wrong

Guest = Printer | Threads
# What a guest printed to its two descriptors.
Texts = tuple[bytes, bytes]


@dataclasses.dataclass(frozen=True)
class KnownGuest:
    """A guest of a store: what it had printed, what is replayed of it, and the lines of `list` and `verify`."""

    guest: Guest
    printed: Texts
    replayed: Texts
    line: str
    verified: str

    def has_ended(self) -> bool:
        """Whether its records come to its end."""
        return " end none" not in self.verified


def common(one: bytes, other: bytes) -> int:
    """How many bytes two texts have in common from their start."""
    return len(os.path.commonprefix([one, other]))


def listed(program: Program, path: pathlib.Path) -> dict[int, str]:
    """The lines of `list`, by the guests' numbers."""
    lines = program.run_well("list", path).out.decode().splitlines()
    return {int(line.split()[0]): line for line in lines}


def mark(path: pathlib.Path) -> None:
    """Writes the Mark into a store that is whole. No line of the program marks a store and records no guest to it."""
    path.write_bytes(stores.store_of([*stores.bodies_in(path.read_bytes()), stores.MARK]))


def need_beginning(number: int, found: KnownGuest) -> None:
    """What a guest had printed has to be a beginning of what is replayed, and that one of what its program prints, of
    which it is all if the guest has ended, as its program ends."""
    whole = found.guest.whole() or found.replayed
    for place in (0, 1):
        printed, replayed = found.printed[place], found.replayed[place]
        if not replayed.startswith(printed):
            same = f"the {len(replayed)} replayed have only {common(printed, replayed)}"
            raise Wrong(f"guest {number} had printed {len(printed)} bytes to {place + 1}, of which {same}")
        if not whole[place].startswith(replayed) or (found.has_ended() and replayed != whole[place]):
            same = f"{len(whole[place])}, of which {common(replayed, whole[place])} are the same"
            raise Wrong(f"guest {number} replays {len(replayed)} bytes to {place + 1}, and its program prints {same}")
    if found.has_ended() and found.guest.end() not in found.verified:
        raise Wrong(f"guest {number} is verified as {found.verified!r}, and its program has {found.guest.end()!r}")


class Store:
    """A store in a file, and what is known of it: its guests by their numbers, the next number, and whether it has the
    Mark."""

    def __init__(self, program: Program, path: pathlib.Path) -> None:
        self.program, self.path, self.next, self.is_marked = program, path, 0, False
        self.known: dict[int, KnownGuest] = {}

    def size(self) -> int:
        """Its length in bytes."""
        return os.path.getsize(self.path)

    def look_for_mark(self, may_mark: bool) -> None:
        """Looks in its bytes for the Mark, which only a recording that marks its store brings, and none takes away."""
        try:
            is_marked = stores.is_marked(self.path.read_bytes())
        except AssertionError as wrong:
            raise Wrong("an open gate of the store has no whole segment after it") from wrong
        if is_marked != self.is_marked and not (is_marked and may_mark):
            raise Wrong(f"the store {'has' if is_marked else 'has lost'} the Mark")
        self.is_marked = is_marked

    def look(self, guests: Sequence[Guest], ended: Result) -> list[KnownGuest]:
        """Looks at each guest of the store, those of a recording that just ended among them, and returns these as far
        as they are there."""
        lines = listed(self.program, self.path)
        new = dict(enumerate(guests, self.next))
        unknown = set(lines) - set(self.known) - set(new)
        if unknown:
            raise Wrong(f"list has guests {sorted(lines)}, of which {sorted(unknown)} were never recorded")
        for number, was in self.known.items():
            self.look_again(number, was, lines.get(number))
        for place, (number, guest) in enumerate(new.items()):
            self.look_at_new(number, place, guest, ended, lines.get(number))
        self.next = max(self.known, default=-1) + 1
        return [self.known[it] for it in new if it in self.known]

    def look_again(self, number: int, was: KnownGuest, line: str | None) -> None:
        """A guest that was recorded before has to be as it was."""
        if line != was.line:
            raise Wrong(f"guest {number}, recorded before, is now listed as {line!r}, and was {was.line!r}")
        found = self.look_at(number, was.guest, was.printed, was.line)
        if found != was:
            are = f"{found.verified!r} and was {was.verified!r}, or replays otherwise"
            raise Wrong(f"guest {number}, recorded before, is verified as {are}")

    def look_at_new(self, number: int, place: int, guest: Guest, ended: Result, line: str | None) -> None:
        """A guest of a recording that ended has to be there if it had printed, by its place there."""
        printed = guest.of(ended.out), b"" if isinstance(guest, Threads) else guest.of(ended.err)
        if line is None:
            if any(printed):
                sizes = f"{len(printed[0])} and {len(printed[1])} bytes"
                raise Wrong(f"guest {number} is gone, which had printed {sizes}")
            return
        if f" g{place} " not in line:
            raise Wrong(f"guest {number} at place {place} is listed as {line!r}")
        self.known[number] = self.look_at(number, guest, printed, line)

    def look_at(self, number: int, guest: Guest, printed: Texts, line: str) -> KnownGuest:
        """Verifies and replays a guest."""
        verified = self.program.run_well("verify", self.path, number).out.decode()
        found_in = re.fullmatch(r"ok (records=\d+) (instructions=\d+) end .+\n", verified)
        words = line.split()
        if not found_in or found_in[1] not in words or found_in[2] not in words:
            raise Wrong(f"guest {number} is listed as {line!r}, and verified as {verified!r}")
        replayed = self.program.run_well("replay", self.path, number)
        found = KnownGuest(guest, printed, (replayed.out, replayed.err), line, verified)
        need_beginning(number, found)
        return found
