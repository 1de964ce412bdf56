"""Rows of replay_cases: lists of records.

Expected values: the rows of crates/replay_cases, which a restatement in Python writes (`tools/run recordings`).

Each list is a guest in a store of its own. It is verified, and asked for the states at the rows' places.
"""
import hashlib
import re
import struct

from rrv_tools import store
from rrv_tools.program import Program
from rrv_tools.records import BATCH, Opening, OpeningTwo
from rrv_tools.rows import Check, Row, RowCase, Rows, bytes_of, texts, write
from rrv_tools.testing import rows

ROWS = Rows("replay_cases")
THAT_THE_CRATE_MAKES = "of lists that the crate makes"


class Guest:
    """A list of records as the guest of a store."""

    def __init__(self, records: list[bytes]) -> None:
        bodies = (b"".join(records[at: at + BATCH]) for at in range(0, len(records), BATCH))
        self.number, self.data = int.from_bytes(records[0][:4], "little"), store.store_of([store.MARK, *bodies])

    def run(self, program: Program, *words: str, stdin: bytes = b"") -> tuple[int, str, str]:
        """Runs a line at it."""
        return texts(program.run(*words, write("list", self.data), self.number, stdin=stdin))

    def verified(self, program: Program) -> str:
        """What a row wants of a list that is verified."""
        status, out, err = self.run(program, "verify")
        taken = re.match(r"ok records=(\d+) instructions=(\d+) end ", out)
        is_taken = taken and not status
        return f"{taken[1]} records, {taken[2]} instructions" if taken and is_taken else reason(err)

    def followed(self, program: Program, how: str) -> tuple[str, str]:
        """The places after each record, and the refusal or what is said of the end."""
        _, out, err = self.run(program, "dump", "--places")
        places = ["0"]
        for line in out.splitlines()[1:]:
            to = re.search(r" to=(\d+)", line)
            places.append(to[1] if to else places[-1])
        found = reason(err)
        if not err and how:
            found = said_of(how, self.run(program, "replay", "--at", "end")[1])
        return " ".join(places) + (f", {found}" if found else ""), "" if out else found

    def asked(self, program: Program, words: list[str]) -> str:
        """What a row finds in the answers to its questions."""
        lines = questions(words)
        _, out, err = self.run(program, "ask", stdin="".join(f"{it}\n" for it in lines).encode())
        answers = [*re.split(r"^\.\n", out, flags=re.M)[:-1], *[err] * len(lines)][: len(lines)]
        return found_in(words, answers)


def reason(err: str) -> str:
    """Why something is refused."""
    return err.removeprefix("rrv: ").strip()


def questions(words: list[str]) -> list[str]:
    """The questions of a row: from the start on its moves, and then the state."""
    if words[0] == "state":
        return ["at 0", f"at {words[1]}", "forward 0"]
    names = {"seek": "at", "change": "last"}
    moves = [f"{names.get(kind, kind)} {to}" for kind, to in zip(words[:-1:2], words[1::2], strict=True)]
    return ["at 0", *moves, "forward 0"]


def found_in(words: list[str], answers: list[str]) -> str:
    """What a move says beside that it moved, and what is said of the state."""
    found = []
    for kind, answer in zip(words[:-1:2], answers[1:-1], strict=False):
        place = re.match(r"at (\d+) of ", answer)
        if kind == "change":
            found.append(place[1] if place else answer.strip())
        elif not place:
            found.append(reason(answer))
    return ", ".join([*found, said_of(words[-1], answers[-1])])


def said_of(how: str, state: str) -> str:
    """What a row says of a state."""
    if how == "lines":
        return " | ".join(state.splitlines())
    return hashlib.sha256(state.encode()).hexdigest() if how == "digest" else state.partition(" of ")[0]


def guest_of(name: str) -> Guest | None:
    """The guest of a list; None if no store has it, since its records are not one guest's from 0 on, of which the first
    one opens it."""
    data, records = bytes_of(ROWS.data(f"{name}.records").decode().split()), list[bytes]()
    while data:
        length = 13 + int.from_bytes(data[9:13], "little")
        records.append(data[:length])
        data = data[length:]
    heads = [struct.unpack_from("<IIB", it) for it in records]
    openings = [place for place, it in enumerate(heads) if it[2] in (Opening.kind, OpeningTwo.kind)]
    is_one = openings == [0] and all(it[:2] == (heads[0][0], place) for place, it in enumerate(heads))
    return Guest(records) if is_one else None


def list_row(row: Row, guest: Guest, how: list[str]) -> Check:
    """A list that is verified, or followed record by record; a refusal alone may be wanted of it."""
    if row.asked.startswith("records "):
        return lambda program: (row.wanted, guest.verified(program))

    def check(program: Program) -> tuple[object, object]:
        whole, refusal = guest.followed(program, *(how or [""]))
        return row.wanted, refusal if refusal == row.wanted else whole

    return check


def asking_row(row: Row, guest: Guest) -> Check:
    """A row that asks of a list."""
    return lambda program: (row.wanted, guest.asked(program, row.asked.split()))


def plan() -> None:
    """Takes all rows; those that ask ask of the last list."""
    guest: Guest | None = None
    for row in ROWS.asking():
        first, *words = row.asked.split()
        if first in ("records", "follow"):
            guest = guest_of(words[0])
            if guest:
                ROWS.checks[row] = list_row(row, guest, words[1:2])
            else:
                ROWS.leave("of lists that no store holds")
            guest = guest if first == "records" else None
        elif first in ("record", "mutate", "met") or not guest:
            guest = None
            ROWS.leave(THAT_THE_CRATE_MAKES)
        elif "within" in words:
            ROWS.leave("of how many instructions a cursor ran")
        else:
            ROWS.checks[row] = asking_row(row, guest)


plan()


@rows(ROWS.table(), "look")
class Replay(RowCase):
    """Lists of records."""

    seconds = 5
