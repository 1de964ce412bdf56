"""Random questions to `rrv ask` about random guests, and what commands print.

Expected values: what the command of the same name prints at that place; of `threads` and `memory` their part of `replay
--at`.
A larger run: 1,000 questions were drawn about a hundred random guests (`tools/run ask_cases 1000`). Of each `ask`
printed just what the command of that name prints. The bad lines among them were refused.

usage: tools/run ask_cases [N [SEED]]

N questions (100) are drawn from SEED (1), which draws the same ones again, about N // 10 random guests, two at least.
The lines about a guest go to one `ask`, from a pipe. What it prints of each has to be just what the command of that
name prints at the place at which the line before it left off: `replay --at` for `at` and `forward`, `back`, `last`,
`choices`, and of a file `core`. Of `threads` and `memory` it has to be their part of `replay --at`, and of `where` what
records, state and memory have there. The change that `next` finds has to be the one that `last` finds from the place
after it, and `last` from that change has to find none that is later than the place. A line that asks nothing, or leads
out of the recording, has to be refused, and the lines after it are done all the same.

Half of the sessions begin with `--short`. From there and from each `quiet` up to a `full`, a line that goes somewhere
has to print what `where` has to print at the place at which the command's state is, and to print the same as the
command if that prints no state.
"""
import functools
import pathlib
import random
import re
from collections.abc import Iterator, Sequence
from typing import NamedTuple

from rrv_tools import by_hand, printed
from rrv_tools.cases.random_guests import AT_ONCE, recorded, written
from rrv_tools.elf import START
from rrv_tools.printed import place_in, text_of
from rrv_tools.program import Program, Word
from rrv_tools.random_guests import Guest
from rrv_tools.testing import Case, rows

COUNT, SEED = 100, "1"
# How many questions about a guest.
QUESTIONS = 10
NOT_A_PLACE = "not a place: a number of instructions, or end"
NOT_A_NUMBER = "not a number from 0 to 18446744073709551615"
NOT_AN_ADDRESS = "not 1 to 8 hexadecimal digits"
# Lines that are refused, and what is printed.
BAD = {
    "": "no question '': help lists them",
    "At 0": "no question 'At': help lists them",
    " at 0": "no question '': help lists them",
    "at": "a value is required for 'at'",
    "back ": "a value is required for 'back'",
    "forward": "a value is required for 'forward'",
    "last": "a value is required for 'last'",
    "next": "a value is required for 'next'",
    "memory ": "a value is required for 'memory'",
    "at  0": f"invalid value ' 0' for 'at': {NOT_A_PLACE}",
    "back -1": f"invalid value '-1' for 'back': {NOT_A_NUMBER}",
    "forward 18446744073709551616": f"invalid value '18446744073709551616' for 'forward': {NOT_A_NUMBER}",
    "last g": f"invalid value 'g' for 'last': {NOT_AN_ADDRESS}",
    "next 0x": f"invalid value '0x' for 'next': {NOT_AN_ADDRESS}",
    "memory 0:0": (
        f"invalid value '0:0' for 'memory': not ADDR:LEN, with {NOT_AN_ADDRESS.removeprefix('not ')} and a length from "
        "1 to 65536"
    ),
    "where 1": "unexpected value '1' for 'where'",
    "quiet 1": "unexpected value '1' for 'quiet'",
    "full on": "unexpected value 'on' for 'full'",
    "Quiet": "no question 'Quiet': help lists them",
    "core": "a value is required for 'core'",
    "core missing/core": "cannot make core file",
    "forward 18446744073709551615": "past the end",
    "back 18446744073709551615": "before the start",
    "x" * 8193: "line is longer than 8192 bytes",
    "y" * 1_000_000: "line is longer than 8192 bytes",
    "at \udcff": "line is not UTF-8",
}


class Batch(NamedTuple):
    """Guests that are recorded at once: their seed, their number, and how many they are."""

    seed: str
    number: int
    size: int

    def draw(self, *of: int) -> random.Random:
        """What draws something of it."""
        return random.Random(" ".join(map(str, ("questions", self.seed, self.number, *of))))

    def record(self, program: Program) -> None:
        """Records them."""
        draw, at = self.draw(), self.number
        files = [written(f"{at}.{it}.elf", Guest(draw).elf()) for it in range(self.size)]
        every = draw.choice([0, draw.randint(50, 3000), 1_048_576])
        options = ["--every", str(every), "--quantum", str(draw.randint(64, draw.choice([64, 300, 5000])))]
        options += ["--input", written(f"{at}.input", draw.randbytes(draw.randrange(200)))]
        recorded(program, f"{at}.store", options, files)


class Asked:
    """A guest that is asked about, and what its records are."""

    def __init__(self, program: Program, store: str, guest: int) -> None:
        self.program, self.store, self.guest = program, store, guest
        self.frames = printed.frames_in(text_of(program, "dump", store, guest))
        self.total = printed.ends_of(self.frames)[-1] if self.frames else 0

    def said(self, command: str, *words: Word, options: Sequence[Word] = ()) -> str:
        """What a command prints of the guest."""
        status, out, err = self.program.run(command, *options, self.store, self.guest, *words)
        text = (out + err).decode("latin-1")
        return text if status in (0, 1) else f"status {status}: {text}"

    def state(self, place: Word) -> str:
        """The state at a place."""
        return self.said("replay", options=["--at", place])

    def memory(self, place: int, text: str) -> str:
        """The lines of some bytes of memory."""
        return self.said("replay", options=["--at", place, "--memory", text]).removeprefix(self.state(place))

    def where(self, place: int) -> str:
        """The place, and the thread, the address and the word of the instruction that comes next."""
        begin = f"at {place} of {self.total}"
        tid = printed.first_at(self.frames, place) if self.total else 0
        thread = printed.threads_in(self.state(place)).get(tid)
        if not thread:
            return f"{begin}\n"
        digits = self.memory(place, f"{thread.pc}:4")[10:22].split()
        word = "none" if "--" in digits else "".join(reversed(digits))
        return f"{begin} thread {tid} pc {thread.pc} word {word}\n"

    def moved(self, state: str, is_quiet: bool) -> str:
        """What is printed of a place that is gone to, by what the command prints: its state, or why there is none."""
        place = place_in(state)
        return state if place is None or not is_quiet else self.where(place)

    def is_next(self, place: int, address: str, is_quiet: bool, answer: str) -> bool:
        """Whether this is the first change after the place."""
        change = place_in(answer)
        if change is None:
            last = place_in(self.said("last", "end", address))
            return answer == "unchanged\n" and (last is None or last <= place)
        if not place < change < self.total or answer != self.moved(self.state(change), is_quiet):
            return False
        before = self.said("last", change, address)
        earlier = place_in(before)
        is_last = self.said("last", change + 1, address) == self.state(change)
        return is_last and (before == "unchanged\n" if earlier is None else earlier <= place)

    def wanted(self, place: int, is_quiet: bool, name: str, value: str) -> str:
        """What has to be printed of a question at a place."""
        match name:
            case "at":
                return self.moved(self.state(value), is_quiet)
            case "forward":
                return self.moved(self.state(place + int(value)), is_quiet)
            case "back" | "last":
                return self.moved(self.said(name, place, value), is_quiet)
            case "quiet" | "full":
                return ""
            case "memory":
                return self.memory(place, value)
            case "where":
                return self.where(place)
            case "choices":
                return self.said("choices")
        assert name == "threads"
        return "".join(re.findall(r"(?m)^thread .*\n(?:  x.*\n){8}", self.state(place)))

    def lines(self, draw: random.Random) -> Iterator[str]:
        """Lines that mostly stay within the recording."""
        changed = [f"{it:x}" for it in (START, START + 0x12000, 0x7FFFFFF0)]
        changed += [f"{START + 0x10000 * it + draw.randrange(-256, 4096):x}" for it in range(1, 6)]
        few, total = max(1, self.total // 3), self.total
        for _ in range(QUESTIONS):
            at = draw.choice([draw.randint(0, total), draw.randint(0, total), "end", total + draw.randrange(2)])
            address = draw.choice(changed)
            yield draw.choice([
                f"at {at}", f"at {at}", f"back {draw.randrange(few)}", f"forward {draw.randrange(few)}",
                f"last {address}", f"last {address}", f"next {address}", f"next {address}",
                f"memory {address}:{draw.randint(1, 200)}", "threads", "where", "where", "choices", "quiet", "quiet",
                "full", "full", f"core {self.store}.{self.guest}.{draw.getrandbits(40):010x}", draw.choice([*BAD]),
            ])


class Session:
    """The lines that are asked about a guest, and what was printed of each, which a line of a point ends."""

    def __init__(self, program: Program, batch: Batch, guest: int) -> None:
        draw = batch.draw(guest)
        self.asked = asked = Asked(program, f"{batch.number}.store", guest)
        self.lines = [*asked.lines(draw)]
        self.quits, is_short = draw.random() < 0.5, draw.random() < 0.5
        text = "".join(f"{it}\n" for it in self.lines) + "quit\nat 0\n" * self.quits
        stdin = text.encode("utf-8", "surrogateescape")
        options = ["--short"] * is_short
        self.status, out, self.err = asked.program.run("ask", *options, asked.store, asked.guest, stdin=stdin)
        *self.answers, self.rest = re.split(r"(?m)^\.\n", out.decode("latin-1"))
        # The places before each line.
        self.places = [0]
        for it in self.answers:
            place = place_in(it)
            self.places.append(self.places[-1] if place is None else place)
        # Whether lines that go somewhere are quiet, before each line.
        self.quiet = [is_short]
        for line in self.lines:
            self.quiet.append({"quiet": True, "full": False}.get(line, self.quiet[-1]))


class Look(NamedTuple):
    """A look at a question about a guest, or at how its session ends."""

    batch: Batch
    guest: int
    question: int | None = None


class Looked(Case):
    """Sessions, each of which is made once for all looks at it."""

    shares_folder = True

    def look(self, look: Look) -> None:
        """Compares a question, or the end."""
        self.once(look.batch.record, self.program)
        of = self.once(Session, self.program, look.batch, look.guest)
        if look.question is None:
            count = len(of.lines) + of.quits
            wanted = 0, b"", "", count, [""] * of.quits
            self.need("end", wanted, (of.status, of.err, of.rest, len(of.answers), of.answers[len(of.lines):]))
            return
        self.assertLess(look.question, len(of.answers), "questions that something is printed of")
        line, place, is_quiet = of.lines[look.question], of.places[look.question], of.quiet[look.question]
        try:
            self.need_answer(of.asked, place, is_quiet, line, of.answers[look.question])
        except AssertionError as wrong:
            text = f"{'quiet ' * is_quiet}{line[:40]!a} at {place} of guest {of.asked.guest} in {of.asked.store}"
            raise self.failureException(f"{text}\n{wrong}") from None

    def need_answer(self, asked: Asked, place: int, is_quiet: bool, line: str, answer: str) -> None:
        """Compares what is printed of a line."""
        name, _, value = line.partition(" ")
        if line in BAD:
            self.need("refusal", f"rrv: {BAD[line]}\n", answer)
        elif name == "next":
            self.assertTrue(asked.is_next(place, value, is_quiet, answer), f"not the next change:\n{answer}")
        elif name == "core":
            self.need("output", "", answer)
            again = pathlib.Path(f"{value}.again")
            asked.said("core", place, again)
            self.need("core file", again.read_bytes(), pathlib.Path(value).read_bytes())
        else:
            self.need("output", asked.wanted(place, is_quiet, name, value), answer)


@functools.cache
def batches_of(count: int, seed: str) -> list[Batch]:
    """The guests of this many questions, at random by how many are recorded at once."""
    draw, left = random.Random(seed), max(2, count // QUESTIONS)
    found: list[Batch] = []
    while left:
        size = min(left, draw.randint(1, AT_ONCE))
        found.append(Batch(seed, len(found), size))
        left -= size
    return found


def looks_of(count: int, seed: str) -> dict[str, Look]:
    """The looks at all questions, by their names."""
    pairs = [(batch, guest) for batch in batches_of(count, seed) for guest in range(batch.size)]
    looks = {f"recording {it.number} guest {guest} end": Look(it, guest) for it, guest in pairs}
    return looks | {f"recording {it.number} guest {guest} question {question}": Look(it, guest, question)
                    for it, guest in pairs for question in range(QUESTIONS)}


@rows(looks_of(COUNT, SEED), "look")
class Asks(Looked):
    """Those that `./check` asks."""

    seconds = 8


def main(words: Sequence[str]) -> int | None:
    """Asks as many questions as the words say."""
    if len(words) > 2 or not all(it.isdecimal() for it in words):
        return None
    count, seed = int(words[0]) if words else COUNT, words[1] if words[1:] else SEED
    return by_hand.run(rows(looks_of(count, seed), "look")(type("Questions", (Looked,), {})))
