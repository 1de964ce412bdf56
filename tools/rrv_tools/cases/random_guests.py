"""Random guests are recorded, again by their choices, and compared; and core files and memory at random places of them.

Expected values: the guest's own records, from which its choices follow by docs/FORMATS.md; and what `replay --at`
prints there.
A larger run: 1,000 guests were recorded by their choices (`tools/run random_guests 1000`). Each had the same records,
the same end and the same state there. At 300 places a core file was the state that `replay --at` prints, and had the
bytes that `--memory` prints.

usage: tools/run random_guests [N [SEED]]

N guests (40) are drawn from SEED (1), which draws the same ones again. They are recorded into real files, up to 16 at
once, with a quantum, checkpoints, an input and a seed that are drawn; some by choices that are drawn, of which some end
before the guest does. No guest waits for a time, so it does the same in a marked store: of four recordings two mark
theirs, and so do two when they are made again.

The choices that are printed of each have to be those of its records. Recorded by them at the same place of the line,
with nothing after them, it has to have the same records, which verify, the same end, and the same state there. At
N * 3 // 10 places of all of them, 8 at least, a core file has to hold the threads, registers and pages that
`replay --at` prints there, and each byte that `--memory` prints of some ranges there has to be that of the pages in the
core file.
"""
import collections
import functools
import itertools
import pathlib
import random
import re
from collections.abc import Callable, Iterator, Sequence
from typing import Any, ClassVar, NamedTuple

from rrv_tools import by_hand, core_file, elf, printed
from rrv_tools.elf import PAGE
from rrv_tools.printed import text_of
from rrv_tools.program import Program
from rrv_tools.random_guests import Guest
from rrv_tools.testing import Case, rows

COUNT, SEED = 40, "1"
AT_ONCE, FEWEST_PLACES, PLACES_OF_TEN = 16, 8, 3
END = re.compile(rb"g\d+: end .+, records \d+\n")


class Batch(NamedTuple):
    """Guests that are recorded at once: their seed, their number, and how many places are looked at of each."""

    seed: str
    number: int
    places: tuple[int, ...]

    def draw(self, *of: int) -> random.Random:
        """What draws something of it."""
        return random.Random(" ".join(map(str, (self.seed, self.number, *of))))


class Look(NamedTuple):
    """A look at a batch, or at a guest of it, or at a place of that."""

    batch: Batch
    take: Callable[..., None]
    of: tuple[int, ...] = ()


# ---- recordings


def turns_drawn(draw: random.Random) -> str:
    """A text of choices whose first is one of the first thread."""
    tids = [1] * draw.randint(1, 40) + [draw.randint(1, 3) for _ in range(draw.randrange(200))]
    return "".join(f"{it} {draw.choice([64, 65, draw.randint(64, 400)])}\n" for it in tids)


def written(name: str, data: bytes) -> str:
    """Writes a file; its name."""
    pathlib.Path(name).write_bytes(data)
    return name


def recorded(program: Program, store: str, options: Sequence[str], files: Sequence[str]) -> list[bytes]:
    """Records guests into a new store. What is printed of their ends may stand after bytes that a guest wrote."""
    program.run_well("new", store)
    return END.findall(program.run_well("record", *options, store, *files).err)


class Recorded:
    """A batch in two stores: as it is drawn, and again by its choices."""

    def __init__(self, program: Program, batch: Batch) -> None:
        draw, at = batch.draw(), batch.number
        self.program, self.first, self.again = program, f"{at}.first", f"{at}.again"
        self.files = [written(f"{at}.{it}.elf", Guest(draw).elf()) for it in range(len(batch.places))]
        every = draw.choice([0, draw.randint(50, 3000), 1_048_576])
        alike = ["--every", str(every), "--seed", f"{draw.getrandbits(128):032x}"]
        alike += ["--input", written(f"{at}.input", draw.randbytes(draw.randrange(200)))]
        options = ["--quantum", str(draw.choice([64, draw.randint(64, 300), draw.randint(64, 5000)]))]
        if draw.random() < 0.4:
            turns = written(f"{at}.turns", turns_drawn(draw).encode())
            options += ["--choices", turns, "--then", draw.choice(["turns", "turns", "none"])]
        first_marks, again_marks = (["--upgrade"] if at & it else [] for it in (1, 2))
        self.ends = recorded(program, self.first, [*first_marks, *alike, *options], self.files)
        self.choices = [text_of(program, "choices", self.first, it) for it in range(len(self.files))]
        texts = (written(f"{at}.{it}.choices", text.encode()) for it, text in enumerate(self.choices))
        options = ["--then", "none", *itertools.chain(*(("--choices", it) for it in texts))]
        self.ends_again = recorded(program, self.again, [*again_marks, *alike, *options], self.files)

    def both(self, *words: str, guest: int) -> tuple[str, str]:
        """What a command prints of a guest in both stores."""
        first, again = (text_of(self.program, *words, store, guest) for store in (self.first, self.again))
        return first, again


# ---- core files


def dumped(byte_at: Callable[[int], int | None], first: int, length: int) -> str:
    """Bytes of memory as `hexdump -C` prints them, by a function that returns a byte, or None if nothing is mapped."""
    lines = []
    for start in range(first, first + length, 16):
        found = [byte_at(at) for at in range(start, min(start + 16, first + length))]
        columns = ["--" if it is None else f"{it:02x}" for it in found] + ["  "] * (16 - len(found))
        text = "".join(chr(it) if it is not None and 0x20 <= it <= 0x7E else "." for it in found)
        lines.append(f"{start:08x}  {' '.join(columns[:8])}  {' '.join(columns[8:])}  |{text}|\n")
    return "".join(lines)


class Core:
    """A core file's loads."""

    def __init__(self, core: bytes) -> None:
        self.core, self.loads = core, core_file.headers_of(core)[1:]

    def byte_at(self, address: int) -> int | None:
        """A byte of memory."""
        for load in self.loads:
            at = address - load.address
            if 0 <= at < load.memory_size:
                return self.core[load.offset + at] if at < load.file_size else 0
        return None

    def ranges(self, draw: random.Random) -> Iterator[tuple[int, int]]:
        """Ranges at an edge of a load or of what it has in the file, or in the middle."""
        for _ in range(draw.randint(1, 4)):
            edge = draw.choice([*edges_of(draw.choice(self.loads), draw), draw.getrandbits(32)])
            yield max(edge - draw.randrange(40), 0), draw.randint(1, draw.choice([80, 80, 3 * PAGE]))


def edges_of(load: elf.ProgramHeader, draw: random.Random) -> list[int]:
    """The edges of a load, and an address in it."""
    sizes = 0, load.file_size, load.memory_size, draw.randrange(load.memory_size)
    return [load.address + it for it in sizes]


def place_drawn(draw: random.Random, ends: Sequence[int]) -> int:
    """A place, by those at which slices end."""
    middle = draw.randint(0, ends[-1]), draw.randint(0, ends[-1])
    return draw.choice([*middle, draw.choice(ends) - draw.randrange(2), ends[-1]])


class AtPlace(NamedTuple):
    """What is printed at a place of a guest, and a core file of it."""

    state: str
    memory: str
    first: int
    core: bytes
    ranges: list[tuple[int, int]]


# ---- cases


class Looked(Case):
    """Batches, each of which is recorded once for all looks at it."""

    shares_folder = True
    ends: ClassVar[collections.Counter[str]]

    @classmethod
    def setUpClass(cls) -> None:
        super().setUpClass()
        cls.ends = collections.Counter()

    def look(self, look: Look) -> None:
        """Takes a look at a batch."""
        look.take(self, look.batch, self.once(Recorded, self.program, look.batch), *look.of)

    def need_recorded(self, _: Batch, of: Recorded) -> None:
        """All guests are recorded."""
        self.need("how many ends", len(of.files), len(of.ends))

    def need_again(self, _: Batch, of: Recorded) -> None:
        """By their choices they end alike."""
        self.need("ends", of.ends, of.ends_again)

    def need_choices(self, _: Batch, of: Recorded, guest: int) -> None:
        """The choices that are printed are those of the records."""
        frames = printed.frames_in(text_of(self.program, "dump", of.first, guest))
        self.need("choices", printed.choices_of(frames), of.choices[guest])
        self.assertTrue(frames)

    def need_records(self, _: Batch, of: Recorded, guest: int) -> None:
        """The records are the same."""
        first, again = of.both("dump", guest=guest)
        self.need("records", first, again)
        self.assertTrue(first)

    def need_end(self, _: Batch, of: Recorded, guest: int) -> None:
        """The recordings verify, and end alike."""
        first, again = of.both("verify", guest=guest)
        self.need("end", first, again)
        self.need("begin", "ok ", first[:3])
        self.ends[first.split()[4]] += 1

    def need_state(self, _: Batch, of: Recorded, guest: int) -> None:
        """The states at the end are the same."""
        first, again = of.both("replay", "--at", "end", guest=guest)
        self.need("state", first, again)
        self.assertTrue(first)

    def at_place(self, batch: Batch, of: Recorded, guest: int, number: int) -> AtPlace:
        """A place of a guest that is drawn, with its state, and memory of it."""
        draw = batch.draw(guest, number)
        frames = printed.frames_in(text_of(self.program, "dump", of.first, guest))
        place = place_drawn(draw, printed.ends_of(frames))
        path = pathlib.Path(f"{of.first}.{guest}.{number}.core")
        path.unlink(missing_ok=True)
        self.need_line("core", of.first, guest, place, path)
        core = path.read_bytes()
        ranges = list(Core(core).ranges(draw))
        words = [word for first, length in ranges for word in ("--memory", f"{first:x}:{length}")]
        text = text_of(self.program, "replay", "--at", place, *words, of.first, guest)
        found = re.fullmatch(r"(?s)(at .*\npages .*?\n)(.*)", text)
        assert found, text
        return AtPlace(found[1], found[2], printed.first_at(frames, place), core, ranges)

    def need_core(self, *place: Any) -> None:
        """The core file has the threads, registers and pages of the state."""
        at = self.at_place(*place)
        wanted, came = printed.core_lines(at.state, at.first), core_file.lines_of(at.core)
        self.need("core file", "\n".join(wanted), "\n".join(came))

    def need_memory(self, *place: Any) -> None:
        """The bytes of memory are those of the core file."""
        at = self.at_place(*place)
        self.need("memory", "".join(dumped(Core(at.core).byte_at, *it) for it in at.ranges), at.memory)


@functools.cache
def batches_of(count: int, seed: str) -> list[Batch]:
    """This many guests of a seed, at random by how many are recorded at once."""
    draw = random.Random(seed)
    drawn = collections.Counter(draw.choices(range(count), k=max(FEWEST_PLACES, count * PLACES_OF_TEN // 10)))
    places = [drawn[it] for it in range(count)]
    found: list[Batch] = []
    while places:
        size = draw.randint(1, AT_ONCE)
        found.append(Batch(seed, len(found), tuple(places[:size])))
        places = places[size:]
    return found


def looks_at(batch: Batch) -> Iterator[tuple[str, Look]]:
    """The looks at a batch, by their names."""
    name = f"recording {batch.number}"
    yield f"{name} first", Look(batch, Looked.need_recorded)
    yield f"{name} again", Look(batch, Looked.need_again)
    of_guest = {"choices": Looked.need_choices, "records": Looked.need_records, "end": Looked.need_end,
                "state": Looked.need_state}
    for guest, places in enumerate(batch.places):
        yield from ((f"{name} guest {guest} {it}", Look(batch, take, (guest,))) for it, take in of_guest.items())
        for place in range(places):
            for it, take in (("core", Looked.need_core), ("memory", Looked.need_memory)):
                yield f"{name} guest {guest} {it} {place}", Look(batch, take, (guest, place))


def looks_of(count: int, seed: str) -> dict[str, Look]:
    """The looks at all batches."""
    return dict(it for batch in batches_of(count, seed) for it in looks_at(batch))


@rows(looks_of(COUNT, SEED), "look")
class RandomGuests(Looked):
    """Those that `./check` looks at."""

    seconds = 10


def main(words: Sequence[str]) -> int | None:
    """Looks at as many guests as the words say."""
    if len(words) > 2 or not all(it.isdecimal() for it in words):
        return None
    count, seed = int(words[0]) if words else COUNT, words[1] if words[1:] else SEED

    @rows(looks_of(count, seed), "look")
    class Guests(Looked):
        @classmethod
        def tearDownClass(cls) -> None:
            print(f"seed {seed}: {', '.join(f'{many} {end}' for end, many in sorted(cls.ends.items()))}")

    return by_hand.run(Guests)
