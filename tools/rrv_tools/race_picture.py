"""Draws a race of a recording: the threads as lanes, and what they load from and store to a word of memory.

usage: tools/run race_picture STORE GUEST ADDRESS [NAME]   prints the picture of the last race for a word
       tools/run race_picture                              records an example, and writes docs/race.svg

A race, here: a thread loads the word, other threads change it, and then the first thread changes it by what it loaded.
The changes are those that `rrv last --word --short` lists, and the turns of threads those of `rrv dump --places`. If a
change is the first of its thread after one of another thread, `rrv ask` goes back through the instructions of that
thread until one loads the word. NAME is what the word is called in the picture. Values and addresses are hexadecimal,
places decimal.
"""
import dataclasses
import itertools
import pathlib
import re
import sys
import tempfile
from collections.abc import Sequence

from rrv_tools.program import ROOT, Program, Refused, needed

PICTURE = ROOT / "docs" / "race.svg"
EXAMPLE, QUANTUM, ADDRESS, NAME = ROOT / "examples" / "lost_update" / "counter.elf", 500, 0x11324, "found"
# How many changes are looked through, and how many instructions of a thread are gone back through from each.
MOST_CHANGES, MOST_BACK = 65_536, 200
# RISC-V Unprivileged ISA, 2.6 and 8.2: the opcodes of loads and of atomics, the number of LR, and how many bytes a load
# of this kind takes.
LOAD, ATOMIC, LR, SIZES = 0x03, 0x2F, 2, {0: 1, 1: 2, 2: 4, 4: 1, 5: 2}
WIDTH, LEFT, RIGHT, LANE, MEMORY = 800, 92, 20, 34, 28
# How wide what stands at a store is, how high, how many rows of it a thread has at most, and how many stores the title
# names.
TEXT, ROW, MOST_ROWS, MOST_NAMED = 145, 34, 3, 4


@dataclasses.dataclass(frozen=True)
class Access:
    """An instruction that loads the word, or changes it: its place, its thread, its address, and the word after it."""

    at: int
    tid: int
    pc: int
    value: int


@dataclasses.dataclass(frozen=True)
class Turn:
    """Instructions of one thread, from a place to another."""

    tid: int
    start: int
    end: int


@dataclasses.dataclass(frozen=True)
class Race:
    """A load, the changes of other threads after it, and the change by what was loaded; and all turns there are."""

    load: Access
    others: list[Access]
    store: Access
    turns: list[Turn]


@dataclasses.dataclass(frozen=True)
class Recording:
    """A guest of a store, of which a program is asked."""

    program: Program
    store: pathlib.Path
    guest: int

    def run(self, *words: str, after: Sequence[str] = (), lines: str = "") -> str:
        """What a line prints, with these words before the store and after the guest."""
        return self.program.run_well(*words, self.store, self.guest, *after, stdin=lines.encode()).out.decode()

    def changes(self, address: int) -> list[tuple[Access, int]]:
        """The changes of a word in their order, each with the word before it."""
        text = self.run("last", "--word", "--times", f"{MOST_CHANGES}", "--short", after=("end", f"{address:x}"))
        rows = re.findall(r"(?m)^at=(\d+) tid=(\d+) pc=(\w+) old=([\w-]+) new=([\w-]+)$", text)
        kept = [row for row in rows if "-" not in row[3] + row[4]]
        return [(Access(int(at), int(tid), int(pc, 16), int(new, 16)), int(old, 16))
                for at, tid, pc, old, new in reversed(kept)]

    def turns(self) -> list[Turn]:
        """The turns of threads, in order."""
        rows = re.findall(r"(?m)^\d+ \w+ tid=(\d+) .*?from=(\d+) to=(\d+)", self.run("dump", "--places"))
        return [Turn(*(int(it) for it in row)) for row in rows if row[1] != row[2]]

    def load_among(self, places: list[int], tid: int, address: int) -> tuple[int, int] | None:
        """The first of some places at which a thread is about to load the word, and the address of that instruction,
        if there is one."""
        answers = self.run("ask", lines="".join(f"at {it}\nwhere\n" for it in places)).split("\n.\n")
        for place, state, where in zip(places, answers[::2], answers[1::2], strict=False):
            known = re.match(rf"at {place} of \d+ thread {tid} pc (\w+) word (\w+)", where)
            if known and loads_word(f"{state}\n", tid, int(known[2], 16), address):
                return place, int(known[1], 16)
        return None

    def load_before(self, turns: list[Turn], change: Access, address: int) -> tuple[int, int] | None:
        """The place and the address of the last load of the word by a change's thread before it, if there is one near.
        Most are very near."""
        places, found, count = places_before(turns, change.tid, change.at), None, 4
        while places and not found:
            found = self.load_among(places[:count], change.tid, address)
            places, count = places[count:], 4 * count
        return found

    def race(self, address: int) -> Race:
        """The last race for a word, by Refused if there is none."""
        changes, turns = self.changes(address), self.turns()
        for number in range(len(changes) - 1, 0, -1):
            change = changes[number][0]
            if changes[number - 1][0].tid == change.tid:
                continue
            found = self.load_before(turns, change, address)
            others = [it for it, _ in changes[:number] if found and found[0] < it.at]
            if found and others and change.tid not in {it.tid for it in others}:
                loaded = next(old for it, old in changes if it.at > found[0])
                return Race(Access(found[0], change.tid, found[1], loaded), others, change, turns)
        text = "changed the word at {:08x} by what it had loaded before another thread changed it"
        raise Refused(f"no thread {text.format(address)}")


def places_before(turns: list[Turn], tid: int, place: int) -> list[int]:
    """The last places before one at which a thread runs, the last first."""
    before = (range(min(it.end, place) - 1, it.start - 1, -1)
              for it in reversed(turns) if it.tid == tid and it.start < place)
    return list(itertools.islice(itertools.chain.from_iterable(before), MOST_BACK))


def loads_word(state: str, tid: int, word: int, address: int) -> bool:
    """Whether an instruction, in this printed state, loads a byte of the word at an address for a thread."""
    thread = re.search(rf"(?m)^thread {tid} .*\n((?:  .*\n){{8}})", state)
    known = re.findall(r"x(\d+) (\w{8})", thread[1]) if thread else []
    registers = {int(name): int(value, 16) for name, value in known}
    base, kind = registers.get(word >> 15 & 31, 0), word >> 12 & 7
    if word & 0x7F == LOAD and kind in SIZES:
        start, size = base + (word >> 20) - (word >> 31 << 12), SIZES[kind]
    elif word & 0x7F == ATOMIC and word >> 27 == LR:
        start, size = base, 4
    else:
        return False
    return (start - address) % (1 << 32) < 4 or (address - start) % (1 << 32) < size


STYLE = """
  .ground { fill: #ffffff }
  text { font: 13px system-ui, "Segoe UI", Helvetica, Arial, sans-serif; fill: #1f2328 }
  .title { font-size: 15px; font-weight: 600 }
  .name, .value { font-weight: 600 }
  .small { font-size: 12px; fill: #57606a }
  .racer { fill: #ffebe9; stroke: #cf222e }
  .other { fill: #ddf4ff; stroke: #0969da }
  .kept { fill: #f6f8fa; stroke: #8c959f }
  .undone { fill: #ffebe9; stroke: #cf222e }
  .away { stroke: #cf222e; stroke-dasharray: 5 5 }
  .racing { stroke: #cf222e; stroke-width: 2 }
  .passing { stroke: #0969da; stroke-width: 2 }
  .mark.racing { fill: #cf222e }
  .mark.passing { fill: #0969da }
  .tick { stroke: #8c959f }
  @media (prefers-color-scheme: dark) {
    .ground { fill: #0d1117 }
    text { fill: #e6edf3 }
    .small { fill: #8d96a0 }
    .racer { fill: #490202; stroke: #f85149 }
    .other { fill: #0c2d6b; stroke: #4493f8 }
    .kept { fill: #21262d; stroke: #6e7681 }
    .undone { fill: #490202; stroke: #f85149 }
    .away { stroke: #f85149 }
    .racing { stroke: #f85149 }
    .passing { stroke: #4493f8 }
    .mark.racing { fill: #f85149 }
    .mark.passing { fill: #4493f8 }
    .tick { stroke: #6e7681 }
  }
"""


def text_at(x: float, y: float, words: str, kind: str = "", anchor: str = "middle") -> str:
    """A text in the picture."""
    safe = words.replace("&", "&amp;").replace("<", "&lt;")
    return f'<text class="{kind}" x="{x:.1f}" y="{y:.1f}" text-anchor="{anchor}">{safe}</text>'


def box(x: float, y: float, width: float, height: float, kind: str) -> str:
    """A bar in the picture."""
    return f'<rect class="{kind}" x="{x:.1f}" y="{y:.1f}" width="{width:.1f}" height="{height:.1f}" rx="4"/>'


def arrow(x: float, y: float, down: int, kind: str) -> str:
    """The head of an arrow that ends here: it points down, or up if `down` is -1."""
    return f'<path class="mark {kind}" d="M{x:.1f} {y:.1f} l-4.5 {-8 * down} h9 z"/>'


def line(x: float, y: float, to_x: float, to_y: float, kind: str) -> str:
    """A straight line in the picture."""
    return f'<line class="{kind}" x1="{x:.1f}" y1="{y:.1f}" x2="{to_x:.1f}" y2="{to_y:.1f}"/>'


class Drawing:
    """A picture of a race: the racing thread above, the word below it, and below that the other threads."""

    def __init__(self, race: Race, name: str) -> None:
        self.race, self.name, self.parts = race, name, list[str]()
        span = max(8, race.store.at - race.load.at)
        self.start, self.end = max(0, race.load.at - span * 15 // 100), race.store.at + span * 15 // 100
        self.racer, self.word = 92, 168
        self.rows, self.lanes, self.bottom = self.rows_of(race.others), dict[int, int](), 234
        for tid in dict.fromkeys(it.tid for it in race.others):
            self.lanes[tid] = self.bottom
            rows = 1 + max(self.rows.get(it, 0) for it in race.others if it.tid == tid)
            self.bottom += LANE + 8 + ROW * rows
        self.bottom += 12

    def x(self, place: int) -> float:
        """Where a place stands."""
        return LEFT + (WIDTH - LEFT - RIGHT) * (place - self.start) / (self.end - self.start)

    def rows_of(self, others: list[Access]) -> dict[Access, int]:
        """The row below its thread in which it stands what each store does, for those for which there is room."""
        found, ends = dict[Access, int](), dict[tuple[int, int], float]()
        for it in others:
            for row in range(MOST_ROWS):
                if it not in found and ends.get((it.tid, row), 0) <= self.x(it.at):
                    found[it] = row
                    ends[it.tid, row] = self.x(it.at) + TEXT
        return found

    def draw_turns(self, tid: int, y: int, kind: str) -> None:
        """The turns of a thread, cut at the ends of the picture."""
        self.parts.append(text_at(14, y + LANE / 2 + 5, f"thread {tid}", "name", "start"))
        for turn in self.race.turns:
            start, end = max(turn.start, self.start), min(turn.end, self.end)
            if turn.tid == tid and start < end:
                self.parts.append(box(self.x(start), y, self.x(end) - self.x(start), LANE, kind))

    def draw_word(self) -> None:
        """The word, from change to change."""
        race = self.race
        self.parts.append(text_at(14, self.word + MEMORY / 2 + 5, self.name, "name", "start"))
        known = [(self.start, race.load.value), *((it.at, it.value) for it in (*race.others, race.store))]
        for (at, value), end in zip(known, [*(it for it, _ in known[1:]), self.end], strict=True):
            kind = "undone" if at == race.store.at else "kept"
            self.parts.append(box(self.x(at), self.word, self.x(end) - self.x(at), MEMORY, kind))
            if 9 * len(f"{value:x}") + 4 <= self.x(end) - self.x(at):
                middle = (self.x(at) + self.x(end)) / 2
                self.parts.append(text_at(middle, self.word + MEMORY / 2 + 5, f"{value:x}", "value"))

    def draw_access(self, access: Access, does: str, y: int, is_racer: bool) -> None:
        """A load or a store: a mark on its thread's bar, a line to the word, and what it does."""
        x, kind = self.x(access.at), "racing" if is_racer else "passing"
        edge = self.word if is_racer else self.word + MEMORY
        is_load = access == self.race.load
        self.parts.append(line(x, y + LANE / 2, x, edge, kind))
        self.parts.append(arrow(x, y + LANE if is_load else edge, -1 if is_load or not is_racer else 1, kind))
        self.parts.append(f'<circle class="mark {kind}" cx="{x:.1f}" cy="{y + LANE / 2:.1f}" r="5"/>')
        if not is_racer and access not in self.rows:
            return
        top = y - 24 if is_racer else y + LANE + 17 + ROW * self.rows[access]
        self.parts.append(text_at(x, top, f"{does} {access.value:x}", "value"))
        self.parts.append(text_at(x, top + 15, f"pc {access.pc:x}, place {access.at}", "small"))

    def draw_away(self) -> None:
        """That the racing thread keeps what it loaded while others run."""
        race = self.race
        end = next(it.end for it in race.turns if it.tid == race.load.tid and it.start <= race.load.at < it.end)
        start = next(it.start for it in race.turns if it.tid == race.load.tid and it.start <= race.store.at < it.end)
        middle = self.racer + LANE / 2
        self.parts.append(line(self.x(end), middle, self.x(start), middle, "away"))
        words = f"switched out, and still has {race.load.value:x}"
        self.parts.append(text_at((self.x(end) + self.x(start)) / 2, middle - 8, words, "small"))

    def draw_axis(self) -> None:
        """The places below."""
        steps = (it * 10**power for power in range(12) for it in (1, 2, 5))
        step = next(it for it in steps if (self.end - self.start) / it <= 8)
        for place in range(-(-self.start // step) * step, self.end + 1, step):
            self.parts.append(line(self.x(place), self.bottom, self.x(place), self.bottom + 5, "tick"))
            self.parts.append(text_at(self.x(place), self.bottom + 19, str(place), "small"))
        self.parts.append(line(LEFT, self.bottom, WIDTH - RIGHT, self.bottom, "tick"))
        self.parts.append(text_at(14, self.bottom + 19, "place", "small", "start"))
        self.parts.append(text_at(WIDTH - RIGHT, 30, "values in hexadecimal", "small", "end"))

    def title(self) -> str:
        """What happens, in a sentence."""
        race, others = self.race, [f"{it.value:x}" for it in self.race.others]
        stored = " and ".join([", ".join(others[:-1]), others[-1]] if len(others) > 1 else others)
        stored = stored if len(others) <= MOST_NAMED else f"{len(others)} stores"
        lost = f"{stored} {'are' if len(others) > 1 else 'is'} lost"
        did = f"Thread {race.store.tid} stores {race.store.value:x}"
        return f"{did}, from the {race.load.value:x} that it had loaded: {lost}"

    def text(self) -> str:
        """The picture, as SVG."""
        race, height = self.race, self.bottom + 32
        size = f'viewBox="0 0 {WIDTH} {height}" width="{WIDTH}" height="{height}"'
        self.parts = [f'<svg xmlns="http://www.w3.org/2000/svg" {size} role="img">']
        self.parts += [f"<title>{self.title()}</title>", f"<style>{STYLE}</style>"]
        self.parts.append(f'<rect class="ground" width="{WIDTH}" height="{height}" rx="8"/>')
        self.parts.append(text_at(14, 30, self.title(), "title", "start"))
        self.draw_turns(race.load.tid, self.racer, "racer")
        for tid, y in self.lanes.items():
            self.draw_turns(tid, y, "other")
        self.draw_away()
        self.draw_word()
        self.draw_access(race.load, "loads", self.racer, True)
        self.draw_access(race.store, "stores", self.racer, True)
        for it in race.others:
            self.draw_access(it, "stores", self.lanes[it.tid], False)
        self.draw_axis()
        return "\n".join([*self.parts, "</svg>"]) + "\n"


def example(program: Program) -> str:
    """The picture of the example's race."""
    with tempfile.TemporaryDirectory() as folder:
        store = pathlib.Path(folder, "race.rrv")
        program.run_well("new", store)
        program.run_well("record", "--quantum", QUANTUM, store, EXAMPLE)
        return Drawing(Recording(program, store, 0).race(ADDRESS), NAME).text()


def is_address(text: str) -> bool:
    """Whether a word is an address, as rrv takes one."""
    return re.fullmatch(r"(?:0x)?[0-9A-Fa-f]{1,8}", text) is not None


def main(words: Sequence[str]) -> int | None:
    """Does what the line says."""
    try:
        match words:
            case []:
                PICTURE.write_text(example(needed()), encoding="utf-8")
                return 0
            case [store, guest, address, *name] if guest.isdecimal() and is_address(address) and len(name) < 2:
                race = Recording(needed(), pathlib.Path(store), int(guest)).race(int(address, 16))
                print(Drawing(race, [*name, f"{int(address, 16):08x}"][0]).text(), end="")
                return 0
    except (Refused, OSError) as wrong:
        print(f"race_picture: {wrong}", file=sys.stderr)
        return 1
    return None
