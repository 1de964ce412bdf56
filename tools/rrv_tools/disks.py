"""What a loss of power or a crash may leave of a file, by the calls that the program made of it: a restatement of the
crash model."""
import random
from collections.abc import Iterable, Iterator, Sequence

from rrv_tools.preload import SYNCS, Moment
from rrv_tools.store import OPEN

SECTOR = 512
# The bytes of a closed gate, of none and of an open one.
FILLS = (0x00, 0x37, OPEN[0])


class Disk:
    """What a file holds: on its device since the last sync, as it is read now, and what was called between."""

    def __init__(self, content: bytes, moments: Iterable[Moment] = ()) -> None:
        self.now = bytearray(content)
        self.sync()
        for it in moments:
            self.apply(it)

    def sync(self) -> None:
        """A sync that has ended."""
        self.durable = bytes(self.now)
        self.writes: list[tuple[int, bytes]] = []
        self.least = self.greatest = len(self.now)

    def apply(self, moment: Moment) -> None:
        """A call that begins, or a sync that has ended."""
        if moment.call in SYNCS:
            self.sync()
        elif moment.call == "pwrite":
            self.writes.append((moment.at, moment.data))
            self.now[moment.at: moment.at + len(moment.data)] = moment.data
        elif moment.call == "ftruncate":
            self.now = self.now[: moment.at].ljust(moment.at, b"\0")
        self.least, self.greatest = min(self.least, len(self.now)), max(self.greatest, len(self.now))

    def left(self, draw: random.Random) -> bytes:
        """A content that a loss of power may leave."""
        fill = draw.choice([*FILLS, draw.randrange(256)])
        content = bytearray(self.durable.ljust(self.greatest, bytes([fill])))
        for at, data in self.writes:
            put_in_part(draw, content, at, data)
        if draw.random() < 0.2:
            content[self.least:] = draw.randbytes(self.greatest - self.least)
        drawn = (draw.randint(self.least, self.greatest) for _ in range(3))
        return bytes(content[: draw.choice([self.least, self.greatest, self.greatest, *drawn])])

    def crashed(self, length: int, fill: int) -> bytes:
        """What a crash may leave: this many bytes, with this one wherever it may change one."""
        content = bytearray(self.now[: self.least].ljust(length, bytes([fill])))
        for at, data in self.writes:
            count = max(0, min(at + len(data), length) - at)
            content[at: at + count] = bytes([fill]) * count
        return bytes(content)

    def crashes(self) -> list[tuple[bytes, int]]:
        """Nine crashes, each with its byte."""
        lengths = (self.least, (self.least + self.greatest) // 2, self.greatest)
        return [(self.crashed(length, fill), fill) for length in lengths for fill in FILLS]


def put_in_part(draw: random.Random, content: bytearray, at: int, data: bytes) -> None:
    """Writes these bytes as far as the power lasts."""
    how = draw.choice(["none", "all", "beginning", "sectors", "bytes"])
    if how == "all":
        content[at: at + len(data)] = data
    elif how == "beginning":
        count = draw.randint(0, len(data))
        content[at: at + count] = data[:count]
    elif how == "sectors":
        ends = [*range(at - at % SECTOR + SECTOR, at + len(data), SECTOR), at + len(data)]
        for start, end in zip([at, *ends], ends, strict=False):
            if draw.random() < 0.5:
                content[start:end] = data[start - at: end - at]
    elif how == "bytes":
        for place, byte in enumerate(data, at):
            content[place] = draw.choice([content[place], byte, byte, draw.randrange(256)])


def changes_in(moments: Sequence[Moment]) -> Iterator[Moment]:
    """Those moments of a file's calls by which something of it changed: at which a write or a cut begins that isn't the
    chosen one, and at which a sync has ended."""
    for place, it in enumerate(moments):
        if it.call in SYNCS:
            if it.has_ended and it.result == 0:
                yield it
        elif it.call in ("pwrite", "ftruncate") and not it.has_ended:
            end = next(that for that in moments[place + 1:] if that.has_ended and that.call == it.call)
            if not end.is_chosen:
                yield it
