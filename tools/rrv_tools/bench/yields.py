"""Writes guests that call sched_yield so many times and exit with 0, as COUNT.elf in a folder. Each call is a record of
its own, so that what a record costs shows in the time of `rrv record`.

usage: tools/run bench yields FOLDER COUNT..
"""
import pathlib
from collections.abc import Sequence

from rrv_tools.bench import guests, measuring


def main(words: Sequence[str]) -> int:
    """Writes them."""
    parser = measuring.parser("yields", __doc__)
    parser.add_argument("folder", type=pathlib.Path, metavar="FOLDER")
    parser.add_argument("counts", type=int, nargs="+", metavar="COUNT")
    said = parser.parse_args(words)
    for count in said.counts:
        measuring.written(said.folder / f"{count}.elf", guests.yields(count))
    return 0
