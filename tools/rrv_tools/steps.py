"""Steps of scenes: files are written, cut and changed, lines are run over them, and what these print and leave is
compared."""
import fcntl
import os
import pathlib
from collections.abc import Callable, Sequence
from typing import NamedTuple

from rrv_tools import elf
from rrv_tools.testing import Case, Text, bad_text, difference

# What stands in standard input: no guest reads it, since its input is a file or nothing.
UNREAD = b"not to be read\n"


class Step(NamedTuple):
    """A step in the folder of a case: what it is, and what takes it, which fails the case if something is otherwise
    than it is wanted."""

    what: str
    take: Callable[[Case], object]


# ---- files


def write(name: str, data: bytes) -> Step:
    """A file is written."""
    return Step(f"write {name}", lambda case: pathlib.Path(name).write_bytes(data))


def cut(name: str, length: int) -> Step:
    """A file is cut to this many bytes."""
    return Step(f"cut {name}", lambda case: os.truncate(name, length))


def change(name: str, place: int, byte: int) -> Step:
    """A byte of a file is changed."""
    path = pathlib.Path(name)
    return Step(f"change {name}", lambda case: path.write_bytes(elf.changed(path.read_bytes(), place, bytes([byte]))))


def link(name: str, target: str) -> Step:
    """A file gets another name."""
    return Step(f"link {name}", lambda case: os.link(target, name))


def symbolic_link(name: str, target: str) -> Step:
    """A symbolic link leads to a file."""
    return Step(f"symbolic link {name}", lambda case: os.symlink(target, name))


def lock(name: str) -> Step:
    """A file, which is made if it isn't there, is locked until the case is over."""
    def take(case: Case) -> None:
        file = case.enterContext(pathlib.Path(name).open("ab"))  # noqa: SIM115 (the case closes it)
        fcntl.flock(file, fcntl.LOCK_EX | fcntl.LOCK_NB)

    return Step(f"lock {name}", take)


def found(what: str, name: str, wanted: object, find: Callable[[bytes], object]) -> Step:
    """In the bytes of a file this is found."""
    return Step(what, lambda case: case.need(what, wanted, find(pathlib.Path(name).read_bytes())))


def holds(name: str, data: bytes) -> Step:
    """A file has these bytes."""
    return found(f"what {name} holds", name, data, lambda has: has)


def begins(name: str, data: bytes) -> Step:
    """A file begins with these bytes."""
    return found(f"how {name} begins", name, data, lambda has: has[: len(data)])


def holds_once(name: str, part: bytes) -> Step:
    """A file has these bytes once, somewhere."""
    return found(f"how often {name} holds {part!r}", name, 1, lambda has: has.count(part))


# ---- lines, by their words with blanks between them


def line(words: str, status: int, out: Text | None, err: Text | None) -> Step:
    """A line has this status, this output and these errors, of which None leaves open what they are."""
    return Step(words, lambda case: case.need_line(*words.split(), status=status, out=out, err=err, stdin=UNREAD))


def done(words: str, out: Text = b"", err: Text = b"") -> Step:
    """A line that is done."""
    return line(words, 0, out, err)


def refused(words: str, err: Text) -> Step:
    """A line that is refused, and prints nothing to its output."""
    return line(words, 1, b"", err)


def bad(words: str, message: str, usage: str = "<COMMAND>") -> Step:
    """A line that is none."""
    return line(words, 2, b"", bad_text(message, usage))


def ends(words: str, status: int) -> Step:
    """A line of which just the status is wanted."""
    return line(words, status, None, None)


def play(case: Case, steps: Sequence[Step]) -> None:
    """Takes steps, and fails the case if one finds something otherwise than it is wanted; those after it are taken all
    the same, until one can't be."""
    wrong = []
    for step in steps:
        try:
            step.take(case)
        except AssertionError as error:
            wrong.append(str(error))
        except (OSError, IndexError) as error:
            wrong.append(difference(step.what, "a step that can be taken", error))
            break
    if wrong:
        raise case.failureException("\n".join(wrong))
