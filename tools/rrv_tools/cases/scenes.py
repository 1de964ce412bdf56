"""Lines over files that are written, cut and changed: what they print, and what they leave.

Expected values: the guests' instructions, from which it follows what they print; of the bytes of stores
docs/FORMATS.md.

Each scene is a case. Of a line the status, the output and the errors are wanted; of some bad lines, whose text is the
parser's, only the status. Standard input has bytes that no line may read. In some scenes stores are marked, by
recordings and by hand, and guests wait for a time: what these leave, and which copies are refused.
"""
from collections.abc import Mapping, Sequence

from rrv_tools import guests
from rrv_tools.elf import changed, executable
from rrv_tools.guests import BUFFER, CLOCK, EXIT, RANDOM, READ, exits, writes
from rrv_tools.known import (
    BEFORE_START, BREAKS, CANNOT_OPEN, CANNOT_READ, DAMAGED, EXITED, FIVE, FIVE_DIGEST, FIVE_DUMPED, FIVE_LISTED,
    FIVE_VERIFIED, HI, HI_DIGEST, HI_DUMPED, HI_LISTED, HI_TO_ERRORS, HI_VERIFIED, NEEDS_MARK, NO_GUEST, NOT_A_STORE,
    PAST_END, SAME_STORE, TOO_MANY_GUESTS, Known,
)  # fmt: skip
from rrv_tools.records import (
    NOT_MAPPED, Call, Expire, Fault, Item, Opening, OpeningTwo, Page, Part, Preempt, Rest, bodies_of, records_of,
)  # fmt: skip
from rrv_tools.riscv import A0, A1, A2, S0, SP, X5, ZERO, addi, call, counted_down, lui, lw, srli, sw
from rrv_tools.steps import (
    Step, bad, begins, change, cut, done, ends, holds, holds_once, line, link, lock, play, refused, symbolic_link,
    write,
)  # fmt: skip
from rrv_tools.store import EMPTY, MARK, MARK_ADDS, segment, store_of
from rrv_tools.testing import Case, rows

# Programs

# It writes the 16 random bytes of its opening, at 0x7FFFFFF0, and exits with 16, which the call returns.
WRITE_RANDOM = [lui(A1, 0x80000), addi(A1, A1, -16), addi(A0, ZERO, 1), addi(A2, ZERO, 16), *call(guests.WRITE)]
OPENING_RANDOM = executable([*WRITE_RANDOM, *call(EXIT)])
# It fills 24 bytes with ones. Then it reads up to ten bytes of input to them, and takes three random bytes to the same
# place; writes the 24 bytes, and exits with 0.
FILL = [lui(S0, 0x7FF00), addi(X5, ZERO, -1), *(sw(X5, S0, at) for at in range(0, 24, 4))]
READ_TEN = [addi(A0, ZERO, 0), addi(A1, S0, 8), addi(A2, ZERO, 10), *call(READ)]
TAKE_THREE = [addi(A0, S0, 0), addi(A1, ZERO, 3), addi(A2, ZERO, 0), *call(RANDOM)]
READ_THEN_RANDOM = executable([*FILL, *READ_TEN, *TAKE_THREE, *writes(1, S0, 24), *exits(0)])
# It counts down from 100, and exits with 0.
LOOP = executable([addi(A0, ZERO, 100), *counted_down(A0, []), *call(EXIT)])


def tells_time(clock: int, shift: int) -> bytes:
    """A program that exits with the seconds of a clock, shifted to the right."""
    ask = [lui(S0, 0x7FF00), addi(A0, ZERO, clock), addi(A1, S0, 0), *call(CLOCK)]
    return executable([*ask, lw(A0, S0, 0), srli(A0, A0, shift), *call(EXIT)])


# They exit with the seconds since 1970 over 2^30, 1 from 2004 to 2038, and with those since the start over 2^8.
REAL, MONOTONIC = tells_time(0, 30), tells_time(1, 8)


def taker(*counts: int) -> bytes:
    """A program that takes this many random bytes by each of its calls, one after the other, then writes them all, and
    exits with 0."""
    words, place = [addi(BUFFER, SP, -64)], 0
    for count in counts:
        words += [addi(A0, BUFFER, place), addi(A1, ZERO, count), addi(A2, ZERO, 0), *call(RANDOM)]
        place += count
    return executable([*words, *writes(1, BUFFER, place), *exits(0)])


def reader(times: int) -> bytes:
    """A program that this many times reads four bytes of input at most, and writes what it read; it exits with 0."""
    read = [addi(A0, ZERO, 0), addi(A1, BUFFER, 0), addi(A2, ZERO, 4), *call(READ)]
    write = [addi(A2, A0, 0), addi(A0, ZERO, 1), addi(A1, BUFFER, 0), *call(guests.WRITE)]
    return executable([addi(BUFFER, SP, -64), *times * [*read, *write], *exits(0)])


# The scenes, by their names.
SCENES: dict[str, Sequence[Step]] = {}


def scene(name: str, *steps: Step) -> None:
    """Adds a scene."""
    assert name not in SCENES, f"two scenes are named {name}"
    SCENES[name] = steps


def in_store(name: str, files: Mapping[str, bytes], *steps: Step) -> None:
    """Adds a scene that begins with these files and a new store `s`."""
    scene(name, *(write(*it) for it in files.items()), done("new s"), *steps)


def recorded(name: str, known: Known, *steps: Step) -> None:
    """Adds a scene that begins with a program `f`, which is recorded in a new store."""
    in_store(name, {"f": known.file}, done("record s f", known.out, known.report), *steps)


# Lines that are none

scene(
    "bad lines end with two",
    bad("verify s", "the following required arguments were not provided:\n  <GUEST>", "verify <STORE> <GUEST>"),
    bad("list one two", "unexpected argument 'two' found", "list [OPTIONS] <STORE>"),
    bad("try guest", "unrecognized subcommand 'try'"),
    bad("--quiet", "unexpected argument '--quiet' found"),
)
scene("more than sixteen programs are a bad line", ends("record s E E E E E E E E E E E E E E E E E", 2))
scene(
    "numbers outside their limits are bad lines",
    ends("record --quantum 63 s E", 2),
    ends("record --quantum 1048577 s E", 2),
    ends("record --quantum few s E", 2),
    ends("record --every 4294967296 s E", 2),
    ends("verify s g0", 2),
    ends("verify s -1", 2),
    ends("replay --at x s 0", 2),
    ends("back s 0 18446744073709551616 1", 2),
    ends("last s 0 3 123456789", 2),
    ends("last s 0 3 xyz", 2),
)

# Empty stores, damaged ones, and files that are none

SIXTEEN = b"RRVTRC1\n\0\0\0\0\0\0\0\0"
scene(
    "a new store is empty",
    done("new s"),
    holds("s", EMPTY),
    done("list s"),
    holds("s", EMPTY),
    refused("new s", CANNOT_OPEN),
    refused("verify s 0", NO_GUEST),
    holds("s", EMPTY),
)
scene(
    "new leaves other files alone",
    write("text", b"a text"),
    refused("new text", CANNOT_OPEN),
    holds("text", b"a text"),
    refused("new .", CANNOT_OPEN),
    refused("new missing/s", CANNOT_OPEN),
)
scene(
    "files that are no stores are refused",
    write("sixteen", SIXTEEN),
    refused("list sixteen", NOT_A_STORE),
    holds("sixteen", SIXTEEN),
    write("zeros", bytes(17)),
    refused("dump zeros 0", NOT_A_STORE),
    write("none", b""),
    refused("verify none 0", NOT_A_STORE),
    refused("list missing", CANNOT_OPEN),
    refused("list .", CANNOT_OPEN),
)
recorded(
    "a store that is cut is damaged",
    FIVE,
    cut("s", 100),
    *(refused(it, DAMAGED) for it in ("list s", "dump s 0", "verify s 0", "replay s 0", "back s 0 3 1")),
    *(refused(it, DAMAGED) for it in ("last s 0 3 0", "record s f", "ask s 0", "elf s 0", "copy s 0 s")),
    cut("s", 17),
    refused("list s", DAMAGED),
    cut("s", 16),
    refused("list s", NOT_A_STORE),
)
recorded(
    "a store with another byte is refused",
    FIVE,
    change("s", 57, 1),
    refused("list s", DAMAGED),
    change("s", 57, 0),
    done("list s", FIVE_LISTED),
    change("s", 8, 1),
    refused("list s", NOT_A_STORE),
)
recorded(
    "a store is repaired where it is opened",
    FIVE,
    # The first gate, which was open.
    change("s", 16, 0x37),
    done("list s"),
    holds("s", EMPTY),
    done("record s f", b"", b"g0: end exited 5, records 2\n"),
    done("list s", FIVE_LISTED),
)
# It is looked at, and has no bytes yet.
scene(
    "a store of another program is left alone",
    lock("s"),
    write("f", FIVE.file),
    refused("record s f", CANNOT_OPEN),
    refused("list s", NOT_A_STORE),
)

# Guests, and what lines print of them

recorded(
    "lines print a recorded guest",
    FIVE,
    done("list s", FIVE_LISTED),
    done("dump s 0", FIVE_DUMPED),
    done("verify s 0", FIVE_VERIFIED),
    done("replay s 0"),
    refused("dump s 1", NO_GUEST),
    refused("verify s 7", NO_GUEST),
    refused("replay s 4294967295", NO_GUEST),
    refused("replay s 4294967296", NO_GUEST),
    refused("verify s 18446744073709551615", NO_GUEST),
)
recorded(
    "output is printed again",
    HI,
    done("replay s 0", b"hi\n"),
    done("dump s 0", HI_DUMPED),
    done("verify s 0", HI_VERIFIED),
    done("list s", HI_LISTED),
)
recorded("output to errors is printed again", HI_TO_ERRORS, done("replay s 0", b"", b"hi\n"))
in_store(
    "programs are recorded at once",
    {"E": FIVE.file, "F": HI.file},
    done("record s E F", b"hi\n", b"g0: end exited 5, records 2\ng1: end exited 0, records 3\n"),
    done("record s E", b"", FIVE.report),
    done("list s", FIVE_LISTED + b"1 g1 records=3 frames=2 instructions=11\n2 g0 records=2 frames=1 instructions=3\n"),
    done("replay s 1", b"hi\n"),
    done("dump s 2", FIVE_DUMPED),
    done("verify s 0", FIVE_VERIFIED),
    done("verify s 1", HI_VERIFIED),
    done("verify s 2", FIVE_VERIFIED),
)
in_store(
    "each guest has the next number",
    {"f": FIVE.file},
    *[done("record s f", b"", FIVE.report)] * 3,
    done("list s", b"".join(b"%d g0 records=2 frames=1 instructions=3\n" % it for it in range(3))),
    *(done(f"verify s {it}", FIVE_VERIFIED) for it in range(3)),
    refused("verify s 3", NO_GUEST),
)
in_store(
    "sixteen programs are recorded at once",
    {"E": FIVE.file},
    done(f"record s{' E' * 16}", b"", "".join(f"g{it}: end exited 5, records 2\n" for it in range(16))),
    done("verify s 15", FIVE_VERIFIED),
    refused("verify s 16", NO_GUEST),
)
in_store(
    "checkpoints are made as often as asked",
    {"F": HI.file},
    done("record --every 8 s F", HI.out, b"g0: end exited 0, records 4\n"),
    done(
        "dump s 0",
        b"0 opening name=g0 elf=128\n1 call tid=1 count=8 result=00000003 written=0\n"
        b"2 part pages=1 last=yes\n3 call tid=1 count=3 result=00000000 written=0\n",
    ),
    done("verify s 0", b"ok records=4 instructions=11 end exited 0\n"),
    done("list s", b"0 g0 records=4 frames=2 instructions=11\n"),
    done("record --every 0 s F", HI.out, HI.report),
)
# So many choices of 64 instructions of the first thread.
CHOICES = {f"choices_{count}": b"1 64\n" * count for count in (1, 2, 4)}
in_store(
    "a checkpoint follows each second frame",
    {"spin": guests.SPIN, **CHOICES},
    done("record --choices choices_4 --then none --every 128 s spin", b"", b"g0: end none, records 7\n"),
    done(
        "dump s 0",
        b"0 opening name=g0 elf=88\n1 preempt tid=1 count=64\n2 preempt tid=1 count=64\n3 part pages=0 last=yes\n"
        b"4 preempt tid=1 count=64\n5 preempt tid=1 count=64\n6 part pages=0 last=yes\n",
    ),
    done("verify s 0", b"ok records=7 instructions=256 end none\n"),
    # A record's head, and how its payload of 158 bytes begins: the flag and the number of pages.
    holds_once("s", bytes.fromhex("00000000 03000000 05 9e000000 01 00000000")),
)
in_store(
    "no checkpoint follows the end",
    {"E": FIVE.file, **CHOICES},
    done("record --choices choices_1 --then none --every 1 s E", FIVE.out, FIVE.report),
    done("dump s 0", FIVE_DUMPED),
    done("verify s 0", FIVE_VERIFIED),
)
in_store(
    "a part has the lines that changed",
    {"F": HI.file, **CHOICES},
    done("record --choices choices_2 --then none --every 8 s F", HI.out, b"g0: end exited 0, records 4\n"),
    # The payload has 235 bytes: after its number of pages stand the number of a page, its permissions, its mask and
    # its line.
    holds_once(
        "s",
        bytes.fromhex("00000000 02000000 05 eb000000 01 01000000 ffff0700 06 0000000000000040") + bytes(16) + b"hi\n\0",
    ),
)
in_store(
    "slices are as long as asked",
    {"loop": LOOP},
    done("record --quantum 64 s loop", b"", b"g0: end exited 0, records 5\n"),
    # 100 turns of two instructions, one before them and two after them.
    done(
        "dump s 0",
        b"0 opening name=g0 elf=104\n1 preempt tid=1 count=64\n2 preempt tid=1 count=64\n3 preempt tid=1 count=64\n"
        b"4 call tid=1 count=11 result=00000000 written=0\n",
    ),
    done("record --quantum 1048576 s loop", b"", b"g0: end exited 0, records 2\n"),
)
recorded(
    "a guest that faults is done",
    BREAKS,
    done("dump s 0", b"0 opening name=g0 elf=88\n1 fault tid=1 count=1 kind=2\n"),
    done("verify s 0", b"ok records=2 instructions=1 end faulted 2\n"),
)
in_store(
    "a file of the greatest length is recorded",
    {"most": FIVE.file.ljust(2_097_152, b"\0"), "more": FIVE.file.ljust(2_097_153, b"\0")},
    done("record s most", FIVE.out, FIVE.report),
    refused("record s more", CANNOT_READ),
    done("dump s 0", b"0 opening name=g0 elf=2097152\n1 call tid=1 count=3 result=00000000 written=0\n"),
)

# Copies

# The records of the program that exits with 5, of the guest of a number; and its line.
FIVE_ITEMS = [Opening(FIVE.file, b"g0", bytes(16)), Call(1, 3, 0, [])]


def five_in(*numbers: int) -> bytes:
    """A store with such guests of these numbers, each in a body of its own."""
    return store_of([body for it in numbers for body in bodies_of(records_of(it, FIVE_ITEMS))])


def five_line(guest: int) -> bytes:
    return b"%d g0 records=2 frames=1 instructions=3\n" % guest


# A guest that goes round, whose records stand in two bodies of the other store.
ROUNDS = [Opening(guests.SPIN, b"round", bytes(16)), *[Preempt(1, 64)] * 100]
scene(
    "a guest is copied",
    write("s", five_in(0, 1)),
    write("t", EMPTY),
    done("copy s 1 t", five_line(0)),
    holds("t", five_in(0)),
    done("copy s 0 t", five_line(1)),
    holds("t", five_in(0, 1)),
    holds("s", five_in(0, 1)),
    done("copy t 1 s", five_line(2)),
    done("verify s 2", FIVE_VERIFIED),
    done("dump s 2", FIVE_DUMPED),
    done("list s", five_line(0) + five_line(1) + five_line(2)),
)
scene(
    "as many records as may be stand in each body of a copy",
    write("s", store_of(bodies_of(records_of(3, ROUNDS), 7))),
    write("t", five_in(8)),
    done("copy s 3 t", b"9 round records=101 frames=100 instructions=6400\n"),
    holds(
        "t", store_of(bodies_of(records_of(8, FIVE_ITEMS)) + bodies_of(records_of(9, ROUNDS)))
    ),
    done("verify t 9", b"ok records=101 instructions=6400 end none\n"),
)
# A gate that is torn, and what stands after it.
TORN = five_in(0)[:-1] + b"\x37torn"
scene(
    "a store from which a guest is copied is only read, and the other is mended",
    write("s", TORN),
    write("t", TORN),
    done("copy s 0 t", five_line(1)),
    holds("s", TORN),
    holds("t", five_in(0, 1)),
    lock("s"),
    done("copy s 0 t", five_line(2)),
    holds("s", TORN),
    holds("t", five_in(0, 1, 2)),
)
scene(
    "copies are refused by name, and change nothing",
    write("s", five_in(0)),
    write("t", five_in(0)),
    write("text", b"a text"),
    write("cut", five_in(0)[:100]),
    link("other", "s"),
    symbolic_link("symbolic", "other"),
    *(refused(f"copy s 0 {it}", SAME_STORE) for it in ("s", "./s", "other", "symbolic")),
    refused("copy symbolic 0 s", SAME_STORE),
    refused("copy s 1 s", NO_GUEST),
    refused("copy s 1 t", NO_GUEST),
    refused("copy s 18446744073709551615 t", NO_GUEST),
    refused("copy s 0 missing", CANNOT_OPEN),
    refused("copy s 0 .", CANNOT_OPEN),
    refused("copy s 0 text", NOT_A_STORE),
    refused("copy s 0 cut", DAMAGED),
    refused("copy cut 0 t", DAMAGED),
    refused("copy missing 0 t", CANNOT_OPEN),
    refused("copy . 0 t", CANNOT_OPEN),
    refused("copy text 0 t", NOT_A_STORE),
    holds("s", five_in(0)),
    holds("text", b"a text"),
    holds("cut", five_in(0)[:100]),
    lock("t"),
    refused("copy s 0 t", CANNOT_OPEN),
    holds("t", five_in(0)),
    refused("copy t 0 u", CANNOT_OPEN),
    bad("copy s 0", "the following required arguments were not provided:\n  <TO>", "copy <STORE> <GUEST> <TO>"),
)
scene(
    "the numbers of guests come to an end",
    write("s", five_in(0)),
    write("t", five_in(4_294_967_293)),
    done("copy s 0 t", five_line(4_294_967_294)),
    holds("t", five_in(4_294_967_293, 4_294_967_294)),
    refused("copy s 0 t", TOO_MANY_GUESTS),
    holds("t", five_in(4_294_967_293, 4_294_967_294)),
    done("copy t 4294967294 s", five_line(1)),
)
# A record that doesn't follow, and so a guest that verify refuses.
LYING = [Opening(FIVE.file, b"g0", bytes(16)), Call(1, 4, 0, [])]
scene(
    "a guest that isn't a recording is copied as it is, and not asked about",
    write("s", store_of(bodies_of(records_of(0, LYING)))),
    write("t", EMPTY),
    refused("verify s 0", b"rrv: record 1 does not replay\n"),
    refused("ask s 0", b"rrv: record 1 does not replay\n"),
    done("copy s 0 t", b"0 g0 records=2 frames=1 instructions=4\n"),
    refused("verify t 0", b"rrv: record 1 does not replay\n"),
    done("copy t 0 s", b"1 g0 records=2 frames=1 instructions=4\n"),
)

# What guests get from the host

# python3 -c 'import hashlib, struct
# digest = lambda seed, guest, counter: hashlib.sha256(seed + struct.pack("<II", guest, counter)).digest()
# for seed in (bytes(16), bytes(range(16))): print([digest(seed, guest, 0xffffffff)[:16] for guest in (0, 1)])'
OPENING_OF_0 = b"\xcd\x97\x23\xab\xb2\xa6\x24\x00\xb1\x00\xa4\x60\xed\x1b\x5b\x11"
OPENING_OF_1 = b"\xbb\x7e\xad\x7c\x63\x96\x71\xbb\x53\x9b\xa9\xac\x91\xa3\xed\x09"
SEEDED = b"\xb1\x8f\xa4\x7c\xd5\x7b\x82\xc2\x8e\xb7\xad\xd9\x6b\x40\x02\x2f"
SIXTEEN_TAKEN = b"g0: end exited 16, records 3\n"
in_store(
    "the seed determines random bytes",
    {"R": OPENING_RANDOM, "E": FIVE.file},
    done("record s R", OPENING_OF_0, SIXTEEN_TAKEN),
    done("record s E R", OPENING_OF_1, b"g0: end exited 5, records 2\ng1: end exited 16, records 3\n"),
    done("record --seed 00000000000000000000000000000000 s R", OPENING_OF_0, SIXTEEN_TAKEN),
    done("record --seed 000102030405060708090a0B0C0D0E0F s R", SEEDED, SIXTEEN_TAKEN),
    done("replay s 0", OPENING_OF_0),
    done("replay s 2", OPENING_OF_1),
    done("replay s 4", SEEDED),
)
# python3 -c 'import hashlib, struct
# digest = lambda guest, counter: hashlib.sha256(bytes(16) + struct.pack("<II", guest, counter)).digest()
# print((digest(0, 0) + digest(0, 1))[:40].hex())'
FIRST_BYTES = bytes.fromhex("9d908ecfb6b256def8b49a7c504e6c889c4b0e41fe6ce3e01863dd7b61a20aa0640e494dd31edb66")
in_store(
    "random bytes go on from call to call",
    {"R": taker(5, 30, 5), "first": taker(5)},
    done("record s R", FIRST_BYTES, b"g0: end exited 0, records 6\n"),
    done("record s first", FIRST_BYTES[:5], b"g0: end exited 0, records 4\n"),
    done("replay s 0", FIRST_BYTES),
)
READ_REPORT, RANDOM_READ = b"g0: end exited 0, records 5\n", b"\x9d\x90\x8e\xff\xff\xff\xff\xff"
WHOLE_READ = RANDOM_READ + b"0123456789\xff\xff\xff\xff\xff\xff"
SHORT_READ = RANDOM_READ + b"abc\xff\xff\xff\xff\xff\xff\xff\xff\xff\xff\xff\xff\xff"
EMPTY_READ = RANDOM_READ + b"\xff\xff\xff\xff\xff\xff\xff\xff\xff\xff\xff\xff\xff\xff\xff\xff"
in_store(
    "guests read the input and take random bytes",
    {"R": READ_THEN_RANDOM, "digits": b"0123456789ab", "letters": b"abc"},
    done("record --input digits s R", WHOLE_READ, READ_REPORT),
    done("record --input letters s R", SHORT_READ, READ_REPORT),
    done("record s R", EMPTY_READ, READ_REPORT),
    done("replay s 0", WHOLE_READ),
    done("replay s 1", SHORT_READ),
    done("replay s 2", EMPTY_READ),
)
# The calls that read 0123, 4567 and 89, and those that read nothing; and those that write as much.
READ_DUMPED = "".join(
    f"{2 * place + 1} call tid=1 count={6 if place == 0 else 5} result={count:08x} written={count}\n"
    f"{2 * place + 2} call tid=1 count=5 result={count:08x} written=0\n"
    for place, count in enumerate((4, 4, 2, 0, 0))
).encode()
READ_DUMPED = b"0 opening name=g%d elf=300\n" + READ_DUMPED + b"11 call tid=1 count=3 result=00000000 written=0\n"
in_store(
    "each guest reads the input from its start",
    {"R": reader(5), "digits": b"0123456789"},
    line("record --input digits s R R", 0, None, b"g0: end exited 0, records 12\ng1: end exited 0, records 12\n"),
    *(done(f"replay s {it}", b"0123456789") for it in range(2)),
    *(done(f"dump s {it}", READ_DUMPED % it) for it in range(2)),
)
in_store(
    "the input has a limit",
    {"E": FIVE.file, "most": bytes(1_048_576), "more": bytes(1_048_577)},
    done("record --input most s E", FIVE.out, FIVE.report),
    refused("record --input more s E", CANNOT_READ),
    done("list s", FIVE_LISTED),
)
in_store(
    "clocks count from 1970 and from the start",
    {"real": REAL, "monotonic": MONOTONIC},
    done("record s real monotonic", b"", b"g0: end exited 1, records 3\ng1: end exited 0, records 3\n"),
    done("verify s 0", b"ok records=3 instructions=9 end exited 1\n"),
    done("verify s 1", b"ok records=3 instructions=9 end exited 0\n"),
)

# States at places of a recording


def state_of(place: str, pc: str, a0: str, a1: str, a7: str, digest: str) -> bytes:
    """The state of a program of one thread that hasn't ended: at a place, with these words in `pc`, `a0`, `a1` and
    `a7`, and with this digest of its memory."""
    return f"""\
at {place}
end none
break 00011000
reservation none
thread 1 running pc {pc} clear 00000000
  x0 00000000 x1 00000000 x2 7fffffa0 x3 00000000
  x4 00000000 x5 00000000 x6 00000000 x7 00000000
  x8 00000000 x9 00000000 x10 {a0} x11 {a1}
  x12 00000000 x13 00000000 x14 00000000 x15 00000000
  x16 00000000 x17 {a7} x18 00000000 x19 00000000
  x20 00000000 x21 00000000 x22 00000000 x23 00000000
  x24 00000000 x25 00000000 x26 00000000 x27 00000000
  x28 00000000 x29 00000000 x30 00000000 x31 00000000
pages 257 digest {digest}
""".encode()


BEFORE_EXIT = state_of("2 of 3", "0001005c", "00000005", "00000000", "0000005d", FIVE_DIGEST)
BEFORE_STORE = state_of("3 of 11", "00010060", "000a6968", "7fffff90", "00000000", HI_DIGEST)
recorded(
    "the state at a place is printed",
    FIVE,
    *(done(it, BEFORE_EXIT) for it in ("back s 0 3 1", "back s 0 2 0", "replay --at 2 s 0", "replay s 0 --at 2")),
    *(done(it, EXITED) for it in ("replay --at 3 s 0", "replay --at end s 0", "back s 0 3 0")),
)
recorded(
    "places outside are refused",
    FIVE,
    *(refused(it, BEFORE_START) for it in ("back s 0 3 4", "back s 0 0 1", "back s 0 3 18446744073709551615")),
    *(refused(it, PAST_END) for it in ("back s 0 4 1", "back s 0 4 5", "back s 0 18446744073709551615 1")),
    *(refused(it, PAST_END) for it in ("replay --at 4 s 0", "last s 0 4 7FFFFF90")),
)
recorded(
    "the last change of a byte is found",
    HI,
    *(done(it, BEFORE_STORE) for it in ("last s 0 11 7FFFFF90", "last s 0 4 7fffff91")),
    *(done(it, b"unchanged\n") for it in ("last s 0 3 7FFFFF90", "last s 0 11 7FFFFF93")),
    *(done(it, b"unchanged\n") for it in ("last s 0 11 0", "last s 0 0 7FFFFF90")),
)

# Programs that are none, and which of several faults is reported

COMPRESSED = changed(FIVE.file, 36, b"\x01")
A_TEXT = b"This is a text and no program, though it has more than the 52 bytes of a header.\n"
scene(
    "bad files are refused by name",
    done("new s"),
    write("f", b""),
    refused("record s f", b"rrv: guest 0: elf refusal 1\n"),
    write("f", A_TEXT),
    refused("record s f", b"rrv: guest 0: elf refusal 2\n"),
    write("f", FIVE.file[:51]),
    refused("record s f", b"rrv: guest 0: elf refusal 1\n"),
    write("f", FIVE.file[:83]),
    refused("record s f", b"rrv: guest 0: elf refusal 8\n"),
    write("f", FIVE.file[:95]),
    refused("record s f", b"rrv: guest 0: elf refusal 10\n"),
    write("f", COMPRESSED),
    refused("record s f", b"rrv: guest 0: elf refusal 7\n"),
    refused("record s missing", CANNOT_READ),
    refused("record s .", CANNOT_READ),
    done("list s"),
)
scene(
    "faults of a recording come in their order",
    write("E", FIVE.file),
    write("bad", COMPRESSED),
    ends("record --quantum 1 --seed 0 missing missing", 2),
    refused("record --seed 0 --input missing missing missing", b"rrv: bad seed\n"),
    refused("record --seed 0000000000000000000000000000000g missing E", b"rrv: bad seed\n"),
    refused("record --input missing missing missing", CANNOT_READ),
    refused("record missing bad", b"rrv: guest 0: elf refusal 7\n"),
    refused("record missing E", CANNOT_OPEN),
    done("new s"),
    refused("record --input missing s bad", CANNOT_READ),
    refused("record --input . s bad", CANNOT_READ),
    refused("record s E bad missing", b"rrv: guest 1: elf refusal 7\n"),
    refused("record s E missing bad", CANNOT_READ),
    refused("record s bad E bad", b"rrv: guest 0: elf refusal 7\n"),
    holds("s", EMPTY),
)
recorded(
    "faults of a replay come in their order",
    FIVE,
    *(refused(it, NO_GUEST) for it in ("back s 7 9 9", "last s 1 9 0", "replay --at 9 s 1", "ask s 1")),
    *(refused(it, CANNOT_OPEN) for it in ("back missing 7 9 9", "ask missing 7")),
    refused("back s 0 9 99", PAST_END),
)

# Records that are made by hand

UNMAPPED = [Page(it, NOT_MAPPED, {}) for it in range(3)]
BY_HAND = Opening(FIVE.file, b"g0", bytes(16))
TWO_RANGES = [(0x12000, bytes(16)), (0x12000, bytes(4))]
OF_0: list[Item] = [
    *(BY_HAND, Preempt(1, 1), Call(3, 9, 0xFFFFFFEA, TWO_RANGES), Preempt(1, 1), Part(UNMAPPED, None)),
    *(Part(UNMAPPED, Rest(0x11000, 2, [], [])), Preempt(1, 1), Preempt(1, 64)),
]
MADE = [*records_of(0, OF_0), *records_of(1, [BY_HAND, Fault(1, 1, 2)])]
scene(
    "dump prints the lines of records",
    write("s", store_of(bodies_of(MADE))),
    done(
        "dump s 0",
        b"0 opening name=g0 elf=96\n1 preempt tid=1 count=1\n2 call tid=3 count=9 result=ffffffea written=20\n"
        b"3 preempt tid=1 count=1\n4 part pages=3 last=no\n5 part pages=3 last=yes\n"
        b"6 preempt tid=1 count=1\n7 preempt tid=1 count=64\n",
    ),
    done("dump s 1", b"0 opening name=g0 elf=96\n1 fault tid=1 count=1 kind=2\n"),
)

# Stores that have the Mark, and guests that wait for a time

# It waits for 5 milliseconds at a word that nobody wakes, and exits with the low byte of what the call returned:
# ETIMEDOUT, or ENOSYS if the wait is refused.
TIMED = executable(guests.ONE_WAIT)
TIMED_REPORT, UNTIMED_REPORT = b"g0: end exited 146, records 4\n", b"g0: end exited 218, records 3\n"
TIMED_VERIFIED = b"ok records=4 instructions=12 end exited 146\n"
UNTIMED_VERIFIED = b"ok records=3 instructions=12 end exited 218\n"
TIMED_DUMPED = b"""\
0 opening name=g0 elf=132
1 call tid=1 count=10 result=00000000 written=0
2 expire tid=1 result=ffffff92
3 call tid=1 count=2 result=00000000 written=0
"""
UNTIMED_DUMPED = b"""\
0 opening name=g0 elf=132
1 call tid=1 count=10 result=ffffffda written=0
2 call tid=1 count=2 result=00000000 written=0
"""
UNTIMED_LINE = b"1 g0 records=3 frames=2 instructions=12\n"
TIMED_ITEMS = [OpeningTwo(TIMED, b"g0", bytes(16)), Call(1, 10, 0, []), Expire(1), Call(1, 2, 0, [])]
# The program that exits with 5 as guest 0, and the Mark after it: 41 bytes of a segment and the 17 of the Mark.
FIVE_BODIES = bodies_of(records_of(0, FIVE_ITEMS))
FIVE_MARKED = store_of([*FIVE_BODIES, MARK])
assert len(FIVE_MARKED) == len(five_in(0)) + MARK_ADDS == len(five_in(0)) + 41 + 17


def timed_line(guest: int) -> bytes:
    return b"%d g0 records=4 frames=3 instructions=12\n" % guest


def timed_bodies(guest: int) -> list[bytes]:
    """The bodies of that guest as one of version 2."""
    return bodies_of(records_of(guest, TIMED_ITEMS))


scene(
    "guests wait for a time once their store is marked",
    write("s", five_in(0)),
    write("timed", TIMED),
    write("f", FIVE.file),
    done("record s timed", b"", UNTIMED_REPORT),
    done("record --upgrade s timed", b"", TIMED_REPORT),
    holds_once("s", MARK),
    done("record s timed", b"", TIMED_REPORT),
    done("record s timed --upgrade", b"", TIMED_REPORT),
    holds_once("s", MARK),
    begins("s", five_in(0)[:-1]),
    done("record s f", FIVE.out, FIVE.report),
    done("list s", five_line(0) + UNTIMED_LINE + b"".join(map(timed_line, (2, 3, 4))) + five_line(5)),
    *(done(f"verify s {it}", FIVE_VERIFIED) for it in (0, 5)),
    *(done(f"dump s {it}", FIVE_DUMPED) for it in (0, 5)),
    done("verify s 1", UNTIMED_VERIFIED),
    done("dump s 1", UNTIMED_DUMPED),
    *(done(f"verify s {it}", TIMED_VERIFIED) for it in (2, 3, 4)),
    *(done(f"dump s {it}", TIMED_DUMPED) for it in (2, 3, 4)),
    done("choices s 2", b"1 64\n1 64\n"),
)
in_store(
    "a checkpoint has what a wait waits for, and a wait without a timeout is stuck",
    {"timed": TIMED, "without": executable(guests.WITHOUT_TIMEOUT)},
    done("record --upgrade --every 8 s timed", b"", b"g0: end exited 146, records 5\n"),
    done(
        "dump s 0",
        b"0 opening name=g0 elf=132\n1 call tid=1 count=10 result=00000000 written=0\n2 part pages=1 last=yes\n"
        b"3 expire tid=1 result=ffffff92\n4 call tid=1 count=2 result=00000000 written=0\n",
    ),
    done("verify s 0", b"ok records=5 instructions=12 end exited 146\n"),
    # It waits at 7FFFFF80 for no second and 5,000,000 nanoseconds, and has no clear address.
    holds_once("s", bytes.fromhex("02 80ffff7f 0000000000000000 404b4c00 00000000")),
    done("record s without", b"", b"g0: end stuck, records 3\nthread 1 waits at 7fffff80\n"),
    done("verify s 1", b"ok records=3 instructions=10 end stuck\n"),
)
scene(
    "a store is opened, and marked, once all other files are read",
    write("s", five_in(0)),
    write("f", FIVE.file),
    refused("record --upgrade s nothere", CANNOT_READ),
    refused("record s nothere --upgrade", CANNOT_READ),
    holds("s", five_in(0)),
    done("record s f --upgrade", FIVE.out, FIVE.report),
    begins("s", FIVE_MARKED[:-1]),
    holds_once("s", MARK),
    *(done(f"dump s {it}", FIVE_DUMPED) for it in (0, 1)),
    *(done(f"verify s {it}", FIVE_VERIFIED) for it in (0, 1)),
    write("t", EMPTY),
    write("bad", COMPRESSED),
    refused("record --upgrade --seed 0 t nothere", b"rrv: bad seed\n"),
    ends("record --upgrade --quantum 1 t nothere", 2),
    refused("record --upgrade missing nothere", CANNOT_READ),
    refused("record --upgrade missing f", CANNOT_OPEN),
    refused("record bad nothere --upgrade", CANNOT_READ),
    refused("record bad f --upgrade", NOT_A_STORE),
    refused("record --upgrade t bad", b"rrv: guest 0: elf refusal 7\n"),
    refused("record --upgrade --input nothere t bad", CANNOT_READ),
    holds("t", EMPTY),
    done("record --upgrade --then none t f", b"", b"g0: end none, records 1\n"),
    begins("t", store_of([MARK])[:-1]),
    write("u", EMPTY),
    lock("u"),
    refused("record --upgrade u nothere", CANNOT_READ),
    refused("record --upgrade u f", CANNOT_OPEN),
    holds("u", EMPTY),
)
scene(
    "a Mark after a torn gate is none",
    write("s", TORN),
    write("f", FIVE.file),
    refused("record --upgrade s nothere", CANNOT_READ),
    holds("s", TORN),
    done("record --upgrade s f", FIVE.out, FIVE.report),
    begins("s", FIVE_MARKED[:-1]),
    write("s", five_in(0)[:-1] + b"\x37" + segment(len(FIVE_BODIES), MARK)),
    write("timed", TIMED),
    done("list s", five_line(0)),
    holds("s", five_in(0)),
    done("record s timed", b"", UNTIMED_REPORT),
    done("record --upgrade s timed", b"", TIMED_REPORT),
    done("list s", five_line(0) + UNTIMED_LINE + timed_line(2)),
)
scene(
    "a guest that may wait for a time is copied to marked stores alone",
    write("s", store_of([*FIVE_BODIES, MARK, *timed_bodies(1)])),
    write("t", five_in(0)),
    done("verify s 1", TIMED_VERIFIED),
    refused("copy s 1 t", NEEDS_MARK),
    holds("t", five_in(0)),
    write("t", FIVE_MARKED),
    done("copy s 1 t", timed_line(1)),
    holds("t", store_of([*FIVE_BODIES, MARK, *timed_bodies(1)])),
    done("verify t 1", TIMED_VERIFIED),
    done("dump t 1", TIMED_DUMPED),
    # A guest of version 1 is copied from a marked store to any.
    write("u", EMPTY),
    done("copy s 0 u", five_line(0)),
    holds("u", five_in(0)),
    refused("copy s 1 u", NEEDS_MARK),
    holds("u", five_in(0)),
)


@rows(SCENES, "play")
class Scenes(Case):
    """Each scene begins in an empty folder."""

    seconds = 4

    def play(self, steps: Sequence[Step]) -> None:
        """Takes the steps of a scene."""
        play(self, steps)
