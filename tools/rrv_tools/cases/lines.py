"""Lines of the program, run one after another over a few stores: what they print, and how they end.

Expected values: the words of the line, the instructions of its guests, and docs/FORMATS.md; of headers the System V
ABI; of the guests of tools/guests the files beside them, which qemu-riscv32 or a restatement in Python gave.
"""
import hashlib
import os
import re
import shlex
import struct
import subprocess
from collections.abc import Iterable, Sequence

from rrv_tools import elf, known
from rrv_tools.guests import EXIT_FIVE, RECORDED, WAITS, path_of
from rrv_tools.lines import (
    FILES, NO_PROGRAMS, READS, WRITES, Line, Lines, bad, done, in_order, missing, refused, ungiven, write_files,
)  # fmt: skip
from rrv_tools.program import ROOT, Limits
from rrv_tools.testing import rows

# ---- what is wanted

PRIMES = FILES["primes.elf"]
PRIMES_OUT, PRIMES_RECORDS = path_of("primes", "out").read_bytes(), path_of("primes", "records").read_text("utf-8")
RECORD_FIVE = ("new s", "record s exit_five")
FIVE_AND_PRIMES = (*RECORD_FIVE, "record s primes.elf")
ENDED_FIVE, ENDED_PRIMES = known.FIVE.report.decode(), "g0: end exited 7, records 10\nexit at 123952 thread 1\n"
RECORDED_FIVE, RECORDED_NONE = "records=2 frames=1 instructions=3", "records=1 frames=0 instructions=0"
RECORDED_PRIMES = "records=10 frames=9 instructions=123952"
FIVE_DUMPED, FIVE_VERIFIED = known.FIVE_DUMPED.decode(), known.FIVE_VERIFIED.decode()
NONE_VERIFIED = "ok records=1 instructions=0 end none\n"
STUCK_DUMPED = "0 opening name=g0 elf=104\n1 call tid=1 count=5 result=00000000 written=0\n2 stuck\n"
STUCK_VERIFIED = "ok records=3 instructions=5 end stuck\n"
WAITS_THERE = "thread 1 waits at 00010000\n"
STUCK = f"g0: end stuck, records 3\n{WAITS_THERE}"
UNFIT = "g{}: choice 0 doesn't fit: thread 2 does not run\n"
NO_GUEST, NOT_A_STORE, CANNOT_READ = "no such guest", "not a store", "cannot read file"
PAST_END, NO_CORE, CANNOT_OPEN = "past the end", "cannot make core file", "cannot open store"
ANY_NUMBER = "not a number from 0 to 18446744073709551615"
NO_PLACE = "not a place: a number of instructions, or end"
NO_MEMORY = "not ADDR:LEN, with 1 to 8 hexadecimal digits and a length from 1 to 65536"
NO_ADDRESS, NO_QUANTUM = "not 1 to 8 hexadecimal digits", "not a number from 64 to 1048576"
NO_TIMES = "not a number from 1 to 65536"
NO_WORD = "not the address of four bytes: 1 to 8 hexadecimal digits, up to fffffffc"
BELOW_ZERO = "unexpected argument '-{}' found: no number is below 0"


def invalid(value: str, name: str, why: str) -> str:
    """What is printed of a value that can't be read."""
    return f"invalid value '{value}' for '{name}': {why}"


def state_of_five(place: int) -> str:
    """The lines of the state of the program that exits with five, at a place: what the calling convention of Linux
    puts on a stack, and two additions."""
    words = [1, 0x7FFFFFED, 0, 0, 3, 0x10034, 4, 32, 5, 1, 6, 4096, 9, 0x10054, 25, 0x7FFFFFF0, 0, 0]
    random = hashlib.sha256(bytes(16) + struct.pack("<II", 0, 0xFFFFFFFF)).digest()[:16]
    stack = bytes(0xFFFA0) + struct.pack("<18I", *words) + bytes(5) + b"g0\0" + random
    pages = [(0x10, 5, EXIT_FIVE.ljust(4096, b"\0"))]
    pages += [(0x7FF00 + it, 6, stack[it << 12: it + 1 << 12]) for it in range(256)]
    digest = hashlib.sha256(b"".join(struct.pack("<IB", number, flags) + data for number, flags, data in pages))
    lines = [f"at {place} of 3", f"end {'none' if place < 3 else 'exited 5'}", "break 00011000", "reservation none",
             *thread_of_five(place), f"pages 257 digest {digest.hexdigest()}"]
    return "".join(f"{it}\n" for it in lines)


def thread_of_five(place: int) -> list[str]:
    """The lines of its thread, up to its end."""
    registers = {2: 0x7FFFFFA0, 10: 5 if place > 0 else 0, 17: 93 if place > 1 else 0}
    table = [" ".join(f"x{it} {registers.get(it, 0):08x}" for it in range(row, row + 4)) for row in range(0, 32, 4)]
    head = f"thread 1 running pc {0x10054 + 4 * place:08x} clear 00000000"
    return [head, *(f"  {it}" for it in table)] if place < 3 else []


def text_of_thread(place: int) -> str:
    """The same as a text."""
    return "".join(f"{it}\n" for it in thread_of_five(place))


# Its file as `hexdump -C` prints it, from 10000 on.
FIVE_IN_MEMORY = """\
00010000  7f 45 4c 46 01 01 01 00  00 00 00 00 00 00 00 00  |.ELF............|
00010010  02 00 f3 00 01 00 00 00  54 00 01 00 34 00 00 00  |........T...4...|
00010020  00 00 00 00 00 00 00 00  34 00 20 00 01 00 00 00  |........4. .....|
00010030  00 00 00 00 01 00 00 00  00 00 00 00 00 00 01 00  |................|
00010040  00 00 01 00 60 00 00 00  60 00 00 00 05 00 00 00  |....`...`.......|
00010050  04 00 00 00 13 05 50 00  93 08 d0 05 73 00 00 00  |......P.....s...|
"""
# The end of its page, the end of its stack with its name, the end of all addresses, and its call.
MIXED = "--memory 10ff8:16 --memory 0x7FFFFFED:3 --memory ffffffff:+1 --memory 0x0001005C:1"
MIXED_IN_MEMORY = """\
00010ff8  00 00 00 00 00 00 00 00  -- -- -- -- -- -- -- --  |................|
7fffffed  67 30 00                                          |g0.|
ffffffff  --                                                |.|
0001005c  73                                                |s|
"""


def program_line(data: bytes) -> str:
    """What `check` prints of a program: its entry, the pages of its segments and of a stack of a megabyte, and the end
    of its data, rounded up."""
    loads = [(it.address, it.address + it.memory_size) for it in elf.loads(data)]
    pages = {page for start, end in loads for page in range(start >> 12, (end + 4095) >> 12)}
    data_end = max(end for _, end in loads) + 4095 & ~4095
    return f"ok entry={elf.header(data).entry:08x} pages={len(pages) + 256} break={data_end:08x}\n"


def long_line(records: str, file: bytes, place: int, read: int = 0) -> str:
    """The long line of a guest with these printed records, the last of which is its end, of this program, which read
    this many bytes."""
    *dumped, verified = records.splitlines()
    count, ended = re.findall(r"ok records=(\d+) (instructions=\d+ end .+)", verified)[0]
    tids, turns = ([int(it) for it in re.findall(rf"{words}=(\d+)", "\n".join(dumped))]
                   for words in (" tid", r"preempt tid=\d+ count"))
    frames = sum(not re.match(r"\d+ (opening|part) ", it) for it in dumped)
    ran, _, end = ended.partition(" end ")
    summed = f"threads={max(tids, default=1)} turns={max(turns, default=0)} input={read}"
    text = f"{place} g0 records={count} frames={frames} {ran} end={end.replace(' ', ':')} {summed}"
    return f"{text} elf={len(file)}:{hashlib.sha256(file).hexdigest()[:8]}\n"


def choices_in(records: str) -> str:
    """The choices that are printed of these records: a line for each call or fault, and for each preempt."""
    frames = re.findall(r"^\d+ (?:call|fault|preempt) tid=(\d+) count=(\d+)", records, re.M)
    return "".join(f"{tid} {max(int(count), 64)}\n" for tid, count in frames)


# The bytes that it sets, each with the place of the instruction and the first address. The call maps the page at 11000,
# of zeros.
WRITTEN = [(2, 0x10000, "23010000"), (3, 0x10001, "23"), (4, 0x10000, "23010000"), (5, 0x10000, "23010000"),
           (6, 0x10003, "23"), (9, 0x11000, "00" * 4096)]


def changes_of(address: int, count: int, end: int) -> list[str]:
    """The lines of the changes of some bytes of the memory of WRITES before a place, the last first."""
    memory = dict(enumerate(WRITES.ljust(4096, b"\0"), 0x10000))

    def value() -> str:
        places = reversed(range(address, address + count))
        return "".join(f"{memory[it]:02x}" if it in memory else "--" for it in places)

    lines = []
    for place, start, data in WRITTEN:
        before = value()
        memory.update(enumerate(bytes.fromhex(data), start))
        if place < end and value() != before:
            lines.append(f"at={place} tid=1 pc={0x10054 + 4 * place:08x} old={before} new={value()}\n")
    return lines[::-1]


def changes(address: int, count: int, end: int, times: int, *options: str) -> Line:
    """The line that prints these, this many at most."""
    words = ["last --short", *(["--word"] if count == 4 else []), *options, f"changes 0 {end} {address:x}"]
    return done(" ".join(words), "".join(changes_of(address, count, end)[:times]) or "unchanged\n")


def all_asked(questions: Sequence[tuple[str, str]], words: str = "ask s 0") -> Line:
    """Questions with their answers."""
    answers = "".join(f"{answer}.\n" for _, answer in questions)
    return done(words, answers, stdin="\n".join(line for line, _ in questions).encode())


def moved_to(place: int) -> str:
    """The line of a place of WRITES, whose instructions run one after the other."""
    address = 0x54 + 4 * place
    word = int.from_bytes(WRITES[address: address + 4], "little")
    return f"at {place} of 13 thread 1 pc {0x10000 + address:08x} word {word:08x}\n"


def passed(address: int) -> Line:
    """The line that goes through the changes of a byte of WRITES by quiet moves, from the end back to the first of them
    and on to the last."""
    places = [int(it.split()[0].removeprefix("at=")) for it in changes_of(address, 1, 13)]
    back = [(f"last {address:x}", moved_to(it)) for it in places]
    on = [(f"next {address:x}", moved_to(it)) for it in places[-2::-1]]
    none = [(f"{it} {address:x}", "unchanged\n") for it in ("last", "next")]
    return all_asked([("at end", "at 13 of 13\n"), *back, none[0], *on, none[1]], "ask --short changes 0")


# ---- the lines


@in_order(
    done("", f"{FIVE_DUMPED}{FIVE_VERIFIED}"),
    done("new s"),
    done("list s"),
    done("record s exit_five", "", ENDED_FIVE),
    done("record s primes.elf", PRIMES_OUT, ENDED_PRIMES),
    done("list s", f"0 g0 {RECORDED_FIVE}\n1 g0 {RECORDED_PRIMES}\n"),
    done("replay s 1", PRIMES_OUT),
    done("verify s 0", FIVE_VERIFIED),
    refused("verify s 7", NO_GUEST),
    done("last s 0 3 7FFFFF90", "unchanged\n"),
    refused("new s", CANNOT_OPEN),
    refused("record s /missing", CANNOT_READ),
    refused("record s five", "guest 0: elf refusal 1"),
    refused("record s script", "guest 0: elf refusal 2"),
    refused("list exit_five", NOT_A_STORE),
    refused("list /", CANNOT_OPEN),
    bad("list one two", "unexpected argument 'two' found"),
    bad("try", "unrecognized subcommand 'try'"),
    bad("verify s g0", invalid("g0", "GUEST", ANY_NUMBER)),
    bad("record --quantum 63 s exit_five", invalid("63", "quantum", NO_QUANTUM)),
    ungiven("replay s 0 --at", "--at <T>"),
    Line("list \udcff", 2, "", "rrv: cannot read the command line: invalid data\n"),
)
class First(Lines):
    """Each command once."""

    def test_version(self) -> None:
        """It is the one that stands first in the changelog, with the start of the text's sum."""
        version = re.findall(r"(?m)^## \[?(\d+\.\d+\.\d+)", (ROOT / "CHANGELOG.md").read_text(encoding="utf-8"))[0]
        text_sum = subprocess.run([ROOT / "tools" / "text_sum"], capture_output=True, text=True, check=True).stdout
        self.need_line("--version", out=f"rrv {version} ({text_sum[:12]})\n")


@in_order(
    done("replay --at end s 0", state_of_five(3)),
    done("replay --at +1 s 0", state_of_five(1)),
    done("replay --at 0 --memory 10000:96 s 0", state_of_five(0) + FIVE_IN_MEMORY),
    done(f"back {MIXED} s 0 end 1", state_of_five(2) + MIXED_IN_MEMORY),
    done("back s 0 end 0", state_of_five(3)),
    refused("back s 0 end 4", "before the start"),
    refused("replay --at 4 --memory 0:1 s 0", PAST_END),
    done("last --memory 0:1 s 0 end 0x7FFFFF90", "unchanged\n"),
    bad("replay --at End s 0", invalid("End", "at", NO_PLACE)),
    bad("back s 0 18446744073709551616 1", invalid("18446744073709551616", "FROM", NO_PLACE)),
    bad("last s 0 end 0x", invalid("0x", "ADDR", NO_ADDRESS)),
    bad("last s 0 end 0x123456789", invalid("0x123456789", "ADDR", NO_ADDRESS)),
    bad("replay --memory 0:1 s 0", "--memory needs --at"),
    ungiven("replay --at 0 s 0 --memory", "--memory <ADDR:LEN>"),
    *(bad(f"back --memory {it} s 0 3 1", invalid(it, "memory", NO_MEMORY))
      for it in ("0", "x:1", "123456789:1", "0:0", "0:65537", "0:1:1")),
)
class Places(Lines):
    """Places and memory."""

    before = RECORD_FIVE


# An EBREAK (RISC-V Unprivileged ISA, 2.8) is the word 00100073.
THREE_ENDS = re.compile(
    re.escape(f"{STUCK}g1: end exited 5, records 2\ng2: end faulted 2, records 3\n")
    + r"fault breakpoint at 140 thread 1 pc [0-9a-f]{8} word 00100073\n"
)


@in_order(
    done("choices s 0", "1 64\n"),
    done("choices s 1", choices_in(PRIMES_RECORDS)),
    refused("choices s 2", NO_GUEST),
    done("record --choices turns --then none s exit_five", "", ENDED_FIVE),
    done("record --choices - s exit_five", "", ENDED_FIVE),
    done("record --choices - --then none s exit_five", "", "g0: end none, records 1\n"),
    done("record --then none s exit_five", "", "g0: end none, records 1\n"),
    done("record --choices unfit --then turns s exit_five", "", f"{ENDED_FIVE}{UNFIT.format(0)}"),
    done("record --choices unfit --then none s exit_five", "", f"g0: end none, records 1\n{UNFIT.format(0)}"),
    done("record --choices turns --choices unfit s exit_five exit_five", "",
         f"{ENDED_FIVE}g1: end exited 5, records 2\n{UNFIT.format(1)}"),
    done("record --choices unfit s exit_five exit_five", "",
         f"{ENDED_FIVE}g1: end exited 5, records 2\n{UNFIT.format(0)}{UNFIT.format(1)}"),
    done("choices s 4"),
    done("verify s 4", NONE_VERIFIED),
    done("replay --at end s 4", state_of_five(0).replace("of 3", "of 0")),
    refused("record --choices small s /missing", "bad choices\nsmall:3"),
    refused("record --choices turns --choices signed s exit_five exit_five", "bad choices\nsigned:1"),
    refused("record --choices ./more s exit_five", "bad choices\n./more:1"),
    refused("record --choices /missing s exit_five", CANNOT_READ),
    refused("record --input /missing --choices small s exit_five", CANNOT_READ),
    refused("record --seed 0 --choices small s exit_five", "bad seed"),
    refused("record --choices small exit_five exit_five", "bad choices\nsmall:3"),
    refused("record --choices turns exit_five exit_five", NOT_A_STORE),
    bad("record --then all s exit_five", invalid("all", "then", "not turns or none")),
    bad("record --choices turns --choices turns --choices turns s exit_five exit_five",
        "--choices is given 3 times for 2 programs: give it once, or once for each"),
    done("list s", "".join(f"{place} g0 {ran}\n" for place, ran in enumerate(
        [RECORDED_FIVE, RECORDED_PRIMES, *[RECORDED_FIVE] * 2, *[RECORDED_NONE] * 2, RECORDED_FIVE, RECORDED_NONE]))
        + "".join(f"{it} g{it % 2} {RECORDED_FIVE}\n" for it in range(8, 12))),
    done("new w"),
    done("record w waits", "", STUCK),
    done("choices w 0", "1 64\n"),
    done("record --choices turns --then none w waits", "", STUCK),
    done("dump w 1", STUCK_DUMPED),
    done("verify w 1", STUCK_VERIFIED),
    done("record w waits exit_five breakpoint.elf", path_of("breakpoint", "out").read_bytes(), THREE_ENDS),
)
class Choices(Lines):
    """Choices in and out."""

    before = FIVE_AND_PRIMES


FIVE_EVENTS = """\
[
{"name":"process_name","ph":"M","pid":0,"args":{"name":"g0"}},
{"name":"exit","ph":"X","ts":0,"dur":3,"pid":0,"tid":1,"args":{"record":1,"result":"00000000","written":0,"pc":null}}
]
"""
STUCK_EVENTS = """\
[
{"name":"process_name","ph":"M","pid":1,"args":{"name":"g0"}},
{"name":"futex","ph":"X","ts":0,"dur":5,"pid":1,"tid":1,\
"args":{"record":1,"result":"00000000","written":0,"pc":"00010068"}},
{"name":"stuck","ph":"i","ts":5,"pid":1,"tid":0,"s":"p","args":{"record":2}}
]
"""


@in_order(
    done("dump --places s 0", FIVE_DUMPED.replace("written=0", "written=0 from=0 to=3 pc=none")),
    done("dump --trace-events s 0", FIVE_EVENTS),
    done("dump w 1 --places", STUCK_DUMPED.replace("written=0", "written=0 from=0 to=5 pc=00010068")
         .replace("2 stuck", "2 stuck from=5 to=5")),
    done("dump w 1 --trace-events", STUCK_EVENTS),
    done("dump --places s 1", "0 opening name=g0 elf=96\n"),
    refused("dump --places s 2", NO_GUEST),
    bad("dump --places --trace-events s 0", "--places cannot be used with --trace-events"),
    done("verify --long s 0", f"{FIVE_VERIFIED}exit at 3 thread 1\n"),
    done("verify --long s 1", NONE_VERIFIED),
    done("verify --long w 1", f"{STUCK_VERIFIED}{WAITS_THERE}"),
)
class Events(Lines):
    """Places of records, trace events and ends."""

    before = (*RECORD_FIVE, "record --then none s exit_five", "new w", "record w waits", "record w waits")


@in_order(
    done("core s 0 2 core.2"),
    done("core s 0 end core.end"),
    refused("core s 0 2 core.2", NO_CORE),
    refused("core s 0 2 missing/core", NO_CORE),
    refused("core s 0 4 core.4", PAST_END),
    refused("core s 12 0 core.4", NO_GUEST),
    bad("core s 0 now core.4", invalid("now", "AT", NO_PLACE)),
    missing("core s 0 end", "FILE", "core <STORE> <GUEST> <AT> <FILE>"),
)
class Cores(Lines):
    """Core files."""

    before = RECORD_FIVE

    def test_none_is_left_that_is_refused(self) -> None:
        """Those that were written are there, and no other."""
        self.run_until(len(self.lines))
        self.need("core files", {"core.2", "core.end"}, {it for it in os.listdir() if it.startswith("core.")})

    def test_one_that_may_not_be_so_long(self) -> None:
        """No file may have more than a page: the write past it is refused, and none is left."""
        ran = self.run_line("core", "s", 0, 0, "core.limited", limits=Limits(file_length=4096))
        self.need("its end", (1, b"", b"rrv: cannot write core file\n"), tuple(ran))
        self.need("whether the file is there", False, os.path.exists("core.limited"))


@in_order(
    *(refused(f"check {name}", f"{name}: {why}") for name, (_, why) in NO_PROGRAMS.items()),
    done("check exit_five", program_line(EXIT_FIVE)),
    done("check primes.elf", program_line(PRIMES)),
    refused("check missing", "missing: not found"),
    refused("check /", "/: is a folder"),
    missing("check", "ELF", "check <ELF>"),
)
class Checks(Lines):
    """Programs that are checked."""


@in_order(
    done("elf s 0", EXIT_FIVE),
    done("elf s 1", PRIMES),
    done("elf w 0", WAITS),
    refused("elf s 99", NO_GUEST),
    refused("elf exit_five 0", NOT_A_STORE),
    bad("elf s a.elf", invalid("a.elf", "GUEST", ANY_NUMBER)),
    done("new copies"),
    done("copy s 1 copies", f"0 g0 {RECORDED_PRIMES}\n"),
    done("copy w 0 copies", "1 g0 records=3 frames=2 instructions=5\n"),
    done("replay copies 0", PRIMES_OUT),
    done("elf copies 0", PRIMES),
    done("verify --long copies 1", f"{STUCK_VERIFIED}{WAITS_THERE}"),
    done("record copies exit_five", "", ENDED_FIVE),
    done("copy copies 2 w", f"1 g0 {RECORDED_FIVE}\n"),
    refused("copy s 99 copies", NO_GUEST),
    refused("copy s 0 s", "same store"),
    refused("copy s 0 missing", CANNOT_OPEN),
    refused("copy s 0 exit_five", NOT_A_STORE),
    refused("copy exit_five 0 copies", NOT_A_STORE),
    bad("copy s x copies", invalid("x", "GUEST", ANY_NUMBER)),
    missing("copy s 0", "TO", "copy <STORE> <GUEST> <TO>"),
)
class Copies(Lines):
    """The programs of guests, and copies to another store. cases.scenes has what they leave in it."""

    before = (*FIVE_AND_PRIMES, "new w", "record w waits")


READ_DUMPED = """\
0 opening name=g0 elf=108
1 call tid=1 count=4 result=00000005 written=5
2 call tid=1 count=2 result=00000000 written=0
"""


@in_order(
    done("new long"),
    done("list --long long"),
    done("record --input five long reads", "", "g0: end exited 5, records 3\n"),
    done("record long reads", "", "g0: end exited 0, records 3\n"),
    done("record long waits", "", STUCK),
    done("record --then none long exit_five", "", "g0: end none, records 1\n"),
    done("record long primes.elf", PRIMES_OUT, ENDED_PRIMES),
    done("list long --long",
         long_line(f"{READ_DUMPED}ok records=3 instructions=6 end exited 5\n", READS, 0, read=5)
         + long_line(f"{READ_DUMPED}ok records=3 instructions=6 end exited 0\n", READS, 1)
         + long_line(f"{STUCK_DUMPED}{STUCK_VERIFIED}", WAITS, 2)
         + long_line(f"0 opening name=g0 elf=96\n{NONE_VERIFIED}", EXIT_FIVE, 3)
         + long_line(PRIMES_RECORDS, PRIMES, 4)),
    refused("list --long exit_five", NOT_A_STORE),
)
class LongList(Lines):
    """The long list."""


LONGEST, ALMOST = "~" * 32, "!" * 30
# Options, and the names that they give to as many guests.
NAMED = (
    ("--name race", ["race"]),
    (f"--name {LONGEST}", [LONGEST]),
    ("--name race", ["race0", "race1"]),
    (f"--name {ALMOST}", [f"{ALMOST}{it}" for it in range(11)]),
    ("--name left --name right", ["left", "right"]),
    ("--name same --name=same", ["same", "same"]),
)


def unnamed(name: str, guests: int = 1, words: str = "--name {}", longest: int = 32) -> Line:
    """A line with a name that no guest can have."""
    line = f"record {words.format(shlex.quote(name))} named{' exit_five' * guests}"
    return bad(line, invalid(name, "name", f"not 1 to {longest} characters from ! to ~"))


def ended_five(names: Iterable[str]) -> str:
    """The report of guests of these names."""
    return "".join(f"{it}: end exited 5, records 2\n" for it in names)


@in_order(
    done("new named"),
    *(done(f"record {words} named{' exit_five' * len(names)}", "", ended_five(names)) for words, names in NAMED),
    done("list named", "".join(f"{place} {name} {RECORDED_FIVE}\n" for place, name in enumerate(
        name for _, names in NAMED for name in names))),
    done("dump named 1", FIVE_DUMPED.replace("g0", LONGEST)),
    done("record --choices unfit --name a --name b named exit_five exit_five", "",
         ended_five("ab") + "".join(UNFIT.replace("g{}", it) for it in "ab")),
    unnamed(""),
    unnamed("a b"),
    unnamed(f"{LONGEST}~"),
    unnamed(f"{ALMOST}!", 2, longest=30),
    unnamed("\u00e9", 2, "--name a --name {}"),
    bad("record --name a --name a named exit_five exit_five exit_five",
        "--name is given 2 times for 3 programs: give it once, or once for each"),
)
class Names(Lines):
    """Names of guests."""


def limited(place: int, limit: int, quantum: int, ran: int) -> list[Line]:
    """The lines of a guest whose instructions are limited, by slices of a quantum, 64 at the least."""
    records = -(-ran // quantum) + 1
    report = f"g0: end none, records {records}\n"
    return [done(f"record --limit {limit} --quantum {quantum} limited spins", "", report),
            done(f"verify limited {place}", f"ok records={records} instructions={ran} end none\n")]


# Within so many seconds a recording of few instructions has to end.
SOON = 10
# The limit, the quantum, and how many instructions are run.
LIMITS = ((1_000_000, 50_000, 1_000_000), (1_000_001, 50_000, 1_000_064), (100, 1000, 100), (99, 98, 162), (64, 64, 64),
          (65, 64, 128), (1, 64, 64))


@in_order(
    done("new limited"),
    *(line for place, it in enumerate(LIMITS) for line in limited(place, *it)),
    done("record --limit 0 limited spins", "", "g0: end none, records 1\n"),
    done("record --limit 3 limited exit_five", "", ENDED_FIVE),
    done("record --limit 1000 limited spins exit_five", "", "g0: end none, records 2\ng1: end exited 5, records 2\n"),
    done("record --limit 1000 limited exit_five spins", "", "g0: end exited 5, records 2\ng1: end none, records 2\n"),
    bad("record --limit 1e6 limited spins", invalid("1e6", "limit", ANY_NUMBER)),
    done("record --fail limited reads", "", "g0: end exited 0, records 3\n"),
    Line("record --fail limited exit_five", 3, "", ENDED_FIVE),
    Line("record --fail limited reads waits", 3, "", STUCK.replace("g0", "g0: end exited 0, records 3\ng1")),
    Line("record --fail --limit 0 limited reads", 3, "", "g0: end none, records 1\n"),
    done("record limited waits", "", STUCK),
    refused("record --fail limited /missing", CANNOT_READ),
)
class Limited(Lines):
    """Limits of instructions, and whether a guest failed."""

    def test_the_last_of_sixteen(self) -> None:
        """It ends at its limit beside fifteen that exit, and soon."""
        self.need_line("new", "sixteen")
        programs = [*15 * ["exit_five"], "spins"]
        ran = self.run_line("record", "--limit", 1000, "sixteen", *programs, timeout=SOON)
        report = f"{ended_five(f'g{it}' for it in range(15))}g15: end none, records 2\n"
        self.need("the recording", (0, b"", report.encode()), tuple(ran))


@in_order(
    *(changes(address, count, end, 1) for address in (0x10000, 0x10001, 0x10003, 0x10FFE, 0x20000)
      for count in (1, 4) for end in (13, 9, 6, 3, 2)),
    *(changes(0x10000, 4, 13, times, f"--times {times}") for times in (1, 2, 3, 4, 5, 65536)),
    *(changes(address, 1, 7, 9, "--times 9") for address in range(0xFFFE, 0x10005)),
    done("last --short --memory 10000:4 changes 0 end 10003", changes_of(0x10003, 1, 13)[0]
         + "00010000  23 01 00 00                                       |#...|\n"),
    done("last --word --times 2 s 0 end 7FFFFF90", "unchanged\n"),
    done("last --word s 0 end fffffffc", "unchanged\n"),
    done("last s 0 end ffffffff", "unchanged\n"),
    bad("last --word s 0 end fffffffd", invalid("fffffffd", "ADDR", NO_WORD)),
    *(bad(f"last --times {it} s 0 end 0", invalid(it, "times", NO_TIMES)) for it in ("0", "65537", "all")),
    refused("last --short s 0 4 0", PAST_END),
    *(passed(it) for it in (0x10000, 0x10001, 0x10003, 0x11000)),
)
class Changes(Lines):
    """Changes of bytes and words, one before the other."""

    before = (*RECORD_FIVE, "new changes", "record changes writes")

    def test_what_is_recorded(self) -> None:
        """The guest whose changes are looked at."""
        self.need_line("new", "again")
        self.need_line("record", "again", "writes", err="g0: end exited 0, records 3\n")


# The word of an ECALL (RISC-V Unprivileged ISA, 2.8), the last instruction of exit_five, is 00000073.
AT_CALL = "at 2 of 3 thread 1 pc 0001005c word 00000073\n"
ASKED = (
    ("at end", state_of_five(3)),
    ("back 1", state_of_five(2)),
    ("where", AT_CALL),
    ("threads", text_of_thread(2)),
    ("memory 10000:96", FIVE_IN_MEMORY),
    ("back 3", "rrv: before the start\n"),
    ("forward 2", "rrv: past the end\n"),
    ("last 7FFFFF90", "unchanged\n"),
    ("next 7FFFFF90", "unchanged\n"),
    ("core core.2", "rrv: cannot make core file\n"),
    ("core core.asked", ""),
    ("choices", "1 64\n"),
    ("at 0x1", f"rrv: {invalid('0x1', 'at', NO_PLACE)}\n"),
    *((it, f"rrv: a value is required for '{it}'\n") for it in ("at", "back", "forward", "last", "next", "memory")),
    ("go", "rrv: no question 'go': help lists them\n"),
    ("where ", AT_CALL),
    ("quit now", "rrv: unexpected value 'now' for 'quit'\n"),
    ("forward 1", state_of_five(3)),
    ("where", "at 3 of 3\n"),
    ("threads", ""),
    ("at +0", state_of_five(0)),
)
# After `quiet`, or with `--short`, moves print the line of `where`. The words are those of FIVE_IN_MEMORY.
MOVED = (
    ("at end", "at 3 of 3\n"),
    ("back 1", AT_CALL),
    ("back 3", "rrv: before the start\n"),
    ("where", AT_CALL),
    ("threads", text_of_thread(2)),
    ("back 1", "at 1 of 3 thread 1 pc 00010058 word 05d00893\n"),
    ("memory 10000:96", FIVE_IN_MEMORY),
    ("forward 3", "rrv: past the end\n"),
    ("last 7FFFFF90", "unchanged\n"),
    ("next 7FFFFF90", "unchanged\n"),
    ("core core.2", "rrv: cannot make core file\n"),
    ("choices", "1 64\n"),
    ("at 0", "at 0 of 3 thread 1 pc 00010054 word 00500513\n"),
)
QUIET = (
    ("at 1", state_of_five(1)), ("quiet", ""), *MOVED, ("quiet now", "rrv: unexpected value 'now' for 'quiet'\n"),
    ("quiet", ""), *MOVED, ("full 0", "rrv: unexpected value '0' for 'full'\n"), ("forward 2", AT_CALL),
    ("full", ""), ("forward 1", state_of_five(3)), ("full", ""), ("back 3", state_of_five(0)),
    ("quiet ", ""), ("at 2", AT_CALL),
)  # fmt: skip
SHORT = (*MOVED, ("full", ""), ("at 2", state_of_five(2)), ("quiet", ""), *MOVED)
NOTHING = MIXED_IN_MEMORY.splitlines(keepends=True)[2].replace("ffffffff", "00000000")
TOO_LONG, NO_QUESTION = "rrv: line is longer than 8192 bytes\n.\n", "rrv: no question '{}': help lists them\n.\n"


def asked(stdin: bytes, answers: str, guest: int = 0) -> Line:
    """Questions about a guest."""
    return done(f"ask s {guest}", answers, stdin=stdin)


# The last line of questions may have no newline, and what follows `quit` is not read.
@in_order(
    asked(b"", ""),
    refused("ask s 12", NO_GUEST),
    refused("ask exit_five 0", NOT_A_STORE),
    bad("ask s g0", invalid("g0", "GUEST", ANY_NUMBER)),
    missing("ask s", "GUEST", "ask <STORE> <GUEST>"),
    all_asked(ASKED),
    all_asked(QUIET),
    all_asked(SHORT, "ask --short s 0"),
    all_asked((("quiet", ""), ("at 0", "at 0 of 0\n")), "ask s 1"),
    asked(b"quit\nwhere\n", ".\n"),
    asked(b"x" * 1_000_000 + b"\nmemory 0x0:1\n", f"{TOO_LONG}{NOTHING}.\n"),
    asked(b"x" * 1_000_000, TOO_LONG),
    asked(b"x\n" * 300, NO_QUESTION.format("x") * 300),
    asked(b"x" * 200, NO_QUESTION.format("x" * 200)),
    asked(b"x" * 201, NO_QUESTION.format("x" * 200 + "..")),
    asked(b"x" * 8192 + b"\n", NO_QUESTION.format("x" * 200 + "..")),
    asked(b"x" * 8192, NO_QUESTION.format("x" * 200 + "..")),
    asked(b"x" * 8193, TOO_LONG),
    asked(b"\xff\n\nquit", f"rrv: line is not UTF-8\n.\n{NO_QUESTION.format('')}.\n"),
    asked(b"where\nthreads\nchoices\n", f"at 0 of 0\n.\n{text_of_thread(0)}.\n.\n", 1),
)
class Questions(Lines):
    """Questions, which cases.asks has more of."""

    before = (*RECORD_FIVE, "record --then none s exit_five", "core s 0 2 core.2")

    def test_core_is_left(self) -> None:
        """The core file that was asked for is there."""
        self.run_until(len(self.lines))
        self.need("core files", {"core.2", "core.asked"}, {it for it in os.listdir() if it.startswith("core.")})


@in_order(
    done("record --input - long reads", "", "g0: end exited 7, records 3\n", b"1234567"),
    done("record --input - long reads reads", "", "g0: end exited 9, records 3\ng1: end exited 9, records 3\n",
         b"123456789ab"),
    done("record --input - --choices - --then none long reads", "", "g0: end none, records 1\n", b"1 64\n"),
    done("record --choices - --then none long exit_five", "", ENDED_FIVE, b"1 64\n"),
    refused("record --input - long reads", CANNOT_READ, bytes(1_048_577)),
    refused("record --choices - long exit_five", "bad choices\n-:1", b"1 63\n"),
)
class Reading(Lines):
    """Lines that read standard input."""

    before = ("new long",)


@in_order(
    bad("help try", invalid("try", "COMMAND", "not a command")),
    bad("help list dump", "unexpected argument 'dump' found"),
    bad("record --quantum -5 s exit_five", BELOW_ZERO.format(5)),
    bad("record --quantum=-5 s exit_five", invalid("-5", "quantum", NO_QUANTUM)),
    bad("back s 0 -12 1", BELOW_ZERO.format(1)),
    bad("dump s -0", BELOW_ZERO.format(0)),
    bad("list -5", BELOW_ZERO.format(5)),
    bad("-5", BELOW_ZERO.format(5)),
    Line("list -x", 2, "", re.compile(r"error: unexpected argument '-x' found\n\n"
                                      r"  tip: to pass '-x' as a value, use '-- -x'\n\nUsage: .*\n(.*\n)*")),
)
@rows({f"help {it}".rstrip(): it for it in ("", *(
    "new record check list elf copy dump verify replay back last choices core ask help".split()))}, "need_same_help")
class Help(Lines):
    """Help, which is the same by the command and by its option; and numbers below 0."""

    def need_same_help(self, command: str) -> None:
        """Whether a command's help, or all of it, is the same both ways."""
        by_option = self.run_line(*command.split(), "--help")
        self.need("its end", (0, b""), (by_option.status, by_option.err))
        self.need_line("help", *command.split(), out=by_option.out)


# ---- the guests of tools/guests

def ending_of(last: str, verified: str) -> str:
    """What is printed of how a guest ended, after its report, as a pattern: its place and its thread. cases.turns
    compares all of it."""
    place = re.findall(r"instructions=(\d+)", verified)[0]
    kind, tid = re.findall(r"\d+ (\w+) tid=(\d+)", last)[0]
    fault = rf"fault [a-z ]+ at {place} thread {tid} pc .+\n"
    return fault if kind == "fault" else rf"(exit at {place} thread {tid}\n)?"


def lines_of(place: int, guest: str) -> list[Line]:
    """The lines that record a guest in a store of its own, and print all of it, with what its files have."""
    store, output = f"{guest}.{place}", path_of(guest, "out").read_bytes()
    records = path_of(guest, "records").read_text("utf-8")
    *dumped, verified = records.splitlines(keepends=True)
    count, end = re.findall(r"ok records=(\d+) instructions=\d+ (end .+)\n", verified)[0]
    report = re.compile(re.escape(f"g0: {end}, records {count}\n") + ending_of(dumped[-1], verified))
    return [
        done(f"new {store}"),
        done(f"record {store} {guest}.elf", output, report),
        done(f"replay {store} 0", output),
        done(f"dump {store} 0", "".join(dumped)),
        done(f"verify {store} 0", verified),
        done(f"list --long {store}", long_line(records, path_of(guest).read_bytes(), 0)),
    ]


@in_order(*(line for place, it in enumerate(RECORDED) for line in lines_of(place, it)))
class Recorded(Lines):
    """Guests of tools/guests, each in a store of its own."""

    seconds = 5

    @classmethod
    def setUpClass(cls) -> None:
        super().setUpClass()
        write_files({f"{it}.elf": path_of(it).read_bytes() for it in RECORDED})
