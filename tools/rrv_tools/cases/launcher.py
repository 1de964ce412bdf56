"""Which program ./rrv starts after each kind of change, when and how it builds, and what the release's tool refuses.

Expected values: what the made-up sources hold, the changes that were made to them, and docs/BUILDING.md.

Each case has a repository of its own with two crates, or with six, over a toolchain and a release that are made up. Its
`rt` writes down when it begins and ends. A library that it builds holds the crate's source and what the libraries below
hold. The program prints what its source and its libraries hold, its words and its input, and ends with status 7. So
what has to be printed after a change is what the sources are then. Each build waits until the sources are two seconds
old.

Cases of releases have a release too, a script, and some a PATH with a shell and coreutils alone. The last one starts
the release of this repository from a copy of it, on such a PATH, in under a second at one of three first starts, and
does the lines of README's first session.
"""
import concurrent.futures
import contextlib
import os
import pathlib
import pty
import re
import shutil
import signal
import subprocess
import time
from collections.abc import Callable, Mapping, Sequence
from typing import NamedTuple

from rrv_tools.program import ROOT, shown
from rrv_tools.testing import difference, rows
from rrv_tools.tests.repository import InRepository

RT = r"""#!/bin/sh
trap 'trap "" INT TERM; kill $! 2> /dev/null; echo "ended $crate" >> "$LOG"; exit 1' INT TERM
crate=${PWD##*/}
if [ $1 = ci ]; then
    case $(cat "$REPOSITORY/kept" 2> /dev/null) in
    program)
        mkdir -p crates/rrv/out
        { echo '#!/bin/sh'; echo "echo 'kept $(cat crates/low/src/*.rt)'"; } > crates/rrv/out/rrv
        [ ! -f "$REPOSITORY/edits" ] || echo edited > "$REPOSITORY/crates/low/src/lib.rt"
        chmod +x crates/rrv/out/rrv ;;
    nothing)
        cp "$(command -v sleep)" rattle
        cd crates/low && exec ../../rattle 60 ;;
    *) exit 1
    esac
    exit
fi
[ $1 = version ] || echo "begin $crate $*" >> "$LOG"
works() {
    [ "$2" ] || echo "rt: chose --jobs 2 for $1" >&2
    mkdir -p ../$1/out/incremental
    echo 'so far: 3 of 8 functions checked'
    sleep "$(cat "$REPOSITORY/pause/$1" 2> /dev/null || echo 0.1)" &
    wait $!
    [ "$(cat "$REPOSITORY/killed" 2> /dev/null)" != "$1" ] || { rm "$REPOSITORY/killed"; exit 247; }
    [ "$(cat "$REPOSITORY/broken" 2> /dev/null)" != "$1" ] || { echo "fn ${PWD%/*}/$1: not proved"; exit 1; }
}
below() { sed -n "s/^$1:\(.*\)std.*/\1/p;t;s/^$1://p" ../../crates.txt; }
texts() {
    for it in ../$1/src/*.rt; do [ ${it##*/} = text_sum.rt ] || cat $it; done
    for it in $(below $1); do cat ../$it/out/rlib/$it.rlib/format || exit 1; done
}
stamp() {
    texts $1
    find ../$1/proofs
    grep "^$1:" ../../crates.txt
    cat "$REPOSITORY/../kit/WHAT"
}
library() {
    [ "$(stamp $1 2> /dev/null)" != "$(cat ../$1/out/rlib/stamp 2> /dev/null)" ] || return 0
    works $1 "$2"
    rm -rf ../$1/out/rlib
    mkdir -p ../$1/out/rlib/$1.rlib
    texts $1 > ../$1/out/rlib/$1.rlib/format
    echo made >> ../$1/out/incremental/made
    stamp $1 > ../$1/out/rlib/stamp 2> /dev/null
}
all_below() {
    local that
    for that in $(below $1); do all_below $that; library $that; done
}
case $1 in
version)
    echo 'rattle-kit-1 logic 1' ; exit ;;
lib)
    library $crate given ;;
run)
    all_below rrv
    works rrv
    { echo '#!/bin/sh'; echo "echo '$(texts rrv)' \"\$*\""; echo 'cat; exit 7'; } > out/new
    mv out/new out/rrv
    chmod +x out/rrv ;;
*) exit 2
esac
echo "end $crate" >> "$LOG"
"""
LOW, MAIN, PROOF = "crates/low/src/lib.rt", "crates/rrv/src/main.rt", "crates/low/proofs/out/Answers.antt"
OUT, PROGRAM, LANES = "crates/rrv/out", "crates/rrv/out/rrv", "crates/rrv/out/lanes"
RELEASE, FROM = "release/rrv", "release/FROM"
TWO = "rrv: low\nlow: std\n"
SIX = "rrv: left high other\nlow: std\nleft: low\nother: low\nright: low\nhigh: right\n"
MINUTES = ("low.proof = 1.0\nleft.proof = 2.0\nother.proof = 1.0\nright = { proof = 1.0, tests = 5.0 }\n"
           "high.proof = 2.0\n")
# What a program of the six holds: its own text, and after that of each crate those of the crates below it.
OF_SIX = "mainleftlowhighrightlowotherlow"
WORDS = ("a b", "--at", "3")
FIRST = (r"rrv: proving and building it takes (at most )?(about \d+ minutes?|less than a minute) on \d+ processors?, "
         r"once; later starts take milliseconds\n")
# All that starting a release takes of a system.
COREUTILS = ("cat", "mkdir", "mv", "readlink", "sha256sum", "stat", "tac", "uname")
RELEASED = """#!/bin/sh
case $1 in --version) echo "rrv 0.2.0 (SUM)" ;; *) echo "release $*" ;; esac
"""
ALL_THE_SAME = "and there is no rt to build it; release/rrv starts the release all the same\n"
CHANGED = f"rrv: the text was changed since the release, {ALL_THE_SAME}"
NO_SUM = ("rrv: so it is not known whether release/rrv is the program of this text; release/rrv can be started by "
          "itself\n")
ELSEWHERE = ("rrv: release/rrv does not start on this machine, Linux aarch64: it is for x86-64 Linux with GLIBC 2.34 "
             "or later\n")


class Ran(NamedTuple):
    """The status of ./rrv, its output, and its errors."""

    status: int
    out: str
    err: str = ""


STARTED = Ran(0, "release a b --at 3\n")


def files_of(crates: str, minutes: str = "") -> dict[str, str]:
    """The files of a repository of these crates, each of which has its name as its source."""
    names = [line.partition(":")[0] for line in crates.splitlines()]
    sources = {f"crates/{it}/src/lib.rt": it for it in names if it != "rrv"}
    return {**sources, MAIN: "main", PROOF: "proof", "crates.txt": crates, "tools/minutes.toml": minutes}


def built(texts: str, proved: Sequence[str] = ()) -> Ran:
    """A start of a program that holds these texts, after a build that proves these crates."""
    return Ran(7, f"{texts} a b --at 3\ninput\n", proving(*proved))


def proving(*names: str) -> str:
    """A line for each of these crates."""
    return "".join(f"rrv: proving {name}, crate {at + 1} of {len(names)}\n" for at, name in enumerate(names))


class Launched(InRepository):
    """A repository with ./rrv, whose crates and toolchain are made up."""

    rt = RT
    files = files_of(TWO)

    def setUp(self) -> None:
        super().setUp()
        shutil.copy(ROOT / "rrv", self.root / "rrv")
        # In the background of a shell Ctrl-C is ignored, also by what is started there.
        self.addCleanup(signal.signal, signal.SIGINT, signal.signal(signal.SIGINT, signal.default_int_handler))

    def environment(self, **more: str) -> dict[str, str]:
        return super().environment(**{"REPOSITORY": str(self.root), "RRV_JOBS": "2", **more})

    def edit(self, path: str, text: str) -> None:
        """Writes another text of the same length, and keeps the times of the file."""
        was = (self.root / path).stat()
        self.write(path, text)
        os.utime(self.root / path, ns=(was.st_atime_ns, was.st_mtime_ns))

    def remove(self, path: str) -> None:
        """Removes a file of the repository."""
        (self.root / path).unlink()

    def put_older(self) -> None:
        """Puts an older file in the place of a source, as `cp -p` or `mv` does."""
        self.write("older", "past")
        os.utime(self.root / "older", (1, 1))
        (self.root / "older").replace(self.root / MAIN)

    def need(self, what: str, wanted: object, came: object) -> None:
        """Fails the case if two are not equal."""
        if wanted != came:
            raise self.failureException(difference(what, wanted, came))

    # ---- starts

    def start(self, *words: str, given: str = "input\n", environment: Mapping[str, str] | None = None,
              by: Sequence[str] = ()) -> Ran:
        """Runs ./rrv with these words to its end."""
        done = subprocess.run([*by, self.root / "rrv", *words], input=given, capture_output=True, text=True,
                              check=False, cwd="/", env=environment or self.environment())
        return Ran(done.returncode, done.stdout, done.stderr)

    def printed(self) -> tuple[int, str]:
        """The status and the output of ./rrv with the toolchain."""
        return self.start(*WORDS)[:2]

    def need_built(self, wanted: Ran, **more: str) -> None:
        """Fails the case if ./rrv with the toolchain does something else. The line that says how long a build takes
        is left out of its errors."""
        came = self.start(*WORDS, environment=self.environment(**more))
        self.need(f"./rrv {shown(WORDS)}", wanted, came._replace(err=re.sub(FIRST, "", came.err, count=1)))

    def need_bare(self, wanted: Ran, path: str, words: Sequence[str] = WORDS, by: Sequence[str] = ()) -> None:
        """Fails the case if ./rrv with this PATH does something else."""
        came = self.start(*words, given="", environment={"PATH": path}, by=by)
        self.need(shown((*by, f"PATH={path}", "./rrv", *words)), wanted, came)

    def first_line(self, **more: str) -> tuple[str, float]:
        """The first line of ./rrv, which Ctrl-C then ends, and after how many seconds it came."""
        begin = time.monotonic()
        with self.begin(command="rrv", **more) as ran:
            line = ran.stdout.readline() if ran.stdout else ""
            seconds = time.monotonic() - begin
            os.killpg(ran.pid, signal.SIGINT)
        return line, seconds

    # ---- what `rt` did

    def wait_for(self, line: str) -> None:
        """Waits until `rt` wrote this down, at most half a minute."""
        end = time.monotonic() + 30
        while line not in self.logged():
            self.assertLess(time.monotonic(), end, f"rt wrote no line {line!r}: {self.logged()}")
            time.sleep(0.05)

    def need_builds(self, count: int) -> None:
        """Fails the case if the program was not built this often."""
        self.need("builds of the program", count, self.logged().count("begin rrv run"))

    def need_no_lanes(self) -> None:
        """Fails the case if a build left its lanes."""
        self.assertFalse((self.root / LANES).exists(), "the lanes are left")

    def interrupt(self, first: str, last: str) -> None:
        """Ctrl-C ends the checks too, and so does a signal that only the build gets; the next start builds."""
        self.write("pause/low", "60")
        ends = (("rrv", (), os.killpg, signal.SIGINT, (130, -signal.SIGINT)),
                ("tools/run", ("build",), os.kill, signal.SIGTERM, (143,)))
        for command, words, send, number, wanted in ends:
            self.log.unlink(missing_ok=True)
            with self.begin(*words, command=command) as ran:
                self.wait_for(first)
                send(ran.pid, number)
                ran.communicate()
            self.wait_for(last)
            self.assertIn(ran.returncode, wanted, command)
            self.need(f"what rt did below {command}", [first, last], self.logged())
            self.need_no_lanes()
        self.remove("pause/low")
        self.need("status", 7, self.printed()[0])

    # ---- releases

    def bare(self, **others: str) -> str:
        """A PATH with a shell and coreutils alone; some of them are scripts of a case, or missing if that is empty."""
        path = self.folder / "bare"
        path.mkdir()
        for name in ("sh", *COREUTILS):
            if name not in others:
                (path / name).symlink_to(shutil.which(name) or name)
            elif others[name]:
                (path / name).write_text(f"#!{shutil.which('sh')}\n{others[name]}\n", encoding="utf-8")
                (path / name).chmod(0o755)
        return str(path)

    def release(self) -> str:
        """Puts a release of the text into the repository, and returns the sum of the text."""
        words = [self.root / "tools/text_sum"]
        total = subprocess.run(words, stdout=subprocess.PIPE, text=True, check=True).stdout.strip()
        self.write_program(RELEASE, RELEASED.replace("SUM", total[:12]))
        self.write(FROM, f"version: 0.2.0\nmachine: any\nkit: rattle-kit-1 logic 1\ntext: {total}\n")
        return total

    def write_program(self, path: str, text: str) -> None:
        """Writes a file that may be run."""
        self.write(path, text)
        (self.root / path).chmod(0o755)


# ---- changes


class Change(NamedTuple):
    """What changes, what the program's texts are then, and which crates are proved: none if nothing has to be built."""

    make: Callable[[Launched], object]
    texts: str = "mainlow"
    proved: tuple[str, ...] = ()


BOTH = ("low", "rrv")
CHANGES = {
    "nothing": Change(lambda it: None),
    "a source, in the same length and time": Change(lambda it: it.edit(LOW, "new"), "mainnew", BOTH),
    "an older file": Change(Launched.put_older, "pastlow", ("rrv",)),
    "a file more": Change(lambda it: it.write("crates/low/src/more.rt", "more"), "mainlowmore", BOTH),
    "a proof less": Change(lambda it: it.remove(PROOF), proved=BOTH),
    "the list of crates": Change(lambda it: it.edit("crates.txt", "low: std\nrrv: low\n"), proved=("rrv",)),
    "the toolchain": Change(lambda it: it.edit("../kit/WHAT", "that"), proved=BOTH),
    "the program": Change(lambda it: it.write(PROGRAM, "#!/bin/sh\necho other\n"), proved=("rrv",)),
    "no program": Change(lambda it: it.remove(PROGRAM), proved=("rrv",)),
}


@rows(CHANGES, "look")
class Changes(Launched):
    """Something changes after a first build."""

    seconds = 50

    def look(self, row: Change) -> None:
        """It is built again if it has to be, and then started at once."""
        self.need_built(built("mainlow", BOTH))
        row.make(self)
        self.need_built(built(row.texts, row.proved))
        self.need_built(built(row.texts))
        self.need_builds(2 if row.proved else 1)


# ---- builds


class Builds(Launched):
    """Builds of two crates, one after the other."""

    seconds = 60

    def test_a_build_that_fails(self) -> None:
        """Its log is printed, nothing is run, and the next start builds again."""
        self.printed()
        self.write("broken", "rrv")
        self.edit(MAIN, "next")
        said = f"rt: chose --jobs 2 for rrv\nso far: 3 of 8 functions checked\nfn {self.root}/crates/rrv: not proved\n"
        for _ in range(2):
            self.need_built(Ran(1, "", proving("rrv") + said))
        self.remove("broken")
        self.need_built(built("nextlow", ("rrv",)))

    def test_ctrl_c_in_turn(self) -> None:
        """`rt run` is ended too."""
        self.interrupt("begin rrv run", "ended rrv")

    def test_a_build_by_another_command(self) -> None:
        """What another command built is taken if that passed and nothing changed meanwhile, and else built again."""
        self.printed()
        makes = "printf '#!/bin/sh\\necho gate\\n' > crates/rrv/out/rrv; "
        for more, status, wanted in (("exit 3", 3, "mainlow  \n"), (f"printf new > {LOW}", 0, "mainnew  \n"),
                                     ("true", 0, "gate\n")):
            self.need(more, status, self.tool("build", "--by", "sh", "-c", makes + more).status)
            self.need(f"output after {more}", wanted, self.start(" ", given="").out)

    def test_a_program_that_rt_kept(self) -> None:
        """It is taken, but not if rt has to prove, or if a text changed meanwhile, or later."""
        for kept, edits, wanted in (("program", False, "kept low\n"), ("nothing", False, "mainlow  \n"),
                                    ("program", True, "mainedited  \n")):
            self.write("kept", kept)
            if edits:
                self.write("edits", "")
            begin = time.monotonic()
            for _ in range(2):
                self.need(f"output if rt kept {kept}", wanted, self.start(" ", given="").out)
            self.assertLessEqual(time.monotonic() - begin, 40)
            self.assertFalse((self.root / OUT / "copy").exists(), "the copy is left")
            for name in BOTH:
                shutil.rmtree(self.root / "crates" / name / "out", ignore_errors=True)

    def test_two_at_once(self) -> None:
        """Both run the program, and it is built once."""
        with concurrent.futures.ThreadPoolExecutor() as pool:
            both = [*pool.map(lambda _: self.printed(), range(2))]
        self.need("both", [built("mainlow")[:2]] * 2, both)
        self.need_builds(1)

    def on_terminal(self) -> str:
        """What ./rrv writes if its standard error is a terminal."""
        ours, theirs = pty.openpty()
        text, null = b"", subprocess.DEVNULL
        with (os.fdopen(ours, "rb", buffering=0) as terminal,
              subprocess.Popen([self.root / "rrv"], stdin=null, stdout=null, stderr=theirs, env=self.environment())):
            os.close(theirs)
            # Once nobody has the other side open, a read is refused.
            with contextlib.suppress(OSError):
                while some := terminal.read(4096):
                    text += some
        return text.decode()

    def test_a_terminal(self) -> None:
        """The first line stays, the other is written anew in its place, and is gone at the end."""
        self.write("pause/low", "3")
        said = self.on_terminal()
        first, _, rest = said.partition("\r\n")
        self.assertRegex(f"{first}\n", rf"\A{FIRST}\Z")
        self.assertIn("0 of 2 crates proved, proving low (3 of 8 functions)", rest)
        self.assertTrue(rest.endswith("\r\x1b[K") and "\n" not in rest, repr(said))
        self.need("a second start", "", self.on_terminal())

    def test_a_program_that_was_built_here(self) -> None:
        """It goes before the release, also if there is no toolchain any more, if it is of this text."""
        self.printed()
        version = f"rrv 1 ({self.release()[:12]})"
        self.need("output", built("mainlow")[:2], self.printed())
        self.write(PROGRAM, f"#!/bin/sh\necho \"{version}\"\n")
        self.remove(FROM)
        self.need_bare(Ran(0, f"{version}\n"), self.bare())


# How many processors there are, and what is printed of them.
TAKES = {
    "the minutes of one processor": (1, "about 7 minutes on 1 processor"),
    "the minutes of two processors": (2, "about 4 minutes on 2 processors"),
    "the minutes of three processors": (3, "about 4 minutes on 3 processors"),
}


@rows(TAKES, "take")
class SideBySide(Launched):
    """Builds of six crates, of which some can be proved side by side."""

    seconds = 60
    files = files_of(SIX, MINUTES)

    def take(self, row: tuple[int, str]) -> None:
        """The first line says how long it takes, by the processors and by what the gate measured."""
        jobs, wanted = row
        self.need("takes", [wanted], re.findall(r"takes (.*), once", self.first_line(RRV_JOBS=str(jobs))[0]))

    def test_the_minutes_of_what_is_left(self) -> None:
        """After a change it takes as long as the crates that are left."""
        self.printed()
        self.edit("crates/high/src/lib.rt", "more")
        takes = re.findall(r"takes (.*), once", self.first_line()[0])
        self.need("takes", ["at most about 2 minutes on 2 processors"], takes)

    def test_side_by_side(self) -> None:
        """Crates begin once the one below ended, those with the longest chain first, before another has ended."""
        self.write("pause/left", "2")
        self.write("pause/right", "2")
        self.need("output", built(OF_SIX)[:2], self.printed())
        said = self.logged()
        begins = ["begin low lib --jobs 2", "end low", "begin right lib --jobs 1", "begin left lib --jobs 1"]
        self.need("begin", begins, said[:4])
        self.assertIn(sorted(said[4:6]), (["end left", "end right"], ["begin high lib --jobs 1", "end right"],
                                          ["begin other lib --jobs 1", "end left"]))
        self.need("end", ["begin rrv run", "end rrv"], said[-2:])

    def test_a_library_that_fails(self) -> None:
        """Its log is printed, as of the repository itself; what is proved beside it is ended; no crate above begins."""
        self.write("pause/left", "1")
        self.write("pause/right", "60")
        self.write("broken", "left")
        begin = time.monotonic()
        status, printed, said = self.start(*WORDS)
        wanted = f"so far: 3 of 8 functions checked\nfn {self.root}/crates/left: not proved\n"
        self.need("start", (1, "", wanted), (status, printed, said[-len(wanted):]))
        self.assertLessEqual(time.monotonic() - begin, 30)
        self.assertIn("ended right", self.logged())
        self.need_no_lanes()
        self.remove("broken")
        self.remove("pause/right")
        self.need("output", built(OF_SIX)[:2], self.printed())
        self.need_builds(1)

    def test_a_check_that_is_killed(self) -> None:
        """It is made again once those beside it have ended, and the rest in turn: it may have lacked memory."""
        self.write("pause/left", "2")
        self.write("killed", "right")
        self.need_built(built(OF_SIX, ("low", "right", "left", "high", "other", "rrv")))
        said = self.logged()
        begins = ["begin low lib --jobs 2", "end low", "begin right lib --jobs 1", "begin left lib --jobs 1",
                  "end left", "begin right lib --jobs 1"]
        self.need("begin", begins, said[:6])
        names = [it.split()[1] for it in said[4:]]
        self.need("one after another", names[1::2], names[2::2])

    def test_one_job(self) -> None:
        """`rt run` proves all in turn."""
        self.need_built(built(OF_SIX, ("low", "left", "right", "high", "other", "rrv")), RRV_JOBS="1")
        self.need("what rt did", ["begin rrv run", "end rrv"], self.logged())

    def test_a_build_that_is_killed(self) -> None:
        """The next start takes what it left to begin with, and leaves no lane."""
        made = self.root / "crates/low/out/incremental/made"
        self.printed()
        self.log.unlink()
        self.edit(LOW, "new")
        self.write("pause/low", "60")
        with self.begin(command="rrv") as ran:
            self.wait_for("begin low lib --jobs 2")
            os.killpg(ran.pid, signal.SIGKILL)
        self.assertTrue((self.root / LANES).exists() and not made.exists(), "it was not killed in its midst")
        self.remove("pause/low")
        self.need("output", built(OF_SIX.replace("low", "new"))[:2], self.printed())
        self.need("what low was made of", "made\nmade\n", made.read_text(encoding="utf-8"))
        self.need_no_lanes()

    def test_ctrl_c(self) -> None:
        """The checks in lanes are ended too."""
        self.interrupt("begin low lib --jobs 2", "ended low")


# ---- releases


class Released(Launched):
    """A repository with a release of its text."""

    def setUp(self) -> None:
        super().setUp()
        self.total = self.release()


# What changes, and what the program's texts are then; empty if that makes the same machine code.
TEXTS = {
    "a changed comment in a source": Change(lambda it: it.edit(LOW, "//x"), "main//x"),
    "a file more in the text": Change(lambda it: it.write("crates/low/src/z.rt", "z"), "mainlowz"),
    "a changed comment in a proof": Change(lambda it: it.edit(PROOF, "other"), ""),
    "a changed body": Change(lambda it: it.edit(MAIN, "body"), "bodylow"),
}
# What stands in the place of sha256sum, and what is said then.
NOT_COMPUTED = "rrv: the sum of the text could not be computed\n"
SUMS = {
    "no sha256sum": ("", "rrv: sha256sum is needed, to compute the sum of the text\n"),
    "a sum that fails": ("echo 00; exit 1", NOT_COMPUTED),
    "a sum that is killed": ("kill -9 $$", NOT_COMPUTED),
    "a sum that is cut": ("echo 0123", NOT_COMPUTED),
}


@rows(SUMS, "refuse")
@rows(TEXTS, "change_text")
class Releases(Released):
    """What is started of a release, and when."""

    seconds = 30

    def change_text(self, row: Change) -> None:
        """A changed text is built with a toolchain, and without one a line says so."""
        path = self.bare()
        self.need_bare(STARTED, path)
        row.make(self)
        self.need_bare(Ran(1, "", CHANGED) if row.texts else STARTED, path)
        self.need("output", (built(row.texts) if row.texts else STARTED)[:2], self.printed())

    def refuse(self, row: tuple[str, str]) -> None:
        """Nothing is started if the sum can't be computed, or not wholly, and a line says so."""
        tool, said = row
        status, printed, errors = self.start(*WORDS, given="", environment={"PATH": self.bare(sha256sum=tool)})
        # The shell itself may say first that a program was killed.
        self.need("start", Ran(1, "", said + NO_SUM), Ran(status, printed, errors.removeprefix("Killed\n")))

    def test_a_release(self) -> None:
        """A fresh clone starts it, with a shell and coreutils alone, and does not build it with a toolchain."""
        path, seen = self.bare(), self.root / OUT / "release.seen"
        self.need_bare(STARTED, path)
        self.assertTrue(seen.exists(), "it was not noted")
        self.need_bare(STARTED, path)
        self.need_built(STARTED)
        self.need("what rt did", [], self.logged())

    def test_a_broken_release(self) -> None:
        """One that may not be run, one that names no text, and none: each is said in words of its own."""
        path = self.bare()
        (self.root / RELEASE).chmod(0o644)
        self.need_bare(Ran(1, "", "rrv: release/rrv may not be run: chmod +x release/rrv\n"), path)
        self.write(FROM, "")
        names_none = f"rrv: release/FROM names no text, {ALL_THE_SAME.replace('build it', 'build the program')}"
        self.need_bare(Ran(1, "", names_none), path)
        self.remove(RELEASE)
        self.need_bare(Ran(1, "", "rrv: there is no release/rrv, and no rt to build the program\n"), path)

    def test_a_read_only_tree(self) -> None:
        """The release is started there too, each time by its sum."""
        path, by = self.bare(), ("setpriv", "--reuid=65534", "--regid=65534", "--clear-groups")
        self.addCleanup(lambda: subprocess.run(["chmod", "-R", "u+w", self.folder], check=True))
        subprocess.run(["chmod", "-R", "a-w,a+rX", self.folder], check=True)
        for _ in range(2):
            self.need_bare(STARTED, path, by=(shutil.which(by[0]) or by[0], *by[1:]) if os.geteuid() == 0 else ())
        self.assertFalse((self.root / OUT).exists())

    def test_first_starts_at_once(self) -> None:
        """All run the release, and so does the next."""
        path = self.bare()
        with concurrent.futures.ThreadPoolExecutor() as pool:
            all_at_once = pool.map(lambda _: self.start(*WORDS, given="", environment={"PATH": path}), range(8))
        self.need("first starts", [STARTED] * 8, [*all_at_once])
        names = sorted(it.name for it in (self.root / OUT).iterdir())
        self.need("files", ["release.seen", "release.seen.names"], names)
        self.need_bare(STARTED, path)

    def test_a_path_with_blanks(self) -> None:
        """A folder has blanks in its name, and ./rrv is started by a link."""
        inner, path, link = self.folder / "a folder", self.bare(), self.folder / "link"
        inner.mkdir()
        self.root = self.root.rename(inner / "repository")
        link.symlink_to(self.root / "rrv")
        for _ in range(2):
            self.need_bare(STARTED, path)
        linked = subprocess.run([link, "x"], stdout=subprocess.PIPE, text=True, check=False, env={"PATH": path}).stdout
        self.need("output by a link", "release x\n", linked)

    def test_another_machine(self) -> None:
        """A line says so, and with a toolchain it is built."""
        path = self.bare(uname="echo Linux aarch64")
        self.need_bare(Ran(1, "", ELSEWHERE), path)
        there = self.environment()
        done = self.start(environment={**there, "PATH": f"{path}:{there['PATH']}"})
        self.need("output", "mainlow \ninput\n", done.out)
        self.need("errors", ELSEWHERE, done.err[: len(ELSEWHERE)])


class Written(Released):
    """`tools/run release` and `tools/run release --check`."""

    seconds = 10

    def test_an_older_release(self) -> None:
        """If the text is newer, it is as after a change, and the gate names it."""
        self.write(LOW, "newer")
        self.need_bare(Ran(1, "", CHANGED), self.bare())
        self.need("output", built("mainnewer")[:2], self.printed())
        lines = self.tool("release", "--check").lines
        self.assertIn("release/FROM is of another text", "\n".join(lines))
        self.assertNotRegex(lines[-1], " 0 failed$")

    def test_a_changed_release(self) -> None:
        """One that differs by a byte is started, and the gate names it; one that is the program built here passes."""
        text = self.read(RELEASE) + "# GLIBC_2.34\n"
        self.change(FROM, "any", "x86-64 Linux, GLIBC 2.34 or later")
        for it in (PROGRAM, RELEASE):
            self.write_program(it, text)
        self.passes(4, "release", "--check")
        self.change(RELEASE, "release $*", "Release $*")
        self.need_bare(Ran(0, "Release a b --at 3\n"), self.bare())
        lines = self.tool("release", "--check").lines
        self.assertIn("release/rrv is not the program that was built", "\n".join(lines))
        self.need("the last line", "3 passed, 1 failed", lines[-1])
        self.edit("../kit/bin/rt", RT.replace("kit-1", "kit-2"))
        lines = self.tool("release", "--check").lines
        self.need("the last lines", ["compare both", "3 passed, 0 failed"], lines[-2:])

    def test_a_release_that_is_written(self) -> None:
        """It is the program that was built of this text, and no other."""
        wanted = RELEASED.replace("SUM", self.total[:12]) + "# GLIBC_2.34, GLIBC_2.9\n"
        self.write_program(PROGRAM, wanted.replace(self.total[:12], "0" * 12))
        refused = self.tool("release")
        self.need("status", 1, refused.status)
        self.assertIn("was not built of this text", "\n".join(refused.lines))
        self.write_program(PROGRAM, wanted)
        self.need("status", 0, self.tool("release").status)
        self.need("the release", wanted, self.read(RELEASE))
        self.passes(4, "release", "--check")
        said = "version: 0.2.0\nmachine: x86-64 Linux, GLIBC 2.34 or later\nkit: rattle-kit-1 logic 1\n"
        self.need(FROM, f"{said}text: {self.total}\n", self.read(FROM))


# ---- time


class Times(Launched):
    """How long a start takes, at one of three tries."""

    seconds = 10
    is_alone = True

    def test_the_first_line(self) -> None:
        """If a start takes long, it says within two seconds how long."""
        self.write("pause/low", "60")
        line, seconds = "", 0.0
        for _ in range(3):
            line, seconds = self.first_line()
            if re.fullmatch(FIRST, line) and seconds < 2:
                return
        self.fail(f"{line!r} after {seconds} seconds")

    def test_this_release(self) -> None:
        """A clone of this repository prints its three lines in under a second; then its first session runs."""
        self.root = copied(self.folder / "clone")
        path, taken = self.bare(), []
        wanted = Ran(0, (ROOT / "crates/rrv/stdout").read_text(encoding="utf-8"))
        for _ in range(3):
            shutil.rmtree(self.root / OUT, ignore_errors=True)
            begin = time.monotonic()
            self.need_bare(wanted, path, words=())
            taken.append(time.monotonic() - begin)
        session = re.findall(r"(?m)^ +\$ \./rrv( .*)$", self.read("README.md"))
        for line in session:
            ran = subprocess.run([self.root / "rrv", *line.split()], cwd=self.root, env={"PATH": path},
                                 capture_output=True, text=True, check=False)
            self.need(f"./rrv{line}: {ran.stderr}", 0, ran.returncode)
        self.assertLess(min(taken), 1)
        self.assertGreater(len(session), 5)


def copied(clone: pathlib.Path) -> pathlib.Path:
    """A copy of what a clone of this repository starts from, and returns its folder."""
    clone.mkdir()
    for name in ("rrv", "crates.txt", "README.md"):
        shutil.copy(ROOT / name, clone / name)
    for it in (*(ROOT / name for name in ("release", "tools", "examples")), *ROOT.glob("crates/*/src")):
        shutil.copytree(it, clone / it.relative_to(ROOT))
    return clone
