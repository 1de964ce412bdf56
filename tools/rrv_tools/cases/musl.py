"""The kit over musl, examples/musl: programs that it builds do as a guest what they do on the machine itself.

Expected values: what the machine's own compiler and C library make of the same source; of what a guest can't do the
table of docs/GUIDE.md; of a line that is refused what is missing or wrong in it.

Each program is built by the machine's `cc` and by examples/musl/cc. What it prints on the machine has to be what its
guest prints, which is recorded, verified and replayed. Only `./check --real` builds programs. That bad lines of the
scripts are refused is looked at without a compiler.
"""
import os
import pathlib
import random
import re
import shutil
from typing import NamedTuple

from rrv_tools.musl import BUILD_SECONDS, KIT, MuslCase, need_cxx, ran
from rrv_tools.program import Word
from rrv_tools.testing import Case, rows

TESTS = KIT / "tests"
ARGUMENTS, INPUT = ("3", "two words", ""), "input.txt"
# What a guest can't do: docs/GUIDE.md.
REFUSED = b"""\
fork(): ENOSYS
execv("/bin/true", words): ENOSYS
posix_spawn(&child, "/bin/true", NULL, NULL, words, environ): ENOSYS
system("true"): ENOSYS
popen("true", "r") == NULL: 1
socket(AF_INET, SOCK_STREAM, 0): ENOSYS
wait(NULL): ENOSYS
kill(2, SIGTERM): ESRCH
isatty(1): 0
timer_create(CLOCK_REALTIME, NULL, &timer): ENOSYS
sysconf(_SC_NPROCESSORS_ONLN): 4
"""
# Prints a line, and ends as its first argument says.
ENDS = """\
#include <pthread.h>
#include <stdio.h>
#include <stdlib.h>
int main(int count, char **words)
{
    static pthread_mutex_t lock = PTHREAD_MUTEX_INITIALIZER;
    char how = count > 1 ? *words[1] : 0;
    printf("before the end\\nand a part");
    if (how == 'a')
        abort();
    if (how == 'f')
        *(volatile int *)16 = 1;
    pthread_mutex_lock(&lock);
    if (how == 's')
        pthread_mutex_lock(&lock);
    return 0;
}
"""
# Makes calls, as many as its first argument says.
CALLS = """\
#include <stdlib.h>
#include <sched.h>
int main(int count, char **words)
{
    for (int n = count > 1 ? atoi(words[1]) : 0; n > 0; n--)
        sched_yield();
    return 0;
}
"""
MACHINE = """\
#include <stdio.h>
#include <stdlib.h>
#include <unistd.h>
int main(int count, char **words)
{
    printf("%ld processors, PLACE=%s", sysconf(_SC_NPROCESSORS_ONLN), getenv("PLACE") ? getenv("PLACE") : "");
    for (int i = 1; i < count; i++)
        printf(" '%s'", words[i]);
    puts("");
    return 0;
}
"""
# How much a guest has: the table of README.md. A guest of version 2 has 64 threads.
LIMITS = b"""\
64 threads, and then EAGAIN
pthread_create(made, NULL, wait_for_lock, &lock): 0
64 descriptors, and then EMFILE
open("/dev/null", O_RDONLY): no error
256 names, and then ENOSPC
unlink("/tmp/100"): no error
rename("/tmp/101", name): no error
rename("/tmp/101", name): no error
rename("/tmp/101", name): ENAMETOOLONG
"""
# Waits for a time, in three ways.
TIMED = """\
#include <errno.h>
#include <pthread.h>
#include <semaphore.h>
#include <stdio.h>
#include <time.h>
int main(void)
{
    struct timespec begun, now, end;
    pthread_mutex_t lock = PTHREAD_MUTEX_INITIALIZER;
    pthread_cond_t never = PTHREAD_COND_INITIALIZER;
    sem_t empty;
    clock_gettime(CLOCK_REALTIME, &begun);
    end = begun;
    end.tv_nsec += 30000000;
    if (end.tv_nsec >= 1000000000) end.tv_sec++, end.tv_nsec -= 1000000000;
    pthread_mutex_lock(&lock);
    sem_init(&empty, 0, 0);
    printf("%d", pthread_cond_timedwait(&never, &lock, &end) == ETIMEDOUT);
    printf(" %d", sem_timedwait(&empty, &end) == -1 && errno == ETIMEDOUT);
    clock_gettime(CLOCK_REALTIME, &now);
    printf(" %d", now.tv_sec > end.tv_sec || (now.tv_sec == end.tv_sec && now.tv_nsec >= end.tv_nsec));
    printf(" %d\\n", nanosleep(&(struct timespec){0, 1000}, NULL));
    return 0;
}
"""
# Has what only a debugger reads, of these bytes.
LARGE = """\
__asm__(".section .debug_large\\n.incbin \\"bytes\\"\\n");
int main(void) { return 0; }
"""
# One thread is made, and is waited for.
ONE_MORE = """\
#include <pthread.h>
static void *work(void *unused) { return unused; }
int main(void)
{
    pthread_t thread;
    pthread_create(&thread, 0, work, 0);
    return pthread_join(thread, 0);
}
"""
# The Rust that the commands of README.md were tried with.
RUST = "rustc 1.63"
CXX = r"""
#include <chrono>
#include <condition_variable>
#include <future>
#include <iostream>
#include <mutex>
#include <stdexcept>
#include <string>
#include <thread>
#include <vector>
static thread_local int mine = 5;
int main()
{
    std::mutex lock;
    std::condition_variable changed;
    int arrived = 0, sum = 0;
    std::vector<std::thread> threads;
    for (int i = 0; i < 4; i++)
        threads.emplace_back([&, i] {
            mine += i;
            std::unique_lock<std::mutex> held(lock);
            sum += mine;
            arrived++;
            changed.notify_all();
            changed.wait(held, [&] { return arrived == 4; });
        });
    for (auto &thread : threads) thread.join();
    auto thrown = std::async(std::launch::async, []() -> int { throw std::runtime_error("from a thread"); });
    try { thrown.get(); } catch (const std::exception &error) { std::cout << error.what() << "\n"; }
    std::unique_lock<std::mutex> held(lock);
    bool over = changed.wait_for(held, std::chrono::milliseconds(5)) == std::cv_status::timeout;
    std::cout << sum << " " << mine << " " << over << " " << std::to_string(1.5) << std::endl;
    return 0;
}
"""


class Programs(MuslCase):
    """Programs that do the same on the machine and as a guest, and what a guest does that the machine doesn't."""

    seconds = 40

    def on_the_machine(self, source: pathlib.Path, *words: str, environment: dict[str, str] | None = None) -> bytes:
        """What a program prints that the machine's compiler builds; it has to end with 0."""
        compiler = shutil.which("cc")
        if compiler is None:
            self.skipTest("cc, the machine's own compiler, is not installed")
        folder = self.folder / "machine"
        folder.mkdir()
        self.need_run(compiler, "-pthread", "-O1", source, "-o", folder / "program", "-lm")
        if (self.folder / INPUT).exists():
            shutil.copy(self.folder / INPUT, folder)
        os.chdir(folder)
        done = ran(["./program", *words], environment=environment)
        os.chdir(self.folder)
        self.need("on the machine", (b"", 0), (done.stderr, done.returncode))
        return done.stdout

    def written(self, text: str, name: str = "program.c") -> pathlib.Path:
        """A source with this text."""
        path = self.folder / name
        path.write_text(text, encoding="ascii")
        return path

    def test_tour(self) -> None:
        """Threads, a condition with a timeout, a barrier, a lock for readers, a semaphore, sleep, doubles in a thread,
        arguments, the environment and a file."""
        shutil.copy(KIT / "tour.txt", self.folder / INPUT)
        wanted = self.on_the_machine(KIT / "tour.c", *ARGUMENTS, environment={"PLACE": "here"})
        words = " ".join(f"'{it}'" for it in ARGUMENTS)
        options = ("--args", words, "--env", "PLACE=here", "--file", f"{INPUT}={INPUT}")
        elf = self.compiled(KIT / "tour.c", "-Wall", "-Wextra", *options, "-lm")
        self.need("what the guest prints", wanted, self.recorded(elf))

    def need_same(self, name: str) -> None:
        """A test prints as a guest what it prints on the machine, also under other turns, and under qemu-riscv32."""
        wanted, elf = self.on_the_machine(TESTS / f"{name}.c"), self.compiled(TESTS / f"{name}.c", "-Wall", "-Wextra")
        self.need("what the guest prints", wanted, self.recorded(elf))
        for quantum in (150, 1000):
            done = self.need_line("record", "--fail", "--quantum", quantum, "store", elf, out=None, err=None)
            self.need(f"with quantum {quantum}", wanted, done.out)
        if shutil.which("qemu-riscv32"):
            self.need("what qemu-riscv32 prints", wanted, self.need_run("qemu-riscv32", elf))

    def test_waits(self) -> None:
        """Conditions, cancellation, timeouts, keys, and the stack of a thread."""
        self.need_same("waits")

    def test_signals(self) -> None:
        """Signals that a program sends itself."""
        self.need_same("signals")

    def test_files(self) -> None:
        """Files in memory, pipes and mappings."""
        self.need_same("files")

    def test_refusals(self) -> None:
        """What a guest can't do is refused by an errno. A signal without a handler ends it."""
        elf = self.compiled(TESTS / "refusals.c", "-Wall", "-Wextra")
        self.need_line("new", "store")
        done = self.need_line("record", "store", elf, out=REFUSED, err=None)
        self.need("its end", b"g0: end exited 143", done.err[:18])

    def test_lines_before_the_end(self) -> None:
        """A guest that aborts, faults or is stuck has shown the lines that it printed."""
        elf = self.compiled(self.written(ENDS), "--args", "x")
        self.need_line("new", "store")
        for how, end in (("abort", "faulted 2"), ("fault", "faulted 7"), ("stuck", "stuck")):
            self.need_run(KIT / "guest-words", elf, "ends.elf", how)
            done = self.need_line("record", "store", "ends.elf", out=b"before the end\n", err=None)
            self.need(how, f"g0: end {end}, ".encode(), done.err.splitlines(keepends=True)[0][:len(end) + 10])

    def instructions(self, *options: str) -> list[int]:
        """How many instructions a guest of no calls and one of a hundred run."""
        elf = self.compiled(self.written(CALLS), *options)
        self.need_line("new", "store")
        found = []
        for calls in (0, 100):
            self.need_run(KIT / "guest-words", elf, "calls.elf", calls)
            self.need_line("record", "--fail", "store", "calls.elf", out=b"", err=None)
        for line in self.need_line("list", "store", out=None).out.decode().splitlines():
            found.append(int(line.rpartition("=")[2]))
        return found

    def test_idling(self) -> None:
        """A guest idles 64 instructions after each call, or a few more, and not at all with --no-idle."""
        idling = self.instructions()
        (self.folder / "store").unlink()
        plain = self.instructions("--no-idle")
        more = (idling[1] - idling[0] - (plain[1] - plain[0])) / 100
        self.assertTrue(64 <= more <= 68, more)

    def test_machine(self) -> None:
        """Arguments, the environment and the number of processors are those that `cc` and `guest-words` were given."""
        options = ("--processors", "7", "--args", r"a 'b  c' d\ e", "--env", "PLACE=x=y")
        elf = self.compiled(self.written(MACHINE), *options)
        self.need("of cc", b"7 processors, PLACE=x=y 'a' 'b  c' 'd e'\n", self.recorded(elf))
        self.need_run(KIT / "guest-words", elf, "other.elf", "--env", "PLACE=", "", "$HOME `x`")
        self.need_line("record", "store", "other.elf", out=b"7 processors, PLACE= '' '$HOME `x`'\n", err=None)

    def test_limits(self) -> None:
        """As many threads, descriptors and names as there are, and the errors of POSIX after that."""
        self.need("the limits", LIMITS, self.recorded(self.compiled(TESTS / "limits.c", "-Wall", "-Wextra")))

    def test_waits_in_an_unmarked_store(self) -> None:
        """Timed waits end there too, and no earlier; a sleep does."""
        elf = self.compiled(self.written(TIMED))
        self.need_line("new", "unmarked")
        self.need_line("record", "--fail", "unmarked", elf, out=b"1 1 1 0\n", err=None)
        self.need_line("verify", "unmarked", 0, out=None)
        self.need("in a marked one", b"1 1 1 0\n", self.recorded(elf))

    def test_large_files(self) -> None:
        """Of a file that is too large for a guest `cc` says how large it is without what debuggers read."""
        (self.folder / "bytes").write_bytes(random.Random(1).randbytes(2200000))
        source = self.written(LARGE)
        done = ran([KIT / "cc", source, "-o", "large.elf"])
        size = (self.folder / "large.elf").stat().st_size
        self.need_run("riscv64-unknown-elf-strip", "-g", "-o", "small.elf", "large.elf")
        wanted = (f"cc: large.elf has {size} bytes, and a guest's file 2097152 at most: riscv64-unknown-elf-strip -g "
                  f"large.elf leaves {(self.folder / 'small.elf').stat().st_size}\n")
        self.need("what cc prints", (wanted, 0), (done.stderr.decode(), done.returncode))
        self.need_refused("check", "large.elf", err="rrv: large.elf: longer than 2097152 bytes: strip --strip-debug\n")
        self.need_line("check", "small.elf", out=None)

    def test_compiler(self) -> None:
        """The compiler does what makefiles and configure ask of one."""
        source = self.written(CALLS)
        cc = KIT / "cc"
        self.assertRegex(self.need_run(cc, "--version"), rb"(?s)riscv64-unknown-elf-gcc .*\n")
        self.assertIn(b"sched_yield", self.need_run(cc, "-E", source))
        lines: list[tuple[Word, ...]] = [
            ("-S", source), ("-c", source, "-o", "a.o"), ("-pthread", "a.o", "-o", "a.elf", "-lpthread", "-lm"),
            (source,), ("-print-libgcc-file-name",), ("-M", source)]
        for words in lines:
            self.need_run(cc, *words)
        self.need("what is made", ["a.elf", "a.o", "a.out", "program.c", "program.s"], sorted(os.listdir()))

    def test_backtrace(self) -> None:
        """A debugger finds the lines of the program and of musl in a core file."""
        if shutil.which("gdb-multiarch") is None:
            self.skipTest("gdb-multiarch is not installed")
        elf = self.compiled(self.written(ENDS), "--args", "abort")
        self.need_line("new", "store")
        self.need_line("record", "store", elf, out=None, err=None)
        self.need_line("core", "store", 0, "end", "core", out=None, err=None)
        text = self.need_run("gdb-multiarch", "-q", "-batch", "-ex", "bt", elf, "core").decode()
        self.assertRegex(text, r"(?s)in abort \(\) at src/exit/abort\.c:\d+\n.* in main \(.*\) at .*program\.c:10\n")

    def test_backtrace_of_a_new_thread(self) -> None:
        """That of a thread that was made and hasn't run ends at once, and its maker's goes on to main."""
        if shutil.which("gdb-multiarch") is None:
            self.skipTest("gdb-multiarch is not installed")
        elf = self.compiled(self.written(ONE_MORE))
        self.need_line("new", "store")
        self.need_line("record", "store", elf, out=None, err=None)
        places = self.need_line("dump", "--places", "store", 0, out=None).out.decode()
        made = re.search(r" result=00000002 .* to=(\d+)", places)
        self.assertTrue(made, places)
        self.need_line("core", "store", 0, made[1] if made else 0, "core", out=None, err=None)
        text = self.need_run("gdb-multiarch", "-q", "-batch", "-ex", "thread apply all bt", elf, "core").decode()
        frames = {it.partition("LWP ")[2][0]: re.findall(r"^#\d+ +(?:0x\w+ in )?(\w+) \(", it, re.MULTILINE)
                  for it in text.split("\nThread ")[1:]}
        self.need(f"{text}\nfunctions", {"1": ["__clone", "__pthread_create", "main"], "2": ["__clone"]}, frames)


class Cxx(MuslCase):
    """C++ programs."""

    seconds = 300

    def test_threads(self) -> None:
        """Threads, exceptions between threads, conditions and streams."""
        need_cxx()
        source = self.folder / "program.cc"
        source.write_text(CXX, encoding="ascii")
        elf = self.compiled(source, "-std=c++17", compiler="c++")
        self.need("what the guest prints", b"from a thread\n26 5 1 1.500000\n", self.recorded(elf))


class Rust(MuslCase):
    """A Rust program."""

    seconds = 150
    needs = (*MuslCase.needs, "rustc")

    def test_threads(self) -> None:
        """Four threads of Rust's core and alloc, by the commands of the kit's README.md."""
        words = (("rustc", "--version"), ("rustc", "--print", "sysroot"))
        version, root = (self.need_run(*it).decode().strip() for it in words)
        if not version.startswith(RUST) or not pathlib.Path(root, "lib/rustlib/src/rust/library").exists():
            self.skipTest(f"{RUST}, with Debian's rust-src, is not installed")
        section = (KIT / "README.md").read_text(encoding="utf-8").partition("\n## Rust\n")[2].partition("\n## ")[0]
        lines = [it.strip() for it in section.splitlines() if it.startswith("    ")]
        commands = [it for it in lines if not it.startswith("apt-get ")]
        (self.folder / "examples").symlink_to(KIT.parent)
        self.need_run("sh", "-e", "-c", "\n".join(commands), seconds=BUILD_SECONDS)
        wanted = b"thread 1: 0.333\nthread 2: 0.667\nthread 3: 1.000\nthread 4: 1.333\nsum 10\n"
        self.need("what the guest prints", wanted, self.recorded(self.folder / "threads.elf"))


class Line(NamedTuple):
    """A line of a script, and the errors that it prints."""

    words: str
    errors: str


# No line has a compiler, but a program of its name that does nothing.
LARGEST = "there is room for 4095"
KIND = "a guest is -march=rv32ima -mabi=ilp32, without floating point registers and instructions of 16 bits"
REFUSED_LINES = {
    "another tarball": Line("build-musl --to made file",
                            "build-musl: file isn't the tarball of musl 1.2.5: its SHA-256 isn't \\w+"),
    "no tarball": Line("build-musl --to made none", "build-musl: none is no file: name the tarball of musl 1.2.5"),
    "two tarballs": Line("build-musl a b", "build-musl: two tarballs: a and b"),
    "an option of build-musl": Line("build-musl --fast", "build-musl: no option --fast: .*"),
    "no list of packages": Line("build-musl --to made",
                                "build-musl: apt has no list of Debian's packages: apt-get update brings it. "
                                "With the files at hand: build-musl musl_1.2.5.orig.tar.gz"),
    "no musl for C++": Line("build-cxx --to none x", r"build-cxx: there is no musl in none: run \S*/build-musl first"),
    "no GCC": Line("build-cxx --to musl none", "build-cxx: none is no file: name the tarball of GCC .*"),
    "no libstdc++": Line("c++ x.cc", r"c\+\+: there is no libstdc\+\+ in musl: run \S*/build-cxx"),
    "a file that isn't there": Line("cc --file a=none x.c", "cc: --file: none is no file"),
    "a file without a name": Line("cc --file file x.c", "cc: --file needs NAME=PATH, and has file"),
    "files that are too large": Line("cc --file a=large --file b=large x.c",
                                     "cc: the linked files have 2400000 bytes, up to large, "
                                     "and a guest's file 2097152 at most"),
    "arguments above a page": Line(f"cc --args {'a' * 4095} x.c",
                                   f"cc: the arguments and the environment have 4097 bytes, and {LARGEST}"),
    "an environment above a page": Line(f"cc --env A={'a' * 4095} x.c",
                                        f"cc: the arguments and the environment have 4099 bytes, and {LARGEST}"),
    "quotes": Line("cc --args 'a x.c", "cc: --args: quotes don't match in 'a"),
    "a variable": Line("cc --env A x.c", "cc: --env needs NAME=VALUE, and has A"),
    "processors": Line("cc --processors 0 x.c", "cc: --processors needs a number from 1 on, and has 0"),
    "a last option": Line("cc x.c --args", "cc: --args needs a word after it"),
    "floating point registers": Line("cc -mabi=ilp32d x.c", f"cc: -mabi=ilp32d: {KIND}"),
    "compressed instructions": Line("cc -march=rv32imac x.c", f"cc: -march=rv32imac: {KIND}"),
    "a shared library": Line("cc -shared x.c", "cc: -shared: guests are linked statically"),
    "no such recipe": Line("../real/try nothing", "try: needs one of these names: lbzip2 lua pbzip2 .*"),
    "no package to unpack": Line("../real/unpack a", "unpack: needs PACKAGE, FOLDER and SOURCES"),
    "no list to unpack from": Line("../real/unpack a made sources",
                                   "unpack: apt has no list of Debian's packages: apt-get update brings it. "
                                   r"With the files at hand: put a_VERSION.orig.tar.xz into \S*/sources"),
    "words above a page": Line(f"guest-words file out {'a' * 4095}",
                               f"guest-words: the arguments and the environment have 4097 bytes, and {LARGEST}"),
    "words for no file": Line("guest-words none out a", "guest-words: none is no file"),
    "one word": Line("guest-words file", "guest-words: needs IN.elf and OUT.elf"),
}  # fmt: skip
COMPILERS = ("gcc", "g++", "ld", "objcopy")
MISSING, PACKAGE = "riscv64-unknown-elf-", "is not installed: apt-get install"
# Without a compiler.
MISSING_LINES = {
    "cc": Line("cc x.c", f"cc: {MISSING}gcc {PACKAGE} gcc-riscv64-unknown-elf"),
    "build-musl": Line("build-musl", f"build-musl: {MISSING}gcc {PACKAGE} gcc-riscv64-unknown-elf"),
    "guest-words": Line("guest-words a b", f"guest-words: {MISSING}objcopy {PACKAGE} binutils-riscv64-unknown-elf"),
}


# The programs that the scripts use before they compile.
USED = ("sh basename dirname readlink sed cat cut sha256sum wc mktemp rm mkdir tr xargs printf date grep sort head "
        "truncate tar find").split()


class Scripts(Case):
    """Lines of the scripts that are refused, each by one line."""

    def setUp(self) -> None:
        super().setUp()
        bin_folder = self.folder / "bin"
        bin_folder.mkdir()
        for name in USED:
            path = shutil.which(name)
            if path:
                (bin_folder / name).symlink_to(path)
        (self.folder / "file").write_bytes(b"x")
        (self.folder / "large").write_bytes(bytes(1200000))
        (self.folder / "musl").mkdir()
        (self.folder / "musl" / "FROM").write_bytes(b"")

    def stand_in(self, *names: str) -> None:
        """Puts programs on the PATH that do nothing."""
        for name in names:
            path = self.folder / "bin" / name
            path.write_text("#!/bin/sh\n", encoding="ascii")
            path.chmod(0o755)

    def need_one_line(self, line: Line) -> None:
        """The line ends with 1, prints nothing, and its errors are one line."""
        name, *words = line.words.split(" ")
        done = ran([KIT / name, *words], environment={"PATH": str(self.folder / "bin"), "RRV_MUSL": "musl"})
        errors = done.stderr.decode()
        self.need(f"{line.words:.60}: {errors}", (1, b"", 1), (done.returncode, done.stdout, errors.count("\n")))
        self.assertRegex(errors, f"\\A{line.errors}\n\\Z")


@rows(REFUSED_LINES, "refuse")
class RefusedLines(Scripts):
    """What is wrong in a line."""

    def refuse(self, line: Line) -> None:
        """It is refused before anything is compiled."""
        self.stand_in(*(f"riscv64-unknown-elf-{it}" for it in COMPILERS), "make", "apt-get")
        self.need_one_line(line)

    def test_no_network(self) -> None:
        """What apt-get can't fetch can be named."""
        self.stand_in(*(f"riscv64-unknown-elf-{it}" for it in COMPILERS), "make", "apt-get")
        script = ("#!/bin/sh\ncase $1 in indextargets) echo Debian main http://none.invalid/debian bookworm ;; "
                  "*) exit 100 ;; esac\n")
        (self.folder / "bin" / "apt-get").write_text(script, encoding="ascii")
        done = ran([KIT / "build-musl", "--to", "made"], environment={"PATH": str(self.folder / "bin")})
        self.need("status", 1, done.returncode)
        wanted = (r"build-musl: apt-get can't fetch the source of musl from trixie \(.*/apt\.log\)\. "
                  r"With its files at hand: build-musl musl_1\.2\.5\.orig\.tar\.gz\n\Z")
        self.assertRegex(done.stderr.decode(), wanted)


@rows(MISSING_LINES, "miss")
class MissingLines(Scripts):
    """What is missing."""

    def miss(self, line: Line) -> None:
        """The package is named that has it."""
        self.need_one_line(line)

    def test_no_musl(self) -> None:
        """Without musl its build is named."""
        self.stand_in("riscv64-unknown-elf-gcc")
        (self.folder / "musl" / "FROM").unlink()
        self.need_one_line(Line("cc x.c", r"cc: there is no musl in musl: run \S*/build-musl"))
