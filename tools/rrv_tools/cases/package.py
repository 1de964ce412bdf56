"""The Debian package: it is made into a temporary folder, looked at, unpacked, and run from there.

Expected values: the files of the tree, what `readelf` finds of the program, the errors of `lintian`, and the
instructions of what is run.

Nothing is installed, so no root is needed. `lintian` may find no error.

"""
import gzip
import os
import pathlib
import re
import runpy
import shutil
import stat
import subprocess
import sys
from collections.abc import Mapping
from types import MappingProxyType
from typing import ClassVar, NamedTuple

from rrv_tools import package
from rrv_tools.program import ROOT
from rrv_tools.testing import Case, rows

PATIENCE = 300
DOCS = "usr/share/doc/rrv"
# Where Debian wants what stands in the tree at the other place.
PLACES = {
    "usr/bin/rrv-hunt": "examples/hunt/hunt",
    "usr/share/bash-completion/completions/rrv": "docs/rrv.bash",
    **{f"{DOCS}/{it}.md": f"{it}.md" for it in ("README", "CHANGELOG", "docs/GUIDE", "docs/GUEST", "docs/FORMATS")},
}
PAGES = {"rrv": "docs/rrv.1", "rrv-hunt": "examples/hunt/rrv-hunt.1", "rrv-cc": "examples/kit/rrv-cc.1"}
# What `rrv` prints without words.
THREE_LINES = """\
0 opening name=g0 elf=96
1 call tid=1 count=3 result=00000000 written=0
ok records=2 instructions=3 end exited 5
"""
# Offers what bash completes of the last word.
OFFER = 'source "$0"; COMP_WORDS=("$@"); COMP_CWORD=$(($# - 1)); _rrv; printf "%s\\n" "${COMPREPLY[@]}"'
# How the paths of files end that may be run.
TOOLS = ("cc", "c++", "hunt", "build", "build-musl", "build-cxx", "guest-words", "try", "unpack")
RUNS = (".elf", *(f"/{it}" for it in TOOLS))
COUNTER, TRUE = "examples/lost_update/counter.elf", shutil.which("true") or "true"
HUNTED, OPTIONS = "deadlock", ("--seed", "3", "--lists", "32")
# Two threads add up the numbers from 1 to 100 each, which are 5050.
ADDING = """\
#include <pthread.h>
#include <stdio.h>
static pthread_mutex_t lock = PTHREAD_MUTEX_INITIALIZER;
static int sum;
static void *add(void *unused)
{
    (void)unused;
    for (int number = 1; number <= 100; number++) {
        pthread_mutex_lock(&lock);
        sum += number;
        pthread_mutex_unlock(&lock);
    }
    return NULL;
}
int main(void)
{
    pthread_t one, other;
    if (pthread_create(&one, NULL, add, NULL) || pthread_create(&other, NULL, add, NULL))
        return 1;
    pthread_join(one, NULL);
    pthread_join(other, NULL);
    printf("sum %d\\n", sum);
    return 0;
}
"""


class Ran(NamedTuple):
    """What a command did."""

    status: int
    out: str
    err: str


class Line(NamedTuple):
    """A line of the tool that is refused: the program, which is the one under test if this is empty, the word, what
    the environment has, and how the refusal begins."""

    program: str
    word: str
    environment: dict[str, str]
    text: str


NO_MORE: Mapping[str, str] = MappingProxyType({})
NO_ELF = "the program is no ELF file for x86-64"
REFUSED = {
    "a missing program": Line("/missing/rrv", ".", {}, "/missing/rrv is no file: name the program by RRV_PROGRAM"),
    "a script": Line(str(ROOT / "check"), ".", {}, NO_ELF),
    "a guest": Line(str(ROOT / COUNTER), ".", {}, NO_ELF),
    "a program that is cut": Line("short", ".", {}, "the program's dynamic section can't be read"),
    "another program": Line(TRUE, ".", {}, f"{TRUE} --version prints no version of rrv: "),
    "no folder": Line("", "missing", {}, "missing is no folder, and no name that ends in .deb"),
    "no folder above": Line("", "missing/rrv.deb", {}, "[Errno 2] No such file or directory: "),
    "no time": Line("", ".", {"SOURCE_DATE_EPOCH": "today"}, "SOURCE_DATE_EPOCH is no number of seconds: 'today'"),
    "without dpkg-deb": Line("", ".", {"PATH": "."}, "dpkg-deb is not installed: it is part of Debian's package dpkg"),
}


def ran(*words: object, folder: pathlib.Path | str = ".", umask: int = -1,
        environment: Mapping[str, str] = NO_MORE) -> Ran:
    """Runs a command, with what it takes of the environment as given here."""
    unset = ("SOURCE_DATE_EPOCH", "DEBFULLNAME", "DEBEMAIL", "MANPAGER", "MANOPT")
    kept = {name: value for name, value in os.environ.items() if name not in unset}
    done = subprocess.run([str(it) for it in words], cwd=folder, umask=umask, stdin=subprocess.DEVNULL,
                          env={**kept, "LC_ALL": "C.UTF-8", "TZ": "UTC", **environment}, capture_output=True,
                          timeout=PATIENCE, check=False)
    return Ran(done.returncode, done.stdout.decode(errors="replace"), done.stderr.decode(errors="replace"))


def newest() -> tuple[str, str]:
    """The version that stands first in the changelog, and its day."""
    found = re.search(r"(?m)^## (\S+) - (\S+)$", (ROOT / "CHANGELOG.md").read_text(encoding="utf-8"))
    return (found[1], found[2]) if found else ("no version", "no day")


def fields_of(deb: pathlib.Path | str) -> dict[str, str]:
    """The fields of a package."""
    lines = [it.partition(": ") for it in ran("dpkg-deb", "-f", deb).out.splitlines()]
    return {name: value for name, _, value in lines if not name.startswith(" ")}


def files_below(top: pathlib.Path) -> dict[str, bytes]:
    """The files below a folder, without manual pages."""
    return {str(it.relative_to(top)): it.read_bytes() for it in top.rglob("*") if it.is_file() and it.suffix != ".1"}


def tree_of(top: pathlib.Path) -> dict[pathlib.Path, tuple[int, int, int]]:
    """The size, the mode and the time of a folder, and of each file and folder below it."""
    states = {it: it.lstat() for it in (top, *top.rglob("*"))}
    return {path: (it.st_size, it.st_mode, it.st_mtime_ns) for path, it in states.items()}


def hunted() -> tuple[str, int]:
    """How the hunted program ends once its fault is found, and after how many switches at most, as the table of the
    examples has it."""
    table = (ROOT / "examples" / "hunt" / "README.md").read_text(encoding="utf-8")
    found = re.search(rf"(?m)^\| `{HUNTED}\.c` \|[^|]*\| list \d+: `end (.*?)`[^|]* after (\d+) switch", table)
    return (found[1], int(found[2])) if found else ("no end", 0)


@rows({f"refused {name}": it for name, it in REFUSED.items()}, "need_no_package")
@rows({"a time": ("86400", "1970-01-02"), "a time to come": ("4102444800", "2100-01-01")}, "need_time")
class Package(Case):
    """The package of the program under test."""

    seconds = 28
    needs = ("dpkg-deb",)
    deb: ClassVar[pathlib.Path]
    # The folder in which it is unpacked.
    root: ClassVar[pathlib.Path]

    @classmethod
    def setUpClass(cls) -> None:
        super().setUpClass()
        done, cls.root = cls.made(), cls.class_folder / "un packed"
        cls.deb = cls.class_folder / done.out.removesuffix("\n")
        unpacked = ran("dpkg-deb", "-x", cls.deb, cls.root)
        assert (done.status, unpacked) == (0, Ran(0, "", "")), f"{done}, {unpacked}"

    @classmethod
    def made(cls, *words: str, program: str = "", tree: pathlib.Path | None = None,
             environment: Mapping[str, str] = NO_MORE) -> Ran:
        """Runs the tool that makes packages: of this tree and a program, or of a copy of the tree with its release."""
        given = {"RRV_PROGRAM": "" if tree else program or f"{cls.program.path}", **environment}
        if tree:
            return ran(tree / "tools" / "run", "package", *words, umask=0o077, environment=given)
        given["PYTHONPATH"] = f"{ROOT / 'tools'}"
        return ran(sys.executable, "-m", "rrv_tools", "package", *words, environment=given)

    def run_made(self, name: str, *words: object, before: pathlib.Path | None = None) -> Ran:
        """Runs a program of the package, with a folder before the PATH."""
        path = os.environ["PATH"]
        whole = self.root / "usr" / "bin" / name
        return ran(whole, *words, environment={"PATH": f"{before}:{path}" if before else path})

    def need_tool(self, name: str) -> None:
        """Leaves the case out if a tool isn't installed."""
        if not shutil.which(name):
            self.skipTest(f"{name} is not installed")

    def copied_tree(self) -> pathlib.Path:
        """A copy of what packages are made of, with a blank in its path, and the program at release/rrv."""
        top = self.folder / "a tree"
        for name in ("docs", "examples", "tools/rrv_tools"):
            shutil.copytree(ROOT / name, top / name, ignore=shutil.ignore_patterns("__pycache__"))
        (top / "release").mkdir()
        shutil.copy(self.program.path, top / "release" / "rrv")
        for path in (ROOT / "tools" / "run", *ROOT.glob("*.md")):
            shutil.copy(path, top / path.relative_to(ROOT))
        return top

    def test_names(self) -> None:
        """The version is the one that the program prints and that stands first in the changelog."""
        fields, version = fields_of(self.deb), ran(self.program.path, "--version").out.split()[1]
        self.need("the package's name and the newest version", (f"rrv_{version}_amd64.deb", version),
                  (self.deb.name, newest()[0]))
        wanted = {"Package": "rrv", "Version": version, "Architecture": "amd64"}
        self.need("fields", wanted, {it: fields.get(it) for it in wanted})

    def test_depends(self) -> None:
        """The package depends on the libraries that the program names, and on a C library that has all symbols."""
        self.need_tool("readelf")
        said = ran("readelf", "-W", "-d", "-V", self.program.path).out
        numbers = [[int(part) for part in it.split(".")] for it in re.findall(r"Name: GLIBC_([\d.]+) ", said)]
        wanted = [f"libc6 (>= {'.'.join(map(str, max(numbers, default=[0])))})"]
        wanted += ["libgcc-s1"] if "Shared library: [libgcc_s.so.1]" in said else []
        self.need("Depends", ", ".join(wanted), fields_of(self.deb)["Depends"])

    def test_size(self) -> None:
        """The installed size is that of Debian's policy: each file in whole KiB, and one for whatever is no file."""
        files = {it: it.is_file() and not it.is_symlink() for it in self.root.rglob("*")}
        size = sum(-(-it.stat().st_size // 1024) if is_file else 1 for it, is_file in files.items())
        self.need("Installed-Size", f"{size}", fields_of(self.deb)["Installed-Size"])

    def test_list(self) -> None:
        """All belongs to root, has the changelog's day, and may be written by its owner alone; just what is run has
        the bits for it."""
        wanted, wrong = f"root/root {newest()[1]} 00:00", []
        lines = ran("dpkg-deb", "-c", self.deb).out.splitlines()
        for line in lines:
            mode, owner, _, day, hour, path = line.split(maxsplit=5)
            runs = path.startswith("./usr/bin/") or path.endswith(RUNS)
            bits = {"d": "rwxr-xr-x", "l": "rwxrwxrwx"}.get(mode[0], "rwxr-xr-x" if runs else "rw-r--r--")
            wrong += [line] if mode[1:] != bits or f"{owner} {day} {hour}" != wanted else []
        self.need("lines that are wrong", [], wrong if lines else ["no line"])

    def test_places(self) -> None:
        """What the tree has stands at its place, with the same bytes."""
        sources = {"usr/bin/rrv": self.program.path, **{place: ROOT / path for place, path in PLACES.items()}}
        wrong = [place for place, path in sources.items() if (self.root / place).read_bytes() != path.read_bytes()]
        for place, name in ((f"{DOCS}/examples", "examples"), ("usr/share/rrv/kit", "examples/kit")):
            wrong += [place] if files_below(self.root / place) != files_below(ROOT / name) else []
        self.need("what is not as in the tree", [], wrong)

    def test_links(self) -> None:
        """Each document or picture of docs/ that README or the guide names is there."""
        texts = [(self.root / DOCS / it).read_text(encoding="utf-8") for it in ("README.md", "docs/GUIDE.md")]
        named = {it for text in texts for it in re.findall(r"\bdocs/[\w-]+\.(?:md|svg|png)", text)}
        self.assertTrue(named)
        self.need("missing", [], sorted(it for it in named if not (self.root / DOCS / it).is_file()))

    def test_compression(self) -> None:
        """Manual pages are those of the tree. They and the changelog are compressed as much as gzip does, without a
        name and a time."""
        packed: dict[str, bytes | None] = {f"{DOCS}/changelog.gz": None}
        packed |= {f"usr/share/man/man1/{name}.1.gz": (ROOT / path).read_bytes() for name, path in PAGES.items()}
        for place, page in packed.items():
            data = (self.root / place).read_bytes()
            self.need(f"how {place} begins", b"\x1f\x8b\x08\0\0\0\0\0\x02", data[:9])
            self.need(place, page or gzip.decompress(data), gzip.decompress(data))

    def test_sums(self) -> None:
        """The sums are those of all files."""
        ran("dpkg-deb", "-e", self.deb, "control")
        sums = self.folder / "control" / "md5sums"
        self.need("md5sum", Ran(0, "", ""), ran("md5sum", "-c", "--quiet", sums, folder=self.root))
        paths = set(re.findall(r"(?m)^\w{32}  (.*)$", sums.read_text(encoding="utf-8")))
        self.need("files", {it for it in files_below(self.root) if not (self.root / it).is_symlink()}, paths)

    def test_changelog(self) -> None:
        """The changelog has the versions of the tree's, in Debian's form, and each of its texts."""
        has = gzip.decompress((self.root / DOCS / "changelog.gz").read_bytes()).decode()
        source = (ROOT / "CHANGELOG.md").read_text(encoding="utf-8")
        heads = [f"rrv ({it}) unstable; urgency=medium" for it in re.findall(r"(?m)^## (\S+) - ", source)]
        ends = re.findall(r"(?m)^ -- .* <\S+@\S+>  \w{3}, \d{2} \w{3} \d{4} 00:00:00 \+0000$", has)
        self.need("versions", heads, re.findall(r"(?m)^\S.*$", has))
        self.need("ends of versions", len(heads), len(ends))
        self.need("long lines", [], [it for it in has.splitlines() if len(it) > 80])
        texts = [" ".join(it.split()) for it in re.findall(r"(?ms)^- (.*?)(?=^- |^#|\Z)", source)]
        self.assertTrue(texts)
        self.need("texts that are missing", [], [it for it in texts if it not in " ".join(has.split())])

    def test_lines(self) -> None:
        """The program prints its three lines, its version, and what a recorded program prints."""
        self.need("what it prints without words", Ran(0, THREE_LINES, ""), self.run_made("rrv"))
        version = self.run_made("rrv", "--version").out.split()[:2]
        self.need("its version", ["rrv", fields_of(self.deb)["Version"]], version)
        primes = sum(all(number % it for it in range(2, number)) for number in range(2, 1000))
        self.run_made("rrv", "new", "primes")
        done = self.run_made("rrv", "record", "primes", self.root / DOCS / COUNTER)
        self.need("the recording", (0, f"primes below 1000: {primes}\n"), done[:2])

    def test_manual(self) -> None:
        """`man` shows each page without a warning, and finds its name in it."""
        self.need_tool("man")
        for name in PAGES:
            page = self.root / "usr" / "share" / "man" / "man1" / f"{name}.1.gz"
            shown = ran("man", "--warnings", "-l", page, environment={"MANPAGER": "cat", "MANWIDTH": "80"})
            self.need(name, (0, ""), (shown.status, shown.err))
            self.assertRegex(re.sub(r".\x08", "", shown.out), rf"(?m)^NAME\n +{name} — \w")

    def test_page_of_hunt(self) -> None:
        """The page of rrv-hunt has its options with their defaults, and no others."""
        hunt = self.root / "usr" / "bin" / "rrv-hunt"
        kept, sys.argv = sys.argv, ["rrv-hunt", "ELF"]
        self.addCleanup(setattr, sys, "argv", kept)
        options = vars(runpy.run_path(str(hunt), run_name="hunt")["arguments"]())
        self.need("the program to hunt in", "ELF", options.pop("elf"))
        self.assertTrue(os.path.samefile(options["rrv"], self.root / "usr" / "bin" / "rrv"), options)
        defaults = {name: str(value) for name, value in options.items()} | {"jobs": "the", "rrv": "the"}
        page = (ROOT / PAGES["rrv-hunt"]).read_text(encoding="utf-8")
        said = dict(re.findall(r"(?ms)^\.It Fl -(\w+) Ar \w+\n.*?^The default is\s(\w+)", page))
        self.need("the page", defaults, said)

    def test_completions(self) -> None:
        """Bash takes the completions, and offers a command and an option by them."""
        self.need_tool("bash")
        script = self.root / "usr" / "share" / "bash-completion" / "completions" / "rrv"
        self.need("bash -n", Ran(0, "", ""), ran("bash", "-n", script))
        offered = [ran("bash", "-c", OFFER, script, "rrv", *it).out for it in (["ver"], ["record", "--up"])]
        self.need("what is offered", ["verify\n", "--upgrade\n"], offered)

    def test_hunt(self) -> None:
        """The installed hunt takes the `rrv` beside it, whatever is on the PATH, and what it finds is recorded so
        again."""
        decoy = self.folder / "decoy" / "rrv"
        decoy.parent.mkdir()
        decoy.write_text("#!/bin/sh\nexit 97\n", encoding="utf-8")
        decoy.chmod(0o755)
        elf, (end, most) = self.root / DOCS / "examples" / "hunt" / f"{HUNTED}.elf", hunted()
        done = self.run_made("rrv-hunt", *OPTIONS, elf, before=decoy.parent)
        head = re.match(rf"# {HUNTED}\.elf: end (.*?), switches (\d+)\.", done.out)
        self.need(f"the hunt: {done}", (0, end, True), (done.status, head and head[1], head and int(head[2]) <= most))
        (self.folder / "turns").write_text(done.out, encoding="utf-8")
        self.run_made("rrv", "new", "hunted")
        again = self.run_made("rrv", "record", "--choices", "turns", "hunted", elf)
        self.assertTrue(again.err.startswith(f"g0: end {end}, records "), again)

    def test_copied_hunt(self) -> None:
        """The hunt of examples that were copied elsewhere takes the `rrv` of the PATH, and is refused without one."""
        shutil.copytree(self.root / DOCS / "examples", self.folder / "examples")
        words = (sys.executable, "examples/hunt/hunt", *OPTIONS, f"examples/hunt/{HUNTED}.elf")
        refused = Ran(1, "", "hunt: can't run rrv: name the program by --rrv\n")
        self.need("without rrv", refused, ran(*words, environment={"PATH": "nothing"}))
        done = ran(*words, environment={"PATH": f"{self.root}/usr/bin:{os.environ['PATH']}"})
        self.need("status", 0, done.status)
        self.assertTrue(done.out.startswith(f"# {HUNTED}.elf: end {hunted()[0]}, "), done)

    def test_compiler(self) -> None:
        """The kit's compiler makes a guest of a program with threads, from a folder with a blank in its name."""
        self.need_tool("riscv64-unknown-elf-gcc")
        folder = self.folder / "a program"
        folder.mkdir()
        os.chdir(folder)
        pathlib.Path("adding.c").write_text(ADDING, encoding="utf-8")
        built = self.run_made("rrv-cc", "-Wall", "-Werror", "adding.c", "-o", "adding.elf")
        if built.status != 0 and "picolibc.specs" in built.err:
            self.skipTest("picolibc is not installed")
        self.run_made("rrv", "new", "store")
        done = self.run_made("rrv", "record", "store", "adding.elf")
        self.need(f"what the guest prints, after {built}", "sum 10100\n", done.out)
        self.assertTrue(done.err.startswith("g0: end exited 0, "), done)

    def test_lintian(self) -> None:
        """Lintian finds no error, and passes over errors of the guests alone, and that the program isn't stripped."""
        self.need_tool("lintian")
        done = ran("lintian", "--show-overrides", "--fail-on", "none", "--tag-display-limit", "0", self.deb)
        errors, passed = ([it for it in done.out.splitlines() if it.startswith(kind)] for kind in ("E:", "O:"))
        meant = rf"O: rrv: ([a-z-]+ \[{DOCS}/examples/\w+/\w+\.elf\]|unstripped-binary-or-object \[usr/bin/rrv\])"
        others = [it for it in passed if not re.fullmatch(meant, it)]
        self.assertTrue(passed, done)
        self.need("lintian", (0, [], []), (done.status, errors, others))

    def test_read_only_copy(self) -> None:
        """A read-only copy of the tree gives the same bytes, under another name, umask and temporary folder, and
        nothing is written there."""
        top, temporary = self.copied_tree(), self.folder / "for a while"
        for path, (_, mode, _) in tree_of(top).items():
            path.chmod(stat.S_IMODE(mode) & ~0o222)
        before = tree_of(top)
        temporary.mkdir()
        done, after = self.made("again.deb", tree=top, environment={"TMPDIR": f"{temporary}"}), tree_of(top)
        for path in before:
            path.chmod(0o755)
        self.need("the tool", Ran(0, "again.deb\n", ""), done)
        self.need("the package", self.deb.read_bytes(), (self.folder / "again.deb").read_bytes())
        self.need("what was written", ([], []), (list(temporary.iterdir()), sorted(before.items() ^ after.items())))

    def need_time(self, row: tuple[str, str]) -> None:
        """The environment gives the time, and the maintainer."""
        time, day = row
        given = {"SOURCE_DATE_EPOCH": time, "DEBFULLNAME": "A B", "DEBEMAIL": "a@b.example"}
        done = self.made("given.deb", environment=given)
        said = ran("dpkg-deb", "-c", "given.deb").out.splitlines()
        self.need(f"the maintainer, after {done}", "A B <a@b.example>", fields_of("given.deb")["Maintainer"])
        self.need("lines of another day", [], [it for it in said or ["no line"] if f" {day} 00:00 " not in it])

    def with_changelog(self, head: str) -> tuple[Ran, pathlib.Path]:
        """Makes `other.deb` of a copy of the tree, in whose changelog other words begin the version."""
        top, version = self.copied_tree(), fields_of(self.deb)["Version"]
        path = top / "CHANGELOG.md"
        text = path.read_text(encoding="utf-8")
        path.write_text(text.replace(f"## {version} ", head.replace("VERSION", version), 1), encoding="utf-8")
        return self.made("other.deb", tree=top), top

    def test_later_versions(self) -> None:
        """What the changelog has of later versions is left out."""
        done, _ = self.with_changelog("## 99.0 - 2030-01-01\n\n- Later.\n\n## VERSION ")
        self.need("the tool", Ran(0, "other.deb\n", ""), done)
        ran("dpkg-deb", "-x", "other.deb", "later")
        has, had = files_below(self.folder / "later"), files_below(self.root)
        others = sorted(it for it in has.keys() | had.keys() if has.get(it) != had.get(it))
        self.need("other files", [f"{DOCS}/CHANGELOG.md"], others)

    def test_versions_that_are_refused(self) -> None:
        """A version that the changelog doesn't have is refused."""
        done, top = self.with_changelog("## 99.0 ")
        version = fields_of(self.deb)["Version"]
        text = f"package: CHANGELOG.md has no version {version}, which {top}/release/rrv prints\n"
        self.need("the tool", (Ran(1, "", text), False), (done, os.path.exists("other.deb")))

    def test_days_that_are_refused(self) -> None:
        """A day of the changelog that is none is refused."""
        done, _ = self.with_changelog("## VERSION - 2026-13-01\n\n## ")
        version = fields_of(self.deb)["Version"]
        text = f"package: CHANGELOG.md: '## {version} - 2026-13-01' is no version with its day\n"
        self.need("the tool", (Ran(1, "", text), False), (done, os.path.exists("other.deb")))

    def test_libraries(self) -> None:
        """The newest of a library's versions counts, as a number, and a library of no known package is refused."""
        libc, libgcc = {"GLIBC_2.4", "GLIBC_2.34", "GLIBC_2.2.5"}, {"GCC_3.0", "GCC_4.2.0"}
        found = package.depends_of({"libgcc_s.so.1": libgcc, "libc.so.6": libc, "libm.so.6": {"GLIBC_2.29"}})
        self.need("what is depended on", "libc6 (>= 2.34), libgcc-s1", found)
        for others in ({"libz.so.1": {"ZLIB_1.2"}}, {"libc.so.6": {"GLIBC_PRIVATE"}}):
            self.assertRaises(package.Refused, package.depends_of, others)

    def need_no_package(self, line: Line) -> None:
        """What can't be packed is refused in a line, and leaves no file."""
        (self.folder / "short").write_bytes(self.program.path.read_bytes()[:100])
        done = self.made(line.word, program=line.program, environment=line.environment)
        self.need("the tool", (1, "", f"package: {line.text}", 1),
                  (done.status, done.out, done.err[:len(f"package: {line.text}")], done.err.count("\n")))
        self.need("what is left", ["short"], os.listdir())

    def test_two_words(self) -> None:
        """Two words are refused by the usage."""
        done = self.made("one", "two")
        self.need("the tool", (2, True), (done.status, "usage: tools/run package [PATH]" in done.err))
