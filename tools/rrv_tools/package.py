"""Makes the Debian package of rrv, rrv_VERSION_amd64.deb, from this tree by dpkg-deb, and prints its name.

usage: tools/run package [PATH]

PATH is the folder that gets the package, or a name for it that ends in .deb. The default is the working folder. The
program is release/rrv, or the one that the environment variable RRV_PROGRAM names; it prints the version. The package
depends on the libraries that the program names.

The same tree, program and dpkg-deb give the same bytes: all files have the time SOURCE_DATE_EPOCH, or else the day
that CHANGELOG.md has for the version, and belong to root. Who makes the package for others is named as its maintainer
by DEBFULLNAME and DEBEMAIL. Nothing is written but the package: it is put together in a temporary folder.
"""
import dataclasses
import datetime
import email.utils
import gzip
import hashlib
import os
import pathlib
import re
import shutil
import struct
import subprocess
import sys
import tempfile
import textwrap
from collections.abc import Iterable, Mapping, Sequence

from rrv_tools.program import ROOT

DOCS = "usr/share/doc/rrv"
# The Debian package of each library that a program may name. That of libc6 has to be as new as the symbols that are
# wanted.
C_LIBRARY = ("libc.so.6", "libm.so.6", "libpthread.so.0", "libdl.so.2", "librt.so.1", "ld-linux-x86-64.so.2")
LIBRARIES = {**dict.fromkeys(C_LIBRARY, "libc6"), "libgcc_s.so.1": "libgcc-s1"}
# rrv-hunt is Python, rrv-cc runs a compiler over a C library, and a debugger reads core files of guests.
RECOMMENDS, SUGGESTS = "python3", "gcc-riscv64-unknown-elf, gdb-multiarch, picolibc-riscv64-unknown-elf"
SYNOPSIS = "record RISC-V programs and replay them exactly"
DESCRIPTION = (
    "rrv records a static RV32IMA program with threads while it runs, and replays it exactly, to any instruction, "
    "forwards and backwards. A run that goes wrong now and then is recorded once, and then shows its fault each time. "
    "A recording lies in a store, which is a file.",
    "rrv-hunt looks for turns of threads by which a program fails. rrv-cc compiles C programs with POSIX threads to "
    "programs that rrv records.",
)
COPYRIGHT = """\
rrv
Copyright 2026 the authors of rrv

No license has been chosen for rrv yet: its source has no file that gives one.
So this package gives no permission to copy, change or distribute it beyond
what copyright law gives by itself.

The program, and the compiled examples in examples/hunt, also have code of the
libraries that they were linked with, under the licenses of these.
"""
FOR_DEBIAN = f"""\
rrv for Debian
==============

What the documents call examples/hunt/hunt is installed as rrv-hunt, and
examples/kit/cc as rrv-cc. The commands of docs/GUIDE.md run in a folder that
has a copy of the examples:

    cp -r /{DOCS}/examples .

`./rrv` in these documents is `rrv` here.

docs/rrv.1 is installed as the manual page rrv(1), and docs/rrv.bash as the
completions of bash. Files below crates/ and tools/ that the documents name are
in the source alone.

rrv-hunt needs the package python3. rrv-cc needs gcc-riscv64-unknown-elf and
picolibc-riscv64-unknown-elf. A debugger that reads core files of guests is in
gdb-multiarch.
"""
# What lintian takes for errors, and is meant: paths, the errors at them, and why.
MEANT = (
    ("usr/bin/rrv", ("unstripped-binary-or-object",), "The program is the released one, byte by byte."),
    (f"{DOCS}/examples/*.elf", ("arch-dependent-file-in-usr-share", "binary-from-other-architecture",
                                "statically-linked-binary", "unstripped-binary-or-object"),
     "The examples are programs for the machine that rrv records."),
)


class Refused(Exception):
    """Why no package is made, in words."""


@dataclasses.dataclass(frozen=True)
class Item:
    """What stands at a path of the package: a file, with its bytes and whether it may be run, or a link to a path."""

    data: bytes = b""
    runs: bool = False
    link: str = ""


@dataclasses.dataclass(frozen=True)
class Release:
    """A version, with its day in seconds, and what CHANGELOG.md says of it: lines of groups as `### Added`, and each
    text as one line."""

    version: str
    time: int
    lines: list[str]


def read(path: str) -> bytes:
    """The bytes of a file of the tree."""
    return (ROOT / path).read_bytes()


def version_of(program: pathlib.Path) -> str:
    """The version that a program prints."""
    try:
        done = subprocess.run([program.absolute(), "--version"], stdin=subprocess.DEVNULL, capture_output=True,
                              check=False)
    except OSError as error:
        raise Refused(f"{program} can't be run: {error.strerror}") from error
    printed = done.stdout.decode(errors="replace")
    found = re.fullmatch(r"rrv (\d+(?:\.\d+)+)(?: .*)?\n", printed)
    if done.returncode != 0 or not found:
        raise Refused(f"{program} --version prints no version of rrv: {printed.strip()!r}")
    return found[1]


def releases_of(text: str) -> list[Release]:
    """The versions of CHANGELOG.md, the newest first."""
    found = []
    for part in re.split(r"^## ", text, flags=re.M)[1:]:
        head, _, body = part.partition("\n")
        version, _, day = head.partition(" - ")
        try:
            time = datetime.datetime.strptime(f"{day} +0000", "%Y-%m-%d %z")
        except ValueError as error:
            raise Refused(f"CHANGELOG.md: '## {head}' is no version with its day") from error
        blocks = re.split(r"\n\s*\n|\n(?=- )", body.strip())
        lines = [" ".join(it.split()) for it in blocks if it.strip()]
        found.append(Release(version, int(time.timestamp()), lines))
    return found


def debian_changelog(releases: Sequence[Release]) -> bytes:
    """These versions as Debian's form of a changelog."""
    wrapper = textwrap.TextWrapper(78, initial_indent="  * ", subsequent_indent="    ", break_on_hyphens=False)
    parts = []
    for release in releases:
        parts.append(f"rrv ({release.version}) unstable; urgency=medium\n")
        for line in release.lines:
            is_head = line.startswith("### ")
            parts += [f"\n  [ {line[4:]} ]"] if is_head else wrapper.wrap(line.removeprefix("- "))
        day = datetime.datetime.fromtimestamp(release.time, datetime.UTC)
        parts.append(f"\n -- {maintainer()}  {email.utils.format_datetime(day)}\n")
    return "\n".join(parts).encode()


def maintainer() -> str:
    """Who makes the package for others."""
    name = os.environ.get("DEBFULLNAME") or "made by tools/run"
    return f"{name} <{os.environ.get('DEBEMAIL') or 'nobody@rrv.invalid'}>"


class Elf:
    """What a program for x86-64 Linux wants of its libraries, by its dynamic section."""

    NEEDED, STRINGS, VERSIONS, VERSION_COUNT = 1, 5, 0x6FFFFFFE, 0x6FFFFFFF
    LOAD, DYNAMIC = 1, 2

    def __init__(self, data: bytes) -> None:
        if data[:6] != b"\x7fELF\x02\x01" or struct.unpack_from("<H", data, 18)[0] != 62:
            raise Refused("the program is no ELF file for x86-64")
        self.data = data
        start, size, count = *struct.unpack_from("<Q", data, 32), *struct.unpack_from("<HH", data, 54)
        places = (start + size * it for it in range(count))
        self.segments: list[tuple[int, ...]] = [struct.unpack_from("<IIQQQQQQ", data, it) for it in places]
        self.entries: list[tuple[int, int]] = []
        for kind, _, place, _, _, size, *_ in self.segments:
            if kind == self.DYNAMIC:
                self.entries += ((tag, value) for tag, value in struct.iter_unpack("<QQ", data[place: place + size]))

    def place_of(self, address: int) -> int:
        """Where in the file a byte of the program's memory stands."""
        for kind, _, place, start, _, size, *_ in self.segments:
            if kind == self.LOAD and start <= address < start + size:
                return place + address - start
        raise Refused("the program's dynamic section leads out of its file")

    def first(self, tag: int) -> int:
        """The value of the first entry with this tag, or 0."""
        return next((value for it, value in self.entries if it == tag), 0)

    def text(self, offset: int) -> str:
        """The name at this place of the string table."""
        place = self.place_of(self.first(self.STRINGS)) + offset
        return self.data[place: self.data.index(b"\0", place)].decode()

    def libraries(self) -> dict[str, set[str]]:
        """The libraries, each with the versions of its symbols that are wanted."""
        found: dict[str, set[str]] = {self.text(value): set() for tag, value in self.entries if tag == self.NEEDED}
        count = self.first(self.VERSION_COUNT)
        place = self.place_of(self.first(self.VERSIONS)) if count else 0
        for _ in range(count):
            _, names, library, name, following = struct.unpack_from("<HHIII", self.data, place)
            name += place
            for _ in range(names):
                _, _, _, text, after = struct.unpack_from("<IHHII", self.data, name)
                found.setdefault(self.text(library), set()).add(self.text(text))
                name += after
            place += following
        return found


def numbers(version: str) -> list[int]:
    """A version's numbers, by which versions are compared."""
    return [int(it) for it in version.split(".")]


def libraries_of(program: bytes) -> dict[str, set[str]]:
    """The libraries that a program names, each with the versions of its symbols that are wanted."""
    try:
        return Elf(program).libraries()
    except (struct.error, ValueError) as error:
        raise Refused("the program's dynamic section can't be read") from error


def depends_of(libraries: Mapping[str, set[str]]) -> str:
    """The packages that a program needs."""
    found: dict[str, list[str]] = {}
    for library, versions in libraries.items():
        if library not in LIBRARIES:
            raise Refused(f"the program needs {library}, of which no package is known here")
        wanted = found.setdefault(LIBRARIES[library], [])
        for version in versions if LIBRARIES[library] == "libc6" else ():
            if not re.fullmatch(r"GLIBC_\d+(\.\d+)+", version):
                raise Refused(f"the program needs {version} of {library}, which is no number of a version")
            wanted.append(version.removeprefix("GLIBC_"))
    newest = {name: f" (>= {max(wanted, key=numbers)})" if wanted else "" for name, wanted in sorted(found.items())}
    return ", ".join(f"{name}{it}" for name, it in newest.items())


def tree_of(folder: str, place: str) -> dict[str, Item]:
    """The files below a folder of the tree, at a place of the package. Manual pages have a place of their own."""
    paths = [it for it in (ROOT / folder).rglob("[!.]*") if it.is_file() and it.suffix != ".1"]
    found = {it: Item(it.read_bytes(), bool(it.stat().st_mode & 0o100)) for it in paths}
    return {f"{place}/{path.relative_to(ROOT / folder)}": item for path, item in found.items()}


def packed(data: bytes) -> Item:
    """A file that is compressed, as `gzip -9n` does."""
    return Item(gzip.compress(data, 9, mtime=0))


def documents() -> dict[str, Item]:
    """The documents, which lie to each other as in the tree, so that their links lead there."""
    paths = [path for it in ("*.md", "docs/*.md", "docs/*.svg", "docs/*.png") for path in ROOT.glob(it)]
    return {f"{DOCS}/{it.relative_to(ROOT)}": Item(it.read_bytes()) for it in paths}


def items(program: bytes, releases: Sequence[Release]) -> dict[str, Item]:
    """What the package has, by its paths."""
    pages = {"rrv": "docs/rrv.1", "rrv-hunt": "examples/hunt/rrv-hunt.1", "rrv-cc": "examples/kit/rrv-cc.1"}
    meant = [f"# {why}\n" + "".join(f"rrv: {tag} [{path}]\n" for tag in tags) for path, tags, why in MEANT]
    found = {
        "usr/bin/rrv": Item(program, True),
        "usr/bin/rrv-hunt": Item(read("examples/hunt/hunt"), True),
        "usr/bin/rrv-cc": Item(link="../share/rrv/kit/cc"),
        "usr/share/bash-completion/completions/rrv": Item(read("docs/rrv.bash")),
        "usr/share/lintian/overrides/rrv": Item("\n".join(meant).encode()),
        f"{DOCS}/changelog.gz": packed(debian_changelog(releases)),
        f"{DOCS}/README.Debian": Item(FOR_DEBIAN.encode()),
        f"{DOCS}/copyright": Item(COPYRIGHT.encode()),
        **{f"usr/share/man/man1/{name}.1.gz": packed(read(path)) for name, path in pages.items()},
        **tree_of("examples/kit", "usr/share/rrv/kit"),
        **tree_of("examples", f"{DOCS}/examples"),
        **documents(),
    }
    return {path: found[path] for path in sorted(found)}


def folders_of(paths: Iterable[str]) -> list[str]:
    """All folders above these paths, each before what it has."""
    return sorted({str(it) for path in paths for it in pathlib.PurePath(path).parents} - {"."})


def control_files(version: str, depends: str, files: Mapping[str, Item]) -> dict[str, Item]:
    """What dpkg reads of the package: its fields, and the sums of its files."""
    kibibytes = sum(-(-len(it.data) // 1024) or 1 for it in files.values()) + len(folders_of(files))
    described = (textwrap.fill(it, 78, initial_indent=" ", subsequent_indent=" ") for it in DESCRIPTION)
    fields = {
        "Package": "rrv", "Version": version, "Architecture": "amd64", "Maintainer": maintainer(),
        "Installed-Size": f"{kibibytes}", "Depends": depends, "Recommends": RECOMMENDS, "Suggests": SUGGESTS,
        "Section": "devel", "Priority": "optional", "Description": "\n".join([SYNOPSIS, "\n .\n".join(described)]),
    }  # fmt: skip
    sums = "".join(f"{hashlib.md5(it.data).hexdigest()}  {path}\n" for path, it in files.items() if not it.link)
    control = "".join(f"{name}: {value}\n" for name, value in fields.items() if value)
    return {"DEBIAN/control": Item(control.encode()), "DEBIAN/md5sums": Item(sums.encode())}


def lay_out(folder: pathlib.Path, files: Mapping[str, Item], time: int) -> None:
    """Makes a folder of these, with their modes and this time, whatever the umask is."""
    folders = [folder, *(folder / it for it in folders_of(files))]
    for path in folders:
        path.mkdir()
    for name, item in files.items():
        path = folder / name
        if item.link:
            path.symlink_to(item.link)
        else:
            path.write_bytes(item.data)
            path.chmod(0o755 if item.runs else 0o644)
        os.utime(path, (time, time), follow_symlinks=False)
    for path in reversed(folders):
        path.chmod(0o755)
        os.utime(path, (time, time))


def build(files: Mapping[str, Item], time: int, path: str) -> None:
    """Makes the package of these, at this path."""
    with tempfile.TemporaryDirectory() as folder:
        lay_out(pathlib.Path(folder, "rrv"), files, time)
        words = ["dpkg-deb", "--root-owner-group", "-Zxz", "-z6", "--build", f"{folder}/rrv", f"{folder}/rrv.deb"]
        named = {**os.environ, "LC_ALL": "C", "SOURCE_DATE_EPOCH": f"{time}", "DPKG_DEB_THREADS_MAX": "1"}
        done = subprocess.run(words, env=named, stdin=subprocess.DEVNULL, capture_output=True, text=True, check=False)
        if done.returncode != 0:
            raise Refused(f"dpkg-deb failed: {done.stderr.strip()}")
        shutil.copyfile(f"{folder}/rrv.deb", path)


def time_of(release: Release) -> int:
    """The time of all files: as the environment says, or the day of the version."""
    said = os.environ.get("SOURCE_DATE_EPOCH") or f"{release.time}"
    if not re.fullmatch(r"\d{1,10}", said):
        raise Refused(f"SOURCE_DATE_EPOCH is no number of seconds: {said!r}")
    return int(said)


def make(path: str) -> str:
    """Makes the package, and returns its name."""
    if shutil.which("dpkg-deb") is None:
        raise Refused("dpkg-deb is not installed: it is part of Debian's package dpkg")
    program = pathlib.Path(os.environ.get("RRV_PROGRAM") or ROOT / "release" / "rrv")
    if not program.is_file():
        raise Refused(f"{program} is no file: name the program by RRV_PROGRAM")
    data = program.read_bytes()
    depends, version = depends_of(libraries_of(data)), version_of(program)
    releases = releases_of(read("CHANGELOG.md").decode())
    while releases and releases[0].version != version:
        releases.pop(0)
    if not releases:
        raise Refused(f"CHANGELOG.md has no version {version}, which {program} prints")
    if os.path.isdir(path):
        path = os.path.join(path, f"rrv_{version}_amd64.deb")
    elif not path.endswith(".deb"):
        raise Refused(f"{path} is no folder, and no name that ends in .deb")
    files = items(data, releases)
    build({**control_files(version, depends, files), **files}, time_of(releases[0]), path)
    return path


def main(words: Sequence[str]) -> int | None:
    """Makes the package into the folder, or by the name, that the word says."""
    if len(words) > 1 or words and words[0] in ("-h", "--help"):
        return None
    try:
        print(make(*words or ["."]))
    except (Refused, OSError) as error:
        print(f"package: {error}", file=sys.stderr)
        return 1
    return 0
