"""The wrong bodies of crates: edits, the functions that they change, and the line that says they were refused."""

import hashlib
import re
from collections.abc import Iterator, Mapping, Sequence
from dataclasses import dataclass, field
from pathlib import Path

from rrv_tools.prover.crates import ROOT, TEXTS, files_of, listed

FOLDERS = ("must-fail", "wrong-bodies")
# A string, a character and a lifetime are tokens; so is a comment, which is left out.
RUST_TOKEN = re.compile(
    r"""(?P<comment>//[^\n]*|/\*.*?\*/)|b?r(#*)".*?"\2|b?"(?:\\.|[^"\\])*"|b?'(?:\\.[^']*|[^'\\])'|'\w+|\w+|\s+|.""",
    re.S,
)
# So is each bracket of a proof. A comma or semicolon before a closing one says nothing: the formatter sets it.
ANTT_TOKEN = re.compile(
    r"""(?P<comment>(?<!\S)--[^\n]*|[,;](?=\s*[)}\]]))|"(?:\\.|[^"\\])*"|[()\[\]{},;]|[^\s()\[\]{},;]+|\s+"""
)
# An import, with the crate that it names, and what it brings in from the same module.
IMPORT = re.compile(
    r"^\s*((?:(?:pub|ghost|unfoldable)\s+)*use)\s+(?:Rattle\.)?(\w+)((?:\.|::)[^;{}\n]*)(?:\{([^{}]*)\})?;?$", re.M
)
# Each word of an edit counts.
EDIT_TOKEN = re.compile(r"(?P<comment>(?!))|\S+|\s+")

Texts = dict[str, str]


def edits_of(name: str) -> list[Path]:
    """The files of a crate's edits."""
    return [it for it in files_of(name, FOLDERS) if it.suffix == ".edit"]


# ---- what is noted


def tokens(path: Path, known: Mapping[str, object]) -> list[object]:
    """The words of a text, without comments and layout, and then its imports; of what is from one of these crates, the
    names alone."""
    pattern = {".rt": RUST_TOKEN, ".edit": EDIT_TOKEN}.get(path.suffix, ANTT_TOKEN)
    text = path.read_text(encoding="utf-8")
    imported: set[tuple[str, ...]] = set()

    def take(it: re.Match[str]) -> str:
        crate, place = (it[2], it[3]) if it[2] not in known else ("", "" if it[4] else re.split(r"\.|::", it[3])[-1])
        imported.update((it[1], crate, place.strip(), name.strip()) for name in (it[4] or "").split(","))
        return ""

    if path.suffix != ".edit":
        text = IMPORT.sub(take, text)
    words = (it[0] for it in pattern.finditer(text) if not it["comment"] and not it[0].isspace())
    return [*words, *sorted(imported)]


def sum_of(name: str) -> str:
    """The sum of a crate's code, specs, proofs and edits."""
    total, known = hashlib.sha256(), listed()
    for path in files_of(name, TEXTS):
        total.update(repr((str(path.relative_to(ROOT / "crates" / name)), tokens(path, known))).encode())
    for path in sorted(edits_of(name), key=lambda it: it.name):
        total.update(repr((path.name, tokens(path, known))).encode())
    return total.hexdigest()[:32]


def note_of(name: str) -> Path:
    """The file that says at which sum how many edits of a crate were refused."""
    return ROOT / "crates" / name / "wrong-bodies" / "tried"


def line_of(name: str) -> str:
    """What that file says if all were refused at the text that the crate has."""
    return f"{sum_of(name)} {len(edits_of(name))}\n"


def note(name: str) -> None:
    """Notes that all edits of a crate were refused."""
    note_of(name).parent.mkdir(exist_ok=True)
    note_of(name).write_text(line_of(name), encoding="utf-8")


def is_stale(name: str) -> bool:
    """Whether a crate's line is missing or not that of its text, or one of its edits no longer applies."""
    noted = note_of(name).read_text(encoding="utf-8") if note_of(name).is_file() else ""
    return bool(noted or edits_of(name)) and (noted != line_of(name) or bool(lost_texts(name)))


def lost_texts(name: str) -> list[str]:
    """The texts of a crate's edits that don't stand just once. A change of layout, which no sum shows, can cause it."""
    edits = [Edit.of(name, it) for it in edits_of(name)]
    return [f"{name}/{it.name}: {lost}" for it in edits for lost in it.applied({})[1]]


# ---- where an edit stands


@dataclass(frozen=True)
class Function:
    """A function of a source file: the type and trait whose impl it stands in, its first line, and its body's lines."""

    name: str
    owner: str
    head: int
    first: int
    last: int


def owner_of(line: str) -> str:
    """The name that the prover gives to an impl or trait: its type, and after it its trait."""
    head = line.strip().removeprefix("pub ")
    if not re.match(r"(impl|trait)\b", head):
        return ""
    while (shorter := re.sub(r"<[^<>]*>", "", head)) != head:
        head = shorter
    head = re.sub(r"^(impl|trait)\s+", "", head).split("{")[0].split(" where ")[0]
    trait, _, of = head.rpartition(" for ")
    return re.sub(r"\W", "", f"{of.split(':')[0]}{trait}")


def functions(text: str) -> Iterator[Function]:
    """The functions of a source file, by the layout that rt fmt gives it."""
    rows, owners = text.split("\n"), [("", "")]
    for number, row in enumerate(rows):
        indent = row[: len(row) - len(row.lstrip())]
        if row == f"{indent}}}" and owners[1:] and owners[-1][0] == indent:
            owners.pop()
        if owner_of(row) and row.rstrip().endswith("{"):
            owners.append((indent, owner_of(row)))
        named = re.match(r"\s*(?:pub(?:\([^)]*\))? )?(?:const |unsafe )*fn (\w+)", row)
        if named and (body := body_at(rows, number, indent)):
            yield Function(named[1], owners[-1][1], number, *body)


def body_at(rows: Sequence[str], number: int, indent: str) -> tuple[int, int] | None:
    """The first and the last line of the body of the function that begins there, if it has one."""
    below = range(number, len(rows))
    opens = (it for it in below if rows[it] == f"{indent}{{" or rows[it].endswith("{") and "ensures" not in rows[it])
    start = next(opens, None)
    last = next((it for it in below if rows[it] == f"{indent}}}"), None)
    return (start + 1, last) if start is not None and last is not None and start < last else None


@dataclass(eq=False)
class Edit:
    """An edit: its texts, file by file, and the one function whose body it changes (None: more than that)."""

    crate: str
    name: str
    pairs: list[tuple[str, str, str]] = field(default_factory=list)
    file: str = ""
    function: Function | None = None
    proved_name: str | None = None

    @classmethod
    def of(cls, crate: str, path: Path) -> "Edit":
        """Reads an edit."""
        made, file, old = cls(crate, path.stem), "", ""
        for row in path.read_text(encoding="utf-8").split("\n"):
            if row.startswith("file: "):
                file = row[6:].strip()
            elif row.startswith("old: "):
                old = row[5:]
            elif row.startswith("new:") and file and old:
                made.pairs.append((file, old, row[4:].removeprefix(" ")))
                old = ""
        places = {made.place(file, old) for file, old, _ in made.pairs}
        if len(places) == 1:
            made.file, made.function = places.pop()
        return made

    def text(self, file: str) -> str:
        """A text of the crate, empty if it is missing."""
        path = ROOT / "crates" / self.crate / file
        return path.read_text(encoding="utf-8") if path.is_file() else ""

    def place(self, file: str, old: str) -> tuple[str, Function | None]:
        """The function in whose body a text stands."""
        text = self.text(file) if file.endswith(".rt") else ""
        at = text.find(old)
        first, last = text.count("\n", 0, at), text.count("\n", 0, at + len(old))
        inside = [it for it in functions(text) if at >= 0 and it.first <= first and last <= it.last]
        return file, inside[-1] if inside else None

    def applied(self, texts: Texts) -> tuple[Texts, list[str]]:
        """The texts with this edit too, and those of its own texts that don't stand just once."""
        made, lost = dict(texts), []
        for file, old, new in self.pairs:
            text = made[file] if file in made else self.text(file)
            if text.count(old) != 1:
                lost.append(f"{text.count(old)} times in {file}: {old.strip()}")
            made[file] = text.replace(old, new)
        return made, lost if self.pairs else ["no text"]

    def find_among(self, names: set[str]) -> None:
        """Sets the prover's name of the edit's function, if that is one of these and the edit applies."""
        if not self.function or self.applied({})[1]:
            return
        words = (it for it in self.file[4:-3].split("/") if it not in ("lib", "main", "mod"))
        path = "::".join(it for it in (self.function.owner, self.function.name) if it)
        wanted = "::".join([self.crate, *words, path])
        others = [it for it in names if self.function.owner and it.endswith(f"::{path}")]
        self.proved_name = wanted if wanted in names else others[0] if len(others) == 1 else None
