"""Wraps the lines of definitions and proofs that are longer than 140 columns.

usage: tools/run wrap_proofs              wraps them in each .antt file of crates/
       tools/run wrap_proofs --check      changes nothing: names the files that have some, and ends with 1 if any

A line is broken where a space stands: after `=` and `in`, else between the outermost parts. So each word stays. Lines
of imports and comments stay as they are. `rt fmt` then lays the parts out.
"""
import re
from collections.abc import Sequence
from dataclasses import dataclass
from itertools import pairwise

from rrv_tools.prover.crates import ROOT, files_below, report

WIDTH = 140
# Lines that stay: imports, comments, and what has to stand on one line.
STAYS = re.compile(
    r"\s*(--|(pub |unfoldable |ghost )*(use|mod|open|unfolding|infix[lr]?|ruleset)\b)|.*(\s--\s|\{-|\sdo\s)"
)
# A line may end with the former, and begin with the latter.
ENDS = {"→", "×", "⊎"}
BEGINS = {"∙", "++", "∷", "≡", "≢", "+", "-", "*", "/", "%", "≤", "<", "↔", "==", "&&", "||", "^", "|", "⊎"}
# No line begins with the former, or ends with the latter.
NEVER_BEGINS = {"=", ":", "in", "where", "↦"}
NEVER_ENDS = {"λ", "¬", "¬◌", "|", "let", "{", "[", "pub", "abbrev", *(BEGINS - ENDS)}


@dataclass(frozen=True)
class Gap:
    """The spaces between two tokens: where they begin, how deep in brackets they lie, and the tokens."""

    place: int
    depth: int
    before: str
    after: str

    def may_break(self, following: str) -> bool:
        """Whether a line may be broken here, if this follows the token after it."""
        if self.after in NEVER_BEGINS or self.before in NEVER_ENDS:
            return False
        # A line that begins with `name :` or `name =` is read as a declaration, but in a record.
        return following not in ("=", ":") or self.after[0] in "([{" or self.before.endswith((";", "{"))

    def cost(self) -> int:
        """How bad a break is, the outermost first."""
        if self.depth == 0 and self.before == "=":
            return 0
        if self.before in ("in", "↦"):
            return 20 * self.depth + 1
        if self.before in ENDS or self.before.endswith((",", ";")):
            # A part of a tuple stands as deep as the tuple's brackets.
            return 20 * self.depth + 2
        return 20 * self.depth + (3 if self.after in BEGINS else 6)


def gaps(line: str) -> list[Gap]:
    """The gaps between tokens. No space in quotes is one."""
    tokens = [*re.finditer(r'(?:"[^"]*(?:"|$)|[^" ])+', line)]
    found, depth = [], 0
    for one, other in pairwise(tokens):
        bare = re.sub(r'"[^"]*("|$)', "", one[0])
        depth += sum(map(bare.count, "([{")) - sum(map(bare.count, ")]}"))
        found.append(Gap(one.end(), depth, one[0], other[0].partition(" ")[0]))
    return found


def in_binder(line: str, place: int) -> bool:
    """Whether a place lies between a λ and its dot."""
    last = line.rfind("λ", 0, place)
    return last >= 0 and not re.search(r"\.(\s|$)", line[last:place])


def break_at(line: str, indent: int) -> int | None:
    """The best space at which to break a line that is too long."""
    found, choices = gaps(line), []
    for it, following in zip(found, [*(it.after for it in found[1:]), ""], strict=False):
        if indent + 12 <= it.place <= WIDTH and it.may_break(following) and not in_binder(line, it.place):
            choices.append((it.cost(), -it.place))
    return -min(choices)[1] if choices else None


def let_end(line: str) -> int | None:
    """Where a line that begins with `let` goes on after its `in`."""
    lets = 0
    for it in gaps(line) if re.match(r"\s*let\s", line) else ():
        lets += it.before == "let"
        if it.before == "in" and it.depth == 0:
            lets -= 1
            if lets == 0:
                return it.place
    return None


def wrapped(line: str, indent: int, deeper: int) -> list[str]:
    """A line as lines of at most 140 columns, if it has spaces enough."""
    if len(line) <= WIDTH:
        return [line]
    end = let_end(line)
    if end is not None:
        return wrapped(line[:end], indent, deeper) + wrapped(" " * indent + line[end:].lstrip(), indent, deeper)
    place = break_at(line, indent)
    if place is None:
        return [line]
    return [line[:place].rstrip(), *wrapped(" " * deeper + line[place:].lstrip(), deeper, deeper)]


def text_wrapped(text: str) -> str:
    """A text with its long lines wrapped."""
    lines = []
    for line in text.split("\n"):
        indent = len(line) - len(line.lstrip(" "))
        lines += [line] if len(line) <= WIDTH or STAYS.match(line) else wrapped(line, indent, indent + 4)
    return "\n".join(lines)


def main(words: Sequence[str]) -> int | None:
    """Wraps, or compares."""
    if [*words] not in ([], ["--check"]):
        return None
    wrong: dict[str, list[str]] = {}
    for file in files_below(ROOT / "crates"):
        if file.suffix != ".antt":
            continue
        text, path = file.read_text(encoding="utf-8"), str(file.relative_to(ROOT))
        new = text_wrapped(text)
        why = f"{path} has lines longer than {WIDTH} columns: run tools/run wrap_proofs"
        wrong[path] = [] if new == text else [why]
        if new != text and not words:
            file.write_text(new, encoding="utf-8")
    return report(wrong) if words else 0
