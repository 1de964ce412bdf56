"""The words of tools/run: the name of a tool, and the words that it takes."""
import importlib
import sys
from collections.abc import Mapping, Sequence

# The modules by the name of the tool, and what each does. `main` of a module takes the words and returns the status; or
# None if it takes no such words, and the module's docstring is printed.
TOOLS: dict[str, tuple[str, str]] = {
    "refused_growths": ("rrv_tools.refused_growths", "refuses each growth of a test in turn"),
    "rows": ("rrv_tools.rows", "prints which rows of the crates of cases are cases, and which are left out"),
    "records": ("rrv_tools.records", "prints the records of a store"),
    "kills": ("rrv_tools.cases.kills", "ends recordings and copies at random moments"),
    "ask_cases": ("rrv_tools.cases.asks", "asks random questions about random guests, and compares"),
    "compiled_guests": ("rrv_tools.makers.compiled_guests", "makes the guests that a compiler makes"),
    "quanta": ("rrv_tools.cases.quanta", "records a guest with each quantum, and compares it with single steps"),
    "random_guests": ("rrv_tools.cases.random_guests", "records random guests, again by their choices, and compares"),
    "recordings": ("rrv_tools.makers.recordings", "writes the recordings of replay_cases"),
    "slice_rows": ("rrv_tools.makers.slice_rows", "prints rows of slice_cases"),
    "vectors": ("rrv_tools.makers.vectors", "writes the rows of instructions of machine_cases"),
    "posix": ("rrv_tools.posix", "runs cases of the open POSIX test suite as guests and on Linux"),
    "package": ("rrv_tools.package", "makes the Debian package"),
    "race_picture": ("rrv_tools.race_picture", "draws a race of a recording"),
    "bench": ("rrv_tools.bench.__main__", "measures the program: `tools/run bench` lists what"),
    "core_file": ("rrv_tools.core_file", "prints what a core file has of the state"),
    "architecture": ("rrv_tools.prover.architecture", "compares docs/ARCHITECTURE.md, and what other pages have of it"),
    "build": ("rrv_tools.prover.build", "builds rrv, which proves it"),
    "crates_graph": ("rrv_tools.prover.crates_graph", "draws the crates that rrv is made of"),
    "edits": ("rrv_tools.prover.edits", "tries the wrong bodies of crates"),
    "places": ("rrv_tools.prover.places", "compares the lists of CONTRIBUTING.md with the tree"),
    "proofs_page": ("rrv_tools.prover.proofs_page", "prints what is proved, crate by crate"),
    "release": ("rrv_tools.prover.release", "writes the release, or compares it"),
    "tests_page": ("rrv_tools.tests_page", "writes the table of docs/TESTS.md, or compares it"),
    "wrap_proofs": ("rrv_tools.prover.wrap_proofs", "wraps long lines of definitions and proofs"),
    "power_loss": ("rrv_tools.cases.power_loss", "opens what a loss of power may leave of a store"),
    "storage_cases": ("rrv_tools.storage_cases", "writes the stores of crates/storage_cases, prints what rows have"),
    "hostile_stores": ("rrv_tools.cases.hostile_stores", "prints what `list` of stores that were made slow takes"),
}


def usage(tools: Mapping[str, tuple[str, str]], line: str) -> str:
    """The usage of a line, with a line for each tool."""
    width = max(map(len, tools))
    lines = [f"  {name:{width}}  {what}" for name, (_, what) in sorted(tools.items())]
    return "\n".join([f"usage: {line} NAME [WORD ..]", "", *lines, ""])


def main(words: Sequence[str], tools: Mapping[str, tuple[str, str]] = TOOLS, line: str = "tools/run") -> int:
    """Runs a tool; the status is the tool's, or 2 if there is none of that name, or none that takes these words."""
    if not words or words[0] not in tools:
        is_asked = list(words) in ([], ["-h"], ["--help"])
        print(usage(tools, line), end="", file=sys.stdout if is_asked else sys.stderr)
        return 0 if is_asked else 2
    module = importlib.import_module(tools[words[0]][0])
    status: int | None = module.main(words[1:])
    if status is None:
        print(module.__doc__, end="", file=sys.stderr)
    return 2 if status is None else status


if __name__ == "__main__":
    try:
        sys.exit(main(sys.argv[1:]))
    except KeyboardInterrupt:
        sys.exit(130)
