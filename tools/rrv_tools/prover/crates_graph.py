"""Draws the crates that rrv is made of, as crates.txt has them.

usage: tools/run crates_graph              writes docs/crates.svg
       tools/run crates_graph --check      prints what is wrong with that file, and counts it

A crate stands above those that it names in crates.txt, and right below the lowest that stands on it. A line leads to a
crate that it names, unless it also stands on that one by another. The colour says which definitions a crate stands on:
those of the machine and its records (rrv_model), those of disks and stores (store_model), both or neither.
"""
from collections.abc import Sequence
from dataclasses import dataclass, field
from itertools import combinations, pairwise

from rrv_tools.prover.crates import ROOT, Uses, below, chains, listed, product, reduced, report

PICTURE = ROOT / "docs" / "crates.svg"
MACHINE, STORES = "rrv_model", "store_model"
KINDS = {
    "both": "on both",
    "machine": "on the machine and its records (rrv_model)",
    "stores": "on disks and stores (store_model)",
    "neither": "on neither",
}
# The width of a letter, the height of a crate, how far crates of a layer and layers are apart, the room around and for
# the key.
LETTER, HEIGHT, APART, LAYER, MARGIN, KEY = 7.9, 26, 16, 62, 18, 30
# How often the layers are put in order, and how often each is pulled to where its lines lead.
SWEEPS, PULLS = 24, 60
STYLE = """
  .ground { fill: #ffffff }
  text { font: 13px ui-monospace, SFMono-Regular, Menlo, Consolas, monospace; fill: #1f2328 }
  .key { font: 12px system-ui, sans-serif; fill: #57606a }
  path { fill: none; stroke: #8c959f; stroke-width: 1.2 }
  rect { stroke-width: 1.2 }
  .both { fill: #fbefff; stroke: #8250df }
  .machine { fill: #ddf4ff; stroke: #0969da }
  .stores { fill: #fff1e5; stroke: #bc4c00 }
  .neither { fill: #f6f8fa; stroke: #57606a }
  @media (prefers-color-scheme: dark) {
    .ground { fill: #0d1117 }
    text { fill: #e6edf3 }
    .key { fill: #8d96a0 }
    path { stroke: #6e7681 }
    .both { fill: #271052; stroke: #a371f7 }
    .machine { fill: #0c2d6b; stroke: #4493f8 }
    .stores { fill: #4a2000; stroke: #db6d28 }
    .neither { fill: #21262d; stroke: #8d96a0 }
  }
"""


@dataclass(eq=False, repr=False)
class Spot:
    """A place in a layer: a crate's, or one by which a line passes through the layer."""

    name: str
    width: float
    up: list["Spot"] = field(default_factory=list)
    down: list["Spot"] = field(default_factory=list)
    x: float = 0.0
    y: float = 0.0


def out_of_order(uses: Uses, names: list[str]) -> str:
    """One of these crates that doesn't follow one on which it stands in crates.txt; nothing if there is none."""
    wrong = ((name, it) for at, name in enumerate(names) for it in uses[name] if it not in names[:at])
    return next((f"{name} stands on {it}, and not after it" for name, it in wrong), "")


def layers_of(edges: Uses) -> tuple[list[list[Spot]], dict[str, Spot]]:
    """The layers from the lowest up, with a spot in each that a line passes. Each crate is as high as can be."""
    depth = {it: len(chain) for it, chain in chains(edges, dict.fromkeys(edges, 1.0)).items()}
    at = {it: max(depth.values()) - depth[it] for it in edges}
    spots = {it: Spot(it, LETTER * len(it) + 18) for it in edges}
    layers = [[spots[it] for it in edges if at[it] == layer] for layer in range(max(at.values()) + 1)]
    for name, names in edges.items():
        for it in names:
            last = spots[name]
            for layer in range(at[name] - 1, at[it] - 1, -1):
                passed = Spot("", 4) if layer > at[it] else spots[it]
                layers[layer] += [passed] if layer > at[it] else []
                last.down.append(passed)
                passed.up.append(last)
                last = passed
    return layers, spots


def order(layers: list[list[Spot]]) -> None:
    """Puts the spots of each layer in the order of those that they are joined with, up and down in turn; keeps the best
    order seen."""
    best, kept = crossings(layers), [[*it] for it in layers]
    for sweep in range(SWEEPS):
        is_up = sweep % 2 == 0
        for here in layers[1:] if is_up else layers[-2::-1]:
            ranks = {spot: rank for layer in layers for rank, spot in enumerate(layer)}
            here.sort(key=lambda spot: mean([ranks[it] for it in (spot.down if is_up else spot.up)] or [ranks[spot]]))
        crossed = crossings(layers)
        if crossed < best:
            best, kept = crossed, [[*it] for it in layers]
    for layer, spots in zip(layers, kept, strict=True):
        layer[:] = spots


def crossings(layers: list[list[Spot]]) -> int:
    """How many pairs of lines cross."""
    count = 0
    for lower, upper in pairwise(layers):
        rank = {spot: place for place, spot in enumerate(lower)}
        ends = [rank[it] for spot in upper for it in sorted(spot.down, key=rank.__getitem__)]
        count += sum(left > right for left, right in combinations(ends, 2))
    return count


def mean(numbers: Sequence[float]) -> float:
    """Their mean."""
    return sum(numbers) / len(numbers)


def place(layers: list[list[Spot]]) -> float:
    """Gives the spots their places, each near those that it is joined with, and returns the width of all."""
    for layer in layers:
        spread(layer, [0.0] * len(layer))
    for pull in range(PULLS):
        for layer in layers if pull % 2 else reversed(layers):
            spread(layer, [mean([it.x for it in (*spot.up, *spot.down)] or [spot.x]) for spot in layer])
    left = min(it.x - it.width / 2 for layer in layers for it in layer)
    for number, layer in enumerate(layers):
        for spot in layer:
            spot.x, spot.y = spot.x - left + MARGIN, MARGIN + LAYER * (len(layers) - 1 - number) + HEIGHT / 2
    return max(it.x + it.width / 2 for layer in layers for it in layer) + MARGIN


def spread(layer: list[Spot], wanted: list[float]) -> None:
    """Puts the spots of a layer, in their order, as near as their widths allow to where each is wanted."""
    offsets, at = [], 0.0
    for number, spot in enumerate(layer):
        at += (layer[number - 1].width + spot.width) / 2 + APART if number else 0
        offsets.append(at)
    blocks: list[tuple[float, int]] = []
    for want, offset in zip(wanted, offsets, strict=True):
        block = (want - offset, 1)
        while blocks and blocks[-1][0] > block[0]:
            value, many = blocks.pop()
            block = ((value * many + block[0] * block[1]) / (many + block[1]), many + block[1])
        blocks.append(block)
    values = [value for value, many in blocks for _ in range(many)]
    for spot, value, offset in zip(layer, values, offsets, strict=True):
        spot.x = value + offset


def line_of(upper: Spot, lower: Spot) -> str:
    """The line from a crate to one that it stands on, through the layers between."""
    x, y = upper.x, upper.y + HEIGHT / 2
    path = [f"M{x:.1f} {y:.1f}"]
    while True:
        to = lower.y - (HEIGHT / 2 if lower.name else 0)
        middle = (y + to) / 2
        path.append(f"C{x:.1f} {middle:.1f} {lower.x:.1f} {middle:.1f} {lower.x:.1f} {to:.1f}")
        if lower.name:
            return f'<path d="{" ".join(path)}"/>'
        x, y, lower = lower.x, to, lower.down[0]


def kind_of(uses: Uses, name: str) -> str:
    """Which definitions a crate stands on."""
    stands = {*below(uses, name), name}
    return {(1, 1): "both", (1, 0): "machine", (0, 1): "stores"}.get((MACHINE in stands, STORES in stands), "neither")


def key(top: float) -> list[str]:
    """What the colours say."""
    found, at = [f'<text class="key" x="{MARGIN}" y="{top + 11:.1f}">Stands</text>'], MARGIN + 50.0
    for kind, text in KINDS.items():
        found.append(f'<rect class="{kind}" x="{at:.1f}" y="{top:.1f}" width="14" height="14" rx="3"/>')
        found.append(f'<text class="key" x="{at + 20:.1f}" y="{top + 11:.1f}">{text}</text>')
        at += 20 + 6.1 * len(text) + 22
    return found


def drawn() -> str:
    """The picture."""
    uses = listed()
    edges = {it: reduced(uses, it) for it in product(uses)}
    layers, spots = layers_of(edges)
    order(layers)
    width, height = place(layers), MARGIN * 2 + LAYER * (len(layers) - 1) + HEIGHT + KEY
    size = f'viewBox="0 0 {width:.0f} {height:.0f}" width="{width:.0f}" height="{height:.0f}"'
    parts = [f'<svg xmlns="http://www.w3.org/2000/svg" {size} role="img">']
    parts += ["<title>The crates that rrv is made of</title>", f"<style>{STYLE}</style>"]
    parts.append(f'<rect class="ground" width="{width:.0f}" height="{height:.0f}" rx="8"/>')
    parts += [line_of(spot, it) for spot in spots.values() for it in spot.down]
    for name, spot in spots.items():
        where = f'x="{spot.x - spot.width / 2:.1f}" y="{spot.y - HEIGHT / 2:.1f}" width="{spot.width:.1f}"'
        parts.append(f'<rect class="{kind_of(uses, name)}" {where} height="{HEIGHT}" rx="5"/>')
        parts.append(f'<text x="{spot.x:.1f}" y="{spot.y + 4.5:.1f}" text-anchor="middle">{name}</text>')
    return "\n".join([*parts, *key(height - KEY), "</svg>"]) + "\n"


def wrong_with() -> list[str]:
    """What is wrong with the order of crates.txt, or else with the picture."""
    if wrong := out_of_order(listed(), product(listed())):
        return [f"crates.txt: {wrong}"]
    is_same = PICTURE.is_file() and PICTURE.read_text(encoding="utf-8") == drawn()
    path = PICTURE.relative_to(ROOT)
    return [] if is_same else [f"{path}: not what tools/run crates_graph draws of crates.txt"]


def main(words: Sequence[str]) -> int | None:
    """Writes the picture, or compares it."""
    if [*words] not in ([], ["--check"]):
        return None
    if not words and not out_of_order(listed(), product(listed())):
        PICTURE.write_text(drawn(), encoding="utf-8")
        return 0
    return report({"picture": wrong_with()})
