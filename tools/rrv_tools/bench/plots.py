"""Line plots as SVG: what was measured, by a setting in a row of settings."""

import dataclasses
import math
from collections.abc import Mapping, Sequence

WIDTH, HEIGHT, LEFT, RIGHT, TOP, BOTTOM = 720, 356, 64, 150, 60, 68
# How far apart the names of lines stand at least, and how many marks an axis has at most
LEAST_APART, MOST_MARKS = 17, 6
STYLE = """
  .ground { fill: #ffffff }
  text { font: 13px system-ui, "Segoe UI", Helvetica, Arial, sans-serif; fill: #1f2328 }
  .title { font-size: 15px; font-weight: 600 }
  .small { font-size: 12px; fill: #57606a }
  .grid { stroke: #d0d7de }
  .axis { stroke: #8c959f }
  .lead { stroke: #8c959f; stroke-dasharray: 2 3; fill: none }
  .line { fill: none; stroke-width: 2.2 }
  .one { stroke: #0969da } .dot.one { fill: #0969da } text.one { fill: #0969da; stroke: none }
  .two { stroke: #bc4c00 } .dot.two { fill: #bc4c00 } text.two { fill: #bc4c00; stroke: none }
  .three { stroke: #8250df } .dot.three { fill: #8250df } text.three { fill: #8250df; stroke: none }
  .four { stroke: #1a7f37 } .dot.four { fill: #1a7f37 } text.four { fill: #1a7f37; stroke: none }
  @media (prefers-color-scheme: dark) {
    .ground { fill: #0d1117 }
    text { fill: #e6edf3 }
    .small { fill: #8d96a0 }
    .grid { stroke: #30363d }
    .axis { stroke: #6e7681 }
    .lead { stroke: #6e7681 }
    .one { stroke: #4493f8 } .dot.one { fill: #4493f8 } text.one { fill: #4493f8 }
    .two { stroke: #db6d28 } .dot.two { fill: #db6d28 } text.two { fill: #db6d28 }
    .three { stroke: #a371f7 } .dot.three { fill: #a371f7 } text.three { fill: #a371f7 }
    .four { stroke: #3fb950 } .dot.four { fill: #3fb950 } text.four { fill: #3fb950 }
  }
"""
COLOURS = ("one", "two", "three", "four")


@dataclasses.dataclass(frozen=True)
class Plot:
    """What is measured, of what, by which settings; of each line a value for each setting, None if there is none; and
    where and when it was measured."""

    title: str
    unit: str
    setting: str
    settings: list[str]
    lines: Mapping[str, Sequence[float | None]]
    circumstances: str
    is_log: bool = False


def shown(value: float) -> str:
    """A value in three digits at most."""
    return f"{value:.0f}" if value >= 100 else f"{value:.3g}"


def marks_of(plot: Plot) -> list[float]:
    """The marks of the axis of values: the first lies at or below all values, and the last at or above."""
    values = [it for line in plot.lines.values() for it in line if it is not None]
    steps = [it * 10.0**power for power in range(-6, 12) for it in (1, 2, 5)]
    if plot.is_log:
        low = max(it for it in steps if it <= min(values))
        high = min(it for it in steps if max(values) <= it)
        kept = [it for it in steps if low <= it <= high]
        few = [it for it in kept if it in (low, high) or math.log10(it).is_integer()]
        return kept if len(kept) <= 2 * MOST_MARKS else few
    step = next(it for it in steps if max(values) / it <= MOST_MARKS)
    return [number * step for number in range(math.ceil(max(values) / step) + 1)]


class Scale:
    """Where settings and values stand."""

    def __init__(self, plot: Plot) -> None:
        self.marks, self.is_log, self.many = marks_of(plot), plot.is_log, len(plot.settings)

    def x(self, place: int) -> float:
        """Where the setting at a place of the row stands."""
        return LEFT + 30 + (WIDTH - LEFT - RIGHT - 60) * place / max(1, self.many - 1)

    def y(self, value: float) -> float:
        """Where a value stands."""
        low, high, at = self.marks[0], self.marks[-1], value
        if self.is_log:
            low, high, at = math.log(low), math.log(high), math.log(value)
        return HEIGHT - BOTTOM - (HEIGHT - TOP - BOTTOM) * (at - low) / (high - low)


def text_at(x: float, y: float, words: str, kind: str = "", anchor: str = "middle") -> str:
    """A text in the plot."""
    safe = words.replace("&", "&amp;").replace("<", "&lt;")
    return f'<text class="{kind}" x="{x:.1f}" y="{y:.1f}" text-anchor="{anchor}">{safe}</text>'


def axes(plot: Plot, scale: Scale) -> list[str]:
    """The marks of both axes, with lines across for values."""
    parts = []
    for mark in scale.marks:
        y = scale.y(mark)
        parts.append(f'<line class="grid" x1="{LEFT}" y1="{y:.1f}" x2="{WIDTH - RIGHT}" y2="{y:.1f}"/>')
        parts.append(text_at(LEFT - 8, y + 4, shown(mark), "small", "end"))
    bottom = HEIGHT - BOTTOM
    parts.append(f'<line class="axis" x1="{LEFT}" y1="{bottom}" x2="{WIDTH - RIGHT}" y2="{bottom}"/>')
    parts += [text_at(scale.x(place), bottom + 20, it, "small") for place, it in enumerate(plot.settings)]
    parts.append(text_at((LEFT + WIDTH - RIGHT) / 2, bottom + 40, plot.setting, "small"))
    parts.append(text_at(LEFT - 8, TOP - 14, plot.unit, "small", "end"))
    return parts


def spread(wanted: list[float]) -> list[float]:
    """Places near to these, in the same order, and apart from each other."""
    placed = dict.fromkeys(range(len(wanted)), 0.0)
    last = -math.inf
    for number in sorted(placed, key=wanted.__getitem__):
        placed[number] = last = max(wanted[number], last + LEAST_APART)
    return [placed[it] for it in range(len(wanted))]


def lines_of(plot: Plot, scale: Scale) -> list[str]:
    """The lines, each with its name and its last value at the right."""
    parts, ends = [], []
    for colour, (name, values) in zip(COLOURS, plot.lines.items(), strict=False):
        points = [(scale.x(place), scale.y(it), it) for place, it in enumerate(values) if it is not None]
        path = " ".join(f"{x:.1f},{y:.1f}" for x, y, _ in points)
        parts.append(f'<polyline class="line {colour}" points="{path}"/>')
        parts += [f'<circle class="dot {colour}" cx="{x:.1f}" cy="{y:.1f}" r="3.6"/>' for x, y, _ in points]
        ends.append((colour, name, points[-1]))
    places = spread([it[2][1] for it in ends])
    for (colour, name, (x, y, value)), at in zip(ends, places, strict=True):
        parts.append(f'<path class="lead" d="M{x + 6:.1f} {y:.1f} L{WIDTH - RIGHT + 2} {at:.1f}"/>')
        parts.append(text_at(WIDTH - RIGHT + 8, at + 4, f"{name} {shown(value)}", colour, "start"))
    return parts


def svg(plot: Plot) -> str:
    """The plot, as SVG."""
    scale = Scale(plot)
    size = f'viewBox="0 0 {WIDTH} {HEIGHT}" width="{WIDTH}" height="{HEIGHT}"'
    parts = [f'<svg xmlns="http://www.w3.org/2000/svg" {size} role="img">']
    parts += [f"<title>{plot.title}</title>", f"<style>{STYLE}</style>"]
    parts += [f'<rect class="ground" width="{WIDTH}" height="{HEIGHT}" rx="8"/>']
    parts += [text_at(16, 24, plot.title, "title", "start")]
    parts += [text_at(16, HEIGHT - 8, plot.circumstances, "small", "start")]
    return "\n".join([*parts, *axes(plot, scale), *lines_of(plot, scale), "</svg>"]) + "\n"
