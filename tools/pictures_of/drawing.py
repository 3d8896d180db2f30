"""Pictures as texts of SVG: boxes, lines, arrows and words, each by a function that gives its elements."""
from __future__ import annotations

from dataclasses import dataclass
from html import escape
from typing import Iterator, Sequence

from .widths import width_of

# As the page draws its stage: the same colours and fonts.
STYLE = """\
text { fill: #1b1f24; font: 12px system-ui, sans-serif; }
.sheet { fill: #ffffff; }
.title { font-weight: 700; font-size: 15px; }
.head { font-weight: 700; font-size: 12.5px; }
.name { font: 700 11.5px ui-monospace, Menlo, Consolas, "DejaVu Sans Mono", monospace; }
.code { font: 11.5px ui-monospace, Menlo, Consolas, "DejaVu Sans Mono", monospace; }
.soft { fill: #525b66; font-size: 11.5px; }
.label { font-size: 11.5px; paint-order: stroke; stroke: #ffffff; stroke-width: 4px; }
.band { fill: #f4f5f6; stroke: none; }
.card { fill: #ffffff; stroke: #7d8794; stroke-width: 1.3; }
.card.blue { fill: #e6f0fa; stroke: #0b5cad; }
.card.green { fill: #e7f4ea; stroke: #1a6b36; }
.card.brown { fill: #fbeee3; stroke: #a04400; }
.card.red { fill: #fbe9e7; stroke: #b3261e; }
.way { fill: none; stroke: #525b66; stroke-width: 1.5; }
.way.thin { stroke: #7d8794; stroke-width: 1.3; }
.way.blue { stroke: #0b5cad; }
.way.green { stroke: #1a6b36; }
.way.brown { stroke: #a04400; }
.way.red { stroke: #b3261e; }
.way.dashed { stroke-dasharray: 5, 4; }
.tip { fill: #525b66; }
.tip.thin { fill: #7d8794; }
.tip.blue { fill: #0b5cad; }
.tip.green { fill: #1a6b36; }
.tip.brown { fill: #a04400; }
.tip.red { fill: #b3261e; }"""
WIDTH = 876
# The sizes of the kinds of words, as STYLE has them.
SIZES = {"title": 15.0, "head": 12.5, "name": 11.5, "code": 11.5, "soft": 11.5, "label": 11.5, "": 12.0}
TIP, HALF_TIP = 8, 4


class DoesNotFit(Exception):
    """Words that are wider than their place, or higher."""


@dataclass(frozen=True)
class Rect:
    """A part of the sheet, in pixels."""

    left: float
    top: float
    width: float
    height: float

    @property
    def right(self) -> float:
        return self.left + self.width

    @property
    def bottom(self) -> float:
        return self.top + self.height

    @property
    def middle(self) -> float:
        return self.left + self.width / 2

    @property
    def centre(self) -> float:
        return self.top + self.height / 2


Point = tuple[float, float]


def number(value: float) -> str:
    """As short as it can be written, to a tenth of a pixel."""
    return f"{value:.1f}".removesuffix(".0")


def words(x: float, y: float, text: str, kind: str = "", anchor: str = "start") -> str:
    """One line of text, of a kind that STYLE has."""
    of_kind = f' class="{kind}"' if kind else ""
    anchored = "" if anchor == "start" else f' text-anchor="{anchor}"'
    return (f'<text x="{number(x)}" y="{number(y)}"{of_kind}{anchored}>'
            f"{escape(text, quote=False)}</text>")


def wrapped(text: str, kind: str, width: float) -> list[str]:
    """A text in lines no wider than this."""
    lines: list[str] = []
    for word in text.split():
        if width_of(word, kind, SIZES[kind]) > width:
            raise DoesNotFit(f"{word} is wider than {number(width)} pixels")
        longer = f"{lines[-1]} {word}" if lines else word
        if lines and width_of(longer, kind, SIZES[kind]) <= width:
            lines[-1] = longer
        else:
            lines.append(word)
    return lines


def rect(place: Rect, kind: str, radius: int = 5) -> str:
    round_ = f' rx="{radius}"' if radius else ""
    return (f'<rect x="{number(place.left)}" y="{number(place.top)}" width="{number(place.width)}" '
            f'height="{number(place.height)}"{round_} class="{kind}"/>')


def tip(end: Point, before: Point, kind: str) -> str:
    """The tip of an arrow that ends here, along the axis by which it comes."""
    (x, y), (from_x, from_y) = end, before
    if abs(x - from_x) >= abs(y - from_y):
        back = -TIP if x > from_x else TIP
        shape = f"l{back} {-HALF_TIP}v{2 * HALF_TIP}z"
    else:
        back = -TIP if y > from_y else TIP
        shape = f"l{-HALF_TIP} {back}h{2 * HALF_TIP}z"
    return f'<path d="M{number(x)} {number(y)}{shape}" class="{f"tip {kind}".strip()}"/>'


def arrow(points: Sequence[Point], kind: str = "", both: bool = False) -> str:
    """An arrow through these points; its last part, and with two tips its first, is upright or level."""
    colour = kind.replace("dashed", "").strip()
    path = "M" + "L".join(f"{number(x)} {number(y)}" for x, y in points)
    tips = tip(points[-1], points[-2], colour) + (tip(points[0], points[1], colour) if both else "")
    return f'<path d="{path}" class="{f"way {kind}".strip()}"/>{tips}'


def curve(start: Point, end: Point, kind: str = "") -> str:
    """An arrow that leaves and comes level."""
    (x, y), (to_x, to_y) = start, end
    half = number((x + to_x) / 2)
    path = f"M{number(x)} {number(y)}C{half} {number(y)} {half} {number(to_y)} {number(to_x)} {number(to_y)}"
    return f'<path d="{path}" class="{f"way {kind}".strip()}"/>{tip(end, (x, to_y), kind)}'


@dataclass(frozen=True)
class Line:
    """A text of a card, of a kind; it may take several lines of it."""

    text: str
    kind: str = "soft"


LEADING, PADDING = 15, 8


def lines_in(lines: Sequence[Line], width: float) -> list[Line]:
    """The lines of a card so wide."""
    return [Line(part, it.kind) for it in lines for part in wrapped(it.text, it.kind, width - 2 * PADDING)]


def height_of(lines: Sequence[Line], width: float, space: float = 0) -> float:
    """How high a card so wide has to be."""
    return LEADING * len(lines_in(lines, width)) + PADDING + space


def card(place: Rect, lines: Sequence[Line], kind: str = "", space: float = 0) -> str:
    """A box with lines in it, and below the first one some space for what is drawn there. A test looks for
    words that leave it."""
    held = lines_in(lines, place.width)
    if height_of(lines, place.width, space) > place.height + 0.5:
        raise DoesNotFit(f"the box of {lines[0].text} has {len(held)} lines, too many for it")
    texts = "".join(words(place.left + PADDING, place.top + LEADING * (at + 1) + (space if at else 0),
                          it.text, it.kind) for at, it in enumerate(held))
    return f'<g class="box">{rect(place, f"card {kind}".strip())}{texts}</g>'


def label(x: float, y: float, lines: Sequence[str], anchor: str = "middle", kind: str = "label") -> str:
    """Words beside a line: the last of them stands at this height."""
    return "".join(words(x, y - 14 * (len(lines) - 1 - at), it, kind, anchor)
                   for at, it in enumerate(lines))


def picture(height: float, title: str, told: str, parts: Iterator[str] | Sequence[str]) -> str:
    """The whole file. What it shows is told in words too, for those who do not see it."""
    size = f'viewBox="0 0 {WIDTH} {number(height)}" width="{WIDTH}" height="{number(height)}"'
    head = (f'<svg xmlns="http://www.w3.org/2000/svg" role="img" {size}>\n'
            f"<title>{escape(title, quote=False)}</title>\n<desc>{escape(told, quote=False)}</desc>\n"
            f"<style>\n{STYLE}\n</style>")
    sheet = rect(Rect(0, 0, WIDTH, height), "sheet", 0)
    return "\n".join([head, sheet, *parts, "</svg>"]) + "\n"
