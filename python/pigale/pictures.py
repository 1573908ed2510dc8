"""Pictures of figures as SVG.

style.json has their colours and sizes. A picture by itself has plain colours, which every viewer knows; a page of
pictures (`pages`) has variables, so that it is light or dark as its reader wants.
"""
import html
import json
import math
import os
import unicodedata
from bisect import bisect_left, bisect_right
from collections.abc import Sequence as SequenceType
from dataclasses import dataclass, replace
from functools import lru_cache
from typing import Any, Callable, Dict, FrozenSet, Iterable, Iterator, List, Mapping, Optional, Sequence, Tuple, Union, cast

from .formats import (FIGURES, GRID_JOBS, BarFigure, Edge, Figure, GridFigure, Lists, RectFigure, WitnessFigure, join_words,
                      read_graph6)
from .maps import edges_of, faces_of, witness_graph

Dot = Tuple[float, float]
Box = Tuple[float, float, float, float]
Line = Tuple[float, float, float, float]
Sketch = Tuple[int, int, str]  # the width and the height of a picture, and what is in it
Style = Union[str, Iterable[str]]
Labels = Union[bool, Sequence[Any], Mapping[int, Any]]

with open(os.path.join(os.path.dirname(os.path.abspath(__file__)), "style.json"), encoding="ascii") as _file:
    STYLE: Dict[str, Any] = json.load(_file)
STYLES = ("equilateral", "faces", "dual", "crossing")
UNIT = 400  # the sizes of style.json are for a picture whose longer side is this
DIGIT = 0.6  # the width of a digit, in its height
MOST_WITHIN = 1.3  # the width of a label within a dot, in its height


@dataclass(frozen=True)
class PictureLook:
    """How a picture is to look: its longer side, whether it has labels and which, its styles, and how it names its colours.

    Without `names` the labels are the numbers of the vertices. The vertices `marked`, and the edges between two that follow
    each other there, have another colour.
    """
    side: float
    labels: bool
    styles: FrozenSet[str]
    paint: Callable[..., str]
    names: Tuple[str, ...] = ()
    marked: Tuple[int, ...] = ()

    def marked_edges(self, edges: Sequence[Edge]) -> List[Edge]:
        """The edges that join two marked vertices which follow each other."""
        pairs = {frozenset(pair) for pair in zip(self.marked, self.marked[1:])}
        return [edge for edge in edges if frozenset(edge) in pairs]

    def colours(self, count: int) -> List[str]:
        """The colour of each vertex."""
        return ["even" if v in self.marked else "dot" for v in range(1, count + 1)]

    def label(self, v: int) -> str:
        """What vertex v is called."""
        return self.names[v - 1] if self.names else str(v)

    def is_short(self, v: int) -> bool:
        """Whether the label of vertex v has room within a dot."""
        return not self.names or text_width(self.names[v - 1]) <= MOST_WITHIN

    @property
    def scale(self) -> float:
        """What a length of style.json is multiplied by."""
        return self.side / UNIT

    @property
    def margin(self) -> float:
        """The room between a drawing and the border of its picture."""
        return float(STYLE["margin"]) * self.scale

    def size(self, name: str, count: int) -> float:
        """The radius of a "dot", the width of a "line" or the height of a "number" in a picture of `count` vertices."""
        size = STYLE["sizes"][name]
        return float(min(size["most"], size["root"] / math.sqrt(max(count, 1)))) * self.scale


@lru_cache(maxsize=4096)
def text_width(text: str) -> float:
    """About how wide a text is, in its height; digits are as wide as they are in Helvetica, and other letters a little more."""
    width = 0.0
    for letter in text:
        if letter.isdigit() and letter.isascii():
            width += DIGIT
        elif unicodedata.combining(letter):
            continue
        elif unicodedata.east_asian_width(letter) in "WF":
            width += 1.05
        else:
            width += 0.32 if letter in "ijltfrI.,;:'|!()[] " else 0.92 if letter in "mwMW@%" else 0.74 if letter.isupper() else 0.6
    return width


def picture(figure: Figure, side: Optional[float] = None, labels: Labels = True, style: Style = (),
            marked: Sequence[int] = ()) -> str:
    """A figure as one SVG document on a white ground, as text.

    `side` is the length of the longer side in pixels, by default 400 to 1000 by the number of vertices; of bars it is
    the width. Dots, lines and numbers grow with it. `labels` says whether vertices carry their numbers, or has a label
    for each vertex: a list of texts in the order of the vertices, or a dictionary by their numbers. They stand within the
    dots where all have room there, and else beside them. Where there is no room for one, it is left out; each vertex has a
    title with its label and those of its neighbours.

    `style` has words, as a list or joined by commas. "equilateral" maps the triangle of a drawing by `shift`,
    `schnyder` or `convex` to one with three like sides. The map is affine, so edges stay straight, and no crossing and
    no bend of a face comes or goes. "faces" fills the inner faces of these drawings by their lengths. "dual" lays the dual
    over them: a dot in each inner face, joined over each edge to the next. Bars, rectangles and witnesses are drawn the
    same with and without. The vertices `marked` of a straight-line drawing have another colour, and so have the edges
    between two that follow each other there, as on a path.

    A witness has its branch vertices in two rows (K3,3) or on a circle (K5), and the other edges of its graph thin: it
    is no drawing without crossings. By "crossing" its subdivision alone is drawn, so that just two of its edges cross.

    Raises ValueError where the figure names a vertex that it does not have, where it is no figure (a refusal, say), and
    where a word of the style is none.
    """
    width, height, body = sketch(figure, side, labels, style, plain, marked)
    return (f'<svg xmlns="http://www.w3.org/2000/svg" viewBox="0 0 {width} {height}" width="{width}" '
            f'height="{height}">\n<rect width="{width}" height="{height}" {plain(fill="ground")}/>\n{body}</svg>\n')


def plain(**paints: str) -> str:
    """Attributes with the light colours of these names, as fill="#ffffff" for `fill="ground"`."""
    return " ".join(f'{attribute}="{STYLE["light"][name]}"' for attribute, name in paints.items())


def variable(**paints: str) -> str:
    """An attribute that takes these colours from the variables of a page."""
    return f'style="{";".join(f"{attribute}:var(--{name})" for attribute, name in paints.items())}"'


def styles_of(style: Style) -> FrozenSet[str]:
    """The words of a style. Raises ValueError where one is none."""
    words = [word for word in (style.split(",") if isinstance(style, str) else style) if word]
    for word in words:
        if word not in STYLES:
            raise ValueError(f"{word} is no style: there are {' and '.join(STYLES)}")
    return frozenset(words)


def label_names(labels: Labels, count: int) -> Tuple[str, ...]:
    """The labels of a picture's vertices, where they are others than their numbers."""
    if isinstance(labels, bool):
        return ()
    if isinstance(labels, Mapping):
        return tuple(str(labels.get(v, "")) for v in range(1, count + 1))
    if len(labels) != count:
        raise ValueError(f"there are {len(labels)} labels for {count} vertices")
    return tuple(map(str, labels))


def require_look(side: Optional[float], labels: Labels) -> None:
    """Raises ValueError where the side of a picture is out of its range, or `labels` is neither a flag nor labels."""
    if not isinstance(labels, (bool, Mapping)) and (isinstance(labels, (str, bytes)) or not isinstance(labels, SequenceType)):
        raise ValueError(f"labels is True, False, a list or a dictionary of labels, and not {str(labels)[:60]}")
    if side is not None and not 1 <= side <= 100000:
        raise ValueError(f"the longer side of a picture is from 1 to 100000 pixels, not {side}")


def sketch(figure: Figure, side: Optional[float], labels: Labels, style: Style, paint: Callable[..., str],
           marked: Sequence[int] = ()) -> Sketch:
    """The width and the height of a picture in pixels, and what is in it. Raises ValueError as `picture` does."""
    if not isinstance(figure, FIGURES):
        raise ValueError(f"there is a picture of a figure, and not of {type(figure).__name__}: {str(figure)[:80]}")
    require_look(side, labels)
    try:
        count = read_graph6(figure.graph6)[0] if isinstance(figure, WitnessFigure) else len(figure.lists)
        look = PictureLook(side or default_side(count), labels is not False, styles_of(style), paint, label_names(labels, count),
                           tuple(marked))
        if isinstance(figure, BarFigure):
            return _bar_sketch(figure, look)
        if isinstance(figure, RectFigure):
            return _rect_sketch(figure, look)
        if isinstance(figure, WitnessFigure):
            return _witness_sketch(figure, look)
        return _grid_sketch(figure, look)
    except (IndexError, KeyError) as fault:
        raise ValueError(f"figure {figure.number} names a vertex that it does not have") from fault


def default_side(count: int) -> float:
    """The longer side of a picture of `count` vertices, where none is asked for."""
    side = STYLE["side"]
    return float(min(side["most"], side["least"] + side["each"] * max(0, count - side["from"])))


# Straight-line drawings

def _grid_sketch(figure: GridFigure, look: PictureLook) -> Sketch:
    dots, box = _placed(straight_places(figure, look), look)
    edges = edges_of(figure.lists)
    body = _faces(figure, dots, look) if "faces" in look.styles else []
    width, marked = look.size("line", len(dots)), look.marked_edges(edges)
    body += _lines([(dots[v - 1], dots[u - 1]) for v, u in edges if (v, u) not in marked], width, "line", look)
    body += _lines([(dots[v - 1], dots[u - 1]) for v, u in marked], 2 * width, "even", look)
    body += _dual(figure, dots, look) if "dual" in look.styles else []
    return _framed(box, body, *_dots(dots, figure.lists, edges, look, look.colours(len(dots)) if look.marked else None), look)


def dual_lines(figure: GridFigure, dots: Sequence[Dot], reach: float) -> Tuple[List[Dot], List[List[Dot]]]:
    """The middles of the inner faces of a drawing, and for each edge at one of them the line over it to what is beyond.

    Beyond an edge of the outer face it ends outside, at most `reach` from it. Lists that are no map have no faces.
    """
    try:
        faces = faces_of(figure.lists)
    except KeyError:
        faces = []
    middles: Dict[Edge, Dot] = {}
    found: List[Dot] = []
    for face in faces:
        corners = [figure.places[v - 1] for v in face]
        if sum(x1 * y2 - x2 * y1 for (x1, y1), (x2, y2) in zip(corners, corners[1:] + corners[:1])) > 0:
            spots = [dots[v - 1] for v in face]
            middle = (sum(x for x, _ in spots) / len(spots), sum(y for _, y in spots) / len(spots))
            found.append(middle)
            middles.update(dict.fromkeys(zip(face, face[1:] + face[:1]), middle))
    lines = []
    for (v, u), middle in middles.items():
        half = ((dots[v - 1][0] + dots[u - 1][0]) / 2, (dots[v - 1][1] + dots[u - 1][1]) / 2)
        if (u, v) not in middles:
            beyond = math.dist(half, middle) or 1.0
            lines.append([middle, half, tuple(half[k] + (half[k] - middle[k]) / beyond * min(beyond, reach) for k in (0, 1))])
        elif v < u:
            lines.append([middle, half, middles[u, v]])
    return found, cast(List[List[Dot]], lines)


def _dual(figure: GridFigure, dots: List[Dot], look: PictureLook) -> List[str]:
    """The dual of a drawing, laid over it."""
    middles, lines = dual_lines(figure, dots, 14 * look.scale)
    body = [f'<g fill="none" {look.paint(stroke="odd")} stroke-width="{_n(look.size("line", len(dots)))}" stroke-linecap="round">']
    body += [f'<polyline points="{" ".join(f"{_n(x)},{_n(y)}" for x, y in line)}"/>' for line in lines] + ["</g>"]
    radius = _n(0.6 * look.size("dot", len(dots)))
    dots_of_faces = [f'<circle cx="{_n(x)}" cy="{_n(y)}" r="{radius}"/>' for x, y in middles]
    return [*body, f'<g {look.paint(fill="odd")}>', *dots_of_faces, "</g>"]


def straight_places(figure: GridFigure, look: PictureLook) -> Sequence[Dot]:
    """The places of a straight-line drawing, with three like sides where that is asked for."""
    return _equilateral(figure) if "equilateral" in look.styles and figure.job in GRID_JOBS else list(figure.places)


def _equilateral(figure: GridFigure) -> List[Dot]:
    """The places by the affine map that makes the triangle of the job's grid one with three like sides.

    Its corners, from the lower left one on, are (0, 0), (2n - 4, 0) and (n - 2, n - 2) of `shift`, (1, 0), (n - 2, 1)
    and (0, n - 2) of `schnyder`, and (0, 0), (w, 0) and (0, w) of `convex`, where w does not matter.
    """
    if figure.job == "shift":
        return [(x, y * math.sqrt(3)) for x, y in figure.places]
    most = len(figure.places) - 2
    if figure.job == "convex" or most < 1:
        parts: Sequence[Dot] = figure.places
    else:
        parts = [((x - 1) * most + y, (most - 1) * y - (x - 1)) for x, y in figure.places]
    return [(across + up / 2, up * math.sqrt(3) / 2) for across, up in parts]


def _placed(places: Sequence[Dot], look: PictureLook) -> Tuple[List[Dot], Tuple[int, int]]:
    """The places in pixels, with y downwards, and the width and height of the picture."""
    left, top = min(x for x, _ in places), max(y for _, y in places)
    width, height = max(x for x, _ in places) - left, top - min(y for _, y in places)
    margin = look.margin
    unit = (look.side - 2 * margin) / max(width, height, 1)
    dots = [(margin + unit * (x - left), margin + unit * (top - y)) for x, y in places]
    return dots, (_whole(unit * width + 2 * margin), _whole(unit * height + 2 * margin))


def _faces(figure: GridFigure, dots: List[Dot], look: PictureLook) -> List[str]:
    """The inner faces, filled by their lengths; where one stands within another, it comes after it.

    A face's walk is counterclockwise, and so has its area above zero, where the face is not the outer one of its part.
    Lists that are no map have no faces.
    """
    try:
        faces = faces_of(figure.lists)
    except KeyError:
        faces = []
    found = []
    for face in faces:
        corners = [figure.places[v - 1] for v in face]
        area = sum(x1 * y2 - x2 * y1 for (x1, y1), (x2, y2) in zip(corners, corners[1:] + corners[:1]))
        if area > 0:
            found.append((area, face))
    body = []
    for _, face in sorted(found, key=lambda pair: -pair[0]):
        points = " ".join(f"{_n(x)},{_n(y)}" for x, y in (dots[v - 1] for v in face))
        colour = f"face-{len(face)}" if len(face) <= 10 else "face-more"
        title = f"<title>face of {len(face)}: {html.escape(join_words(*map(look.label, face)), False)}</title>"
        body.append(f'<polygon points="{points}" {look.paint(fill=colour)}>{title}</polygon>')
    return body


# Parts of pictures

def _joined(lines: List[str]) -> str:
    return "".join(line + "\n" for line in lines)


def _whole(length: float) -> int:
    return max(1, round(length))


@lru_cache(maxsize=4096)
def _n(number: float) -> str:
    """A number of pixels, to a hundredth where it is small and to a tenth elsewhere."""
    return f"{round(number, 2 if abs(number) < 10 else 1):g}"


def _lines(ends: Iterable[Tuple[Dot, Dot]], width: float, colour: str, look: PictureLook) -> List[str]:
    """Straight lines of one width and colour."""
    lines = [f'<line x1="{_n(x1)}" y1="{_n(y1)}" x2="{_n(x2)}" y2="{_n(y2)}"/>' for (x1, y1), (x2, y2) in ends]
    if not lines:
        return []
    return [f'<g {look.paint(stroke=colour)} stroke-width="{_n(width)}" stroke-linecap="round">', *lines, "</g>"]


def _texts(numbers: List[Tuple[int, Dot, float]], colour: str, look: PictureLook, halo: bool = False) -> List[str]:
    """Numbers, each about its place and with its height, and where asked for with a halo beneath them all."""
    if not numbers:
        return []
    font = f'font-family="{STYLE["font"]}" text-anchor="middle"'
    lines = [f'<text x="{_n(x)}" y="{_n(y)}" dy="0.35em" font-size="{_n(size)}">{html.escape(look.label(v), False)}</text>'
             for v, (x, y), size in numbers]
    beneath: List[str] = []
    if halo:
        width = 0.28 * max(size for _, _, size in numbers)
        paints = look.paint(fill="ground", stroke="ground")
        beneath = [f'<g {paints} stroke-width="{_n(width)}" stroke-linejoin="round" {font} aria-hidden="true">', *lines, "</g>"]
    return [*beneath, f"<g {look.paint(fill=colour)} {font}>", *lines, "</g>"]


def _title(v: int, us: List[int], look: PictureLook) -> str:
    if not look.names:
        return f"<title>{join_words(f'{v}:', *us)}</title>"
    return f"<title>{html.escape(f'{look.label(v)}: ' + ', '.join(map(look.label, us)), False)}</title>"


def _framed(box: Tuple[int, int], lines: List[str], dots: List[str], reach: Tuple[float, float], look: PictureLook) -> Sketch:
    """A picture of lines and dots, wider where labels reach from one place across to another beyond it."""
    room = 0.25 * look.margin
    left, right = max(0, math.ceil(room - reach[0])), max(0, math.ceil(reach[1] + room - box[0]))
    body = _joined(lines + dots)
    return box[0] + left + right, box[1], f'<g transform="translate({left})">\n{body}</g>\n' if left else body


def _dots(dots: List[Dot], lists: Lists, edges: List[Edge], look: PictureLook,
          colours: Optional[List[str]] = None) -> Tuple[List[str], Tuple[float, float]]:
    """Dots with titles, and their labels: within all dots where each has room, and else beside those that have room.

    Returns them with where the leftmost label begins and the rightmost one ends, if there are labels other than numbers.
    """
    count = len(dots)
    size = look.size("number", count)
    within, radius = _dot_sizes(dots, edges, size, look)
    paints = [look.paint(fill=colour, stroke="ground") for colour in colours or ["dot"] * count]
    rim = f'stroke-width="{_n(0.3 * look.size("line", count) + 0.25 * look.scale)}"'
    body, last = [], ""
    for v, (x, y) in enumerate(dots):
        if paints[v] != last:
            body += ["</g>"] * bool(last) + [f"<g {paints[v]} {rim}>"]
            last = paints[v]
        body.append(f'<circle cx="{_n(x)}" cy="{_n(y)}" r="{_n(radius)}">{_title(v + 1, lists[v], look)}</circle>')
    body += ["</g>"] * bool(last)
    reach = (look.margin, look.margin)
    if within:
        return body + _texts([(v, dot, within) for v, dot in enumerate(dots, 1)], "on-dot", look), reach
    if look.labels:
        found = _label_places(dots, edges, radius, size, look)
        if look.names and found:
            halves = [text_width(look.label(v)) / 2 * size for v, _ in found]
            spans = [(x - half, x + half) for (_, (x, _)), half in zip(found, halves)]
            reach = min(left for left, _ in spans), max(right for _, right in spans)
        return body + _texts([(v, at, size) for v, at in found], "number", look, halo=True), reach
    return body, reach


_ROUND = 0.8  # the radius of a dot with a number within, in the height of the number
_LEAST_WITHIN = 7.6  # the height of a number within a dot, at least, in a picture whose longer side is UNIT


def _rooms(dots: List[Dot], edges: List[Edge], enough: float, little: float) -> Tuple[float, float]:
    """The least distance of two dots, and that of a dot and a line which does not end there, or `enough` where it is more.

    Where a dot is as near as `little` to a line, the nearest one is not sought.
    """
    apart, aside = math.inf, enough
    row = sorted(dots)
    for k, (x, y) in enumerate(row):
        for other in row[k + 1:]:
            if other[0] - x >= apart:
                break
            apart = min(apart, math.dist((x, y), other))
    for a, b in edges:
        (x1, y1), (x2, y2) = dots[a - 1], dots[b - 1]
        dx, dy = x2 - x1, y2 - y1
        square = dx * dx + dy * dy
        if not square:
            continue
        # what is farther from the line, carried on, than the least so far, is farther from it too
        most = aside * math.sqrt(square) * 1.000001
        for v, (x, y) in enumerate(dots, 1):
            if -most <= (x - x1) * dy - (y - y1) * dx <= most and v != a and v != b:
                part = min(1.0, max(0.0, ((x - x1) * dx + (y - y1) * dy) / square))
                aside = min(aside, math.hypot(x - x1 - part * dx, y - y1 - part * dy))
        if aside <= little:
            break
    return apart, aside


def _dot_sizes(dots: List[Dot], edges: List[Edge], size: float, look: PictureLook) -> Tuple[Optional[float], float]:
    """The height of numbers within the dots, or nothing where these would touch each other or a line, and the radius of dots.

    Without numbers within, that is by their count, less where lines pass close by, but so that they are still seen.
    """
    radius, least = look.size("dot", len(dots)), _LEAST_WITHIN * look.scale
    is_within = look.labels and len(dots) < 100 and all(map(look.is_short, range(1, len(dots) + 1)))
    if len(dots) > 100:
        return None, radius
    enough = max(2 * radius, _ROUND * size + 2 * look.scale)
    apart, aside = _rooms(dots, edges, enough, min(0.7 * radius, _ROUND * least))
    if is_within:
        found = min(size, min(apart / 2 - 0.8 * look.scale, aside - 1.6 * look.scale) / _ROUND)
        if found >= least:
            return found, found * _ROUND
    return None, max(0.6 * radius, min(radius, 0.45 * apart, 0.8 * aside))


class _Near:
    """What comes near each dot of a picture, so that a label beside it may meet it: lines and other dots.

    A label beside a dot reaches at most `across` to its left and right, and `up` above and below it.
    """

    def __init__(self, dots: List[Dot], edges: List[Edge], across: float, up: float) -> None:
        self.dots, self.across, self.up = dots, 1.001 * across, 1.001 * up
        self.row = sorted([(x, y, v) for v, (x, y) in enumerate(dots, 1)])
        self.xs = [x for x, _, _ in self.row]
        self.own: List[List[Line]] = [[] for _ in dots]
        self.lines: List[List[Line]] = [[] for _ in dots]
        for a, b in edges:
            line = (*dots[a - 1], *dots[b - 1])
            self.own[a - 1].append(line)
            self.own[b - 1].append(line)
            self.put_line(line, a, b)

    def put_line(self, line: Line, a: int, b: int) -> None:
        """Puts a line with the dots that it comes near, but for its ends."""
        x1, y1, x2, y2 = line
        dx, dy, across, up, lines = x2 - x1, y2 - y1, self.across, self.up, self.lines
        left, right = (x1, x2) if dx >= 0 else (x2, x1)
        low, high = (y1 - up, y2 + up) if dy >= 0 else (y2 - up, y1 + up)
        most = across * abs(dy) + up * abs(dx)
        for x, y, v in self.row[bisect_left(self.xs, left - across):bisect_right(self.xs, right + across)]:
            if low <= y <= high and -most <= (x - x1) * dy - (y - y1) * dx <= most and v != a and v != b:
                lines[v - 1].append(line)

    def dots_about(self, v: int) -> List[Tuple[float, float, int]]:
        """The other dots that are near enough to vertex v for their labels to meet."""
        x, y = self.dots[v - 1]
        across, up = 2 * self.across, 2 * self.up
        return [near for near in self.row[bisect_left(self.xs, x - across):bisect_right(self.xs, x + across)]
                if -up <= near[1] - y <= up and near[2] != v]


def _crosses(box: Box, line: Line) -> bool:
    """Whether a line has a point in a box."""
    left, top, right, bottom = box
    x1, y1, x2, y2 = line
    if x1 < left and x2 < left or x1 > right and x2 > right or y1 < top and y2 < top or y1 > bottom and y2 > bottom:
        return False
    across, up = x2 - x1, y2 - y1
    if not across or not up:
        return True
    # where the line is between left and right, and where between top and bottom, in its length
    from_x, to_x = ((left - x1) / across, (right - x1) / across) if across > 0 else ((right - x1) / across, (left - x1) / across)
    from_y, to_y = ((top - y1) / up, (bottom - y1) / up) if up > 0 else ((bottom - y1) / up, (top - y1) / up)
    return from_y <= to_x and from_x <= to_y


TURNS = [k * math.pi / 8 for k in range(16)]  # of the places of a label about its dot
ROUNDS = [(math.cos(turn), math.sin(turn)) for turn in TURNS]
QUARTER = [0, 1, 2, 3, 4, 3, 2, 1, 0, 1, 2, 3, 4, 3, 2, 1]  # the turn in the first quarter that each is like
_ALIKE = 1e-9  # angles that differ by less are taken for like ones


def _label_places(dots: List[Dot], edges: List[Edge], radius: float, size: float, look: PictureLook) -> List[Tuple[int, Dot]]:
    """The labels of vertices that have room beside their dots, each with its middle.

    Of sixteen directions round a dot those that cover fewest lines come first, and of these the ones farthest from the
    dot's own lines; a number is left out where it would cover a dot or a number each time. Of more than 100 vertices
    only those have numbers that stand apart.
    """
    halves = [text_width(look.label(v)) / 2 * size + 0.06 * size for v in range(1, len(dots) + 1)]
    apart = radius + (0.6 * size if len(dots) > 100 else 0.06 * size)
    near = _Near(dots, edges, max(apart, radius + 2 * max(halves, default=0.0) + 0.1 * size), max(apart, radius + 0.9 * size))
    around = _turns_of_lines(dots, edges)
    clear = {half: _clear_turns(half, radius, size) for half in set(halves)}
    placed: Dict[int, Box] = {}
    found = []
    for v, (dot, half) in enumerate(zip(dots, halves), 1):
        others = near.dots_about(v)
        boxes = [(x - apart, y - apart, x + apart, y + apart) for x, y, _ in others]
        boxes += [placed[u] for _, _, u in others if u in placed]
        lines, own, is_clear = near.lines[v - 1], near.own[v - 1], clear[half]
        fewest, best = len(edges) + 1, None
        # the first that covers no line is the best, and else the first that covers fewest
        for aside, k, at in _places_about(dot, around[v - 1], radius + half + 0.1 * size, radius + 0.48 * size):
            left, top, right, bottom = box = (at[0] - half, at[1] - 0.42 * size, at[0] + half, at[1] + 0.42 * size)
            for x1, y1, x2, y2 in boxes:
                if left < x2 and x1 < right and top < y2 and y1 < bottom:
                    break
            else:
                covered = _covered(box, lines, fewest)
                if covered < fewest and aside <= is_clear[QUARTER[k]]:
                    covered += _covered(box, own, fewest)
                if covered < fewest:
                    fewest, best = covered, (at, box)
                    if not covered:
                        break
        if best:
            placed[v] = best[1]
            found.append((v, best[0]))
    return found


def _covered(box: Box, lines: List[Line], most: int) -> int:
    """How many lines have a point in a box; counted no further than to `most`."""
    count = 0
    for line in lines:
        if _crosses(box, line):
            count += 1
            if count == most:
                break
    return count


def _turns_of_lines(dots: List[Dot], edges: List[Edge]) -> List[List[float]]:
    """The angles of the lines at each dot."""
    around: List[List[float]] = [[] for _ in dots]
    for a, b in edges:
        (x1, y1), (x2, y2) = dots[a - 1], dots[b - 1]
        turn = math.atan2(y2 - y1, x2 - x1)
        around[a - 1].append(turn)
        around[b - 1].append(turn + math.pi)
    return around


def _clear_turns(half: float, radius: float, size: float) -> List[float]:
    """For each turn of the first quarter the angle within which a line from the dot may meet the label there."""
    tall, found = 0.42 * size, []
    for turn, (cos, sin) in zip(TURNS[:5], ROUNDS):
        x, y = cos * (radius + half + 0.1 * size), sin * (radius + 0.48 * size)
        if abs(x) <= half and abs(y) <= tall:
            found.append(4.0)
        else:
            corners = [math.atan2(y + up, x + across) for across in (-half, half) for up in (-tall, tall)]
            found.append(max(abs(math.remainder(corner - turn, 2 * math.pi)) for corner in corners) + _ALIKE)
    return found


def _places_about(dot: Dot, around: List[float], across: float, up: float) -> Iterator[Tuple[float, int, Dot]]:
    """Sixteen places round a dot, of which those come first that are farthest from the directions of its lines.

    Each comes with its angle from the nearest of these, and the number of its turn. Of those that are as far the leftmost comes
    first, and then the highest.
    """
    x, y = dot
    asides = _asides(around)
    order = sorted(range(len(TURNS)), key=asides.__getitem__, reverse=True)
    at = 0
    while at < len(order):
        start, k = at, order[at]
        at += 1
        while at < len(order) and asides[k] - asides[order[at]] < _ALIKE:
            at += 1
        if at == start + 1:
            cos, sin = ROUNDS[k]
            yield asides[k], k, (x + cos * across, y + sin * up)
            continue
        alike = [(-_aside(around, k), (x + ROUNDS[k][0] * across, y + ROUNDS[k][1] * up), k) for k in order[start:at]]
        for aside, place, k in sorted(alike):
            yield -aside, k, place


def _aside(around: List[float], k: int) -> float:
    """The angle of a turn from the nearest of some angles, exactly."""
    turn, remainder, whole = TURNS[k], math.remainder, 2 * math.pi
    return min([abs(remainder(turn - other, whole)) for other in around], default=4.0)


def _asides(around: List[float]) -> List[float]:
    """The angle of each turn from the nearest of some angles, nearly."""
    if not around:
        return [4.0] * len(TURNS)
    whole = 2 * math.pi
    turns = sorted([turn % whole for turn in around])
    turns.append(turns[0] + whole)
    before, after, k, asides = turns[-2] - whole, turns[0], 0, []
    for turn in TURNS:
        while after <= turn:
            k += 1
            before, after = after, turns[k]
        asides.append(turn - before if turn - before < after - turn else after - turn)
    return asides


# Bars and rectangles

def _bar_sketch(figure: BarFigure, look: PictureLook) -> Sketch:
    """Bars and columns, each axis with a unit of its own, so that bars keep apart."""
    count, columns = len(figure.heights), max([b for _, b in figure.spans] + figure.columns + [1])
    scale, margin = look.scale, look.margin
    across = min(40 * scale, (look.side - 2 * margin) / columns)
    upwards = min(30 * scale, max(13 * scale if count <= 64 else 0, 1.6 * look.side / max(count - 1, 1) if count > 64 else 0,
                                  (look.side - 2 * margin) / max(count - 1, 1)))
    thick, line = min(17 * scale, 0.7 * upwards), look.size("line", count)
    top = max(figure.heights)

    def spot(x: float, y: float) -> Dot:
        return margin + across * x, margin + upwards * (top - y)

    body = _lines([(spot(x, figure.heights[v - 1]), spot(x, figure.heights[u - 1]))
                   for x, (v, u) in zip(figure.columns, edges_of(figure.lists))], line, "line", look)
    body.append(f'<g {look.paint(fill="dot")}>')
    numbers = []
    for v, (y, (a, b)) in enumerate(zip(figure.heights, figure.spans), 1):
        (x1, middle), (x2, _) = spot(a, y), spot(b, y)
        x1, x2 = x1 - 0.36 * across, x2 + 0.36 * across
        body.append(f'<rect x="{_n(x1)}" y="{_n(middle - thick / 2)}" width="{_n(x2 - x1)}" height="{_n(thick)}" '
                    f'rx="{_n(min(thick, x2 - x1) / 5)}">{_title(v, figure.lists[v - 1], look)}</rect>')
        numbers.append((v, ((x1 + x2) / 2, middle), min(13 * scale, 0.92 * thick, (x2 - x1) / (text_width(look.label(v)) + 0.15))))
    body.append("</g>")
    body += _texts(_legible(numbers, look), "on-dot", look)
    return _whole(across * columns + 2 * margin), _whole(upwards * (count - 1) + 2 * margin), _joined(body)


def _legible(numbers: List[Tuple[int, Dot, float]], look: PictureLook) -> List[Tuple[int, Dot, float]]:
    """The numbers that are high enough to be read, where numbers are asked for."""
    return [number for number in numbers if look.labels and number[2] >= 2.4 * look.scale]


def _rect_sketch(figure: RectFigure, look: PictureLook) -> Sketch:
    dots, box = _placed([(x, y) for a, b, c, d in figure.boxes for x, y in ((a, c), (b, d))], look)
    width = look.size("line", len(figure.boxes))
    most = min(13 * look.scale, max(6 * look.scale, 1.6 * look.size("number", len(figure.boxes))))
    body, numbers = [f'<g {look.paint(stroke="line")} stroke-width="{_n(width)}" stroke-linejoin="round">'], []
    for v, tint in enumerate(tints_of(figure.lists), 1):
        (x1, y2), (x2, y1) = dots[2 * v - 2], dots[2 * v - 1]
        body.append(f'<rect x="{_n(x1)}" y="{_n(y1)}" width="{_n(x2 - x1)}" height="{_n(y2 - y1)}" '
                    f'{look.paint(fill=f"tint-{tint}")}>{_title(v, figure.lists[v - 1], look)}</rect>')
        size = min(most, 0.8 * (y2 - y1), (x2 - x1) / (text_width(look.label(v)) + 0.3))
        numbers.append((v, ((x1 + x2) / 2, (y1 + y2) / 2), size))
    body.append("</g>")
    return (*box, _joined(body + _texts(_legible(numbers, look), "number", look)))


def tints_of(lists: Lists) -> List[int]:
    """One of six tints for each vertex, other than its neighbours': in a plane map, by least degrees from the end."""
    left, order = {v: set(us) for v, us in enumerate(lists, 1)}, []
    while left:
        v = min(left, key=lambda u: len(left[u]))
        order.append(v)
        for u in left.pop(v):
            if u in left:
                left[u].discard(v)
    tints: Dict[int, int] = {}
    for v in reversed(order):
        beside = {tints.get(u) for u in lists[v - 1]}
        tints[v] = next((tint for tint in range(6) if tint not in beside), 0)
    return [tints[v] for v in range(1, len(lists) + 1)]


# Witnesses

def _witness_sketch(figure: WitnessFigure, look: PictureLook) -> Sketch:
    """Branch vertices in two rows or on a circle, paths straight between them, and the other edges thin."""
    count, edges = read_graph6(figure.graph6)
    if "crossing" in look.styles:
        from .crossings import one_crossing
        drawing = one_crossing(figure)
        if drawing:
            return _crossing_sketch(figure, drawing, look)
    places = witness_places(figure, count)
    dots, box = _placed([places[v] for v in range(1, count + 1)], look)
    own = witness_graph(figure)[1]
    rest = sorted(set(edges) - set(own))
    line = look.size("line", count)
    body = _lines([(dots[u - 1], dots[v - 1]) for u, v in rest], line, "thin", look)
    body += _lines([(dots[u - 1], dots[v - 1]) for u, v in own], 1.6 * line, "line", look)
    lists: Lists = [[] for _ in range(count)]
    for u, v in edges:
        lists[u - 1].append(v)
        lists[v - 1].append(u)
    colours = branch_colours(figure, range(1, count + 1))
    return _framed(box, body, *_dots(dots, lists, own, look, colours), look)


def branch_colours(figure: WitnessFigure, vertices: Iterable[int]) -> List[str]:
    """The colour of each of some vertices of a witness: one for the branches of a side, and another for all others."""
    half = figure.branches[:3] if figure.kind == "K33" else figure.branches
    return ["even" if v in half else "odd" if v in figure.branches else "dot" for v in vertices]


def _crossing_sketch(figure: WitnessFigure, drawing: Any, look: PictureLook) -> Sketch:
    """A witness with a single crossing, the two edges of which have another colour."""
    vertices = sorted(drawing.places)
    number = {v: k for k, v in enumerate(vertices, 1)}
    dots, box = _placed([drawing.places[v] for v in vertices] + [drawing.at], look)
    own = witness_graph(figure)[1]
    line = look.size("line", len(vertices))
    whole = [(dots[number[u] - 1], dots[number[v] - 1]) for u, v in own if (u, v) not in drawing.crossed]
    body = _lines(whole, 1.6 * line, "line", look)
    for edge, colour in zip(drawing.crossed, ("warn", "dot")):
        body += _lines([(dots[number[end] - 1], dots[-1]) for end in edge], 1.6 * line, colour, look)
    edges = [(number[u], number[v]) for u, v in own]
    lists: Lists = [[] for _ in vertices]
    for u, v in edges:
        lists[u - 1].append(v)
        lists[v - 1].append(u)
    own_look = replace(look, names=tuple(map(look.label, vertices)))
    return _framed(box, body, *_dots(dots[:-1], lists, edges, own_look, branch_colours(figure, vertices)), own_look)


def witness_places(figure: WitnessFigure, count: int) -> Dict[int, Dot]:
    """A place for each vertex of a witness's graph; those that it does not pass stand in a row below.

    Between two rows inner vertices stand at heights of their own, since paths meet half-way.
    """
    if figure.kind == "K33":
        corners: List[Dot] = [(600 * k, y) for y in (800, 0) for k in range(3)]
    else:
        turns = [math.pi / 2 - 2 * math.pi * k / 5 for k in range(5)]
        corners = [(600 + 600 * math.cos(turn), 600 * math.sin(turn)) for turn in turns]
    places = dict(zip(figure.branches, corners))
    for i, track in enumerate(figure.paths):
        (x1, y1), (x2, y2) = places[track[0]], places[track[-1]]
        for k, v in enumerate(track[1:-1], 1):
            part = k / (len(track) - 1)
            if figure.kind == "K33":
                part = 0.3 * part + 0.15 + 0.06 * (i % 3)
            places[v] = (x1 + part * (x2 - x1), y1 + part * (y2 - y1))
    rest = [v for v in range(1, count + 1) if v not in places]
    low = min(y for _, y in places.values())
    for k, v in enumerate(rest):
        places[v] = (1200 * (k + 1) / (len(rest) + 1), low - 200 - 40 * (k % 2))
    return places
