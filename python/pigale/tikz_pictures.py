"""Figures as pictures of TikZ, the drawing package of LaTeX."""
from dataclasses import replace
from typing import List, Sequence

from .crossings import OneCrossing, one_crossing
from .formats import BarFigure, Figure, GridFigure, RectFigure, WitnessFigure, read_graph6
from .maps import edges_of, faces_of, witness_graph
from .pictures import (STYLE, Dot, Labels, PictureLook, Style, branch_colours, dual_lines, label_names, straight_places, styles_of,
                       tints_of, witness_places)

WIDTH = 8.0  # of a picture's longer side, in centimetres
COLOURS = ("line", "thin", "dot", "even", "odd", *(f"tint-{k}" for k in range(6)), *(f"face-{k}" for k in range(3, 11)), "face-more")
SPECIAL = {"\\": r"\textbackslash{}", "~": r"\textasciitilde{}", "^": r"\textasciicircum{}", "<": r"\textless{}", ">": r"\textgreater{}",
           "|": r"\textbar{}", **{letter: f"\\{letter}" for letter in "&%$#_{}"}}

HEAD = r"""\documentclass[tikz,border=4pt]{standalone}
\usepackage[utf8]{inputenc}
"""


def tikz(figure: Figure, labels: Labels = True, style: Style = (), width: float = WIDTH, marked: Sequence[int] = ()) -> str:
    """A figure as one `tikzpicture`, whose longer side is `width` centimetres.

    `labels`, `style` and `marked` are as for `picture`. The document needs the package tikz and the lines of `tikz_colours`. Raises
    ValueError as `picture` does.
    """
    try:
        count = read_graph6(figure.graph6)[0] if isinstance(figure, WitnessFigure) else len(figure.lists)
        look = PictureLook(1, labels is not False, styles_of(style), lambda **_: "", label_names(labels, count), tuple(marked))
        if isinstance(figure, BarFigure):
            body = _bars(figure, look, width)
        elif isinstance(figure, RectFigure):
            body = _rects(figure, look, width)
        elif isinstance(figure, WitnessFigure):
            body = _witness(figure, count, look, width)
        else:
            body = _straight(figure, look, width)
    except (IndexError, KeyError) as fault:
        raise ValueError(f"figure {figure.number} names a vertex that it does not have") from fault
    return "\n".join([r"\begin{tikzpicture}", *[f"  {line}" for line in body], r"\end{tikzpicture}", ""])


def tikz_colours() -> str:
    """The colours and the styles of vertices that the pictures use, for the head of a document."""
    lines = [f"\\definecolor{{pigale-{name}}}{{HTML}}{{{STYLE['light'][name][1:].upper()}}}" for name in COLOURS]
    return "\n".join([*lines, r"\tikzset{vertex/.style={circle, fill=pigale-dot, text=white, inner sep=1pt, minimum size=8pt, font=\tiny},",
                      r"  point/.style={circle, fill=pigale-dot, inner sep=1.2pt}, edge/.style={draw=pigale-line, line cap=round}}", ""])


def tikz_document(pictures: Sequence[str]) -> str:
    """A LaTeX document by itself, with a page for each picture."""
    return f"{HEAD}{tikz_colours()}\\begin{{document}}\n{''.join(pictures)}\\end{{document}}\n"


def escaped(text: str) -> str:
    """A text as LaTeX prints it."""
    return "".join(SPECIAL.get(letter, letter) for letter in text)


def _n(number: float) -> str:
    return f"{round(number, 3):g}"


def _at(dot: Dot) -> str:
    return f"({_n(dot[0])},{_n(dot[1])})"


def _scaled(places: Sequence[Dot], width: float) -> List[Dot]:
    """The places from (0, 0) on, so that the longer side is as long as asked."""
    left, low = min(x for x, _ in places), min(y for _, y in places)
    unit = width / max(max(x for x, _ in places) - left, max(y for _, y in places) - low, 1e-9)
    return [(unit * (x - left), unit * (y - low)) for x, y in places]


def _vertices(dots: Sequence[Dot], look: PictureLook, colours: Sequence[str] = ()) -> List[str]:
    """The vertices, with their labels within where all are short, and else beside."""
    count = len(dots)
    is_within = look.labels and count < 100 and all(map(look.is_short, range(1, count + 1)))
    lines = []
    for v, dot in enumerate(dots, 1):
        colour = f", fill=pigale-{colours[v - 1]}" if colours and colours[v - 1] != "dot" else ""
        label = escaped(look.label(v))
        if is_within:
            lines.append(f"\\node[vertex{colour}] (v{v}) at {_at(dot)} {{{label}}};")
        else:
            beside = f", label={{[font=\\tiny, inner sep=1pt]above right:{{{label}}}}}" if look.labels and label else ""
            lines.append(f"\\node[point{colour}{beside}] (v{v}) at {_at(dot)} {{}};")
    return lines


def _straight(figure: GridFigure, look: PictureLook, width: float) -> List[str]:
    dots = _scaled(straight_places(figure, look), width)
    lines = []
    if "faces" in look.styles:
        for face in faces_of(figure.lists):
            corners = [dots[v - 1] for v in face]
            if sum(x1 * y2 - x2 * y1 for (x1, y1), (x2, y2) in zip(corners, corners[1:] + corners[:1])) > 0:
                colour = f"face-{len(face)}" if len(face) <= 10 else "face-more"
                lines.append(f"\\fill[pigale-{colour}] {' -- '.join(map(_at, corners))} -- cycle;")
    edges = edges_of(figure.lists)
    marked = look.marked_edges(edges)
    for u, v in edges:
        colour = "[edge, draw=pigale-even, very thick]" if (u, v) in marked else "[edge]"
        lines.append(f"\\draw{colour} {_at(dots[u - 1])} -- {_at(dots[v - 1])};")
    if "dual" in look.styles:
        lines += [f"\\draw[draw=pigale-odd] {' -- '.join(map(_at, line))};" for line in dual_lines(figure, dots, 0.04 * width)[1]]
    return lines + _vertices(dots, look, look.colours(len(dots)))


def _bars(figure: BarFigure, look: PictureLook, width: float) -> List[str]:
    columns, rows = max([b for _, b in figure.spans] + figure.columns + [1]), max([*figure.heights, 1])
    across, up = min(1.0, width / columns), min(0.8, width / rows)
    lines = [f"\\draw[edge] ({_n(across * x)},{_n(up * figure.heights[u - 1])}) -- ({_n(across * x)},{_n(up * figure.heights[v - 1])});"
             for x, (u, v) in zip(figure.columns, edges_of(figure.lists))]
    thick = min(0.36, 0.7 * up)
    for v, (y, (a, b)) in enumerate(zip(figure.heights, figure.spans), 1):
        left, right = across * (a - 0.36), across * (b + 0.36)
        lines.append(f"\\fill[pigale-dot] ({_n(left)},{_n(up * y - thick / 2)}) rectangle ({_n(right)},{_n(up * y + thick / 2)});")
        if look.labels:
            middle = ((left + right) / 2, up * y)
            lines.append(f"\\node[text=white, font=\\tiny, inner sep=0pt] at {_at(middle)} {{{escaped(look.label(v))}}};")
    return lines


def _rects(figure: RectFigure, look: PictureLook, width: float) -> List[str]:
    dots = _scaled([(x, y) for a, b, c, d in figure.boxes for x, y in ((a, c), (b, d))], width)
    lines = []
    for v, tint in enumerate(tints_of(figure.lists), 1):
        one, other = dots[2 * v - 2], dots[2 * v - 1]
        middle = ((one[0] + other[0]) / 2, (one[1] + other[1]) / 2)
        label = f" node[font=\\tiny] at {_at(middle)} {{{escaped(look.label(v))}}}" if look.labels else ""
        lines.append(f"\\draw[edge, fill=pigale-tint-{tint}] {_at(one)} rectangle {_at(other)}{label};")
    return lines


def _witness(figure: WitnessFigure, count: int, look: PictureLook, width: float) -> List[str]:
    drawing = one_crossing(figure) if "crossing" in look.styles else None
    if drawing:
        return _crossing(figure, drawing, look, width)
    places = witness_places(figure, count)
    dots = _scaled([places[v] for v in range(1, count + 1)], width)
    own = witness_graph(figure)[1]
    rest = sorted(set(read_graph6(figure.graph6)[1]) - set(own))
    lines = [f"\\draw[draw=pigale-thin] {_at(dots[u - 1])} -- {_at(dots[v - 1])};" for u, v in rest]
    lines += [f"\\draw[edge, thick] {_at(dots[u - 1])} -- {_at(dots[v - 1])};" for u, v in own]
    return lines + _vertices(dots, look, branch_colours(figure, range(1, count + 1)))


def _crossing(figure: WitnessFigure, drawing: OneCrossing, look: PictureLook, width: float) -> List[str]:
    """A witness with a single crossing."""
    vertices = sorted(drawing.places)
    dots = _scaled([drawing.places[v] for v in vertices] + [drawing.at], width)
    spots = dict(zip(vertices, dots))
    whole = [edge for edge in witness_graph(figure)[1] if edge not in drawing.crossed]
    lines = [f"\\draw[edge, thick] {_at(spots[u])} -- {_at(spots[v])};" for u, v in whole]
    for (u, v), colour in zip(drawing.crossed, ("even", "dot")):
        lines.append(f"\\draw[draw=pigale-{colour}, thick] {_at(spots[u])} -- {_at(dots[-1])} -- {_at(spots[v])};")
    return lines + _vertices(dots[:-1], replace(look, names=tuple(map(look.label, vertices))), branch_colours(figure, vertices))
