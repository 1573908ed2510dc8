"""Writes drawings with their names: as SVG, PDF, PNG, TikZ, JSON, GraphML, CSV and the program's text."""
import csv
import html
import importlib
import io
import json
import os
import shutil
import subprocess
import tempfile
from dataclasses import replace
from typing import Any, List, Optional, Sequence
from xml.etree import ElementTree

from .drawn import Drawn, table_rows
from .formats import PLANAR_JOBS, BarFigure, Figure, Refused, WitnessFigure
from .pictures import Labels, Style, picture
from .tikz_pictures import tikz, tikz_document

FORMS = ("svg", "pdf", "png", "tex", "json", "graphml", "csv", "txt")
ONE_A_FILE = ("svg", "pdf", "png", "graphml")  # forms of which a file holds one drawing
LABELS = ("names", "numbers", "none")
XMLNS = "http://graphml.graphdrawing.org/xmlns"


class Look:
    """How drawings are to be shown: their labels by a word of `LABELS`, their styles, the longer side of a picture in pixels,
    and names of vertices that have another colour, as have the edges between two that follow each other there."""

    def __init__(self, labels: str = "names", style: Style = (), side: Optional[float] = None, marked: Sequence[Any] = ()) -> None:
        self.labels, self.style, self.side, self.marked = labels, style, side, marked

    def marked_of(self, drawn: Drawn) -> List[int]:
        """The marked vertices of a drawing by their numbers. Raises ValueError where a name is none of its vertices'."""
        numbers = {str(name): v for v, name in enumerate(drawn.graph.names, 1)}
        for name in self.marked:
            if str(name) not in numbers:
                raise ValueError(f"{drawn.graph.source}: no vertex is called {name}")
        return [numbers[str(name)] for name in self.marked]

    def labels_of(self, drawn: Drawn) -> Labels:
        """The labels of a drawing, as `picture` takes them."""
        if self.labels == "none":
            return False
        return [str(name) for name in drawn.graph.names] if self.labels == "names" and drawn.graph.has_names else True


def written(drawings: Sequence[Drawn], form: str, look: Look) -> bytes:
    """The drawings in a form, a word of `FORMS`; of those of `ONE_A_FILE` there is to be one drawing.

    Of a witness there is its picture, and it stands in JSON and in the text. Raises ValueError where a drawing has nothing
    that can be written in the form, and where a PDF or PNG is asked for and nothing is there that makes them.
    """
    shown = [drawn for drawn in drawings if not isinstance(drawn.figure, Refused)]
    if form == "json":
        found = [drawn.to_dict() for drawn in drawings]
        return (json.dumps(found[0] if len(found) == 1 else found, indent=1, ensure_ascii=False) + "\n").encode()
    if form == "csv":
        return _table(shown)
    if form == "txt":
        return "".join(f"{_numbered(drawn, k)}\n" for k, drawn in enumerate(shown, 1)).encode("ascii", "surrogateescape")
    if form == "tex":
        return tikz_document([f"% {drawn.said()}\n{_tikz_of(drawn, look)}" for drawn in shown]).encode()
    if not shown:
        raise ValueError("there is nothing to draw")
    if form == "graphml":
        return _graphml(shown[0])
    svg = svg_of(shown[0], look)
    return svg.encode() if form == "svg" else converted(svg, form, look.side)


def _figure(drawn: Drawn) -> Figure:
    """The figure of a drawing that is no refusal."""
    assert not isinstance(drawn.figure, Refused)
    return drawn.figure


def _tikz_of(drawn: Drawn, look: Look) -> str:
    return tikz(_figure(drawn), look.labels_of(drawn), look.style, marked=look.marked_of(drawn))


def _numbered(drawn: Drawn, number: int) -> str:
    """The text of a figure, with its number among those that are written. Raises ValueError where it is by no job."""
    figure = _figure(drawn)
    if figure.job not in (*PLANAR_JOBS, "witness"):
        raise ValueError(f"{drawn.graph.source}: the text is that of figures by the program's jobs, and a {drawn.method} drawing "
                         "is by none: --method schnyder is, or json and csv have its places")
    return str(replace(figure, number=number))


def svg_of(drawn: Drawn, look: Look) -> str:
    """The picture of a drawing, which says by its title what it is and that it was judged."""
    first, rest = picture(_figure(drawn), look.side, look.labels_of(drawn), look.style, look.marked_of(drawn)).split("\n", 1)
    return f"{first}\n<title>{html.escape(drawn.said(), False)}</title>\n{rest}"


def converted(svg: str, form: str, side: Optional[float] = None) -> bytes:
    """A picture as PDF or PNG, by cairosvg, rsvg-convert or inkscape, whichever is there; a PNG has twice its pixels.

    Raises ValueError where none of them is there, and where the one that is there fails.
    """
    try:
        cairosvg = importlib.import_module("cairosvg")
        call = cairosvg.svg2pdf if form == "pdf" else cairosvg.svg2png
        return bytes(call(bytestring=svg.encode(), **({} if form == "pdf" else {"scale": 2})))
    except ImportError:
        pass
    with tempfile.TemporaryDirectory() as folder:
        given, made = os.path.join(folder, "picture.svg"), os.path.join(folder, f"picture.{form}")
        with open(given, "w", encoding="utf-8") as file:
            file.write(svg)
        if shutil.which("rsvg-convert"):
            words = ["rsvg-convert", "-f", form, *([] if form == "pdf" else ["-z", "2"]), "-o", made, given]
        elif shutil.which("inkscape"):
            words = ["inkscape", *([] if form == "pdf" else ["--export-dpi=192"]), f"--export-filename={made}", given]
        else:
            raise ValueError(f"a {form.upper()} is made of SVG by cairosvg, rsvg-convert or inkscape, and none of them is there: "
                             "pip install cairosvg, or apt-get install librsvg2-bin; svg and tex need none")
        done = subprocess.run(words, stdout=subprocess.PIPE, stderr=subprocess.PIPE, check=False)
        if done.returncode or not os.path.exists(made):
            said = done.stderr.decode(errors="replace").strip()[:200]
            raise ValueError(f"{words[0]} makes no {form.upper()} of the picture: {said}")
        with open(made, "rb") as result:
            return result.read()


def _table(drawings: Sequence[Drawn]) -> bytes:
    """A line for each vertex: its graph, its name, where it stands, and its neighbours in clockwise order."""
    out = io.StringIO()
    columns: List[str] = []
    rows: List[List[Any]] = []
    for k, drawn in enumerate(drawings, 1):
        if isinstance(drawn.figure, (WitnessFigure, Refused)):
            continue
        for v, row in enumerate(table_rows(drawn.figure), 1):
            columns = columns or list(row)
            neighbours = " ".join(str(drawn.name(u)) for u in drawn.figure.lists[v - 1])
            rows.append([k, drawn.name(v), *(row.get(column, "") for column in columns), neighbours])
    table = csv.writer(out, lineterminator="\n")
    table.writerow(["graph", "vertex", *(columns or ["x", "y"]), "neighbours"])
    table.writerows(rows)
    return out.getvalue().encode()


def _graphml(drawn: Drawn) -> bytes:
    """A drawing as GraphML, with its numbers as data of the vertices, and for bars of the edges; of a witness its graph alone."""
    ElementTree.register_namespace("", XMLNS)
    root = ElementTree.Element(f"{{{XMLNS}}}graphml")
    rows = table_rows(drawn.figure) if not isinstance(drawn.figure, Refused) else []
    columns = drawn.figure.columns if isinstance(drawn.figure, BarFigure) else []
    for name, of in [*((name, "node") for name in (rows[0] if rows else {})), *([("column", "edge")] if columns else [])]:
        ElementTree.SubElement(root, f"{{{XMLNS}}}key", {"id": name, "for": of, "attr.name": name, "attr.type": "int"})
    graph = ElementTree.SubElement(root, f"{{{XMLNS}}}graph", {"edgedefault": "undirected"})

    def put(parent: ElementTree.Element, kind: str, data: Any, **named: str) -> None:
        entry = ElementTree.SubElement(parent, f"{{{XMLNS}}}{kind}", named)
        for key, value in data.items():
            ElementTree.SubElement(entry, f"{{{XMLNS}}}data", {"key": key}).text = str(value)

    for k, called in enumerate(drawn.graph.names):
        put(graph, "node", rows[k] if rows else {}, id=str(called))
    for k, (u, v) in enumerate(drawn.graph.edges):
        put(graph, "edge", {"column": columns[k]} if columns else {}, source=str(drawn.name(u)), target=str(drawn.name(v)))
    return b'<?xml version="1.0" encoding="UTF-8"?>\n' + ElementTree.tostring(root, encoding="unicode").encode() + b"\n"
