"""The commands that draw graphs from files, and that make maps."""
import argparse
import os
import sys
from random import Random
from typing import Callable, Dict, List, Tuple

from .drawn import METHODS, Drawn, draw_named
from .formats import Lists, Refused, write_planar_code
from .makers import complete, cycle, grid, path, prism, quadrangle, stacked, tree, triangulation, wheel
from .pictures import STYLES
from .readers import READ_KINDS, Named, graphs_of, read_graphs
from .streams import put, read_input
from .writers import FORMS, LABELS, ONE_A_FILE, Look, written

# each maker by its word, with the names of its numbers
MAKERS: Dict[str, Tuple[Callable[..., Lists], Tuple[str, ...]]] = {
    "stacked": (stacked, ("SIZE", "NUMBER")),
    "triangulation": (lambda n, seed: triangulation(n, Random(seed)), ("SIZE", "SEED")),
    "tree": (lambda n, seed: tree(n, Random(seed)), ("SIZE", "SEED")),
    "path": (path, ("SIZE",)), "cycle": (cycle, ("SIZE",)), "complete": (complete, ("SIZE",)), "wheel": (wheel, ("SIZE",)),
    "prism": (prism, ("SIDES",)), "grid": (grid, ("ROWS", "COLUMNS")), "quadrangle": (quadrangle, ("ROWS", "COLUMNS")),
}
LEAST = {"stacked": 3, "triangulation": 3, "cycle": 3, "wheel": 4, "prism": 3}  # of a first number, where that is not 1


def add_commands(add: Callable[[str, Callable[[argparse.Namespace], int], str], argparse.ArgumentParser]) -> None:
    """Adds the commands `draw` and `make`."""
    drawn = add("draw", _draw, "draws graphs and maps from files of many formats, each with its names")
    drawn.add_argument("files", metavar="FILE", nargs="*",
                       help="of any format of --from, also packed by gzip; standard input without one or for -")
    drawn.add_argument("-o", "--output", metavar="OUT",
                       help=f"a file whose ending says the form: {', '.join(FORMS)}; of several drawings OUT-1, OUT-2 and so on")
    drawn.add_argument("--to", metavar="FORM", choices=FORMS,
                       help="the form, where the ending of OUT does not say it; svg by default")
    drawn.add_argument("--from", dest="kind", metavar="FORMAT", choices=READ_KINDS,
                       help=f"{', '.join(READ_KINDS)}; by default what the ending of FILE says, or its first bytes")
    drawn.add_argument("--method", choices=METHODS, default="round",
                       help="round (judged; else the proved convex or schnyder), tutte, or a job of the program")
    drawn.add_argument("--outer", metavar="V,U,W", help="names of vertices on the outer face, or largest")
    drawn.add_argument("--style", metavar="WORDS", default="",
                       help=f"joined by commas: {', '.join(STYLES)}, and round or tutte, as --method has them")
    drawn.add_argument("--labels", choices=LABELS, default="names",
                       help="of vertices in pictures; the numbers from 1 where a graph has no names")
    drawn.add_argument("--mark", metavar="V,U,W", default="",
                       help="names of vertices in another colour, with the edges between two that follow each other")
    drawn.add_argument("--dual", action="store_true", help="lay the dual over a straight-line drawing")
    drawn.add_argument("--side", metavar="N", type=float, help="the longer side of a picture, in pixels")
    made = add("make", _make, "writes planar_code of a made map")
    made.add_argument("maker", metavar="MAP", choices=sorted(MAKERS),
                      help="; ".join(f"{name} {' '.join(words)}" for name, (_, words) in sorted(MAKERS.items())))
    made.add_argument("numbers", metavar="N", nargs="+", type=int)


def _draw(arguments: argparse.Namespace) -> int:
    words = [word for word in arguments.style.split(",") if word]
    method = next((word for word in words if word in ("round", "tutte")), arguments.method)
    styles = [word for word in words if word not in ("round", "tutte")] + ["dual"] * arguments.dual
    look = Look(arguments.labels, styles, arguments.side, [name.strip() for name in arguments.mark.split(",") if name.strip()])
    form = _form_of(arguments)
    graphs: List[Named] = []
    if not arguments.files and sys.stdin is not None and sys.stdin.isatty():
        raise ValueError("no file is named and standard input is the terminal, as in: pigale draw graph.edges -o graph.svg")
    for name in arguments.files or ["-"]:
        graphs += graphs_of(read_input(), kind=arguments.kind or "") if name == "-" else read_graphs(name, arguments.kind or "")
    for graph in graphs:
        if graph.left_out:
            _say(f"{graph.source}: left out of the drawing: {', '.join(graph.left_out)}")
    drawings = draw_named(graphs, method, arguments.outer)
    for drawing in drawings:
        if not drawing.is_drawing or method in ("round", "tutte") and drawing.method != method:
            _say(drawing.said())
    _write(drawings, form, look, arguments.output)
    return 0 if all(drawing.is_drawing for drawing in drawings) else 1


def _say(text: str) -> None:
    print(f"pigale: {text}", file=sys.stderr)


def _form_of(arguments: argparse.Namespace) -> str:
    """The form that is asked for. Raises ValueError where the ending of the output says none that is written."""
    if arguments.to:
        return str(arguments.to)
    if not arguments.output:
        return "svg"
    ending = os.path.splitext(str(arguments.output))[1][1:].lower()
    if ending not in FORMS:
        raise ValueError(f"{arguments.output}: the ending says no form that is written; there are {', '.join(FORMS)}, or --to FORM")
    return ending


def _write(drawings: List[Drawn], form: str, look: Look, output: str) -> None:
    """Writes the drawings into one file, or where a file holds one drawing into as many, or to standard output."""
    shown = [drawing for drawing in drawings if not isinstance(drawing.figure, Refused)]
    if form not in ONE_A_FILE or len(drawings) == 1:
        if not shown and form != "json":
            return
        data = written(drawings, form, look)
        if output:
            _save(output, data)
        else:
            put(data)
        return
    if not output:
        raise ValueError(f"there are {len(drawings)} drawings, and a file of {form} holds one: -o OUT.{form} makes OUT-1.{form} "
                         "and so on")
    front, ending = os.path.splitext(output)
    digits = len(str(len(drawings)))
    for k, drawing in enumerate(drawings, 1):
        if not isinstance(drawing.figure, Refused):
            _save(f"{front}-{k:0{digits}}{ending}", written([drawing], form, look))


def _save(path: str, data: bytes) -> None:
    with open(path, "wb") as file:
        file.write(data)


def _make(arguments: argparse.Namespace) -> int:
    make, names = MAKERS[arguments.maker]
    if len(arguments.numbers) != len(names):
        raise ValueError(f"{arguments.maker} takes {len(names)} numbers: {' '.join(names)}")
    least = LEAST.get(arguments.maker, 1)
    if min(arguments.numbers) < 0 or arguments.numbers[0] < least or "COLUMNS" in names and arguments.numbers[1] < 1:
        raise ValueError(f"{arguments.maker} begins at {least}")
    put(write_planar_code([make(*arguments.numbers)]))
    return 0
