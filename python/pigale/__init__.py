"""Maps, figures and verdicts of the program pigale, from Python.

Nothing in this package is proved. The program is: its README says what of it. Each count, drawing, witness and
verdict that a function here answers was written by the program; what stands here makes its input, reads its output
and shows it. So a fault in this package can hand the program another map or drawing than yours, or read its answer
wrongly, but it never makes up an answer.

A map is a list of lists: entry v - 1 holds the neighbours of vertex v in clockwise order, and vertices are numbered
from 1. `Map` and `Maps` hold one map and many in arrays, which are read as such lists; a `PlanarEmbedding` of networkx is a
map too. A graph is a pair (n, edges), with pairs of numbers from 1 to n as edges, a line of graph6, or a graph of networkx.
Names of your own stand in `check` and in the functions for networkx and Sage alone.

The program is found by the environment variable PIGALE, else beside this package, else as it is built in this
repository, else under release/, else on the path. The package needs Python 3.8 or later and nothing else; networkx and
Sage are imported where a function is called that speaks of them.

Where PIGALE_LIBRARY names the library libpigale, or PIGALE names no program and tools/library has made the library in this
repository, `run` and what stands on it ask that, within this process, in place of the program; the answers are the same.
`draw`, `count` and `embed` then answer many maps or graphs in one call over arrays, and give figures that are made when
someone looks (`Figures`, `Counts`, `Embeddings`).

`read_graphs` reads graphs of many formats with their names, `draw_named` draws them, and `written` writes the drawings.

Its modules: `formats` (planar_code, graph6 and the program's text), `runs` (of the program), `library` and `typed` (the same
within this process), `arrays` and `answers` (what `typed` takes and gives), `tables` (of many answers), `parts` and `parallel`
(inputs of any size), `maps`, `labellings`, `makers`, `checks`, `graphs` and `networkx_backend` (networkx, igraph and Sage),
`kinds` and `readers` (other formats), `drawn`, `rounds` and `crossings` (drawings of named graphs), `pictures`, `tikz_pictures`,
`writers` and `page_texts`, and `cli` (the commands). All that they offer is here by one name, and each is imported when
something of it is asked for.
"""
__version__ = "1.1.0"

import importlib
from typing import TYPE_CHECKING, Any, List

if TYPE_CHECKING:
    from .answers import Counts, Embeddings, Figures
    from .arrays import Map, Maps
    from .checks import HEIGHT, WIDTH, Checked, Verdicts, check, check_all, read_drawing, scaled
    from .drawn import METHODS, Drawn, draw_named
    from .formats import (FIGURES, GRID_JOBS, HEADER, MOST_BYTES, MOST_VERTICES, PLANAR_JOBS, BarFigure, Count, End,
                          GridFigure, RectFigure, Refused, Stop, Verdict, WitnessFigure, read_blocks, read_figures,
                          read_graph6, read_planar_code, write_graph6, write_planar_code)
    from .graphs import from_igraph, from_networkx, graph_of_networkx, to_networkx, to_sage
    from .labellings import edge_labelling
    from .makers import (complete, cycle, grid, path, prism, quadrangle, renumbered, stacked, tree, triangulation, wheel)
    from .maps import dual, edges_of, faces_of, outside, rotations_of, without_edge, witness_graph
    from .networkx_backend import check_planarity, is_planar, planar_layout
    from .page_texts import page, pages
    from .parallel import Progress, run_all, stream
    from .pictures import STYLES, picture
    from .readers import Named, ReadFault, graphs_of, read_graphs
    from .runs import PigaleError, Run, count, draw, embed, program, run
    from .session import Session
    from .tikz_pictures import tikz, tikz_document
    from .writers import Look, written

# the names that each module offers, which is imported when one of them is asked for
OFFERED = {
    "answers": "Counts Embeddings Figures",
    "arrays": "Map Maps",
    "checks": "HEIGHT WIDTH Checked Verdicts check check_all read_drawing scaled",
    "drawn": "METHODS Drawn draw_named",
    "formats": ("FIGURES GRID_JOBS HEADER MOST_BYTES MOST_VERTICES PLANAR_JOBS BarFigure Count End GridFigure "
        "RectFigure Refused Stop Verdict WitnessFigure read_blocks read_figures read_graph6 read_planar_code "
        "write_graph6 write_planar_code"),
    "graphs": "from_igraph from_networkx graph_of_networkx to_networkx to_sage",
    "labellings": "edge_labelling",
    "makers": "complete cycle grid path prism quadrangle renumbered stacked tree triangulation wheel",
    "maps": "dual edges_of faces_of outside rotations_of without_edge witness_graph",
    "networkx_backend": "check_planarity is_planar planar_layout",
    "page_texts": "page pages",
    "parallel": "Progress run_all stream",
    "pictures": "STYLES picture",
    "readers": "Named ReadFault graphs_of read_graphs",
    "runs": "PigaleError Run count draw embed program run",
    "session": "Session",
    "tikz_pictures": "tikz tikz_document",
    "writers": "Look written",
}
MODULE_OF = {name: module for module, names in OFFERED.items() for name in names.split()}
MODULES = {*OFFERED, "cli", "crossings", "drawing_commands", "kinds", "library", "parts", "programs", "rounds", "slips", "streams",
           "tables", "typed", "worker", "workers"}


def __getattr__(name: str) -> Any:
    """Imports what is asked for by its name, so that `import pigale` itself takes no time."""
    if name in MODULE_OF:
        found = getattr(importlib.import_module(f".{MODULE_OF[name]}", __name__), name)
        globals()[name] = found
        return found
    if name in MODULES:
        return importlib.import_module(f".{name}", __name__)
    raise AttributeError(f"module {__name__!r} has no attribute {name!r}")


def __dir__() -> List[str]:
    return sorted({*globals(), *__all__})


__all__ = [
    "BarFigure", "Checked", "Count", "Counts", "Drawn", "Embeddings", "End", "FIGURES", "Figures", "GRID_JOBS",
    "GridFigure", "HEADER", "HEIGHT", "Look", "METHODS", "MOST_BYTES", "MOST_VERTICES", "Map", "Maps", "Named",
    "PLANAR_JOBS", "PigaleError", "Progress", "ReadFault", "RectFigure", "Refused", "Run", "STYLES", "Session", "Stop",
    "Verdict", "Verdicts", "WIDTH", "WitnessFigure", "check", "check_all", "check_planarity", "complete", "count",
    "cycle", "draw", "draw_named", "dual", "edge_labelling", "edges_of", "embed", "faces_of", "from_igraph",
    "from_networkx", "graph_of_networkx", "graphs_of", "grid", "is_planar", "outside", "page", "pages", "path",
    "picture", "planar_layout", "prism", "program", "quadrangle", "read_blocks", "read_drawing", "read_figures",
    "read_graph6", "read_graphs", "read_planar_code", "renumbered", "rotations_of", "run", "run_all", "scaled",
    "stacked", "stream", "tikz", "tikz_document", "to_networkx", "to_sage", "tree", "triangulation", "wheel",
    "without_edge", "witness_graph", "write_graph6", "write_planar_code", "written",
]
