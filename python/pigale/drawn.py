"""Draws graphs and maps with their names: by a method of the program, or round, with what is shown judged by the program."""
import importlib
from dataclasses import dataclass, replace
from typing import Any, Dict, Hashable, List, Optional, Sequence, Tuple, Union, cast

from .checks import HEIGHT, WIDTH
from .formats import (BarFigure, Edge, Figure, GridFigure, Lists, AnyMap, Place, RectFigure, Refused, WitnessFigure, join_words)
from .library import library
from .maps import edges_of, faces_of, outside
from .readers import Named
from .rounds import round_drawing
from .runs import MOST_EMBEDDED, draw, embed
from .typed import checked

METHODS = ("round", "tutte", "schnyder", "shift", "convex", "bars", "rect")
ROUND = {"round": "round", "tutte": "by Tutte's method"}
JUDGED = "judged plane by the proved program"
DRAWN = {"schnyder": "by Schnyder's method", "shift": "by the shift method", "convex": "with convex faces", "bars": "by bars",
         "rect": "by rectangles"}
Outer = Union[None, str, Sequence[Hashable]]

WHY = {
    "OutOfRange": "the list of {0} has a neighbour that is no vertex", "Loop": "{0} is its own neighbour",
    "Repeated": "the list of {0} has {1} twice",
    "OneSided": "the list of {0} has {1}, whose list has not {0}", "Small": "it has fewer vertices than can be drawn ({0})",
    "Genus": "it is a map of genus {0}: its lists fit on no plane (draw --method round of the bare graph finds others)",
    "NotConnected": "it has several components", "CutVertex": "{0} is a cut vertex",
    "SeparatingPair": "{0} and {1} are a separating pair",
    "OuterNotQuad": "the outer face is no quadrangle", "NotTriangle": "the face left of {0} to {1} is no triangle",
    "SeparatingTriangle": "{0}, {1} and {2} are a triangle that bounds no face", "NoInner": "each vertex lies on the outer face",
}


@dataclass
class Drawn:
    """A graph with its drawing, or with its witness that it has none, or with the reason why the method does not draw it.

    `figure` has the vertices of `graph` by their numbers; `method` is a word of `METHODS`, and `note` says in words what the
    figure is and that it was judged.
    """
    graph: Named
    figure: Union[Figure, Refused]
    method: str
    note: str

    @property
    def is_drawing(self) -> bool:
        """Whether the figure is a drawing of the graph."""
        return not isinstance(self.figure, (Refused, WitnessFigure))

    def name(self, v: int) -> Hashable:
        """The name of a vertex by its number."""
        return self.graph.names[v - 1]

    def said(self) -> str:
        """What there is to say of it in a line: what the figure is, the witness by its names, or why there is no figure."""
        where = f"{self.graph.source}: " if self.graph.source else ""
        if isinstance(self.figure, WitnessFigure):
            kind, branches = {"K5": "K5", "K33": "K3,3"}[self.figure.kind], [str(self.name(v)) for v in self.figure.branches]
            ends = ", ".join(branches) if kind == "K5" else f"{', '.join(branches[:3])} and {', '.join(branches[3:])}"
            paths = ", ".join("-".join(str(self.name(v)) for v in path) for path in self.figure.paths)
            return f"{where}not planar: it has a subdivision of {kind} with the branch vertices {ends}, by the paths {paths}"
        if isinstance(self.figure, Refused):
            numbers: List[Any] = list(self.figure.numbers)
            if self.figure.name not in ("Small", "Genus"):
                numbers = [self.name(v) if 0 < v <= len(self.graph.names) else v for v in numbers]
            why = WHY[self.figure.name].format(*numbers)
            return f"{where}{self.method} does not draw it: {why} ({join_words(self.figure.name, *numbers)})"
        return f"{where}{self.note}"

    def to_dict(self) -> Dict[str, Any]:
        """It as lists and dictionaries of what JSON has: a drawing as `check` reads it, a witness, or a refusal."""
        graph: Dict[str, Any] = {"graph": self.graph.source, "method": self.method, "says": self.said()}
        if isinstance(self.figure, Refused):
            return {**graph, "refused": self.figure.name}
        nodes: List[Dict[str, Any]] = [{"id": _plain_name(name)} for name in self.graph.names]
        links: List[Dict[str, Any]] = [{"source": _plain_name(self.name(u)), "target": _plain_name(self.name(v))}
                                       for u, v in self.graph.edges]
        if isinstance(self.figure, WitnessFigure):
            witness = {"kind": self.figure.kind, "branches": [_plain_name(self.name(v)) for v in self.figure.branches],
                       "paths": [[_plain_name(self.name(v)) for v in path] for path in self.figure.paths]}
            return {**graph, "witness": witness, "nodes": nodes, "links": links}
        for node, row in zip(nodes, table_rows(self.figure)):
            node.update(row)
        if isinstance(self.figure, BarFigure):
            for link, column in zip(links, self.figure.columns):
                link["column"] = column
        return {**graph, "nodes": nodes, "links": links}


def _plain_name(name: Hashable) -> Union[str, int]:
    return name if isinstance(name, (str, int)) else str(name)


def table_rows(figure: Figure) -> List[Dict[str, int]]:
    """What a figure has for each vertex, in order, by the names of its columns."""
    if isinstance(figure, GridFigure):
        return [{"x": x, "y": y} for x, y in figure.places]
    if isinstance(figure, BarFigure):
        return [{"y": y, "x1": a, "x2": b} for y, (a, b) in zip(figure.heights, figure.spans)]
    if isinstance(figure, RectFigure):
        return [{"x1": a, "x2": b, "y1": c, "y2": d} for a, b, c, d in figure.boxes]
    return []


def draw_named(graphs: Sequence[Named], method: str = "round", outer: Outer = None) -> List[Drawn]:
    """Draws graphs and maps, each with its names: a `Drawn` for each, in order.

    `method` is one of `METHODS`. By "round" the outer face is a circle, and where the check of the drawing says no to all
    that is tried, the proved drawing with convex faces or Schnyder's is shown; "tutte" is the plain barycentric drawing.
    The others are the program's jobs. Of a bare graph the program finds a map, or a witness that it has none.

    `outer` chooses the outer face: "largest", or names of vertices that lie on it, of several faces the smallest; without it,
    it is that of the map, and for "round" and "tutte" the largest. Raises ValueError where no face has these vertices, where
    a graph of more than 255 vertices is no map and networkx is not there, and where the method is none.
    """
    if method not in METHODS:
        raise ValueError(f"{method} is no method: there are {', '.join(METHODS)}")
    found = _mapped(graphs)
    wanted = outer or ("largest" if method in ("round", "tutte") else None)
    ready = [(graph, turned_outside(lists, wanted, graph) if isinstance(lists, list) else None) for graph, lists in zip(graphs, found)]
    drawings = iter(_draw_maps([turned[0] for _, turned in ready if turned], method))
    out = []
    for (graph, turned), lists in zip(ready, found):
        if turned is None:
            out.append(Drawn(graph, cast(Union[WitnessFigure, Refused], lists), method, ""))
            continue
        figure, way, note = next(drawings)
        out.append(Drawn(graph, renamed_figure(figure, turned[1]), way, note))
    return out


def _mapped(graphs: Sequence[Named]) -> List[Union[Lists, WitnessFigure, Refused]]:
    """The lists of each graph: its own, or those that are found; or its witness, or its refusal."""
    small = [graph for graph in graphs if graph.lists is None and len(graph.names) <= MOST_EMBEDDED]
    answers = iter(embed([(len(graph.names), graph.edges) for graph in small]) if small else [])
    found: List[Union[Lists, WitnessFigure, Refused]] = []
    for graph in graphs:
        if graph.lists is not None:
            found.append([list(us) for us in graph.lists])
        elif len(graph.names) <= MOST_EMBEDDED:
            answer = next(answers)
            found.append(answer.lists if isinstance(answer, GridFigure) else answer)
        else:
            found.append(_large_map(graph))
    return found


def _large_map(graph: Named) -> Lists:
    """The lists that networkx finds for a graph of more vertices than `embed` reads; the program judges the drawing of them."""
    said = f"{graph.source}: a bare graph of {len(graph.names)} vertices; embed finds maps of up to {MOST_EMBEDDED}"
    try:
        networkx = importlib.import_module("networkx")
    except ImportError as fault:
        raise ValueError(f"{said}, and networkx, which finds others, is not there (nauty's planarg -p makes planar_code of "
                         "graph6)") from fault
    whole = networkx.Graph()
    whole.add_nodes_from(range(1, len(graph.names) + 1))
    whole.add_edges_from(graph.edges)
    is_planar, embedding = networkx.check_planarity(whole)
    if not is_planar:
        raise ValueError(f"{said}, and networkx finds none of it: it is not planar, as networkx says")
    return [list(embedding.neighbors_cw_order(v)) for v in range(1, len(graph.names) + 1)]


Turned = Tuple[Lists, Dict[int, int]]


def turned_outside(lists: Lists, outer: Outer, graph: Named) -> Turned:
    """The lists with the face outside that `outer` asks for, and which number each vertex has had before.

    Raises ValueError where no face has the vertices.
    """
    same = {v: v for v in range(1, len(lists) + 1)}
    if outer is None:
        return lists, same
    try:
        faces = faces_of(lists)
    except KeyError:
        return lists, same  # no simple map: the program says why
    if not faces:
        return lists, same
    if outer == "largest":
        face = max(faces, key=len)
    else:
        numbers = {str(name): v for v, name in enumerate(graph.names, 1)}
        wanted = [str(name).strip() for name in (outer.split(",") if isinstance(outer, str) else outer)]
        for name in wanted:
            if name not in numbers:
                raise ValueError(f"{graph.source}: no vertex is called {name}")
        have = [face for face in faces if {numbers[name] for name in wanted} <= set(face)]
        if not have:
            raise ValueError(f"{graph.source}: no face of the map has {', '.join(wanted)}")
        face = min(have, key=len)
    v, u = face[0], face[1]
    return outside(lists, v, u), {**same, 1: v, v: 1}


def renamed_figure(figure: Union[Figure, Refused], number: Dict[int, int]) -> Union[Figure, Refused]:
    """A figure or a refusal of a map of which each vertex has another number, by a dictionary from one to the other."""
    if isinstance(figure, Refused):
        is_count = figure.name in ("Small", "Genus")
        return figure if is_count else replace(figure, numbers=tuple(number.get(v, v) for v in figure.numbers))
    if isinstance(figure, WitnessFigure):
        return figure
    back = [v for _, v in sorted((new, old) for old, new in number.items())]

    def moved(values: Sequence[Any]) -> List[Any]:
        return [values[v - 1] for v in back]

    lists = [[number[u] for u in us] for us in moved(figure.lists)]
    if isinstance(figure, GridFigure):
        return replace(figure, places=moved(figure.places), lists=lists)
    if isinstance(figure, RectFigure):
        return replace(figure, boxes=moved(figure.boxes), lists=lists)
    edges = [tuple(sorted((number[u], number[v]))) for u, v in edges_of(figure.lists)]
    columns = [column for _, column in sorted(zip(edges, figure.columns))]
    return replace(figure, heights=moved(figure.heights), spans=moved(figure.spans), lists=lists, columns=columns)


Made = Tuple[Union[Figure, Refused], str, str]


def _draw_maps(maps: Sequence[Lists], method: str) -> List[Made]:
    """The figure of each map, the method that it is by, and what is to be said of it."""
    if not maps:
        return []
    if method not in ("round", "tutte"):
        return [(figure, method, f"drawn {DRAWN[method]}, proved plane") for figure in draw(maps, method)]
    with _Judge() as judge:
        made: List[Optional[Made]] = [_round(lists, method, judge) for lists in maps]
    for job in ("convex", "schnyder"):
        left = [k for k, one in enumerate(made) if one is None or isinstance(one[0], Refused)]
        for k, figure in zip(left, draw([maps[k] for k in left], job) if left else []):
            made[k] = (figure, job, f"drawn {DRAWN[job]}, proved plane: no {method} drawing was judged plane")
    return [cast(Made, one) for one in made]


class _Judge:
    """Has drawings of maps judged by the library, or by a program that stays."""

    def __init__(self) -> None:
        self.path = library()
        self.session: Any = None

    @property
    def sizes(self) -> Sequence[int]:
        """The sizes of grids that can be judged, in the order in which they are tried."""
        return (1000, 1000000) if self.path else (1000, HEIGHT)

    def says_yes(self, lists: AnyMap, places: Sequence[Place]) -> bool:
        """Whether a drawing is plane and keeps the lists."""
        size = max(max(place) for place in places)
        if self.path:
            return checked(self.path, lists, places, size, size)[0] == "yes"
        if not self.session:
            from .session import Session
            self.session = Session()
        rotations = dict(enumerate([[u - 1 for u in us] for us in lists]))
        edges: List[Edge] = [(u - 1, v - 1) for u, v in edges_of(lists)]
        return bool(self.session.check(places, edges, rotations))

    def __enter__(self) -> "_Judge":
        return self

    def __exit__(self, *_: object) -> None:
        if self.session:
            self.session.close()


def _round(lists: Lists, method: str, judge: _Judge) -> Optional[Made]:
    """The round drawing of a map with what is to be said of it, or None where none was judged plane."""
    try:
        faces_of(lists)
    except KeyError:
        return None  # no simple map: the program says why
    parts = _components(lists)
    if len(parts) == 1:
        made = round_drawing(lists, lambda places, _: judge.says_yes(lists, places), judge.sizes, method == "tutte")
        places = made.places if made else None
    else:
        places = _parts_drawing(lists, parts, judge, method)
    if places is None:
        return None
    return GridFigure(1, method, places, lists), method, f"drawn {ROUND[method]}, its outer face on a circle, {JUDGED}"


def _parts_drawing(lists: Lists, parts: Sequence[Sequence[int]], judge: _Judge, method: str) -> Optional[List[Place]]:
    """The places of a map of several components, each drawn by itself; None where one is not judged plane, or all are not."""
    drawings: List[Sequence[Place]] = []
    for part in parts:
        own = {v: k for k, v in enumerate(part, 1)}
        inner = [[own[u] for u in lists[v - 1]] for v in part]
        drawing = _part_drawing(inner, judge, method) if len(part) > 2 else [(0, 0), (1000, 0)][:len(part)]
        if drawing is None:
            return None
        drawings.append(drawing)
    places = _packed(parts, drawings)
    is_small = all(x <= WIDTH and y <= HEIGHT for x, y in places)
    return places if (judge.path or is_small) and judge.says_yes(lists, places) else None


def _part_drawing(lists: Lists, judge: _Judge, method: str) -> Optional[List[Place]]:
    """The places of a component, drawn round with its largest face outside."""
    turned, number = turned_outside(lists, "largest", Named.of_map(lists))
    made = round_drawing(turned, lambda places, _: judge.says_yes(turned, places), judge.sizes[:1], method == "tutte")
    if made is None:
        return None
    places: List[Place] = [(0, 0)] * len(lists)
    for k, place in enumerate(made.places, 1):
        places[number[k] - 1] = place
    return places


def _components(lists: AnyMap) -> List[List[int]]:
    """The components of a map, each with its vertices in rising order, the largest first."""
    seen = [False] * len(lists)
    parts = []
    for start in range(1, len(lists) + 1):
        if seen[start - 1]:
            continue
        seen[start - 1] = True
        part = [start]
        for v in part:
            for u in lists[v - 1]:
                if not seen[u - 1]:
                    seen[u - 1] = True
                    part.append(u)
        parts.append(sorted(part))
    return sorted(parts, key=lambda part: (-len(part), part))


def _packed(parts: Sequence[Sequence[int]], drawings: Sequence[Sequence[Place]]) -> List[Place]:
    """The places of components one beside another in rows, as for one map."""
    most = max(len(part) for part in parts)
    sizes = [max(120, round(1000 * (len(part) / most) ** 0.5)) if len(part) > 1 else 60 for part in parts]
    width = max(1000, round(1.4 * sum(size * size for size in sizes) ** 0.5))
    places: List[Place] = [(0, 0)] * sum(map(len, parts))
    left = low = high = 0
    for part, drawing, size in zip(parts, drawings, sizes):
        if left and left + size > width:
            left, low = 0, high + 100
        reach = max(max(place) for place in drawing) or 1
        for v, (x, y) in zip(part, drawing):
            places[v - 1] = (left + x * size // reach, low + y * size // reach)
        left += size + 100
        high = max(high, low + max(y * size // reach for _, y in drawing))
    return places
