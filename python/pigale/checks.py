"""Has a straight-line drawing of any kind judged by the program, and reads drawings from files."""
import functools
import math
import re
from array import array
from dataclasses import dataclass
from itertools import chain, zip_longest
from typing import Any, Dict, Iterable, List, Mapping, Optional, Sequence, Tuple, Union

from .answers import NUMBERS, Figures
from .arrays import Maps, OnDemand
from .formats import (FIGURES, GRID_JOBS, MOST_BYTES, MOST_VERTICES, Edge, GridFigure, Lists, Place, Refused, Verdict, join_words,
                      pair_of)
from .kinds import looks_like
from .library import library
from .maps import rotations_of
from .runs import run
from .typed import CHECKS, FARTHEST, OUT_OF_RANGE, YES, checked, checked_all, checked_edges

Places = Union[Mapping[Any, Sequence[float]], Sequence[Sequence[float]]]
Rotations = Mapping[Any, Iterable[Any]]
Drawing = Tuple[Dict[Any, Tuple[float, float]], List[Tuple[Any, Any]]]

WIDTH, HEIGHT = 2 * MOST_VERTICES - 4, MOST_VERTICES - 3  # of a drawing that `check` can have judged


@dataclass(frozen=True)
class Checked:
    """What the program says of a drawing: `name` is "yes" or the fault, `vertices` has its vertices by your names.

    It is true where the name is "yes".
    """
    name: str
    vertices: Tuple[Any, ...] = ()

    def __bool__(self) -> bool:
        return self.name == "yes"

    def __str__(self) -> str:
        return join_words(self.name, *self.vertices)


CHECKED_YES = Checked("yes")


class Verdicts(OnDemand[Checked]):
    """The verdicts of the library on figures, in order, each made when someone looks; `statuses` has 0 for each "yes"."""
    __slots__ = ("statuses", "found")

    def __init__(self, statuses: "array[int]", found: "array[int]") -> None:
        self.statuses, self.found = statuses, found

    def __len__(self) -> int:
        return len(self.statuses)

    def one(self, index: int) -> Checked:
        """The verdict of an index from 0 on."""
        if not self.statuses[index]:
            return CHECKED_YES
        name, count = CHECKS[self.statuses[index]]
        return Checked(name, tuple(v + 1 for v in self.found[NUMBERS * index:NUMBERS * index + count]))


def check(places: Places, edges: Iterable[Sequence[Any]], rotations: Optional[Rotations] = None) -> Checked:
    """Whether a straight-line drawing is plane, judged by the program, as a `Checked`.

    `places` gives each vertex its point: a mapping from names to (x, y), or a list, whose vertices are then called 0,
    1, .. `edges` has pairs of names. Coordinates are whole numbers, of any sign (a float such as 3.0 is one); for
    others use `scaled` first. After what both axes' steps have in common is divided out, the drawing may be 8186 by
    4092, or 4092 by 8186, with up to 4094 vertices; by the library 1048576 by 1048576, with up to 4095. Whether y grows
    upwards or downwards changes no answer, unless `rotations` are given.

    The answer is "yes" where no two vertices stand at one place, none stands on an edge of which it is no end, and no
    two edges cross. Else it is the first of these faults, with vertices by your names, least in the order of
    `places`: SamePlace u v; OnEdge v a b; Cross a b c d. Before them stand Loop v and Repeated v u, where `edges` has
    such. Which face is outside is not asked.

    `rotations`, where given, is a mapping from each name to its neighbours in clockwise order, with y upwards. The
    drawing is then asked to keep them: the answer may be Turned v. They have to name just the edges (OneSided v u is
    answered where only one end names the other; ValueError is raised where they differ from `edges` otherwise).

    Raises ValueError where a coordinate is not whole, an edge or a rotation names no vertex, or there are too many
    vertices or too large a grid.
    """
    within = library()
    return _judged(within, places, edges, rotations) if within else check_all([(places, edges, rotations)])[0]


def check_all(drawings: Iterable[Any]) -> Sequence[Checked]:
    """As `check`, for a list of drawings, (places, edges) or (places, edges, rotations), in as few runs or calls as may be.

    A drawing may be a `GridFigure` too, as `draw` and `embed` make them. It is asked to keep its lists, and its vertices are
    called 1, 2, .. A `Figures`, and a list of such figures alone, is judged by the library in one call, and the answer is then
    a `Verdicts`, in which each is made when someone looks. Raises ValueError where one is no straight-line drawing.
    """
    within = library()
    given: Sequence[Any] = drawings if isinstance(drawings, Figures) else list(drawings)
    if within and len(given) and (isinstance(given, Figures) or set(map(type, given)) == {GridFigure}):
        return _figures_judged(within, given)
    found = [_drawing_of(one, k) if isinstance(one, NO_DRAWINGS) else one for k, one in enumerate(given, 1)]
    if within:
        return [_judged(within, *drawing) for drawing in found]
    prepared = [_prepared(*drawing) for drawing in found]
    texts = _joined([f"{figure}\n" for figure, _ in prepared])
    answers = [answer for text in texts for answer in run("verify", text).answers]
    return [_checked(answer, names) for answer, (_, names) in zip(answers, prepared) if isinstance(answer, (Refused, Verdict))]


NO_DRAWINGS = (*FIGURES, Refused)  # of which only a straight-line drawing is one


def _drawing_of(figure: Any, number: int) -> Tuple[Places, List[Edge], Rotations]:
    """A figure as places, edges and rotations. Raises ValueError where it is no straight-line drawing, by its number."""
    if not isinstance(figure, GridFigure):
        hint = f": {figure}" if isinstance(figure, Refused) else " (run('verify', figures) judges figures of all kinds)"
        raise ValueError(f"entry {number} is no straight-line drawing, but {type(figure).__name__}{hint}")
    lists = dict(enumerate(figure.lists, 1))
    if len(figure.places) != len(lists) or not lists.keys() >= set(chain.from_iterable(figure.lists)):
        raise ValueError(f"entry {number} names a vertex that it does not have, or has more places than vertices")
    pairs = dict.fromkeys((min(v, u), max(v, u)) for v, us in lists.items() for u in us)
    return dict(enumerate(figure.places, 1)), list(pairs), lists


def _figures_judged(path: str, figures: Sequence[Any]) -> Sequence[Checked]:
    """The verdicts of the library at a path on straight-line drawings."""
    if isinstance(figures, Figures):
        for k, status in enumerate(figures.statuses):
            if status or figures.job not in GRID_JOBS:
                _drawing_of(figures[k], k + 1)
        return Verdicts(*checked_all(path, figures.maps, figures.columns["x"], figures.columns["y"]))
    try:
        maps = Maps([figure.lists for figure in figures])
        xs, ys = zip(*chain.from_iterable([figure.places for figure in figures]))
        across, up = array("i", xs), array("i", ys)
    except (OverflowError, TypeError, ValueError):
        across = up = array("i", [-1])
    if not 0 <= min(min(across), min(up)) <= max(max(across), max(up)) <= FARTHEST or len(across) != len(maps.ends):
        return [_judged(path, *_drawing_of(figure, k)) for k, figure in enumerate(figures, 1)]
    statuses, found = checked_all(path, maps, across, up)
    for k, figure in enumerate(figures, 1):
        if statuses[k - 1] == OUT_OF_RANGE or len(figure.places) != len(figure.lists):
            _drawing_of(figure, k)
    return Verdicts(statuses, found)


def _joined(texts: Iterable[str]) -> List[str]:
    """The texts one after another, in as few as a run can read each."""
    joined: List[List[str]] = [[]]
    size = 0
    for text in texts:
        if size + len(text) > MOST_BYTES:
            joined.append([])
            size = 0
        joined[-1].append(text)
        size += len(text)
    return ["".join(part) for part in joined]


def _checked(answer: Union[Refused, Verdict], names: List[Any]) -> Checked:
    return Checked(answer.name, tuple(names[v - 1] for v in answer.numbers))


def _prepared(places: Places, edges: Iterable[Sequence[Any]],
              rotations: Optional[Rotations] = None) -> Tuple[GridFigure, List[Any]]:
    """The drawing as a figure of `shift` with vertices of degree zero above it, and the names of its vertices.

    These make the map disconnected, so that the outer face is not asked, and they widen the grid, which is 2N - 4 by
    N - 2 for N vertices.
    """
    points, pairs, names = _paired(places, edges)
    lists = _lists(points, pairs, names, rotations)
    width = max((x for x, _ in points), default=0)
    height = max((y for _, y in points), default=0)
    count = max(len(points) + 1, _vertices_for(width, height))
    if count > MOST_VERTICES:
        raise ValueError(f"{len(points)} vertices on a grid of {width} by {height}: at most {MOST_VERTICES - 1} "
                         f"vertices within {WIDTH} by {HEIGHT} can be judged")
    above = [(k, count - 2) for k in range(count - len(points))]
    return GridFigure(1, "shift", points + above, lists + [[] for _ in above]), names


def _judged(path: str, places: Places, edges: Iterable[Sequence[Any]], rotations: Optional[Rotations] = None) -> Checked:
    """The verdict of the library at a path on a drawing."""
    if rotations is None:
        edges = edges if type(edges) in _LISTS else list(edges)
        found = _verdict_of_numbers(path, places, edges)
        if found:
            return found
    points, pairs, names = _paired(places, edges)
    size = max((max(point) for point in points), default=0)
    if len(points) > MOST_VERTICES or size > FARTHEST:
        raise ValueError(f"{len(points)} vertices on a grid of {size}: at most {MOST_VERTICES} vertices within {FARTHEST} by "
                         f"{FARTHEST} can be judged")
    if not points:
        return CHECKED_YES
    found = None if rotations else _verdict_of_numbers(path, points, [(u - 1, v - 1) for u, v in pairs], names)
    if found:
        return found
    name, vertices = checked(path, _lists(points, pairs, names, rotations), points, size, size)
    return Checked(name, tuple(names[v - 1] for v in vertices))


def _verdict_of_numbers(path: str, places: Any, edges: Any, names: Optional[Sequence[Any]] = None) -> Optional[Checked]:
    """The verdict on a drawing in whole numbers, or None where something about it is to be looked at more closely."""
    try:
        columns: Any = zip_longest(*edges) if edges else ((), ())
        us, vs = columns
        if type(places) is dict:
            names, places = list(places), list(places.values())
            of = dict(zip(names, range(len(names)))).__getitem__
            us, vs = map(of, us), map(of, vs)
        elif type(places) not in _LISTS:
            return None
        found = checked_edges(path, places, len(edges), us, vs)
    except (KeyError, TypeError, ValueError):
        return None
    if not found:
        return None
    if found is YES:
        return CHECKED_YES
    return Checked(found[0], tuple(found[1] if names is None else map(names.__getitem__, found[1])))


_LISTS = frozenset([list, tuple])


def _paired(places: Places, edges: Iterable[Sequence[Any]]) -> Tuple[List[Place], List[Edge], List[Any]]:
    """The points of a drawing from (0, 0) on, its edges by the numbers of their ends, and the names of its vertices."""
    named = _named(places)
    names = list(named)
    number = {name: v for v, name in enumerate(names, 1)}
    points = _fitted([(x if type(x) is int else _whole(x, name), y if type(y) is int else _whole(y, name))
                      for name, (x, y) in named.items()])
    given = list(edges)
    try:
        return points, [(number[u], number[v]) for u, v in given], names
    except (KeyError, TypeError, ValueError):
        return points, [(_number(number, u), _number(number, v)) for u, v in map(pair_of, given)], names


def _lists(points: List[Place], pairs: List[Edge], names: List[Any], rotations: Optional[Rotations]) -> Lists:
    """The lists of the map that a drawing shows, or those that it has to keep."""
    if rotations is None:
        return rotations_of(points, pairs)
    number = {name: v for v, name in enumerate(names, 1)}
    lists = [[_number(number, u) for u in rotations.get(name, ())] for name in names]
    if {frozenset(pair) for pair in pairs} != {frozenset((v, u)) for v, us in enumerate(lists, 1) for u in us}:
        raise ValueError("the rotations have other edges than the drawing")
    return lists


def _named(places: Places) -> Dict[Any, Tuple[float, float]]:
    """The places by their names. Raises ValueError where one is no pair."""
    named: Dict[Any, Any] = dict(places if isinstance(places, Mapping) else enumerate(places))
    for name, place in named.items():
        try:
            x, y = place
        except (TypeError, ValueError) as fault:
            raise ValueError(f"vertex {name} has the place {place}, which is no pair (x, y)") from fault
        named[name] = (x, y)
    return named


def _whole(number: float, name: object) -> int:
    try:
        whole = int(number)
    except (TypeError, ValueError, OverflowError):
        whole = None
    if whole is None or whole != number:
        raise ValueError(f"vertex {name} has the coordinate {number}, which is not whole (scaled makes it so)")
    return whole


def _number(number: Mapping[Any, int], name: Any) -> int:
    if name not in number:
        raise ValueError(f"an edge or a rotation names {name}, which has no place")
    return number[name]


def _fitted(points: List[Place]) -> List[Place]:
    """The points from (0, 0) on, each axis in its greatest common step, and turned by a quarter where that fits better."""
    if not points:
        return []
    axes = []
    for values in zip(*points):
        least = min(values)
        steps = [value - least for value in values]
        unit = functools.reduce(math.gcd, steps) or 1
        axes.append([step // unit for step in steps])
    xs, ys = axes
    if _vertices_for(max(ys), max(xs)) < _vertices_for(max(xs), max(ys)):
        xs, ys = ys, [max(xs) - x for x in xs]
    return list(zip(xs, ys))


def _vertices_for(width: int, height: int) -> int:
    """The least N for which a grid of 2N - 4 by N - 2 has room for a drawing and a row above it."""
    return max((width + 5) // 2, height + 3)


def scaled(places: Places, width: int = WIDTH, height: int = HEIGHT) -> Dict[Any, Place]:
    """The places scaled to whole numbers from 0 to `width` and 0 to `height`, as a dictionary.

    Each axis is stretched by itself so that the places fill it, and rounded to the nearest whole number. Stretching
    changes no verdict, rounding may: a place moves by up to half a step, which is half of the drawing's width or
    height divided by `width` or `height`. So a verdict on these places is one on the rounded drawing. Vertices closer
    than a step may fall on one place; edges that cross by less may no longer, and others may begin to. Raises
    ValueError where a coordinate is not finite.
    """
    named = _named(places)
    if not all(math.isfinite(value) for place in named.values() for value in place):
        raise ValueError("a coordinate is not finite")
    axes = []
    for values, most in zip(zip(*named.values()), (width, height)):
        least, span = min(values), max(values) - min(values)
        axes.append([round((value - least) / span * most) if span else 0 for value in values])
    return dict(zip(named, zip(*axes)))


# Files of drawings

def read_drawing(name: str, text: str) -> Drawing:
    """The drawing in a file's text, as (places, edges): GraphML where its name ends in .graphml, else JSON.

    JSON is an object with `nodes`, each with `id`, `x` and `y`, and `edges` or `links`, each with `source` and
    `target`. In GraphML the nodes have data by the names x and y. Raises ValueError where something of this is wanting,
    or there is no node.
    """
    places, edges = (_graphml_drawing if name.endswith(".graphml") else _json_drawing)(text)
    if not places:
        raise ValueError("the drawing has no nodes")
    return places, edges


def _json_drawing(text: str) -> Drawing:
    import json
    try:
        data = json.loads(text)
    except json.JSONDecodeError as fault:
        found = looks_like(text[:1000].encode(), "json")
        raise ValueError(f"check reads a drawing as JSON (nodes with id, x and y; edges with source and target) or GraphML: "
                         f"{found or f'this is no JSON: {fault}'}") from fault
    try:
        places = {node["id"]: (node["x"] + 0, node["y"] + 0) for node in data["nodes"]}
        links = data["edges"] if "edges" in data else data["links"]
        return places, [(link["source"], link["target"]) for link in links]
    except (KeyError, TypeError) as fault:
        raise ValueError(f"the JSON is no drawing with nodes (id, x, y) and edges (source, target): {fault}") from fault


def _graphml_drawing(text: str) -> Drawing:
    from xml.etree import ElementTree
    space = "{http://graphml.graphdrawing.org/xmlns}"
    try:
        root = ElementTree.fromstring(text)
    except ElementTree.ParseError as fault:
        raise ValueError(f"the GraphML is no XML: {fault}") from fault
    names = {key.get("id"): key.get("attr.name") for key in root.iter(f"{space}key")}
    places = {}
    for node in root.iter(f"{space}node"):
        data = {names.get(entry.get("key")): entry.text for entry in node.findall(f"{space}data")}
        if "x" not in data or "y" not in data:
            raise ValueError(f"node {node.get('id')} has no x or no y")
        places[node.get("id")] = (_read_number(data["x"]), _read_number(data["y"]))
    return places, [(edge.get("source"), edge.get("target")) for edge in root.iter(f"{space}edge")]


def _read_number(text: Optional[str]) -> float:
    text = text or ""
    return int(text) if re.fullmatch(r" *[+-]?[0-9]+ *", text) else float(text)
