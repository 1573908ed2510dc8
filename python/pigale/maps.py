"""The edges and faces of a map, and maps made from others."""
import functools
import math
from typing import Any, Callable, Dict, List, Sequence, Set, Tuple

from .formats import AnyMap, Edge, Lists, Place, WitnessFigure, read_graph6
from .library import library


def rotations_of(points: Sequence[Place], edges: Sequence[Edge]) -> Lists:
    """The lists of the map that a drawing shows: the neighbours of each vertex, clockwise from west.

    `points` has a pair of whole numbers for each vertex, y upwards; `edges` has pairs of numbers from 1. Neighbours in
    one direction stand in the order of `edges`.
    """
    lists: Lists = [[] for _ in points]
    for u, v in edges:
        lists[u - 1].append(v)
        lists[v - 1].append(u)
    is_small = all(-NEAR <= x <= NEAR and -NEAR <= y <= NEAR for x, y in points)
    by_turn: Callable[[Place], Any] = _turn if is_small else functools.cmp_to_key(_clockwise)
    for (x, y), us in zip(points, lists):
        if len(us) > 1:
            towards = {u: by_turn((points[u - 1][0] - x, points[u - 1][1] - y)) for u in us}
            us.sort(key=towards.__getitem__)
    return lists


NEAR = 1 << 20  # of points as near as this to (0, 0) the angles of two directions differ by more than their rounding


def _turn(direction: Place) -> float:
    """The angle from west to a direction, clockwise."""
    turn = math.atan2(direction[1], -direction[0])
    return turn if turn >= 0 else turn + 2 * math.pi


def _clockwise(one: Place, other: Place) -> int:
    """Below 0 where the first direction comes before the second, clockwise from west."""
    halves = [0 if y > 0 or y == 0 and x < 0 else 1 for x, y in (one, other)]
    return halves[0] - halves[1] or one[0] * other[1] - other[0] * one[1]


def edges_of(lists: AnyMap) -> List[Edge]:
    """The edges of a map, as pairs (v, u) with v below u, in the order of v and then u."""
    return sorted((v, u) for v, us in enumerate(lists, 1) for u in us if v < u)


def faces_of(lists: AnyMap) -> Lists:
    """The faces of a map that have edges, each as the list of its vertices with the face on the left.

    The lists have to be a simple map; KeyError is raised where they are none. The first face is that of the dart from vertex 1
    to the first of its list, which the drawings of connected maps have outside. The library walks along them where it is there.
    """
    path = library()
    if path:
        from .arrays import Map
        from .typed import walked_faces
        try:
            found = walked_faces(path, lists if isinstance(lists, Map) else Map(lists))
        except ValueError as fault:
            raise KeyError(str(fault)) from fault
        if found is not None:
            return found
    return _walked(lists)


def _walked(lists: AnyMap) -> Lists:
    following = {(u, v): (v, us[(k + 1) % len(us)]) for v, us in enumerate(lists, 1) for k, u in enumerate(us)}
    if len(following) != sum(map(len, lists)) or any(v == u for v, u in following):
        raise KeyError("the lists are no simple map: one holds its own vertex, or another one twice")
    seen: Set[Edge] = set()
    faces: Lists = []
    for first in ((v, u) for v, us in enumerate(lists, 1) for u in us):
        dart = first
        face: List[int] = []
        while dart not in seen:
            seen.add(dart)
            face.append(dart[0])
            dart = following[dart]
        if face:
            faces.append(face)
    return faces


def dual(lists: AnyMap) -> Lists:
    """The dual of a three-connected map of genus zero: a vertex for each face, in the order of `faces_of`.

    Other maps may have a dual with loops or edges between the same two, which the program refuses.
    """
    faces = faces_of(lists)
    left = {(v, face[(k + 1) % len(face)]): i for i, face in enumerate(faces, 1) for k, v in enumerate(face)}
    # A face is walked with itself on the left, so counterclockwise where it is not the outer one.
    return [[left[face[(k + 1) % len(face)], v] for k, v in enumerate(face)][::-1] for face in faces]


def outside(lists: AnyMap, v: int, u: int) -> Lists:
    """The map with the face of the dart from v to its neighbour u outside, as the drawing jobs take it.

    Vertices v and 1 exchange their numbers, and the list of vertex 1 then begins with the neighbour that was u.
    """
    names = {1: v, v: 1}
    out = [[names.get(w, w) for w in lists[names.get(x, x) - 1]] for x in range(1, len(lists) + 1)]
    first = out[0].index(names.get(u, u))
    return [out[0][first:] + out[0][:first], *out[1:]]


def without_edge(lists: AnyMap, v: int, u: int) -> Lists:
    """The map without the edge from v to u; its faces at both sides become one.

    Where u was the first of v's list, that face is the one on the left of the dart from v to what is first then. So of a
    triangulation of more than four vertices in which each triangle of edges is a face, `rect` draws
    `without_edge(lists, 1, lists[0][0])`.
    """
    return [[x for x in us if {w, x} != {v, u}] for w, us in enumerate(lists, 1)]


def witness_graph(witness: WitnessFigure) -> Tuple[int, List[Edge]]:
    """The graph of a witness, as (n, edges): the vertices of its graph, and the edges of its paths alone."""
    n, _ = read_graph6(witness.graph6)
    return n, sorted({(min(pair), max(pair)) for path in witness.paths for pair in zip(path, path[1:])})
