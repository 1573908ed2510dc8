"""Draws a witness so that only one crossing is left: a subdivision of K5 or K3,3 with one of its edges over another.

K5 and K3,3 can be drawn with a single crossing. Two edges that share no branch are cut and joined to a vertex where they
cross; the program finds a map of what comes of it, in which the four ends stand round that vertex by turns; and the
round drawing of the map is judged as every other one.
"""
from itertools import combinations
from typing import Dict, List, NamedTuple, Optional, Tuple

from .formats import Edge, GridFigure, Place, WitnessFigure
from .maps import faces_of, witness_graph
from .readers import Named
from .runs import embed


class OneCrossing(NamedTuple):
    """A drawing of a witness: the place of each of its vertices by number, and where the two edges that cross meet."""
    places: Dict[int, Place]
    at: Place
    crossed: Tuple[Edge, Edge]


def one_crossing(witness: WitnessFigure) -> Optional[OneCrossing]:
    """Returns a drawing of a witness in which just two edges cross, or None where none is found.

    Vertices and edges of its graph that are none of the subdivision are not drawn.
    """
    from .drawn import draw_named
    edges = witness_graph(witness)[1]
    vertices = sorted({v for edge in edges for v in edge})
    number = {v: k for k, v in enumerate(vertices, 1)}
    for one, other in combinations(witness.paths, 2):
        if {one[0], one[-1]} & {other[0], other[-1]}:
            continue
        cut = _middle(one), _middle(other)
        lists = _crossed_map([(number[u], number[v]) for u, v in edges], [(number[u], number[v]) for u, v in cut], len(vertices))
        if not lists:
            continue
        # the crossing is to be within
        outer = max((face for face in faces_of(lists) if len(lists) not in face), key=len)
        figure = draw_named([Named.of_map(lists)], outer=outer)[0].figure
        if isinstance(figure, GridFigure):
            return OneCrossing({v: figure.places[number[v] - 1] for v in vertices}, figure.places[-1], cut)
    return None


def _middle(path: List[int]) -> Edge:
    """The middle edge of a path, the lesser end first."""
    k = (len(path) - 1) // 2
    u, v = sorted(path[k:k + 2])
    return u, v


def _crossed_map(edges: List[Edge], cut: List[Edge], n: int) -> Optional[List[List[int]]]:
    """The lists of a map of a graph in which two edges cross at vertex n + 1, with their ends round it by turns; None without one."""
    kept = [edge for edge in edges if tuple(sorted(edge)) not in {tuple(sorted(pair)) for pair in cut}]
    figure = embed([(n + 1, kept + [(end, n + 1) for pair in cut for end in pair])])[0]
    if not isinstance(figure, GridFigure):
        return None
    around = figure.lists[n]
    return figure.lists if {around[0], around[2]} in (set(cut[0]), set(cut[1])) else None

