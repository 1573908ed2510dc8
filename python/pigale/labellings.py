"""How the edges of a map stand where it is drawn as rectangles: one below another, or side by side."""
from typing import List, Sequence, Union, cast

from .formats import AnyMap, RectFigure, Refused
from .library import library
from .maps import faces_of

SIDES = ("outer", "up", "down", "right", "left")  # by the numbers of the library


def edge_labelling(lists: AnyMap) -> Union[List[List[str]], Refused]:
    """For each vertex of a map that `rect` draws the side on which each of its neighbours is, in the order of its list.

    That is "up", "down", "right" or "left", and "outer" for an edge of the outer face. Clockwise round each vertex off that
    face come neighbours above, to the right, below and to the left, at least one of each: a regular edge labelling, after
    Kant and He. A map that `rect` does not draw has its `Refused`.
    """
    from .arrays import Map
    from .typed import labelled_edges
    path = library()
    given = lists if isinstance(lists, Map) else Map(lists)
    labels = labelled_edges(path, given) if path else None
    if labels is None:
        from .runs import draw
        figure = draw([lists], "rect")[0]
        return figure if isinstance(figure, Refused) else _labels_of(cast(RectFigure, figure))
    if isinstance(labels, Refused):
        return labels
    sides, start, found = [SIDES[label] for label in labels], 0, []
    for end in given.ends:
        found.append(sides[start:end])
        start = end
    return found


def _labels_of(figure: RectFigure) -> List[List[str]]:
    """The sides of all neighbours by the rectangles."""
    walk = faces_of(figure.lists)[0]
    outer = set(map(frozenset, zip(walk, [*walk[1:], walk[0]])))
    return [["outer" if frozenset((v, u)) in outer else _side(figure.boxes[v - 1], figure.boxes[u - 1]) for u in us]
            for v, us in enumerate(figure.lists, 1)]


def _side(box: Sequence[int], other: Sequence[int]) -> str:
    """On which side of a rectangle another one is that shares a part of a side with it."""
    (left, right, low, high), (other_left, other_right, other_low, other_high) = box, other
    if other_low == high:
        return "up"
    if other_high == low:
        return "down"
    return "right" if other_left == right else "left"
