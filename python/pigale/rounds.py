"""Round drawings: the outer face on a circle, and each other vertex at the weighted middle of its neighbours.

Floats propose places in whole numbers, and the program or its library judges them: what is shown was judged to be plane
and to keep the rotations. The page has the same numbers (web/src/round.js). After Tutte 1963, with weights that grow
towards the outer face, so that inner faces do not become small too soon.
"""
import heapq
import math
from typing import Callable, Dict, List, NamedTuple, Optional, Sequence, Tuple

from .formats import Lists, AnyMap, Place
from .maps import faces_of

PULLS = (1, 1.5, 2.2, 3)  # how many times more an edge weighs at each step towards the outer face
Spot = Tuple[float, float]
Judge = Callable[[List[Place], int], bool]
Around = List[Dict[int, float]]  # the weight of each edge, in a dictionary for each vertex


class Round(NamedTuple):
    """A round drawing that was judged good: its places in whole numbers from 0 to `size`, and the pull of its weights."""
    places: List[Place]
    size: int
    pull: float


def _depths(lists: AnyMap, outer: Sequence[int]) -> List[int]:
    """The distance of each vertex from the outer walk."""
    depth = [-1] * len(lists)
    for v in outer:
        depth[v - 1] = 0
    front = list(outer)
    while front:
        behind = []
        for v in front:
            for u in lists[v - 1]:
                if depth[u - 1] < 0:
                    depth[u - 1] = depth[v - 1] + 1
                    behind.append(u)
        front = behind
    return depth


def _weights(lists: AnyMap, outer: Sequence[int], pull: float) -> Around:
    """The weight of each edge, by the distance of its nearer end from the outer walk."""
    depth = _depths(lists, outer)
    powers = [1.0]
    for _ in range(max(depth)):
        powers.append(powers[-1] / pull)
    return [{u: powers[min(depth[k], depth[u - 1])] for u in us} for k, us in enumerate(lists)]


def _eliminated(around: Around, is_outer: Sequence[bool]) -> List[Tuple[int, List[int], List[float], float]]:
    """Takes the inner vertices out one by one, each time one of least degree and of these the least.

    Where a vertex is gone, each two of its neighbours are joined by what led over it; `around` is changed so. Nothing is
    subtracted, so nothing cancels. Returns for each vertex its neighbours then, their weights and the sum of these.
    """
    steps = []
    queue = [(len(around[v - 1]), v) for v in range(1, len(around) + 1) if not is_outer[v - 1]]
    heapq.heapify(queue)
    is_gone = list(is_outer)
    while queue:
        degree, v = heapq.heappop(queue)
        own = around[v - 1]
        if is_gone[v - 1] or len(own) != degree:
            continue
        is_gone[v - 1] = True
        us = sorted(own)
        ws = [own[u] for u in us]
        total = 0.0
        for weight in ws:
            total += weight
        steps.append((v, us, ws, total))
        for u in us:
            del around[u - 1][v]
        for i, u in enumerate(us):
            beside = around[u - 1]
            for j in range(i + 1, len(us)):
                w = us[j]
                if not (is_outer[u - 1] and is_outer[w - 1]):
                    beside[w] = around[w - 1][u] = beside.get(w, 0.0) + ws[i] * ws[j] / total
        for u in us:
            if not is_outer[u - 1]:
                heapq.heappush(queue, (len(around[u - 1]), u))
    return steps


def _ringed(lists: AnyMap) -> Tuple[Lists, List[int]]:
    """A map with what it is drawn within: lists, and the vertices on the circle.

    A walk that passes a vertex twice has a ring of new vertices round it, each joined to two that follow each other on the
    walk.
    """
    found, walk = [list(us) for us in lists], faces_of(lists)[0]
    if len(set(walk)) == len(walk):
        return found, walk
    ring = []
    for k, v in enumerate(walk):
        ends = [v, walk[(k + 1) % len(walk)]]
        found.append(ends)
        ring.append(len(found))
        for u in ends:
            found[u - 1].append(len(found))
    return found, ring


def _filled(lists: Lists, faces: Lists) -> Lists:
    """Lists with a vertex more in each inner face of more than three, joined to each of its vertices once."""
    found = [list(us) for us in lists]
    for walk in faces[1:]:
        if len(walk) > 3:
            corners = list(dict.fromkeys(walk))
            found.append(corners)
            for v in corners:
                found[v - 1].append(len(found))
    return found


def round_floats(lists: AnyMap, pull: float, is_filled: bool = False) -> List[Spot]:
    """Places as floats, with the outer walk of `lists` on the circle about (0, 0) of radius 1."""
    given, outer = _ringed(lists)
    if is_filled:
        given = _filled(given, faces_of(lists))
    first = 5 * math.pi / 4 if len(outer) == 4 else math.pi / 2
    spots: List[Spot] = [(0.0, 0.0)] * len(given)
    is_outer = [False] * len(given)
    for k, v in enumerate(outer):
        # the outer walk has its face on the left, so it goes clockwise round the drawing
        turn = first - 2 * math.pi * k / len(outer)
        spots[v - 1], is_outer[v - 1] = (math.cos(turn), math.sin(turn)), True
    for v, us, ws, total in reversed(_eliminated(_weights(given, outer, pull), is_outer)):
        across = up = 0.0
        for u, weight in zip(us, ws):
            across += weight * spots[u - 1][0]
            up += weight * spots[u - 1][1]
        spots[v - 1] = (across / total, up / total)
    return spots[:len(lists)]


def rounded(spots: Sequence[Spot], size: int) -> List[Place]:
    """The places in whole numbers from 0 to `size`."""
    return [(math.floor((x + 1) / 2 * size + 0.5), math.floor((y + 1) / 2 * size + 0.5)) for x, y in spots]


def _shortest_edge(lists: AnyMap, spots: Sequence[Spot]) -> float:
    return min(math.dist(spots[k], spots[u - 1]) for k, us in enumerate(lists) for u in us)


def round_drawing(lists: AnyMap, judge: Judge, sizes: Sequence[int], is_plain: bool = False) -> Optional[Round]:
    """A round drawing of a connected map to which `judge(places, size)` says yes, or None where there is none.

    It is made for each of the `sizes` of the grid in turn, first of the map as it is and then with its faces filled. Of
    several pulls the one with the longest shortest edge is taken. Where it `is_plain`, all edges weigh the same and no face
    is filled.
    """
    if len(lists) < 3 or not all(lists):
        return None
    pulls = PULLS[:1] if is_plain else PULLS
    has_large = any(len(walk) > 3 for walk in faces_of(lists)[1:])
    made: Dict[Tuple[float, bool], List[Spot]] = {}
    for size in sizes:
        for is_filled in (False, True)[:1 if is_plain or not has_large else 2]:
            best: Optional[Round] = None
            least = -1.0
            for pull in pulls:
                if (pull, is_filled) not in made:
                    made[pull, is_filled] = round_floats(lists, pull, is_filled)
                spots = made[pull, is_filled]
                shortest = _shortest_edge(lists, spots)
                if shortest > least:
                    places = rounded(spots, size)
                    if judge(places, size):
                        best, least = Round(places, size, pull), shortest
            if best:
                return best
    return None
