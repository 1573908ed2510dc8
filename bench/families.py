"""Families of maps, figures and graphs, some of which have once been slow: many vertices at one hub, one late fault.

Each maker takes a number of vertices and answers clockwise lists of about as many, numbered from 1.
"""
import os
import random
import sys

HERE = os.path.dirname(os.path.abspath(__file__))
sys.path.insert(0, os.path.join(HERE, "..", "python"))
import pigale  # noqa: E402


def shuffled(lists):
    return pigale.renumbered(lists, random.Random(7))


def moved_last(lists, v):
    """The map with the numbers of `v` and of the last vertex exchanged."""
    last = len(lists)
    swap = {v: last, last: v}
    out = [[swap.get(u, u) for u in us] for us in lists]
    out[v - 1], out[last - 1] = out[last - 1], out[v - 1]
    return out


def stacked(n):
    return pigale.triangulation(n, random.Random(n))


def tree(n):
    return pigale.tree(n, random.Random(n))


def star(n):
    return [list(range(2, n + 1))] + [[1]] * (n - 1)


def star_last(n):
    return moved_last(star(n), 1)


def wheel(n):
    return moved_last(pigale.wheel(n), 1)


def wheel_last(n):
    return pigale.wheel(n)


def double_wheel(n):
    """A circle with a hub within, which has the last number but one, and a hub around it, which has the last."""
    rim = n - 2
    ring = [[v % rim + 1, n - 1, (v - 2) % rim + 1, n] for v in range(1, rim + 1)]
    return ring + [list(range(1, rim + 1)), list(range(rim, 0, -1))]


def two_hubs(n):
    """K(2, n - 2): two vertices, the last ones, with all others as neighbours."""
    rest = list(range(1, n - 1))
    return [[n - 1, n] for _ in rest] + [rest, rest[::-1]]


def wheel_with_pair(n):
    """A wheel with one vertex of two neighbours on its circle, near the end: convex refuses it late."""
    rim = n - 1
    lists = pigale.wheel(n)
    v = rim - 1
    lists[v - 1] = [u for u in lists[v - 1] if u != n]
    lists[n - 1] = [u for u in lists[n - 1] if u != v]
    return lists


def halved_wheel(n):
    """A wheel with a vertex between any two of its circle, which have the first numbers: none of them is in a separating pair."""
    half = (n - 1) // 2
    ring = [half + i for i in range(1, half + 1)]
    lists = [[ring[i % half], ring[i - 1]] for i in range(1, half + 1)]
    return lists + [[i + 1, 2 * half + 1, i or half] for i in range(half)] + [ring]


def prism(n):
    return pigale.prism(n // 2)


def square(n):
    side = max(2, round(n ** 0.5))
    return pigale.grid(n // side, side)


def crossed_square(n):
    """A grid of squares with one diagonal each."""
    side = max(2, round(n ** 0.5))
    rows = n // side
    points = [(x, y) for y in range(rows) for x in range(side)]
    number = {point: v for v, point in enumerate(points, 1)}
    steps = ((1, 0), (0, 1), (1, 1))
    edges = [(number[x, y], number[x + i, y + j]) for x, y in points for i, j in steps if (x + i, y + j) in number]
    return pigale.rotations_of(points, edges)


def ladder(n):
    return pigale.grid(2, n // 2)


def stairs(n):
    """A strip of triangles between two hubs: the dual of steps that are cut off a rectangle from two sides in turn."""
    step = [[v + 2, v + 1, v - 1, v - 2] for v in range(5, n + 1)]
    lists = [[u for u in us if 5 <= u <= n] for us in step]
    for v, us in enumerate(lists, 5):
        if v % 2 == 0:
            us.insert(0, 2)
        else:
            us[:] = [u for u in (v + 1, v + 2) if u <= n] + [3] + [u for u in (v - 2, v - 1) if 5 <= u]
    lists[0] += [4, 1]
    lists[1].append(1)
    lists[-1].insert(1 - n % 2, 2 + 1 - n % 2)
    even, odd = [v for v in range(6, n + 1, 2)], [v for v in range(5, n + 1, 2)]
    last = [n] if n % 2 else []
    return [[2, 6, 5, 4], [3, *last, *even[::-1], 1], [2, 4, *odd] + ([] if n % 2 else [n]), [1, 5, 3], *lists]


def isolated(n):
    return [[] for _ in range(n)]


def tetrahedra(n):
    out = []
    for i in range(0, n - n % 4, 4):
        out += [[i + u for u in us] for us in ([2, 3, 4], [1, 4, 3], [1, 2, 4], [1, 3, 2])]
    return out


def tiles(n):
    side = max(2, round((n - 4) ** 0.5))
    return pigale.quadrangle((n - 4) // side, side)


def tall_tiles(n):
    return pigale.quadrangle((n - 4) // 3, 3)


def flat_tiles(n):
    return pigale.quadrangle(3, (n - 4) // 3)


def column(n):
    return pigale.quadrangle(n - 4, 1)


def column_hub_last(n):
    """A column of tiles between two hubs, of which the right one has the last number."""
    return moved_last(column(n), 3)


def comb(n):
    """Tiles in columns over tiles in rows: the lowest of the columns are the neighbours of one row."""
    half = (n - 4) // 2
    return pigale.quadrangle(1, half) if half < 2 else _comb(half, n - 4 - half)


def _comb(columns, rows):
    left, top, right, bottom = 1, 2, 3, 4
    upper = [5 + j for j in range(columns)]
    lower = [5 + columns + i for i in range(rows)]
    lists = [[top, upper[0], *lower, bottom], [right, *reversed(upper), left],
             [bottom, *reversed(lower), upper[-1], top], [left, lower[-1], right]]
    for j, v in enumerate(upper):
        before = upper[j - 1] if j else left
        after = upper[j + 1] if j + 1 < columns else right
        lists.append([top, after, lower[0], before])
    for i, v in enumerate(lower):
        above = upper[::1] if i == 0 else [lower[i - 1]]
        below = lower[i + 1] if i + 1 < rows else bottom
        lists.append([left, *above, right, below])
    return lists


ALL = ("count", "shift", "schnyder", "bars", "convex")
MAPS = {
    "stacked": (stacked, ALL), "stacked, shuffled": (lambda n: shuffled(stacked(n)), ALL),
    "tree": (tree, ("count", "shift")), "star": (star, ("count", "shift")), "star, hub last": (star_last, ("count", "shift")),
    "cycle": (pigale.cycle, ("count", "shift", "bars")), "prism": (prism, ALL), "grid": (square, ("count", "shift", "bars")),
    "grid with diagonals": (crossed_square, ("count", "shift", "bars", "convex")), "stairs": (stairs, ("count", "shift", "bars", "convex")),
    "ladder": (ladder, ("shift", "bars", "convex")),
    "wheel": (wheel, ALL), "wheel, hub last": (wheel_last, ALL), "double wheel": (double_wheel, ALL),
    "two hubs": (two_hubs, ("count", "shift", "bars", "convex")), "wheel with a pair": (wheel_with_pair, ("count", "shift", "bars", "convex")),
    "halved wheel": (halved_wheel, ("count", "shift", "bars", "convex")),
    "isolated": (isolated, ("count", "shift")), "tetrahedra": (tetrahedra, ("count", "shift")),
    "tiles": (tiles, ("bars", "convex", "rect")), "tiles, shuffled": (lambda n: shuffled(tiles(n)), ("bars", "rect")),
    "tall tiles": (tall_tiles, ("rect",)), "flat tiles": (flat_tiles, ("rect",)), "column": (column, ("rect", "convex")),
    "column, hub last": (column_hub_last, ("rect", "convex")), "comb": (comb, ("bars", "convex", "rect")),
}


# Graphs, as pairs (n, edges)

def petersen(k, step):
    """The generalized Petersen graph: two circles of k vertices, the inner one by steps."""
    outer = [(v, (v + 1) % k) for v in range(k)]
    return 2 * k, outer + [(v, k + v) for v in range(k)] + [(k + v, k + (v + step) % k) for v in range(k)]


def circulant(n, *steps):
    return n, [(v, (v + step) % n) for v in range(n) for step in steps]


def crossed_ladder(k):
    """A ladder of k rungs, closed with a twist where `k` is even or not: Moebius' ladder."""
    return circulant(2 * k, 1, k)


def ladder_with_crossed_end(k):
    edges = [(v, v + 1) for v in range(k - 1)] + [(k + v, k + v + 1) for v in range(k - 1)] + [(v, k + v) for v in range(k)]
    return 2 * k, edges + [(0, 2 * k - 1), (k, k - 1)]


def nearly_double_wheel(n, number):
    """A double wheel with three edges more and four fewer, its vertices numbered anew."""
    source = random.Random(number)
    edges = sorted({tuple(sorted((v, u - 1))) for v, us in enumerate(double_wheel(n)) for u in us})
    for _ in range(4):
        edges.pop(source.randrange(len(edges)))
    while len(edges) < 3 * n - 6 - 4 + 3:
        pair = tuple(sorted(source.sample(range(n), 2)))
        if pair not in edges:
            edges.append(pair)
    order = list(range(n))
    source.shuffle(order)
    return n, [(order[v], order[u]) for v, u in edges]


GRAPHS = {
    "Petersen (127, 2)": petersen(127, 2), "circulant (1, 2)": circulant(255, 1, 2), "Moebius' ladder": crossed_ladder(127),
    "ladder with a crossed end": ladder_with_crossed_end(127), "nearly a double wheel": nearly_double_wheel(255, 3),
}


def graph6(graph):
    n, edges = graph
    return pigale.write_graph6((n, sorted({tuple(sorted((v + 1, u + 1))) for v, u in edges})))
