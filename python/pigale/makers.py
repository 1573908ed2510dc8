"""Makes maps: stacked triangulations, trees, wheels, grids and others."""
from random import Random
from typing import Callable, Optional, Tuple

from .formats import Lists, AnyMap
from .maps import rotations_of


def stacked(size: int, number: int) -> Lists:
    """The triangulation of `size` vertices that `pigale gen --size SIZE --number NUMBER` makes.

    `size` is from 3 on, and `number` from 0 to 4294967295; else ValueError is raised.
    """
    if size < 3 or not 0 <= number < 1 << 32:
        raise ValueError(f"size is from 3 on and number from 0 to 4294967295, not {size} and {number}")

    def choose(count: int) -> int:
        nonlocal number
        number = (number * 1103515245 + 12345) % (1 << 32)
        return number // 65536 % count

    return _stack(size, choose)


def _stack(size: int, choose: Callable[[int], int]) -> Lists:
    """A triangle, and each further vertex in the face that `choose` takes of as many as it is told."""
    lists = [[2, 3], [3, 1], [1, 2]]
    faces = [(1, 3, 2)]
    for k in range(4, size + 1):
        i = choose(len(faces))
        a, b, c = faces[i]
        lists.append([a, c, b])
        for v, after in ((a, c), (b, a), (c, b)):
            lists[v - 1].insert(lists[v - 1].index(after) + 1, k)
        faces[i] = (a, b, k)
        faces += [(b, c, k), (c, a, k)]
    return lists


def triangulation(n: int, source: Random) -> Lists:
    """A triangulation of n vertices, from 3 on: each goes into a face chosen by `source`, a `random.Random`."""
    return _stack(n, source.randrange)


def tree(n: int, source: Random) -> Lists:
    """A tree of n vertices: each is joined to an earlier one, at a place in its list that `source` chooses too."""
    lists: Lists = [[] for _ in range(n)]
    for v in range(1, n):
        u = source.randrange(v)
        lists[u].insert(source.randrange(len(lists[u]) + 1), v + 1)
        lists[v].append(u + 1)
    return lists


def path(n: int) -> Lists:
    """A path of n vertices."""
    return [[u for u in (v - 1, v + 1) if 1 <= u <= n] for v in range(1, n + 1)]


def cycle(n: int) -> Lists:
    """A cycle of n vertices, from 3 on."""
    return [[v % n + 1, (v - 2) % n + 1] for v in range(1, n + 1)]


def complete(n: int) -> Lists:
    """The complete graph with rising lists: a map of genus zero for up to three vertices, and of a higher one beyond."""
    return [[u for u in range(1, n + 1) if u != v] for v in range(1, n + 1)]


def wheel(n: int) -> Lists:
    """A wheel of n vertices, from 4 on: a circle, and vertex n in the middle of it."""
    rim = n - 1
    return [[v % rim + 1, n, (v - 2) % rim + 1] for v in range(1, n)] + [list(range(1, n))]


def prism(k: int) -> Lists:
    """Two circles of k vertices, from 3 on, one within the other, and an edge between each two at one angle."""
    outer = [[v % k + 1, k + v, (v - 2) % k + 1] for v in range(1, k + 1)]
    return outer + [[k + (v - 2) % k + 1, v, k + v % k + 1] for v in range(1, k + 1)]


def grid(rows: int, columns: int) -> Lists:
    """A grid of unit squares with `rows` times `columns` vertices, numbered along the rows from the lowest."""
    points = [(x, y) for y in range(rows) for x in range(columns)]
    across = [(v, v + 1) for v in range(1, len(points) + 1) if v % columns]
    upwards = [(v, v + columns) for v in range(1, len(points) - columns + 1)]
    return rotations_of(points, across + upwards)


def quadrangle(rows: int, columns: int, is_rising: Callable[[int, int], bool] = lambda i, j: False) -> Lists:
    """A map that `rect` draws: `rows` times `columns` vertices as a grid with a diagonal in each cell, within four more.

    Vertex 1 is the left one of these four, and the upper one, which is 2, is the first of its list. The others are
    numbered along the rows, the upper one first. The diagonal of the cell between rows i and i + 1 and columns j and
    j + 1, counted from 0, rises to the right where `is_rising(i, j)`.
    """
    left, top, right, bottom = 1, 2, 3, 4

    def inner(i: int, j: int) -> int:
        return 5 + i * columns + j

    def beside(i: int, j: int) -> int:
        if 0 <= i < rows and 0 <= j < columns:
            return inner(i, j)
        if 0 <= i < rows:
            return left if j < 0 else right
        return top if i < 0 else bottom

    def across(i: int, j: int, k: int, l: int) -> Optional[int]:
        """The end (k, l) of the diagonal from (i, j), or nothing where the cell has the other one or is none."""
        cell = min(i, k), min(j, l)
        is_cell = 0 <= cell[0] < rows - 1 and 0 <= cell[1] < columns - 1
        return inner(k, l) if is_cell and is_rising(*cell) == ((k < i) == (l > j)) else None

    lists = [[top] + [inner(i, 0) for i in range(rows)] + [bottom],
             [right] + [inner(0, j) for j in reversed(range(columns))] + [left],
             [bottom] + [inner(i, columns - 1) for i in reversed(range(rows))] + [top],
             [left] + [inner(rows - 1, j) for j in range(columns)] + [right]]
    for i in range(rows):
        for j in range(columns):
            around = [beside(i - 1, j), across(i, j, i - 1, j + 1), beside(i, j + 1), across(i, j, i + 1, j + 1),
                      beside(i + 1, j), across(i, j, i + 1, j - 1), beside(i, j - 1), across(i, j, i - 1, j - 1)]
            lists.append([v for v in around if v])
    return lists


def renumbered(lists: AnyMap, source: Random) -> Lists:
    """The map with its vertices numbered anew by `source`, a `random.Random`."""
    number = list(range(1, len(lists) + 1))
    source.shuffle(number)
    out: Lists = [[] for _ in lists]
    for v, us in enumerate(lists):
        out[number[v] - 1] = [number[u - 1] for u in us]
    return out
