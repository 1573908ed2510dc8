"""What the library answers for many maps or graphs: its arrays, and figures and counts that are made when someone looks."""
from __future__ import annotations

from array import array
from collections import Counter
from dataclasses import replace
from functools import lru_cache
from itertools import accumulate, chain, compress
from struct import iter_unpack, unpack
from typing import Any, Dict, Optional, Sequence, Tuple, Union

from .arrays import FEWER, SIZE, Maps, OnDemand, zeros
from .formats import (REFUSALS, BarFigure, Count, Figure, GridFigure, Lists, RectFigure, Refused, WitnessFigure,
                      write_graph6)

CONDITIONS = {number: (name, count) for name, (number, count) in REFUSALS.items()}
COLUMNS = {"bars": ("y", "x1", "x2", "column"), "rect": ("x1", "x2", "y1", "y2")}  # of a job whose columns are not x and y
K5, K33 = 80, 81
MOST_NAMED = 255  # vertices of a graph that is embedded
NUMBERS = 4  # beside each status
Table = Dict[Any, int]


def refused(status: int, found: Sequence[int], number: int) -> Refused:
    """The condition of a status, with its numbers; vertices from 1."""
    name, count = CONDITIONS[status]
    more = 0 if name in ("Small", "Genus") else 1
    return Refused(number, status, name, tuple(value + more for value in found[:count]))


class Figures(OnDemand[Union[Figure, Refused]]):
    """The figures of maps by a job, in order, each made when someone looks; a map that is not drawn has its `Refused`.

    `columns` has an array for each of "x" and "y" of straight-line drawings, "y", "x1", "x2" and "column" of bars, and "x1",
    "x2", "y1" and "y2" of rectangles: an entry for each vertex of all maps, one map behind another as in `maps`, and in
    "column" one for each edge. Those of a map that is not drawn are 0. `statuses` has 0 for each map that is drawn.
    """
    __slots__ = ("job", "maps", "columns", "statuses", "found")

    def __init__(self, job: str, maps: Maps) -> None:
        self.job, self.maps = job, maps
        lists, darts = len(maps.ends), len(maps.neighbours)
        self.columns: Dict[str, array[int]] = {
            name: zeros("i", darts // 2 if name == "column" else lists) for name in COLUMNS.get(job, ("x", "y"))}
        self.statuses: array[int] = zeros("B", len(maps))
        self.found: array[int] = zeros("I", NUMBERS * len(maps))

    def __len__(self) -> int:
        return len(self.statuses)

    def one(self, index: int) -> Union[Figure, Refused]:
        """The figure or the refusal of an index from 0 on."""
        status, number = self.statuses[index], index + 1
        if status:
            return refused(status, self.found[NUMBERS * index:NUMBERS * number], number)
        first, end = self.maps.lists_of(index)
        lists = self.maps.lists(index)
        columns = self.columns
        if self.job == "bars":
            start = self.maps.ends[first - 1] if first else 0
            heights, left, right = (list(columns[name][first:end]) for name in ("y", "x1", "x2"))
            return BarFigure(number, heights, list(zip(left, right)), lists,
                             list(columns["column"][start // 2:self.maps.ends[end - 1] // 2]))
        if self.job == "rect":
            x1, x2, y1, y2 = (columns[name][first:end] for name in COLUMNS["rect"])
            return RectFigure(number, list(zip(x1, x2, y1, y2)), lists)
        return GridFigure(number, self.job, list(zip(columns["x"][first:end], columns["y"][first:end])), lists)

    def table(self) -> Table:
        """How many maps are "drawn", or break a condition, by its name."""
        return _conditions(self.statuses, "drawn")


class Counts(OnDemand[Union[Count, Refused]]):
    """The counts of maps, in order, each made when someone looks; lists that are no simple map have their `Refused`.

    `numbers` has five for each map: vertices, edges, faces, components and the genus. `statuses` has 0 for each map.
    """
    __slots__ = ("numbers", "statuses", "found")

    def __init__(self, count: int) -> None:
        self.numbers: array[int] = zeros("I", 5 * count)
        self.statuses: array[int] = zeros("B", count)
        self.found: array[int] = zeros("I", NUMBERS * count)

    def __len__(self) -> int:
        return len(self.statuses)

    def one(self, index: int) -> Union[Count, Refused]:
        """The count or the refusal of an index from 0 on."""
        status, number = self.statuses[index], index + 1
        if status:
            return refused(status, self.found[NUMBERS * index:NUMBERS * number], number)
        n, m, f, c, genus = self.numbers[5 * index:5 * number]
        return Count(number, n, m, f, c, genus)

    def table(self) -> Table:
        """How many maps have the same counts, (n, m, f, c, genus), or the same condition that they break, its name."""
        rows = Counter(chain.from_iterable(iter_unpack("20s", self.numbers)))
        rows.pop(bytes(20), None)  # of those that are refused
        return Counter({**{unpack("5I", row): count for row, count in rows.items()}, **_conditions(self.statuses)})


class Graphs:
    """Graphs as the library embeds them: where the vertices and the edges of each end among those of all.

    `given` has the graphs as (n, edges), or as lines of graph6; `counts` and `sizes` have their vertices and edges.
    """
    __slots__ = ("given", "vertex_ends", "edge_ends")

    def __init__(self, given: Sequence[Any], counts: Sequence[int], sizes: Sequence[int]) -> None:
        self.given = given
        self.vertex_ends: array[int] = array(SIZE, accumulate(counts))
        self.edge_ends: array[int] = array(SIZE, accumulate(sizes))

    def __len__(self) -> int:
        return len(self.vertex_ends)

    def vertices_of(self, index: int) -> Tuple[int, int]:
        """Where the vertices of a graph begin and end among those of all."""
        return self.vertex_ends[index - 1] if index else 0, self.vertex_ends[index]

    def edges_of(self, index: int) -> Tuple[int, int]:
        """Where the edges of a graph begin and end among those of all."""
        return self.edge_ends[index - 1] if index else 0, self.edge_ends[index]

    def graph6(self, index: int) -> str:
        """A graph as a line of graph6."""
        graph = self.given[index]
        return graph if isinstance(graph, str) else write_graph6(graph)


def ends_of_edges(graph: Any) -> Optional[bytes]:
    """The two ends of each edge of a graph (n, edges), from 0, one edge behind another.

    None where it is none of up to 255 vertices, or an edge is no pair of numbers from 1 to 255. Whether they are vertices,
    other than each other, is not looked at.
    """
    if type(graph) is not tuple or len(graph) != 2:
        return None
    n, pairs = graph
    if type(n) is not int or not 0 <= n <= MOST_NAMED or type(pairs) not in (list, tuple, set):
        return None
    if not {list, tuple}.issuperset(map(type, pairs)):
        return None
    try:
        numbers = bytes(chain.from_iterable(pairs))
    except (TypeError, ValueError):
        return None
    return None if 0 in numbers or max(map(len, pairs), default=2) > 2 or len(numbers) != 2 * len(pairs) else numbers.translate(FEWER)


def ends_of_line(line: str) -> Optional[Tuple[int, bytes]]:
    """The number of vertices of a line of graph6, and the ends of its edges; None where it is none of up to 255 vertices."""
    try:
        data = line.encode("ascii")
    except UnicodeEncodeError:
        return None
    n, start = (data[0] - 63, 1) if data[:1] not in (b"", b"~") else (0, 0)
    if not start and len(data) > 3:
        n, start = ((data[1] - 63) << 6 | data[2] - 63) << 6 | data[3] - 63, 4
    if not start or not (63 if start == 4 else 0) <= n <= MOST_NAMED or data.translate(None, GRAPH6):
        return None
    pairs = n * (n - 1) // 2
    bits = b"".join(map(SIX.__getitem__, data[start:]))
    if len(bits) != -pairs % 6 + pairs or 1 in bits[pairs:]:
        return None
    ends = bytearray(2 * bits.count(1))
    ends[::2], ends[1::2] = (bytes(compress(side, bits)) for side in _sides(n))
    return n, bytes(ends)


GRAPH6 = bytes(range(63, 127))
SIX = {byte: bytes(byte - 63 >> k & 1 for k in range(5, -1, -1)) for byte in GRAPH6}


@lru_cache(maxsize=None)
def _sides(n: int) -> Tuple[bytes, bytes]:
    """The lesser and the greater end, from 0, of each pair of n vertices in the order of graph6."""
    return (b"".join(map(bytes, map(range, range(n)))), b"".join(bytes([v]) * v for v in range(n)))


class Embeddings(OnDemand[Union[GridFigure, WitnessFigure, Refused]]):
    """Drawings of graphs, or witnesses that there is none, in order, each made when someone looks.

    `statuses` has 0 for each graph that is planar, 80 for one with a subdivision of K5 and 81 for one of K3,3; `x` and `y` have
    an entry for each vertex of all graphs.
    """
    __slots__ = ("graphs", "x", "y", "ends", "neighbours", "statuses", "found", "others")

    def __init__(self, graphs: Graphs) -> None:
        self.graphs = graphs
        vertices, count = graphs.vertex_ends[-1] if graphs.vertex_ends else 0, len(graphs)
        self.x: array[int] = zeros("i", vertices)
        self.y: array[int] = zeros("i", vertices)
        self.ends: array[int] = zeros(SIZE, vertices + ROOM * count)
        self.neighbours: array[int] = zeros("H", 2 * graphs.edge_ends[-1] if count else 0)
        self.statuses: array[int] = zeros("B", count)
        self.found: array[int] = zeros("I", NUMBERS * count)
        self.others: Dict[int, Any] = {}  # answers that were found in another way

    def __len__(self) -> int:
        return len(self.statuses)

    def one(self, index: int) -> Union[GridFigure, WitnessFigure, Refused]:
        """The answer of an index from 0 on."""
        if index in self.others:
            answer: Union[GridFigure, WitnessFigure, Refused] = self.others[index]
            return answer
        status, number = self.statuses[index], index + 1
        (first, end), (start, _) = self.graphs.vertices_of(index), self.graphs.edges_of(index)
        if status in (K5, K33):
            at = first + ROOM * index
            paths = _lists(self.ends[at:at + (9 if status == K33 else 10)], self.neighbours, 2 * start)
            firsts, count = ([paths[0][0], paths[3][0], paths[6][0]], 3) if status == K33 else ([paths[0][0]], 4)
            branches = [*firsts, *(path[-1] for path in paths[:count])]
            return WitnessFigure(number, "K33" if status == K33 else "K5", self.graphs.graph6(index), branches, paths)
        if status:
            return refused(status, self.found[NUMBERS * index:NUMBERS * number], number)
        at = first + ROOM * index
        lists = _lists(self.ends[at:at + end - first], self.neighbours, 2 * start)
        return GridFigure(number, "schnyder", list(zip(self.x[first:end], self.y[first:end])), lists)

    def take(self, index: int, other: Embeddings) -> None:
        """Takes the answer to one graph for that of an index from 0 on, which is the same graph in another form."""
        first, end = self.graphs.vertices_of(index)
        self.x[first:end], self.y[first:end], self.statuses[index] = other.x, other.y, other.statuses[0]
        self.others[index] = replace(other[0], number=index + 1)

    def table(self) -> Table:
        """How many graphs are "planar", have a subdivision of "K5" or of "K33", or break a condition, by its name."""
        return _conditions(self.statuses, "planar")


ROOM = 10  # of the paths of a witness, beside the ends of the lists


def _lists(ends: Sequence[int], neighbours: array[int], start: int) -> Lists:
    """The lists that end at these places of an array behind a start, vertices from 1."""
    us, before, lists = [u + 1 for u in neighbours[start:start + (ends[-1] if ends else 0)]], 0, []
    for end in ends:
        lists.append(us[before:end])
        before = end
    return lists


def _conditions(statuses: array[int], good: str = "") -> Table:
    """How many statuses there are of each condition by its name, of K5 and K33, and of no condition by a name that is given."""
    found: Table = Counter()
    for status, count in Counter(statuses).items():
        name = good if status == 0 else {K5: "K5", K33: "K33"}.get(status) or CONDITIONS[status][0]
        if name:
            found[name] = count
    return found
