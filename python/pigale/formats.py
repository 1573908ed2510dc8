"""planar_code, graph6 and the text that the program writes: reads and writes them."""
import re
from collections.abc import Sequence as SequenceType
from dataclasses import asdict, dataclass
from typing import IO, Any, Dict, Iterable, List, Literal, Optional, Sequence, Tuple, Union, cast

from .basics import GRID_JOBS, HEADER, MOST_BYTES, MOST_VERTICES, PLANAR_JOBS  # which are offered here too
from .kinds import looks_like

Lists = List[List[int]]
AnyMap = Sequence[Sequence[int]]
Place = Tuple[int, int]
Edge = Tuple[int, int]
Graph = Tuple[int, Iterable[Edge]]


# planar_code

def read_planar_code(data: Union[bytes, IO[bytes]], order: Optional[str] = None) -> List[Lists]:
    """The maps of planar_code, as a list of maps.

    `data` is bytes, or a binary file that is read to its end. A header may stand first, with or without a byte order
    (`>>planar_code<<`, `>>planar_code le<<`, `>>planar_code be<<`), and where files were joined also behind a record. Maps
    of up to 255 vertices are narrow or wide records, larger ones wide: a byte 0, and then two bytes a number. These have
    the byte order of the header before them, or else `order`, which is "be" (the greater byte first, as nauty and the
    program write) or "le"; without both it is "be".

    Raises ValueError where the header is of another format, where a record has no vertices, or where the data end
    inside a record. Whether the lists make a map is not looked at: the program says that.
    """
    data = data if isinstance(data, bytes) else data.read()
    at, header_order = 0, ""
    maps: List[Lists] = []
    while at < len(data):
        if data.startswith(b">>", at):
            behind, its_order = _after_header(data, at)
            if behind > at:
                at, header_order = behind, its_order
                continue
        if data[at]:
            found = _narrow_lists(data, at + 1, data[at])
        else:
            found = _wide_lists(data, at + 1, "little" if (header_order or order) == "le" else "big")
        if found is None:
            hint = looks_like(data[:1000], "planar_code")
            raise ValueError(f"the data end inside record {len(maps) + 1}, which begins at byte {at}{hint and '; ' + hint}")
        lists, at = found
        if not lists:
            raise ValueError(f"record {len(maps) + 1} has no vertices")
        maps.append(lists)
    return maps


def _after_header(data: bytes, at: int) -> Tuple[int, str]:
    """The place behind a header and the byte order that it names, if one stands at a place."""
    found = re.match(rb">>([a-z0-9_]+) *(le|be)? *<<", data[at:at + 40])
    if not found:
        return at, ""
    if found.group(1) != b"planar_code":
        hint = looks_like(data[at:at + 40], "planar_code")
        raise ValueError(f"the header is that of {found.group(1).decode()}, and not of planar_code{hint and '; ' + hint}")
    return at + found.end(), (found.group(2) or b"").decode()


def _narrow_lists(data: bytes, at: int, count: int) -> Optional[Tuple[Lists, int]]:
    lists = []
    for _ in range(count):
        end = data.find(0, at)
        if end < 0:
            return None
        lists.append(list(data[at:end]))
        at = end + 1
    return lists, at


def _wide_lists(data: bytes, at: int, order: Literal["little", "big"]) -> Optional[Tuple[Lists, int]]:
    def number() -> Optional[int]:
        nonlocal at
        at += 2
        return int.from_bytes(data[at - 2:at], order) if at <= len(data) else None

    lists: Lists = []
    count = number()
    for _ in range(count or 0):
        lists.append([])
        u = number()
        while u:
            lists[-1].append(u)
            u = number()
        if u is None:
            return None
    return None if count is None else (lists, at)


def write_planar_code(maps: Iterable[AnyMap], header: bool = True) -> bytes:
    """The maps as bytes of planar_code, as the program reads it.

    Maps of up to 255 vertices are narrow records, larger ones wide with the greater byte first. Raises ValueError
    where a map has no vertices or more than 65535, where a neighbour has no place in the record (it is below 1, or above
    255 in a narrow one and 65535 in a wide one), and where something else than a list of maps is given. The program
    itself reads up to 4095 vertices.
    """
    return (HEADER if header else b"") + b"".join(_record(lists) for lists in as_maps(maps))


def as_maps(maps: Iterable[AnyMap]) -> List[AnyMap]:
    """The maps as a list of lists. Raises ValueError, with what may have been meant, where they are no maps.

    One may be a `PlanarEmbedding` of networkx, an array of numpy with a row for each vertex, or have such an array for each.
    """
    _no_networkx(maps, "give a list of maps, as [embedding] for one")
    found = list(map(_lists_of, maps))
    for k, lists in enumerate(found, 1):
        _no_networkx(lists, "networkx.check_planarity(it)[1] has rotations, and embed takes graphs without")
        if not _is_list(lists) or not {list, tuple}.issuperset(map(type, lists)) and not all(_is_list(us) for us in lists):
            is_map = _is_list(lists) and all(isinstance(u, int) for u in lists)
            hint = ": give a list of maps, as [lists] for one" if is_map else ""
            raise ValueError(f"map {k} is no list with a list of neighbours for each vertex{hint}")
    return found


def _lists_of(value: Any) -> Any:
    """The lists of a `PlanarEmbedding` or of arrays of numpy, and all else as it is."""
    if type(value) not in (list, tuple):
        if hasattr(value, "neighbors_cw_order"):
            from .graphs import from_networkx  # which reads this module
            return from_networkx(value)[0]
        return value.tolist() if hasattr(value, "tolist") else value
    return value if {list, tuple}.issuperset(map(type, value)) else [us.tolist() if hasattr(us, "tolist") else us for us in value]


def _is_list(value: object) -> bool:
    return type(value) in (list, tuple) or isinstance(value, SequenceType) and not isinstance(value, (str, bytes))


def _no_networkx(value: object, hint: str) -> None:
    """Raises ValueError where the value is a graph of networkx."""
    if hasattr(value, "nodes") and hasattr(value, "edges"):
        raise ValueError(f"this is a {type(value).__name__} of networkx: {hint}")


def _record(lists: AnyMap) -> bytes:
    narrow = len(lists) < 256
    most = 255 if narrow else 65535
    if not 1 <= len(lists) <= 65535:
        raise ValueError(f"a record has 1 to 65535 vertices, not {len(lists)}")
    for v, us in enumerate(lists, 1):
        if us and not (1 <= min(us) and max(us) <= most):
            raise ValueError(f"a neighbour of vertex {v} is not from 1 to {most}")
    if narrow:
        return bytes([len(lists)]) + b"".join(bytes(us) + b"\0" for us in lists)
    numbers = [len(lists)] + [u for us in lists for u in [*us, 0]]
    return b"\0" + b"".join(u.to_bytes(2, "big") for u in numbers)


# graph6

def read_graph6(line: str) -> Tuple[int, List[Edge]]:
    """The graph of one line of graph6, as (n, edges).

    `line` is text without its line end and without a header. Raises ValueError where it is none, or has more than
    258047 vertices.
    """
    check_line(line)
    values = [ord(c) - 63 for c in line]
    if not values or not all(0 <= value < 64 for value in values):
        raise ValueError("no line of graph6: a byte is not from 63 to 126, or there is none")
    if values[0] == 63 and len(values) > 4 and values[1] < 63:
        n, values = values[1] << 12 | values[2] << 6 | values[3], values[4:]
    elif values[0] < 63:
        n, values = values[0], values[1:]
    else:
        raise ValueError("no line of graph6 of up to 258047 vertices")
    if len(values) != (n * (n - 1) // 2 + 5) // 6:
        raise ValueError(f"a line of graph6 for {n} vertices has another length")
    bits = (value >> k & 1 for value in values for k in range(5, -1, -1))
    pairs = ((u, v) for v in range(2, n + 1) for u in range(1, v))
    return n, [pair for pair, bit in zip(pairs, bits) if bit]


def check_line(line: str, most: int = 258047) -> None:
    """Raises ValueError where a line of graph6 has a header or a line end, which are none of the line's own.

    It does so too where the line says that its graph has more than `most` vertices.
    """
    if line.startswith(">>"):
        raise ValueError(f"the line begins by a header: give what stands behind {line[:line.find('<<') + 2] or '>>'}")
    if line[-1:] in ("\n", "\r"):
        raise ValueError("the line has its line end: give line.strip()")
    if re.match("~[?-}]..", line):
        count = sum((ord(c) - 63) << k for c, k in zip(line[1:4], (12, 6, 0)))
        if count > most:
            raise ValueError(f"the line has a graph of {count} vertices: at most {most} are read")


def write_graph6(graph: Graph) -> str:
    """The graph (n, edges) as one line of graph6, without its line end.

    Raises ValueError where n is above 258047, or an edge is no pair of two numbers from 1 to n.
    """
    _no_networkx(graph, "graph_of_networkx(graph)[0] is it as (n, edges)")
    try:
        n, edges = graph
        edges = list(edges)
    except (TypeError, ValueError) as fault:
        raise ValueError(f"a graph is (n, edges) or a line of graph6, and not {str(graph)[:60]}") from fault
    if not 0 <= n <= 258047:
        raise ValueError(f"a line of graph6 has up to 258047 vertices here, not {n}")
    bits = bytearray((n * (n - 1) // 2 + 5) // 6 * 6)
    for edge in edges:
        u, v = sorted(pair_of(edge))
        if not 1 <= u < v <= n:
            raise ValueError(f"{u} {v} is no edge of a graph of {n} vertices")
        bits[(v - 1) * (v - 2) // 2 + u - 1] = 1
    count = [n] if n < 63 else [63, n >> 12, n >> 6 & 63, n & 63]
    groups = [int("".join(map(str, bits[k:k + 6])), 2) for k in range(0, len(bits), 6)]
    return "".join(chr(value + 63) for value in count + groups)


def pair_of(edge: Sequence[Any]) -> Tuple[Any, Any]:
    """The ends of an edge. Raises ValueError where it is no pair, as those of networkx with keys or data."""
    try:
        u, v = edge
    except (TypeError, ValueError) as fault:
        more = isinstance(edge, tuple) and len(edge) > 2
        hint = ": give the graph's edges without data, keys and labels" if more else ""
        raise ValueError(f"an edge is a pair of vertices, and not {str(edge)[:60]}{hint}") from fault
    return u, v


# What the program writes

@dataclass(frozen=True)
class Count:
    """The answer of `count` for map `number`: vertices, edges, faces, components and the genus."""
    number: int
    n: int
    m: int
    f: int
    c: int
    genus: int

    def __str__(self) -> str:
        return f"count {self.number} n {self.n} m {self.m} f {self.f} c {self.c} genus {self.genus}"


@dataclass(frozen=True)
class Refused:
    """Record `number` breaks `condition` (its number in docs/FORMATS.md), with its name and its numbers."""
    number: int
    condition: int
    name: str
    numbers: Tuple[int, ...]

    def __str__(self) -> str:
        return join_words("refused", self.number, self.condition, self.name, *self.numbers)


@dataclass(frozen=True)
class Verdict:
    """The verdict on figure `number`: "yes", "yes sum" of `gen`, or the name of the first fault with its numbers."""
    number: int
    name: str
    numbers: Tuple[int, ...]

    def __str__(self) -> str:
        return join_words("verdict", self.number, self.name, *self.numbers)


@dataclass(frozen=True)
class End:
    """The last line of a run that ended well: how many records there were, and how many were refused."""
    records: int
    refused: int

    def __str__(self) -> str:
        return f"end records {self.records} refused {self.refused}"


@dataclass(frozen=True)
class Stop:
    """The last line of a run that stopped at a bad place: its name, with an offset or a line where it has one."""
    name: str
    numbers: Tuple[int, ...]

    def __str__(self) -> str:
        return join_words("stop", self.name, *self.numbers)


class _Shown:
    """What a notebook shows as its picture, and what has a form in JSON."""

    def to_dict(self) -> Dict[str, Any]:
        """Its job and all that it has, as lists and dictionaries of what JSON has."""
        return {"job": getattr(self, "job"), **asdict(cast(Any, self))}

    def to_json(self) -> str:
        """The same as one line of JSON."""
        import json
        return json.dumps(self.to_dict())

    def _repr_svg_(self) -> Optional[str]:
        """The picture of the figure, or nothing where it names a vertex that it does not have."""
        from .pictures import picture  # which reads this module
        try:
            return picture(cast(Figure, self))
        except ValueError:
            return None


@dataclass
class GridFigure(_Shown):
    """A straight-line drawing by `job` ("shift", "schnyder" or "convex"; "round" or "tutte" where `draw_named` made it).

    `places` has (x, y) for each vertex, `lists` its neighbours clockwise.
    """
    number: int
    job: str
    places: List[Place]
    lists: Lists

    def __str__(self) -> str:
        lines = [join_words(f"{v} at {x} {y}:", *us) for v, ((x, y), us) in enumerate(zip(self.places, self.lists), 1)]
        return "\n".join([f"figure {self.number} {self.job} {len(self.lists)}", *lines])


@dataclass
class BarFigure(_Shown):
    """Bars that see each other.

    Vertex v has its bar at `heights[v - 1]`, from and to the places `spans[v - 1]`; `columns` has the place of each
    edge, in the order of `edges_of`.
    """
    number: int
    heights: List[int]
    spans: List[Place]
    lists: Lists
    columns: List[int]
    job = "bars"

    def __str__(self) -> str:
        rows = enumerate(zip(self.heights, self.spans, self.lists), 1)
        lines = [join_words(f"{v} y {y} x {a} {b}:", *us) for v, (y, (a, b), us) in rows]
        return "\n".join([f"figure {self.number} bars {len(self.lists)}", *lines, join_words("columns", *self.columns)])


@dataclass
class RectFigure(_Shown):
    """A tiling: the rectangle of vertex v reaches from a to b and from c up to d, for (a, b, c, d) in `boxes`."""
    number: int
    boxes: List[Tuple[int, int, int, int]]
    lists: Lists
    job = "rect"

    def __str__(self) -> str:
        rows = enumerate(zip(self.boxes, self.lists), 1)
        lines = [join_words(f"{v} x {a} {b} y {c} {d}:", *us) for v, ((a, b, c, d), us) in rows]
        return "\n".join([f"figure {self.number} rect {len(self.lists)}", *lines])


@dataclass
class WitnessFigure(_Shown):
    """A subdivision of K5 or K3,3 (`kind` is "K5" or "K33") in the graph of a line of graph6.

    `branches` has its five or six branch vertices, `paths` its ten or nine paths, each with its vertices.
    """
    number: int
    kind: str
    graph6: str
    branches: List[int]
    paths: List[List[int]]
    job = "witness"

    def __str__(self) -> str:
        lines = [join_words("branch", *self.branches), *(join_words("path", *path) for path in self.paths)]
        return "\n".join([f"figure {self.number} witness {self.kind} {self.graph6}", *lines])


FIGURES = (GridFigure, BarFigure, RectFigure, WitnessFigure)
Figure = Union[GridFigure, BarFigure, RectFigure, WitnessFigure]
Answer = Union[Count, Refused, Verdict, Figure]
Block = Union[Answer, End, Stop]
Text = Union[str, bytes]


def join_words(*words: object) -> str:
    """The words with a space between each two."""
    return " ".join(map(str, words))


def read_blocks(text: Text) -> List[Block]:
    """All that a run wrote, in order: `Count`, `Refused`, `Verdict`, `End`, `Stop` and figures.

    `text` is text or bytes. Each prints itself as the program does, so the lines are those of the text again. Raises
    ValueError, with the number of the line, where a line is none that the program writes.
    """
    return _blocks(text, is_given=False)


def read_figures(text: Text) -> List[Figure]:
    """The figures of a text, as a list.

    `text` is text or bytes. Lines between figures that begin with `count`, `refused`, `verdict`, `end` or `stop` and a
    space are passed over, as `verify` does. Raises ValueError, with the number of the line, where another line is no
    figure's: just where `verify` reads no further.
    """
    return [block for block in _blocks(text, is_given=True) if isinstance(block, FIGURES)]


MOST_NUMBERED = 1 << 24  # of a figure that the program reads
FARTHEST = 1 << 20  # coordinate from 0 that the program reads
MOST_NAMED = 65535  # of the neighbours that the program reads
NOTES = ("count ", "refused ", "verdict ", "end ", "stop ")
REFUSALS = {"OutOfRange": (1, 2), "Loop": (2, 1), "Repeated": (3, 2), "OneSided": (4, 2), "Small": (5, 1), "Genus": (6, 1),
            "NotConnected": (7, 0), "CutVertex": (8, 1), "SeparatingPair": (9, 2), "OuterNotQuad": (10, 0), "NotTriangle": (11, 2),
            "SeparatingTriangle": (12, 3), "NoInner": (13, 0)}  # the number of each, and how many numbers it has
VERDICTS = {"yes": 0, "yes sum": 2, "OutOfGrid": 1, "SamePlace": 2, "OnEdge": 3, "Cross": 4, "Turned": 1, "Inside": 2, "BadShape": 0,
            "BadHeight": 1, "BadBar": 1, "BadColumn": 2, "Through": 3, "Bent": 3, "OuterBent": 0, "BadRect": 1, "Meet": 2, "Gap": 0,
            "Contact": 2, "NoFrame": 0, "Frame": 1, "BadBranch": 1, "NotEdge": 2, "Shared": 3}  # how many numbers each has
STOPS = {"EndInRecord": 1, "BadCount": 1, "TooLong": 0, "BadLine": 1, "Limit": 1, "EndInFigure": 1, "BadWords": 0}


class _BadLine(Exception):
    """A line, counted from the first of a figure, that is none of the program's, and why."""

    def __init__(self, line: int, reason: str) -> None:
        super().__init__(reason)
        self.line = line


def _blocks(text: Text, is_given: bool) -> List[Block]:
    """The blocks of a text that the program wrote, or the figures of one that is given to it."""
    lines = _text(text).split("\n")
    blocks: List[Block] = []
    at = 0
    while at < len(lines) - 1:
        if is_given and lines[at].startswith(NOTES):
            at += 1
            continue
        try:
            block, end = _block(lines, at, is_given)
        except _BadLine as fault:
            bad = at + fault.line
            shown = lines[bad][:60] if lines[bad].isprintable() else ascii(lines[bad][:20])
            raise ValueError(f"line {bad + 1} {fault}: {shown}{_kind_hint(text) if bad == 0 else ''}") from fault
        blocks.append(block)
        at = end
    if lines[-1]:
        raise ValueError(f"line {len(lines)} is not closed by a line end{_kind_hint(text)}")
    return blocks


def _kind_hint(text: Text) -> str:
    """Says what a text is in place of one of figures, by its beginning; nothing where that tells nothing."""
    found = looks_like(text[:1000] if isinstance(text, bytes) else text[:1000].encode("utf-8", "surrogateescape"), "figures")
    return f"; {found}" if found else ""


def _text(text: Text) -> str:
    return text.decode("ascii", "surrogateescape") if isinstance(text, bytes) else text


def _block(lines: List[str], at: int, is_given: bool) -> Tuple[Block, int]:
    """The block that begins at line `at`, and the line behind it. Raises _BadLine where it is none."""
    if not lines[at].startswith("figure "):
        if is_given:
            raise _BadLine(0, "is no first line of a figure, and no note")
        return _answer_line(lines[at]), at + 1
    size = _figure_size(lines[at], is_given)
    end = at + 1 + size
    figure: Optional[Figure] = None
    if end <= len(lines) - 1:
        try:
            figure = _figure(lines[at].split(" "), lines, at)
        except (ValueError, IndexError):
            pass
        # what was read is all that stands there exactly where it is written like that
        if figure is not None and _is_in_range(figure) and str(figure).split("\n") == lines[at:end]:
            return figure, end
    shapes = _line_shapes(lines[at].split(" "))
    for k, shape in enumerate(shapes[:len(lines) - 2 - at], 1):
        if not re.fullmatch(shape, lines[at + k], re.ASCII):
            raise _BadLine(k, "has another shape than is due there")
        if not _has_numbers_in_range(lines[at + k]):
            raise _BadLine(k, "has a number out of its range")
    raise _BadLine(0, f"begins a figure of {size + 1} lines, of which {len(lines) - 1 - at} are there")


_NUMBER, _SIGNED = "(?:0|[1-9][0-9]*)", "(?:0|-?[1-9][0-9]*)"


def _answer_line(line: str) -> Block:
    """What a line says that belongs to no figure."""
    words = line.split(" ")
    block: Optional[Block] = None
    try:
        numbers = {k: int(word) for k, word in enumerate(words) if re.fullmatch(_NUMBER, word, re.ASCII)}
        if words[0] == "count":
            block = Count(*(numbers[k] for k in (1, 3, 5, 7, 9, 11)))
        elif words[0] == "refused" and REFUSALS.get(words[3]) == (numbers[2], len(words) - 4):
            block = Refused(numbers[1], numbers[2], words[3], tuple(numbers[k] for k in range(4, len(words))))
        elif words[0] == "verdict":
            name = " ".join(words[2:4] if words[3:4] == ["sum"] else words[2:3])
            first = 3 + (name == "yes sum")
            if VERDICTS.get(name) == len(words) - first:
                block = Verdict(numbers[1], name, tuple(numbers[k] for k in range(first, len(words))))
        elif words[0] == "end":
            block = End(numbers[2], numbers[4])
        elif words[0] == "stop" and STOPS.get(words[1]) == len(words) - 2:
            block = Stop(words[1], tuple(numbers[k] for k in range(2, len(words))))
    except (KeyError, IndexError):
        pass
    if block is None or str(block) != line:
        raise _BadLine(0, "is none that the program writes")
    return block


def _figure_size(head: str, is_given: bool) -> int:
    """How many lines stand behind the first line of a figure."""
    found = re.fullmatch(rf"figure ({_NUMBER}) (?:(shift|schnyder|convex|bars|rect) ({_NUMBER})|witness (K5|K33) (\S+))",
                         head, re.ASCII)
    if not found:
        raise _BadLine(0, "is no first line of a figure")
    number, job, count, kind, graph = found.groups()
    if not 1 <= int(number) <= (MOST_NUMBERED if is_given else int(number)):
        raise _BadLine(0, f"has a number of the figure that is not from 1 to {MOST_NUMBERED}")
    if kind:
        try:
            n, edges = read_graph6(graph)
            if n > 255 or write_graph6((n, edges)) != graph:
                raise ValueError
        except ValueError:
            raise _BadLine(0, "has a graph that is no line of graph6 of up to 255 vertices") from None
        return {"K5": 11, "K33": 10}[kind]
    if not 1 <= int(count) <= MOST_VERTICES:
        raise _BadLine(0, f"has a number of vertices that is not from 1 to {MOST_VERTICES}")
    return int(count) + (job == "bars")


def _line_shapes(words: List[str]) -> List[str]:
    """The shapes of the lines behind the first line of a figure, which has these words."""
    some = f"(?: {_NUMBER})"
    if words[2] == "witness":
        count = 5 if words[3] == "K5" else 6
        return [f"branch{some}{{{count}}}", *[f"path{some}+"] * (10 if count == 5 else 9)]
    front = {"bars": f"y {_SIGNED} x {_SIGNED} {_SIGNED}", "rect": f"x {_SIGNED} {_SIGNED} y {_SIGNED} {_SIGNED}"}
    lines = [f"{v} {front.get(words[2], f'at {_SIGNED} {_SIGNED}')}:{some}*" for v in range(1, int(words[3]) + 1)]
    return lines + ([f"columns(?: {_SIGNED})*"] if words[2] == "bars" else [])


def _has_numbers_in_range(line: str) -> bool:
    head, colon, rest = line.partition(":")
    if line.startswith("columns"):
        return all(-FARTHEST <= int(word) <= FARTHEST for word in line.split(" ")[1:])
    if not colon:
        head, rest = "", line.partition(" ")[2]
    places = [int(word) for word in head.split(" ")[1:] if word[-1:].isdigit()]
    return all(-FARTHEST <= x <= FARTHEST for x in places) and all(1 <= int(word) <= MOST_NAMED for word in rest.split())


def _is_in_range(figure: Figure) -> bool:
    """Whether the numbers of a figure are ones that the program reads."""
    if isinstance(figure, WitnessFigure):
        lists, places = [figure.branches, *figure.paths], []
        if len(figure.branches) != (5 if figure.kind == "K5" else 6) or not all(figure.paths):
            return False
    elif isinstance(figure, BarFigure):
        lists, places = figure.lists, [*figure.heights, *figure.columns, *(x for span in figure.spans for x in span)]
    else:
        lists = figure.lists
        if isinstance(figure, RectFigure):
            places = [x for box in figure.boxes for x in box]
        else:
            places = [x for place in figure.places for x in place]
    return (all(1 <= min(us) and max(us) <= MOST_NAMED for us in lists if us)
            and (not places or -FARTHEST <= min(places) and max(places) <= FARTHEST))


def _figure(words: List[str], lines: List[str], at: int) -> Figure:
    """The figure whose first line has these words, read without a look at the words between its numbers."""
    number, job = int(words[1]), words[2]
    if job == "witness":
        branches, *paths = [list(map(int, line.split(" ")[1:])) for line in lines[at + 1:at + {"K5": 12, "K33": 11}[words[3]]]]
        return WitnessFigure(number, words[3], words[4], branches, paths)
    end = at + 1 + int(words[3])
    rows = [line.split(":") for line in lines[at + 1:end]]
    heads: List[List[Any]] = [head.split(" ") for head, _ in rows]
    lists = [list(map(int, rest.split())) for _, rest in rows]
    if job == "rect":
        return RectFigure(number, [(int(a), int(b), int(c), int(d)) for _, _, a, b, _, c, d in heads], lists)
    if job == "bars":
        heights, spans = [int(head[2]) for head in heads], [(int(head[4]), int(head[5])) for head in heads]
        return BarFigure(number, heights, spans, lists, list(map(int, lines[end].split(" ")[1:])))
    return GridFigure(number, job, [(int(x), int(y)) for _, _, x, y in heads], lists)
