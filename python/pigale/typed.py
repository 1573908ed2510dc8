"""Calls of the library libpigale over arrays, within this process.

Where there is no library, the callers of this module ask the program by text in place of it. Where a library has no call for
many maps, those of one map are asked in its place.
"""
from __future__ import annotations

import ctypes
import functools
from array import array
from itertools import chain, zip_longest
from struct import Struct, error
from typing import Any, Callable, Iterable, List, Mapping, Optional, Sequence, Tuple, Union

from .answers import COLUMNS, NUMBERS, ROOM, Counts, Embeddings, Figures, Graphs, refused
from .arrays import LOW, MOST_NARROW, SIZE, Map, Maps, doubled, zeros
from .formats import MOST_VERTICES, AnyMap, Lists, Place, Refused
from .library import loaded

FARTHEST = 1 << 20  # coordinate from 0 that the library judges
CHECKS = {0: ("yes", 0), 1: ("OutOfRange", 2), 2: ("Loop", 1), 3: ("Repeated", 2), 4: ("OneSided", 2), 32: ("OutOfGrid", 1),
          33: ("SamePlace", 2), 34: ("OnEdge", 3), 35: ("Cross", 4), 36: ("Turned", 1)}  # the name of each verdict, and how many numbers it has
OUT_OF_RANGE, NO_MEMORY, BAD_ARGUMENT = 1, 16, 17
_I32, _SIZE, _POINTER = ctypes.c_int32, ctypes.c_size_t, ctypes.c_void_p
_PAIR: List[Any] = [_POINTER, _SIZE]
_TYPES: Mapping[str, List[Any]] = {
    "count": [*2 * _PAIR, _POINTER, _POINTER], "check": [*4 * _PAIR, _I32, _I32, _POINTER], "check_drawing": [*3 * _PAIR, _POINTER],
    "bars": [*6 * _PAIR, _POINTER], "rect": [*6 * _PAIR, _POINTER], "embed": [ctypes.c_uint16, *5 * _PAIR, _POINTER],
    **{job: [*4 * _PAIR, _POINTER] for job in ("shift", "schnyder", "convex")},
    **{f"{job}_many": 7 * _PAIR for job in ("shift", "schnyder", "convex")},
    "bars_many": 9 * _PAIR, "rect_many": 9 * _PAIR, "count_many": 6 * _PAIR, "embed_many": 9 * _PAIR, "check_many": 9 * _PAIR,
    "faces": [*4 * _PAIR, _POINTER, _POINTER], "edge_labelling": [*3 * _PAIR, _POINTER]}
YES: Tuple[str, Tuple[int, ...]] = ("yes", ())
_SOME = array("Q", [0])  # what an array of no elements is at
_NONE = bytes(4 * NUMBERS)  # the numbers beside a status


@functools.lru_cache(maxsize=None)
def _call(path: str, name: str) -> Any:
    """A call of the library at a path, with its types, or None where the library has none of this name."""
    call = getattr(loaded(path), f"pigale_{name}", None) if name in _TYPES else None
    if call is not None:
        call.argtypes, call.restype = _TYPES[name], ctypes.c_uint8
    return call


def _words(*arrays: array[int]) -> List[int]:
    """The address and the length of each array."""
    return [word for values in arrays for word in (values.buffer_info()[0] or _SOME.buffer_info()[0], len(values))]


def _all(values: array[int], each: int) -> Tuple[int, int]:
    """The address of an array, and how many elements of C it has, each of so many numbers."""
    return values.buffer_info()[0] or _SOME.buffer_info()[0], len(values) // each


def _refuse(status: int) -> None:
    """Raises what stands for a status that says nothing of the map."""
    if status == NO_MEMORY:
        raise MemoryError("there was not enough memory for the library")
    if status == BAD_ARGUMENT:
        raise ValueError("the library does not take the arrays")


def _refuse_any(status: int, statuses: array[int], maps: Optional[Maps] = None) -> None:
    """Raises what stands for a status of all, or of one, that says nothing of it."""
    _refuse(status)
    found = statuses.tobytes()
    if NO_MEMORY in found:
        _refuse(NO_MEMORY)
    if BAD_ARGUMENT in found:
        index = found.index(BAD_ARGUMENT)
        first, end = maps.lists_of(index) if maps else (0, 0)
        if end - first > MOST_VERTICES:
            raise ValueError(f"map {index + 1} has {end - first} vertices: the program reads up to {MOST_VERTICES}")
        _refuse(BAD_ARGUMENT)


# Maps

def drawn_all(path: str, maps: Maps, job: str) -> Figures:
    """The figures of maps by a job of the library. Raises ValueError where a map has too many vertices."""
    figures, call = Figures(job, maps), _call(path, f"{job}_many")
    if call:
        status = call(*_words(maps.map_ends, maps.ends, maps.neighbours, *figures.columns.values(), figures.statuses),
                      *_all(figures.found, NUMBERS))
    else:
        status, call = 0, _call(path, job)
        names = COLUMNS.get(job, ("x", "y"))
        starts, found = [figures.columns[name].buffer_info()[0] for name in names], figures.found.buffer_info()[0]
        for index, one in enumerate(maps):
            first, end = maps.lists_of(index)
            start = maps.ends[first - 1] if first else 0
            places = [(at + 4 * (start // 2), len(one.neighbours) // 2) if name == "column" else (at + 4 * first, end - first)
                      for name, at in zip(names, starts)]
            figures.statuses[index] = call(*_words(one.ends, one.neighbours), *chain.from_iterable(places), found + 16 * index)
    _refuse_any(status, figures.statuses, maps)
    return figures


def counted_all(path: str, maps: Maps) -> Counts:
    """The counts of maps by the library. Raises ValueError where a map has too many vertices."""
    counts, call = Counts(len(maps)), _call(path, "count_many")
    if call:
        status = call(*_words(maps.map_ends, maps.ends, maps.neighbours), *_all(counts.numbers, 5), *_words(counts.statuses),
                      *_all(counts.found, NUMBERS))
    else:
        status, call = 0, _call(path, "count")
        numbers, found = counts.numbers.buffer_info()[0], counts.found.buffer_info()[0]
        for index, one in enumerate(maps):
            counts.statuses[index] = call(*_words(one.ends, one.neighbours), numbers + 20 * index, found + 16 * index)
    _refuse_any(status, counts.statuses, maps)
    return counts


def checked(path: str, lists: AnyMap, places: Sequence[Place], width: int, height: int) -> Tuple[str, Tuple[int, ...]]:
    """The verdict of the library on a straight-line drawing in the grid from (0, 0) to (width, height).

    It is the name of the verdict, and the vertices from 1 that belong to it: whether the drawing is plane, keeps the lists
    and stays in the grid. Coordinates are from -1048576 to 1048576.
    """
    given, found = Map(lists), array("I", bytes(16))
    xs, ys = array("i", [x for x, _ in places]), array("i", [y for _, y in places])
    status = _call(path, "check")(*_words(given.ends, given.neighbours, xs, ys), width, height, found.buffer_info()[0])
    _refuse(status)
    name, count = CHECKS[status]
    return name, tuple(number + 1 for number in found[:count])


def checked_all(path: str, maps: Maps, xs: array[int], ys: array[int]) -> Tuple[array[int], array[int]]:
    """The verdicts of the library on drawings of maps, as `checked` gives them: a status for each, and its four numbers.

    `xs` and `ys` have the coordinates of the vertices, one map behind another. They are from 0 to 1048576.
    """
    statuses, found, call = zeros("B", len(maps)), zeros("I", NUMBERS * len(maps)), _call(path, "check_many")
    if call:
        most = array("i", [FARTHEST]) * len(maps)
        status = call(*_words(maps.map_ends, maps.ends, maps.neighbours, xs, ys, most, most, statuses), *_all(found, NUMBERS))
    else:
        status, call, at = 0, _call(path, "check"), found.buffer_info()[0]
        across, up = xs.buffer_info()[0], ys.buffer_info()[0]
        for index, one in enumerate(maps):
            first, end = maps.lists_of(index)
            statuses[index] = call(*_words(one.ends, one.neighbours), across + 4 * first, end - first, up + 4 * first, end - first,
                                   FARTHEST, FARTHEST, at + 16 * index)
    _refuse_any(status, statuses, maps)
    return statuses, found


@functools.lru_cache(maxsize=1024)
def _packed(count: int, code: str) -> Callable[..., bytes]:
    """What makes bytes of so many numbers of a type of C."""
    return Struct(f"{count}{code}").pack


def checked_edges(path: str, places: Sequence[Any], count: int, us: Iterable[Any],
                  vs: Iterable[Any]) -> Optional[Tuple[str, Tuple[int, ...]]]:
    """The verdict of the library on a straight-line drawing of so many edges, given by their ends, from 0.

    None where the places are none of whole numbers in the library's range, the edges are those of no simple graph, or an older
    library has no such call.
    """
    call, found, vertices = _call(path, "check_drawing"), array("I", _NONE), len(places)
    if call is None:
        return None
    try:
        columns: Any = zip_longest(*places) if places else ((), ())
        xs, ys = columns
        whole, pairs = _packed(vertices, "i"), _pairs(vertices, count, us, vs)
        status = call(pairs, count, whole(*xs), vertices, whole(*ys), vertices, found.buffer_info()[0])
    except (OverflowError, TypeError, ValueError, error):
        return None
    if not status:
        return YES
    name, numbers = CHECKS.get(status, ("", 0))
    return (name, tuple(found[:numbers])) if name else None


def _pairs(vertices: int, count: int, us: Iterable[Any], vs: Iterable[Any]) -> bytes:
    """So many edges as the library takes them. Raises ValueError, OverflowError or TypeError where an end is no number."""
    if vertices <= MOST_NARROW:
        narrow = bytearray(4 * count)
        narrow[LOW::4], narrow[LOW + 2::4] = bytes(us), bytes(vs)
        return bytes(narrow)
    wide = zeros("H", 2 * count)
    wide[::2], wide[1::2] = array("H", list(us)), array("H", list(vs))
    return wide.tobytes()


# What is inside

def walked_faces(path: str, given: Map) -> Optional[Lists]:
    """The faces of a map, in the order of their first darts; None where an older library has no such call.

    Raises KeyError where the lists are no simple map.
    """
    call, darts = _call(path, "faces"), len(given.neighbours)
    if call is None or len(given) > MOST_VERTICES:
        return None
    ends, walk, count, found = zeros(SIZE, darts), zeros("H", darts), zeros(SIZE, 1), zeros("I", NUMBERS)
    status = call(*_words(given.ends, given.neighbours, ends, walk), count.buffer_info()[0], found.buffer_info()[0])
    _refuse(status)
    if status:
        raise KeyError(f"the lists are no simple map: {refused(status, found, 1)}")
    return list(Map._of(ends[:count[0]], walk))


def labelled_edges(path: str, given: Map) -> Union[bytes, Refused, None]:
    """The label from 0 to 4 of each entry of the lists of a map that `rect` draws; None where an older library has no such call."""
    call = _call(path, "edge_labelling")
    if call is None:
        return None
    labels, found = zeros("B", len(given.neighbours)), zeros("I", NUMBERS)
    status = call(*_words(given.ends, given.neighbours, labels), found.buffer_info()[0])
    _refuse(status)
    return refused(status, found, 1) if status else labels.tobytes()


# Graphs

def embedded_all(path: str, graphs: Graphs, edges: bytes) -> Embeddings:
    """Maps of graphs with their drawings, or the witnesses that they have none, by the library.

    `edges` has the two ends of each edge, from 0, one edge behind another. A graph with a fault of its edges, as a loop, has a
    status from 20 to 22.
    """
    found, call = Embeddings(graphs), _call(path, "embed_many")
    most = AT_A_TIME if call else 1
    for index in range(0, len(graphs), most):
        status = _embed_some(call or _call(path, "embed"), found, edges, index, min(index + most, len(graphs)))
        if call:
            _refuse(status)
        else:
            found.statuses[index] = status
    _refuse_any(0, found.statuses)
    return found


AT_A_TIME = 512  # graphs that are embedded in a call, since their edges are made wider for it


def _embed_some(call: Any, found: Embeddings, edges: bytes, index: int, stop: int) -> int:
    """Embeds the graphs from an index to another, and returns the status of the call, which is for many graphs or for one."""
    graphs = found.graphs
    (first, _), (start, _) = graphs.vertices_of(index), graphs.edges_of(index)
    (_, end), (_, last) = graphs.vertices_of(stop - 1), graphs.edges_of(stop - 1)
    room = ROOM * (stop - index)
    pairs = doubled(edges[2 * start:2 * last])
    answers = [_at(found.ends, first + ROOM * index), end - first + room, _at(found.neighbours, 2 * start), 2 * (last - start),
               _at(found.x, first), end - first, _at(found.y, first), end - first]
    if stop - index == 1 and call.argtypes == _TYPES["embed"]:
        return int(call(end - first, *_all(pairs, 2), *answers, _at(found.found, NUMBERS * index)))
    cuts = [array(SIZE, [at - before for at in ends[index:stop]]) for ends, before in ((graphs.vertex_ends, first), (graphs.edge_ends, start))]
    return int(call(*_words(*cuts), *_all(pairs, 2), *answers, _at(found.statuses, index), stop - index,
                    _at(found.found, NUMBERS * index), stop - index))


def _at(values: array[int], index: int) -> int:
    """The address of an element of an array, or of what would be one."""
    return (values.buffer_info()[0] or _SOME.buffer_info()[0]) + values.itemsize * index
