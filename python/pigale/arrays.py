"""Maps as arrays, one by one or many together; lists are made of them when someone looks.

The arrays are as the library takes them: `ends` says where the list of each vertex ends in `neighbours`, which has the
neighbours of all vertices one behind another, numbered from 0. They are of `array` of the standard library; arrays of numpy are
taken in their place, and `numpy.asarray` takes these without a copy.
"""
from __future__ import annotations

import ctypes
import sys
from array import array
from itertools import accumulate, chain
from typing import Any, Iterable, Iterator, List, Optional, Sequence, Set, Tuple, TypeVar, Union, overload

from .formats import HEADER, AnyMap, Lists, as_maps, read_planar_code, write_planar_code

SIZE = "Q" if ctypes.sizeof(ctypes.c_size_t) == 8 else "L"  # of C's size_t
MOST_NARROW = 255  # vertices of a map whose numbers are bytes in planar_code
PIECE = 1 << 16  # bytes of planar_code that are read at a time
FEWER = bytes([0, *range(255)])  # of each byte the one before it
LOW = 0 if sys.byteorder == "little" else 1
SIZES = {"B": 1, "H": 2, "i": 4, "I": 4, "Q": 8, "L": 8}
Made = TypeVar("Made")


class OnDemand(Sequence[Made]):
    """A sequence whose entries are made when someone looks; it is equal to a list of the same entries."""
    __slots__ = ()

    def one(self, index: int) -> Made:
        """The entry of an index from 0 on."""
        raise NotImplementedError

    @overload
    def __getitem__(self, index: int) -> Made: ...

    @overload
    def __getitem__(self, index: slice) -> List[Made]: ...

    def __getitem__(self, index: Any) -> Any:
        if isinstance(index, slice):
            return [self.one(k) for k in range(*index.indices(len(self)))]
        count = len(self)
        if not -count <= index < count:
            raise IndexError(f"there are {count} entries, and none with the index {index}")
        return self.one(index + count if index < 0 else index)

    def __iter__(self) -> Iterator[Made]:
        return map(self.one, range(len(self)))

    def __eq__(self, other: object) -> bool:
        if not isinstance(other, (list, tuple, OnDemand)):
            return NotImplemented
        return len(self) == len(other) and all(one == another for one, another in zip(self, other))

    def __repr__(self) -> str:
        few = ", ".join(map(repr, self[:3]))
        return f"<{type(self).__name__} of {len(self)}: {few}{', ..' if len(self) > 3 else ''}>"


class Map(OnDemand[List[int]]):
    """A map as two arrays, which gives the list of a vertex as a list of lists does: `map[v - 1]`, vertices from 1.

    `Map(lists)` makes one of lists, and `Map.of_arrays(ends, neighbours)` of arrays in which vertices are numbered from 0.
    """
    __slots__ = ("ends", "neighbours")
    ends: array[int]
    neighbours: array[int]

    def __init__(self, lists: AnyMap) -> None:
        _, self.ends, self.neighbours = _flat([lists])

    @classmethod
    def of_arrays(cls, ends: Any, neighbours: Any) -> Map:
        """Makes a map of two arrays. Raises ValueError where `ends` do not rise to the number of neighbours."""
        return cls._of(*_cut(as_array(ends, SIZE, "ends"), as_array(neighbours, "H", "neighbours"), "neighbours"))

    @classmethod
    def _of(cls, ends: array[int], neighbours: array[int]) -> Map:
        found = cls.__new__(cls)
        found.ends, found.neighbours = ends, neighbours
        return found

    def __len__(self) -> int:
        return len(self.ends)

    def one(self, index: int) -> List[int]:
        """The list of vertex `index` + 1."""
        return [u + 1 for u in self.neighbours[self.ends[index - 1] if index else 0:self.ends[index]]]

    def __iter__(self) -> Iterator[List[int]]:
        us, start = [u + 1 for u in self.neighbours], 0
        for end in self.ends:
            yield us[start:end]
            start = end

    def __reduce__(self) -> Any:
        return _map_of, (self.ends, self.neighbours)


def _map_of(ends: array[int], neighbours: array[int]) -> Map:
    return Map.of_arrays(ends, neighbours)


class Maps(OnDemand[Map]):
    """Many maps in three arrays, each given as a `Map` when someone looks.

    Those of `map_ends` say where the lists of each map end among all lists; `ends` and `neighbours` go on from map to map,
    and the vertices of each map are numbered from 0. `Maps(maps)` makes them of a list of maps, or of bytes of planar_code.
    """
    __slots__ = ("map_ends", "ends", "neighbours")
    map_ends: array[int]
    ends: array[int]
    neighbours: array[int]

    def __init__(self, maps: Union[bytes, Iterable[Any]]) -> None:
        if isinstance(maps, bytes):
            found = maps_of_planar_code(maps)
            maps = read_planar_code(maps) if found is None else found
        if isinstance(maps, Maps):
            self.map_ends, self.ends, self.neighbours = maps.map_ends, maps.ends, maps.neighbours
        else:
            self.map_ends, self.ends, self.neighbours = _flat(maps)

    @classmethod
    def of_arrays(cls, map_ends: Any, ends: Any, neighbours: Any) -> Maps:
        """Makes maps of three arrays. Raises ValueError where one does not cut up the next."""
        lists = as_array(ends, SIZE, "ends")
        return cls._of(_cut(as_array(map_ends, SIZE, "map_ends"), lists, "ends")[0],
                       *_cut(lists, as_array(neighbours, "H", "neighbours"), "neighbours"))

    @classmethod
    def _of(cls, map_ends: array[int], ends: array[int], neighbours: array[int]) -> Maps:
        found = cls.__new__(cls)
        found.map_ends, found.ends, found.neighbours = map_ends, ends, neighbours
        return found

    def __len__(self) -> int:
        return len(self.map_ends)

    def lists_of(self, index: int) -> Tuple[int, int]:
        """Where the lists of a map begin and end among all lists."""
        return self.map_ends[index - 1] if index else 0, self.map_ends[index]

    def one(self, index: int) -> Map:
        """The map of an index from 0 on."""
        first, end = self.lists_of(index)
        start = self.ends[first - 1] if first else 0
        ends = self.ends[first:end]
        return Map._of(array(SIZE, [at - start for at in ends]) if start else ends,
                       self.neighbours[start:ends[-1] if ends else start])

    def lists(self, index: int) -> Lists:
        """The lists of the map of an index from 0 on."""
        first, end = self.lists_of(index)
        start = self.ends[first - 1] if first else 0
        ends = self.ends[first:end]
        us, before, found = [u + 1 for u in self.neighbours[start:ends[-1]]], 0, []
        for at in ends:
            at -= start
            found.append(us[before:at])
            before = at
        return found


def zeros(code: str, count: int) -> array[int]:
    """An array of zeros."""
    return array(code, [0]) * count


def as_array(values: Any, code: str, name: str) -> array[int]:
    """Numbers as an array of a type, which is the given one where it has that type.

    Arrays of numpy and all else that has the buffer protocol are copied as a whole. Raises ValueError, with the name of what
    is given, where a number is none of the type.
    """
    if type(values) is array and values.typecode == code:
        return values
    found = array(code)
    try:
        if hasattr(values, "astype") and hasattr(values, "min"):
            _copy_numpy(values, found)
        elif isinstance(values, (bytes, str)):
            raise TypeError("bytes and text are none")
        else:
            found.extend(values)
    except (OverflowError, TypeError, ValueError) as fault:
        raise ValueError(f"{name} are no array of whole numbers in range: {fault}") from fault
    return found


def _copy_numpy(values: Any, found: array[int]) -> None:
    """Copies an array of numpy behind the numbers of an array."""
    if values.ndim != 1 or values.dtype.kind not in "iu":
        raise TypeError(f"they have the type {values.dtype} and {values.ndim} dimensions")
    size, is_signed = SIZES[found.typecode], found.typecode == "i"
    least, most = (-1 << 31, (1 << 31) - 1) if is_signed else (0, (1 << 8 * size) - 1)
    if values.size and not (least <= int(values.min()) and int(values.max()) <= most):
        raise OverflowError(f"one is not from {least} to {most}")
    found.frombytes(values.astype(f"{'i' if is_signed else 'u'}{size}").tobytes())


def _cut(ends: array[int], values: array[int], name: str) -> Tuple[array[int], array[int]]:
    """The arrays. Raises ValueError where the first does not cut up the second."""
    if (ends[-1] if ends else 0) != len(values) or any(map(int.__gt__, ends, ends[1:])):
        raise ValueError(f"the ends do not rise to the number of {name}, which is {len(values)}")
    return ends, values


def _flat(maps: Iterable[Any]) -> Tuple[array[int], array[int], array[int]]:
    """The arrays of maps. Raises ValueError as `write_planar_code` does where one is none."""
    given: Sequence[Any] = maps if isinstance(maps, (list, tuple)) else as_maps(maps)
    kinds: Set[type] = set(map(type, given))
    if kinds <= {list, tuple} and max(map(len, given), default=0) <= MOST_NARROW:
        rows = list(chain.from_iterable(given))
        if {list, tuple}.issuperset(map(type, rows)):
            return _flat_narrow(given, rows)
    if kinds == {Map}:
        return _joined(given)
    given = as_maps(given)
    return _joined([one if isinstance(one, Map) else Map._of(*_flat_lists(one)) for one in given])


def _flat_narrow(maps: Sequence[AnyMap], rows: List[Sequence[int]]) -> Tuple[array[int], array[int], array[int]]:
    counts = list(map(len, maps))
    try:
        numbers = bytes(chain.from_iterable(rows))
        if 0 in numbers or 0 in counts:
            raise ValueError("a neighbour or a number of vertices is 0")
    except (TypeError, ValueError):
        write_planar_code(maps)  # which says what is wrong
        raise
    return array(SIZE, accumulate(counts)), array(SIZE, accumulate(map(len, rows))), doubled(numbers.translate(FEWER))


def _flat_lists(lists: AnyMap) -> Tuple[array[int], array[int]]:
    try:
        rows = [list(us) for us in lists]
        neighbours = array("H", [u - 1 for us in rows for u in us])
    except (OverflowError, TypeError):
        write_planar_code([lists])  # which says what is wrong
        raise
    if not 1 <= len(rows) <= 65535 or len(rows) <= MOST_NARROW and neighbours and max(neighbours) >= MOST_NARROW:
        write_planar_code([lists])
    return array(SIZE, accumulate(map(len, rows))), neighbours


def doubled(numbers: Union[bytes, bytearray]) -> array[int]:
    """Bytes as numbers of two bytes."""
    wide = bytearray(2 * len(numbers))
    wide[LOW::2] = numbers
    found: array[int] = array("H")
    found.frombytes(wide)
    return found


def _joined(maps: Sequence[Map]) -> Tuple[array[int], array[int], array[int]]:
    ends: array[int] = array(SIZE)
    start = 0
    for one in maps:
        ends.extend([end + start for end in one.ends])
        start += len(one.neighbours)
    return array(SIZE, accumulate(map(len, maps))), ends, array("H", b"".join([one.neighbours for one in maps]))


def maps_of_planar_code(data: bytes) -> Optional[Maps]:
    """The maps of planar_code that has narrow records alone, or None where something else stands in it."""
    map_ends, ends, neighbours = array(SIZE), array(SIZE), array("H")
    at, size = len(HEADER) if data.startswith(HEADER) else 0, PIECE
    while at < len(data):
        lists = data[at:at + size].split(b"\0")
        counts = _cut_counts(lists)
        if counts is None or not counts and at + size >= len(data):
            return None
        if not counts:
            size *= 2
            continue
        del lists[sum(counts):]
        numbers = b"".join(lists)
        at += len(numbers) + len(lists) + len(counts)
        map_ends.extend(going_on(counts, map_ends))
        ends.extend(going_on(map(len, lists), ends))
        neighbours.extend(doubled(numbers.translate(FEWER)))
    return Maps._of(map_ends, ends, neighbours)


def going_on(lengths: Iterable[int], ends: array[int]) -> Iterator[int]:
    """The ends of pieces behind those that stand in an array."""
    found = accumulate(chain(ends[-1:] or (0,), lengths))
    next(found)
    return found


def _cut_counts(lists: List[bytes]) -> Optional[List[int]]:
    """Cuts the number of vertices off each whole record, given as its lists; None where a wide record or a header stands there."""
    counts: List[int] = []
    at, last = 0, len(lists) - 1
    while at < last:
        head = lists[at]
        if not head or head.startswith(b">>"):
            return None
        if at + head[0] > last:
            break
        lists[at] = head[1:]
        counts.append(head[0])
        at += head[0]
    return counts
