"""Runs the program: its answers to maps, graphs and figures."""
import os
from dataclasses import dataclass
from typing import Any, Iterable, Iterator, List, Optional, Sequence, Tuple, Union, cast

from .basics import HINTS, READING_JOBS, WHAT_WENT_WRONG, PigaleError
from .formats import (FIGURES, MOST_BYTES, MOST_VERTICES, PLANAR_JOBS, Answer, Block, Count, End, Figure, Graph, GridFigure,
                      AnyMap, Refused, Stop, WitnessFigure, as_maps, check_line, read_blocks, write_graph6, write_planar_code)
from .graphs import graph_of
from .library import answered, library

MOST_EMBEDDED = 255  # vertices of a graph that `embed` reads
EDGE_FAULTS = {20, 21, 22}  # statuses of the library for an end that is no vertex, a loop, and an edge that is there twice

Records = Union[str, bytes, Iterable[AnyMap], Iterable[Union[str, Graph]], Iterable[Figure]]


@dataclass
class Run:
    """A run of the program: the job, its status, its text, and the blocks of the text.

    The status is one from 0 to 6 of docs/FORMATS.md, or 128 and the number of the signal that ended the program.
    """
    job: str
    status: int
    text: str
    blocks: List[Block]

    @property
    def answers(self) -> List[Answer]:
        """The blocks but the last line: of a run that ended well, one for each record, and two for `gen`."""
        return [block for block in self.blocks if not isinstance(block, (End, Stop))]


def program() -> str:
    """The path of the program. Raises FileNotFoundError where there is none (the package's text says where it looks)."""
    import platform
    here = os.path.dirname(os.path.realpath(__file__))
    top = os.path.join(here, "..", "..")
    system = platform.system().lower()
    released = f"pigale-{platform.machine()}-{system}{'.exe' if system == 'windows' else ''}"
    places = [os.environ.get("PIGALE"), os.path.join(here, released), os.path.join(top, "crates", "pigale", "out", "pigale"),
              os.path.join(top, "release", released)]
    for place in places:
        if place and os.access(place, os.X_OK):
            return os.path.abspath(place)
    found = next((path for path in _on_path("pigale") if not _is_own_command(path)), None)
    if not found:
        held = sorted(name[len("pigale-"):] for name in os.listdir(here) if name.startswith("pigale-"))
        has = f"this package has a program for {' and '.join(held)}, and none" if held else "there is no program"
        raise FileNotFoundError(f"{has} for this system, {platform.machine()}-{system}, nor is one on the path; PIGALE may name one")
    return found


def _on_path(name: str) -> Iterator[str]:
    """The commands of a name on the path, in order."""
    import shutil
    for folder in os.environ.get("PATH", os.defpath).split(os.pathsep):
        found = shutil.which(os.path.abspath(os.path.join(folder, name))) if folder else None
        if found:
            yield found


def _is_own_command(path: str) -> bool:
    """Whether a command is the one that pip makes of this package, which runs the program in turn."""
    try:
        with open(path, "rb") as file:
            head = file.read(2000)
    except OSError:
        return False
    return head.startswith(b"#!") and b"pigale" in head and b"import" in head


def run(job: str, records: Records = (), size: Optional[int] = None, number: Optional[int] = None,
        processes: Optional[int] = None) -> Run:
    """The program's answers to records, as a `Run`.

    `records` is what the job reads: maps for `count`, `shift`, `schnyder`, `bars`, `convex` and `rect`; graphs (n,
    edges) or lines of graph6 for `embed`; figures for `verify`; nothing for `gen`, which wants `size` from 3 to 4095
    and `number` from 0 to 4294967295. Bytes and text are handed on as they are.

    An input of more than 16 MiB is answered by as many processes side by side as there are processors, and any input by so
    many as `processes` says; the answers are those of one run. `stream` gives them one by one.

    Raises PigaleError where the status is 2 or more: bad words, a bad place in the input, a fault, out of memory.
    Raises ValueError where a record is none of the job's, as one map in place of a list, or has too many vertices.
    """
    words = [job]
    for name, value in (("--size", size), ("--number", number)):
        words += [] if value is None else [name, str(value)]
    status, text, trouble = _answered(words, encoded(job, records), processes)
    result = Run(job, status, text, read_blocks(text) if status < 2 else readable(text))
    if status not in (0, 1):
        raise PigaleError(result, trouble)
    return result


def _answered(words: Sequence[str], data: bytes, processes: Optional[int]) -> Tuple[int, str, str]:
    """The status and the text of a run, or of as many side by side as there have to be, and what went wrong, in words."""
    if words[0] in READING_JOBS and (processes or len(data) > MOST_BYTES):
        import io
        from .parallel import run_all
        sink, troubles = io.BytesIO(), [""]
        status = run_all(words, io.BytesIO(data), sink, processes, lambda progress: troubles.append(progress.trouble))
        return status, sink.getvalue().decode("ascii"), troubles[-1]
    within = library()
    if within:
        return (*answered(within, words, data), "")
    import subprocess
    done = subprocess.run([program(), *words], input=data, stdout=subprocess.PIPE, check=False)
    status = done.returncode if done.returncode >= 0 else 128 - done.returncode
    return status, done.stdout.decode("ascii"), ""


def readable(text: str) -> List[Block]:
    """The blocks of a text, which may end inside a line or a figure where the run broke off."""
    text = text[:text.rfind("\n") + 1]
    try:
        return read_blocks(text)
    except ValueError:
        cut = text.rfind("\nfigure ") + 1
        return read_blocks(text[:cut])


def encoded(job: str, records: Records, first: int = 1, header: bool = True) -> bytes:
    """Records as bytes that the job reads. Raises ValueError where one is none, by its number from `first` on."""
    if isinstance(records, bytes):
        return records
    if isinstance(records, str):
        return records.encode("ascii", "surrogateescape")
    if job == "embed":
        return "".join(f"{line}\n" for line in _lines(cast(Iterable[Union[str, Graph]], records), first)).encode("ascii")
    if job == "verify":
        figures = _figures(cast(Iterable[Figure], records), first)
        return "".join(f"{figure}\n" for figure in figures).encode("ascii", "surrogateescape")
    return write_planar_code(_sized(as_maps(cast(Iterable[AnyMap], records)), first), header)


def _sized(maps: List[AnyMap], first: int) -> List[AnyMap]:
    """The maps. Raises ValueError where one has more vertices than the program reads, by its number from `first` on."""
    for k, lists in enumerate(maps, first):
        if len(lists) > MOST_VERTICES:
            raise ValueError(f"map {k} has {len(lists)} vertices: the program reads up to {MOST_VERTICES}")
    return maps


def _lines(graphs: Iterable[Union[str, Graph]], first: int) -> Iterable[str]:
    """Graphs as lines of graph6. Raises ValueError where one is none, or has more vertices than `embed` reads."""
    if hasattr(graphs, "nodes"):
        raise ValueError("this is a graph of networkx: give a list of graphs, as [graph] for one")
    if isinstance(graphs, tuple) and len(graphs) == 2 and isinstance(graphs[0], int):
        raise ValueError("this is one graph: give a list of graphs, as [graph] for one")
    for k, graph in enumerate(graphs, first):
        try:
            if isinstance(graph, str):
                check_line(graph, MOST_EMBEDDED)
                yield graph
                continue
            pair: Graph = graph_of(graph)
            line = write_graph6(pair)
        except ValueError as fault:
            raise ValueError(f"graph {k}: {fault}") from fault
        if pair[0] > MOST_EMBEDDED:
            raise ValueError(f"graph {k} has {pair[0]} vertices: embed reads up to {MOST_EMBEDDED}")
        yield line


def _figures(figures: Iterable[Figure], first: int) -> Iterable[Figure]:
    if isinstance(figures, FIGURES):
        raise ValueError("this is one figure: give a list of figures, as [figure] for one")
    for k, figure in enumerate(figures, first):
        if not isinstance(figure, FIGURES):
            raise ValueError(f"entry {k} is no figure to verify, but {type(figure).__name__}: {str(figure)[:60]}")
        yield figure


def _maps(maps: Union[bytes, Iterable[Any]], processes: Optional[int]) -> Optional[Tuple[str, Any]]:
    """The library's path and the maps as arrays, or None where the program is to be asked by text."""
    path = None if processes else library()
    if path is None:
        return None
    from .arrays import Maps, maps_of_planar_code
    given = maps_of_planar_code(maps) if isinstance(maps, bytes) else Maps(maps)
    return None if given is None else (path, given)


def count(maps: Union[bytes, Iterable[Any]], processes: Optional[int] = None) -> Sequence[Union[Count, Refused]]:
    """The numbers of vertices, edges, faces and components and the genus of each map, in order.

    `maps` is as in `draw`. Lists that are no simple map have a `Refused` in their place. By the library the answer is a
    `Counts`, in which each is made when someone looks, and else a list. `processes` is as in `run`. Raises as `run` does.
    """
    given = _maps(maps, processes)
    if given:
        from .typed import counted_all
        return counted_all(*given)
    return cast(List[Union[Count, Refused]], run("count", maps, processes=processes).answers)


def draw(maps: Union[bytes, Iterable[Any]], job: str = "schnyder",
         processes: Optional[int] = None) -> Sequence[Union[Figure, Refused]]:
    """A figure for each map, in order, by "shift", "schnyder", "bars", "convex" or "rect".

    `maps` has for each map its lists, an object of `Map`, or a `PlanarEmbedding` of networkx; or it is an object of `Maps`, or
    bytes of planar_code. A map that the job does not draw has a `Refused` in its place. By the library the answer is a
    `Figures`, which has all coordinates as arrays, and in which a figure is made when someone looks; else it is a list.
    `processes` is as in `run`. Raises ValueError for another job, and as `run`.
    """
    if job not in PLANAR_JOBS[1:]:
        raise ValueError(f"{job} is no job that draws maps")
    given = _maps(maps, processes)
    if given:
        from .typed import drawn_all
        return drawn_all(*given, job)
    return cast(List[Union[Figure, Refused]], run(job, maps, processes=processes).answers)


def embed(graphs: Union[str, bytes, Iterable[Any]],
          processes: Optional[int] = None) -> Sequence[Union[GridFigure, WitnessFigure, Refused]]:
    """For each graph a `GridFigure` of a map of it, or a `WitnessFigure` that tells why there is none of genus zero.

    A graph is (n, edges), a line of graph6 or a graph of networkx, with up to 255 vertices; one of fewer than three has a
    `Refused` in its place. By the library the answer is an `Embeddings`, in which each is made when someone looks, and else a
    list. `processes` is as in `run`. Raises as `run` does.
    """
    path = None if processes or isinstance(graphs, (str, bytes)) else library()
    if path:
        graphs = _list_of_graphs(graphs)
        arrays = _graph_arrays(graphs)
        if arrays is not None:
            return _embedded(path, graphs, *arrays)
    return cast(List[Union[GridFigure, WitnessFigure, Refused]], run("embed", graphs, processes=processes).answers)


def _embedded(path: str, graphs: List[Any], arrays: Any, edges: Any) -> Sequence[Union[GridFigure, WitnessFigure, Refused]]:
    """The drawings or witnesses of graphs, which are given as arrays too, by the library at a path."""
    from .typed import embedded_all
    found = embedded_all(path, arrays, edges)
    if EDGE_FAULTS & set(found.statuses):
        for k, status in enumerate(found.statuses):
            if status in EDGE_FAULTS:
                # a loop or an end that is no vertex raises ValueError, and edges that are there twice become one
                alone = _graph_arrays(list(_lines([graphs[k]], k + 1)))
                found.take(k, embedded_all(path, *alone))
    return found


def _list_of_graphs(graphs: Iterable[Any]) -> List[Any]:
    """Graphs as a list. Raises ValueError where they are one graph."""
    if hasattr(graphs, "nodes") or isinstance(graphs, tuple) and len(graphs) == 2 and isinstance(graphs[0], int):
        return list(_lines(graphs, 1))  # which says what is wrong
    return list(graphs)


def _graph_arrays(graphs: List[Any]) -> Any:
    """Graphs and the ends of their edges as arrays, or None where a line is none of graph6 of up to 255 vertices. Raises ValueError as `_lines` does."""
    from .answers import Graphs, ends_of_edges, ends_of_line
    counts: List[int] = []
    sizes: List[int] = []
    edges = bytearray()
    for k, graph in enumerate(graphs, 1):
        if not isinstance(graph, str):
            graph = graphs[k - 1] = graph_of(graph)
            ends = ends_of_edges(graph)
            if ends is not None:
                counts.append(graph[0])
                sizes.append(len(ends) // 2)
                edges += ends
                continue
            graph = graphs[k - 1] = list(_lines([graph], k))[0]  # which says what is wrong
        found = ends_of_line(graph)
        if found is None:
            return None
        counts.append(found[0])
        sizes.append(len(found[1]) // 2)
        edges += found[1]
    return Graphs(graphs, counts, sizes), edges
