"""Reads graphs and maps with their names from files of many formats.

planar_code, graph6, plantri's ASCII code, lists of edges, matrices and node-link JSON are read here. Readers of networkx do
the others, where networkx is there: sparse6, adjacency lists, GraphML, GML, DOT, Pajek and GEXF.
"""
import gzip
import importlib
import io
import json
import re
import zlib
from dataclasses import dataclass, field
from typing import Any, Callable, Dict, Hashable, Iterable, List, Optional, Tuple

from .formats import Edge, Lists, read_graph6, read_planar_code
from .kinds import KINDS, ending_kind, kind_of
from .maps import edges_of

READ_KINDS = ("planar_code", "graph6", "sparse6", "ascii", "edges", "adjacency", "matrix", "graphml", "gexf", "gml", "dot",
              "pajek", "json")


@dataclass
class Named:
    """A graph with the names of its vertices, and where it is a map with its lists.

    Vertex v, from 1, is called `names[v - 1]`. `edges` are pairs of numbers, the lesser first, each once. `lists` has the
    neighbours of each vertex in clockwise order where the file said them, and is None elsewhere. `has_names` says whether
    the names came with the graph; they are the numbers from 1 where not. `source` tells where it was read.
    `left_out` says in words what of the file a simple graph has not.
    """
    names: List[Hashable]
    edges: List[Edge]
    lists: Optional[Lists] = None
    has_names: bool = False
    source: str = ""
    left_out: List[str] = field(default_factory=list)

    @classmethod
    def of_map(cls, lists: Lists, source: str = "") -> "Named":
        """A map whose vertices are called by their numbers."""
        return cls(list(range(1, len(lists) + 1)), edges_of(lists), lists, source=source)

    @classmethod
    def of_pairs(cls, names: Iterable[Hashable], pairs: Iterable[Tuple[Hashable, Hashable]], source: str = "",
                 has_names: bool = True) -> "Named":
        """A graph of pairs of names; loops, and edges between the same two, are left out, which is said."""
        known = {name: v for v, name in enumerate(dict.fromkeys(names), 1)}
        edges: Dict[Edge, None] = {}
        loops = repeated = 0
        for one, other in pairs:
            u, v = (known.setdefault(name, len(known) + 1) for name in (one, other))
            edge = (min(u, v), max(u, v))
            loops += u == v
            repeated += edge in edges and u != v
            if u != v:
                edges[edge] = None
        said = [f"{loops} loop{'s' * (loops > 1)}"] if loops else []
        if repeated:
            said.append(f"{repeated} edges that are there already" if repeated > 1 else "1 edge that is there already")
        return cls(list(known), sorted(edges), None, has_names, source, said)

    @classmethod
    def of_networkx(cls, graph: Any, source: str = "") -> "Named":
        """A graph of networkx with its names, or with labels where each vertex has a `label` of its own.

        A PlanarEmbedding has its lists too.
        """
        nodes = list(graph)
        labels = [graph.nodes[node].get("label") for node in nodes]
        has_labels = bool(nodes) and all(isinstance(label, str) and label for label in labels) and len(set(labels)) == len(nodes)
        calls = dict(zip(nodes, labels)) if has_labels else {node: node for node in nodes}
        if hasattr(graph, "neighbors_cw_order"):
            number = {node: v for v, node in enumerate(nodes, 1)}
            lists = [[number[u] for u in graph.neighbors_cw_order(node)] for node in nodes]
            return cls([calls[node] for node in nodes], edges_of(lists), lists, True, source)
        pairs = ((calls[u], calls[v]) for u, v in graph.edges())
        if graph.is_directed():
            # an arc each way is one edge of an undirected graph
            pairs = (pair for pair in {frozenset(pair): pair for pair in pairs if pair[0] != pair[1]}.values())
        return cls.of_pairs([calls[node] for node in nodes], pairs, source)


class ReadFault(ValueError):
    """A file is none of its format: the file, the place, the cause and the cure in words."""


def read_graphs(path: str, kind: str = "") -> List[Named]:
    """Reads all graphs or maps of a file, by its ending or else by its first bytes, or by `kind`, a word of `READ_KINDS`.

    A file that gzip packed is unpacked. Raises ReadFault where the file is none of the format, or needs networkx and that
    is not there; OSError where it cannot be read.
    """
    with open(path, "rb") as file:
        data = file.read()
    return graphs_of(data, path, kind or ending_kind(path))


def graphs_of(data: bytes, path: str = "standard input", kind: str = "") -> List[Named]:
    """Reads all graphs or maps of some bytes, as `read_graphs` does; `path` is what they are called in what is said."""
    if data.startswith(b"\x1f\x8b"):
        try:
            data = gzip.GzipFile(fileobj=io.BytesIO(data)).read()
        except (OSError, EOFError, zlib.error) as fault:
            raise ReadFault(f"{path}: what gzip packed is not whole ({fault})") from fault
    found = kind_of(data[:4096])
    kind = kind or found
    if kind not in READ_KINDS or found in ("picture", "archive", "empty") and kind != "json":
        called, cure = KINDS[found if found not in READ_KINDS else kind if kind in KINDS else ""]
        raise ReadFault(f"{path}: {'there is' if found == 'empty' else 'this is'} {called}; {cure}; --from names a format of "
                        f"{', '.join(READ_KINDS)}")
    try:
        graphs = _READERS[kind](data, path)
    except ReadFault:
        raise
    except (ValueError, KeyError, IndexError, TypeError, AttributeError, SyntaxError) as fault:
        is_other = found != kind and found in READ_KINDS
        other = f"; by its first bytes it looks like {KINDS[found][0]}: --from {found}" if is_other else ""
        raise ReadFault(f"{path}: this is not {KINDS[kind][0]}: {_plain(fault)}{other}") from fault
    except Exception as fault:  # readers of networkx raise what they like
        raise ReadFault(f"{path}: this is not {KINDS[kind][0]}: {_plain(fault)}") from fault
    if not graphs:
        raise ReadFault(f"{path}: there is no graph in it")
    return graphs


def _plain(fault: BaseException) -> str:
    text = str(fault).strip().split("\n")[0]
    is_plain = text and not isinstance(fault, (KeyError, IndexError))
    return text if is_plain else f"something is wanting in it ({type(fault).__name__} {text})"


def _networkx(path: str, kind: str) -> Any:
    try:
        return importlib.import_module("networkx")
    except ImportError as fault:
        raise ReadFault(f"{path}: {KINDS[kind][0]} is read by networkx, which is not there: pip install networkx") from fault


def _text(data: bytes, path: str) -> str:
    try:
        return data.decode("utf-8-sig")
    except UnicodeDecodeError as fault:
        raise ReadFault(f"{path}: byte {fault.start} is not UTF-8") from fault


def _numbered(graphs: List[Named], path: str) -> List[Named]:
    for k, graph in enumerate(graphs, 1):
        graph.source = path if len(graphs) == 1 else f"{path}, graph {k}"
    return graphs


def _planar_code(data: bytes, path: str) -> List[Named]:
    return _numbered([Named.of_map(lists) for lists in read_planar_code(data)], path)


def _graph6(data: bytes, path: str) -> List[Named]:
    graphs = []
    text = _text(data, path).replace(">>graph6<<", "\n")
    for k, line in enumerate((line.strip() for line in text.split("\n")), 1):
        if line:
            try:
                n, edges = read_graph6(line)
            except ValueError as fault:
                raise ReadFault(f"{path}, line {k}: {fault}") from fault
            graphs.append(Named(list(range(1, n + 1)), edges))
    return _numbered(graphs, path)


def _sparse6(data: bytes, path: str) -> List[Named]:
    networkx = _networkx(path, "sparse6")
    graphs = []
    for k, line in enumerate(data.replace(b">>sparse6<<", b"\n").split(b"\n"), 1):
        if line.strip():
            try:
                graph = networkx.from_sparse6_bytes(line.strip())
            except Exception as fault:
                raise ReadFault(f"{path}, line {k}: no line of sparse6: {_plain(fault)}") from fault
            graphs.append(Named.of_pairs(range(1, len(graph) + 1), ((u + 1, v + 1) for u, v in graph.edges()), has_names=False))
    return _numbered(graphs, path)


def _ascii(data: bytes, path: str) -> List[Named]:
    """plantri's ASCII code: a line a map, with a letter for each neighbour, clockwise."""
    graphs = []
    for k, line in enumerate(_text(data, path).split("\n"), 1):
        if not line.strip():
            continue
        found = re.fullmatch(r"(\d+) (\S+)", line.strip())
        lists = [[ord(letter) - 96 for letter in part] for part in found[2].split(",")] if found else []
        if not found or int(found[1]) != len(lists):
            raise ReadFault(f"{path}, line {k}: no map of plantri -a, as in: 4 bcd,adc,abd,acb")
        graphs.append(Named.of_map(lists))
    return _numbered(graphs, path)


def _rows(data: bytes, path: str) -> Iterable[Tuple[int, List[str]]]:
    """The lines of a text with their numbers, without comments and empty ones, as words between spaces, commas or semicolons."""
    for k, line in enumerate(_text(data, path).split("\n"), 1):
        words = [word for word in re.split(r"[\s,;]+", re.split(r"[#%]", line)[0]) if word]
        if words:
            yield k, words


def _edges(data: bytes, path: str) -> List[Named]:
    """A list of edges: two names a line, or one for a vertex without neighbours; a third word is passed over."""
    names: Dict[str, None] = {}
    pairs = []
    for k, words in _rows(data, path):
        if len(words) > 3:
            raise ReadFault(f"{path}, line {k}: an edge is two names, and this line has {len(words)}; --from adjacency reads a "
                            "vertex with its neighbours")
        names.update(dict.fromkeys(words[:2]))
        pairs += [(words[0], words[1])] if len(words) > 1 else []
    ordered = sorted(names, key=int) if all(name.isascii() and name.isdigit() for name in names) else list(names)
    return [Named.of_pairs(ordered, pairs, path)]


def _matrix(data: bytes, path: str) -> List[Named]:
    """An adjacency matrix of zeros and ones, with or without spaces; several stand one behind another."""
    rows = [(k, list(words[0]) if len(words) == 1 and len(words[0]) > 1 else words) for k, words in _rows(data, path)]
    graphs = []
    at = 0
    while at < len(rows):
        n = len(rows[at][1])
        block = rows[at:at + n]
        for k, row in block:
            if len(row) != n or not set(row) <= {"0", "1"}:
                raise ReadFault(f"{path}, line {k}: a row of a matrix of {n} columns has {n} zeros and ones")
        if len(block) < n:
            raise ReadFault(f"{path}: the matrix that begins at line {rows[at][0]} has {n} columns and {len(block)} rows")
        for v in range(n):
            for u in range(n):
                if block[v][1][u] != block[u][1][v]:
                    raise ReadFault(f"{path}, line {block[v][0]}: entry {u + 1} of row {v + 1} is not that at the other side "
                                    "of the diagonal")
        pairs = ((v + 1, u + 1) for v in range(n) for u in range(v, n) if block[v][1][u] == "1")
        graphs.append(Named.of_pairs(range(1, n + 1), pairs, has_names=False))
        at += n
    return _numbered(graphs, path)


def _adjacency(data: bytes, path: str) -> List[Named]:
    networkx = _networkx(path, "adjacency")
    # a colon may stand behind the vertex, and each edge at both of its ends
    lines = [" ".join([words[0].rstrip(":"), *words[1:]]) for _, words in _rows(data, path)]
    graph = networkx.parse_adjlist(lines)
    return [Named.of_networkx(graph, path)]


def _by_networkx(kind: str, read: Callable[[Any, bytes], Any]) -> Callable[[bytes, str], List[Named]]:
    def reader(data: bytes, path: str) -> List[Named]:
        return [Named.of_networkx(read(_networkx(path, kind), data), path)]
    return reader


def _gml(networkx: Any, data: bytes) -> Any:
    text = data.decode("utf-8-sig")
    try:
        return networkx.parse_gml(text)
    except networkx.NetworkXError:
        return networkx.parse_gml(text, label="id")


def _dot(networkx: Any, data: bytes) -> Any:
    try:
        importlib.import_module("pydot")
    except ImportError as fault:
        raise ReadFault("DOT is read by networkx and pydot, which is not there: pip install pydot") from fault
    graph = networkx.nx_pydot.read_dot(io.StringIO(data.decode("utf-8-sig")))
    graph.remove_nodes_from([node for node in graph if node in ("\\n", "\\r\\n", "node", "edge", "graph")])
    return networkx.relabel_nodes(graph, {node: node.strip('"') for node in graph if isinstance(node, str)})


def _json(data: bytes, path: str) -> List[Named]:
    """Node-link JSON: an object with `nodes`, each with `id`, and `links` or `edges`, each with `source` and `target`."""
    found = json.loads(_text(data, path))
    if not isinstance(found, dict) or "nodes" not in found or not ("links" in found or "edges" in found):
        raise ValueError("node-link JSON is an object with nodes and with links or edges")
    labels = [node.get("label") for node in found["nodes"]]
    has_labels = all(isinstance(label, str) and label for label in labels) and len(set(labels)) == len(labels)
    calls = {node["id"]: label if has_labels else node["id"] for node, label in zip(found["nodes"], labels)}
    links = found["links"] if "links" in found else found["edges"]
    return [Named.of_pairs(calls.values(), ((calls[link["source"]], calls[link["target"]]) for link in links), path)]


_READERS: Dict[str, Callable[[bytes, str], List[Named]]] = {
    "planar_code": _planar_code, "graph6": _graph6, "sparse6": _sparse6, "ascii": _ascii, "edges": _edges, "matrix": _matrix,
    "adjacency": _adjacency, "json": _json,
    "graphml": _by_networkx("graphml", lambda networkx, data: networkx.parse_graphml(data.decode("utf-8-sig"))),
    "gexf": _by_networkx("gexf", lambda networkx, data: networkx.read_gexf(io.BytesIO(data))),
    "gml": _by_networkx("gml", _gml),
    "dot": _by_networkx("dot", _dot),
    "pajek": _by_networkx("pajek", lambda networkx, data: networkx.parse_pajek(data.decode("utf-8-sig").splitlines())),
}
