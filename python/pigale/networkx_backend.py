"""Calls of networkx, by its own signatures: what they answer comes from the program or its library.

`check_planarity`, `is_planar` and `planar_layout` stand in for those of networkx. The module is a backend of networkx too,
by the entry point `networkx.backends`: `networkx.check_planarity(graph, backend="pigale")`. Graphs of more than 255 vertices
are answered by networkx itself.
"""
import importlib
import inspect
from typing import Any, Dict, Hashable, List, Optional, Tuple

from .formats import Lists, WitnessFigure
from .graphs import to_networkx
from .readers import Named
from .runs import MOST_EMBEDDED, draw, embed

__all__ = ["check_planarity", "convert_from_nx", "convert_to_nx", "get_info", "is_planar", "planar_layout"]


def check_planarity(G: Any, counterexample: bool = False) -> Tuple[bool, Any]:
    """Says whether a graph is planar, as networkx's function: (True, a `PlanarEmbedding`), or (False, what shows that it is not).

    That is None, or with `counterexample` a subgraph that is a subdivision of K5 or K3,3. Loops and directions of edges do
    not matter.
    """
    networkx = importlib.import_module("networkx")
    _forget_conversion(G)
    named = Named.of_networkx(_simple(networkx, G))
    if len(named.names) > MOST_EMBEDDED:
        answer: Tuple[bool, Any] = _own(networkx.check_planarity)(G, counterexample)
        return answer
    found = _map(named)
    if not isinstance(found, WitnessFigure):
        return True, to_networkx(found, named.names)
    if not counterexample:
        return False, None
    subgraph = networkx.Graph()
    for path in found.paths:
        networkx.add_path(subgraph, [named.names[v - 1] for v in path])
    return False, subgraph


def is_planar(G: Any) -> bool:
    """Says whether a graph is planar, as networkx's function."""
    return check_planarity(G)[0]


def planar_layout(G: Any, scale: float = 1, center: Any = None, dim: int = 2, store_pos_as: Optional[str] = None,
                  method: str = "schnyder") -> Dict[Hashable, Any]:
    """Returns a position for each vertex in a drawing without crossings, as networkx's function.

    `G` is a graph or a `PlanarEmbedding`; positions are scaled to a square of `scale` about `center`. `method` is "schnyder",
    "shift", "convex", or "round" and "tutte" of `draw_named`. Raises NetworkXException where the graph is not planar, and
    ValueError where `dim` is not 2 or the method does not draw the graph.
    """
    networkx = importlib.import_module("networkx")
    if dim != 2:
        raise ValueError("can only handle 2 dimensions")
    middle = (0.0, 0.0) if center is None else tuple(center)
    if len(middle) != dim:
        raise ValueError("length of center coordinates must match dimension of layout")
    names, places = _placed(networkx, G, method)
    found = _rescaled(places, scale, middle)
    positions: Dict[Hashable, Any] = dict(zip(names, found))
    if store_pos_as is not None:
        networkx.set_node_attributes(G, positions, store_pos_as)
    return positions


def _placed(networkx: Any, graph: Any, method: str) -> Tuple[List[Hashable], List[Tuple[int, int]]]:
    """The vertices of a graph and their places in a drawing by a method."""
    graph = networkx.empty_graph(graph) if not hasattr(graph, "nodes") else graph
    if not hasattr(graph, "neighbors_cw_order"):
        planar, graph = check_planarity(graph)
        if not planar:
            raise networkx.NetworkXException("G is not planar.")
    named = Named.of_networkx(_unlabelled(graph))
    if len(named.names) < 3:
        return named.names, [(0, 0), (1, 0)][:len(named.names)]
    if method in ("round", "tutte"):
        from .drawn import draw_named
        figure: Any = draw_named([named], method)[0].figure
    else:
        figure = draw([named.lists or []], method)[0]
    if not hasattr(figure, "places"):
        raise ValueError(f"{method} does not draw this graph: {figure}")
    return named.names, figure.places


def _unlabelled(graph: Any) -> Any:
    """An embedding whose vertices have no data, so that their names are what they are called by."""
    return to_networkx(*_lists_and_names(graph)) if any(graph.nodes[node] for node in graph) else graph


def _lists_and_names(graph: Any) -> Tuple[Lists, List[Hashable]]:
    names = list(graph)
    number = {name: v for v, name in enumerate(names, 1)}
    return [[number[u] for u in graph.neighbors_cw_order(name)] for name in names], names


def _simple(networkx: Any, graph: Any) -> Any:
    """The graph with its vertices and edges alone."""
    found = networkx.Graph()
    found.add_nodes_from(graph.nodes)
    found.add_edges_from((edge[0], edge[1]) for edge in graph.edges if edge[0] != edge[1])
    return found


def _map(named: Named) -> Any:
    """The lists of a map of a graph, or the witness that it has none."""
    if len(named.names) < 3:
        return [[2], [1]] if named.edges else [[] for _ in named.names]
    figure = embed([(len(named.names), named.edges)])[0]
    return figure if isinstance(figure, WitnessFigure) else getattr(figure, "lists")


def _own(call: Any) -> Any:
    """The function of networkx itself, where the one that is named asks backends first."""
    return getattr(call, "orig_func", call)


def _rescaled(places: List[Tuple[int, int]], scale: float, middle: Tuple[float, ...]) -> List[Any]:
    """The places with their mean at the middle, the farthest coordinate from it at the scale: as arrays where numpy is there."""
    if not places:
        return []
    mean = [sum(place[k] for place in places) / len(places) for k in (0, 1)]
    most = max(abs(place[k] - mean[k]) for place in places for k in (0, 1)) or 1.0
    found: List[Any] = [[(place[k] - mean[k]) * scale / most + middle[k] for k in (0, 1)] for place in places]
    try:
        numpy = importlib.import_module("numpy")
    except ImportError:
        return [tuple(place) for place in found]
    return list(numpy.array(found, dtype=float))


# what networkx asks of a backend

def _forget_conversion(graph: Any) -> None:
    """Takes a graph out of networkx's memory of what backends made of graphs: here that is the graph itself.

    Else networkx warns at the next call that the graph may have changed since.
    """
    getattr(graph, "__networkx_cache__", {}).get("backends", {}).pop("pigale", None)


def convert_from_nx(graph: Any, *_: Any, **__: Any) -> Any:
    """Returns the graph as it is: the calls here take graphs of networkx."""
    return graph


def convert_to_nx(result: Any, *_: Any, **__: Any) -> Any:
    """Returns the result as it is: the calls here answer as networkx does."""
    return result


def get_info() -> Dict[str, Any]:
    """Returns what networkx shows of a backend."""
    calls = {call.__name__: {"additional_docs": inspect.getdoc(call)} for call in (check_planarity, is_planar)}
    return {"backend_name": "pigale", "project": "pigale", "package": "pigale", "functions": calls,
            "short_summary": "Planarity, by a program whose every answer is proved."}
