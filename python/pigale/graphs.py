"""Maps and graphs of networkx, igraph and Sage, which are imported where a function is called that speaks of them."""
import importlib
from typing import Any, Hashable, List, Optional, Sequence, Tuple

from .formats import AnyMap, Edge, Lists, Place
from .maps import edges_of


def from_networkx(embedding: Any) -> Tuple[Lists, List[Hashable]]:
    """The map of a `networkx.PlanarEmbedding`, and the names of its vertices: (lists, names), `names[v - 1]` for v.

    Raises ValueError where it is a graph without rotations.
    """
    if not hasattr(embedding, "neighbors_cw_order"):
        raise ValueError(f"a {type(embedding).__name__} has no rotations: networkx.check_planarity(graph)[1] is a "
                         "PlanarEmbedding, and embed draws graph_of_networkx(graph)[0]")
    names = list(embedding)
    number = {name: v for v, name in enumerate(names, 1)}
    return [[number[u] for u in embedding.neighbors_cw_order(name)] for name in names], names


def to_networkx(lists: AnyMap, names: Optional[Sequence[Hashable]] = None) -> Any:
    """A map as a `networkx.PlanarEmbedding`; vertices have the numbers from 1, or `names[v - 1]` for v."""
    known: Sequence[Hashable] = names or range(1, len(lists) + 1)
    embedding = importlib.import_module("networkx").PlanarEmbedding()
    embedding.add_nodes_from(known)
    embedding.set_data({name: [known[u - 1] for u in us] for name, us in zip(known, lists)})
    return embedding


def graph_of_networkx(graph: Any) -> Tuple[Tuple[int, List[Edge]], List[Hashable]]:
    """An undirected networkx graph as (n, edges), and the names of its vertices: ((n, edges), names).

    Edges between the same two vertices of a multigraph become one.
    """
    names = list(graph)
    number = {name: v for v, name in enumerate(names, 1)}
    return (len(names), list(dict.fromkeys((number[u], number[v]) for u, v in graph.edges()))), names


def from_igraph(graph: Any) -> Tuple[Tuple[int, List[Edge]], List[Hashable]]:
    """A graph of igraph as (n, edges), and the names of its vertices: ((n, edges), names).

    The names are the vertices' attribute `name`, or where there is none their numbers from 0. Directions do not matter;
    edges between the same two vertices become one.
    """
    names: List[Hashable] = list(graph.vs["name"]) if "name" in graph.vs.attributes() else list(range(graph.vcount()))
    pairs = dict.fromkeys((min(u, v) + 1, max(u, v) + 1) for u, v in graph.get_edgelist())
    return (graph.vcount(), list(pairs)), names


def to_sage(lists: AnyMap, places: Optional[Sequence[Place]] = None) -> Any:
    """A map as a Sage `Graph` with its embedding, and with positions where `places` has one for each vertex."""
    graph = importlib.import_module("sage.all").Graph([range(1, len(lists) + 1), edges_of(lists)], format="vertices_and_edges")
    graph.set_embedding({v: list(us) for v, us in enumerate(lists, 1)})
    if places:
        graph.set_pos(dict(enumerate(places, 1)))
    return graph


def graph_of(graph: Any) -> Any:
    """A graph of networkx or igraph as (n, edges), and all else as it is."""
    if hasattr(graph, "nodes") and hasattr(graph, "edges"):
        return graph_of_networkx(graph)[0]
    return from_igraph(graph)[0] if hasattr(graph, "vcount") else graph
