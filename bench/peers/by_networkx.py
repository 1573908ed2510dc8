#!/usr/bin/env python3
"""networkx's planarity test and drawing, over lines of graph6: `by_networkx.py test` or `by_networkx.py draw`.

For each graph a line: `p` and the neighbours of each vertex clockwise, closed by 0 (test), or `p` and x and y of each
vertex (draw), or `k` and the ends of the edges of a Kuratowski subgraph. Vertices are numbered from 1.
"""
import sys

import networkx

for line in sys.stdin.buffer:
    graph = networkx.from_graph6_bytes(line.strip())
    planar, answer = networkx.check_planarity(graph, counterexample=True)
    if not planar:
        words = ["k"] + [v + 1 for edge in answer.edges for v in edge]
    elif sys.argv[1] == "draw":
        places = networkx.combinatorial_embedding_to_pos(answer)
        words = ["p"] + [x for v in range(len(graph)) for x in places[v]]
    else:
        words = ["p"] + [w for v in range(len(graph)) for w in [*(u + 1 for u in answer.neighbors_cw_order(v)), 0]]
    print(*words)
