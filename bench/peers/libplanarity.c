/* The planarity test of the Edge Addition Planarity Suite, over lines of graph6.

   For each graph a line: `p` and the neighbours of each vertex in order round it, closed by 0, or `k` and the ends of
   the edges of a Kuratowski subgraph. Vertices are numbered from 1. */
#include "graph6.h"
#include <planarity/graph.h>

static int ends[1 << 17], count;

static void add(int u, int v, void *given) {
    (void)given;
    ends[count++] = u;
    ends[count++] = v;
}

int main(void) {
    for (int n; count = 0, (n = next_graph(add, 0)) >= 0;) {
        graphP g = gp_New();
        if (gp_InitGraph(g, n) != OK || gp_EnsureArcCapacity(g, count) != OK) return 1;
        const int first = gp_GetFirstVertex(g);
        for (int i = 0; i < count; i += 2)
            if (gp_AddEdge(g, ends[i] + first, 0, ends[i + 1] + first, 0) != OK) return 1;
        const int planar = gp_Embed(g, EMBEDFLAGS_PLANAR) == OK;
        gp_SortVertices(g);
        putchar(planar ? 'p' : 'k');
        for (int v = first; v < n + first; v++) {
            for (int e = gp_GetFirstArc(g, v); gp_IsArc(e); e = gp_GetNextArc(g, e)) {
                const int u = gp_GetNeighbor(g, e);
                if (planar) printf(" %d", u - first + 1);
                else if (v < u) printf(" %d %d", v - first + 1, u - first + 1);
            }
            if (planar) printf(" 0");
        }
        putchar('\n');
        gp_Free(&g);
    }
    return 0;
}
