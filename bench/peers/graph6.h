/* Reads lines of graph6 from standard input. */
#include <stdio.h>
#include <stdlib.h>

static char line[1 << 20];

/* The next graph: its number of vertices, or -1 at the end; `edge` is called for each edge, with ends from 0. */
static int next_graph(void (*edge)(int, int, void *), void *given) {
    if (!fgets(line, sizeof line, stdin)) return -1;
    const unsigned char *at = (const unsigned char *)line;
    int n = *at++ - 63;
    if (n == 63) {
        n = (at[0] - 63) << 12 | (at[1] - 63) << 6 | (at[2] - 63);
        at += 3;
    }
    int bit = 0;
    for (int v = 1; v < n; v++)
        for (int u = 0; u < v; u++, bit++)
            if ((at[bit / 6] - 63) >> (5 - bit % 6) & 1) edge(u, v, given);
    return n;
}
