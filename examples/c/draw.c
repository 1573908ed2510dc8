/* Draws the cube, given by its edges, and writes an SVG picture. Compile and run:
 *
 *   cc draw.c $(pkg-config --cflags --libs pigale) -o draw && ./draw > cube.svg */
#include <pigale.h>
#include <stdio.h>
#include <stdlib.h>

/* The cube: each edge by its lesser end and then its greater, in order. */
static const pigale_edge edges[] = {{0, 1}, {0, 3}, {0, 4}, {1, 2}, {1, 5}, {2, 3}, {2, 6}, {3, 7}, {4, 5}, {4, 7}, {5, 6}, {6, 7}};
enum { N = 8, M = sizeof edges / sizeof *edges, ENDS = N < 10 ? 10 : N };

int main(void)
{
    size_t ends[ENDS];
    uint16_t neighbours[2 * M];
    int32_t x[N], y[N];
    pigale_numbers found;
    pigale_status status = pigale_embed(N, edges, M, ends, ENDS, neighbours, 2 * M, x, N, y, N, &found);
    if (status != PIGALE_OK) {
        fprintf(stderr, status == PIGALE_K5 || status == PIGALE_K33 ? "not planar\n" : "not drawn: status %d\n", status);
        return EXIT_FAILURE;
    }
    const int32_t reach = N - 2; /* the grid is n - 2 by n - 2 */
    printf("<svg xmlns=\"http://www.w3.org/2000/svg\" viewBox=\"-1 -1 %d %d\">\n", reach + 2, reach + 2);
    printf("<rect x=\"-1\" y=\"-1\" width=\"%d\" height=\"%d\" fill=\"white\"/>\n", reach + 2, reach + 2);
    for (size_t i = 0; i < M; i++)
        printf("<path d=\"M%d %dL%d %d\" stroke=\"black\" stroke-width=\".05\"/>\n", x[edges[i].a], reach - y[edges[i].a],
            x[edges[i].b], reach - y[edges[i].b]);
    for (size_t v = 0; v < N; v++) printf("<circle cx=\"%d\" cy=\"%d\" r=\".15\"/>\n", x[v], reach - y[v]);
    puts("</svg>");
    /* The same drawing, judged with the map that was found: it is valid in its grid. */
    return pigale_check(ends, N, neighbours, 2 * M, x, N, y, N, reach, reach, &found) == PIGALE_OK ? EXIT_SUCCESS : EXIT_FAILURE;
}
