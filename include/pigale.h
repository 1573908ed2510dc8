/* Pigale: plane maps counted, drawn and judged, by code that is proved to do what each comment says.
 *
 * A map is given by two arrays. `ends` has an entry for each of `vertex_count` vertices, from 1 to 4095 of them, numbered
 * from 0; `neighbours` has the neighbours of each vertex in clockwise order, vertex after vertex. The list of vertex v
 * ends before entry ends[v] of `neighbours` and begins where the list of vertex v - 1 ends. The last entry of `ends` is
 * `neighbour_count`. Each edge stands in the lists of both its ends, so that is twice the number of edges. Below, n, m and f
 * are the numbers of vertices, edges and faces.
 *
 * Every call returns a status. A status of 0 says that the call did what it is for, or that a drawing is valid. Any other
 * says why not, and `found` then has the numbers that belong to it: vertices from 0, a count or a genus; those that a
 * status does not have are 0. The statuses below name them. Outputs are written only where the status says so.
 *
 * Arrays that are not as a call takes them (a length that does not fit, an end that falls, too many vertices, a coordinate
 * out of range) are answered by PIGALE_BAD_ARGUMENT, and nothing outside them is read or written. What the caller must
 * ensure: each pointer is to as many elements as the number behind it says, and is aligned; one to no elements may be null;
 * an array that is written overlaps no other. Calls take memory from malloc and return all of it; they keep
 * nothing between them, so threads may call at one time. They want up to 64 KB of the stack, and pigale_run 96 KB. For maps
 * of more than 255 vertices pigale_run, pigale_check_bars and the checks of straight edges want up to 256 KB. */
#ifndef PIGALE_H
#define PIGALE_H

#include <stddef.h>
#include <stdint.h>
#include <stdio.h>

/* The version of this header and of the library. While its first number stays, so do all that is declared here and what it
 * means; the second rises where something is added. A call for more than 4095 vertices would have another name. */
#define PIGALE_VERSION "1.1.0"

#ifdef __cplusplus
extern "C" {
#endif

/* The version of the library that was found, as one number: 10000 times the first number, 100 times the second, and the third.
 * Call it through dlsym where the library may be older than this header: 1.0.0 does not have it. */
uint32_t pigale_version(void);

typedef uint8_t pigale_status;

enum {
    PIGALE_OK = 0,

    /* Conditions of a record, by the numbers of the program's refusals. */
    PIGALE_OUT_OF_RANGE = 1,        /* the list of `first` holds the number `second`, which is no vertex */
    PIGALE_LOOP = 2,                /* the list of `first` holds `first` */
    PIGALE_REPEATED = 3,            /* the list of `first` holds `second` twice */
    PIGALE_ONE_SIDED = 4,           /* the list of `first` holds `second`, whose list does not hold `first` */
    PIGALE_SMALL = 5,               /* there are only `first` vertices */
    PIGALE_GENUS = 6,               /* the map has the genus `first` */
    PIGALE_NOT_CONNECTED = 7,       /* the map has two components or more */
    PIGALE_CUT_VERTEX = 8,          /* `first` is the least cut vertex */
    PIGALE_SEPARATING_PAIR = 9,     /* `first` and `second` are the least separating pair */
    PIGALE_OUTER_NOT_QUAD = 10,     /* the face of vertex 0's first dart is no quadrangle */
    PIGALE_NOT_TRIANGLE = 11,       /* the face of the dart from `first` to `second`, another, is no triangle */
    PIGALE_SEPARATING_TRIANGLE = 12,/* `first`, `second` and `third` are adjacent in pairs, and bound no face */
    PIGALE_NO_INNER = 13,           /* each vertex lies on the outer face */

    PIGALE_NO_MEMORY = 16,          /* there was not enough memory */
    PIGALE_BAD_ARGUMENT = 17,       /* the arrays are not what the call takes, or too short for the answer */

    /* Faults of edges in an array, by their numbers in it, from 0. */
    PIGALE_EDGE_OUT_OF_RANGE = 20,  /* edge number `first` has an end that is no vertex */
    PIGALE_EDGE_LOOP = 21,          /* edge number `first` joins a vertex to itself */
    PIGALE_EDGE_REPEATED = 22,      /* edges number `first` and `second` join the same vertices */

    /* Faults of a straight-line drawing. */
    PIGALE_OUT_OF_GRID = 32,        /* `first` lies outside the grid */
    PIGALE_SAME_PLACE = 33,         /* `first` and `second` stand at one point */
    PIGALE_ON_EDGE = 34,            /* `first` lies on the edge from `second` to `third` */
    PIGALE_CROSS = 35,              /* the edges from `first` to `second` and from `third` to `fourth` cross */
    PIGALE_TURNED = 36,             /* the edges of `first` do not go clockwise round it as its list does */
    PIGALE_INSIDE = 37,             /* the face left of the dart from `first` to `second`, another than the one that is to be
                                     * outside, is not walked round an area above zero */

    /* Faults of a drawing with convex faces. */
    PIGALE_BENT = 40,               /* a face bends inwards at `second`, between `first` and `third` */
    PIGALE_OUTER_BENT = 41,         /* the outer face is no triangle, or vertex 0 has no neighbour (before any bend) */

    /* Faults of bars. */
    PIGALE_BAD_SHAPE = 48,          /* there are not as many columns as edges */
    PIGALE_BAD_HEIGHT = 49,         /* the height of `first` is not from 0 to n - 1, or a lesser vertex has it */
    PIGALE_BAD_BAR = 50,            /* the bar of `first` does not go from left to right within the width */
    PIGALE_BAD_COLUMN = 51,         /* the column of the edge from `first` to `second` is not within both bars */
    PIGALE_THROUGH = 52,            /* the edge from `first` to `second` goes through the bar of `third` */
    PIGALE_OVERLAP = 53,            /* (never: such edges go through a bar) */
    PIGALE_BARS_TURNED = 54,        /* the edges of `first` are not in the order of its list */

    /* Faults of rectangles. */
    PIGALE_BAD_RECT = 64,           /* the rectangle of `first` is empty or not within n - 2 by n - 2 */
    PIGALE_MEET = 65,               /* the rectangles of `first` and `second` overlap */
    PIGALE_GAP = 66,                /* the rectangles do not fill the one from (0, 0) to their greatest sides */
    PIGALE_CONTACT = 67,            /* `first` and `second` share a side, and no edge joins them, or the other way round */
    PIGALE_NO_FRAME = 68,           /* the outer face is no quadrangle */
    PIGALE_FRAME = 69,              /* the rectangle of `first`, of the outer face, is not at its end */

    /* Graphs without a plane map. */
    PIGALE_K5 = 80,                 /* the graph has a subdivision of K5 */
    PIGALE_K33 = 81                 /* the graph has a subdivision of K3,3 */
};

/* The numbers beside a status. */
typedef struct {
    uint32_t first, second, third, fourth;
} pigale_numbers;

/* The numbers of vertices, edges, faces and components of a map, and its genus. */
typedef struct {
    uint32_t n, m, f, c, genus;
} pigale_counts;

/* An edge of a graph, by its two ends, in either order; vertices are numbered from 0. */
typedef struct {
    uint16_t a, b;
} pigale_edge;

/* Counts a simple map of any genus. Else the status is from 1 to 4. */
pigale_status pigale_count(const size_t *ends, size_t vertex_count, const uint16_t *neighbours, size_t neighbour_count,
                           pigale_counts *counts, pigale_numbers *found);

/* Draws a plane map of at least three vertices with straight edges, by the shift method of de Fraysseix, Pach and
 * Pollack, in the grid from (0, 0) to (2n - 4, n - 2): x and y have n entries each. No two edges meet but at a common end,
 * each list is clockwise round its vertex, and of a connected map the face left of vertex 0's first dart is the outer one.
 * Else the status is from 1 to 6. */
pigale_status pigale_shift(const size_t *ends, size_t vertex_count, const uint16_t *neighbours, size_t neighbour_count,
                           int32_t *x, size_t x_count, int32_t *y, size_t y_count, pigale_numbers *found);

/* Draws such a map by Schnyder's method, in the grid from (0, 0) to (n - 2, n - 2). */
pigale_status pigale_schnyder(const size_t *ends, size_t vertex_count, const uint16_t *neighbours, size_t neighbour_count,
                              int32_t *x, size_t x_count, int32_t *y, size_t y_count, pigale_numbers *found);

/* Draws a three-connected plane map so that no inner face bends inwards and the outer one is a triangle with flat angles,
 * by Felsner's method, in the grid from (0, 0) to (f - 1, f - 1) for f faces. Else the status is from 1 to 9. */
pigale_status pigale_convex(const size_t *ends, size_t vertex_count, const uint16_t *neighbours, size_t neighbour_count,
                            int32_t *x, size_t x_count, int32_t *y, size_t y_count, pigale_numbers *found);

/* Draws a connected plane map without cut vertex by bars, after Tamassia and Tollis: vertex v is the level bar at height
 * y[v] from x1[v] to x2[v], and edge number i, by its lesser end and then by its greater, is upright at column[i]. A column
 * meets the bars of its ends alone. The heights are from 0 to n - 1 and the columns from 0 to f - 1. y, x1 and x2 have n
 * entries each, and column has m. Else the status is from 1 to 8. */
pigale_status pigale_bars(const size_t *ends, size_t vertex_count, const uint16_t *neighbours, size_t neighbour_count,
                          int32_t *y, size_t y_count, int32_t *x1, size_t x1_count, int32_t *x2, size_t x2_count,
                          int32_t *column, size_t column_count, pigale_numbers *found);

/* Draws a map with a quadrangle outside, triangles inside and no separating triangle as rectangles, after Kant and He: they
 * fill a rectangle within (n - 2) by (n - 2), and two share a side just where their vertices are adjacent. Vertex v has the
 * rectangle from (x1[v], y1[v]) to (x2[v], y2[v]). Else the status is from 1 to 13. */
pigale_status pigale_rect(const size_t *ends, size_t vertex_count, const uint16_t *neighbours, size_t neighbour_count,
                          int32_t *x1, size_t x1_count, int32_t *x2, size_t x2_count,
                          int32_t *y1, size_t y1_count, int32_t *y2, size_t y2_count, pigale_numbers *found);

/* Finds a plane map of a graph and draws it by Schnyder's method in the grid from (0, 0) to (n - 2, n - 2), or finds a
 * Kuratowski witness that it has none. The graph has `vertex_count` vertices, n of them, from 3 to 255, and `edge_count`
 * edges, m of them, in any order and either way round. x and y have n entries each.
 *
 * PIGALE_OK: `ends` and `neighbours` have a map of genus zero with exactly these edges, as above, and x and y its drawing.
 * PIGALE_K5 or PIGALE_K33: they have the paths of a subdivision in the graph, in place of lists. Path i ends before entry
 * ends[i] of `neighbours`, and stands there with both its ends. The ten paths of K5 join the branches 0-1, 0-2, 0-3, 0-4,
 * 1-2, 1-3, 1-4, 2-3, 2-4 and 3-4; the nine of K3,3 join 0-3, 0-4, 0-5, 1-3, 1-4, 1-5, 2-3, 2-4 and 2-5. Each path goes
 * along edges from the one branch to the other, and two share no vertex within. x and y are left as they were.
 *
 * What lies behind the map or the paths in `ends` and `neighbours` stays. Room for n entries, and at least ten, and for 2m is
 * enough; where there is too little for the answer, it is PIGALE_BAD_ARGUMENT, and nothing is written. Else the status is
 * PIGALE_SMALL, or from 20 to 22. */
pigale_status pigale_embed(uint16_t vertex_count, const pigale_edge *edges, size_t edge_count, size_t *ends,
                           size_t end_count, uint16_t *neighbours, size_t neighbour_count, int32_t *x, size_t x_count,
                           int32_t *y, size_t y_count, pigale_numbers *found);

/* Finds a plane map of a graph as pigale_embed does, or a witness, and draws nothing. */
pigale_status pigale_map_of_graph(uint16_t vertex_count, const pigale_edge *edges, size_t edge_count, size_t *ends,
                                  size_t end_count, uint16_t *neighbours, size_t neighbour_count, pigale_numbers *found);

/* Tells whether such a graph is planar: PIGALE_OK if it is, else PIGALE_K5 or PIGALE_K33, or a status as above. */
pigale_status pigale_is_planar(uint16_t vertex_count, const pigale_edge *edges, size_t edge_count, pigale_numbers *found);

/* Completes a map, as pigale_schnyder takes it, to a triangulation by edges, and orders its vertices canonically, after de
 * Fraysseix, Pach and Pollack: order[i] is the vertex that comes as number i, and vertex 0 comes second. `full_ends` and `full`
 * get the arrays of the triangulation: n and 6n - 12 entries, of which those that are no edges of the map were added. `order`
 * has n entries. Else the status is from 1 to 6; where `full_ends` or `full` is too short it is PIGALE_BAD_ARGUMENT. */
pigale_status pigale_canonical_order(const size_t *ends, size_t vertex_count, const uint16_t *neighbours,
                                     size_t neighbour_count, uint16_t *order, size_t order_count, size_t *full_ends,
                                     size_t full_end_count, uint16_t *full, size_t full_count, pigale_numbers *found);

/* Finds a Schnyder wood of the triangulation to which pigale_canonical_order completes a map: for each vertex its parent in
 * each of three colours, along edges of the triangulation. A root, of which there is one a colour, and which are the first,
 * the second and the last vertex of the order, is its own parent in all three. Each array has n entries. Round each other
 * vertex come counterclockwise its parent one, those of which it is parent three, its parent two, those of which it is one,
 * its parent three, and those of which it is two. Else the status is from 1 to 6. */
pigale_status pigale_schnyder_wood(const size_t *ends, size_t vertex_count, const uint16_t *neighbours,
                                   size_t neighbour_count, uint16_t *one, size_t one_count, uint16_t *two, size_t two_count,
                                   uint16_t *three, size_t three_count, pigale_numbers *found);

/* Numbers the vertices of a map, as pigale_bars takes it, from 0 to n - 1 in an st-order: rank[0] is 0, the first neighbour of
 * vertex 0 has n - 1, and each other vertex has a neighbour with a lesser and one with a greater number. Else the status is
 * from 1 to 8. */
pigale_status pigale_st_order(const size_t *ends, size_t vertex_count, const uint16_t *neighbours, size_t neighbour_count,
                              uint16_t *rank, size_t rank_count, pigale_numbers *found);

/* Walks along the faces of a simple map of any genus: face number i is walk[face_ends[i - 1]] up to walk[face_ends[i]], the
 * vertices from which its darts go, each dart before its step: what follows the one end in the list of the other. A walk begins
 * with its first dart in the order of the lists, and the faces stand in the order of these. `walk` gets as many entries as
 * `neighbours` has, `face_ends` one for each face (pigale_count tells how many), and *face_count their number. Else the status is
 * from 1 to 4, or PIGALE_BAD_ARGUMENT where an array is too short. */
pigale_status pigale_faces(const size_t *ends, size_t vertex_count, const uint16_t *neighbours, size_t neighbour_count,
                           size_t *face_ends, size_t face_end_count, uint16_t *walk, size_t walk_count, size_t *face_count,
                           pigale_numbers *found);

/* Labels the edges of a map, as pigale_rect takes it, as vertical or horizontal, with a direction: labels[i] says of the entry
 * i of `neighbours` how its edge stands at the vertex whose list has it. Clockwise round each vertex off the outer face come
 * edges up that leave it, edges to the right that leave it, edges up that enter it, and edges to the right that enter it, at
 * least one of each. Along the outer face stand the left vertex, which is vertex 0, the top, the right one and the bottom: all
 * edges within leave the left one to the right, enter the top upwards, enter the right one, and leave the bottom. `labels` has
 * an entry for each of `neighbours`. Else the status is from 1 to 13. */
enum {
    PIGALE_LABEL_OUTER = 0,         /* an edge of the outer face */
    PIGALE_LABEL_UP_OUT = 1,        /* leaves upwards */
    PIGALE_LABEL_UP_IN = 2,         /* enters from below */
    PIGALE_LABEL_RIGHT_OUT = 3,     /* leaves to the right */
    PIGALE_LABEL_RIGHT_IN = 4       /* enters from the left */
};

pigale_status pigale_edge_labelling(const size_t *ends, size_t vertex_count, const uint16_t *neighbours,
                                    size_t neighbour_count, uint8_t *labels, size_t label_count, pigale_numbers *found);

/* Many maps in one call, each answered as the call for one answers it, with memory that is kept from one to the next.
 *
 * The maps stand one behind another. Map i has the lists from number map_ends[i - 1] (0 for the first) up to map_ends[i];
 * `ends` and `neighbours` are as for one map that has the lists of all, with `ends` that go on from map to map, but each
 * map's vertices are numbered from 0. So an array with an entry for each vertex has one for each list. statuses[i] is what the
 * call for map i alone returns, and found[i] what it writes to `found`: a map that is refused, or has too many vertices, leaves
 * its part of the arrays as it was, and the others are answered.
 *
 * PIGALE_OK: each map has its status. PIGALE_BAD_ARGUMENT: `map_ends` do not cut up all lists, `ends` not all neighbours, or
 * an array has another length, and nothing is written. PIGALE_NO_MEMORY: some of the first maps are answered, and what belongs
 * to the others is as it was. */
pigale_status pigale_count_many(const size_t *map_ends, size_t map_count, const size_t *ends, size_t list_count,
                                const uint16_t *neighbours, size_t neighbour_count, pigale_counts *counts,
                                size_t counts_count, pigale_status *statuses, size_t status_count, pigale_numbers *found,
                                size_t found_count);

pigale_status pigale_shift_many(const size_t *map_ends, size_t map_count, const size_t *ends, size_t list_count,
                                const uint16_t *neighbours, size_t neighbour_count, int32_t *x, size_t x_count, int32_t *y,
                                size_t y_count, pigale_status *statuses, size_t status_count, pigale_numbers *found,
                                size_t found_count);

pigale_status pigale_schnyder_many(const size_t *map_ends, size_t map_count, const size_t *ends, size_t list_count,
                                   const uint16_t *neighbours, size_t neighbour_count, int32_t *x, size_t x_count,
                                   int32_t *y, size_t y_count, pigale_status *statuses, size_t status_count,
                                   pigale_numbers *found, size_t found_count);

pigale_status pigale_convex_many(const size_t *map_ends, size_t map_count, const size_t *ends, size_t list_count,
                                 const uint16_t *neighbours, size_t neighbour_count, int32_t *x, size_t x_count, int32_t *y,
                                 size_t y_count, pigale_status *statuses, size_t status_count, pigale_numbers *found,
                                 size_t found_count);

/* `column` has half as many entries as `neighbours`. The columns of a map begin at half of where its neighbours begin, rounded
 * down, so where all maps are simple they stand one behind another. */
pigale_status pigale_bars_many(const size_t *map_ends, size_t map_count, const size_t *ends, size_t list_count,
                               const uint16_t *neighbours, size_t neighbour_count, int32_t *y, size_t y_count, int32_t *x1,
                               size_t x1_count, int32_t *x2, size_t x2_count, int32_t *column, size_t column_count,
                               pigale_status *statuses, size_t status_count, pigale_numbers *found, size_t found_count);

pigale_status pigale_rect_many(const size_t *map_ends, size_t map_count, const size_t *ends, size_t list_count,
                               const uint16_t *neighbours, size_t neighbour_count, int32_t *x1, size_t x1_count, int32_t *x2,
                               size_t x2_count, int32_t *y1, size_t y1_count, int32_t *y2, size_t y2_count,
                               pigale_status *statuses, size_t status_count, pigale_numbers *found, size_t found_count);

/* Judges the drawing of map i in the grid from (0, 0) to (width[i], height[i]), as pigale_check does. */
pigale_status pigale_check_many(const size_t *map_ends, size_t map_count, const size_t *ends, size_t list_count,
                                const uint16_t *neighbours, size_t neighbour_count, const int32_t *x, size_t x_count,
                                const int32_t *y, size_t y_count, const int32_t *width, size_t width_count,
                                const int32_t *height, size_t height_count, pigale_status *statuses, size_t status_count,
                                pigale_numbers *found, size_t found_count);

/* Many graphs in one call, each answered as pigale_embed answers it. Graph i has the vertices from number vertex_ends[i - 1] up
 * to vertex_ends[i], which its edges number from 0, and the edges from number edge_ends[i - 1] up to edge_ends[i].
 *
 * x and y have an entry for each vertex. `ends` has one too, and ten more for each graph: those of graph i begin at the number
 * of its first vertex and 10 * i, and are as pigale_embed writes them, from where its own neighbours begin. `neighbours` has two
 * entries for each edge, and those of a graph begin at twice the number of its first edge. So there is room for each answer.
 * The statuses are as for many maps. */
pigale_status pigale_embed_many(const size_t *vertex_ends, size_t graph_count, const size_t *edge_ends, size_t edge_end_count,
                                const pigale_edge *edges, size_t edge_count, size_t *ends, size_t end_count,
                                uint16_t *neighbours, size_t neighbour_count, int32_t *x, size_t x_count, int32_t *y,
                                size_t y_count, pigale_status *statuses, size_t status_count, pigale_numbers *found,
                                size_t found_count);

/* Judges a straight-line drawing of edges, in any order and either way round, with vertex v at (x[v], y[v]), from 1 to 4095
 * of them: PIGALE_OK exactly where no two vertices stand at one point, none lies on an edge of which it is no end, and no two
 * edges without a common end cross; else the first such fault, PIGALE_SAME_PLACE, PIGALE_ON_EDGE or PIGALE_CROSS, with the
 * least vertices. Coordinates are from -1048576 to 1048576. Edges that are not those of a simple graph have a status from 20
 * to 22. */
pigale_status pigale_check_drawing(const pigale_edge *edges, size_t edge_count, const int32_t *x, size_t x_count,
                                   const int32_t *y, size_t y_count, pigale_numbers *found);

/* Judges a straight-line drawing in the grid from (0, 0) to (width, height): PIGALE_OK exactly where it is plane, keeps
 * the rotations and stays in the grid; else its first fault, by the least number from 32 to 36, and of that fault the one
 * with the least vertices. Coordinates are from -1048576 to 1048576. Lists that are no simple map have a status from 1 to
 * 4. Which face is outside is not asked: a drawing with another outer face than that of vertex 0's first dart, of which
 * the program says `Inside`, is PIGALE_OK here. */
pigale_status pigale_check(const size_t *ends, size_t vertex_count, const uint16_t *neighbours, size_t neighbour_count,
                           const int32_t *x, size_t x_count, const int32_t *y, size_t y_count,
                           int32_t width, int32_t height, pigale_numbers *found);

/* Like pigale_check; and where the drawing has no such fault, PIGALE_OK exactly where no face bends inwards but that of
 * vertex 0's first dart, which is a triangle with flat angles. Else the status is 40 or 41. */
pigale_status pigale_check_convex(const size_t *ends, size_t vertex_count, const uint16_t *neighbours,
                                  size_t neighbour_count, const int32_t *x, size_t x_count, const int32_t *y,
                                  size_t y_count, int32_t width, int32_t height, pigale_numbers *found);

/* Judges whether a straight-line drawing of a connected map has the face left of vertex 0's first dart outside: PIGALE_OK
 * exactly where each other face is walked round an area above zero, else PIGALE_INSIDE with the least dart of one that is
 * not. Of a map that is not connected, or in which vertex 0 has no neighbour, nothing is asked, and it is PIGALE_OK. */
pigale_status pigale_check_outer(const size_t *ends, size_t vertex_count, const uint16_t *neighbours,
                                 size_t neighbour_count, const int32_t *x, size_t x_count, const int32_t *y,
                                 size_t y_count, pigale_numbers *found);

/* Judges bars, in the arrays that pigale_bars writes, within the width from 0 to `width`, of any simple map. */
pigale_status pigale_check_bars(const size_t *ends, size_t vertex_count, const uint16_t *neighbours, size_t neighbour_count,
                                const int32_t *y, size_t y_count, const int32_t *x1, size_t x1_count,
                                const int32_t *x2, size_t x2_count, const int32_t *column, size_t column_count,
                                int32_t width, pigale_numbers *found);

/* Judges rectangles, in the arrays that pigale_rect writes, of any simple map. */
pigale_status pigale_check_rects(const size_t *ends, size_t vertex_count, const uint16_t *neighbours,
                                 size_t neighbour_count, const int32_t *x1, size_t x1_count, const int32_t *x2,
                                 size_t x2_count, const int32_t *y1, size_t y1_count, const int32_t *y2, size_t y2_count,
                                 pigale_numbers *found);

/* Runs the program over memory: `words` are its words, with one space between each two, as "schnyder --form svg"; `input`
 * is what it would read. `text` gets the first bytes of what it would write, as many as `capacity` has room for, and
 * *text_length the length of the whole. The status is the program's own: 0 done, 1 some record was refused, 2 bad words,
 * 3 bad input, 5 or 6 not enough memory. */
pigale_status pigale_run(const uint8_t *words, size_t words_length, const uint8_t *input, size_t input_length,
                         uint8_t *text, size_t capacity, size_t *text_length);

/* How many records of a part were answered, and how many of them were refused. */
typedef struct {
    uint32_t records, refused;
} pigale_sums;

/* Runs the program over a part of an input that is cut at the ends of records: so inputs of any size have the text of one
 * run, in parts, and parts may be run side by side. Before the part stand `records` records, `refused` of them refused, and
 * `place` bytes of planar_code, lines of figures or graphs of graph6: the blocks are numbered on, the last line has the sums
 * of all parts so far, and a bad ending is named by its place in the whole. Where `goes_on` is not 0 more parts come, and a
 * part that ends well has no last line. Of each part up to 16777216 bytes are read. A header is read at the front of each,
 * so one stands there where a part might begin like one. `words` are as for pigale_run, and name a job that reads;
 * `sums` gets the numbers of this part alone. Numbers end at 4294967295. The status is that of pigale_run. */
pigale_status pigale_run_part(const uint8_t *words, size_t words_length, const uint8_t *input, size_t input_length,
                              uint32_t records, uint32_t refused, size_t place, uint8_t goes_on,
                              uint8_t *text, size_t capacity, size_t *text_length, pigale_sums *sums);

/* The formats that pigale_cut knows. */
enum { PIGALE_PLANAR_CODE = 0 };

/* Tells where an input may be cut into parts for pigale_run_part: *end gets the greatest offset up to which the bytes are a
 * header or none and whole records, and *records how many these are. `format` is PIGALE_PLANAR_CODE; for another number the
 * status is PIGALE_BAD_ARGUMENT, and both stay, as they do where there was not enough memory. */
pigale_status pigale_cut(const uint8_t *input, size_t input_length, uint8_t format, size_t *end, size_t *records);

/* The name of a status without its first word, as "CUT_VERTEX", or "?" for a number that is none. What stands in this header
 * as code is not proved. */
static inline const char *pigale_status_name(pigale_status status)
{
    switch (status) {
    case PIGALE_OK: return "OK";
    case PIGALE_OUT_OF_RANGE: return "OUT_OF_RANGE";
    case PIGALE_LOOP: return "LOOP";
    case PIGALE_REPEATED: return "REPEATED";
    case PIGALE_ONE_SIDED: return "ONE_SIDED";
    case PIGALE_SMALL: return "SMALL";
    case PIGALE_GENUS: return "GENUS";
    case PIGALE_NOT_CONNECTED: return "NOT_CONNECTED";
    case PIGALE_CUT_VERTEX: return "CUT_VERTEX";
    case PIGALE_SEPARATING_PAIR: return "SEPARATING_PAIR";
    case PIGALE_OUTER_NOT_QUAD: return "OUTER_NOT_QUAD";
    case PIGALE_NOT_TRIANGLE: return "NOT_TRIANGLE";
    case PIGALE_SEPARATING_TRIANGLE: return "SEPARATING_TRIANGLE";
    case PIGALE_NO_INNER: return "NO_INNER";
    case PIGALE_NO_MEMORY: return "NO_MEMORY";
    case PIGALE_BAD_ARGUMENT: return "BAD_ARGUMENT";
    case PIGALE_EDGE_OUT_OF_RANGE: return "EDGE_OUT_OF_RANGE";
    case PIGALE_EDGE_LOOP: return "EDGE_LOOP";
    case PIGALE_EDGE_REPEATED: return "EDGE_REPEATED";
    case PIGALE_OUT_OF_GRID: return "OUT_OF_GRID";
    case PIGALE_SAME_PLACE: return "SAME_PLACE";
    case PIGALE_ON_EDGE: return "ON_EDGE";
    case PIGALE_CROSS: return "CROSS";
    case PIGALE_TURNED: return "TURNED";
    case PIGALE_INSIDE: return "INSIDE";
    case PIGALE_BENT: return "BENT";
    case PIGALE_OUTER_BENT: return "OUTER_BENT";
    case PIGALE_BAD_SHAPE: return "BAD_SHAPE";
    case PIGALE_BAD_HEIGHT: return "BAD_HEIGHT";
    case PIGALE_BAD_BAR: return "BAD_BAR";
    case PIGALE_BAD_COLUMN: return "BAD_COLUMN";
    case PIGALE_THROUGH: return "THROUGH";
    case PIGALE_OVERLAP: return "OVERLAP";
    case PIGALE_BARS_TURNED: return "BARS_TURNED";
    case PIGALE_BAD_RECT: return "BAD_RECT";
    case PIGALE_MEET: return "MEET";
    case PIGALE_GAP: return "GAP";
    case PIGALE_CONTACT: return "CONTACT";
    case PIGALE_NO_FRAME: return "NO_FRAME";
    case PIGALE_FRAME: return "FRAME";
    case PIGALE_K5: return "K5";
    case PIGALE_K33: return "K33";
    default: return "?";
    }
}

/* Writes a sentence on a status and its numbers to `text`, vertices from 0, and returns its length, as snprintf does: no more
 * than `capacity` characters with the 0 at the end. */
static inline int pigale_explain(pigale_status status, pigale_numbers found, char *text, size_t capacity)
{
    unsigned a = found.first, b = found.second, c = found.third, d = found.fourth;
    switch (status) {
    case PIGALE_OK: return snprintf(text, capacity, "done, or valid");
    case PIGALE_OUT_OF_RANGE: return snprintf(text, capacity, "the list of %u holds the number %u, which is no vertex", a, b);
    case PIGALE_LOOP: return snprintf(text, capacity, "the list of %u holds itself", a);
    case PIGALE_REPEATED: return snprintf(text, capacity, "the list of %u holds %u twice", a, b);
    case PIGALE_ONE_SIDED: return snprintf(text, capacity, "the list of %u holds %u, whose list does not hold it", a, b);
    case PIGALE_SMALL: return snprintf(text, capacity, "there are too few vertices: %u", a);
    case PIGALE_GENUS: return snprintf(text, capacity, "the map has the genus %u", a);
    case PIGALE_NOT_CONNECTED: return snprintf(text, capacity, "the map is not connected");
    case PIGALE_CUT_VERTEX: return snprintf(text, capacity, "%u is a cut vertex", a);
    case PIGALE_SEPARATING_PAIR: return snprintf(text, capacity, "%u and %u are a separating pair", a, b);
    case PIGALE_OUTER_NOT_QUAD: return snprintf(text, capacity, "the outer face is no quadrangle");
    case PIGALE_NOT_TRIANGLE: return snprintf(text, capacity, "the face of the dart from %u to %u is no triangle", a, b);
    case PIGALE_SEPARATING_TRIANGLE: return snprintf(text, capacity, "%u, %u and %u are a separating triangle", a, b, c);
    case PIGALE_NO_INNER: return snprintf(text, capacity, "no vertex lies inside");
    case PIGALE_NO_MEMORY: return snprintf(text, capacity, "there was not enough memory");
    case PIGALE_BAD_ARGUMENT: return snprintf(text, capacity, "the arrays are not what the call takes, or too short");
    case PIGALE_EDGE_OUT_OF_RANGE: return snprintf(text, capacity, "edge number %u has an end that is no vertex", a);
    case PIGALE_EDGE_LOOP: return snprintf(text, capacity, "edge number %u joins a vertex to itself", a);
    case PIGALE_EDGE_REPEATED: return snprintf(text, capacity, "edges number %u and %u join the same vertices", a, b);
    case PIGALE_OUT_OF_GRID: return snprintf(text, capacity, "%u lies outside the grid", a);
    case PIGALE_SAME_PLACE: return snprintf(text, capacity, "%u and %u stand at one point", a, b);
    case PIGALE_ON_EDGE: return snprintf(text, capacity, "%u lies on the edge from %u to %u", a, b, c);
    case PIGALE_CROSS: return snprintf(text, capacity, "the edges from %u to %u and from %u to %u cross", a, b, c, d);
    case PIGALE_TURNED: return snprintf(text, capacity, "the edges of %u are not in the order of its list", a);
    case PIGALE_INSIDE: return snprintf(text, capacity, "the face of the dart from %u to %u lies outside too", a, b);
    case PIGALE_BENT: return snprintf(text, capacity, "a face bends inwards at the second of %u, %u and %u", a, b, c);
    case PIGALE_OUTER_BENT: return snprintf(text, capacity, "the outer face is no triangle");
    case PIGALE_BAD_SHAPE: return snprintf(text, capacity, "there are not as many columns as edges");
    case PIGALE_BAD_HEIGHT: return snprintf(text, capacity, "the height of %u is out of range or taken", a);
    case PIGALE_BAD_BAR: return snprintf(text, capacity, "the bar of %u is no bar within the width", a);
    case PIGALE_BAD_COLUMN: return snprintf(text, capacity, "the column of the edge from %u to %u misses a bar", a, b);
    case PIGALE_THROUGH: return snprintf(text, capacity, "the edge from %u to %u goes through the bar of %u", a, b, c);
    case PIGALE_OVERLAP:
        return snprintf(text, capacity, "the columns of the edges from %u to %u and from %u to %u overlap", a, b, c, d);
    case PIGALE_BARS_TURNED: return snprintf(text, capacity, "the edges of %u are not in the order of its list", a);
    case PIGALE_BAD_RECT: return snprintf(text, capacity, "the rectangle of %u is empty or out of range", a);
    case PIGALE_MEET: return snprintf(text, capacity, "the rectangles of %u and %u overlap", a, b);
    case PIGALE_GAP: return snprintf(text, capacity, "the rectangles leave a gap");
    case PIGALE_CONTACT:
        return snprintf(text, capacity, "%u and %u share a side without an edge, or have an edge and share none", a, b);
    case PIGALE_NO_FRAME: return snprintf(text, capacity, "the outer face is no quadrangle");
    case PIGALE_FRAME: return snprintf(text, capacity, "the rectangle of %u, of the outer face, is not at its end", a);
    case PIGALE_K5: return snprintf(text, capacity, "the graph has a subdivision of K5");
    case PIGALE_K33: return snprintf(text, capacity, "the graph has a subdivision of K3,3");
    default: return snprintf(text, capacity, "status %u", (unsigned)status);
    }
}

#ifdef __cplusplus
}
#endif
#endif
