/* A test of the calls for many maps, for edges, and for what is inside, which the program does not have.
 *
 *   test_calls many JOB < RECORDS     the text of shift, schnyder or convex, by one call for all records
 *   test_calls alike < RECORDS        each call for many maps or graphs, answered as by the call for one
 *   test_calls inside < RECORDS       orders, woods, st-orders, faces and labellings of maps, judged by what they are to be
 *   test_calls edges < RECORDS        drawings judged by edges in any order, as by their maps
 *   test_calls graphs < RECORDS       maps of graphs, by edges in any order; and edges with a fault
 *   test_calls fences CALLS           calls from two threads, with arrays that end where memory may not be touched
 *
 * Each but the first says what it looked at, and ends with status 1 and a line at the first thing that is wrong. */
#define _DEFAULT_SOURCE
#include "test.h"

#include <pthread.h>
#include <sys/mman.h>
#include <unistd.h>

static size_t record = 0;

static void want(int holds, const char *what)
{
    if (holds) return;
    fprintf(stderr, "test_calls: record %zu: %s\n", record, what);
    exit(1);
}

static void drop(map m) { free(m.ends), free(m.neighbours); }

static size_t begin(const size_t *ends, size_t v) { return v ? ends[v - 1] : 0; }

static int has(const size_t *ends, const uint16_t *neighbours, size_t v, size_t u)
{
    for (size_t i = begin(ends, v); i < ends[v]; i++)
        if (neighbours[i] == u) return 1;
    return 0;
}

/* ---- many maps */

/* Maps one behind another, as the calls for many take them. */
typedef struct {
    size_t maps, lists, entries, *map_ends, *ends;
    uint16_t *neighbours;
} all_maps;

static all_maps read_all(void)
{
    size_t room_for = 1 << 16;
    all_maps a = {0, 0, 0, room(room_for * 8), room(64 * room_for * 8), room(512 * room_for * 2)};
    for (map m; a.maps < room_for && read_map(&m); drop(m)) {
        for (size_t v = 0; v < m.n; v++) a.ends[a.lists + v] = a.entries + m.ends[v];
        memcpy(a.neighbours + a.entries, m.neighbours, m.k * 2);
        a.lists += m.n, a.entries += m.k, a.map_ends[a.maps++] = a.lists;
    }
    return a;
}

/* Map number i of these, with its own ends. */
static map one_of(const all_maps *a, size_t i)
{
    size_t from = begin(a->map_ends, i), n = a->map_ends[i] - from, base = begin(a->ends, from);
    map m = {n, begin(a->ends, a->map_ends[i]) - base, room(n * 8), a->neighbours + base};
    for (size_t v = 0; v < n; v++) m.ends[v] = a->ends[from + v] - base;
    return m;
}

static int say_many(const char *job)
{
    all_maps a = read_all();
    size_t maps = a.maps, lists = a.lists, entries = a.entries, *map_ends = a.map_ends, *ends = a.ends;
    uint16_t *neighbours = a.neighbours;
    int32_t *x = room(lists * sizeof *x), *y = room(lists * sizeof *y);
    pigale_status *statuses = room(maps);
    pigale_numbers *found = room(maps * sizeof *found);
    pigale_status (*draw)(const size_t *, size_t, const size_t *, size_t, const uint16_t *, size_t, int32_t *, size_t, int32_t *,
        size_t, pigale_status *, size_t, pigale_numbers *, size_t) =
        !strcmp(job, "shift") ? pigale_shift_many : !strcmp(job, "schnyder") ? pigale_schnyder_many : pigale_convex_many;
    want(draw(map_ends, maps, ends, lists, neighbours, entries, x, lists, y, lists, statuses, maps, found, maps) == PIGALE_OK,
        "the call failed");
    size_t refused = 0;
    for (size_t i = 0; i < maps; i++) {
        size_t from = begin(map_ends, i);
        if (statuses[i]) { refused++; put_refusal(stdout, i + 1, statuses[i], found[i]); continue; }
        map m = one_of(&a, i);
        printf("figure %zu %s %zu\n", i + 1, job, m.n);
        for (size_t v = 0; v < m.n; v++) {
            printf("%zu at %" PRId32 " %" PRId32, v + 1, x[from + v], y[from + v]);
            put_list(stdout, &m, v);
        }
        free(m.ends);
    }
    printf("end records %zu refused %zu\n", maps, refused);
    free(map_ends), free(ends), free(neighbours), free(x), free(y), free(statuses), free(found);
    return 0;
}

/* ---- many as one */

static size_t edges_of(const map *m, pigale_edge *edges);

/* Four rows with an entry for each of `count`, filled by chance, and the same ones again. */
typedef struct {
    size_t count;
    int32_t *many[4], *one[4];
} rows;

static rows filled(size_t count)
{
    rows r = {count, {0}, {0}};
    for (int k = 0; k < 4; k++) {
        r.many[k] = room(count * 4), r.one[k] = room(count * 4);
        for (size_t i = 0; i < count; i++) r.many[k][i] = r.one[k][i] = (int32_t)any(40);
    }
    return r;
}

static void compare(rows r, const char *what)
{
    for (int k = 0; k < 4; k++) {
        want(!memcmp(r.many[k], r.one[k], r.count * 4), what);
        free(r.many[k]), free(r.one[k]);
    }
}

/* A status and numbers for each map, by one call and by calls for one. */
typedef struct {
    size_t count;
    pigale_status *statuses;
    pigale_numbers *found;
} answers;

static answers answers_for(size_t count)
{
    answers a = {count, room(count), room(count * sizeof *a.found)};
    memset(a.statuses, 99, count);
    return a;
}

static void same(answers a, size_t i, pigale_status status, pigale_numbers found, const char *what)
{
    record = i + 1;
    want(a.statuses[i] == status && !memcmp(&a.found[i], &found, sizeof found), what);
}

static void give_back(answers a) { free(a.statuses), free(a.found); }

#define MAPS a->map_ends, a->maps, a->ends, a->lists, a->neighbours, a->entries
#define ONE m.ends, m.n, m.neighbours, m.k

static void alike_counts(const all_maps *a)
{
    answers all = answers_for(a->maps);
    pigale_counts *counts = room(a->maps * sizeof *counts);
    memset(counts, 7, a->maps * sizeof *counts);
    want(pigale_count_many(MAPS, counts, a->maps, all.statuses, a->maps, all.found, a->maps) == PIGALE_OK, "maps are not counted");
    for (size_t i = 0; i < a->maps; i++) {
        map m = one_of(a, i);
        pigale_counts own;
        pigale_numbers found;
        memset(&own, 7, sizeof own);
        same(all, i, pigale_count(ONE, &own, &found), found, "a map is counted otherwise alone");
        want(!memcmp(&own, &counts[i], sizeof own), "other counts alone");
        free(m.ends);
    }
    want(pigale_count_many(MAPS, counts, a->maps - 1, all.statuses, a->maps, all.found, a->maps) == PIGALE_BAD_ARGUMENT, "too few counts");
    free(counts), give_back(all);
}

static void alike_figures(const all_maps *a)
{
    answers all = answers_for(a->maps), others = answers_for(a->maps);
    rows bars = filled(a->lists), rects = filled(a->lists);
    size_t columns = a->entries / 2;
    int32_t *column = room(columns * 4), *alone = room(columns * 4);
    for (size_t i = 0; i < columns; i++) column[i] = alone[i] = (int32_t)i;
    want(pigale_bars_many(MAPS, bars.many[0], a->lists, bars.many[1], a->lists, bars.many[2], a->lists, column, columns,
        all.statuses, a->maps, all.found, a->maps) == PIGALE_OK, "bars are not drawn");
    want(pigale_rect_many(MAPS, rects.many[0], a->lists, rects.many[1], a->lists, rects.many[2], a->lists, rects.many[3], a->lists,
        others.statuses, a->maps, others.found, a->maps) == PIGALE_OK, "rectangles are not drawn");
    for (size_t i = 0; i < a->maps; i++) {
        map m = one_of(a, i);
        size_t from = begin(a->map_ends, i), start = begin(a->ends, from) / 2;
        pigale_numbers found;
        int32_t **b = bars.one, **r = rects.one;
        same(all, i, pigale_bars(ONE, b[0] + from, m.n, b[1] + from, m.n, b[2] + from, m.n, alone + start, m.k / 2, &found), found,
            "bars are drawn otherwise alone");
        same(others, i, pigale_rect(ONE, r[0] + from, m.n, r[1] + from, m.n, r[2] + from, m.n, r[3] + from, m.n, &found), found,
            "rectangles are drawn otherwise alone");
        free(m.ends);
    }
    compare(bars, "other bars alone"), compare(rects, "other rectangles alone");
    want(!memcmp(column, alone, columns * 4), "other columns alone");
    free(column), free(alone), give_back(all), give_back(others);
}

static void alike_checks(const all_maps *a)
{
    answers all = answers_for(a->maps);
    int32_t *x = room(a->lists * 4), *y = room(a->lists * 4), *width = room(a->maps * 4), *height = room(a->maps * 4);
    for (size_t v = 0; v < a->lists; v++) x[v] = (int32_t)any(50), y[v] = (int32_t)any(50);
    pigale_schnyder_many(MAPS, x, a->lists, y, a->lists, all.statuses, a->maps, all.found, a->maps);
    for (size_t i = 0; i < a->maps; i++) {
        width[i] = height[i] = any(5) ? 100 : (int32_t)any(9);
        if (any(3)) x[begin(a->map_ends, i)] += (int32_t)any(3);
    }
    want(pigale_check_many(MAPS, x, a->lists, y, a->lists, width, a->maps, height, a->maps, all.statuses, a->maps, all.found, a->maps)
        == PIGALE_OK, "drawings are not judged");
    for (size_t i = 0; i < a->maps; i++) {
        map m = one_of(a, i);
        size_t from = begin(a->map_ends, i);
        pigale_numbers found;
        same(all, i, pigale_check(ONE, x + from, m.n, y + from, m.n, width[i], height[i], &found), found, "a drawing is judged otherwise alone");
        free(m.ends);
    }
    free(x), free(y), free(width), free(height), give_back(all);
}

static void alike_graphs(const all_maps *a)
{
    size_t lists = a->lists, count = a->maps, edge_count = 0, most = a->entries / 2 + a->maps, *edge_ends = room(count * 8);
    pigale_edge *edges = room(most * sizeof *edges);
    for (size_t i = 0; i < count; i++) {
        map m = one_of(a, i);
        edge_count += edges_of(&m, edges + edge_count);
        if (any(9) == 0 && m.n) edges[edge_count++] = (pigale_edge){(uint16_t)any((uint32_t)m.n), (uint16_t)any((uint32_t)m.n)};
        edge_ends[i] = edge_count;
        free(m.ends);
    }
    answers all = answers_for(count);
    rows places = filled(lists);
    size_t end_count = lists + 10 * count, room_for = 2 * edge_count, *ends = room(end_count * 8), *own = room(end_count * 8);
    uint16_t *list = room(room_for * 2), *alone = room(room_for * 2);
    for (size_t i = 0; i < end_count; i++) ends[i] = own[i] = i;
    for (size_t i = 0; i < room_for; i++) list[i] = alone[i] = (uint16_t)i;
    want(pigale_embed_many(a->map_ends, count, edge_ends, count, edges, edge_count, ends, end_count, list, room_for, places.many[0],
        lists, places.many[1], lists, all.statuses, count, all.found, count) == PIGALE_OK, "graphs are not embedded");
    for (size_t i = 0; i < count; i++) {
        size_t from = begin(a->map_ends, i), n = a->map_ends[i] - from, first = begin(edge_ends, i), m = edge_ends[i] - first;
        pigale_numbers found = {0, 0, 0, 0};
        pigale_status status = n > 65535 ? PIGALE_BAD_ARGUMENT : pigale_embed((uint16_t)n, edges + first, m, own + from + 10 * i, n + 10,
            alone + 2 * first, 2 * m, places.one[0] + from, n, places.one[1] + from, n, &found);
        same(all, i, status, found, "a graph is embedded otherwise alone");
    }
    compare(places, "other places alone");
    want(!memcmp(ends, own, end_count * 8) && !memcmp(list, alone, room_for * 2), "another map alone");
    want(pigale_embed_many(a->map_ends, count, edge_ends, count, edges, edge_count, ends, end_count - 1, list, room_for, NULL, 0, NULL,
        0, all.statuses, count, all.found, count) == PIGALE_BAD_ARGUMENT, "too few ends are taken");
    free(edges), free(edge_ends), free(ends), free(own), free(list), free(alone), give_back(all);
}

static int say_alike(void)
{
    all_maps a = read_all();
    alike_counts(&a), alike_figures(&a), alike_checks(&a), alike_graphs(&a);
    want(pigale_count_many(NULL, 0, NULL, 0, NULL, 0, NULL, 0, NULL, 0, NULL, 0) == PIGALE_OK, "no maps are not counted");
    want(pigale_embed_many(NULL, 0, NULL, 0, NULL, 0, NULL, 0, NULL, 0, NULL, 0, NULL, 0, NULL, 0, NULL, 0) == PIGALE_OK, "no graphs are not embedded");
    printf("alike: %zu records in one call and alone\n", a.maps);
    free(a.map_ends), free(a.ends), free(a.neighbours);
    return 0;
}

/* ---- what is inside */

static void look_at_order(const map *m, const uint16_t *order, const size_t *ends, const uint16_t *full)
{
    size_t n = m->n, *place = room(n * sizeof *place);
    for (size_t v = 0; v < n; v++) place[v] = n;
    for (size_t i = 0; i < n; i++) {
        want(order[i] < n && place[order[i]] == n, "the order is no order");
        place[order[i]] = i;
    }
    want(order[1] == 0, "vertex 0 is not second");
    for (size_t v = 0; v < n; v++)
        for (size_t i = begin(m->ends, v); i < m->ends[v]; i++)
            want(has(ends, full, v, m->neighbours[i]), "an edge is not in the completion");
    for (size_t v = 0; v < n; v++) {
        size_t earlier = 0, later = 0;
        for (size_t i = begin(ends, v); i < ends[v]; i++) place[full[i]] < place[v] ? earlier++ : later++;
        want(place[v] < 2 || earlier >= 2, "a vertex has fewer than two earlier neighbours");
        want(place[v] == n - 1 || later > 0, "a vertex but the last has no later neighbour");
    }
    free(place);
}

static void look_at_wood(const map *m, const uint16_t *order, const size_t *ends, const uint16_t *full, uint16_t *parent[3])
{
    size_t roots[3] = {order[0], order[1], order[m->n - 1]};
    for (size_t v = 0; v < m->n; v++) {
        int is_root = v == roots[0] || v == roots[1] || v == roots[2];
        for (int c = 0; c < 3; c++) {
            want(is_root ? parent[c][v] == v : has(ends, full, v, parent[c][v]), "a parent is no neighbour, or a root has one");
            want(is_root || parent[c][v] != parent[(c + 1) % 3][v], "two parents are one");
            size_t u = v, steps = 0;
            while (parent[c][u] != u && steps <= m->n) u = parent[c][u], steps++;
            want(is_root || u == roots[c], "the parents do not lead to the root of their colour");
        }
    }
}

static void look_at_ranks(const map *m, const uint16_t *rank)
{
    want(rank[0] == 0 && rank[m->neighbours[0]] == m->n - 1, "the ends of the st-order are others");
    for (size_t v = 0; v < m->n; v++) {
        int low = 0, high = 0;
        for (size_t i = begin(m->ends, v); i < m->ends[v]; i++) rank[m->neighbours[i]] < rank[v] ? low++ : high++;
        want(low || rank[v] == 0, "a vertex but the first has no lesser neighbour");
        want(high || rank[v] == m->n - 1, "a vertex but the last has no greater neighbour");
    }
}

static size_t place_in(const map *m, size_t v, size_t u)
{
    for (size_t i = begin(m->ends, v); i < m->ends[v]; i++)
        if (m->neighbours[i] == u) return i;
    want(0, "two vertices that follow one another are not adjacent");
    return 0;
}

/* Each dart stands in one walk, and the next one leads from its head to what follows its tail there. */
static void look_at_faces(const map *m, size_t faces, const size_t *ends, const uint16_t *walk)
{
    unsigned char *seen = room(m->k);
    size_t last = 0;
    memset(seen, 0, m->k);
    for (size_t f = 0; f < faces; f++) {
        size_t from = begin(ends, f), size = ends[f] - from;
        want(size > 0, "a walk is empty");
        for (size_t i = 0; i < size; i++) {
            size_t v = walk[from + i], u = walk[from + (i + 1) % size], w = walk[from + (i + 2) % size];
            size_t dart = place_in(m, v, u), next = place_in(m, u, v) + 1;
            want(m->neighbours[next == m->ends[u] ? begin(m->ends, u) : next] == w, "a walk does not go along its face");
            want(!seen[dart]++, "a dart is walked twice");
            want(i || !f || dart > last, "the faces stand in another order");
            if (!i) last = dart;
            want(dart >= last, "a walk begins with another dart");
        }
    }
    free(seen);
}

static int find_faces(const map *m)
{
    pigale_counts counts;
    pigale_numbers found, other;
    size_t faces = 99, room_for = m->k + 1, *ends = room(room_for * 8);
    uint16_t *walk = room(m->k * 2);
    pigale_status status = pigale_faces(m->ends, m->n, m->neighbours, m->k, ends, room_for, walk, m->k, &faces, &found);
    want(status == pigale_count(m->ends, m->n, m->neighbours, m->k, &counts, &other) && !memcmp(&found, &other, sizeof found),
        "faces are refused otherwise than counted");
    if (!status) {
        size_t alone = 0;
        for (size_t v = 0; v < m->n; v++) alone += begin(m->ends, v) == m->ends[v];
        want(faces == 0 || ends[faces - 1] == m->k, "the walks do not have all darts");
        look_at_faces(m, faces, ends, walk);
        want(counts.c > 1 || alone || faces == counts.f, "there are more faces or fewer");
        if (faces)
            want(pigale_faces(m->ends, m->n, m->neighbours, m->k, ends, faces - 1, walk, m->k, &faces, &found) == PIGALE_BAD_ARGUMENT,
                "an array that is too short is taken");
    } else {
        want(faces == 99, "a number is written for a map that is refused");
    }
    free(ends), free(walk);
    return !status;
}

/* Both ends of an edge agree, and round a vertex off the outer face come the four kinds, each in one run. */
static void look_at_labels(const map *m, const uint8_t *labels)
{
    static const uint8_t other[] = {PIGALE_LABEL_OUTER, PIGALE_LABEL_UP_IN, PIGALE_LABEL_UP_OUT, PIGALE_LABEL_RIGHT_IN, PIGALE_LABEL_RIGHT_OUT};
    static const uint8_t after[] = {0, PIGALE_LABEL_RIGHT_OUT, PIGALE_LABEL_RIGHT_IN, PIGALE_LABEL_UP_IN, PIGALE_LABEL_UP_OUT};
    size_t outer = 0;
    for (size_t v = 0; v < m->n; v++) {
        size_t from = begin(m->ends, v), size = m->ends[v] - from, changes = 0, own = 0;
        for (size_t i = 0; i < size; i++) {
            uint8_t label = labels[from + i], next = labels[from + (i + 1) % size];
            want(label <= 4 && labels[place_in(m, m->neighbours[from + i], v)] == other[label], "the ends of an edge do not agree");
            own += !label;
            if (label != next) changes++;
            want(!label || !next || label == next || after[label] == next || own, "labels do not come in their order");
        }
        want(own == 0 ? changes == 4 : own == 2, "a vertex has labels of other kinds");
        outer += own;
    }
    want(outer == 8, "the outer face is no quadrangle");
}

static int find_labels(const map *m)
{
    int32_t *side = room(m->n * 16);
    uint8_t *labels = room(m->k);
    pigale_numbers found, other;
    size_t n = m->n;
    memset(labels, 77, m->k);
    pigale_status status = pigale_edge_labelling(m->ends, n, m->neighbours, m->k, labels, m->k, &found);
    want(status == pigale_rect(m->ends, n, m->neighbours, m->k, side, n, side + n, n, side + 2 * n, n, side + 3 * n, n, &other)
        && !memcmp(&found, &other, sizeof found), "labels are refused otherwise than rectangles");
    if (!status) look_at_labels(m, labels);
    else for (size_t i = 0; i < m->k; i++) want(labels[i] == 77, "labels are written for a map that is refused");
    if (m->k)
        want(pigale_edge_labelling(m->ends, n, m->neighbours, m->k, labels, m->k - 1, &found) == PIGALE_BAD_ARGUMENT, "an array that is too short is taken");
    free(side), free(labels);
    return !status;
}

static int say_inside(void)
{
    size_t orders = 0, ranks = 0, walked = 0, labelled = 0;
    for (map m; read_map(&m); drop(m)) {
        size_t n = m.n, *ends = room(n * sizeof *ends), entries = n < 3 ? 0 : 6 * n - 12;
        uint16_t *order = room(n * 2), *full = room(entries * 2), *rank = room(n * 2), *parent[3];
        int32_t *x = room(n * 4), *y = room(n * 4);
        pigale_numbers found, other;
        record++;
        for (int c = 0; c < 3; c++) parent[c] = room(n * 2);
        pigale_status drawn = pigale_schnyder(m.ends, n, m.neighbours, m.k, x, n, y, n, &other);
        pigale_status status = pigale_canonical_order(m.ends, n, m.neighbours, m.k, order, n, ends, n, full, entries, &found);
        want(status == drawn && !memcmp(&found, &other, sizeof found), "the order is refused otherwise than the drawing");
        status = pigale_schnyder_wood(m.ends, n, m.neighbours, m.k, parent[0], n, parent[1], n, parent[2], n, &found);
        want(status == drawn && !memcmp(&found, &other, sizeof found), "the wood is refused otherwise than the drawing");
        if (!status) {
            pigale_counts counts;
            orders++;
            want(pigale_count(ends, n, full, entries, &counts, &found) == PIGALE_OK && counts.genus == 0 && counts.m == 3 * n - 6,
                "the completion is no triangulation");
            look_at_order(&m, order, ends, full);
            look_at_wood(&m, order, ends, full, parent);
            want(pigale_check_outer(m.ends, n, m.neighbours, m.k, x, n, y, n, &found) == PIGALE_OK, "the outer face is another");
            if (entries)
                want(pigale_canonical_order(m.ends, n, m.neighbours, m.k, order, n, ends, n, full, entries - 1, &found)
                    == PIGALE_BAD_ARGUMENT, "an array that is too short is taken");
        }
        status = pigale_st_order(m.ends, n, m.neighbours, m.k, rank, n, &found);
        if (!status) ranks++, look_at_ranks(&m, rank);
        walked += (size_t)find_faces(&m), labelled += (size_t)find_labels(&m);
        for (int c = 0; c < 3; c++) free(parent[c]);
        free(ends), free(order), free(full), free(rank), free(x), free(y);
    }
    printf("inside: %zu records, %zu orders and woods, %zu st-orders, faces of %zu, %zu labellings\n", record, orders, ranks, walked, labelled);
    return 0;
}

/* ---- edges in any order */

static size_t edges_of(const map *m, pigale_edge *edges)
{
    size_t count = 0;
    for (size_t v = 0; v < m->n; v++)
        for (size_t i = begin(m->ends, v); i < m->ends[v]; i++)
            if (v < m->neighbours[i])
                edges[count++] = any(2) ? (pigale_edge){(uint16_t)v, m->neighbours[i]} : (pigale_edge){m->neighbours[i], (uint16_t)v};
    for (size_t i = count; i > 1; i--) {
        size_t j = any((uint32_t)i);
        pigale_edge e = edges[j];
        edges[j] = edges[i - 1], edges[i - 1] = e;
    }
    return count;
}

static int say_edges(void)
{
    size_t judged[256] = {0};
    for (map m; read_map(&m); drop(m)) {
        size_t n = m.n;
        int32_t *x = room(n * 4), *y = room(n * 4), reach = 1048576;
        pigale_edge *edges = room(m.k / 2 * sizeof *edges);
        pigale_numbers found, other;
        record++;
        if (!pigale_schnyder(m.ends, n, m.neighbours, m.k, x, n, y, n, &found)) {
            size_t count = edges_of(&m, edges);
            if (any(4)) x[any((uint32_t)n)] += (int32_t)any(3), y[any((uint32_t)n)] += (int32_t)any(3);
            pigale_status by_map = pigale_check(m.ends, n, m.neighbours, m.k, x, n, y, n, reach, reach, &found);
            pigale_status by_edges = pigale_check_drawing(edges, count, x, n, y, n, &other);
            want(by_map == PIGALE_TURNED ? by_edges == PIGALE_OK : by_edges == by_map && !memcmp(&found, &other, sizeof found),
                "edges and map are judged apart");
            judged[by_edges]++;
        }
        free(x), free(y), free(edges);
    }
    printf("edges: %zu records, %zu plane, %zu at one place, %zu on an edge, %zu cross\n", record, judged[PIGALE_OK],
        judged[PIGALE_SAME_PLACE], judged[PIGALE_ON_EDGE], judged[PIGALE_CROSS]);
    return 0;
}

static void spoil(uint16_t n, pigale_edge *edges, size_t count)
{
    size_t i = any((uint32_t)count), j = any((uint32_t)count);
    pigale_edge kept = edges[i];
    pigale_numbers found;
    edges[i].b = n;
    want(pigale_is_planar(n, edges, count, &found) == PIGALE_EDGE_OUT_OF_RANGE && found.first == i, "another edge is out of range");
    edges[i].b = edges[i].a;
    want(pigale_is_planar(n, edges, count, &found) == PIGALE_EDGE_LOOP && found.first == i, "another edge is a loop");
    if (i != j) {
        edges[i] = (pigale_edge){edges[j].b, edges[j].a};
        want(pigale_is_planar(n, edges, count, &found) == PIGALE_EDGE_REPEATED && found.first == (i < j ? i : j)
            && found.second == (i < j ? j : i), "other edges are alike");
    }
    edges[i] = kept;
}

static int say_graphs(void)
{
    size_t planar = 0, others = 0;
    for (map m; read_map(&m); drop(m)) {
        pigale_counts counts;
        pigale_numbers found;
        record++;
        if (m.n > 255 || m.n < 3 || pigale_count(m.ends, m.n, m.neighbours, m.k, &counts, &found)) continue;
        uint16_t n = (uint16_t)m.n;
        size_t room_for = m.k + 12, *ends = room((n + 10) * sizeof *ends);
        pigale_edge *edges = room((m.k / 2 + 6) * sizeof *edges);
        uint16_t *neighbours = room(2 * room_for * 2);
        size_t count = edges_of(&m, edges);
        for (int tries = any(2) ? 6 : 0; tries; tries--) {
            pigale_edge e = {(uint16_t)any(n), (uint16_t)any(n)};
            int is_there = e.a == e.b;
            for (size_t i = 0; i < count; i++)
                is_there |= (edges[i].a == e.a && edges[i].b == e.b) || (edges[i].a == e.b && edges[i].b == e.a);
            if (!is_there) edges[count++] = e;
        }
        pigale_status status = pigale_map_of_graph(n, edges, count, ends, n + 10u, neighbours, 2 * room_for, &found);
        want(status == pigale_is_planar(n, edges, count, &found), "two calls say otherwise whether it is planar");
        if (status == PIGALE_OK) {
            planar++;
            want(pigale_count(ends, n, neighbours, 2 * count, &counts, &found) == PIGALE_OK && counts.genus == 0, "no plane map");
            for (size_t i = 0; i < count; i++) want(has(ends, neighbours, edges[i].a, edges[i].b), "an edge is not in the map");
            if (count)
                want(pigale_map_of_graph(n, edges, count, ends, n, neighbours, 2 * count - 1, &found) == PIGALE_BAD_ARGUMENT,
                    "an array that is too short is taken");
        } else {
            others++;
            want(status == PIGALE_K5 || status == PIGALE_K33, "a graph is refused");
        }
        if (count) spoil(n, edges, count);
        free(ends), free(edges), free(neighbours);
    }
    printf("graphs: %zu records, %zu planar, %zu not\n", record, planar, others);
    return 0;
}

/* ---- fences */

#define FENCES 23

typedef struct {
    void *all, *at;
    size_t size;
} fence;

/* Memory of `count` elements of `size` bytes, behind which none may be touched. */
static fence fenced(size_t count, size_t size)
{
    size_t page = (size_t)sysconf(_SC_PAGESIZE), pages = (count * size + page - 1) / page * page;
    fence f = {mmap(NULL, pages + page, PROT_READ | PROT_WRITE, MAP_PRIVATE | MAP_ANONYMOUS, -1, 0), NULL, pages + page};
    if (f.all == MAP_FAILED || mprotect((char *)f.all + pages, page, PROT_NONE)) abort();
    f.at = count ? (char *)f.all + pages - count * size : NULL;
    return f;
}

static void call_one(fence *f)
{
    size_t n = any(9), k = any(30), rows = any(3) ? n : any(10), maps = 1 + any(3), most = 10 + any(20);
    f[0] = fenced(n, 8), f[1] = fenced(k, 2), f[2] = fenced(rows, 4), f[3] = fenced(rows, 4), f[4] = fenced(maps, 8);
    f[5] = fenced(maps, 1), f[6] = fenced(maps, sizeof(pigale_numbers)), f[7] = fenced(k / 2, sizeof(pigale_edge));
    f[8] = fenced(rows, 2), f[9] = fenced(rows, 2), f[10] = fenced(rows, 2), f[11] = fenced(most, 2), f[12] = fenced(rows, 8);
    f[13] = fenced(k, 1), f[14] = fenced(maps, sizeof(pigale_counts)), f[15] = fenced(n, 4), f[16] = fenced(k / 2, 4);
    f[17] = fenced(n, 4), f[18] = fenced(maps, 4), f[19] = fenced(maps, 4), f[20] = fenced(maps, 8), f[21] = fenced(n + 10 * maps, 8);
    f[22] = fenced(k / 2 * 2, 2);
    size_t *ends = f[0].at, *map_ends = f[4].at, *full_ends = f[12].at;
    uint16_t *list = f[1].at, *one = f[8].at, *two = f[9].at, *three = f[10].at, *full = f[11].at;
    int32_t *x = f[2].at, *y = f[3].at;
    pigale_edge *edges = f[7].at;
    pigale_numbers *founds = f[6].at, found;
    int32_t *width = f[18].at, *height = f[19].at;
    size_t *edge_ends = f[20].at, count;
    int fair = (int)any(4);
    for (size_t v = 0, at = 0; v < n; v++) {
        at += any(5);
        ends[v] = fair ? (v + 1 == n ? k : at < k ? at : k) : any(2) ? any(40) : SIZE_MAX - any(3);
    }
    for (size_t i = 0; i < k; i++) list[i] = (uint16_t)(any(9) ? any((uint32_t)n + 1) : any(65536));
    for (size_t i = 0; i < rows; i++) x[i] = (int32_t)any(9), y[i] = any(20) ? (int32_t)any(9) : INT32_MIN;
    for (size_t i = 0; i < maps; i++) map_ends[i] = i + 1 == maps && any(8) ? n : any(3) ? any((uint32_t)n + 1) : SIZE_MAX;
    for (size_t i = 0; i < maps; i++) width[i] = height[i] = any(9) ? 20 : INT32_MIN;
    for (size_t i = 0; i < maps; i++) edge_ends[i] = i + 1 == maps && any(8) ? k / 2 : any(3) ? any((uint32_t)k / 2 + 1) : SIZE_MAX;
    for (size_t i = 0; i < k / 2; i++) edges[i] = (pigale_edge){(uint16_t)any((uint32_t)n + 1), (uint16_t)any(any(9) ? 9 : 65536)};
    switch (any(19)) {
    case 0: pigale_shift_many(map_ends, maps, ends, n, list, k, x, rows, y, rows, f[5].at, maps, founds, maps); break;
    case 1: pigale_schnyder_many(map_ends, maps, ends, n, list, k, x, rows, y, rows, f[5].at, maps, founds, maps); break;
    case 2: pigale_convex_many(map_ends, maps, ends, n, list, k, x, rows, y, rows, f[5].at, maps, founds, maps); break;
    case 3: pigale_canonical_order(ends, n, list, k, one, rows, full_ends, rows, full, most, &found); break;
    case 4: pigale_schnyder_wood(ends, n, list, k, one, rows, two, rows, three, rows, &found); break;
    case 5: pigale_st_order(ends, n, list, k, one, rows, &found); break;
    case 6: pigale_check_outer(ends, n, list, k, x, rows, y, rows, &found); break;
    case 7: pigale_check_drawing(edges, k / 2, x, rows, y, rows, &found); break;
    case 8: pigale_is_planar((uint16_t)n, edges, k / 2, &found); break;
    case 9: pigale_map_of_graph((uint16_t)n, edges, k / 2, full_ends, rows, full, most, &found); break;
    case 10: pigale_embed((uint16_t)n, edges, k / 2, full_ends, rows, full, most, x, rows, y, rows, &found); break;
    case 11: pigale_faces(ends, n, list, k, full_ends, rows, full, most, &count, &found); break;
    case 12: pigale_edge_labelling(ends, n, list, k, f[13].at, k, &found); break;
    case 13: pigale_count_many(map_ends, maps, ends, n, list, k, f[14].at, maps, f[5].at, maps, founds, maps); break;
    case 14: pigale_bars_many(map_ends, maps, ends, n, list, k, x, rows, y, rows, f[15].at, n, f[16].at, k / 2, f[5].at, maps, founds, maps); break;
    case 15: pigale_rect_many(map_ends, maps, ends, n, list, k, x, rows, y, rows, f[15].at, n, f[17].at, n, f[5].at, maps, founds, maps); break;
    case 16: pigale_check_many(map_ends, maps, ends, n, list, k, x, rows, y, rows, f[18].at, maps, f[19].at, maps, f[5].at, maps, founds, maps); break;
    case 17: pigale_embed_many(map_ends, maps, f[20].at, maps, edges, k / 2, f[21].at, n + 10 * maps, f[22].at, k / 2 * 2, x, rows, y, rows, f[5].at, maps, founds, maps); break;
    default: pigale_check(ends, n, list, k, x, rows, y, rows, 20, 20, &found);
    }
    for (int i = 0; i < FENCES; i++) munmap(f[i].all, f[i].size);
}

static void *call_all(void *calls)
{
    fence f[FENCES];
    state = (uint64_t)(uintptr_t)&f;
    for (long c = *(long *)calls; c; c--) call_one(f);
    return NULL;
}

static int say_fences(long calls)
{
    pthread_t threads[2];
    for (int i = 0; i < 2; i++)
        if (pthread_create(&threads[i], NULL, call_all, &calls)) return 1;
    for (int i = 0; i < 2; i++) pthread_join(threads[i], NULL);
    printf("fences: %ld calls from each of two threads\n", calls);
    return 0;
}

int main(int count, char **words)
{
    if (pigale_version() != 10000u * (PIGALE_VERSION[0] - '0') + 100u * (PIGALE_VERSION[2] - '0') + (PIGALE_VERSION[4] - '0')) return 3;
    if (count == 3 && !strcmp(words[1], "many")) return say_many(words[2]);
    if (count == 2 && !strcmp(words[1], "alike")) return say_alike();
    if (count == 2 && !strcmp(words[1], "inside")) return say_inside();
    if (count == 2 && !strcmp(words[1], "edges")) return say_edges();
    if (count == 2 && !strcmp(words[1], "graphs")) return say_graphs();
    if (count == 3 && !strcmp(words[1], "fences")) return say_fences(atol(words[2]));
    return 2;
}
