/* A test of the library at its limits, linked with --wrap=malloc,--wrap=realloc,--wrap=free and without sanitizers.
 *
 *   limits stack < RECORDS      each call on each record runs in a thread whose stack is as large as the table below says
 *   limits memory < RECORDS     each call on each record with each of its requests for memory refused, one at a time
 *   limits pieces               the library's own requests, at random: no piece lies on another, and none is changed
 *
 * The records are maps in planar_code. A call that a map is not for answers so. A call whose request is refused answers
 * that there is no memory and writes nothing, or it answers as ever by a slower way. It returns all that it took. */
#define _GNU_SOURCE
#include "test.h"

#include <pthread.h>

enum { FILLED = 0x5a5a5a5a };

/* What malloc is to do: how many requests were made, which one is refused, and how many blocks are out. */
static _Thread_local long requests = 0, refused = -1, blocks = 0;

void *__real_malloc(size_t), *__real_realloc(void *, size_t);
void __real_free(void *);
void *__wrap_malloc(size_t), *__wrap_realloc(void *, size_t);
void __wrap_free(void *);

void *__wrap_malloc(size_t size)
{
    void *at = requests++ == refused ? 0 : __real_malloc(size);
    blocks += at != 0;
    return at;
}

void *__wrap_realloc(void *old, size_t size)
{
    void *at = requests++ == refused ? 0 : __real_realloc(old, size);
    blocks += at && !old;
    return at;
}

void __wrap_free(void *at) { blocks -= at != 0; __real_free(at); }

typedef struct {
    uint8_t at[1 << 20];
    size_t length;
} text;

/* What the calls are given, and what they write. */
typedef struct {
    map m;
    text record, line, figures[4]; /* planar_code, graph6, and the program's drawings of the map */
    pigale_edge *edges;
    size_t edge_count;
    pigale_counts counts;
    int32_t grid[2][4095], convex[2][4095], bars[3][4095], columns[20000], rects[4][4095]; /* drawings, for the checks */
    struct {
        int32_t row[4][20000];
        uint16_t small[4][70000];
        size_t ends[4200], length;
        uint8_t text[400];
        uint8_t labels[70000];
        pigale_counts counts;
        pigale_status statuses[1];
    } out;
    pigale_numbers found;
} job;

#define MAP s->m.ends, s->m.n, s->m.neighbours, s->m.k
#define ROW(i) s->out.row[i], s->m.n
#define GIVEN(name, i) s->name[i], s->m.n
#define WIDE (int32_t)s->counts.f - 1
#define SMALL(i) s->out.small[i], s->m.n
#define LISTS s->out.ends, 4200, s->out.small[0], 70000
#define GRAPH (uint16_t)s->m.n, s->edges, s->edge_count
#define FOUND &s->found

static pigale_status count(job *s) { return pigale_count(MAP, &s->out.counts, FOUND); }
static pigale_status shift(job *s) { return pigale_shift(MAP, ROW(0), ROW(1), FOUND); }
static pigale_status schnyder(job *s) { return pigale_schnyder(MAP, ROW(0), ROW(1), FOUND); }
static pigale_status convex(job *s) { return pigale_convex(MAP, ROW(0), ROW(1), FOUND); }
static pigale_status bars(job *s) { return pigale_bars(MAP, ROW(0), ROW(1), ROW(2), s->out.row[3], s->m.k / 2, FOUND); }
static pigale_status rect(job *s) { return pigale_rect(MAP, ROW(0), ROW(1), ROW(2), ROW(3), FOUND); }
static pigale_status embed(job *s) { return pigale_embed(GRAPH, LISTS, ROW(0), ROW(1), FOUND); }
static pigale_status map_of_graph(job *s) { return pigale_map_of_graph(GRAPH, LISTS, FOUND); }
static pigale_status is_planar(job *s) { return pigale_is_planar(GRAPH, FOUND); }
static pigale_status order(job *s) { return pigale_canonical_order(MAP, SMALL(1), LISTS, FOUND); }
static pigale_status wood(job *s) { return pigale_schnyder_wood(MAP, SMALL(0), SMALL(1), SMALL(2), FOUND); }
static pigale_status st_order(job *s) { return pigale_st_order(MAP, SMALL(0), FOUND); }

static pigale_status faces(job *s) { return pigale_faces(MAP, s->out.ends, 4200, s->out.small[0], 70000, &s->out.length, FOUND); }
static pigale_status labelling(job *s) { return pigale_edge_labelling(MAP, s->out.labels, s->m.k, FOUND); }

static pigale_status check(job *s)
{
    return pigale_check(MAP, GIVEN(grid, 0), GIVEN(grid, 1), (int32_t)s->m.n - 2, (int32_t)s->m.n - 2, FOUND);
}

static pigale_status check_convex(job *s)
{
    return pigale_check_convex(MAP, GIVEN(convex, 0), GIVEN(convex, 1), WIDE, WIDE, FOUND);
}

static pigale_status check_outer(job *s) { return pigale_check_outer(MAP, GIVEN(grid, 0), GIVEN(grid, 1), FOUND); }

static pigale_status check_bars(job *s)
{
    return pigale_check_bars(MAP, GIVEN(bars, 0), GIVEN(bars, 1), GIVEN(bars, 2), s->columns, s->m.k / 2, WIDE, FOUND);
}

static pigale_status check_rects(job *s)
{
    return pigale_check_rects(MAP, GIVEN(rects, 0), GIVEN(rects, 1), GIVEN(rects, 2), GIVEN(rects, 3), FOUND);
}

static pigale_status check_drawing(job *s)
{
    return pigale_check_drawing(s->edges, s->edge_count, GIVEN(grid, 0), GIVEN(grid, 1), FOUND);
}

static pigale_status many(job *s, pigale_status (*call)(const size_t *, size_t, const size_t *, size_t, const uint16_t *, size_t,
    int32_t *, size_t, int32_t *, size_t, pigale_status *, size_t, pigale_numbers *, size_t))
{
    pigale_status status = call(&s->m.n, 1, MAP, ROW(0), ROW(1), s->out.statuses, 1, FOUND, 1);
    return status ? status : s->out.statuses[0];
}

static pigale_status shift_many(job *s) { return many(s, pigale_shift_many); }
static pigale_status schnyder_many(job *s) { return many(s, pigale_schnyder_many); }
static pigale_status convex_many(job *s) { return many(s, pigale_convex_many); }

#define STATUSES s->out.statuses, 1, FOUND, 1

static pigale_status status_of_one(job *s, pigale_status status) { return status ? status : s->out.statuses[0]; }

static pigale_status count_many(job *s) { return status_of_one(s, pigale_count_many(&s->m.n, 1, MAP, &s->out.counts, 1, STATUSES)); }

static pigale_status bars_many(job *s)
{
    return status_of_one(s, pigale_bars_many(&s->m.n, 1, MAP, ROW(0), ROW(1), ROW(2), s->out.row[3], s->m.k / 2, STATUSES));
}

static pigale_status rect_many(job *s)
{
    return status_of_one(s, pigale_rect_many(&s->m.n, 1, MAP, ROW(0), ROW(1), ROW(2), ROW(3), STATUSES));
}

static pigale_status check_many(job *s)
{
    int32_t size = (int32_t)s->m.n - 2;
    return status_of_one(s, pigale_check_many(&s->m.n, 1, MAP, GIVEN(grid, 0), GIVEN(grid, 1), &size, 1, &size, 1, STATUSES));
}

static pigale_status embed_many(job *s)
{
    return status_of_one(s, pigale_embed_many(&s->m.n, 1, &s->edge_count, 1, s->edges, s->edge_count, s->out.ends, s->m.n + 10,
        s->out.small[0], 2 * s->edge_count, ROW(0), ROW(1), STATUSES));
}

static pigale_status run(job *s, const char *words, const text *input)
{
    pigale_status status = pigale_run((const uint8_t *)words, strlen(words), input->at, input->length, s->out.text,
        sizeof s->out.text, &s->out.length);
    return status == 5 || status == 6 ? PIGALE_NO_MEMORY : status;
}

static pigale_status run_count(job *s) { return run(s, "count", &s->record); }
static pigale_status run_convex(job *s) { return run(s, "convex", &s->record); }
static pigale_status run_svg(job *s) { return run(s, "bars --form svg", &s->record); }
static pigale_status run_rect(job *s) { return run(s, "rect", &s->record); }
static pigale_status run_embed(job *s) { return run(s, "embed", &s->line); }
static pigale_status run_grid(job *s) { return run(s, "verify", &s->figures[0]); }
static pigale_status run_bent(job *s) { return run(s, "verify", &s->figures[1]); }
static pigale_status run_bars(job *s) { return run(s, "verify", &s->figures[2]); }
static pigale_status run_rects(job *s) { return run(s, "verify", &s->figures[3]); }
static pigale_status run_gen(job *s) { return run(s, "gen --size 40 --number 2", &s->record); }

/* The calls, and how many KB of the stack each is given for a map of at most 255 vertices, and for any. */
static const struct {
    const char *name;
    pigale_status (*call)(job *);
    size_t few, most;
} calls[] = {
    {"count", count, 64, 64}, {"shift", shift, 64, 64}, {"schnyder", schnyder, 64, 64}, {"convex", convex, 64, 64},
    {"bars", bars, 64, 64}, {"rect", rect, 64, 64}, {"embed", embed, 64, 64}, {"map_of_graph", map_of_graph, 64, 64},
    {"is_planar", is_planar, 64, 64}, {"canonical_order", order, 64, 64}, {"schnyder_wood", wood, 64, 64},
    {"st_order", st_order, 64, 64}, {"check_outer", check_outer, 64, 64}, {"check_rects", check_rects, 64, 64},
    {"faces", faces, 64, 64}, {"edge_labelling", labelling, 64, 64}, {"count_many", count_many, 64, 64}, {"bars_many", bars_many, 64, 64},
    {"rect_many", rect_many, 64, 64}, {"embed_many", embed_many, 64, 64}, {"check_many", check_many, 64, 256},
    {"shift_many", shift_many, 64, 64}, {"schnyder_many", schnyder_many, 64, 64}, {"convex_many", convex_many, 64, 64},
    {"check", check, 64, 256}, {"check_convex", check_convex, 64, 256}, {"check_drawing", check_drawing, 64, 256},
    {"check_bars", check_bars, 64, 256}, {"run count", run_count, 96, 256}, {"run convex", run_convex, 96, 256},
    {"run bars", run_svg, 96, 256}, {"run rect", run_rect, 96, 256}, {"run embed", run_embed, 96, 256},
    {"run verify", run_grid, 96, 256}, {"run verify convex", run_bent, 96, 256}, {"run verify bars", run_bars, 96, 256},
    {"run verify rect", run_rects, 96, 256}, {"run gen", run_gen, 96, 256},
};
enum { CALLS = sizeof calls / sizeof *calls };

/* Writes the map as planar_code, and its graph as a line of graph6. */
static void put_texts(job *s)
{
    size_t n = s->m.n, wide = n > 255, bits = 0;
    text *record = &s->record, *line = &s->line;
    record->length = line->length = 0;
    if (wide) record->at[record->length++] = 0, record->at[record->length++] = (uint8_t)(n >> 8);
    record->at[record->length++] = (uint8_t)n;
    for (size_t v = 0, i = 0; v < n; v++)
        for (;; i++) {
            unsigned u = i < s->m.ends[v] ? s->m.neighbours[i] + 1u : 0;
            if (wide) record->at[record->length++] = (uint8_t)(u >> 8);
            record->at[record->length++] = (uint8_t)u;
            if (!u) break;
        }
    if (n > 255) return;
    if (n > 62)
        for (int by = 18; by >= 0; by -= 6) line->at[line->length++] = by > 12 ? '~' : (uint8_t)(63 + ((n >> by) & 63));
    else
        line->at[line->length++] = (uint8_t)(63 + n);
    uint8_t *body = line->at + line->length;
    for (size_t v = 1; v < n; v++)
        for (size_t u = 0; u < v; u++, bits++) {
            if (bits % 6 == 0) body[bits / 6] = 63;
            for (size_t i = v ? s->m.ends[v - 1] : 0; i < s->m.ends[v]; i++)
                if (s->m.neighbours[i] == u) { body[bits / 6] = (uint8_t)(body[bits / 6] + (32 >> bits % 6)); break; }
        }
    line->length += (bits + 5) / 6;
    line->at[line->length++] = '\n';
}

/* Reads a record, and draws it for the checks; a map that is not drawn is checked with all at one point. */
static int begins(job *s)
{
    if (!read_map(&s->m)) return 0;
    s->edges = room((s->m.k + 1) * sizeof *s->edges);
    s->edge_count = 0;
    for (size_t v = 0, i = 0; v < s->m.n; v++)
        for (; i < s->m.ends[v]; i++)
            if (s->m.neighbours[i] < v) s->edges[s->edge_count++] = (pigale_edge){s->m.neighbours[i], (uint16_t)v};
    put_texts(s);
    for (int i = 0; i < 4; i++) {
        static const char *const words[] = {"schnyder", "convex", "bars", "rect"};
        text *it = &s->figures[i];
        pigale_run((const uint8_t *)words[i], strlen(words[i]), s->record.at, s->record.length, it->at, sizeof it->at, &it->length);
        for (it->length -= it->length != 0; it->length && it->at[it->length - 1] != '\n';) it->length--; /* without its last line */
    }
    memset(&s->counts, 0, sizeof s->counts);
    pigale_count(MAP, &s->counts, FOUND);
    pigale_schnyder(MAP, GIVEN(grid, 0), GIVEN(grid, 1), FOUND);
    pigale_convex(MAP, GIVEN(convex, 0), GIVEN(convex, 1), FOUND);
    pigale_bars(MAP, GIVEN(bars, 0), GIVEN(bars, 1), GIVEN(bars, 2), s->columns, s->m.k / 2, FOUND);
    pigale_rect(MAP, GIVEN(rects, 0), GIVEN(rects, 1), GIVEN(rects, 2), GIVEN(rects, 3), FOUND);
    return 1;
}

static void ends(job *s) { free(s->edges), free(s->m.ends), free(s->m.neighbours); }

static void clear(job *s)
{
    for (size_t i = 0; i < sizeof s->out / 4; i++) ((uint32_t *)&s->out)[i] = FILLED;
    memset(&s->found, 0, sizeof s->found);
}

typedef struct {
    job *s;
    int call;
    pigale_status status;
} turn;

static void *take(void *at)
{
    turn *t = at;
    t->status = calls[t->call].call(t->s);
    return 0;
}

/* Calls each on a thread with the stack of the table; the fence below it ends the program where that is too small. */
static int look_at_stacks(job *s)
{
    for (int i = 0; i < CALLS; i++) {
        pthread_attr_t how;
        pthread_t thread;
        turn t = {s, i, 0};
        clear(s);
        if (pthread_attr_init(&how)
            || pthread_attr_setstacksize(&how, 1024 * (s->m.n <= 255 ? calls[i].few : calls[i].most))
            || pthread_create(&thread, &how, take, &t) || pthread_join(thread, 0))
            return fprintf(stderr, "limits: no thread\n"), 1;
        pthread_attr_destroy(&how);
    }
    return 0;
}

static int is_clear(const job *s)
{
    for (size_t i = 0; i < sizeof s->out / 4; i++)
        if (((const uint32_t *)&s->out)[i] != FILLED) return 0;
    return 1;
}

/* Refuses each request of a call in turn. Those for many maps and of the program say more of what they wrote. */
static int look_at_memory(job *s, job *first, int i, long *calls_made)
{
    int is_bare = !strstr(calls[i].name, "many") && strncmp(calls[i].name, "run", 3);
    clear(s);
    pigale_status status = calls[i].call(s);
    memcpy(first, s, sizeof *s);
    for (long k = 0;; k++) {
        clear(s);
        requests = 0, refused = k, blocks = 0;
        pigale_status now = calls[i].call(s);
        long left = blocks;
        int was_refused = requests > k;
        refused = -1;
        ++*calls_made;
        int is_same = now == status && !memcmp(&s->out, &first->out, sizeof s->out) && !memcmp(&s->found, &first->found, sizeof s->found);
        if (left) return fprintf(stderr, "limits: %s, request %ld: %ld blocks are lost\n", calls[i].name, k, left), 1;
        if (!is_same && now != PIGALE_NO_MEMORY)
            return fprintf(stderr, "limits: %s, request %ld: status %d for %d\n", calls[i].name, k, now, status), 1;
        if (now == PIGALE_NO_MEMORY && is_bare && !is_clear(s))
            return fprintf(stderr, "limits: %s, request %ld: written without memory\n", calls[i].name, k), 1;
        if (!was_refused) return 0;
    }
}

/* What the library asks of C. */
typedef struct {
    size_t ok;
    uint8_t *at;
} tried;

tried rattle_alloc(size_t size, size_t align), rattle_realloc(uint8_t *at, size_t kept, size_t size, size_t align);
void rattle_dealloc(uint8_t *at);

typedef struct {
    uint8_t *at;
    size_t size;
} piece;

/* Each byte of a piece is its number in the table. */
static int is_whole(const piece *p, size_t size, int number)
{
    for (size_t i = 0; i < size; i++)
        if (p->at[i] != number) return fprintf(stderr, "limits: piece %d of %zu is changed at %zu\n", number, size, i), 0;
    return 1;
}

static int resizes(piece *p, size_t size, int number)
{
    size_t kept = !p->at ? 0 : p->size < size ? p->size : size;
    tried made = p->at ? rattle_realloc(p->at, kept, size, 8) : rattle_alloc(size, 8);
    if (!made.ok) return !p->at || is_whole(p, p->size, number);
    *p = (piece){made.at, size};
    if ((uintptr_t)made.at % 16 || !is_whole(p, kept, number)) return 0;
    memset(p->at, number, size);
    return 1;
}

/* Takes, resizes and gives back pieces, and refuses some requests; now and then all are given back. */
static int look_at_pieces(long steps)
{
    enum { PIECES = 40 };
    piece all[PIECES] = {{0, 0}};
    long most = 0;
    blocks = 0;
    for (long step = 0; step <= steps; step++) {
        int is_last = step == steps || !any(200), one = (int)any(PIECES);
        refused = any(10) ? -1 : requests;
        if (!all[one].at || any(3))
            if (!resizes(&all[one], any(20) ? any(any(4) ? 200 : 6000) : any(100000), one)) return 1;
        if (blocks > most) most = blocks;
        for (int i = 0; i < PIECES; i++)
            if (all[i].at && (is_last || (i == one && !any(2)))) {
                if (!is_whole(&all[i], all[i].size, i)) return 1;
                rattle_dealloc(all[i].at);
                all[i].at = 0;
            }
        if (is_last && blocks) return fprintf(stderr, "limits: %ld blocks are lost\n", blocks), 1;
    }
    printf("%ld requests of pieces, %ld blocks at most\n", steps, most);
    return 0;
}

int main(int count, char **words)
{
    if (count == 2 && !strcmp(words[1], "pieces")) return look_at_pieces(200000);
    int is_stack = count == 2 && !strcmp(words[1], "stack");
    if (!is_stack && (count != 2 || strcmp(words[1], "memory"))) return 2;
    job *s = calloc(1, sizeof *s), *first = calloc(1, sizeof *first);
    long made = 0, records = 0;
    if (!s || !first) return 2;
    while (begins(s)) {
        records++;
        if (is_stack && look_at_stacks(s)) return 1;
        for (int i = 0; !is_stack && i < CALLS; i++)
            if (look_at_memory(s, first, i, &made)) return 1;
        ends(s);
    }
    if (is_stack) printf("%ld records: each of %d calls ran in its stack\n", records, CALLS);
    else printf("%ld records: %ld calls with a request refused\n", records, made);
    free(s), free(first);
    return 0;
}
