/* What both tests of the library share: maps read from planar_code, texts of answers, and chance. */
#ifndef PIGALE_TEST_H
#define PIGALE_TEST_H

#include "pigale.h"

#include <inttypes.h>
#include <stdio.h>
#include <stdlib.h>
#include <string.h>

static const char *const refusals[] = {"", "OutOfRange", "Loop", "Repeated", "OneSided", "Small", "Genus", "NotConnected",
    "CutVertex", "SeparatingPair", "OuterNotQuad", "NotTriangle", "SeparatingTriangle", "NoInner"};
static const int numbers_of_refusal[] = {0, 2, 1, 2, 2, 1, 1, 0, 1, 2, 0, 2, 3, 0};

/* A record: the arrays of its map, each of exactly as much memory as it has. */
typedef struct {
    size_t n, k;
    size_t *ends;
    uint16_t *neighbours;
} map;

static void *room(size_t size) { void *at = malloc(size ? size : 1); if (!at) abort(); return at; }

static _Thread_local uint64_t state = 1;

static inline uint32_t any(uint32_t below)
{
    state = state * 6364136223846793005u + 1442695040888963407u;
    return (uint32_t)((state >> 33) % below);
}

static inline int read_map(map *m)
{
    int c = getchar(), wide = 0;
    if (c == EOF) return 0;
    if (c == 0) { wide = 1; c = getchar(); c = c * 256 + getchar(); }
    m->n = (size_t)c;
    m->k = 0;
    m->ends = room(m->n * sizeof *m->ends);
    size_t most = 16;
    uint16_t *all = room(most * sizeof *all);
    for (size_t v = 0; v < m->n; v++) {
        for (;;) {
            int u = getchar();
            if (wide) u = u * 256 + getchar();
            if (u == 0) break;
            if (m->k == most) { all = realloc(all, (most *= 2) * sizeof *all); if (!all) abort(); }
            all[m->k++] = (uint16_t)(u - 1);
        }
        m->ends[v] = m->k;
    }
    m->neighbours = room(m->k * sizeof *all);
    memcpy(m->neighbours, all, m->k * sizeof *all);
    free(all);
    return 1;
}

static inline void put_list(FILE *out, const map *m, size_t v)
{
    fputc(':', out);
    for (size_t i = v ? m->ends[v - 1] : 0; i < m->ends[v]; i++) fprintf(out, " %d", m->neighbours[i] + 1);
    fputc('\n', out);
}

static inline void put_numbers(FILE *out, pigale_numbers found, int count, int from)
{
    uint32_t all[] = {found.first, found.second, found.third, found.fourth};
    for (int i = 0; i < count; i++) fprintf(out, " %" PRIu32, all[i] + (uint32_t)from);
}

static inline void put_refusal(FILE *out, size_t number, pigale_status status, pigale_numbers found)
{
    if (status < 1 || status > 13) { fprintf(stderr, "test: status %d\n", status); exit(1); }
    fprintf(out, "refused %zu %d %s", number, status, refusals[status]);
    put_numbers(out, found, numbers_of_refusal[status], status == PIGALE_SMALL || status == PIGALE_GENUS ? 0 : 1);
    fputc('\n', out);
}

#endif
