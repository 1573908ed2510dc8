/* What `pigale bars` does, as lean as C is likely to be, for maps of its class: well-formed planar_code on standard input,
   figures on standard output, with the same tests of a map. It stops with status 3 at any other record. The floor beside
   which bench/streams.py sets `bars`; the bars may be others, and `pigale verify` judges them. */
#include "lean.h"

enum { UNMET = 65535 };

static unsigned short face[DARTS], met[MOST], parent[MOST], low[MOST], by_time[MOST], stack[MOST];
static unsigned short later[MOST + 1], earlier[MOST + 1], rank[MOST], number[2 * MOST], waits[2 * MOST], queue[2 * MOST];
static unsigned short column[DARTS / 2];
static unsigned char goes_before[MOST];
static unsigned face_dart[DARTS], next_dart[MOST], own[MOST];

static unsigned number_faces(unsigned n) {
    unsigned faces = 0;
    memset(face, 255, start[n] * sizeof face[0]);
    for (unsigned first = 0; first < start[n]; first++) {
        if (face[first] != UNMET) continue;
        face_dart[faces] = first;
        for (unsigned d = first; face[d] == UNMET; d = turned(twin[d])) face[d] = faces;
        faces++;
    }
    return faces;
}

static void meet(unsigned v, unsigned from, unsigned time) {
    parent[v] = from;
    met[v] = low[v] = time;
    by_time[time] = v;
    next_dart[v] = start[v];
}

/* Searches by depth, with the least time that is reached from below each vertex; fails at a cut vertex. */
static void search(unsigned n) {
    unsigned height = 1, time = 1;
    memset(met, 255, n * sizeof met[0]);
    meet(0, 0, 0);
    stack[0] = 0;
    while (height > 0) {
        unsigned v = stack[height - 1];
        if (next_dart[v] < start[v + 1]) {
            unsigned u = head[next_dart[v]++];
            if (met[u] == UNMET) {
                meet(u, v, time++);
                stack[height++] = u;
            } else if (u != parent[v] && met[u] < low[v])
                low[v] = met[u];
        } else if (--height > 0) {
            unsigned p = parent[v];
            if (low[v] < low[p]) low[p] = low[v];
            if (p == 0 ? met[v] != 1 : low[v] >= met[p]) fail();
        }
    }
    if (time != n) fail();
}

/* Each vertex comes before its parent or after it, by where the one stands that it reaches lowest. */
static void order(unsigned n) {
    unsigned none = MOST, t = by_time[1], k = 0;
    later[0] = t;
    earlier[t] = 0;
    earlier[0] = later[t] = none;
    goes_before[0] = 1;
    goes_before[t] = 0;
    for (unsigned i = 2; i < n; i++) {
        unsigned v = by_time[i], p = parent[v], before = goes_before[by_time[low[v]]];
        unsigned a = before ? earlier[p] : p, b = before ? p : later[p];
        later[a] = earlier[b] = v;
        earlier[v] = a;
        later[v] = b;
        goes_before[p] = !before;
    }
    for (unsigned v = 0; v != none; v = later[v]) rank[v] = k++;
}

/* Numbers the faces by the longest ways across edges, from the face of the first dart. */
static void number_dual(unsigned n, unsigned faces) {
    unsigned begin = face[start[0]], put_in = 1;
    memset(waits, 0, faces * sizeof waits[0]);
    memset(number, 0, faces * sizeof number[0]);
    for (unsigned d = 0; d < start[n]; d++)
        if (rank[tail[d]] < rank[head[d]]) waits[face[twin[d]]]++;
    queue[0] = begin;
    for (unsigned k = 0; k < put_in; k++) {
        unsigned f = queue[k], first = face_dart[f], d = first;
        do {
            unsigned other = face[twin[d]];
            if (rank[tail[d]] < rank[head[d]] && other != begin) {
                if (number[other] <= number[f]) number[other] = number[f] + 1;
                if (--waits[other] == 0) queue[put_in++] = other;
            }
            d = turned(twin[d]);
        } while (d != first);
    }
    if (put_in != faces) fail();
}

static unsigned place_columns(unsigned n) {
    unsigned edges = 0;
    for (unsigned v = 0; v < n; v++) {
        own[v] = edges;
        for (unsigned d = start[v]; d < start[v + 1]; d++) edges += head[d] > v;
    }
    return edges;
}

static void put_bar(unsigned v) {
    unsigned least = UNMET, most = 0;
    for (unsigned d = start[v]; d < start[v + 1]; d++) {
        unsigned u = head[d], x = number[face[rank[v] < rank[u] ? d : twin[d]]];
        if (x < least) least = x;
        if (x > most) most = x;
        if (u < v) column[own[u]++] = x;
    }
    put_vertex(v);
    put_text(" y", 2);
    put_after_space(rank[v]);
    put_text(" x", 2);
    put_after_space(least);
    put_after_space(most);
    put_neighbours(v);
}

static void draw(unsigned record, unsigned n) {
    if (n < 3 || start[1] == 0) fail();
    unsigned faces = number_faces(n);
    search(n);
    if (n + faces != start[n] / 2 + 2) fail();
    order(n);
    number_dual(n, faces);
    unsigned edges = place_columns(n);
    put_first(record, " bars", 5, n);
    for (unsigned v = 0; v < n; v++) put_bar(v);
    put_text("columns", 7);
    for (unsigned i = 0; i < edges; i++) put_after_space(column[i]);
    text[written++] = '\n';
}

int main(void) { return each_record(draw); }
