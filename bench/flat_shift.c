/* What `pigale shift` does with triangulations of at most 255 vertices, by loops over all darts that branch as seldom as C
   can: more instructions than loops over lists take, and less time. With -DCOUNT it only counts. It stops with status 3 at
   any other record. The points may be others; `pigale verify` judges them. */
#include "lean.h"

enum { FEW = 256, NONE = 0, MARKED = 1, GONE = 2 };

static unsigned cell[FEW * FEW], next[DARTS];
static unsigned char state[FEW], seen[FEW];
static unsigned short near[FEW], queue[FEW + 1], stack[40 * FEW];
static unsigned short at[FEW], rank[FEW], left[FEW], right[FEW], next_on[FEW], cover[FEW];
static int apart[FEW], height[FEW];
static size_t top;

/* Reads a record of n vertices: each number is an entry, and each 0 ends a list, written in either case. */
static size_t read_flat(size_t place, unsigned n) {
    unsigned numbers = 7 * n - 12, darts = 0, lists = 0, wrong = 0;
    start[0] = 0;
    for (unsigned i = 0; i < numbers; i++) {
        unsigned u = input[place + i], ends = u == 0;
        head[darts] = u - 1;
        tail[darts] = lists;
        wrong |= u > n;
        darts += 1 - ends;
        start[lists + 1] = darts;
        lists += ends;
    }
    if (wrong || darts != 6 * n - 12 || lists != n) fail();
    return place + numbers;
}

/* The twin of each dart, by a table with a cell for each two vertices, of which each is tried. */
static void find_flat_twins(unsigned darts) {
    unsigned wrong = 0;
    for (unsigned d = 0; d < darts; d++) cell[tail[d] << 8 | head[d]] = d;
    for (unsigned d = 0; d < darts; d++) {
        unsigned v = tail[d], u = head[d], t = cell[u << 8 | v];
        wrong |= (cell[v << 8 | u] ^ d) | (t >= darts) | (u == v);
        t = t < darts ? t : 0;
        wrong |= (head[t] ^ v) | (tail[t] ^ u);
        twin[d] = t;
    }
    if (wrong) fail();
}

/* Three steps along each face lead back. */
static void test_triangles(unsigned n, unsigned darts) {
    unsigned wrong = 0;
    for (unsigned d = 0; d < darts; d++) next[d] = d + 1;
    for (unsigned v = 0; v < n; v++) next[start[v + 1] - 1] = start[v];
    for (unsigned d = 0; d < darts; d++) wrong |= next[twin[next[twin[next[twin[d]]]]]] ^ d;
    if (wrong) fail();
}

static void test_connected(unsigned n) {
    unsigned filled = 1;
    memset(seen, 0, n);
    seen[0] = 1;
    queue[0] = 0;
    for (unsigned k = 0; k < filled && filled < n; k++)
        for (unsigned d = start[queue[k]]; d < start[queue[k] + 1]; d++) {
            queue[filled] = head[d];
            filled += 1 - seen[head[d]];
            seen[head[d]] = 1;
        }
    if (filled != n) fail();
}

/* Marks a vertex; each neighbour is pushed, and stays where it is marked and has two marked neighbours. */
static void mark(unsigned v) {
    state[v] = MARKED;
    for (unsigned d = start[v]; d < start[v + 1]; d++) {
        unsigned u = head[d], count = ++near[u];
        stack[top] = u;
        top += (count == 2) & (state[u] == MARKED);
    }
    stack[top] = v;
    top += near[v] == 2;
}

/* Takes the vertex of rank k off, notes its two neighbours on the cycle, and marks those that are neither on it nor off. */
static void take_off(unsigned v, unsigned k) {
    static unsigned char fresh[FEW];
    unsigned first = 0, last = 0, met = 0, found = 0;
    state[v] = GONE;
    at[k] = v;
    rank[v] = k;
    for (unsigned d = start[v]; d < start[v + 1]; d++) {
        unsigned u = head[d], on = state[u] == MARKED, count = --near[u];
        stack[top] = u;
        top += (count == 2) & on;
        first = on & (met == 0) ? u : first;
        last = on ? u : last;
        met |= on;
        fresh[found] = u;
        found += state[u] == NONE;
    }
    left[v] = first;
    right[v] = last;
    for (unsigned i = 0; i < found; i++) mark(fresh[i]);
}

static void order(unsigned n) {
    unsigned t = 0, s = head[0];
    memset(state, NONE, n);
    memset(near, 0, n * sizeof near[0]);
    top = 0;
    mark(t);
    mark(s);
    mark(head[next[twin[0]]]);
    for (unsigned k = n - 1; k >= 2; k--) {
        unsigned v;
        do {
            if (top == 0) fail();
            v = stack[--top];
        } while ((state[v] != MARKED) | (near[v] != 2) | (v == t) | (v == s));
        take_off(v, k);
    }
    at[0] = s;
    at[1] = t;
    rank[s] = 0;
    rank[t] = 1;
}

/* Which of two places of the contour comes first: it is walked along from both. */
static int comes_first(unsigned a, unsigned b) {
    for (unsigned x = a, y = b;;) {
        if (x != 1 && (x = next_on[x]) == b) return 1;
        if (y != 1 && (y = next_on[y]) == a) return 0;
    }
}

/* Each vertex is put over a row of the contour; what it covers keeps how far it stands from where the row begins. */
static void shift(unsigned n) {
    memset(apart, 0, n * sizeof apart[0]);
    memset(height, 0, n * sizeof height[0]);
    next_on[0] = 1;
    for (unsigned k = 2; k < n; k++) {
        unsigned p = rank[left[at[k]]], q = rank[right[at[k]]];
        if (!comes_first(p, q)) {
            unsigned other = p;
            p = q;
            q = other;
        }
        int far = height[p], from = height[p];
        for (unsigned v = p; v != q;) {
            v = next_on[v];
            far += apart[v];
            apart[v] = far + 1;
            cover[v] = k;
        }
        height[k] = (far + 2 + height[q]) / 2;
        apart[k] = height[k] - from;
        apart[q] = far + 2 - height[k];
        next_on[p] = k;
        next_on[k] = q;
    }
    apart[1] += apart[n - 1];
    for (unsigned v = n - 2; v >= 2; v--) apart[v] += apart[cover[v]] - height[cover[v]];
}

#ifdef COUNT
static void answer(unsigned record, unsigned n) {
    put_text("count ", 6);
    put(record);
    put_text(" n", 2);
    put_after_space(n);
    put_text(" m", 2);
    put_after_space(3 * n - 6);
    put_text(" f", 2);
    put_after_space(2 * n - 4);
    put_text(" c 1 genus 0\n", 13);
}
#else
static void answer(unsigned record, unsigned n) {
    order(n);
    shift(n);
    put_first(record, " shift", 6, n);
    for (unsigned v = 0; v < n; v++) {
        put_vertex(v);
        put_text(" at", 3);
        put_after_space(apart[rank[v]]);
        put_after_space(height[rank[v]]);
        put_neighbours(v);
    }
}
#endif

int main(void) {
    size_t length = fread(input, 1, ROOM, stdin), place = 0;
    unsigned records = 0;
    if (length >= 15 && memcmp(input, ">>planar_code<<", 15) == 0) place = 15;
    make_decimals();
    while (place < length) {
        unsigned n = input[place++];
        if (n < 3 || length - place < 7 * n - 12) fail();
        place = read_flat(place, n);
        find_flat_twins(start[n]);
        test_triangles(n, start[n]);
        test_connected(n);
        answer(++records, n);
        if (written > OUT / 2) {
            fwrite(text, 1, written, stdout);
            written = 0;
        }
    }
    fwrite(text, 1, written, stdout);
    printf("end records %u refused 0\n", records);
    return 0;
}
