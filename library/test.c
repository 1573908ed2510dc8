/* A test of the library: what it answers to the records of a planar_code, as the program's text.
 *
 *   test JOB < RECORDS                 the text of the job: count, shift, schnyder, convex, bars or rect
 *   test embed < LINES                 the text of the job embed, for lines of graph6
 *   test verify VERDICTS < RECORDS     figures of all jobs, some with a number changed; into VERDICTS their verdicts
 *   test run WORDS < INPUT             pigale_run
 *   test random CALLS                  calls with random arrays: nothing is to fail but by its status */
#include "test.h"

typedef struct {
    const char *name;
    int numbers;
} fault;

static fault fault_of(pigale_status status)
{
    switch (status) {
    case PIGALE_OK: return (fault){"yes", 0};
    case PIGALE_OUT_OF_GRID: return (fault){"OutOfGrid", 1};
    case PIGALE_SAME_PLACE: return (fault){"SamePlace", 2};
    case PIGALE_ON_EDGE: return (fault){"OnEdge", 3};
    case PIGALE_CROSS: return (fault){"Cross", 4};
    case PIGALE_TURNED: case PIGALE_BARS_TURNED: return (fault){"Turned", 1};
    case PIGALE_BENT: return (fault){"Bent", 3};
    case PIGALE_OUTER_BENT: return (fault){"OuterBent", 0};
    case PIGALE_BAD_SHAPE: return (fault){"BadShape", 0};
    case PIGALE_BAD_HEIGHT: return (fault){"BadHeight", 1};
    case PIGALE_BAD_BAR: return (fault){"BadBar", 1};
    case PIGALE_BAD_COLUMN: return (fault){"BadColumn", 2};
    case PIGALE_THROUGH: return (fault){"Through", 3};
    case PIGALE_BAD_RECT: return (fault){"BadRect", 1};
    case PIGALE_MEET: return (fault){"Meet", 2};
    case PIGALE_GAP: return (fault){"Gap", 0};
    case PIGALE_CONTACT: return (fault){"Contact", 2};
    case PIGALE_NO_FRAME: return (fault){"NoFrame", 0};
    case PIGALE_FRAME: return (fault){"Frame", 1};
    default: return (fault){"?", 0};
    }
}

static void put_verdict(FILE *out, size_t number, pigale_status status, pigale_numbers found)
{
    fault f = fault_of(status);
    fprintf(out, "verdict %zu %s", number, f.name);
    put_numbers(out, found, f.numbers, 1);
    fputc('\n', out);
}

/* What a job draws: four rows of numbers at most. */
typedef struct {
    size_t n, columns;
    int32_t *row[4];
} figure;

static figure figure_for(const map *m, size_t last)
{
    figure f = {m->n, last, {0, 0, 0, 0}};
    for (int i = 0; i < 4; i++) f.row[i] = room((i == 3 ? last : m->n) * sizeof(int32_t));
    return f;
}

static void drop(figure f) { for (int i = 0; i < 4; i++) free(f.row[i]); }

static pigale_status draw(const char *job, const map *m, figure f, pigale_numbers *found)
{
    if (!strcmp(job, "shift")) return pigale_shift(m->ends, m->n, m->neighbours, m->k, f.row[0], m->n, f.row[1], m->n, found);
    if (!strcmp(job, "schnyder"))
        return pigale_schnyder(m->ends, m->n, m->neighbours, m->k, f.row[0], m->n, f.row[1], m->n, found);
    if (!strcmp(job, "convex")) return pigale_convex(m->ends, m->n, m->neighbours, m->k, f.row[0], m->n, f.row[1], m->n, found);
    if (!strcmp(job, "bars"))
        return pigale_bars(m->ends, m->n, m->neighbours, m->k, f.row[0], m->n, f.row[1], m->n, f.row[2], m->n, f.row[3],
            f.columns, found);
    return pigale_rect(m->ends, m->n, m->neighbours, m->k, f.row[0], m->n, f.row[1], m->n, f.row[2], m->n, f.row[3], m->n,
        found);
}

static size_t last_row(const char *job, const map *m) { return !strcmp(job, "bars") ? m->k / 2 : m->n; }

static void put_figure(FILE *out, size_t number, const char *job, const map *m, figure f)
{
    fprintf(out, "figure %zu %s %zu\n", number, job, m->n);
    for (size_t v = 0; v < m->n; v++) {
        fprintf(out, "%zu ", v + 1);
        if (!strcmp(job, "bars"))
            fprintf(out, "y %" PRId32 " x %" PRId32 " %" PRId32, f.row[0][v], f.row[1][v], f.row[2][v]);
        else if (!strcmp(job, "rect"))
            fprintf(out, "x %" PRId32 " %" PRId32 " y %" PRId32 " %" PRId32, f.row[0][v], f.row[1][v], f.row[2][v], f.row[3][v]);
        else
            fprintf(out, "at %" PRId32 " %" PRId32, f.row[0][v], f.row[1][v]);
        put_list(out, m, v);
    }
    if (!strcmp(job, "bars")) {
        fprintf(out, "columns");
        for (size_t i = 0; i < f.columns; i++) fprintf(out, " %" PRId32, f.row[3][i]);
        fputc('\n', out);
    }
}

static int say_job(const char *job)
{
    map m;
    size_t records = 0, refused = 0;
    while (read_map(&m)) {
        pigale_numbers found;
        pigale_status status;
        records++;
        if (!strcmp(job, "count")) {
            pigale_counts all;
            status = pigale_count(m.ends, m.n, m.neighbours, m.k, &all, &found);
            if (!status)
                printf("count %zu n %" PRIu32 " m %" PRIu32 " f %" PRIu32 " c %" PRIu32 " genus %" PRIu32 "\n", records, all.n,
                    all.m, all.f, all.c, all.genus);
        } else {
            figure f = figure_for(&m, last_row(job, &m));
            status = draw(job, &m, f, &found);
            if (!status) put_figure(stdout, records, job, &m, f);
            drop(f);
        }
        if (status) { refused++; put_refusal(stdout, records, status, found); }
        free(m.ends), free(m.neighbours);
    }
    printf("end records %zu refused %zu\n", records, refused);
    return 0;
}

/* The ends of the paths that begin or end at the branches of a kind: a path, and whether its last vertex is meant. */
static const int places_of_branch[2][6][2] = {{{0, 0}, {0, 1}, {1, 1}, {2, 1}, {3, 1}, {0, 0}},
    {{0, 0}, {3, 0}, {6, 0}, {0, 1}, {1, 1}, {2, 1}}};

static void put_witness(size_t number, const map *m, int is_k33, const char *line)
{
    printf("figure %zu witness %s %sbranch", number, is_k33 ? "K33" : "K5", line);
    for (int i = 0; i < 5 + is_k33; i++) {
        size_t path = (size_t)places_of_branch[is_k33][i][0], end = m->ends[path], start = path ? m->ends[path - 1] : 0;
        printf(" %d", m->neighbours[places_of_branch[is_k33][i][1] ? end - 1 : start] + 1);
    }
    putchar('\n');
    for (size_t p = 0; p < (is_k33 ? 9 : 10); p++) {
        printf("path");
        for (size_t i = p ? m->ends[p - 1] : 0; i < m->ends[p]; i++) printf(" %d", m->neighbours[i] + 1);
        putchar('\n');
    }
}

static int say_embeddings(void)
{
    static char line[6000];
    size_t records = 0, refused = 0;
    while (fgets(line, sizeof line, stdin)) {
        uint16_t n = (uint16_t)(line[0] - 63);
        size_t count = 0;
        pigale_edge *edges = room((size_t)n * n * sizeof *edges);
        for (uint16_t a = 0; a < n; a++)
            for (uint16_t b = (uint16_t)(a + 1); b < n; b++) {
                int at = b * (b - 1) / 2 + a;
                if ((line[1 + at / 6] - 63) >> (5 - at % 6) & 1) edges[count++] = (pigale_edge){a, b};
            }
        map m = {n, 2 * count, 0, 0};
        size_t ends = n < 10 ? 10 : n;
        m.ends = room(ends * sizeof *m.ends), m.neighbours = room(m.k * sizeof *m.neighbours);
        figure f = figure_for(&m, n);
        pigale_numbers found;
        pigale_status status = pigale_embed(n, edges, count, m.ends, ends, m.neighbours, m.k, f.row[0], n, f.row[1], n, &found);
        records++;
        if (!status) put_figure(stdout, records, "schnyder", &m, f);
        else if (status == PIGALE_K5 || status == PIGALE_K33) put_witness(records, &m, status == PIGALE_K33, line);
        else refused++, put_refusal(stdout, records, status, found);
        drop(f), free(edges), free(m.ends), free(m.neighbours);
    }
    printf("end records %zu refused %zu\n", records, refused);
    return 0;
}

static pigale_status judge(const char *job, const map *m, figure f, int32_t faces, pigale_numbers *found)
{
    int32_t n = (int32_t)m->n;
    if (!strcmp(job, "shift"))
        return pigale_check(m->ends, m->n, m->neighbours, m->k, f.row[0], m->n, f.row[1], m->n, 2 * n - 4, n - 2, found);
    if (!strcmp(job, "schnyder"))
        return pigale_check(m->ends, m->n, m->neighbours, m->k, f.row[0], m->n, f.row[1], m->n, n - 2, n - 2, found);
    if (!strcmp(job, "convex"))
        return pigale_check_convex(m->ends, m->n, m->neighbours, m->k, f.row[0], m->n, f.row[1], m->n, faces - 1, faces - 1,
            found);
    if (!strcmp(job, "bars"))
        return pigale_check_bars(m->ends, m->n, m->neighbours, m->k, f.row[0], m->n, f.row[1], m->n, f.row[2], m->n, f.row[3],
            f.columns, faces - 1, found);
    return pigale_check_rects(m->ends, m->n, m->neighbours, m->k, f.row[0], m->n, f.row[1], m->n, f.row[2], m->n, f.row[3],
        m->n, found);
}

static int say_verdicts(const char *path)
{
    static const char *const jobs[] = {"shift", "schnyder", "convex", "bars", "rect"};
    FILE *verdicts = fopen(path, "w");
    map m;
    size_t figures = 0;
    if (!verdicts) return 1;
    while (read_map(&m)) {
        pigale_numbers found;
        pigale_counts all;
        if (!pigale_count(m.ends, m.n, m.neighbours, m.k, &all, &found))
            for (int j = 0; j < 5; j++) {
                figure f = figure_for(&m, last_row(jobs[j], &m));
                if (!draw(jobs[j], &m, f, &found)) {
                    int rows = j < 3 ? 2 : 4;
                    if (any(4)) {
                        int i = (int)any((uint32_t)rows);
                        size_t size = i == 3 && j == 3 ? f.columns : m.n;
                        f.row[i][any((uint32_t)size)] += (int32_t)any(5) - 2;
                    }
                    put_figure(stdout, ++figures, jobs[j], &m, f);
                    put_verdict(verdicts, figures, judge(jobs[j], &m, f, (int32_t)all.f, &found), found);
                }
                drop(f);
            }
        free(m.ends), free(m.neighbours);
    }
    return fclose(verdicts);
}

static int run(const char *words)
{
    size_t most = 1 << 16, count = 0, length = 0, capacity = 64;
    uint8_t *input = room(most);
    for (int c; (c = getchar()) != EOF; input[count++] = (uint8_t)c)
        if (count == most) { input = realloc(input, most *= 2); if (!input) abort(); }
    uint8_t *text = room(capacity);
    pigale_status status = pigale_run((const uint8_t *)words, strlen(words), input, count, text, capacity, &length);
    if (length > capacity) {
        free(text);
        text = room(capacity = length);
        status = pigale_run((const uint8_t *)words, strlen(words), input, count, text, capacity, &length);
    }
    fwrite(text, 1, length, stdout);
    free(input), free(text);
    return status;
}

static int32_t *numbers(size_t count)
{
    int32_t *at = room(count * sizeof *at);
    int32_t reach = any(4) ? 9 : 2000000000;
    for (size_t i = 0; i < count; i++) at[i] = (int32_t)any((uint32_t)reach) - (any(8) ? 0 : reach / 2);
    return at;
}

static int call_at_random(long calls)
{
    long by_status[256] = {0};
    for (long c = 0; c < calls; c++) {
        map m;
        m.n = any(9), m.k = any(30);
        m.ends = room(m.n * sizeof *m.ends), m.neighbours = room(m.k * sizeof *m.neighbours);
        size_t at = 0;
        int fair = (int)any(3);
        for (size_t v = 0; v < m.n; v++) {
            at += any(5);
            if (fair && at > m.k) at = m.k;
            m.ends[v] = fair ? (v + 1 == m.n ? m.k : at) : any(2) ? any(40) : SIZE_MAX - any(3);
        }
        for (size_t i = 0; i < m.k; i++) m.neighbours[i] = (uint16_t)(any(9) ? any((uint32_t)m.n + 1) : any(65536));
        size_t size[4];
        int32_t *row[4];
        for (int i = 0; i < 4; i++) size[i] = any(3) ? (i == 3 && any(2) ? m.k / 2 : m.n) : any(12), row[i] = numbers(size[i]);
        pigale_numbers found = {9, 9, 9, 9};
        pigale_counts all;
        size_t length;
        uint8_t text[40], words[8], status = 0;
        int32_t width = (int32_t)any(20) - 3, height = (int32_t)any(20) - 3;
        pigale_edge *edges = room(m.n * m.n * sizeof *edges);
        size_t count = 0;
        for (size_t a = 0; a < m.n; a++)
            for (size_t b = a + 1; b < m.n; b++)
                if (any(2)) edges[count++] = (pigale_edge){(uint16_t)a, (uint16_t)b};
        if (count && !any(3)) edges[any((uint32_t)count)].b = (uint16_t)any(12);
        uint16_t small[3][12];
        size_t cut[12], maps = 1 + any(3), map_ends[4];
        for (size_t i = 0; i < maps; i++) map_ends[i] = i + 1 == maps && any(8) ? m.n : any((uint32_t)m.n + 2);
        pigale_status statuses[4];
        pigale_numbers founds[4];
        switch (any(22)) {
        case 0: status = pigale_count(m.ends, m.n, m.neighbours, m.k, &all, &found); break;
        case 1: status = pigale_shift(m.ends, m.n, m.neighbours, m.k, row[0], size[0], row[1], size[1], &found); break;
        case 2: status = pigale_schnyder(m.ends, m.n, m.neighbours, m.k, row[0], size[0], row[1], size[1], &found); break;
        case 3: status = pigale_convex(m.ends, m.n, m.neighbours, m.k, row[0], size[0], row[1], size[1], &found); break;
        case 4:
            status = pigale_bars(m.ends, m.n, m.neighbours, m.k, row[0], size[0], row[1], size[1], row[2], size[2], row[3],
                size[3], &found);
            break;
        case 5:
            status = pigale_rect(m.ends, m.n, m.neighbours, m.k, row[0], size[0], row[1], size[1], row[2], size[2], row[3],
                size[3], &found);
            break;
        case 6:
            status = pigale_check(m.ends, m.n, m.neighbours, m.k, row[0], size[0], row[1], size[1], width, height, &found);
            break;
        case 7:
            status = pigale_check_convex(m.ends, m.n, m.neighbours, m.k, row[0], size[0], row[1], size[1], width, height,
                &found);
            break;
        case 8:
            status = pigale_check_bars(m.ends, m.n, m.neighbours, m.k, row[0], size[0], row[1], size[1], row[2], size[2],
                row[3], size[3], width, &found);
            break;
        case 9:
            status = pigale_check_rects(m.ends, m.n, m.neighbours, m.k, row[0], size[0], row[1], size[1], row[2], size[2],
                row[3], size[3], &found);
            break;
        case 10:
            status = pigale_embed(any(9) ? (uint16_t)m.n : (uint16_t)any(65536), edges, count, m.ends, m.n, m.neighbours, m.k,
                row[0], size[0], row[1], size[1], &found);
            break;
        case 11: status = pigale_map_of_graph((uint16_t)m.n, edges, count, m.ends, m.n, m.neighbours, m.k, &found); break;
        case 12: status = pigale_is_planar(any(9) ? (uint16_t)m.n : (uint16_t)any(65536), edges, count, &found); break;
        case 13:
            status = pigale_canonical_order(m.ends, m.n, m.neighbours, m.k, small[0], any(5) ? m.n : any(12), cut, any(12),
                small[1], any(12), &found);
            break;
        case 14:
            status = pigale_schnyder_wood(m.ends, m.n, m.neighbours, m.k, small[0], any(5) ? m.n : any(12), small[1],
                any(5) ? m.n : any(12), small[2], any(5) ? m.n : any(12), &found);
            break;
        case 15: status = pigale_st_order(m.ends, m.n, m.neighbours, m.k, small[0], any(5) ? m.n : any(12), &found); break;
        case 16: status = pigale_check_drawing(edges, count, row[0], size[0], row[1], size[1], &found); break;
        case 17: status = pigale_check_outer(m.ends, m.n, m.neighbours, m.k, row[0], size[0], row[1], size[1], &found); break;
        case 18:
            status = pigale_shift_many(map_ends, maps, m.ends, m.n, m.neighbours, m.k, row[0], size[0], row[1], size[1],
                statuses, maps, founds, maps);
            break;
        case 19:
            status = pigale_schnyder_many(map_ends, maps, m.ends, m.n, m.neighbours, m.k, row[0], size[0], row[1], size[1],
                statuses, maps, founds, maps);
            break;
        case 20:
            status = pigale_convex_many(map_ends, maps, m.ends, m.n, m.neighbours, m.k, row[0], size[0], row[1], size[1],
                statuses, maps, founds, maps);
            break;
        default:
            for (size_t i = 0; i < sizeof words; i++) words[i] = any(2) ? (uint8_t)any(256) : (uint8_t)"count "[any(6)];
            status = any(3) ? pigale_run((const uint8_t *)"count", 5, (const uint8_t *)m.neighbours, m.k, text, any(40), &length)
                            : pigale_run(words, any(8), (const uint8_t *)m.neighbours, m.k, text, any(40), &length);
        }
        by_status[status]++;
        free(edges);
        for (int i = 0; i < 4; i++) free(row[i]);
        free(m.ends), free(m.neighbours);
    }
    for (int s = 0; s < 256; s++)
        if (by_status[s]) printf("status %d: %ld\n", s, by_status[s]);
    return 0;
}

int main(int count, char **words)
{
    if (count == 2 && !strcmp(words[1], "embed")) return say_embeddings();
    if (count == 2) return say_job(words[1]);
    if (count == 3 && !strcmp(words[1], "verify")) return say_verdicts(words[2]);
    if (count == 3 && !strcmp(words[1], "run")) return run(words[2]);
    if (count == 3 && !strcmp(words[1], "random")) return call_at_random(atol(words[2]));
    return 2;
}
