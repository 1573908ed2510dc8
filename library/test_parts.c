/* A test of the call for parts of an input: the texts of the parts, one behind the other, are the text of one run.
 *
 *   test_parts WORDS < INPUT    runs WORDS over planar_code, of which each record has fewer than 256 vertices, over lines of
 *                               graph6, or over figures, some records at a time
 *
 * Standard output gets the text, and the status is the worst of the parts. */
#include "test.h"

static size_t part_end(const uint8_t *input, size_t size, size_t at, const char *words)
{
    if (strstr(words, "verify"))
        /* up to the next figure */
        while (++at < size && !(input[at - 1] == '\n' && !memcmp(input + at, "figure ", size - at < 7 ? size - at : 7))) continue;
    else if (strstr(words, "embed"))
        while (at < size && input[at++] != '\n') continue;
    else
        for (size_t lists = input[at++]; lists && at < size; lists -= input[at++] == 0) continue;
    return at;
}

/* Whole records are cut behind the last one, and without their last byte before it. */
static void test_cut(const uint8_t *part, size_t size, size_t records)
{
    size_t end = 1, count = 1;
    if (pigale_cut(part, size, PIGALE_PLANAR_CODE, &end, &count) || end != size || count != records) abort();
    if (size && (pigale_cut(part, size - 1, PIGALE_PLANAR_CODE, &end, &count) || end >= size || count + 1 != records)) abort();
    if (pigale_cut(part, size, 1, &end, &count) != PIGALE_BAD_ARGUMENT) abort();
}

int main(int count, char **words)
{
    static uint8_t input[1 << 22], text[1 << 22];
    size_t size = fread(input, 1, sizeof input, stdin), at = 0, place = 0, length;
    uint32_t records = 0, refused = 0;
    int worst = 0;
    if (count != 2) return 2;
    const char *job = words[1];
    do {
        size_t from = at;
        for (uint32_t some = any(4) + 1; some && at < size; some--) at = part_end(input, size, at, job);
        pigale_sums sums;
        pigale_status status = pigale_run_part((const uint8_t *)job, strlen(job), input + from, at - from, records, refused, place,
            at < size, text, sizeof text, &length, &sums);
        if (length > sizeof text) abort();
        fwrite(text, 1, length, stdout);
        worst = status > worst ? status : worst;
        if (status > 1) break;
        if (!strstr(job, "verify") && !strstr(job, "embed")) test_cut(input + from, at - from, sums.records);
        records += sums.records, refused += sums.refused;
        for (size_t i = from; i < at; i++) place += strstr(job, "verify") || strstr(job, "embed") ? input[i] == '\n' : 1;
    } while (at < size);
    return worst;
}
