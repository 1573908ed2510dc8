/* The program over `pigale_run`, for the systems that the proved program is not linked for: the words of its command line,
 * standard input to standard output, and the statuses of the program. It reads all of its input before it answers. */
#if defined(_WIN32)
#include <fcntl.h>
#include <io.h>
#include <stdlib.h>
#include <string.h>
typedef int transferred;
#define read(from, to, most) _read(from, to, most)
#define write(to, from, most) _write(to, from, most)
#elif __STDC_HOSTED__
#include <stdlib.h>
#include <string.h>
#include <unistd.h>
typedef ssize_t transferred;
#else /* compiled for a system whose headers are not here, so pigale.h, which includes one of them, is left out too */
#include <stddef.h>
#include <stdint.h>
#define PIGALE_H
uint8_t pigale_run(const uint8_t *, size_t, const uint8_t *, size_t, uint8_t *, size_t, size_t *);
typedef ptrdiff_t transferred;
void *malloc(size_t);
void *realloc(void *, size_t);
void *memcpy(void *, const void *, size_t);
char *strchr(const char *, int);
int strcmp(const char *, const char *);
size_t strlen(const char *);
transferred read(int, void *, size_t);
transferred write(int, const void *, size_t);
#endif
#include "pigale.h"

enum { BAD_WORDS = 2, READ_FAULT = 4, WRITE_FAULT = 5, NO_MEMORY = 6 };
enum { PIECE = 1 << 16, MOST_READ = (1 << 24) + 1 }; /* bytes of a transfer, and bytes that the program looks at */

/* A run of the program: its words, its input, and the text that it wrote. */
typedef struct {
    char *words;
    uint8_t *input, *text;
    size_t words_length, input_length, capacity, text_length;
} run;

/* Joins the words with a space between each two. No word of a job is empty or has a space: such words are left out all
 * together, and the answer to no words is that to bad ones. Returns whether there was memory. */
static int has_words(run *it, int count, char **given)
{
    size_t size = 1;
    for (int i = 1; i < count; i++) size += strlen(given[i]) + 1;
    it->words = malloc(size);
    it->words_length = 0;
    if (!it->words) return 0;
    for (int i = 1; i < count; i++) {
        size_t length = strlen(given[i]);
        if (!length || strchr(given[i], ' ')) { it->words_length = 0; return 1; }
        if (i > 1) it->words[it->words_length++] = ' ';
        memcpy(it->words + it->words_length, given[i], length);
        it->words_length += length;
    }
    return 1;
}

/* Makes room for a text as long as most are for the input, where there is memory; pages that are not written cost nothing. */
static void make_room(run *it)
{
    size_t size = PIECE + 32 * it->input_length;
    uint8_t *text = realloc(it->text, size);
    if (!text) return;
    it->text = text;
    it->capacity = size;
}

/* Answers the input read so far. A text longer than the room for it is asked for again. */
static int answer(run *it)
{
    for (;;) {
        int status = pigale_run((uint8_t *)it->words, it->words_length, it->input, it->input_length, it->text, it->capacity,
            &it->text_length);
        if (it->text_length <= it->capacity) return status;
        uint8_t *text = realloc(it->text, it->text_length);
        if (!text) { it->text_length = it->capacity; return NO_MEMORY; }
        it->text = text;
        it->capacity = it->text_length;
    }
}

/* Reads standard input to its end, or to the first byte too many. Returns 0, or the status of what failed. */
static int read_all(run *it)
{
    size_t room = PIECE;
    while (it->input_length < MOST_READ) {
        if (room - it->input_length < PIECE) {
            uint8_t *input = realloc(it->input, room *= 2);
            if (!input) return NO_MEMORY;
            it->input = input;
        }
        size_t most = MOST_READ - it->input_length;
        transferred count = read(0, it->input + it->input_length, (unsigned)(most < PIECE ? most : PIECE));
        if (count < 0) return READ_FAULT;
        if (!count) return 0;
        it->input_length += (size_t)count;
    }
    return 0;
}

/* Writes the text, and returns whether all of it was taken. */
static int is_written(const run *it)
{
    for (size_t at = 0; at < it->text_length;) {
        size_t left = it->text_length - at;
        transferred count = write(1, it->text + at, (unsigned)(left < PIECE ? left : PIECE));
        if (count <= 0) return 0;
        at += (size_t)count;
    }
    return 1;
}

/* Takes the last line from the text: where a read failed, the answers to the records before stand alone. */
static void drop_last_line(run *it)
{
    size_t end = it->text_length ? it->text_length - 1 : 0;
    while (end && it->text[end - 1] != '\n') end--;
    it->text_length = end;
}

static int is_made(int count, char **words)
{
    for (int i = 1; i < count; i++) if (!strcmp(words[i], "gen")) return 1;
    return 0;
}

int main(int count, char **words)
{
    run it = {0, malloc(2 * PIECE), malloc(PIECE), 0, 0, PIECE, 0};
#if defined(_WIN32)
    _setmode(0, _O_BINARY), _setmode(1, _O_BINARY);
#endif
    if (!it.input || !it.text || !has_words(&it, count, words)) return NO_MEMORY;
    /* bad words, and a job without input, are answered before anything is read */
    int status = answer(&it);
    if (status != BAD_WORDS && !is_made(count, words)) {
        int fault = read_all(&it);
        make_room(&it);
        status = answer(&it);
        if (fault) {
            drop_last_line(&it);
            status = fault;
        }
    }
    return is_written(&it) ? status : WRITE_FAULT;
}
