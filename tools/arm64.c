/* What the program asks of C on arm64: memory, the number of the last error, and the words that it was called with.
   The kit has the same for x86-64. */
#include <errno.h>
#include <stdbool.h>
#include <stddef.h>
#include <stdlib.h>
#include <string.h>

typedef struct { bool ok; unsigned char *at; } tried;

static unsigned char nothing;
static int word_count;
static char **words;

__attribute__((constructor)) static void keep_words(int count, char **given) {
    word_count = count;
    words = given;
}

static tried answer(void *at) {
    return at ? (tried){ true, at } : (tried){ false, &nothing };
}

tried rattle_alloc(size_t size, size_t align) {
    (void)align; /* malloc aligns to 16, and no value asks for more */
    return answer(malloc(size ? size : 1));
}

tried rattle_realloc(unsigned char *at, size_t old, size_t size, size_t align) {
    (void)old, (void)align;
    return answer(realloc(at, size ? size : 1));
}

void rattle_dealloc(unsigned char *at) { free(at); }

int rattle_errno(void) { return errno; }

void rattle_set_errno(int number) { errno = number; }

/* The length of a word, of which the first bytes are copied; -1 where there is none, -2 where it does not fit. */
long rattle_arg(size_t number, unsigned char *to, size_t room) {
    if (number >= (size_t)word_count) return -1;
    size_t length = strlen(words[number]);
    memcpy(to, words[number], length < room ? length : room);
    return length > room ? -2 : (long)length;
}
