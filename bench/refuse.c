/* A library that is loaded before a program (LD_PRELOAD) and refuses one of its requests for memory: that with the
   number in REFUSE, counted from 1, or none for 0. How many there were goes to the file that REFUSE_COUNT names. */
#include <errno.h>
#include <fcntl.h>
#include <stdlib.h>
#include <unistd.h>

static unsigned long refused, count;
static const char *count_file;

__attribute__((constructor)) static void begin(void) {
    const char *number = getenv("REFUSE");
    refused = number ? strtoul(number, 0, 10) : 0;
    count_file = getenv("REFUSE_COUNT");
    count = 0;
}

__attribute__((destructor)) static void end(void) {
    char digits[24];
    int at = sizeof digits, file = count_file ? open(count_file, O_WRONLY | O_CREAT | O_TRUNC, 0600) : -1;
    if (file < 0) return;
    unsigned long left = count;
    do digits[--at] = '0' + left % 10; while (left /= 10);
    if (write(file, digits + at, sizeof digits - at) < 0) _exit(70);
    close(file);
}

/* Whether this request is the one. */
static int is_refused(void) {
    if (++count != refused) return 0;
    errno = ENOMEM;
    return 1;
}

extern void *__libc_malloc(size_t), *__libc_calloc(size_t, size_t), *__libc_realloc(void *, size_t);
extern void *__libc_memalign(size_t, size_t);

void *malloc(size_t size) { return is_refused() ? 0 : __libc_malloc(size); }
void *calloc(size_t some, size_t size) { return is_refused() ? 0 : __libc_calloc(some, size); }
void *realloc(void *old, size_t size) { return is_refused() ? 0 : __libc_realloc(old, size); }
void *memalign(size_t align, size_t size) { return is_refused() ? 0 : __libc_memalign(align, size); }
void *aligned_alloc(size_t align, size_t size) { return is_refused() ? 0 : __libc_memalign(align, size); }
int posix_memalign(void **to, size_t align, size_t size) {
    void *found = is_refused() ? 0 : __libc_memalign(align, size);
    if (found) *to = found;
    return found ? 0 : ENOMEM;
}
