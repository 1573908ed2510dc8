/* Memory for the library, from malloc. It includes no header, since it is compiled for systems whose headers are not here.
 *
 * A call asks for many small tables, and gives all back before it ends. So a thread cuts them one behind another from a block,
 * which it has from the first of them to the last. What does not fit is asked of malloc; with PLAIN defined, all is. */
typedef __SIZE_TYPE__ word;

void *malloc(word);
void *realloc(void *, word);
void free(void *);

/* Whether there was memory, and where; nothing is written to what stands for none. */
typedef struct {
    word ok;
    unsigned char *at;
} tried;

static unsigned char none;

static tried given(void *at) { return at ? (tried){1, at} : (tried){0, &none}; }

/* Ask malloc. A request for nothing is one for a byte, so null always says that there is no memory. */
static tried fresh(word size) { return given(malloc(size + !size)); }
static tried moved(void *at, word size) { return given(realloc(at, size + !size)); }

#ifdef PLAIN

tried rattle_alloc(word size, word align) { return (void)align, fresh(size); }
tried rattle_realloc(unsigned char *at, word kept, word size, word align) { return (void)kept, (void)align, moved(at, size); }
void rattle_dealloc(unsigned char *at) { free(at); }

#else

enum { BLOCK = 1 << 15 };

/* The block of a thread, by addresses: of the piece cut last, of what is left, and of its end. They are 0 where it has none. */
static _Thread_local struct {
    word newest, next, end, pieces;
} cut;

/* What a piece takes: a multiple of 16, the largest alignment, and more than was asked for, so none is empty. */
static word length_of(word size) { return (size + 16) & ~(word)15; }

static int is_cut(const unsigned char *at) { return cut.end - (word)at - 1 < BLOCK; }

static tried piece(word length)
{
    cut.newest = cut.next;
    cut.next += length;
    cut.pieces++;
    return (tried){1, (unsigned char *)cut.newest};
}

/* Answers a request for which too little is left: by a new block if there is none, or else from malloc. */
static __attribute__((noinline)) tried other(word size)
{
    if (cut.end || size >= BLOCK || !(cut.next = (word)malloc(BLOCK))) return fresh(size);
    cut.end = cut.next + BLOCK;
    return piece(length_of(size));
}

tried rattle_alloc(word size, word align)
{
    (void)align;
    word length = length_of(size);
    return length <= cut.end - cut.next ? piece(length) : other(size);
}

void rattle_dealloc(unsigned char *at)
{
    if (!is_cut(at)) {
        free(at);
    } else if (!--cut.pieces) {
        free((void *)(cut.end - BLOCK));
        cut.next = cut.end = 0;
    } else if ((word)at == cut.newest) {
        cut.next = cut.newest;
    }
}

tried rattle_realloc(unsigned char *at, word kept, word size, word align)
{
    if (!is_cut(at)) return moved(at, size);
    word length = length_of(size);
    if ((word)at == cut.newest && length <= cut.end - cut.newest) {
        cut.next = cut.newest + length;
        return (tried){1, at};
    }
    tried made = rattle_alloc(size, align);
    if (made.ok) {
        __builtin_memcpy(made.at, at, kept);
        rattle_dealloc(at);
    }
    return made;
}

#endif
