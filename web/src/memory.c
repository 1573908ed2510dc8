/* What proved code asks of C, for WebAssembly: memory, and arithmetic on 128 bits. The module then imports nothing. */

typedef unsigned char byte;
typedef unsigned long word;
typedef unsigned __int128 wide;
typedef struct { long ok; void *at; } tried;

extern byte __heap_base;
enum { PAGE = 65536, LEAST = 16, MOST = 65536 }; /* bytes of a page, pages that are added at once, pages of 32 bits */

static word top, end;     /* the memory that was given out, and that there is */
static void *freed[33];   /* blocks that came back, by the logarithm of their size */
static byte nothing[16];  /* a refused request is answered by an address too */

/* Whether the memory grows by so many pages. Addresses are made of 32 bits after all, so a refusal is 2^32 - 1 then. */
static int grows(word pages) {
    if (pages > MOST - end / PAGE || (unsigned)__builtin_wasm_memory_grow(0, pages) == -1u) return 0;
    end += pages * PAGE;
    return 1;
}

static void *fresh(word size) {
    if (!top) top = ((word)&__heap_base + 15) & ~15ul;
    if (!end) end = __builtin_wasm_memory_size(0) * PAGE;
    if (size > end - top) {
        word pages = (size - (end - top) + PAGE - 1) / PAGE;
        word step = end / PAGE / 4; /* so that a large memory grows seldom, and a small one is made at once */
        if (step < LEAST) step = LEAST;
        if (!grows(pages < step ? step : pages) && !grows(pages)) return 0;
    }
    top += size;
    return (void *)(top - size);
}

/* A block of 2^k bytes holds k, and behind 16 bytes what was asked for; 0 where there is no memory left. */
void *memory_for(word size) {
    if (size > 1ul << 31) return 0;
    word k = 5;
    while ((1ul << k) < size + 16) k++;
    byte *block = freed[k];
    if (block) freed[k] = *(void **)block;
    else if (!(block = fresh(1ul << k))) return 0;
    *(word *)block = k;
    return block + 16;
}

void memory_back(void *at) {
    byte *block = (byte *)at - 16;
    word k = *(word *)block;
    *(void **)block = freed[k];
    freed[k] = block;
}

tried rattle_alloc(word size, word align) {
    void *at = memory_for(size ? size : align);
    return (tried){ at != 0, at ? at : nothing };
}

void rattle_dealloc(void *at) {
    memory_back(at);
}

tried rattle_realloc(void *at, word old, word size, word align) {
    (void)old;
    word room = (1ul << *(word *)((byte *)at - 16)) - 16;
    if (!size) size = align;
    if (size <= room) return (tried){ 1, at };
    void *to = memory_for(size);
    if (!to) return (tried){ 0, nothing };
    __builtin_memcpy(to, at, room);
    memory_back(at);
    return (tried){ 1, to };
}

void *memcpy(void *to, const void *from, word size) { return __builtin_memcpy(to, from, size); }
void *memmove(void *to, const void *from, word size) { return __builtin_memmove(to, from, size); }
void *memset(void *to, int value, word size) { return __builtin_memset(to, value, size); }

static wide joined(word high, word low) {
    union { struct { word low, high; } part; wide whole; } it = { { low, high } };
    return it.whole;
}

static wide product(word a, word b) {
    word a0 = a & 0xffffffff, a1 = a >> 32, b0 = b & 0xffffffff, b1 = b >> 32;
    word low = a0 * b0, one = a1 * b0, other = a0 * b1;
    word middle = (low >> 32) + (one & 0xffffffff) + (other & 0xffffffff);
    return joined(a1 * b1 + (one >> 32) + (other >> 32) + (middle >> 32), (low & 0xffffffff) | middle << 32);
}

wide __multi3(wide a, wide b) {
    word a0 = a, a1 = a >> 64, b0 = b, b1 = b >> 64;
    return product(a0, b0) + joined(a0 * b1 + a1 * b0, 0);
}

wide __ashlti3(wide a, int by) {
    word low = a, high = a >> 64;
    if (!by) return a;
    return by >= 64 ? joined(low << (by - 64), 0) : joined(high << by | low >> (64 - by), low << by);
}

wide __lshrti3(wide a, int by) {
    word low = a, high = a >> 64;
    if (!by) return a;
    return by >= 64 ? joined(0, high >> (by - 64)) : joined(high >> by, low >> by | high << (64 - by));
}
