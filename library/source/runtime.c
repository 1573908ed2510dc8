/* What the translation asks of C: numbers of given widths, a memory, and an answer to a fault. The names are those of wasm2c.
 *
 * A memory is the module's own: addresses are offsets in it, and numbers stand in it with the lesser byte first, whatever the
 * processor has. The code that was translated is proved to stay inside, but for the depth of its stack: that is looked at
 * wherever it grows. A fault ends the call that runs, which then answers that there is not enough memory. With
 * PIGALE_CHECKED each access is compared with the size of the memory too, which takes half the time again. */
#include "pigale.h"

#include <math.h>
#include <setjmp.h>
#include <stdlib.h>
#include <string.h>

typedef uint8_t u8;
typedef uint16_t u16;
typedef uint32_t u32;
typedef uint64_t u64;
typedef int8_t s8;
typedef int16_t s16;
typedef int32_t s32;
typedef int64_t s64;
typedef double f64; /* of the words that clap would have suggested; no answer has them */

#if defined(__GNUC__)
#define LOCAL __thread
#define NO_RETURN __attribute__((noreturn))
#define UNLIKELY(x) __builtin_expect(!!(x), 0)
#elif defined(_MSC_VER)
#define LOCAL __declspec(thread)
#define NO_RETURN __declspec(noreturn)
#define UNLIKELY(x) (x)
#else
#define LOCAL _Thread_local
#define NO_RETURN _Noreturn
#define UNLIKELY(x) (x)
#endif

enum { PAGE = 65536 };

typedef struct {
    u8 *data;
    u64 size; /* bytes */
    u32 pages, max_pages;
} wasm_rt_memory_t;

static LOCAL jmp_buf *fault; /* where the call that runs on this thread goes on after a fault */

NO_RETURN static void trap(void) { longjmp(*fault, 1); }

#define TRAP(kind) (trap(), 0)
#define UNREACHABLE trap()
#define FUNC_PROLOGUE
#define FUNC_EPILOGUE
#define RANGE_CHECK(mem, at, length) \
    if (UNLIKELY((u64)(at) + (u64)(length) > (mem)->size)) trap()

#define STACK_CHECK(top) \
    if (UNLIKELY((s64)(top) < 0)) trap() /* the stack lies below all else, and ends at 0 */

#if defined(PIGALE_CHECKED)
#define ACCESS_CHECK RANGE_CHECK
#else
#define ACCESS_CHECK(mem, at, length)
#endif

static void wasm_rt_allocate_memory(wasm_rt_memory_t *mem, u32 pages, u32 most)
{
    mem->data = calloc(pages, PAGE);
    if (!mem->data) trap();
    mem->pages = pages;
    mem->max_pages = most < 65535 ? most : 65535;
    mem->size = (u64)pages * PAGE;
}

/* Makes the memory larger, or returns 2^32 - 1. Fresh memory comes from calloc, which need not clear what the system cleared. */
static u32 wasm_rt_grow_memory(wasm_rt_memory_t *mem, u32 by)
{
    u32 old = mem->pages;
    if (by > mem->max_pages - old || (u64)(old + by) * PAGE > SIZE_MAX) return 0xffffffffu;
    u8 *data = calloc(old + by, PAGE);
    if (!data) return 0xffffffffu;
    memcpy(data, mem->data, (size_t)mem->size);
    free(mem->data);
    mem->data = data;
    mem->pages = old + by;
    mem->size = (u64)mem->pages * PAGE;
    return old;
}

static void wasm_rt_free_memory(wasm_rt_memory_t *mem) { free(mem->data); }

/* Whether the lesser byte of a number stands first. */
static inline int is_little(void)
{
    const u16 one = 1;
    u8 first;
    memcpy(&first, &one, 1);
    return first;
}

static inline u8 ordered8(u8 x) { return x; }
static inline u16 ordered16(u16 x) { return is_little() ? x : (u16)(x >> 8 | x << 8); }

static inline u32 ordered32(u32 x)
{
    return is_little() ? x : (u32)ordered16((u16)x) << 16 | ordered16((u16)(x >> 16));
}

static inline u64 ordered64(u64 x) { return is_little() ? x : (u64)ordered32((u32)x) << 32 | ordered32((u32)(x >> 32)); }

#define LOADS(name, bits, type, result)                              \
    static inline result name(const wasm_rt_memory_t *mem, u64 at)   \
    {                                                                \
        u##bits x;                                                   \
        ACCESS_CHECK(mem, at, sizeof x);                             \
        memcpy(&x, mem->data + (size_t)at, sizeof x);                \
        return (result)(type)ordered##bits(x);                       \
    }
#define STORES(name, bits, given)                                    \
    static inline void name(wasm_rt_memory_t *mem, u64 at, given value) \
    {                                                                \
        u##bits x = ordered##bits((u##bits)value);                   \
        ACCESS_CHECK(mem, at, sizeof x);                             \
        memcpy(mem->data + (size_t)at, &x, sizeof x);                \
    }
LOADS(i32_load, 32, u32, u32)
LOADS(i64_load, 64, u64, u64)
LOADS(i32_load8_s, 8, s8, u32)
LOADS(i64_load8_s, 8, s8, u64)
LOADS(i32_load8_u, 8, u8, u32)
LOADS(i64_load8_u, 8, u8, u64)
LOADS(i32_load16_s, 16, s16, u32)
LOADS(i64_load16_s, 16, s16, u64)
LOADS(i32_load16_u, 16, u16, u32)
LOADS(i64_load16_u, 16, u16, u64)
LOADS(i64_load32_s, 32, s32, u64)
LOADS(i64_load32_u, 32, u32, u64)
STORES(i32_store, 32, u32)
STORES(i64_store, 64, u64)
STORES(i32_store8, 8, u32)
STORES(i32_store16, 16, u32)
STORES(i64_store8, 8, u64)
STORES(i64_store16, 16, u64)
STORES(i64_store32, 32, u64)

static inline f64 f64_reinterpret_i64(u64 bits)
{
    f64 x;
    memcpy(&x, &bits, sizeof x);
    return x;
}

static inline f64 f64_load(const wasm_rt_memory_t *mem, u64 at) { return f64_reinterpret_i64(i64_load(mem, at)); }

static inline void f64_store(wasm_rt_memory_t *mem, u64 at, f64 x)
{
    u64 bits;
    memcpy(&bits, &x, sizeof bits);
    i64_store(mem, at, bits);
}

static inline void memory_fill(wasm_rt_memory_t *mem, u32 to, u32 value, u32 length)
{
    RANGE_CHECK(mem, to, length);
    memset(mem->data + to, (int)value, length);
}

static inline void memory_copy(wasm_rt_memory_t *mem, const wasm_rt_memory_t *source, u32 to, u32 from, u32 length)
{
    RANGE_CHECK(mem, to, length);
    RANGE_CHECK(source, from, length);
    memmove(mem->data + to, source->data + from, length);
}

#define LOAD_DATA(mem, to, from, length)           \
    do {                                           \
        RANGE_CHECK(&(mem), to, length);           \
        memcpy((mem).data + (to), from, length);   \
    } while (0)

#if defined(__GNUC__)
#define I32_CLZ(x) ((x) ? (u32)__builtin_clz(x) : 32u)
#define I64_CLZ(x) ((x) ? (u64)__builtin_clzll(x) : 64u)
#define I32_CTZ(x) ((x) ? (u32)__builtin_ctz(x) : 32u)
#define I64_CTZ(x) ((x) ? (u64)__builtin_ctzll(x) : 64u)
#else
static inline u32 I32_CLZ(u32 x)
{
    u32 count = 0;
    while (count < 32 && !(x >> (31 - count) & 1)) count++;
    return count;
}

static inline u32 I32_CTZ(u32 x)
{
    u32 count = 0;
    while (count < 32 && !(x >> count & 1)) count++;
    return count;
}

static inline u64 I64_CLZ(u64 x) { return x >> 32 ? I32_CLZ((u32)(x >> 32)) : 32 + I32_CLZ((u32)x); }
static inline u64 I64_CTZ(u64 x) { return (u32)x ? I32_CTZ((u32)x) : 32 + I32_CTZ((u32)(x >> 32)); }
#endif

static inline u32 I32_POPCNT(u32 x)
{
    x -= x >> 1 & 0x55555555u;
    x = (x & 0x33333333u) + (x >> 2 & 0x33333333u);
    return ((x + (x >> 4)) & 0x0f0f0f0fu) * 0x01010101u >> 24;
}

static inline u64 I64_POPCNT(u64 x) { return I32_POPCNT((u32)x) + I32_POPCNT((u32)(x >> 32)); }

#define DIV_U(x, y) (UNLIKELY((y) == 0) ? TRAP(DIV_BY_ZERO) : (x) / (y))
#define REM_U(x, y) (UNLIKELY((y) == 0) ? TRAP(DIV_BY_ZERO) : (x) % (y))
#define DIV_S(u, s, least, x, y) \
    (UNLIKELY((y) == 0 || ((s)(x) == (least) && (s)(y) == -1)) ? (u)TRAP(INT_OVERFLOW) : (u)((s)(x) / (s)(y)))
#define REM_S(u, s, x, y) (UNLIKELY((y) == 0) ? (u)TRAP(DIV_BY_ZERO) : (s)(y) == -1 ? 0 : (u)((s)(x) % (s)(y)))
#define I32_DIV_S(x, y) DIV_S(u32, s32, INT32_MIN, x, y)
#define I64_DIV_S(x, y) DIV_S(u64, s64, INT64_MIN, x, y)
#define I32_REM_S(x, y) REM_S(u32, s32, x, y)
#define I64_REM_S(x, y) REM_S(u64, s64, x, y)
#define ROTATED(x, by, mask) ((x) << ((by) & (mask)) | (x) >> (-(by) & (mask)))
#define I32_ROTL(x, by) ROTATED(x, by, 31u)
#define I64_ROTL(x, by) ROTATED(x, by, 63u)
#define I32_ROTR(x, by) ROTATED(x, -(by), 31u)
#define I64_ROTR(x, by) ROTATED(x, -(by), 63u)
