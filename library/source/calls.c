/* The calls of pigale.h. Each has an instance of the module for its own time, lends it the caller's arrays, and keeps nothing. */

/* What becomes of an array: it is read; read and written; or written alone, of which the next one says how much. */
enum { READ, WRITTEN, FILLED };

/* An array of the caller's: `count` elements of `per` units each, a unit of `width` bytes, which has `wide` bytes in the
 * module; what becomes of it, and its address in the module's memory. */
typedef struct {
    void *elements;
    size_t count;
    u8 per, width, wide, use;
    u64 at;
} lent;

/* Copies units between the caller and the module; those of a size_t may be narrower here than there. */
static void copy_units(wasm_rt_memory_t *mem, const lent *it, int is_back)
{
    size_t units = it->count * it->per;
    if (!units) return;
    u8 *mine = it->elements, *theirs = mem->data + (size_t)it->at;
    if (it->width == it->wide && is_little()) {
        memcpy(is_back ? mine : theirs, is_back ? theirs : mine, units * it->width);
        return;
    }
    for (; units--; mine += it->width, theirs += it->wide)
        for (int b = 0; b < it->wide; b++) {
            u8 *own = b < it->width ? mine + (is_little() ? b : it->width - 1 - b) : NULL;
            if (!is_back) theirs[b] = own ? *own : 0;
            else if (own) *own = theirs[b];
        }
}

/* Copies the arrays into the module's memory; null stays null. Returns whether there was memory. */
static int are_lent(Z_pigale_instance_t *it, lent *all, int count)
{
    for (int k = 0; k < count; k++) {
        lent *one = &all[k];
        if (!one->elements && !one->count) continue;
        if (!one->elements || one->count > 0x7fffffffu / one->per / one->wide) return 0;
        one->at = Z_pigaleZ_memory_for(it, (u64)one->count * one->per * one->wide + 8);
        if (!one->at) return 0;
        if (one->use != FILLED) copy_units(&it->w2c_memory, one, 0);
    }
    return 1;
}

static void give_back(Z_pigale_instance_t *it, lent *all, int count)
{
    for (int k = 0; k < count; k++) {
        if (all[k].use == FILLED) {
            u64 length = i64_load(&it->w2c_memory, all[k + 1].at);
            if (length < all[k].count) all[k].count = (size_t)length;
        }
        if (all[k].use != READ) copy_units(&it->w2c_memory, &all[k], 1);
    }
}

/* Answers by `answer` over the arrays `all` of `count`, or by `none` where there is not enough memory. */
#define ANSWER(result, none, count, answer)                               \
    Z_pigale_instance_t *volatile instance = calloc(1, sizeof *instance); \
    volatile result status = none;                                        \
    jmp_buf here, *volatile outer = fault;                                \
    if (!instance) return none;                                           \
    fault = &here;                                                        \
    if (!setjmp(here)) {                                                  \
        Z_pigale_instance_t *it = instance;                               \
        Z_pigale_instantiate(it);                                         \
        if (are_lent(it, all, count)) {                                   \
            status = (result)(answer);                                    \
            give_back(it, all, count);                                    \
        }                                                                 \
    }                                                                     \
    fault = outer;                                                        \
    Z_pigale_free(instance);                                              \
    free(instance);                                                       \
    return status
