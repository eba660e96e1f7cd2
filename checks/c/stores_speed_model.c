#include "stores_speed.h"

static size_t drawn(state *s)
{
    s->random = s->random * UINT64_C(6364136223846793005) + 1;
    return (size_t)((s->random >> 33) % s->count);
}

static void change(uint64_t *numbers, uint64_t by)
{
    for (size_t k = 0; k < CHUNK_NUMBERS; k++) numbers[k] = numbers[k] * 5 + by + k;
}

#ifdef BY_HAND
#define EVENT event_plain
#define STORES stores_plain

void event_by_hand(state *s, size_t changes)
{
    void *at;
    while (changes-- > 0) {
        size_t k = drawn(s);
        if (dym_touch(s->object, s->handles[k], &at) == DYM_DONE) change(at, s->random);
    }
}
#else
#define EVENT event_told
#define STORES stores_told
#endif

void EVENT(state *s, size_t changes)
{
    while (changes-- > 0) change(s->chunks[drawn(s)], s->random);
}

void STORES(volatile uint64_t *at, size_t count)
{
    for (size_t k = 0; k < count; k++) at[k % CHUNK_NUMBERS] = k;
}
