/*
 * What inserted.S calls where no register but the general ones may change: track/build compiles this file for these alone.
 */
#include "current.h"

#include <cpuid.h>

int dym_told_is_known(uintptr_t address);
size_t dym_told_state_bytes(void);

/* Whether nothing has to be told of a store at an address: it is into no chunk of the object, or into the remembered one. */
int dym_told_is_known(uintptr_t address)
{
    const table *t = dym_current.table;
    size_t offset = address - t->start;
    return offset >= t->size || table_remembers(t, offset);
}

/* How many bytes `xsave` writes, or 512 where the processor or its system has none but `fxsave`. */
size_t dym_told_state_bytes(void)
{
    static _Atomic size_t known;
    size_t bytes = atomic_load_explicit(&known, memory_order_relaxed);
    unsigned a, b, c, d;
    if (bytes != 0) return bytes;
    bytes = 512;
    __cpuid(1, a, b, c, d);
    if ((c >> 27 & 1) != 0) {
        __cpuid_count(13, 0, a, b, c, d);
        bytes = b;
    }
    atomic_store_explicit(&known, bytes, memory_order_relaxed);
    return bytes;
}
