/*
 * The call that dymelor-cc adds before a store keeps every register and the flags, whether the chunk was touched before or not: status 0 where it
 * does, or where the processor has no AVX.
 */
#include "dymelor_track.h"

#include <string.h>

void dym_told_inserted(void);

enum { BYTES = 32, NUMBERS = 5, FIRST = 11 };

/* Fills registers, tells a store at an address as dymelor-cc does, and looks at them again. */
DYM_UNTOLD __attribute__((target("avx"))) static int keeps_all(void *at)
{
    unsigned char carry, before[BYTES], after[BYTES];
    unsigned long found[NUMBERS];
    double one;
    for (int k = 0; k < BYTES; k++) before[k] = (unsigned char)(k * 7 + 1);
    __asm__ volatile("vmovups (%[before]), %%ymm5\n\t"
                     "movq $11, %%r8\n\tmovq $12, %%r9\n\tmovq $13, %%r10\n\tmovq $14, %%r11\n\tmovq $15, %%rcx\n\t"
                     "fld1\n\tstc\n\t"
                     "leaq -128(%%rsp), %%rsp\n\tpushq %%rdi\n\tcall dym_told_inserted\n\tpopq %%rdi\n\tleaq 128(%%rsp), %%rsp\n\t"
                     "setc %[carry]\n\tfstpl %[one]\n\tvmovups %%ymm5, (%[after])\n\t"
                     "movq %%r8, (%[found])\n\tmovq %%r9, 8(%[found])\n\tmovq %%r10, 16(%[found])\n\tmovq %%r11, 24(%[found])\n\t"
                     "movq %%rcx, 32(%[found])"
                     : [carry] "=m"(carry), [one] "=m"(one)
                     : [before] "r"(before), [after] "r"(after), [found] "r"(found), "D"(at)
                     : "memory", "cc", "xmm5", "r8", "r9", "r10", "r11", "rcx", "st");
    for (int k = 0; k < NUMBERS; k++)
        if (found[k] != (unsigned long)(FIRST + k)) return 0;
    return carry == 1 && one == 1.0 && memcmp(before, after, BYTES) == 0;
}

int main(void)
{
    dym_object object = {0};
    dym_handle chunk;
    uint32_t logged;
    void *at, *other;
    int outside, is_kept = 1;
    if (!__builtin_cpu_supports("avx")) return 0;
    if (dym_open(&object, 4, 1) != DYM_DONE || dym_malloc_at(&object, 64, &chunk, &at) != DYM_DONE ||
        dym_malloc_at(&object, 64, &chunk, &other) != DYM_DONE || dym_track(&object) != DYM_DONE)
        return 2;
    for (uint64_t time = 1; time < 100; time++) {
        if (dym_log(&object, DYM_INCREMENTAL, time, &logged) != DYM_DONE) return 2;
        is_kept &= keeps_all(at) & keeps_all(other) & keeps_all(at) & keeps_all(&outside);
    }
    dym_track(NULL);
    dym_close(&object);
    return !is_kept;
}
