/*
 * Stores that no compiler tells, by inline assembler and by intrinsics in functions that are exempt from its instrumentation: one on each line that
 * says so. They are compiled and never run: `dymelor-cc --untold-stores` is to find these lines and no others.
 */
#include <x86intrin.h>
#include <stdint.h>

#define ASM(name, ...) void asm_##name(void *to, uint64_t by); void asm_##name(void *to, uint64_t by) { __asm__ volatile(__VA_ARGS__); (void)by; }
#if defined __clang__
#define EXEMPT __attribute__((no_sanitize("kernel-address")))
#else
#define EXEMPT __attribute__((no_sanitize_address))
#endif
#define INTRINSIC(name, level, ...) \
    EXEMPT __attribute__((target(level))) void by_##name(void *to, uint64_t by); \
    EXEMPT __attribute__((target(level))) void by_##name(void *to, uint64_t by) { (void)by; __VA_ARGS__; }

/* clang-format off */
ASM(mov_8, "movb $1, (%0)" :: "r"(to) : "memory") /* planted */
ASM(mov_16, "movw $1, 2(%0)" :: "r"(to) : "memory") /* planted */
ASM(mov_32, "movl $1, 4(%0)" :: "r"(to) : "memory") /* planted */
ASM(mov_64, "movq %1, 8(%0,%1,8)" :: "r"(to), "r"(by) : "memory") /* planted */
ASM(inc, "incl (%0)" :: "r"(to) : "memory", "cc") /* planted */
ASM(add, "addq %1, (%0)" :: "r"(to), "r"(by) : "memory", "cc") /* planted */
ASM(not, "notl (%0)" :: "r"(to) : "memory") /* planted */
ASM(shift, "shll $3, (%0)" :: "r"(to) : "memory", "cc") /* planted */
ASM(exchange, "xchgq (%1), %0" : "+r"(by) : "r"(to) : "memory") /* planted */
ASM(exchange_add, "lock xaddq %0, (%1)" : "+r"(by) : "r"(to) : "memory", "cc") /* planted */
ASM(compare, "lock; cmpxchgq %1, (%0)" :: "r"(to), "r"(by) : "memory", "cc", "rax") /* planted */
ASM(compare_16, "lock cmpxchg16b (%0)" :: "r"(to) : "memory", "cc", "rax", "rbx", "rcx", "rdx") /* planted */
ASM(fill, "rep stosb" : "+D"(to), "+c"(by) :: "memory") /* planted */
ASM(copy, "movsq" : "+D"(to), "+S"(by) :: "memory") /* planted */
ASM(stos, "stosl" : "+D"(to) :: "memory") /* planted */
ASM(bit, "btsq %1, (%0)" :: "r"(to), "r"(by) : "memory", "cc") /* planted */
ASM(set, "sete (%0)" :: "r"(to) : "memory") /* planted */
ASM(pop, "pushq %1; popq (%0)" :: "r"(to), "r"(by) : "memory") /* planted */
ASM(movups, "movups %%xmm0, (%0)" :: "r"(to) : "memory") /* planted */
ASM(movnti, "movnti %1, (%0)" :: "r"(to), "r"(by) : "memory") /* planted */
ASM(movntdq, "movntdq %%xmm1, 16(%0)" :: "r"(to) : "memory") /* planted */
ASM(movhps, "movhps %%xmm1, (%0)" :: "r"(to) : "memory") /* planted */
ASM(pextr, "pextrd $1, %%xmm1, (%0)" :: "r"(to) : "memory") /* planted */
ASM(fstp, "fldz; fstpl (%0)" :: "r"(to) : "memory") /* planted */
ASM(fnstcw, "fnstcw (%0)" :: "r"(to) : "memory") /* planted */
ASM(stmxcsr, "stmxcsr (%0)" :: "r"(to) : "memory") /* planted */
ASM(fxsave, "fxsave64 (%0)" :: "r"(to) : "memory") /* planted */
ASM(maskmov, "maskmovdqu %%xmm1, %%xmm0" :: "D"(to) : "memory") /* planted */
ASM(vmovups, "vmovups %%ymm0, 32(%0)" :: "r"(to) : "memory") /* planted */
ASM(vmaskmov, "vmaskmovps %%ymm0, %%ymm1, (%0)" :: "r"(to) : "memory") /* planted */
ASM(loop, "1: movb $0, (%0); decq %1; jnz 1b" :: "r"(to), "r"(by) : "memory", "cc") /* planted */
ASM(last, "nop\n\tnop\n\tmovbeq %1, (%0)" :: "r"(to), "r"(by) : "memory") /* planted */
INTRINSIC(storeh, "sse", _mm_storeh_pi(to, _mm_set1_ps((float)by))) /* planted */
INTRINSIC(stream, "sse2", _mm_stream_si32(to, (int)by)) /* planted */
INTRINSIC(stream_pd, "sse2", _mm_stream_pd(to, _mm_set1_pd((double)by))) /* planted */
INTRINSIC(maskmoveu, "sse2", _mm_maskmoveu_si128(_mm_set1_epi64x((long long)by), _mm_set1_epi8(-1), to)) /* planted */
INTRINSIC(maskstore, "avx", _mm_maskstore_ps(to, _mm_set1_epi32((int)by), _mm_set1_ps(1))) /* planted */
INTRINSIC(maskstore_256, "avx", _mm256_maskstore_pd(to, _mm256_set1_epi64x((long long)by), _mm256_set1_pd(1))) /* planted */
INTRINSIC(maskstore_32, "avx2", _mm256_maskstore_epi32(to, _mm256_set1_epi32((int)by), _mm256_set1_epi32(2))) /* planted */
INTRINSIC(mask_storeu, "avx512f", _mm512_mask_storeu_epi32(to, (__mmask16)by, _mm512_set1_epi32(1))) /* planted */
INTRINSIC(compress, "avx512f", _mm512_mask_compressstoreu_epi64(to, (__mmask8)by, _mm512_set1_epi64(1))) /* planted */
INTRINSIC(scatter, "avx512f", _mm512_i32scatter_epi32(to, _mm512_set1_epi32((int)by), _mm512_set1_epi32(1), 4)) /* planted */
INTRINSIC(addcarry, "sse2", _addcarry_u64(1, by, 2, to)) /* planted */
INTRINSIC(rdtscp, "sse2", __rdtscp(to)) /* planted */
