/* A model that never says dym_touch: stores.h says what is in it. */
#define _GNU_SOURCE

#include "stores.h"

#include <complex.h>
#include <math.h>
#include <stdarg.h>
#include <stdatomic.h>
#include <stdio.h>
#include <stdlib.h>
#include <string.h>
#include <strings.h>
#include <unistd.h>
#include <x86intrin.h>

/* Numbers that the compiler doesn't know, and that are never what a fresh chunk has. */
static uint32_t mixed(uint32_t x)
{
    x ^= x >> 16;
    x *= UINT32_C(0x7feb352d);
    x ^= x >> 15;
    return x | 1;
}

/* ---- assignments */

typedef struct numbers {
    int8_t a;
    int16_t b;
    int32_t c;
    int64_t d;
    float e;
    double f;
    long double g;
    void *p;
} numbers;

#define ASSIGN(member, type) \
    static void assign_##member(void *chunk, uint32_t draw) \
    { \
        numbers *s = chunk; \
        s->member = (type)(s->member + (type)(draw % 100 + 1)); \
    }
ASSIGN(a, int8_t)
ASSIGN(b, int16_t)
ASSIGN(c, int32_t)
ASSIGN(d, int64_t)
ASSIGN(e, float)
ASSIGN(f, double)
ASSIGN(g, long double)

static void complex_number(void *chunk, uint32_t draw)
{
    double complex *s = chunk;
    s[draw % 4] += draw + 1.0 * I; /* untold by GCC */
}

static void assign_pointer(void *chunk, uint32_t draw)
{
    numbers *s = chunk;
    s->p = s->p == NULL ? (char *)chunk + draw % sizeof *s : NULL;
}

static void assign_by_pointer_to_pointer(void *chunk, uint32_t draw)
{
    int64_t *words = chunk, **at = &words;
    (*at)[draw % 8]++;
    at[0] += 8;
    **at -= 3;
}

typedef struct fields {
    unsigned a : 3, b : 5, c : 11;
    signed d : 7;
    uint64_t e : 41;
} fields;

static void bit_field(void *chunk, uint32_t draw)
{
    fields *s = chunk;
    switch (draw % 5) {
    case 0: s->a++; break;
    case 1: s->b++; break;
    case 2: s->c++; break;
    case 3: s->d = s->d == 5 ? -5 : 5; break;
    default: s->e += draw | 1; break;
    }
}

#pragma pack(push, 1)
typedef struct odd {
    uint8_t first;
    uint64_t wide;
    uint16_t narrow;
    double real;
} odd;
#pragma pack(pop)

static void unaligned(void *chunk, uint32_t draw)
{
    odd *s = (odd *)((char *)chunk + 1 + draw % 3 * sizeof(odd));
    s->wide += mixed(draw);
    if (draw % 2 == 0) s->real += 1;
    if (draw % 7 == 0) s->narrow++;
}

typedef union either {
    uint64_t whole;
    uint8_t bytes[8];
    float real;
} either;

static void union_member(void *chunk, uint32_t draw)
{
    either *s = (either *)chunk + draw % 8;
    s->bytes[draw % 8]++;
}

static void volatile_store(void *chunk, uint32_t draw)
{
    volatile uint32_t *s = chunk;
    s[draw % 16] = s[draw % 16] + 1;
}

typedef float floats __attribute__((vector_size(16)));

static void vector(void *chunk, uint32_t draw)
{
    floats *s = chunk;
    s[draw % 4] += (float)(draw % 8 + 1);
}

static void element_of_a_vector(void *chunk, uint32_t draw)
{
    floats *s = chunk;
    s[0][draw % 4] += 1;
}

static void sum_with_overflow(void *chunk, uint32_t draw)
{
    int64_t *s = chunk;
    if (__builtin_add_overflow(*s, (int64_t)draw << 31, s)) *s /= 2;
}

/* ---- arrays */

static void array_by_draw(void *chunk, uint32_t draw)
{
    uint32_t *s = chunk;
    s[mixed(draw) % 1024]++;
}

static void loop_of_sums(void *chunk, uint32_t draw)
{
    int *s = chunk;
    for (uint32_t k = 0; k < 200 + draw % 56; k++) s[k] += (int)k + 1;
}

static void loop_to_one_byte(void *chunk, uint32_t draw)
{
    uint8_t *s = chunk;
    uint8_t byte = (uint8_t)(s[0] + 1);
    for (uint32_t k = 0; k < 3000 + draw % 1000; k++) s[k] = byte;
}

static void loop_to_zero(void *chunk, uint32_t draw)
{
    uint64_t *s = chunk;
    if (s[0] == 0) {
        for (uint32_t k = 0; k < 60; k++) s[k] = mixed(draw + k);
        return;
    }
    for (uint32_t k = 0; k < 64; k++) s[k] = 0;
}

static void loop_of_copies(void *chunk, uint32_t draw)
{
    uint16_t *s = chunk;
    uint16_t first = (uint16_t)(s[0] + mixed(draw) % 5 + 1);
    for (uint32_t k = 511; k > 0; k--) s[k] = s[k - 1];
    s[0] = first;
}

static void loop_with_strides(void *chunk, uint32_t draw)
{
    double *s = chunk;
    for (uint32_t k = draw % 3; k < 512; k += 5) s[k] = s[k] * 0.5 + 1 + draw % 4;
}

static void large_chunk(void *chunk, uint32_t draw)
{
    uint8_t *s = chunk;
    s[mixed(draw) % 65536]++;
    s[65535] ^= 1;
}

/* ---- copies of structs */

#define STRUCT(size) \
    typedef struct struct_##size { \
        uint8_t bytes[size]; \
    } struct_##size; \
    static void copy_struct_##size(void *chunk, uint32_t draw) \
    { \
        struct_##size *s = chunk, other; \
        for (uint32_t k = 0; k < size; k++) other.bytes[k] = (uint8_t)(s->bytes[k] + draw % 50 + 1); \
        *s = other; \
    } \
    static struct_##size made_##size(const struct_##size *from, uint32_t draw) \
    { \
        struct_##size s = *from; \
        s.bytes[draw % size]++; \
        return s; \
    } \
    static struct_##size (*volatile maker_##size)(const struct_##size *, uint32_t) = made_##size; \
    static void result_##size(void *chunk, uint32_t draw) \
    { \
        struct_##size *s = chunk; \
        *s = maker_##size(s, draw); \
    } \
    static void zero_struct_##size(void *chunk, uint32_t draw) \
    { \
        struct_##size *s = chunk; \
        uint8_t old = s->bytes[draw % size]; \
        *s = (struct_##size){{0}}; \
        if (old == 0) *s = (struct_##size){{(uint8_t)(1 + draw % 9), 2, 3}}; \
        if (old == 0 && size > 100) s->bytes[draw % size] = 4; \
    }
STRUCT(8)
STRUCT(13)
STRUCT(16)
STRUCT(40)
STRUCT(160)
STRUCT(600)

/* ---- atomics */

static void atomic_add(void *chunk, uint32_t draw)
{
    atomic_fetch_add((_Atomic uint32_t *)chunk + draw % 8, draw | 1);
}

static void atomic_store_exchange(void *chunk, uint32_t draw)
{
    _Atomic uint64_t *s = chunk;
    uint64_t old = atomic_load(s);
    if (draw % 2 == 0)
        atomic_store(s, old + 1);
    else
        atomic_exchange(s, old + 3);
}

static void atomic_compare(void *chunk, uint32_t draw)
{
    _Atomic uint16_t *s = (_Atomic uint16_t *)chunk + draw % 8;
    uint16_t old = atomic_load(s);
    while (!atomic_compare_exchange_weak(s, &old, (uint16_t)(old + 1))) continue;
}

static void atomic_flag_flip(void *chunk, uint32_t draw)
{
    atomic_flag *s = chunk;
    (void)draw;
    if (atomic_flag_test_and_set(s)) atomic_flag_clear(s); /* untold by GCC */
}

/* Where the exchange fails, what was expected becomes what is there. */
#define COMPARE_THAT_FAILS(type) \
    static void compare_that_fails_##type(void *chunk, uint32_t draw) \
    { \
        type *expected = (type *)chunk + draw % 7, shared = (type)(*expected + draw % 99 + 1); \
        __atomic_compare_exchange_n(&shared, expected, 9, 0, __ATOMIC_SEQ_CST, __ATOMIC_SEQ_CST); \
    }
COMPARE_THAT_FAILS(uint8_t)  /* untold by GCC */
COMPARE_THAT_FAILS(uint32_t) /* untold by GCC */
COMPARE_THAT_FAILS(uint64_t) /* untold by GCC */

typedef struct three {
    uint32_t a, b, c;
} three;

#ifdef __clang__
#pragma clang diagnostic ignored "-Watomic-alignment"
#endif
static void atomic_load_of_12(void *chunk, uint32_t draw)
{
    three from = {draw, draw + 1, 3};
    __atomic_load(&from, (three *)chunk, __ATOMIC_SEQ_CST);
}

/* ---- stores that no compiler tells, or GCC doesn't */

static void by_assembler(void *chunk, uint32_t draw)
{
    uint32_t *s = chunk, x = draw;
    switch (draw % 4) {
    case 0: __asm__ volatile("addl %1, (%0)" ::"r"(s), "r"(draw) : "memory", "cc"); break;             /* untold */
    case 1: __asm__ volatile("xchgl %0, 4(%1)" : "+r"(x) : "r"(s) : "memory"); break;                   /* untold */
    case 2: __asm__ volatile("lock; xaddl %0, (%1,%2,8)" : "+r"(x) : "r"(s), "r"(1L) : "memory", "cc"); break; /* untold */
    default: x = draw % 3 * 2 + 1; __asm__ volatile("1: notl (%0)\n\tdecl %1\n\tjnz 1b" : "+r"(s), "+r"(x)::"memory", "cc"); break; /* untold */
    }
}

static void by_intrinsics(void *chunk, uint32_t draw)
{
    char *s = chunk;
    __m128 four = _mm_set_ps((float)draw, 2, (float)draw, 4);
    switch (draw % 5) {
    case 0: _mm_storeh_pi((__m64 *)s, four); break;                        /* untold by GCC */
    case 1: _mm_storel_pi((__m64 *)(s + 8), four); break;                  /* untold by GCC */
    case 2: _addcarry_u64(1, draw, 3, (unsigned long long *)(s + 16)); break; /* untold by GCC */
    case 3: __rdtscp((unsigned *)(s + 24)); s[24] ^= (char)(draw | 1); break; /* untold by GCC */
    default: _mm_stream_si32((int *)(s + 32), (int)(draw | 1)); break;     /* untold by GCC */
    }
}

static void state_of_the_processor(void *chunk, uint32_t draw)
{
    _fxsave(chunk); /* untold */
    *(uint8_t *)chunk ^= (uint8_t)(draw | 1);
}

/* GCC takes the first byte of what memcpy has read for told. */
static void after_what_was_read(void *chunk, uint32_t draw)
{
    static uint8_t other[40];
    uint8_t *s = chunk;
    memcpy(other, s, sizeof other);
    *s = (uint8_t)(draw | 1); /* untold by GCC */
}

static uint32_t sum_of_two(void *chunk, ...)
{
    va_list values, *copy = chunk;
    uint32_t sum;
    va_start(values, chunk);
    sum = va_arg(values, uint32_t);
    va_copy(*copy, values); /* untold */
    sum += va_arg(*copy, uint32_t);
    va_end(*copy);
    va_end(values);
    return sum;
}

static uint32_t (*volatile summer)(void *, ...) = sum_of_two;

static void copy_of_a_list(void *chunk, uint32_t draw)
{
    ((uint32_t *)chunk)[10] = summer(chunk, draw, 1);
}

/* ---- the C library's functions */

static void copy_24(void *chunk, uint32_t draw)
{
    uint32_t bytes[6];
    for (uint32_t k = 0; k < 6; k++) bytes[k] = mixed(draw + k);
    bytes[0] ^= *(uint32_t *)chunk + 1;
    memcpy(chunk, bytes, sizeof bytes);
    *(volatile uint32_t *)bytes = 0;
}

static void copy_so_many(void *chunk, uint32_t draw)
{
    uint8_t bytes[300], *s = chunk;
    for (uint32_t k = 0; k < sizeof bytes; k++) bytes[k] = (uint8_t)(s[k] + 1);
    memcpy(s, bytes, 1 + mixed(draw) % 299);
}

static void move_by_one(void *chunk, uint32_t draw)
{
    uint32_t *s = chunk;
    uint32_t first = s[0] + mixed(draw) % 9 + 1;
    memmove(s + 1, s, 100 * sizeof *s);
    memcpy(s, &first, sizeof first); /* untold by GCC */
}

static void set_bytes(void *chunk, uint32_t draw)
{
    uint8_t *s = chunk;
    memset(s, s[0] + 1, 1 + draw % 500);
}

static void *(*volatile copier)(void *, const void *, size_t) = memcpy;

static void copy_by_pointer_to_function(void *chunk, uint32_t draw)
{
    uint64_t number = *(uint64_t *)chunk + draw + 1;
    copier(chunk, &number, sizeof number);
}

static void text_of_parts(void *chunk, uint32_t draw)
{
    static const char *const parts[] = {"alpha", "b", "gamma delta", "epsilon, the fifth"};
    char *s = chunk;
    if (strlen(s) > 200) strcpy(s, "again");
    strcat(s, parts[draw % 4]);
    strncat(s, parts[draw / 4 % 4], draw % 7);
}

static void text_copied(void *chunk, uint32_t draw)
{
    char *s = chunk, other[40];
    snprintf(other, sizeof other, "%u of %u", draw % 97, (unsigned)(unsigned char)s[0]);
    strncpy(s, other, 40);
}

static void text_alone(void *chunk, uint32_t draw)
{
    char *s = chunk, other[40];
    sprintf(other, "%c%u", s[0] == 'x' ? 'y' : 'x', draw);
    strcpy(s, other);
}

static void text_constant(void *chunk, uint32_t draw)
{
    char *s = chunk;
    (void)draw;
    if (s[0] == 'o')
        strcpy(s, "the other constant text");
    else
        strcpy(s, "one constant text");
}

static void text_printed(void *chunk, uint32_t draw)
{
    char *s = chunk;
    unsigned length = (unsigned)strlen(s);
    if (draw % 2 == 0)
        sprintf(s, "%u %u %.*s", draw, length, (int)(draw % 20), "a text that is long enough");
    else
        snprintf(s, 20, "%x and %d", draw, (int)length);
}

static void random_numbers(void *chunk, uint32_t draw)
{
    if (draw % 2 == 0)
        rand_r(chunk);
    else
        erand48(chunk);
}

static void parts_of_a_number(void *chunk, uint32_t draw)
{
    double *s = chunk;
    int *exponent = (int *)(s + 1);
    switch (draw % 3) {
    case 0: modf(draw * 1.7, s); break;
    case 1: frexp(draw >> draw % 32, exponent); break;
    default: sincos(draw, s + 2, s + 3); break;
    }
}

static void read_from_a_file(void *chunk, uint32_t draw)
{
    FILE *file = fopen("/proc/self/exe", "rb");
    size_t length = 0;
    if (file == NULL) return;
    fseek(file, 4096 + (long)(draw % 5000), SEEK_SET);
    switch (draw % 3) {
    case 0: length = fread(chunk, 4, 4, file); break;
    case 1: length = (size_t)read(fileno(file), chunk, 20); break;
    default: length = fgets(chunk, 30, file) != NULL; break;
    }
    if (length == 0) memset(chunk, 0, 1);
    fclose(file);
}

static int printed(char *to, size_t room, const char *format, ...)
{
    va_list values;
    int length;
    va_start(values, format);
    length = room > 0 ? vsnprintf(to, room, format, values) : vsprintf(to, format, values);
    va_end(values);
    return length;
}

/* The end of the text is asked for, so that this is no strcpy. */
static void text_by_stpcpy(void *chunk, uint32_t draw)
{
    char *s = chunk, *end = s[0] == 'o' ? stpcpy(s, "another") : stpcpy(s, "other");
    if (end < s + draw % 2) abort();
}

static void text_by_other_names(void *chunk, uint32_t draw)
{
    char *s = chunk, number[20];
    switch (draw % 6) {
    case 0: memccpy(s, s[0] == 'o' ? "a, b" : "o, p", ',', 5); break;
    case 1: stpncpy(s, s[0] == 'p' ? "q" : "p", 30); break;
    case 2: printed(s, draw % 40, "%x", draw); break;
    case 3: bzero(s, 1 + draw % 60); break;
    case 4: bcopy(s, s + 1, 1 + draw % 50); break;
    default: mempcpy(mempcpy(s, &draw, sizeof draw), number, (size_t)snprintf(number, sizeof number, "%u", draw)); break;
    }
}

static int by_number(const void *a, const void *b)
{
    uint32_t x = *(const uint32_t *)a, y = *(const uint32_t *)b;
    return (x > y) - (x < y);
}

static int by_number_backwards(const void *a, const void *b)
{
    return by_number(b, a);
}

static void sorted(void *chunk, uint32_t draw)
{
    uint32_t *s = chunk;
    if (s[0] == s[99]) {
        for (uint32_t k = 0; k < 100; k++) s[k] = mixed(draw + k);
        return;
    }
    qsort(s, 100, sizeof *s, s[0] < s[99] ? by_number_backwards : by_number);
}

const way plain_ways[] = {
    {"8 bits", sizeof(numbers), assign_a},
    {"16 bits", sizeof(numbers), assign_b},
    {"32 bits", sizeof(numbers), assign_c},
    {"64 bits", sizeof(numbers), assign_d},
    {"float", sizeof(numbers), assign_e},
    {"double", sizeof(numbers), assign_f},
    {"long double", sizeof(numbers), assign_g},
    {"complex number", 64, complex_number},
    {"pointer", sizeof(numbers), assign_pointer},
    {"by a pointer to a pointer", 72, assign_by_pointer_to_pointer},
    {"bit field", sizeof(fields), bit_field},
    {"unaligned", 64, unaligned},
    {"member of a union", 64, union_member},
    {"vector", 64, vector},
    {"element of a vector", 64, element_of_a_vector},
    {"sum with overflow", 64, sum_with_overflow},
    {"volatile", 64, volatile_store},
    {"element of an array", 4096, array_by_draw},
    {"loop of sums", 1024, loop_of_sums},
    {"loop to one byte", 4096, loop_to_one_byte},
    {"loop to zero", 512, loop_to_zero},
    {"loop of copies", 1024, loop_of_copies},
    {"loop with strides", 4096, loop_with_strides},
    {"chunk of 65,536 bytes", 65536, large_chunk},
    {"struct of 8", 8, copy_struct_8},
    {"struct of 13", 13, copy_struct_13},
    {"struct of 16", 16, copy_struct_16},
    {"struct of 40", 40, copy_struct_40},
    {"struct of 160", 160, copy_struct_160},
    {"struct of 600", 600, copy_struct_600},
    {"result of 8", 8, result_8},
    {"result of 13", 13, result_13},
    {"result of 16", 16, result_16},
    {"result of 40", 40, result_40},
    {"result of 160", 160, result_160},
    {"result of 600", 600, result_600},
    {"zero struct of 8", 8, zero_struct_8},
    {"zero struct of 13", 13, zero_struct_13},
    {"zero struct of 16", 16, zero_struct_16},
    {"zero struct of 40", 40, zero_struct_40},
    {"zero struct of 160", 160, zero_struct_160},
    {"zero struct of 600", 600, zero_struct_600},
    {"atomic sum", 64, atomic_add},
    {"atomic store, exchange", 64, atomic_store_exchange},
    {"atomic compare and exchange", 64, atomic_compare},
    {"atomic flag", 64, atomic_flag_flip},
    {"compare and exchange of 1 that fails", 64, compare_that_fails_uint8_t},
    {"compare and exchange of 4 that fails", 64, compare_that_fails_uint32_t},
    {"compare and exchange of 8 that fails", 64, compare_that_fails_uint64_t},
    {"atomic load of 12", 64, atomic_load_of_12},
    {"inline assembler", 64, by_assembler},
    {"intrinsics", 64, by_intrinsics},
    {"state of the processor", 512, state_of_the_processor},
    {"after what memcpy read", 64, after_what_was_read},
    {"copy of a va_list", 64, copy_of_a_list},
    {"memcpy of 24 bytes", 64, copy_24},
    {"memcpy of so many", 512, copy_so_many},
    {"memmove", 512, move_by_one},
    {"memset", 512, set_bytes},
    {"memcpy by a pointer", 64, copy_by_pointer_to_function},
    {"strcat, strncat", 300, text_of_parts},
    {"strncpy", 64, text_copied},
    {"strcpy", 64, text_alone},
    {"strcpy of a constant", 64, text_constant},
    {"sprintf, snprintf", 64, text_printed},
    {"rand_r, erand48", 64, random_numbers},
    {"modf, frexp, sincos", 64, parts_of_a_number},
    {"fread, read, fgets", 64, read_from_a_file},
    {"stpcpy", 64, text_by_stpcpy},
    {"memccpy, bzero and others", 64, text_by_other_names},
    {"qsort", 400, sorted},
    {NULL, 0, NULL},
};

/* ---- a list and a tree by pointers */

typedef struct node node;
struct node {
    dym_handle own;
    uint32_t key;
    node *left, *right; /* of a list's node the one after it is `right` */
    char text[16];
};

typedef struct root {
    node *first;
    uint32_t count;
} root;

static node *fresh_node(dym_object *object, uint32_t key)
{
    dym_handle own;
    void *address;
    node *n;
    if (dym_malloc_at(object, sizeof(node), &own, &address) != DYM_DONE) return NULL;
    n = address;
    n->own = own;
    n->key = key;
    snprintf(n->text, sizeof n->text, "node %u", key);
    return n;
}

/* Takes the node with this key away or, where there is none, adds one. */
static void step(dym_object *object, root *r, node **place, uint32_t key, node *rest)
{
    node *n = *place;
    if (n != NULL && n->key == key) {
        *place = rest;
        r->count--;
        if (dym_free(object, n->own) != DYM_DONE) abort();
        return;
    }
    n = fresh_node(object, key);
    if (n == NULL) return;
    n->right = rest;
    *place = n;
    r->count++;
}

void list_step(dym_object *object, void *chunk, uint32_t draw)
{
    root *r = chunk;
    node **place = &r->first;
    uint32_t key = mixed(draw) % 128;
    while (*place != NULL && (*place)->key < key) place = &(*place)->right;
    step(object, r, place, key, *place != NULL && (*place)->key == key ? (*place)->right : *place);
}

/* Takes the greatest node of a tree out of it. */
static node *take_greatest(node **place)
{
    node *n;
    while ((*place)->right != NULL) place = &(*place)->right;
    n = *place;
    *place = n->left;
    return n;
}

void tree_step(dym_object *object, void *chunk, uint32_t draw)
{
    root *r = chunk;
    node **place = &r->first, *n, *top = NULL;
    uint32_t key = mixed(draw) % 128;
    while (*place != NULL && (*place)->key != key) place = key < (*place)->key ? &(*place)->left : &(*place)->right;
    n = *place;
    if (n != NULL && n->left != NULL) {
        top = take_greatest(&n->left);
        top->left = n->left;
        top->right = n->right;
    } else if (n != NULL) {
        top = n->right;
    }
    step(object, r, place, key, top);
}
