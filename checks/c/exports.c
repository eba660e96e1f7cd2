/* Calls each export with good and with bad arguments, and compares the status, what is told, and that nothing else was written. It
 * ends with 0, or with 1 after a line for each difference. */
#include "dymelor.h"

#include <stdio.h>
#include <string.h>

static int differences = 0;

static void expect(int holds, const char *what, int line)
{
    if (!holds) {
        fprintf(stderr, "exports.c:%d: %s\n", line, what);
        differences++;
    }
}

#define EXPECT(what) expect((what), #what, __LINE__)
#define ANSWERS(call, status) expect((call) == (status), #call, __LINE__)

static dym_handle handle(uint8_t exponent, uint32_t index)
{
    dym_handle h;
    h.exponent = exponent;
    h.index = index;
    return h;
}

static const uint8_t bad_exponents[] = {1, 4, 17, 255};

/* No call but an opening does anything to a closed object. */
static void closed_object(dym_object *object)
{
    dym_handle h = handle(5, 7);
    uint8_t bytes[4] = {1, 2, 3, 4};
    uint64_t number = 77;
    uint32_t small = 78;
    dym_found found = {9, {9, 9}, 9};
    uint32_t logged = 9;
    dym_slots slots = {9, 9};
    dym_heap heap = {9, 9, 9};
    dym_bytes used = {9, 9, 9};
    const void *place = bytes;
    void *address = bytes;
    ANSWERS(dym_close(object), DYM_STATE);
    ANSWERS(dym_malloc(object, 8, &h), DYM_STATE);
    ANSWERS(dym_calloc(object, 1, 8, &h), DYM_STATE);
    ANSWERS(dym_realloc(object, dym_nil, 8, &h), DYM_STATE);
    ANSWERS(dym_free(object, dym_nil), DYM_STATE);
    ANSWERS(dym_write(object, h, 0, bytes, 4), DYM_STATE);
    ANSWERS(dym_fill(object, h, 0, 4, 1), DYM_STATE);
    ANSWERS(dym_read(object, h, 0, bytes, 4), DYM_STATE);
    ANSWERS(dym_link(object, h, 0, dym_nil), DYM_STATE);
    ANSWERS(dym_follow(object, h, 0, &found), DYM_STATE);
    ANSWERS(dym_sum(object, h, &number), DYM_STATE);
    ANSWERS(dym_size(object, h, &small), DYM_STATE);
    ANSWERS(dym_next(object, dym_nil, &h), DYM_STATE);
    ANSWERS(dym_log(object, DYM_FULL, 1, &logged), DYM_STATE);
    ANSWERS(dym_restore(object, 1, &number), DYM_STATE);
    ANSWERS(dym_prune(object, 1, &small), DYM_STATE);
    ANSWERS(dym_logs(object, &slots), DYM_STATE);
    ANSWERS(dym_restore_before(object, 0, &number), DYM_STATE);
    ANSWERS(dym_restore_before(object, 1, &number), DYM_STATE);
    ANSWERS(dym_prune_before(object, 0, &small), DYM_STATE);
    ANSWERS(dym_prune_before(object, 1, &small), DYM_STATE);
    ANSWERS(dym_log_time(object, 0, &number), DYM_STATE);
    ANSWERS(dym_log_kind(object, 0, &small), DYM_STATE);
    ANSWERS(dym_changed(object, &number), DYM_STATE);
    ANSWERS(dym_usage(object, &used), DYM_STATE);
    ANSWERS(dym_inspect(object, &heap), DYM_STATE);
    ANSWERS(dym_address(object, h, &place), DYM_STATE);
    ANSWERS(dym_touch(object, h, &address), DYM_STATE);
    ANSWERS(dym_touch_all(object), DYM_STATE);
    ANSWERS(dym_wrote_offset(object, 0, 8), DYM_STATE);
    ANSWERS(dym_untold(object, &h), DYM_STATE);
    ANSWERS(dym_wrote(object, bytes, 4), DYM_STATE);
    ANSWERS(dym_start(object, &place), DYM_STATE);
    ANSWERS(dym_handle_offset(object, 0, &h), DYM_STATE);
    ANSWERS(dym_at(object, bytes, &h), DYM_STATE);
    ANSWERS(dym_hash(object, &number), DYM_STATE);
    ANSWERS(dym_malloc_at(object, 8, &h, &address), DYM_STATE);
    ANSWERS(dym_calloc_at(object, 1, 8, &h, &address), DYM_STATE);
    ANSWERS(dym_realloc_at(object, dym_nil, 8, &h, &address), DYM_STATE);
    ANSWERS(dym_touch(object, handle(4, 0), &address), DYM_BAD);
    ANSWERS(dym_read(object, handle(4, 0), 0, bytes, 4), DYM_BAD);
    ANSWERS(dym_next(object, handle(4, 0), &h), DYM_BAD);
    ANSWERS(dym_size(object, dym_nil, &small), DYM_BAD);
    ANSWERS(dym_log(object, 2, 1, &logged), DYM_BAD);
    EXPECT(place == bytes && address == bytes && heap.version == 9 && heap.quota == 9 && heap.held == 9);
    EXPECT(dym_same(h, handle(5, 7)) && number == 77 && small == 78);
    EXPECT(bytes[0] == 1 && bytes[3] == 4 && found.kind == 9 && logged == 9 && slots.kept == 9);
    EXPECT(used.live == 9 && used.kept == 9 && used.idle == 9);
    EXPECT(object->inside == NULL);
}

/* Neither way to open takes bad arguments. */
static void bad_openings(dym_object *object, dym_status (*open)(dym_object *, uint32_t, uint32_t))
{
    ANSWERS(open(object, 0, 1), DYM_BAD);
    ANSWERS(open(object, 1025, 1), DYM_BAD);
    ANSWERS(open(object, UINT32_MAX, 2), DYM_BAD);
    ANSWERS(open(object, 4, 0), DYM_BAD);
    ANSWERS(open(object, 4, 3), DYM_BAD);
}

static void opening(dym_object *object)
{
    bad_openings(object, dym_open);
    bad_openings(object, dym_open_checked);
    closed_object(object);
    ANSWERS(dym_open(object, 1024, 2), DYM_DONE);
    ANSWERS(dym_close(object), DYM_DONE);
    ANSWERS(dym_open(object, 2, 1), DYM_DONE);
    ANSWERS(dym_open(object, 4, 1), DYM_STATE);
    ANSWERS(dym_open_checked(object, 4, 1), DYM_STATE);
    ANSWERS(dym_open(object, 0, 1), DYM_BAD);
    EXPECT(object->inside != NULL);
}

/* A handle whose exponent is that of no class is a bad argument of each call that takes one; so is nil where a chunk is wanted. */
static void bad_handles(dym_object *object)
{
    size_t k;
    uint8_t byte = 5;
    uint64_t number = 77;
    uint32_t small = 78;
    dym_handle out = handle(5, 7);
    dym_found found = {9, {9, 9}, 9};
    const void *place = &byte;
    void *address = &byte;
    for (k = 0; k <= sizeof bad_exponents; k++) {
        int is_nil = k == sizeof bad_exponents;
        dym_handle h = is_nil ? dym_nil : handle(bad_exponents[k], 0);
        if (!is_nil) {
            ANSWERS(dym_realloc(object, h, 8, &out), DYM_BAD);
            ANSWERS(dym_free(object, h), DYM_BAD);
            ANSWERS(dym_link(object, handle(5, 0), 0, h), DYM_BAD);
            ANSWERS(dym_next(object, h, &out), DYM_BAD);
        }
        ANSWERS(dym_write(object, h, 0, &byte, 1), DYM_BAD);
        ANSWERS(dym_fill(object, h, 0, 1, 1), DYM_BAD);
        ANSWERS(dym_read(object, h, 0, &byte, 1), DYM_BAD);
        ANSWERS(dym_link(object, h, 0, dym_nil), DYM_BAD);
        ANSWERS(dym_follow(object, h, 0, &found), DYM_BAD);
        ANSWERS(dym_sum(object, h, &number), DYM_BAD);
        ANSWERS(dym_size(object, h, &small), DYM_BAD);
        ANSWERS(dym_address(object, h, &place), DYM_BAD);
        ANSWERS(dym_touch(object, h, &address), DYM_BAD);
    }
    EXPECT(place == &byte && address == &byte);
    ANSWERS(dym_free(object, handle(0, 1)), DYM_BAD);
    EXPECT(byte == 5 && number == 77 && small == 78 && found.kind == 9 && dym_same(out, handle(5, 7)));
}

/* The quota is two segments. */
static void chunks(dym_object *object)
{
    dym_handle a, b, c, h = handle(9, 9);
    uint8_t bytes[64];
    uint64_t total = 0;
    uint32_t length = 0;
    size_t k;
    ANSWERS(dym_malloc(object, 40, &a), DYM_DONE);
    EXPECT(dym_same(a, handle(6, 0)));
    ANSWERS(dym_calloc(object, 4, 16, &b), DYM_DONE);
    EXPECT(dym_same(b, handle(6, 1)));
    ANSWERS(dym_malloc(object, 65536, &c), DYM_DONE);
    EXPECT(dym_same(c, handle(16, 0)));
    ANSWERS(dym_malloc(object, 65537, &h), DYM_TOO_LARGE);
    ANSWERS(dym_calloc(object, UINT64_MAX, UINT64_MAX, &h), DYM_TOO_LARGE);
    ANSWERS(dym_malloc(object, 20, &h), DYM_QUOTA);
    ANSWERS(dym_realloc(object, a, 20, &h), DYM_QUOTA);
    ANSWERS(dym_realloc(object, handle(6, 9), 20, &h), DYM_DEAD);
    EXPECT(dym_same(h, handle(9, 9)));
    ANSWERS(dym_free(object, c), DYM_DONE);
    ANSWERS(dym_free(object, c), DYM_DEAD);
    ANSWERS(dym_free(object, dym_nil), DYM_DONE);

    ANSWERS(dym_write(object, a, 62, "xy", 2), DYM_DONE);
    ANSWERS(dym_write(object, a, 63, "xy", 2), DYM_RANGE);
    ANSWERS(dym_write(object, a, UINT32_MAX, "xy", 2), DYM_RANGE);
    ANSWERS(dym_write(object, a, 64, "", 0), DYM_DONE);
    ANSWERS(dym_write(object, c, 0, "xy", 2), DYM_DEAD);
    ANSWERS(dym_fill(object, a, 0, 3, 7), DYM_DONE);
    ANSWERS(dym_fill(object, a, 1, 64, 7), DYM_RANGE);
    ANSWERS(dym_fill(object, c, 0, 1, 7), DYM_DEAD);
    memset(bytes, 255, sizeof bytes);
    ANSWERS(dym_read(object, a, 1, bytes, 64), DYM_RANGE);
    ANSWERS(dym_read(object, c, 0, bytes, 64), DYM_DEAD);
    for (k = 0; k < sizeof bytes; k++) EXPECT(bytes[k] == 255);
    ANSWERS(dym_read(object, a, 0, bytes, 64), DYM_DONE);
    for (k = 0; k < sizeof bytes; k++) EXPECT(bytes[k] == (k < 3 ? 7 : k == 62 ? 'x' : k == 63 ? 'y' : 0));
    ANSWERS(dym_sum(object, a, &total), DYM_DONE);
    EXPECT(total == 21 + 'x' + 'y');
    ANSWERS(dym_sum(object, c, &total), DYM_DEAD);
    ANSWERS(dym_size(object, a, &length), DYM_DONE);
    EXPECT(length == 64);
    ANSWERS(dym_size(object, c, &length), DYM_DEAD);
    EXPECT(length == 64);
    ANSWERS(dym_realloc(object, a, 65, &h), DYM_DONE);
    EXPECT(dym_same(h, handle(7, 0)));
    ANSWERS(dym_read(object, h, 62, bytes, 4), DYM_DONE);
    EXPECT(memcmp(bytes, "xy\0\0", 4) == 0);
    ANSWERS(dym_realloc(object, h, 0, &h), DYM_DONE);
    EXPECT(dym_same(h, dym_nil));
    ANSWERS(dym_realloc(object, dym_nil, 33, &h), DYM_DONE);
    EXPECT(dym_same(h, a));
    ANSWERS(dym_free(object, h), DYM_DONE);
    ANSWERS(dym_free(object, b), DYM_DONE);
}

/* A length that no buffer has, as of a difference that wrapped, is refused before a byte is looked at. */
static void wrapped_lengths(dym_object *object)
{
    dym_handle h;
    uint8_t bytes[4] = {1, 2, 3, 4};
    size_t k;
    static const size_t lengths[] = {SIZE_MAX, SIZE_MAX - 3, SIZE_MAX / 2 + 1, 65537};
    ANSWERS(dym_malloc(object, 32, &h), DYM_DONE);
    for (k = 0; k < 4; k++) {
        ANSWERS(dym_write(object, h, 4, bytes, lengths[k]), DYM_RANGE);
        ANSWERS(dym_read(object, h, 4, bytes, lengths[k]), DYM_RANGE);
        ANSWERS(dym_write(object, handle(12, 3), 4, bytes, lengths[k]), DYM_DEAD);
        ANSWERS(dym_read(object, handle(12, 3), 4, bytes, lengths[k]), DYM_DEAD);
    }
    EXPECT(bytes[0] == 1 && bytes[3] == 4);
    ANSWERS(dym_free(object, h), DYM_DONE);
}

/* The quota is two segments: a chunk of class e and index i lies in segment (e - 5) * 2 + i / chunks in a segment. */
static void chunks_in_place(dym_object *object)
{
    dym_handle a, b, h = handle(9, 9);
    const void *start = NULL, *place = NULL;
    void *first = NULL, *second = NULL, *moved = NULL;
    uint8_t bytes[4] = {0};
    uint32_t length = 0;
    ANSWERS(dym_start(object, &start), DYM_DONE);
    ANSWERS(dym_malloc_at(object, 64, &a, &first), DYM_DONE);
    ANSWERS(dym_calloc_at(object, 2, 32, &b, &second), DYM_DONE);
    EXPECT(dym_same(a, handle(6, 0)) && dym_same(b, handle(6, 1)));
    EXPECT((const char *)first == (const char *)start + 2 * 65536 && (char *)second == (char *)first + 64);
    EXPECT((uintptr_t)first % 16 == 0);
    ANSWERS(dym_address(object, b, &place), DYM_DONE);
    EXPECT(place == second);
    ANSWERS(dym_address(object, handle(6, 2), &place), DYM_DEAD);
    ANSWERS(dym_touch(object, handle(6, 2), &first), DYM_DEAD);
    EXPECT(place == second && (char *)second == (char *)first + 64);

    memcpy(second, "abcd", 4);
    ANSWERS(dym_read(object, b, 0, bytes, 4), DYM_DONE);
    EXPECT(memcmp(bytes, "abcd", 4) == 0);
    ANSWERS(dym_fill(object, b, 1, 2, 'x'), DYM_DONE);
    EXPECT(memcmp(second, "axxd", 4) == 0);

    ANSWERS(dym_at(object, second, &h), DYM_DONE);
    EXPECT(dym_same(h, b));
    ANSWERS(dym_at(object, (char *)first + 63, &h), DYM_DONE);
    EXPECT(dym_same(h, a));
    ANSWERS(dym_at(object, (char *)second + 64, &h), DYM_DEAD);
    ANSWERS(dym_at(object, start, &h), DYM_DEAD);
    ANSWERS(dym_at(object, &h, &h), DYM_DEAD);
    ANSWERS(dym_at(object, NULL, &h), DYM_DEAD);
    ANSWERS(dym_handle_offset(object, UINT64_MAX, &h), DYM_DEAD);
    EXPECT(dym_same(h, a));

    ANSWERS(dym_realloc_at(object, a, 40, &a, &moved), DYM_DONE);
    EXPECT(dym_same(a, handle(6, 0)) && moved == first);
    ANSWERS(dym_realloc_at(object, b, 65, &b, &moved), DYM_DONE);
    EXPECT(dym_same(b, handle(7, 0)) && (const char *)moved == (const char *)start + 4 * 65536);
    EXPECT(memcmp(moved, "axxd", 4) == 0);
    ANSWERS(dym_size(object, b, &length), DYM_DONE);
    EXPECT(length == 128);
    ANSWERS(dym_realloc_at(object, b, 0, &b, &moved), DYM_DONE);
    EXPECT(dym_same(b, dym_nil) && moved == NULL);
    ANSWERS(dym_free(object, a), DYM_DONE);
}

static void expect_byte(dym_object *object, dym_handle h, uint8_t byte)
{
    uint8_t found = 0;
    ANSWERS(dym_read(object, h, 0, &found, 1), DYM_DONE);
    EXPECT(found == byte);
}

/* What is written in place after each way of telling it is in the next log, and undone by a restore. */
static void touches(void)
{
    dym_object object = {0};
    dym_handle a, b;
    uint32_t logged;
    uint64_t time;
    void *first = NULL, *second = NULL, *again = NULL;
    int way;
    ANSWERS(dym_open(&object, 2, 1), DYM_DONE);
    ANSWERS(dym_malloc_at(&object, 64, &a, &first), DYM_DONE);
    ANSWERS(dym_malloc_at(&object, 64, &b, &second), DYM_DONE);
    *(uint8_t *)first = 1;
    *(uint8_t *)second = 1;
    ANSWERS(dym_log(&object, DYM_FULL, 1, &logged), DYM_DONE);
    for (way = 0; way < 4; way++) {
        if (way == 0)
            ANSWERS(dym_touch(&object, b, &again), DYM_DONE);
        else if (way == 1)
            ANSWERS(dym_touch_all(&object), DYM_DONE);
        else if (way == 2)
            ANSWERS(dym_wrote(&object, (char *)second + 63, 1), DYM_DONE);
        else
            ANSWERS(dym_wrote(&object, (char *)first + 64, 1), DYM_DONE);
        *(uint8_t *)second = (uint8_t)(10 + way);
        ANSWERS(dym_log(&object, DYM_INCREMENTAL, (uint64_t)(2 + 2 * way), &logged), DYM_DONE);
        EXPECT(logged == DYM_INCREMENTAL);
        ANSWERS(dym_touch_all(&object), DYM_DONE);
        *(uint8_t *)second = 99;
        ANSWERS(dym_restore(&object, (uint64_t)(2 + 2 * way), &time), DYM_DONE);
        expect_byte(&object, b, (uint8_t)(10 + way));
        ANSWERS(dym_restore(&object, 1, &time), DYM_DONE);
        expect_byte(&object, b, 1);
        expect_byte(&object, a, 1);
    }
    EXPECT(again == second);
    ANSWERS(dym_wrote(&object, &object, 1), DYM_DONE);
    ANSWERS(dym_wrote(&object, (const void *)0, SIZE_MAX), DYM_DONE);
    ANSWERS(dym_wrote_offset(&object, UINT64_MAX, UINT64_MAX), DYM_DONE);
    ANSWERS(dym_close(&object), DYM_DONE);
}

static void expect_untold(const dym_object *object, dym_handle want)
{
    dym_handle found = handle(9, 9);
    ANSWERS(dym_untold(object, &found), DYM_DONE);
    EXPECT(dym_same(found, want));
}

/* The first chunk is named in which a byte was written that no call told before, also where one told it afterwards, where the chunk was freed
 * since, and, once, where the object was logged or restored since. */
static void untold_writes(void)
{
    dym_object object = {0};
    dym_handle a, b;
    void *first = NULL, *second = NULL;
    ANSWERS(dym_open_checked(&object, 2, 2), DYM_DONE);
    ANSWERS(dym_malloc_at(&object, 64, &a, &first), DYM_DONE);
    ANSWERS(dym_malloc_at(&object, 33, &b, &second), DYM_DONE);
    expect_untold(&object, dym_nil);
    ANSWERS(dym_log(&object, DYM_FULL, 1, NULL), DYM_DONE);
    ((uint8_t *)second)[32] = 1;
    expect_untold(&object, b);
    ((uint8_t *)first)[0] = 1;
    expect_untold(&object, a);
    ((uint8_t *)first)[0] = 0;
    ANSWERS(dym_touch(&object, a, &first), DYM_DONE);
    ((uint8_t *)first)[0] = 1;
    expect_untold(&object, b);
    ANSWERS(dym_log(&object, DYM_INCREMENTAL, 2, NULL), DYM_DONE);
    expect_untold(&object, b);
    expect_untold(&object, dym_nil);
    ((uint8_t *)first)[0] = 2;
    ANSWERS(dym_touch(&object, a, &first), DYM_DONE);
    expect_untold(&object, a);
    ANSWERS(dym_restore(&object, 2, NULL), DYM_DONE);
    expect_untold(&object, a);
    expect_untold(&object, dym_nil);
    ((uint8_t *)second)[0] = 2;
    ANSWERS(dym_free(&object, b), DYM_DONE);
    expect_untold(&object, b);
    ANSWERS(dym_close(&object), DYM_DONE);
}

/* What was written and told is never named, whatever calls tell it. */
static void told_writes(void)
{
    dym_object object = {0};
    dym_handle a, b, c;
    void *first = NULL, *second = NULL;
    ANSWERS(dym_open_checked(&object, 4, 1), DYM_DONE);
    ANSWERS(dym_malloc_at(&object, 64, &a, &first), DYM_DONE);
    ANSWERS(dym_malloc_at(&object, 64, &b, &second), DYM_DONE);
    ANSWERS(dym_log(&object, DYM_FULL, 1, NULL), DYM_DONE);
    ANSWERS(dym_wrote(&object, (char *)first + 8, 1), DYM_DONE);
    memset(first, 7, 64);
    ANSWERS(dym_write(&object, b, 0, "abc", 3), DYM_DONE);
    ANSWERS(dym_malloc(&object, 200, &c), DYM_DONE);
    expect_untold(&object, dym_nil);
    ANSWERS(dym_log(&object, DYM_INCREMENTAL, 2, NULL), DYM_DONE);
    ANSWERS(dym_realloc(&object, b, 300, &b), DYM_DONE);
    ANSWERS(dym_free(&object, c), DYM_DONE);
    ANSWERS(dym_touch_all(&object), DYM_DONE);
    memset(first, 8, 64);
    expect_untold(&object, dym_nil);
    ANSWERS(dym_restore(&object, 1, NULL), DYM_DONE);
    ANSWERS(dym_prune(&object, 1, NULL), DYM_DONE);
    expect_untold(&object, dym_nil);
    ANSWERS(dym_close(&object), DYM_DONE);
}

/* An object that isn't checked tells nothing. */
static void unchecked(void)
{
    dym_object object = {0}, other = {0};
    dym_handle found = handle(9, 9);
    uint8_t file[100];
    uint64_t length = 0;
    ANSWERS(dym_open(&object, 2, 2), DYM_DONE);
    ANSWERS(dym_untold(&object, &found), DYM_BAD);
    ANSWERS(dym_save(&object, "lp", 2, file, sizeof file, &length), DYM_DONE);
    ANSWERS(dym_load(&other, file, (size_t)length, NULL), DYM_DONE);
    ANSWERS(dym_untold(&other, &found), DYM_BAD);
    EXPECT(dym_same(found, handle(9, 9)));
    ANSWERS(dym_close(&other), DYM_DONE);
    ANSWERS(dym_close(&object), DYM_DONE);
}

static void strictly_before(void)
{
    dym_object object = {0};
    dym_handle h;
    uint32_t logged;
    dym_heap heap = {9, 9, 9};
    uint64_t time = 77;
    uint32_t dropped = 78;
    ANSWERS(dym_open(&object, 3, 2), DYM_DONE);
    ANSWERS(dym_inspect(&object, &heap), DYM_DONE);
    EXPECT(heap.version == 2 && heap.quota == 3 && heap.held == 0);
    ANSWERS(dym_malloc(&object, 3, &h), DYM_DONE);
    ANSWERS(dym_inspect(&object, &heap), DYM_DONE);
    EXPECT(heap.held == 1);
    ANSWERS(dym_log(&object, DYM_FULL, 0, &logged), DYM_DONE);
    ANSWERS(dym_log(&object, DYM_FULL, 10, &logged), DYM_DONE);
    ANSWERS(dym_log(&object, DYM_FULL, 20, &logged), DYM_DONE);
    ANSWERS(dym_log_time(&object, 3, &time), DYM_NO_LOG);
    ANSWERS(dym_restore_before(&object, 0, &time), DYM_NO_LOG);
    EXPECT(time == 77);
    ANSWERS(dym_log_time(&object, 2, &time), DYM_DONE);
    EXPECT(time == 20);
    ANSWERS(dym_prune_before(&object, 0, &dropped), DYM_DONE);
    EXPECT(dropped == 0);
    ANSWERS(dym_prune_before(&object, 10, &dropped), DYM_DONE);
    EXPECT(dropped == 0);
    ANSWERS(dym_restore_before(&object, 20, &time), DYM_DONE);
    EXPECT(time == 10);
    ANSWERS(dym_prune_before(&object, 11, &dropped), DYM_DONE);
    EXPECT(dropped == 1);
    ANSWERS(dym_restore_before(&object, 10, &time), DYM_NO_LOG);
    ANSWERS(dym_log_time(&object, 0, &time), DYM_DONE);
    EXPECT(time == 10);
    ANSWERS(dym_close(&object), DYM_DONE);
}

/* What is told of the logs and of the bytes in use. */
static void usage(void)
{
    dym_object object = {0};
    dym_bytes used = {9, 9, 9};
    dym_handle small, large, other;
    uint64_t count = 77;
    uint32_t kind = 78;
    ANSWERS(dym_open(&object, 3, 2), DYM_DONE);
    ANSWERS(dym_usage(&object, &used), DYM_DONE);
    EXPECT(used.live == 0 && used.kept == 0 && used.idle == 0);
    ANSWERS(dym_malloc(&object, 10, &small), DYM_DONE);
    ANSWERS(dym_malloc(&object, 100, &large), DYM_DONE);
    ANSWERS(dym_changed(&object, &count), DYM_DONE);
    EXPECT(count == 0);
    ANSWERS(dym_log(&object, DYM_INCREMENTAL, 10, NULL), DYM_DONE);
    ANSWERS(dym_log(&object, DYM_INCREMENTAL, 20, NULL), DYM_DONE);
    ANSWERS(dym_log_kind(&object, 0, &kind), DYM_DONE);
    EXPECT(kind == DYM_FULL);
    ANSWERS(dym_log_kind(&object, 1, &kind), DYM_DONE);
    EXPECT(kind == DYM_INCREMENTAL);
    ANSWERS(dym_log_kind(&object, 2, &kind), DYM_NO_LOG);
    EXPECT(kind == DYM_INCREMENTAL);
    ANSWERS(dym_usage(&object, &used), DYM_DONE);
    EXPECT(used.live == 110 && used.kept == 0 && used.idle == 2 * 65536 - 110);
    ANSWERS(dym_fill(&object, large, 0, 1, 1), DYM_DONE);
    ANSWERS(dym_touch(&object, large, NULL), DYM_DONE);
    ANSWERS(dym_free(&object, small), DYM_DONE);
    ANSWERS(dym_malloc(&object, 20, &other), DYM_DONE);
    ANSWERS(dym_malloc(&object, 30, &other), DYM_DONE);
    ANSWERS(dym_changed(&object, &count), DYM_DONE);
    EXPECT(count == 3);
    ANSWERS(dym_usage(&object, &used), DYM_DONE);
    EXPECT(used.live == 150 && used.kept == 3 * 16 + 110 && used.idle == 2 * 65536 - 150);
    ANSWERS(dym_restore(&object, 20, NULL), DYM_DONE);
    ANSWERS(dym_changed(&object, &count), DYM_DONE);
    EXPECT(count == 0);
    ANSWERS(dym_close(&object), DYM_DONE);
}

/* What the header itself computes. */
static void inline_functions(void)
{
    static const double clocks[] = {0, 5e-324, 0.5, 1, 1.5, 1e300};
    /* Each cause of a status that has several is in its text. */
    static const struct {
        dym_status status;
        const char *words;
    } causes[] = {{DYM_RANGE, "end of the chunk"}, {DYM_RANGE, "file"},   {DYM_NO_LOG, "time"},     {DYM_NO_LOG, "place"},
                  {DYM_MEMORY, "ran out"},         {DYM_BAD, "argument"}, {DYM_BAD, "checked"},     {DYM_STATE, "closed"},
                  {DYM_STATE, "open where"},       {DYM_STATE, "none is"}, {DYM_STATE, "handed out"}};
    size_t k;
    for (k = 1; k < sizeof clocks / sizeof clocks[0]; k++) {
        EXPECT(dym_time_of(clocks[k - 1]) < dym_time_of(clocks[k]));
        EXPECT(dym_clock_of(dym_time_of(clocks[k])) == clocks[k]);
    }
    EXPECT(dym_time_of(0.0) == 0 && dym_time_of(-0.0) == 0 && dym_time_of(-1.0) == 0);
    EXPECT(dym_number(handle(5, 1)) == (((uint64_t)5 << 32) | 1) && dym_number(dym_nil) == 0);
    EXPECT(dym_same(dym_numbered(dym_number(handle(16, UINT32_MAX))), handle(16, UINT32_MAX)));
    EXPECT(dym_same(dym_numbered(0), dym_nil) && dym_numbered(UINT64_MAX).exponent == 255);
    EXPECT(strcmp(dym_status_text(DYM_DONE), "done") == 0 && strcmp(dym_status_text(19), "no status") == 0);
    EXPECT(strcmp(dym_status_text(18), "no status") != 0);
    for (k = 0; k <= DYM_FILE; k++) EXPECT(dym_status_text((dym_status)k)[0] != 0);
    for (k = 0; k < sizeof causes / sizeof causes[0]; k++)
        EXPECT(strstr(dym_status_text(causes[k].status), causes[k].words) != NULL);
}

static void links(dym_object *object)
{
    dym_handle a, b;
    dym_found found = {9, {9, 9}, 9};
    ANSWERS(dym_malloc(object, 32, &a), DYM_DONE);
    ANSWERS(dym_malloc(object, 32, &b), DYM_DONE);
    ANSWERS(dym_link(object, a, 8, b), DYM_DONE);
    ANSWERS(dym_link(object, a, 25, b), DYM_RANGE);
    ANSWERS(dym_link(object, handle(12, 3), 0, b), DYM_DEAD);
    ANSWERS(dym_follow(object, a, 25, &found), DYM_RANGE);
    ANSWERS(dym_follow(object, handle(12, 3), 0, &found), DYM_DEAD);
    EXPECT(found.kind == 9 && found.number == 9);
    ANSWERS(dym_follow(object, a, 8, &found), DYM_DONE);
    EXPECT(found.kind == DYM_FOUND_LIVE && dym_same(found.chunk, b) && found.number == (((uint64_t)5 << 32) | 1));
    ANSWERS(dym_free(object, b), DYM_DONE);
    ANSWERS(dym_follow(object, a, 8, &found), DYM_DONE);
    EXPECT(found.kind == DYM_FOUND_LOOSE && dym_same(found.chunk, dym_nil) && found.number == (((uint64_t)5 << 32) | 1));
    ANSWERS(dym_link(object, a, 8, dym_nil), DYM_DONE);
    ANSWERS(dym_follow(object, a, 8, &found), DYM_DONE);
    EXPECT(found.kind == DYM_FOUND_NIL && dym_same(found.chunk, dym_nil) && found.number == 0);
    ANSWERS(dym_free(object, a), DYM_DONE);
}

static void walk(dym_object *object)
{
    static const uint64_t lengths[] = {300, 20, 40, 20};
    static const uint8_t in_order[][2] = {{5, 0}, {5, 1}, {6, 0}, {9, 0}};
    dym_handle made[4], at = dym_nil;
    size_t k;
    for (k = 0; k < 4; k++) ANSWERS(dym_malloc(object, lengths[k], &made[k]), k < 2 ? DYM_DONE : k == 2 ? DYM_QUOTA : DYM_DONE);
    ANSWERS(dym_free(object, made[0]), DYM_DONE);
    ANSWERS(dym_malloc(object, 40, &made[2]), DYM_DONE);
    for (k = 0; k < 3; k++) {
        ANSWERS(dym_next(object, at, &at), DYM_DONE);
        EXPECT(dym_same(at, handle(in_order[k][0], in_order[k][1])));
    }
    ANSWERS(dym_next(object, at, &at), DYM_DONE);
    EXPECT(dym_same(at, dym_nil));
    ANSWERS(dym_next(object, handle(16, UINT32_MAX), &at), DYM_DONE);
    EXPECT(dym_same(at, dym_nil));
    for (k = 1; k < 4; k++) ANSWERS(dym_free(object, made[k]), DYM_DONE);
}

static void logs(dym_object *object)
{
    dym_handle h;
    uint32_t logged = 9;
    dym_slots slots;
    uint8_t byte = 0;
    uint32_t dropped = 99;
    uint64_t time = 99, k;
    ANSWERS(dym_restore(object, 5, &time), DYM_NO_LOG);
    ANSWERS(dym_log(object, 2, 10, &logged), DYM_BAD);
    EXPECT(logged == 9);
    ANSWERS(dym_malloc(object, 40, &h), DYM_DONE);
    ANSWERS(dym_log(object, DYM_INCREMENTAL, 10, &logged), DYM_DONE);
    EXPECT(logged == DYM_FULL);
    ANSWERS(dym_fill(object, h, 0, 1, 42), DYM_DONE);
    ANSWERS(dym_log(object, DYM_INCREMENTAL, 20, &logged), DYM_DONE);
    EXPECT(logged == DYM_INCREMENTAL);
    ANSWERS(dym_log(object, DYM_FULL, 20, &logged), DYM_NOT_AFTER);
    EXPECT(logged == DYM_INCREMENTAL);
    ANSWERS(dym_log(object, DYM_FULL, 30, &logged), DYM_DONE);
    EXPECT(logged == DYM_FULL);
    ANSWERS(dym_restore(object, 9, &time), DYM_NO_LOG);
    EXPECT(time == 99);
    ANSWERS(dym_restore(object, 15, &time), DYM_DONE);
    EXPECT(time == 10);
    ANSWERS(dym_read(object, h, 0, &byte, 1), DYM_DONE);
    EXPECT(byte == 0);
    ANSWERS(dym_logs(object, &slots), DYM_DONE);
    EXPECT(slots.kept == 1 && slots.slots == 1);
    for (k = 11; k < 11 + 255; k++) ANSWERS(dym_log(object, DYM_INCREMENTAL, k, &logged), DYM_DONE);
    ANSWERS(dym_log(object, DYM_FULL, 1000, &logged), DYM_LOGS_FULL);
    ANSWERS(dym_prune(object, 9, &dropped), DYM_DONE);
    EXPECT(dropped == 0);
    ANSWERS(dym_prune(object, 14, &dropped), DYM_DONE);
    EXPECT(dropped == 4);
    ANSWERS(dym_logs(object, &slots), DYM_DONE);
    EXPECT(slots.kept == 252 && slots.slots == 256);
    ANSWERS(dym_restore(object, 14, &time), DYM_DONE);
    EXPECT(time == 14);
}

#define NAME(text) (text), strlen(text)

/* An object with one log of a chunk of three bytes, and a second log where a byte of it is another. */
static void files(void)
{
    dym_object object = {0}, other = {0};
    dym_handle h;
    uint32_t logged;
    dym_slots slots;
    uint8_t file[2000], again[2000], byte = 0;
    uint64_t length = 99, other_length = 0, time = 0;
    uint32_t part = 99;
    size_t k;
    ANSWERS(dym_save(&object, NAME("lp"), file, sizeof file, &length), DYM_STATE);
    ANSWERS(dym_save(&object, NAME(""), file, sizeof file, &length), DYM_BAD);
    ANSWERS(dym_open(&object, 3, 2), DYM_DONE);
    ANSWERS(dym_malloc(&object, 3, &h), DYM_DONE);
    ANSWERS(dym_log(&object, DYM_FULL, 10, &logged), DYM_DONE);
    ANSWERS(dym_fill(&object, h, 1, 1, 42), DYM_DONE);
    ANSWERS(dym_log(&object, DYM_INCREMENTAL, 20, &logged), DYM_DONE);
    ANSWERS(dym_fill(&object, h, 1, 1, 43), DYM_DONE);

    ANSWERS(dym_save(&object, NAME("no name"), file, sizeof file, &length), DYM_BAD);
    ANSWERS(dym_save(&object, NAME("object"), file, sizeof file, &length), DYM_BAD);
    ANSWERS(dym_save(&object, NAME(""), file, sizeof file, &length), DYM_BAD);
    EXPECT(length == 99);
    memset(file, 7, sizeof file);
    ANSWERS(dym_save(&object, NAME("lp"), file, 0, &length), DYM_RANGE);
    EXPECT(length > 21 && length < sizeof file);
    ANSWERS(dym_save(&object, NAME("lp"), file, (size_t)length - 1, &length), DYM_RANGE);
    for (k = 0; k < sizeof file; k++) EXPECT(file[k] == 7);
    ANSWERS(dym_save(&object, NAME("lp"), file, sizeof file, &length), DYM_DONE);
    EXPECT(memcmp(file, "DYMCKPT1\002lp\003\000\000\000\002\002\000\000\000", 21) == 0);
    for (k = (size_t)length; k < sizeof file; k++) EXPECT(file[k] == 7);
    ANSWERS(dym_read(&object, h, 1, &byte, 1), DYM_DONE);
    EXPECT(byte == 43);

    ANSWERS(dym_load(&object, file, (size_t)length, &part), DYM_STATE);
    ANSWERS(dym_load(&object, file, 3, &part), DYM_STATE);
    EXPECT(part == 99);
    ANSWERS(dym_load(&other, file, 20, &part), DYM_FILE);
    EXPECT(part == 0 && other.inside == NULL);
    ANSWERS(dym_load(&other, file, (size_t)length - 1, &part), DYM_FILE);
    EXPECT(part == 2);
    ANSWERS(dym_load(&other, file, (size_t)length + 1, &part), DYM_FILE);
    EXPECT(part == 3 && other.inside == NULL);
    ANSWERS(dym_load(&other, file, (size_t)length, &part), DYM_DONE);
    ANSWERS(dym_save(&other, NAME("lp"), again, sizeof again, &other_length), DYM_DONE);
    EXPECT(other_length == length && memcmp(file, again, (size_t)length) == 0);
    ANSWERS(dym_logs(&other, &slots), DYM_DONE);
    EXPECT(slots.kept == 2 && slots.slots == 2);
    ANSWERS(dym_read(&other, h, 1, &byte, 1), DYM_DONE);
    EXPECT(byte == 42);
    ANSWERS(dym_restore(&other, 15, &time), DYM_DONE);
    ANSWERS(dym_read(&other, h, 1, &byte, 1), DYM_DONE);
    EXPECT(time == 10 && byte == 0);
    ANSWERS(dym_close(&other), DYM_DONE);
    ANSWERS(dym_close(&object), DYM_DONE);
}

/* In version 2 a chunk is as long as was asked. */
static void exact_lengths(void)
{
    dym_object object = {0};
    dym_handle h;
    uint32_t length = 0;
    ANSWERS(dym_open(&object, 1, 2), DYM_DONE);
    ANSWERS(dym_malloc(&object, 3, &h), DYM_DONE);
    ANSWERS(dym_size(&object, h, &length), DYM_DONE);
    EXPECT(length == 3);
    ANSWERS(dym_fill(&object, h, 0, 4, 1), DYM_RANGE);
    ANSWERS(dym_close(&object), DYM_DONE);
    EXPECT(object.inside == NULL);
}

/* The header is the library's. */
static void version(void)
{
    EXPECT(dym_version() == DYM_VERSION_NUMBER);
    EXPECT(DYM_VERSION_NUMBER == DYM_VERSION_MAJOR * 10000 + DYM_VERSION_MINOR * 100 + DYM_VERSION_PATCH);
}

/* Results that nobody reads may be null. */
static void unread_results(void)
{
    dym_object object = {0}, other = {0};
    dym_handle a;
    uint8_t file[2000], byte = 0;
    uint64_t length = 0;
    void *address = NULL, *again = NULL;
    ANSWERS(dym_open(&object, 3, 2), DYM_DONE);
    ANSWERS(dym_malloc_at(&object, 3, NULL, &address), DYM_DONE);
    ANSWERS(dym_calloc_at(&object, 3, 1, NULL, &again), DYM_DONE);
    EXPECT(address != NULL && (uint8_t *)again == (uint8_t *)address + 32);
    ANSWERS(dym_malloc_at(&object, 65537, NULL, &again), DYM_TOO_LARGE);
    EXPECT((uint8_t *)again == (uint8_t *)address + 32);
    ANSWERS(dym_at(&object, address, &a), DYM_DONE);
    ANSWERS(dym_log(&object, DYM_FULL, 10, NULL), DYM_DONE);
    ANSWERS(dym_log(&object, DYM_FULL, 10, NULL), DYM_NOT_AFTER);
    ANSWERS(dym_touch(&object, a, NULL), DYM_DONE);
    *(uint8_t *)address = 7;
    ANSWERS(dym_log(&object, DYM_INCREMENTAL, 20, NULL), DYM_DONE);
    ANSWERS(dym_save(&object, NAME("lp"), file, sizeof file, &length), DYM_DONE);
    ANSWERS(dym_load(&other, file, 20, NULL), DYM_FILE);
    ANSWERS(dym_load(&other, file, (size_t)length, NULL), DYM_DONE);
    ANSWERS(dym_restore_before(&other, 20, NULL), DYM_DONE);
    ANSWERS(dym_read(&other, a, 0, &byte, 1), DYM_DONE);
    EXPECT(byte == 0);
    ANSWERS(dym_restore(&object, 20, NULL), DYM_DONE);
    ANSWERS(dym_read(&object, a, 0, &byte, 1), DYM_DONE);
    EXPECT(byte == 7);
    ANSWERS(dym_prune_before(&object, 11, NULL), DYM_DONE);
    ANSWERS(dym_prune(&object, 20, NULL), DYM_DONE);
    ANSWERS(dym_restore(&object, 19, NULL), DYM_NO_LOG);
    ANSWERS(dym_close(&object), DYM_DONE);
    ANSWERS(dym_close(&other), DYM_DONE);
}

/* FNV-1a, told beforehand: of nothing, of the bytes 1 2 3 in 5:0, and of that with 40 zeros in 6:0. */
static void hashes(void)
{
    dym_object object = {0};
    dym_handle a, b;
    uint64_t hash = 77;
    ANSWERS(dym_hash(&object, &hash), DYM_STATE);
    EXPECT(hash == 77);
    ANSWERS(dym_open(&object, 3, 2), DYM_DONE);
    ANSWERS(dym_hash(&object, &hash), DYM_DONE);
    EXPECT(hash == UINT64_C(0xcbf29ce484222325));
    ANSWERS(dym_malloc(&object, 3, &a), DYM_DONE);
    ANSWERS(dym_write(&object, a, 0, "\1\2\3", 3), DYM_DONE);
    ANSWERS(dym_hash(&object, &hash), DYM_DONE);
    EXPECT(hash == UINT64_C(0x8258e1ab0eec73fd));
    ANSWERS(dym_log(&object, DYM_FULL, 10, NULL), DYM_DONE);
    ANSWERS(dym_malloc(&object, 40, &b), DYM_DONE);
    ANSWERS(dym_hash(&object, &hash), DYM_DONE);
    EXPECT(hash == UINT64_C(0x19dc4933457aaee3));
    ANSWERS(dym_fill(&object, b, 39, 1, 1), DYM_DONE);
    ANSWERS(dym_hash(&object, &hash), DYM_DONE);
    EXPECT(hash != UINT64_C(0x19dc4933457aaee3));
    ANSWERS(dym_restore(&object, 10, NULL), DYM_DONE);
    ANSWERS(dym_hash(&object, &hash), DYM_DONE);
    EXPECT(hash == UINT64_C(0x8258e1ab0eec73fd));
    ANSWERS(dym_close(&object), DYM_DONE);
}

int main(void)
{
    dym_object object = {0};
    opening(&object);
    bad_handles(&object);
    chunks(&object);
    wrapped_lengths(&object);
    chunks_in_place(&object);
    links(&object);
    walk(&object);
    logs(&object);
    exact_lengths();
    files();
    touches();
    untold_writes();
    told_writes();
    unchecked();
    strictly_before();
    usage();
    inline_functions();
    version();
    unread_results();
    hashes();
    ANSWERS(dym_close(&object), DYM_DONE);
    closed_object(&object);
    return differences > 0;
}
