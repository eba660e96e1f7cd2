/*
 * What dymelor_debug.h fills: chunks that were freed or moved, and those that a restore undid, while what a log has is brought back, and a call that
 * is refused fills nothing. And random calls by it beside the same by dymelor.h alone: they answer the same and leave the same heaps. In both
 * versions, of objects that are checked and of others. It ends with 0, or with 1 after a line for each difference.
 */
#include "dymelor.h"

#include <stdio.h>

/* The library's calls, as they are without dymelor_debug.h. */
static dym_status plain_free(dym_object *object, dym_handle chunk)
{
    return dym_free(object, chunk);
}

static dym_status plain_realloc(dym_object *object, dym_handle chunk, uint64_t length, dym_handle *moved)
{
    return dym_realloc(object, chunk, length, moved);
}

static dym_status plain_restore(dym_object *object, uint64_t time, uint64_t *restored)
{
    return dym_restore(object, time, restored);
}

static dym_status plain_restore_before(dym_object *object, uint64_t time, uint64_t *restored)
{
    return dym_restore_before(object, time, restored);
}

#include "dymelor_debug.h"

enum { QUOTA = 8, MOST = 40, STEPS = 1500 };

static int differences = 0;

static void expect(int holds, const char *what, int line)
{
    if (holds) return;
    fprintf(stderr, "filled.c:%d: %s\n", line, what);
    differences++;
}

#define EXPECT(what) expect((what), #what, __LINE__)
#define ANSWERS(call, status) expect((call) == (status), #call, __LINE__)

static dym_status open_as(dym_object *object, int is_checked, uint32_t version)
{
    return is_checked ? dym_open_checked(object, QUOTA, version) : dym_open(object, QUOTA, version);
}

static int all_are(const void *place, uint32_t length, unsigned char byte)
{
    const unsigned char *bytes = place;
    for (uint32_t k = 0; k < length; k++)
        if (bytes[k] != byte) return 0;
    return 1;
}

static uint64_t hash_of(const dym_object *object)
{
    uint64_t hash = 0;
    ANSWERS(dym_hash(object, &hash), DYM_DONE);
    return hash;
}

/* Chunks whose bytes are told, one of which is freed, another undone. A later chunk of the class keeps what lies before it from being given up. */
static void chunks_that_leave(int is_checked, uint32_t version)
{
    dym_object object = {0};
    dym_handle kept, freed, undone, last, untold, bad = {17, 0};
    void *at_kept = NULL, *at_freed = NULL, *at_undone = NULL;
    uint64_t back = 0, hash, now;
    dym_found found;
    ANSWERS(dym_restore(&object, 1, NULL), DYM_STATE);
    ANSWERS(dym_free(&object, dym_nil), DYM_STATE);
    ANSWERS(open_as(&object, is_checked, version), DYM_DONE);
    ANSWERS(dym_restore(&object, 1, NULL), DYM_NO_LOG);
    ANSWERS(dym_malloc_at(&object, 100, &kept, &at_kept), DYM_DONE);
    ANSWERS(dym_malloc_at(&object, 100, &freed, &at_freed), DYM_DONE);
    ANSWERS(dym_fill(&object, kept, 0, 100, 1), DYM_DONE);
    ANSWERS(dym_fill(&object, freed, 0, 100, 2), DYM_DONE);
    ANSWERS(dym_link(&object, kept, 0, freed), DYM_DONE);
    ANSWERS(dym_log(&object, DYM_FULL, 10, NULL), DYM_DONE);
    hash = hash_of(&object);

    ANSWERS(dym_malloc_at(&object, 100, &undone, &at_undone), DYM_DONE);
    ANSWERS(dym_malloc(&object, 0, &last), DYM_DONE);
    ANSWERS(dym_fill(&object, undone, 0, 100, 3), DYM_DONE);
    ANSWERS(dym_free(&object, freed), DYM_DONE);
    EXPECT(all_are(at_freed, 100, DYM_FILLED));
    EXPECT(all_are(at_undone, 100, 3));
    ANSWERS(dym_follow(&object, kept, 0, &found), DYM_DONE);
    EXPECT(found.kind == DYM_FOUND_LOOSE);

    /* What is refused fills nothing. */
    now = hash_of(&object);
    ANSWERS(dym_free(&object, freed), DYM_DEAD);
    ANSWERS(dym_free(&object, bad), DYM_BAD);
    ANSWERS(dym_free(&object, dym_nil), DYM_DONE);
    ANSWERS(dym_restore(&object, 9, &back), DYM_NO_LOG);
    ANSWERS(dym_restore_before(&object, 10, &back), DYM_NO_LOG);
    EXPECT(back == 0 && now == hash_of(&object));

    ANSWERS(dym_restore_before(&object, 11, &back), DYM_DONE);
    EXPECT(back == 10 && hash == hash_of(&object));
    EXPECT(all_are(at_undone, 100, DYM_FILLED));
    EXPECT(all_are(at_freed, 100, 2) && all_are((char *)at_kept + 8, 92, 1));
    if (is_checked) {
        ANSWERS(dym_untold(&object, &untold), DYM_DONE);
        EXPECT(dym_same(untold, dym_nil));
        *(char *)at_kept = 9; /* no touch came before */
        ANSWERS(dym_restore(&object, 10, NULL), DYM_DONE);
        ANSWERS(dym_untold(&object, &untold), DYM_DONE);
        EXPECT(dym_same(untold, kept));
    }
    dym_close(&object);
}

/* One chunk after the other of 100 bytes, given another length: where it lay is filled if it leaves, and else as it was. */
static void chunks_that_move(int is_checked, uint32_t version)
{
    static const struct {
        uint64_t length;
        dym_status status;
        int stays;
    } rows[] = {{0, DYM_DONE, 0},    {1, DYM_DONE, 0},   {64, DYM_DONE, 0},         {65, DYM_DONE, 1},           {128, DYM_DONE, 1},
                {129, DYM_DONE, 0}, {4000, DYM_DONE, 0}, {65537, DYM_TOO_LARGE, 1}, {UINT64_MAX, DYM_TOO_LARGE, 1}};
    dym_object object = {0};
    dym_handle chunk, moved, last;
    void *was = NULL, *at = NULL;
    for (size_t k = 0; k < sizeof rows / sizeof rows[0]; k++) {
        size_t both = rows[k].length < 100 ? (size_t)rows[k].length : 100;
        ANSWERS(open_as(&object, is_checked, version), DYM_DONE);
        ANSWERS(dym_malloc_at(&object, 100, &chunk, &was), DYM_DONE);
        ANSWERS(dym_malloc(&object, 100, &last), DYM_DONE);
        ANSWERS(dym_fill(&object, chunk, 0, 100, 1), DYM_DONE);
        moved = chunk;
        at = was;
        ANSWERS(dym_realloc_at(&object, chunk, rows[k].length, &moved, &at), rows[k].status);
        EXPECT(dym_same(moved, chunk) == rows[k].stays && (at == was) == rows[k].stays && (at == NULL) == (rows[k].length == 0));
        EXPECT(all_are(was, rows[k].stays ? (uint32_t)both : 100, rows[k].stays ? 1 : DYM_FILLED));
        if (at != NULL) EXPECT(all_are(at, (uint32_t)both, 1));
        dym_close(&object);
    }
}

static uint64_t seed = 1;

static uint32_t below(uint32_t most)
{
    seed = seed * UINT64_C(6364136223846793005) + UINT64_C(1442695040888963407);
    return (uint32_t)(seed >> 33) % most;
}

/* The same calls on two objects. */
static void random_calls(int is_checked, uint32_t version)
{
    dym_object filled = {0}, plain = {0};
    dym_handle chunks[MOST] = {{0, 0}}, other;
    uint64_t time = 0, went[2];
    ANSWERS(open_as(&filled, is_checked, version), DYM_DONE);
    ANSWERS(open_as(&plain, is_checked, version), DYM_DONE);
    for (int step = 0; step < STEPS && differences == 0; step++) {
        dym_handle *chunk = &chunks[below(MOST)];
        uint32_t length = below(20) == 0 ? below(65537) : below(300), at = below(40);
        uint64_t past = time - below(5 + (uint32_t)(time > 300 ? 300 : time));
        went[0] = went[1] = 0;
        switch (below(9)) {
        case 0:
        case 1:
            other = *chunk;
            expect(dym_malloc(&filled, length, chunk) == dym_malloc(&plain, length, &other) && dym_same(*chunk, other), "malloc", __LINE__);
            break;
        case 2:
            expect(dym_free(&filled, *chunk) == plain_free(&plain, *chunk), "free", __LINE__);
            break;
        case 3:
        case 4:
            expect(dym_fill(&filled, *chunk, at, 9, (uint8_t)step) == dym_fill(&plain, *chunk, at, 9, (uint8_t)step), "fill", __LINE__);
            break;
        case 5:
            time++;
            expect(dym_log(&filled, DYM_INCREMENTAL, time, NULL) == dym_log(&plain, DYM_INCREMENTAL, time, NULL), "log", __LINE__);
            break;
        case 6:
            if (past > time) past = 0;
            if (below(2) == 0)
                expect(dym_restore(&filled, past, &went[0]) == plain_restore(&plain, past, &went[1]), "restore", __LINE__);
            else
                expect(dym_restore_before(&filled, past, &went[0]) == plain_restore_before(&plain, past, &went[1]), "before", __LINE__);
            break;
        case 7:
            other = *chunk;
            if (below(3) == 0) length = below(130);
            expect(dym_realloc(&filled, *chunk, length, chunk) == plain_realloc(&plain, other, length, &other) && dym_same(*chunk, other),
                   "realloc", __LINE__);
            break;
        default:
            if (below(4) == 0) {
                uint32_t dropped[2] = {0, 0};
                ANSWERS(dym_prune(&filled, past > time ? 0 : past, &dropped[0]), DYM_DONE);
                ANSWERS(dym_prune(&plain, past > time ? 0 : past, &dropped[1]), DYM_DONE);
                EXPECT(dropped[0] == dropped[1]);
            }
        }
        EXPECT(went[0] == went[1]);
        if (went[0] > 0 || step % 16 == 0) EXPECT(hash_of(&filled) == hash_of(&plain));
    }
    if (is_checked) {
        ANSWERS(dym_untold(&filled, &other), DYM_DONE);
        EXPECT(dym_same(other, dym_nil));
    }
    dym_close(&filled);
    dym_close(&plain);
}

int main(void)
{
    for (uint32_t version = 1; version <= 2; version++)
        for (int is_checked = 0; is_checked <= 1; is_checked++) {
            chunks_that_leave(is_checked, version);
            chunks_that_move(is_checked, version);
            random_calls(is_checked, version);
        }
    return differences > 0;
}
