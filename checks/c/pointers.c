/*
 * Lists and trees by raw pointers inside one object, changed at random and rolled back a thousand times: after each rollback every live chunk
 * is where it was at the log, with the bytes that a whole copy beside the log has. Once with a dym_touch before each write, and once with
 * writes anywhere, and dym_touch_all after each log and restore; in both versions. And what dym_at finds of odd addresses. It ends with
 * 0, or with 1 after a line for each difference.
 */
#include "dymelor.h"

#include <stdio.h>
#include <stdlib.h>
#include <string.h>

enum { ROLLBACKS = 1000, LOGS = 250, MOST_CHUNKS = 4096, QUOTA = 24 };

static int differences = 0;

static void expect(int holds, const char *what, int line)
{
    if (holds) return;
    fprintf(stderr, "pointers.c:%d: %s\n", line, what);
    differences++;
}

#define EXPECT(what) expect((what), #what, __LINE__)
#define ANSWERS(call, status) expect((call) == (status), #call, __LINE__)

static void *must_have(void *block)
{
    if (block != NULL) return block;
    fprintf(stderr, "pointers: no memory\n");
    exit(1);
}

/* ---- the state: a list and a tree, and blocks of several lengths that hang on the tree's nodes */

typedef struct item {
    struct item *next;
    uint64_t value;
} item;

typedef struct node {
    struct node *left, *right;
    uint64_t key;
    uint8_t *block;
    uint64_t length;
} node;

typedef struct state {
    item *list;
    node *tree;
    uint64_t random, items, nodes;
} state;

/* ---- how the state is written: each chunk touched before, or none */

typedef struct trial {
    dym_object object;
    uint32_t version;
    int touches_all;
    state *state;
} trial;

static uint64_t draw(uint64_t *random, uint64_t below)
{
    *random = *random * UINT64_C(6364136223846793005) + UINT64_C(1442695040888963407);
    return (*random >> 33) % below;
}

/* Touches the chunk in which something lies that is to be written. */
static void writes(trial *t, const void *inside)
{
    dym_handle h;
    void *address = NULL;
    if (t->touches_all) return;
    ANSWERS(dym_at(&t->object, inside, &h), DYM_DONE);
    ANSWERS(dym_touch(&t->object, h, &address), DYM_DONE);
    EXPECT((uintptr_t)inside - (uintptr_t)address < 65536);
}

static void *take(trial *t, uint64_t length)
{
    dym_handle h;
    void *address = NULL;
    if (dym_malloc_at(&t->object, length, &h, &address) != DYM_DONE) must_have(NULL);
    return address;
}

static void give(trial *t, const void *chunk)
{
    dym_handle h;
    ANSWERS(dym_at(&t->object, chunk, &h), DYM_DONE);
    ANSWERS(dym_free(&t->object, h), DYM_DONE);
}

/* ---- events */

static void push(trial *t)
{
    item *fresh = take(t, sizeof *fresh);
    fresh->value = draw(&t->state->random, 1000);
    fresh->next = t->state->list;
    t->state->list = fresh;
    t->state->items++;
}

/* Takes out the item at a random place, or changes it. */
static void change_list(trial *t, int takes_out)
{
    item **from = &t->state->list, *found;
    uint64_t k;
    if (t->state->items == 0) return;
    for (k = draw(&t->state->random, t->state->items); k > 0; k--) from = &(*from)->next;
    found = *from;
    if (!takes_out) {
        writes(t, found);
        found->value += 7;
        return;
    }
    writes(t, from);
    *from = found->next;
    t->state->items--;
    give(t, found);
}

static void insert(trial *t)
{
    uint64_t key = draw(&t->state->random, 1000000);
    node **from = &t->state->tree, *fresh;
    while (*from != NULL) from = key < (*from)->key ? &(*from)->left : &(*from)->right;
    fresh = take(t, sizeof *fresh);
    fresh->key = key;
    fresh->length = 1 + draw(&t->state->random, 3000);
    fresh->block = take(t, fresh->length);
    memset(fresh->block, (int)(key & 255), fresh->length);
    writes(t, from);
    *from = fresh;
    t->state->nodes++;
}

/* Takes out the least node below a random one, which has one child at most, with its block. */
static void take_out(trial *t)
{
    uint64_t key = draw(&t->state->random, 1000000);
    node **from = &t->state->tree, *found;
    if (*from == NULL) return;
    if (key >= (*from)->key && (*from)->right != NULL) from = &(*from)->right;
    while ((*from)->left != NULL) from = &(*from)->left;
    found = *from;
    writes(t, from);
    *from = found->right;
    give(t, found->block);
    give(t, found);
    t->state->nodes--;
}

/* Gives the block of the root another length, which may move it. */
static void resize(trial *t)
{
    node *root = t->state->tree;
    dym_handle h;
    void *block = NULL;
    if (root == NULL) return;
    writes(t, root);
    root->length = 1 + draw(&t->state->random, 6000);
    ANSWERS(dym_at(&t->object, root->block, &h), DYM_DONE);
    ANSWERS(dym_realloc_at(&t->object, h, root->length, &h, &block), DYM_DONE);
    root->block = block;
    root->block[root->length - 1] = 77;
}

static void event(trial *t)
{
    writes(t, t->state);
    switch (draw(&t->state->random, 8)) {
    case 0:
    case 1: push(t); break;
    case 2: change_list(t, 0); break;
    case 3: change_list(t, 1); break;
    case 4:
    case 5: insert(t); break;
    case 6: resize(t); break;
    default: take_out(t);
    }
}

/* ---- whole copies */

typedef struct part {
    dym_handle chunk;
    const void *address;
    uint32_t length;
    uint8_t *bytes;
} part;

typedef struct copy {
    uint64_t time;
    size_t count;
    part *parts;
} copy;

static copy logs[LOGS];
static size_t log_count;

static part part_of(dym_object *object, dym_handle h)
{
    part p = {h, NULL, 0, NULL};
    ANSWERS(dym_size(object, h, &p.length), DYM_DONE);
    ANSWERS(dym_address(object, h, &p.address), DYM_DONE);
    return p;
}

static copy copy_all(dym_object *object, uint64_t time)
{
    copy c = {time, 0, must_have(malloc(MOST_CHUNKS * sizeof(part)))};
    dym_handle h = dym_nil;
    for (;;) {
        ANSWERS(dym_next(object, h, &h), DYM_DONE);
        if (dym_same(h, dym_nil)) break;
        if (c.count == MOST_CHUNKS) must_have(NULL);
        c.parts[c.count] = part_of(object, h);
        c.parts[c.count].bytes = must_have(malloc(c.parts[c.count].length));
        memcpy(c.parts[c.count].bytes, c.parts[c.count].address, c.parts[c.count].length);
        c.count++;
    }
    c.parts = must_have(realloc(c.parts, c.count * sizeof(part) + 1));
    return c;
}

static void drop(copy *c)
{
    size_t k;
    for (k = 0; k < c->count; k++) free(c->parts[k].bytes);
    free(c->parts);
}

/* The object's chunks are those of the copy: their handles, addresses, lengths and bytes. */
static void compare(dym_object *object, const copy *c)
{
    dym_handle h = dym_nil;
    size_t k;
    for (k = 0; k < c->count && differences == 0; k++) {
        part p;
        ANSWERS(dym_next(object, h, &h), DYM_DONE);
        EXPECT(dym_same(h, c->parts[k].chunk));
        if (dym_same(h, dym_nil)) return;
        p = part_of(object, h);
        EXPECT(p.address == c->parts[k].address && p.length == c->parts[k].length);
        EXPECT(p.length == c->parts[k].length && memcmp(p.address, c->parts[k].bytes, p.length) == 0);
    }
    ANSWERS(dym_next(object, h, &h), DYM_DONE);
    EXPECT(dym_same(h, dym_nil));
}

/* ---- the trial */

/* Before events that write anywhere, after a log or a restore. */
static void begin(trial *t)
{
    if (t->touches_all) ANSWERS(dym_touch_all(&t->object), DYM_DONE);
}

static void take_log(trial *t, uint64_t time, uint64_t *chance)
{
    uint32_t logged;
    ANSWERS(dym_log(&t->object, draw(chance, 8) > 0 ? DYM_INCREMENTAL : DYM_FULL, time, &logged), DYM_DONE);
    logs[log_count++] = copy_all(&t->object, time);
    begin(t);
}

/* To a log that is drawn from the newest eight; the later copies go with the later logs. */
static uint64_t roll_back(trial *t, uint64_t *chance)
{
    size_t least = log_count > 8 ? log_count - 8 : 0;
    size_t to = least + draw(chance, log_count - least);
    uint64_t restored = 0;
    ANSWERS(dym_restore(&t->object, logs[to].time, &restored), DYM_DONE);
    EXPECT(restored == logs[to].time);
    compare(&t->object, &logs[to]);
    while (log_count > to + 1) drop(&logs[--log_count]);
    begin(t);
    return restored;
}

/* Drops all logs but the newest eight. */
static void commit(trial *t)
{
    uint32_t dropped = 0;
    size_t old = log_count - 8, k;
    ANSWERS(dym_prune(&t->object, logs[old].time, &dropped), DYM_DONE);
    EXPECT(dropped == old);
    for (k = 0; k < old; k++) drop(&logs[k]);
    memmove(logs, logs + old, (log_count - old) * sizeof *logs);
    log_count -= old;
}

static void run(uint32_t version, int touches_all)
{
    trial t = {{NULL}, version, touches_all, NULL};
    uint64_t now = 0, chance = version;
    size_t rollbacks = 0, k;
    ANSWERS(dym_open(&t.object, QUOTA, version), DYM_DONE);
    t.state = take(&t, sizeof *t.state);
    t.state->random = 11;
    take_log(&t, ++now, &chance);
    while (rollbacks < ROLLBACKS && differences == 0) {
        for (k = 1 + draw(&chance, 6); k > 0; k--) event(&t);
        if (draw(&chance, 3) > 0) {
            take_log(&t, ++now, &chance);
        } else {
            now = roll_back(&t, &chance);
            rollbacks++;
        }
        if (log_count > LOGS / 4) commit(&t);
    }
    while (log_count > 0) drop(&logs[--log_count]);
    ANSWERS(dym_close(&t.object), DYM_DONE);
}

/* ---- addresses that are those of no chunk, and of every byte of one */

static int finds(const dym_object *object, const void *address, dym_handle chunk)
{
    dym_handle found = dym_nil;
    return dym_at(object, address, &found) == DYM_DONE && dym_same(found, chunk);
}

static int finds_none(const dym_object *object, const void *address)
{
    dym_handle found = {9, 9};
    return dym_at(object, address, &found) == DYM_DEAD && found.exponent == 9 && found.index == 9;
}

/* An address that may be none, without an arithmetic of pointers. */
static const void *number(uint64_t n)
{
    return (const void *)(uintptr_t)n;
}

static void odd_addresses(void)
{
    dym_object object = {NULL}, other = {NULL};
    dym_handle a, b, empty;
    void *at_a = NULL, *at_b = NULL, *at_other = NULL;
    const void *start = NULL;
    const uint64_t block = UINT64_C(12) * 3 * 65536;
    uint64_t k;
    ANSWERS(dym_open(&object, 3, 2), DYM_DONE);
    ANSWERS(dym_open(&other, 3, 2), DYM_DONE);
    ANSWERS(dym_malloc_at(&object, 40, &a, &at_a), DYM_DONE);
    ANSWERS(dym_malloc_at(&object, 65536, &b, &at_b), DYM_DONE);
    ANSWERS(dym_malloc_at(&other, 40, &empty, &at_other), DYM_DONE);
    ANSWERS(dym_start(&object, &start), DYM_DONE);
    for (k = 0; k < 40; k++) EXPECT(finds(&object, number((uintptr_t)at_a + k), a));
    for (k = 40; k < 200; k++) EXPECT(finds_none(&object, number((uintptr_t)at_a + k)));
    EXPECT(finds_none(&object, number((uintptr_t)at_a - 1)));
    EXPECT(finds(&object, number((uintptr_t)at_b + 65535), b) && finds_none(&object, number((uintptr_t)at_b + 65536)));
    EXPECT(finds_none(&object, NULL) && finds_none(&object, &object) && finds_none(&object, at_other) && finds_none(&other, at_a));
    EXPECT(finds_none(&object, number((uintptr_t)start - 1)) && finds_none(&object, number((uintptr_t)start + block)));
    EXPECT(finds_none(&object, number((uintptr_t)start + block - 1)) && finds_none(&object, number(UINTPTR_MAX)));
    ANSWERS(dym_malloc(&object, 0, &empty), DYM_DONE);
    ANSWERS(dym_free(&object, b), DYM_DONE);
    EXPECT(finds_none(&object, at_b));
    for (k = 0; k < 32; k++) EXPECT(finds_none(&object, number((uintptr_t)start + k)));
    ANSWERS(dym_close(&object), DYM_DONE);
    ANSWERS(dym_at(&object, at_a, &a), DYM_STATE);
    ANSWERS(dym_close(&other), DYM_DONE);
}

int main(void)
{
    uint32_t version;
    odd_addresses();
    for (version = 1; version <= 2; version++) {
        run(version, 0);
        run(version, 1);
    }
    return differences > 0;
}
