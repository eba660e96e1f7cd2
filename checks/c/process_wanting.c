/*
 * A process of dymelor_process.h that starts, takes messages in a bad order, runs, rolls back and commits, while one allocation after another fails: linked
 * with --wrap=malloc and --wrap=realloc. A call that answers that memory is wanting has changed nothing, and done again it succeeds: the end is
 * that of the run in which none fails. It ends with 0, or with 1 at the first difference.
 *   process_wanting [STEP]     each allocation fails, or each STEPth
 */
#include "dymelor_process.h"

#include <stdio.h>
#include <stdlib.h>
#include <string.h>

void *__real_malloc(size_t size);
void *__real_realloc(void *block, size_t size);
void *__wrap_malloc(size_t size);
void *__wrap_realloc(void *block, size_t size);

/* Which allocation from now on fails, 0 for none; how many were asked for; and how many calls answered DYM_MEMORY. */
static unsigned long failing, asked, wanting;

static int fails(void)
{
    asked++;
    return failing > 0 && --failing == 0;
}

void *__wrap_malloc(size_t size)
{
    return fails() ? NULL : __real_malloc(size);
}

void *__wrap_realloc(void *block, size_t size)
{
    return fails() ? NULL : __real_realloc(block, size);
}

static void fail(const char *what, int line)
{
    fprintf(stderr, "process_wanting.c:%d: %s, after %lu allocations\n", line, what, asked);
    exit(1);
}

#define MUST(what) ((what) ? (void)0 : fail(#what, __LINE__))

/* Whether a call is to be made again: memory was wanting. Any other answer but the wanted ones is a difference. */
static int is_wanting(dym_status status, int line)
{
    if (status == DYM_MEMORY) wanting++;
    if (status != DYM_MEMORY && status != DYM_DONE && status != DYM_NONE) fail(dym_status_text(status), line);
    return status == DYM_MEMORY;
}

/* Makes a call, and once more where memory was wanting: one allocation fails, so that this succeeds. */
#define AGAIN(status, call)                                                                                                                \
    do {                                                                                                                                   \
        status = (call);                                                                                                                   \
    } while (is_wanting(status, __LINE__))

enum { MESSAGES = 40, BYTES = 3000 };

typedef struct scene {
    dym_process process;
    dym_handle chunk;
    uint64_t *number; /* in a chunk of BYTES bytes, so that logs need memory */
    uint64_t balance; /* messages that came out, less anti-messages, and the sum of their kinds */
    uint64_t sum;
} scene;

static void send(scene *s, uint64_t time, uint64_t kind)
{
    dym_event event = dym_event_to(1, time, kind, 0, 0);
    dym_status status;
    AGAIN(status, dym_process_send(&s->process, &event));
}

static void start(scene *s)
{
    dym_process_config config = {0};
    dym_status status;
    void *place;
    config.processes = 2;
    config.period = 3;
    config.quota = 2;
    config.version = 2;
    AGAIN(status, dym_process_open(&s->process, &config));
    MUST(dym_calloc_at(&s->process.object, 1, BYTES, &s->chunk, &place) == DYM_DONE);
    s->number = place;
    send(s, 0, 1);
    AGAIN(status, dym_process_end(&s->process));
}

static void run_all(scene *s)
{
    dym_event e;
    dym_status status;
    for (;;) {
        AGAIN(status, dym_process_begin(&s->process, &e, NULL));
        if (status == DYM_NONE) return;
        MUST(dym_touch(&s->process.object, s->chunk, NULL) == DYM_DONE);
        *s->number = *s->number * 31 + e.kind;
        send(s, e.time + 1, *s->number % 1000);
        send(s, e.time + 2, 7);
        AGAIN(status, dym_process_end(&s->process));
    }
}

static void empty(scene *s)
{
    dym_message m;
    uint64_t count;
    for (;;) {
        MUST(dym_process_outbox(&s->process, &m, 1, &count) == DYM_DONE);
        if (count == 0) return;
        s->balance += m.is_anti ? UINT64_MAX : 1;
        s->sum += m.is_anti ? 0 - m.event.kind : m.event.kind;
    }
}

static void commit(scene *s, uint64_t bound)
{
    dym_status status;
    AGAIN(status, dym_process_commit(&s->process, bound, NULL));
}

/* The end of a run: a number of all that is known of it. */
static uint64_t play(void)
{
    scene s;
    dym_message m;
    dym_status status;
    uint64_t k, end;
    memset(&s, 0, sizeof s);
    start(&s);
    for (k = 0; k < MESSAGES; k++) {
        memset(&m, 0, sizeof m);
        m.event = dym_event_to(0, 10 + k * 17 % 40 + k / 10 * 40, k + 1, 0, 0);
        m.event.sender = 1;
        m.event.serial = k;
        AGAIN(status, dym_process_take(&s.process, &m, NULL));
        if (k % 3 == 1) run_all(&s);
        if (k % 5 == 4) {
            m.is_anti = 1;
            AGAIN(status, dym_process_take(&s.process, &m, NULL));
        }
        if (k % 10 == 9) {
            run_all(&s);
            commit(&s, 10 + (k + 1) / 10 * 40);
        }
        if (k % 4 == 0) empty(&s);
    }
    run_all(&s);
    empty(&s);
    end = *s.number * 1000003 + s.balance * 1009 + s.sum;
    MUST(dym_process_close(&s.process) == DYM_DONE);
    return end;
}

int main(int count, char **words)
{
    unsigned long step = count > 1 ? strtoul(words[1], NULL, 10) : 1, nth, all;
    uint64_t end = play();
    all = asked;
    for (nth = 1; nth <= all; nth += step) {
        failing = nth;
        wanting = 0;
        MUST(play() == end);
        MUST(failing == 0 && wanting == 1);
    }
    printf("%lu allocations\n", all);
    return 0;
}
