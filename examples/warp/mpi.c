/*
 * Workers as ranks of MPI, on one machine or many. Messages to one rank go out in batches, each as one MPI_Isend; MPI keeps the order of
 * what one rank sends to another. For a bound all ranks take in what comes and add up what each sent and received, until the sums are
 * the same: then nothing is on its way.
 */
#include <mpi.h>

#include "transport.h"

#include <limits.h>
#include <sched.h>
#include <signal.h>
#include <stdio.h>
#include <stdlib.h>
#include <string.h>
#include <unistd.h>

#include "pack.h"
#include "resources.h"

enum { BATCH = 64 };

/* What a message of MPI is: some messages, the word that a bound is wanted, or a process that moves. */
enum { TAG_MESSAGES, TAG_WANT, TAG_MOVE };

typedef struct batch {
    message items[BATCH];
    int count;
    MPI_Request request;
    struct batch *next;
} batch;

struct transport {
    uint32_t self, workers;
    batch **filling;  /* for each rank: what waits to be sent to it, or null */
    batch *flying;    /* sent, and not yet out of MPI's hands */
    batch *free;
    messages came;    /* received from MPI; those before `next` were handed on */
    size_t next;
    uint64_t sent, received; /* of messages and of wants, by this rank */
    uint64_t round;   /* how many bounds there were */
    uint64_t wanted;  /* bounds of this number and below are wanted */
};

static int rank, ranks;

/* What this rank says where it is ended from outside: mpirun sends SIGTERM to the others when one is lost. Made before, since a handler of
 * signals may make few calls. */
static char last_words[128];
static size_t last_length;

static void end_from_outside(int number)
{
    (void)number;
    if (write(STDERR_FILENO, last_words, last_length) < 0) _exit((int)FAULT_ENDED);
    _exit((int)FAULT_ENDED);
}

static void name_the_end(void)
{
    struct sigaction action;
    last_length = (size_t)snprintf(last_words, sizeof last_words, "warp: rank %d: %s\n", rank, fault_text(FAULT_ENDED));
    memset(&action, 0, sizeof action);
    action.sa_handler = end_from_outside;
    sigaction(SIGTERM, &action, NULL);
}

/* Open MPI's ranks spin while they wait, unless they know that they are too many for the processors. They don't know of other programs:
 * so they are told to yield, unless the environment says otherwise. */
void transport_begin(int *count, char ***words)
{
    setenv("OMPI_MCA_mpi_yield_when_idle", "1", 0);
    MPI_Init(count, words);
    MPI_Comm_rank(MPI_COMM_WORLD, &rank);
    MPI_Comm_size(MPI_COMM_WORLD, &ranks);
    name_the_end();
}

void transport_end(void)
{
    MPI_Finalize();
}

const char *transport_name(void)
{
    return "ranks";
}

int transport_is_first(void)
{
    return rank == 0;
}

uint32_t transport_workers(const settings *s)
{
    (void)s;
    return (uint32_t)ranks;
}

uint32_t transport_self(const transport *t)
{
    return t->self;
}

int transport_speaks(const transport *t)
{
    (void)t;
    return 1;
}

/* To end the other ranks MPI takes memory too. */
_Noreturn void fault_end(fault f)
{
    fprintf(stderr, "warp: rank %d: %s\n", rank, fault_text(f));
    fflush(NULL);
    resources_lift();
    MPI_Abort(MPI_COMM_WORLD, (int)f);
    _Exit((int)f);
}

/* ---- sending */

/* Frees the batches that MPI has done with. */
static void reap(transport *t)
{
    batch **link = &t->flying;
    while (*link != NULL) {
        batch *b = *link;
        int is_done;
        MPI_Test(&b->request, &is_done, MPI_STATUS_IGNORE);
        if (is_done) {
            *link = b->next;
            b->next = t->free;
            t->free = b;
        } else {
            link = &b->next;
        }
    }
}

static batch *new_batch(transport *t)
{
    batch *b = t->free;
    if (b != NULL)
        t->free = b->next;
    else
        b = malloc(sizeof *b);
    if (b == NULL) fault_end(FAULT_MEMORY);
    b->count = 0;
    return b;
}

static void fly(transport *t, batch *b, uint32_t to, int length, int tag)
{
    MPI_Isend(b->items, length, MPI_BYTE, (int)to, tag, MPI_COMM_WORLD, &b->request);
    b->next = t->flying;
    t->flying = b;
}

static void flush_to(transport *t, uint32_t to)
{
    batch *b = t->filling[to];
    if (b == NULL) return;
    t->filling[to] = NULL;
    t->sent += (uint64_t)b->count;
    fly(t, b, to, b->count * (int)sizeof(message), TAG_MESSAGES);
}

void transport_send(transport *t, uint32_t to, const message *m)
{
    if (t->filling[to] == NULL) t->filling[to] = new_batch(t);
    t->filling[to]->items[t->filling[to]->count++] = *m;
    if (t->filling[to]->count == BATCH) flush_to(t, to);
}

void transport_flush(transport *t)
{
    uint32_t k;
    if (t->flying != NULL) reap(t);
    for (k = 0; k < t->workers; k++) flush_to(t, k);
}

void transport_want_bound(transport *t)
{
    uint32_t k;
    if (transport_bound_wanted(t)) return;
    t->wanted = t->round + 1;
    for (k = 0; k < t->workers; k++) {
        batch *b;
        if (k == t->self) continue;
        b = new_batch(t);
        memcpy(b->items, &t->wanted, sizeof t->wanted);
        t->sent++;
        fly(t, b, k, (int)sizeof t->wanted, TAG_WANT);
    }
}

/* ---- receiving */

/* Takes in one message of MPI; bytes that can't be one of ours are a fault. */
static void take_in(transport *t, const MPI_Status *status, int length)
{
    message room[BATCH];
    uint64_t wanted;
    int k, count = length / (int)sizeof *room;
    if (length < 0 || length > (int)sizeof room) fault_end(FAULT_MESSAGE);
    MPI_Recv(room, length, MPI_BYTE, status->MPI_SOURCE, status->MPI_TAG, MPI_COMM_WORLD, MPI_STATUS_IGNORE);
    if (status->MPI_TAG == TAG_WANT && length == (int)sizeof wanted) {
        memcpy(&wanted, room, sizeof wanted);
        if (wanted > t->wanted) t->wanted = wanted;
        t->received++;
    } else if (status->MPI_TAG == TAG_MESSAGES && length % (int)sizeof *room == 0) {
        for (k = 0; k < count; k++)
            if (messages_push(&t->came, &room[k]) != FAULT_NONE) fault_end(FAULT_MEMORY);
        t->received += (uint64_t)count;
    } else {
        fault_end(FAULT_MESSAGE);
    }
}

static void take_in_all(transport *t)
{
    MPI_Status status;
    int is_there, length;
    for (;;) {
        MPI_Iprobe(MPI_ANY_SOURCE, MPI_ANY_TAG, MPI_COMM_WORLD, &is_there, &status);
        if (!is_there) return;
        MPI_Get_count(&status, MPI_BYTE, &length);
        take_in(t, &status, length);
    }
}

int transport_receive(transport *t, message *m)
{
    if (t->next == t->came.count) {
        t->next = t->came.count = 0;
        take_in_all(t);
        if (t->came.count == 0) return 0;
    }
    *m = t->came.items[t->next++];
    return 1;
}

int transport_bound_wanted(transport *t)
{
    return t->wanted > t->round;
}

void transport_pause(transport *t)
{
    transport_flush(t);
    sched_yield();
}

/* ---- bounds */

void transport_settle(transport *t, messages *incoming)
{
    uint64_t own, all;
    transport_flush(t);
    do {
        take_in_all(t);
        reap(t);
        own = t->sent - t->received; /* less than 0 where more came: the sum wraps round to 0 all the same */
        MPI_Allreduce(&own, &all, 1, MPI_UINT64_T, MPI_SUM, MPI_COMM_WORLD);
    } while (all != 0);
    for (; t->next < t->came.count; t->next++)
        if (messages_push(incoming, &t->came.items[t->next]) != FAULT_NONE) fault_end(FAULT_MEMORY);
    t->next = t->came.count = 0;
    t->round++;
}

void transport_reduce(transport *t, uint64_t *least, counts *sums)
{
    uint64_t own = *least, numbers[COUNTS];
    (void)t;
    memcpy(numbers, sums, sizeof numbers);
    MPI_Allreduce(&own, least, 1, MPI_UINT64_T, MPI_MIN, MPI_COMM_WORLD);
    MPI_Allreduce(MPI_IN_PLACE, numbers, COUNTS, MPI_UINT64_T, MPI_SUM, MPI_COMM_WORLD);
    memcpy(sums, numbers, sizeof numbers);
}

static void send_process(uint32_t to, process *p)
{
    uint8_t *bytes = NULL;
    uint64_t length = 0;
    fault f = process_pack(p, &bytes, &length);
    if (f == FAULT_NONE && length > INT_MAX) f = FAULT_MOVE;
    if (f != FAULT_NONE) fault_end(f);
    MPI_Send(bytes, (int)length, MPI_BYTE, (int)to, TAG_MOVE, MPI_COMM_WORLD);
    free(bytes);
}

static void receive_process(uint32_t from, const settings *s, uint32_t k, process *p)
{
    MPI_Status status;
    int length;
    uint8_t *bytes;
    fault f;
    MPI_Probe((int)from, TAG_MOVE, MPI_COMM_WORLD, &status);
    MPI_Get_count(&status, MPI_BYTE, &length);
    bytes = malloc((size_t)length + 1);
    if (bytes == NULL) fault_end(FAULT_MEMORY);
    MPI_Recv(bytes, length, MPI_BYTE, (int)from, TAG_MOVE, MPI_COMM_WORLD, MPI_STATUS_IGNORE);
    f = process_unpack(p, s, k, bytes, (uint64_t)length);
    free(bytes);
    if (f != FAULT_NONE) fault_end(f);
}

int transport_packs(void)
{
    return 1;
}

void transport_move(transport *t, uint32_t from, uint32_t to, const settings *s, uint32_t k, process *p)
{
    if (t->self == from) send_process(to, p);
    if (t->self == to) receive_process(from, s, k, p);
}

/* ---- the rank */

static void free_batches(batch *b)
{
    while (b != NULL) {
        batch *next = b->next;
        free(b);
        b = next;
    }
}

void transport_run(const settings *s, process *processes, void (*work)(transport *t, const settings *s, process *processes))
{
    transport t;
    memset(&t, 0, sizeof t);
    t.self = (uint32_t)rank;
    t.workers = (uint32_t)ranks;
    t.filling = calloc(t.workers, sizeof(batch *));
    if (t.filling == NULL) fault_end(FAULT_MEMORY);
    work(&t, s, processes);
    while (t.flying != NULL) reap(&t);
    free_batches(t.free);
    free(t.filling);
    free(t.came.items);
}
