/*
 * What the kernel knows of other workers. A program is linked with one of two: threads.c, whose workers are threads of one program, and
 * mpi.c, where each rank is one worker. Messages from one worker to another come in the order in which they were sent.
 *
 * A bound needs all workers at once: whoever wants one says so, and each, when it sees that one is wanted, calls transport_settle and then
 * transport_reduce. A call that can't be done ends the run with its fault.
 */
#ifndef TRANSPORT_H
#define TRANSPORT_H

#include "counts.h"
#include "list.h"
#include "process.h"
#include "settings.h"

typedef struct transport transport;

/* Before anything else; and at the end of a program that no fault ended. */
void transport_begin(int *count, char ***words);
void transport_end(void);

/* What this transport is called, and whether this program is the one that prints. */
const char *transport_name(void);
int transport_is_first(void);

/* How many workers a run with these settings has, in all programs together. */
uint32_t transport_workers(const settings *s);

/* Calls `work` for each worker of this program, side by side, and returns when all are done. `processes` has room for all processes;
 * a worker touches its own alone. */
void transport_run(const settings *s, process *processes, void (*work)(transport *t, const settings *s, process *processes));

/* Which worker this is, and whether it speaks for its program: one worker of each program does. */
uint32_t transport_self(const transport *t);
int transport_speaks(const transport *t);

/* Sends a message to another worker. It may wait with others for transport_flush. */
void transport_send(transport *t, uint32_t to, const message *m);
void transport_flush(transport *t);

/* Takes the next message that came, and answers whether there was one. */
int transport_receive(transport *t, message *m);

/* Says to all that a bound is wanted; and whether one is. */
void transport_want_bound(transport *t);
int transport_bound_wanted(transport *t);

/* Nothing to do: leaves the processor to others for a moment. */
void transport_pause(transport *t);

/* All workers call it. After it no message is on its way: what was sent to this worker and not yet received is in `incoming`. */
void transport_settle(transport *t, messages *incoming);

/* All workers call it. *least becomes the least of all workers' numbers, and *sums the sums. */
void transport_reduce(transport *t, uint64_t *least, counts *sums);

/* Whether a process that moves goes as bytes, so that it has to be one of the kernel's own. */
int transport_packs(void);

/* All workers call it at a bound, where nothing is on its way: process k, which lies at `p`, goes from one worker to another. */
void transport_move(transport *t, uint32_t from, uint32_t to, const settings *s, uint32_t k, process *p);

#endif
