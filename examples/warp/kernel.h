/*
 * One worker: a loop over its processes. The process whose event is next runs up to `batch` events, messages come in and go out, and at a
 * bound all processes commit. A worker runs no event that is further ahead of the bound than the window.
 */
#ifndef KERNEL_H
#define KERNEL_H

#include "process.h"
#include "trace.h"
#include "transport.h"

/* What a run came to, summed over all workers. */
typedef struct outcome {
    counts counts;
    uint64_t time;   /* nanoseconds from the first event to the last bound */
    uint64_t bounds;
} outcome;

/* Runs one worker to the end of the run. All workers call it; each has the outcome of all. */
void kernel_run(transport *t, const settings *s, process *processes, outcome *out);

#endif
