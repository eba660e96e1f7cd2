/*
 * The processes of a worker by the times of their next events: a tournament tree. Each process has a leaf, and each node above has the
 * earlier one of the two below; who wins is chosen without a branch, since a processor would guess it wrong half of the time. The leaves of
 * processes of other workers have no event.
 */
#ifndef SCHEDULE_H
#define SCHEDULE_H

#include <stdint.h>

#include "fault.h"

/* A process, and the time of its next event, or UINT64_MAX. */
typedef struct entry {
    uint64_t time;
    uint64_t process;
} entry;

typedef struct schedule {
    entry *nodes;     /* the first of all is node 1; those below node k are 2 k and 2 k + 1; the leaves begin at node `leaves` */
    uint32_t leaves;  /* a power of two */
    uint32_t *own;    /* the worker's processes, in no order */
    uint32_t *places; /* of process k among these; UINT32_MAX where it isn't this worker's */
    uint32_t count;
} schedule;

/* Room for as many processes as there are, of which the worker has none yet. */
fault schedule_open(schedule *s, uint32_t processes);
void schedule_close(schedule *s);

/* Says the time of the next event of a process, which is the worker's from then on. */
void schedule_set(schedule *s, uint32_t process, uint64_t time);

/* The process isn't the worker's any more. */
void schedule_remove(schedule *s, uint32_t process);

/* The process whose event is next, and its time; UINT64_MAX where there is none. */
uint64_t schedule_first(const schedule *s, uint32_t *process);

#endif
