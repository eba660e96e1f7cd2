/* What a process has that is the kernel's own: process_own.c. */
#ifndef PROCESS_OWN_H
#define PROCESS_OWN_H

#include "list.h"

/* An event that was run, and how many events the process had sent before it, without those that were called back. */
typedef struct done {
    event event;
    uint64_t sent;
} done;

typedef struct dones {
    done *items;
    size_t count;
    size_t room;
} dones;

/* How many events had been run at each kept log, oldest first. */
typedef struct positions {
    uint64_t *items;
    size_t count;
    size_t room;
} positions;

typedef struct own_process {
    events pending;
    dones done;         /* in the order of their keys; the first is event number `dropped` of the process */
    uint64_t dropped;   /* events that no rollback and no log needs any more */
    events sent;        /* by the events in `done`, in their order */
    uint64_t sent_from; /* how many were sent before these */
    uint64_t serial;    /* events that were ever sent */
    events early;       /* anti-messages whose events haven't come yet */
    positions logged;
    uint64_t since_log; /* events that the state has seen since the newest log */
    int is_stale;       /* the state has seen events that were undone */
    uint64_t bound;     /* of the last commit */
    messages *out;      /* during a call: where what is sent goes; null while events are run again */
} own_process;

#endif
