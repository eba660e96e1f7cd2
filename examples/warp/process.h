/*
 * One logical process: the events that it has to run, those that it ran and may have to undo, what these sent, its state and its logs. It
 * takes messages, runs events and commits; what is to be sent it adds to a list. It knows no other process, no thread and no transport.
 *
 * Messages may come in any order, an anti-message before its event too. Whatever they are, the process stands as if the events that weren't
 * called back had been run in the order of their keys, up to the last that was run; and what it sent, less what it called back, is what
 * these events send.
 *
 * There are two kinds. process_library.c is a process of the library (dymelor_process.h), where that is proved; its state is an object. process_own.c
 * is one in C, for states of any way, to compare with; and for processes that go to another rank, since the library's can't yet.
 *
 * A rollback cuts the list of events that were run. The state follows only when the next event is run, so that stragglers that come
 * together cost one restore.
 *
 * Any answer but FAULT_NONE ends the run: the process can only be closed then.
 */
#ifndef PROCESS_H
#define PROCESS_H

#include "counts.h"
#include "list.h"
#include "memory.h"
#include "model.h"
#include "period.h"
#include "process_own.h"
#include "settings.h"

typedef struct process process;

/* What process.c hands on. `deliver` takes what the model sends; `run` is called where there is an event to run, and `settle` brings the state up to
 * the events that were run. */
typedef struct process_kind {
    const char *name;
    fault (*open)(process *p, messages *out);
    void (*close)(process *p);
    void (*deliver)(context *c, event *e);
    fault (*take)(process *p, const message *m, messages *out);
    uint64_t (*next)(const process *p);
    fault (*run)(process *p, messages *out);
    fault (*settle)(process *p);
    fault (*commit)(process *p, uint64_t bound);
} process_kind;

extern const process_kind process_library;
extern const process_kind process_own;

/* The kind of a name, or null. */
const process_kind *process_kind_named(const char *name);

/* What is the library's kind's alone. */
typedef struct library_process {
    dym_process process;
    uint64_t ran;    /* events that were run and not undone */
    uint64_t logged; /* how many had been at the newest log, which may be undone */
    uint32_t period; /* that the library has */
    int is_stale;    /* the state has seen events that were undone */
    int has_sent;    /* there is something in the outbox */
} library_process;

struct process {
    const settings *settings;
    const process_kind *kind;
    context context;
    memory memory;
    period period;
    counts counts;
    uint64_t reached; /* the time of the last event that was run and not undone, or 0; of the library's after a rollback, that of the message */
    int wants_bound;  /* its logs are full */
    own_process own;
    library_process library;
};

/* Makes the state of process k, and takes its first log. Its first events come out as messages to itself. */
fault process_open(process *p, const settings *s, uint32_t k, messages *out);
void process_close(process *p);

/* Takes an event, or calls one back; the message may lie in `out`. FAULT_MESSAGE: it comes before the bound. */
static inline fault process_take(process *p, const message *m, messages *out)
{
    return p->kind->take(p, m, out);
}

/* The time of the next event, or UINT64_MAX where there is none. */
static inline uint64_t process_next(const process *p)
{
    return p->kind->next(p);
}

/* Runs the next event, which there is. */
static inline fault process_run(process *p, messages *out)
{
    return p->kind->run(p, out);
}

/* Commits what was run before a bound: no message with an earlier time comes any more. Logs and events that nothing needs go. */
fault process_commit(process *p, uint64_t bound);

/* The checksum of the state. */
fault process_checksum(process *p, uint64_t *sum);

/* The time of the last event that was run and not undone, or 0; what was counted; and whether the logs are full, so that a bound is wanted. */
uint64_t process_reached(const process *p);
const counts *process_counts(const process *p);
int process_wants_bound(const process *p);

/* For pack.c: makes the context in which the model's calls are made. */
void process_context(process *p, const settings *s, uint32_t k);

/* For the kinds: runs the model for an event, and notes that so many were undone, back to a time. */
void process_execute(process *p, const event *e);
void process_note_undone(process *p, uint64_t count, uint64_t time);

#endif
