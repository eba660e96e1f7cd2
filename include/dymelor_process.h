/*
 * dymelor_process.h: a logical process of a Time Warp simulator, for C and C++, over the heaps of dymelor.h.
 *
 * Control is turned round: no call of a process calls the program back. A process keeps the events that it has taken in order, and hands out
 * the one that is to be run; the program runs it, by its model, on the object that is the process's state, says what the event sends, and ends
 * it. The process logs the object, rolls it back where a straggler or an anti-message comes, hands out once more what is to be run again, calls
 * back what undone events had sent, and drops what no rollback needs. It knows no other process, no thread and no transport: messages come
 * in by a call and go out by a call, and the program carries them.
 *
 *     dym_event event;
 *     while (dym_process_begin(&process, &event, NULL) == DYM_DONE) {
 *         run(&process, &event); // changes process.object, and calls dym_process_send
 *         if (dym_process_end(&process) != DYM_DONE) abort();
 *     }
 *
 * What is proved. A behaviour says, for each process, the state in which it starts and its first events, and for each state and event the state
 * after it and the events sent. For every behaviour: if what the program did to the object and what it sent, at the start and at each event that
 * it was handed, is what the behaviour does, then the process is that behaviour's. Whatever messages it took, in whatever order, an anti-message
 * before its event too, it stands as if the events that it has taken and that weren't called back had been run in the order of their keys, as
 * many of them as are run; where dym_process_begin or dym_process_replay answers DYM_NONE, the object is what these events made of the start;
 * and what came out, less what was called back, is what these events send. What was committed is never undone. The inline calls, which stand
 * here with their bodies, are tested.
 *
 * What is the program's word, and nothing checks, is that its model is such a behaviour: what an event does and sends depends on nothing but the
 * process's number, the event and the state, so that an event that is handed out again does what it did. Random numbers come from a number in
 * the state; time of day, addresses of other memory, and whether an event is replayed are no part of it. Whatever the program does, each call
 * touches no memory but the process's own and what its parameters point to, and answers a status.
 *
 * The rules of dymelor.h hold for a process as for an object: one call at a time, pointers to whole values, no call from a signal handler.
 * Beside them, and nothing checks it:
 *
 *   - a dym_process is zeroed before its first use, and then written by these calls alone, but for its object;
 *   - the program changes the object while the start or an event is handed out, and not between: it allocates, frees, writes and touches
 *     chunks. It reads them whenever it likes. The logs are the process's: dym_log, dym_restore, dym_restore_before, dym_prune,
 *     dym_prune_before, dym_load, dym_open and dym_close aren't called on the object. Where one was, the next call that finds it answers
 *     DYM_ASTRAY, or the state is another one;
 *   - when an event is handed out, a log may have been taken or brought back, so that chunks which were touched before are touched no more
 *     (DYM_UNTOUCHED): each chunk is touched before an event's first write to it, and what the start or an event before allocated is, too.
 *
 * What comes from outside of the simulation is a message like any other: its sender is any number, and its serial tells it from others of that
 * sender and time.
 *
 * A process has no save and no load: dym_save of its object has the state at its logs and no event, and dym_load would open another object. To close
 * a process and to open it anew, in another program or later, while no message is on its way to it:
 *
 *   - commit a bound, and undo what was run from there on: take an event of the bound's time that comes before all others in the order of keys, and
 *     the anti-message to it. The outbox has anti-messages then, to be delivered as any other;
 *   - run what dym_process_replay hands out, until it answers DYM_NONE. The object is the state before the bound: the program writes it into bytes of
 *     its own;
 *   - hand out what is left, and end each event without running it: these are the events that are still to be run. Close the process;
 *   - open it. The start makes the state of those bytes, and sends as many events as the process had sent that weren't called back. The program takes
 *     these from the outbox and drops them: so serials go on. Then the process takes the events that were left.
 *
 * Chunks that the start makes have other handles and lie at other addresses, so that what an event does depends on neither.
 *
 * Memory. Opening, closing, and the calls that take, hand out, send, end and commit use malloc, realloc and free. Where memory is wanting the
 * answer is DYM_MEMORY, nothing was changed, and the call may be made again; but dym_process_begin and dym_process_replay may have brought the
 * object back to a log, from which they then go on. dym_process_close frees all. Lists keep the room that they once had.
 */
#ifndef DYMELOR_PROCESS_H
#define DYMELOR_PROCESS_H

#include "dymelor.h"

#ifdef __cplusplus
#ifdef __clang__ /* C's casts and null pointers, which a program may have warnings for */
#pragma clang diagnostic push
#pragma clang diagnostic ignored "-Wold-style-cast"
#pragma clang diagnostic ignored "-Wzero-as-null-pointer-constant"
#endif
extern "C" {
#endif

/*
 * What these calls answer beside the statuses of dymelor.h. At any but DYM_DONE and DYM_NONE nothing is changed, but for the object's state
 * at an error of dym_process_begin and _replay, as told above. Each call answers DYM_STATE for a closed process, and those that run and
 * commit for one whose object was closed; which isn't said again beside them. If more than one status would be right, DYM_BAD comes first,
 * then DYM_STATE.
 */
enum {
    DYM_COMMITTED = 13,  /* the event of a message is before the last bound, or a bound before an earlier one */
    DYM_NOT_LATER = 14,  /* what is sent isn't later than the event that sends it */
    DYM_NO_PROCESS = 15, /* what is sent is for no process; a message is for another process */
    DYM_UNSETTLED = 16,  /* an event before the bound is still to be run, or an anti-message waits for one */
    DYM_NONE = 17,       /* there is no such event */
    DYM_ASTRAY = 18      /* the object's logs aren't those that the process took */
};

/*
 * An event. Each process runs its events in the order of their keys: time, priority, sender, serial, and then the other fields; so one event at
 * most of a sender has one time and serial. A time is a number of whatever unit the simulator has; dym_time_of makes one of a clock that is a
 * double. The priority is the model's, to order events of one time.
 */
typedef struct dym_event {
    uint64_t time;
    uint64_t priority;
    uint64_t serial;   /* how many events the sender had sent before, of those that weren't called back */
    uint32_t sender;   /* the process that sent it */
    uint32_t receiver; /* the process that runs it */
    uint64_t kind;     /* the model's own, as data is: what doesn't fit into data stands in the receiver's state */
    uint64_t data[4];
} dym_event;

/* An event on its way to its receiver, or the word that it is called back: an anti-message. */
typedef struct dym_message {
    dym_event event;
    uint32_t is_anti; /* 0 or 1 */
    uint32_t mark;    /* the program's own: 0 in what comes out of a process, and read by no call */
} dym_message;

/* A process: closed when it is zero. Its state is the object. */
typedef struct dym_process {
    dym_object object;
    void *inside;
} dym_process;

/* What a process is opened with. */
typedef struct dym_process_config {
    uint32_t number;     /* of this process: below that of processes */
    uint32_t processes;  /* how many there are in the simulation, at most 2^32 - 1 */
    uint64_t period;     /* a log is taken after so many events; 0 counts as 1 */
    uint32_t quota;      /* of the object, as for dym_open: segments of 64 KiB, 1 to 1,024 */
    uint32_t version;    /* of the object, as for dym_open: 1, or 2 for chunks of exact lengths */
    uint32_t is_checked; /* 1: the object is opened as by dym_open_checked, to debug a model by dym_untold; else 0 */
} dym_process_config;

/* How far a process is. */
typedef struct dym_progress {
    uint64_t ran;     /* events that are run and weren't undone, from the start on, the committed ones among them */
    uint64_t replays; /* how many of them are handed out again before the next one */
    uint64_t logged;  /* how many of them had been run at the newest log */
    uint64_t outbox;  /* messages that are to be delivered */
    uint32_t is_open; /* 1: an event, or the start, is handed out and not ended */
} dym_progress;

/* ---- a process */

/*
 * Opens a closed process, with an empty object, and hands out its start: the program makes the state, sends the first events by
 * dym_process_send, and calls dym_process_end. The first events may have any time and any receiver among the processes; they are never
 * called back.
 * DYM_BAD: the number isn't below that of processes, is_checked is above 1, or the quota or the version is none that dym_open takes.
 * DYM_STATE: it is open, or its object is. DYM_MEMORY: it stays closed.
 */
DYM_NODISCARD DYM_API dym_status dym_process_open(dym_process *process, const dym_process_config *config);

/*
 * Closes an open process and its object, and frees all their memory. No compiler warns where this status is dropped.
 * DYM_STATE: it was closed.
 */
DYM_API dym_status dym_process_close(dym_process *process);

/* ---- messages */

/*
 * Takes a message. An event goes to its place in the order of keys; if events from there on were run they are undone: they are to be run
 * again, and anti-messages of what they had sent go to the outbox. An anti-message takes its event away in the same way, whichever of the
 * two comes first. The object stays as it is until the next event is handed out, so that messages that come together cost one restore.
 * An event that is taken twice is run twice: what carries messages delivers each once.
 * *undone is how many events were undone; `undone` may be null.
 * DYM_BAD: is_anti is neither 0 nor 1. DYM_STATE: an event is handed out. DYM_NO_PROCESS: the message's receiver isn't this process.
 * DYM_COMMITTED: its event is before the last bound: whatever carries messages, or found the bound, is wrong. DYM_MEMORY.
 */
DYM_NODISCARD DYM_API dym_status dym_process_take(dym_process *process, const dym_message *message, uint64_t *undone);

/*
 * Moves the messages that are to be delivered to where `messages` begin, in the order in which they came to the outbox, as many as there
 * are and have room there; *count is how many. Those without room stay first, and are moved forward, so that room for all, as many as
 * dym_process_progress tells, takes least time. Messages of one sender may be delivered in any order. A process's messages to itself come out
 * too, and are taken as any other.
 */
DYM_NODISCARD DYM_API dym_status dym_process_outbox(dym_process *process, dym_message *messages, size_t room, uint64_t *count);

/* ---- events */

/*
 * *time is that of the next event, the first in the order of keys that isn't run yet. DYM_STATE: the start isn't ended. DYM_NONE: there is
 * none.
 */
DYM_NODISCARD DYM_API dym_status dym_process_next(const dym_process *process, uint64_t *time);

/* How an event is handed out, as a sum. */
enum {
    DYM_REPLAYED = 1, /* it was run before */
    DYM_UNTOUCHED = 2 /* no chunk is touched, as after a log; where the sum is without it, the chunks that were touched before still are */
};

/*
 * Hands out the event that is to be run on the object: *event is the next one; or, where the object was brought back to a log, one that was
 * run before (DYM_REPLAYED): the program runs it just so, and what it sends is dropped, since it was sent before. *how is a sum of the two
 * words above; `how` may be null. Where as many events were run as the period says since the newest log, one is taken before; where 256
 * logs are kept already the process goes on without, until a commit drops some.
 * DYM_STATE: an event is handed out, or the start is. DYM_NONE: nothing is to be run: the object is what all events that are run made of
 * it. DYM_SPENT. DYM_ASTRAY. DYM_MEMORY.
 */
DYM_NODISCARD DYM_API dym_status dym_process_begin(dym_process *process, dym_event *event, uint32_t *how);

/*
 * The same, but only for an event that was run before: the next one isn't begun. DYM_NONE: the object is what all events that are run made
 * of it. To read the state of a process, as at the end of a run or for a commit. `how` may be null.
 */
DYM_NODISCARD DYM_API dym_status dym_process_replay(dym_process *process, dym_event *event, uint32_t *how);

/*
 * Sends an event, by the event that is handed out, or by the start: of *event its time, priority, receiver, kind and data are read; the
 * sender and the serial are the process's to fill in. It comes out at the end of the event; where the event that sends it is run once more,
 * it is dropped.
 * DYM_STATE: nothing is handed out. DYM_NOT_LATER: its time isn't above that of the event which is handed out. DYM_NO_PROCESS. DYM_MEMORY.
 */
DYM_NODISCARD DYM_API dym_status dym_process_send(dym_process *process, const dym_event *event);

/*
 * Ends the event that is handed out: the object is what the event made of it, and what it sent goes to the outbox. Of the start: the object
 * is the state in which the process starts, and its first log is taken.
 * DYM_STATE: nothing is handed out. DYM_SPENT: the process has run or sent 2^64 - 1 events; or, of the start, the object is spent.
 * DYM_ASTRAY: the start made a log. DYM_MEMORY: the event stays handed out, so that it can be ended later.
 */
DYM_NODISCARD DYM_API dym_status dym_process_end(dym_process *process);

/* ---- commits */

/*
 * Commits all events before a bound (GVT): no event or anti-message before it comes any more, so that they are never undone, and what only
 * their undoing would need is dropped, logs among it. *committed is how many this call committed; `committed` may be null. Bounds rise; but a
 * bound of 0 commits nothing, whatever bound came before.
 * DYM_STATE: an event is handed out. DYM_COMMITTED: an earlier commit had a later bound. DYM_UNSETTLED: an event before the bound is still
 * to be run, or an anti-message before it waits for its event: the bound is wrong. DYM_SPENT. DYM_MEMORY.
 */
DYM_NODISCARD DYM_API dym_status dym_process_commit(dym_process *process, uint64_t bound, uint64_t *committed);

/*
 * Moves the events that the last commit committed to where `events` begin, in the order of their keys, as many as there are and have room
 * there; *count is how many. Those without room stay first, and are moved forward; the next commit that is done drops them. For what an event may
 * do only once, as to print.
 */
DYM_NODISCARD DYM_API dym_status dym_process_committed(dym_process *process, dym_event *events, size_t room, uint64_t *count);

/* ---- the rest */

/* *progress says how far a process is. Of one whose start isn't ended all is 0, but that it is open. */
DYM_NODISCARD DYM_API dym_status dym_process_progress(const dym_process *process, dym_progress *progress);

/* From now on a log is taken after so many events; 0 counts as 1. */
DYM_NODISCARD DYM_API dym_status dym_process_period(dym_process *process, uint64_t period);

/* An event to be sent: a zero priority, and no data but these two. */
static inline dym_event dym_event_to(uint32_t receiver, uint64_t time, uint64_t kind, uint64_t data0, uint64_t data1)
{
    dym_event event;
    memset(&event, 0, sizeof event);
    event.receiver = receiver;
    event.time = time;
    event.kind = kind;
    event.data[0] = data0;
    event.data[1] = data1;
    return event;
}

/* Results that nobody needs, as in dymelor.h: `undone`, `how` and `committed` may be null. */
DYM_NODISCARD static inline dym_status dym_inline_process_take(dym_process *process, const dym_message *message, uint64_t *undone)
{
    uint64_t unread;
    return dym_process_take(process, message, undone != NULL ? undone : &unread);
}

DYM_NODISCARD static inline dym_status dym_inline_process_begin(dym_process *process, dym_event *event, uint32_t *how)
{
    uint32_t unread;
    return dym_process_begin(process, event, how != NULL ? how : &unread);
}

DYM_NODISCARD static inline dym_status dym_inline_process_replay(dym_process *process, dym_event *event, uint32_t *how)
{
    uint32_t unread;
    return dym_process_replay(process, event, how != NULL ? how : &unread);
}

DYM_NODISCARD static inline dym_status dym_inline_process_commit(dym_process *process, uint64_t bound, uint64_t *committed)
{
    uint64_t unread;
    return dym_process_commit(process, bound, committed != NULL ? committed : &unread);
}

#define dym_process_take dym_inline_process_take
#define dym_process_begin dym_inline_process_begin
#define dym_process_replay dym_inline_process_replay
#define dym_process_commit dym_inline_process_commit

#ifdef __cplusplus
}
#ifdef __clang__
#pragma clang diagnostic pop
#endif
#endif

#endif
