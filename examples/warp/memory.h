/*
 * The state of one process, as the kernel has it: logged, brought back, pruned, and moved. The time of a log is the number of events that
 * the process had run: so each event has a time of its own, also among events of one simulation time, and a log can be taken after any.
 *
 * A way to save state is a file with a `memory_way`; memory.c has the table of them.
 */
#ifndef MEMORY_H
#define MEMORY_H

#include <stddef.h>
#include <stdint.h>

#include "dymelor.h"
#include "fault.h"
#include "touches.h"

/* The most logs that a process keeps; the library has the same limit. */
enum { MEMORY_LOGS = 256 };

typedef struct memory memory;

/*
 * What a model calls (alloc, free, write) ends the run where it can't be done. `write` comes before each change of what an event didn't
 * allocate itself, but for what `touches` has.
 *
 * A state moves when it stands at the only log that it has. `save` makes its bytes, and `load` opens a state of them; *distance is how far
 * its chunks lie from where they lay. When its pointers were made right it is logged again, at the same time.
 */
typedef struct memory_way {
    const char *name;
    const char *says;
    fault (*open)(memory *m, uint32_t quota);
    fault (*open_over)(memory *m, dym_object *object); /* null where the state is no object of the library */
    void (*close)(memory *m);
    void *(*alloc)(memory *m, size_t length);
    void (*free)(memory *m, void *chunk, size_t length);
    void (*write)(memory *m, void *at, size_t length); /* null where nothing is to be done */
    fault (*log)(memory *m, uint64_t time, uint64_t *bytes);
    fault (*restore)(memory *m, uint64_t time, uint64_t *restored);
    fault (*prune)(memory *m, uint64_t bound);
    fault (*save)(memory *m, uint8_t **bytes, uint64_t *length);
    fault (*load)(memory *m, const uint8_t *bytes, uint64_t length, uintptr_t *distance);
    void (*begin)(memory *m); /* before and after an event; null where nothing is to be done */
    void (*end)(memory *m);
} memory_way;

struct memory {
    const memory_way *way;
    void *inside; /* the way's own; null while it is closed */
    touches touches;
};

extern const memory_way memory_copies;
extern const memory_way memory_undo;
extern const memory_way memory_place;
extern const memory_way memory_told; /* of a program whose models dymelor-cc compiled, with WARP_TOLD defined */

/* All ways, null after the last; and the way of a name, or null. */
extern const memory_way *const memory_ways[];
const memory_way *memory_way_named(const char *name);

/* Opens an empty state of at most so many segments of 64 KiB. */
fault memory_open(memory *m, const memory_way *way, uint32_t quota);
void memory_close(memory *m);

/* The same over an object of the library, which is another's to close, to log and to bring back: that one says when it did so. */
fault memory_open_over(memory *m, const memory_way *way, dym_object *object);
void memory_note_log(memory *m);

/* What an answer of the library means for a run. */
fault memory_fault(dym_status status);

/* An event of this state's process begins and ends. */
void memory_begin(memory *m);
void memory_end(memory *m);

/* Keeps the state under a time above that of the newest log. *bytes is what the log takes. */
fault memory_log(memory *m, uint64_t time, uint64_t *bytes);

/* Brings the state back to the newest log at or before a time, and drops the later ones. *restored is its time. */
fault memory_restore(memory *m, uint64_t time, uint64_t *restored);

/* Drops the logs before the newest one at or before a bound. */
fault memory_prune(memory *m, uint64_t bound);

/* A state at its only log as bytes, which the caller frees; and a state opened from such bytes, whose first log is still to be taken. */
fault memory_save(memory *m, uint8_t **bytes, uint64_t *length);
fault memory_load(memory *m, const memory_way *way, const uint8_t *bytes, uint64_t length, uintptr_t *distance);

#endif
