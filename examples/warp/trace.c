#include "trace.h"

#include <inttypes.h>
#include <stdlib.h>
#include <string.h>
#include <unistd.h>

#include "clock.h"

/* A dot, the digits of a worker, and the end of a name; and the workers that a run over threads may have. Ranks may be more. */
enum { DIGITS = 12, MOST_WORKERS = 64 };

/* The name of a worker's file, in so much room. */
static void name_file(char *own, size_t room, const char *name, uint32_t worker)
{
    if (worker > 0)
        snprintf(own, room, "%s.%" PRIu32, name, worker);
    else
        snprintf(own, room, "%s", name);
}

/* Removes what an older run of more workers left. The files of this run's workers stay, whichever of them opens its own first. */
static fault remove_older(char *own, size_t room, const char *name, uint32_t workers)
{
    uint32_t worker;
    int was_there = 1;
    for (worker = workers; worker < MOST_WORKERS || was_there; worker++) {
        name_file(own, room, name, worker);
        was_there = unlink(own) == 0;
        if (!was_there && access(own, F_OK) == 0) return FAULT_FILE;
    }
    return FAULT_NONE;
}

fault trace_open(trace *t, const char *name, uint32_t worker, uint32_t workers)
{
    size_t room;
    char *own;
    fault f;
    t->file = NULL;
    if (name == NULL) return FAULT_NONE;
    room = strlen(name) + DIGITS;
    own = malloc(room);
    if (own == NULL) return FAULT_MEMORY;
    name_file(own, room, name, worker);
    t->file = fopen(own, "w");
    f = t->file != NULL ? FAULT_NONE : FAULT_FILE;
    if (f == FAULT_NONE && worker == 0) f = remove_older(own, room, name, workers);
    free(own);
    return f;
}

fault trace_close(trace *t)
{
    int failed;
    if (t->file == NULL) return FAULT_NONE;
    failed = ferror(t->file);
    return fclose(t->file) != 0 || failed ? FAULT_FILE : FAULT_NONE;
}

void trace_note(trace *t, const char *what, uint32_t process, uint64_t time)
{
    if (t->file != NULL) fprintf(t->file, "%s %" PRIu64 " %" PRIu32 " %" PRIu64 "\n", what, clock_now(), process, time);
}

void trace_note_back(trace *t, uint32_t process, uint64_t time, uint64_t from)
{
    if (t->file != NULL)
        fprintf(t->file, "back %" PRIu64 " %" PRIu32 " %" PRIu64 " %" PRIu64 "\n", clock_now(), process, time, from);
}

void trace_note_bound(trace *t, uint64_t time)
{
    if (t->file != NULL) fprintf(t->file, "bound %" PRIu64 " %" PRIu64 "\n", clock_now(), time);
}
