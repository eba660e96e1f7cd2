/*
 * What each process did when, for the picture of a run (draw): FILE for worker 0 and FILE.N for each other worker N, with a line for each
 * thing done:
 *     run WALL PROCESS TIME        it ran an event of this time
 *     log WALL PROCESS TIME        it took a log: before that event where the process is the library's, else after it
 *     back WALL PROCESS TIME FROM  it went back from FROM to before an event of this time
 *     bound WALL TIME
 *     move WALL PROCESS TO
 * WALL is in nanoseconds of one clock.
 */
#ifndef TRACE_H
#define TRACE_H

#include <stdint.h>
#include <stdio.h>

#include "fault.h"

typedef struct trace {
    FILE *file; /* null where nothing is noted */
} trace;

/* Opens the file of a worker; `name` may be null. Worker 0 removes FILE.N where there is no worker N: it is of an older run, and would be drawn with
 * this one. */
fault trace_open(trace *t, const char *name, uint32_t worker, uint32_t workers);

/* FAULT_FILE: not all was written. */
fault trace_close(trace *t);

/* Notes one thing. */
void trace_note(trace *t, const char *what, uint32_t process, uint64_t time);
void trace_note_back(trace *t, uint32_t process, uint64_t time, uint64_t from);
void trace_note_bound(trace *t, uint64_t time);

#endif
