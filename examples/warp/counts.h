/* What is counted of a run: numbers that are added up over processes and workers. */
#ifndef COUNTS_H
#define COUNTS_H

#include <stddef.h>
#include <stdint.h>

typedef struct counts {
    uint64_t committed; /* events that can't be undone any more */
    uint64_t rollbacks;
    uint64_t undone;    /* events that rollbacks undid */
    uint64_t replayed;  /* events that were run again from a log on, up to where a rollback went */
    uint64_t logs;
    uint64_t log_bytes;
    uint64_t checksum;  /* of the final states */
    uint64_t memory;    /* KiB that the program took at its peak */
    uint64_t processor; /* nanoseconds that a worker had a processor */
} counts;

enum { COUNTS = sizeof(counts) / sizeof(uint64_t) };

/* Adds numbers to others. */
static inline void counts_add(counts *to, const counts *from)
{
    to->committed += from->committed;
    to->rollbacks += from->rollbacks;
    to->undone += from->undone;
    to->replayed += from->replayed;
    to->logs += from->logs;
    to->log_bytes += from->log_bytes;
    to->checksum += from->checksum;
    to->memory += from->memory;
    to->processor += from->processor;
}

#endif
