/* How far a run is, on standard error, at most twice a second. */
#ifndef PROGRESS_H
#define PROGRESS_H

#include "counts.h"

typedef struct progress {
    int is_shown;
    uint64_t shown_at; /* nanoseconds */
    uint64_t committed;
} progress;

void progress_open(progress *p, int is_shown);

/* Shows a bound, with the events committed a second since what was shown before. */
void progress_show(progress *p, uint64_t bound, const counts *sums);

#endif
