#include "progress.h"

#include <inttypes.h>
#include <stdio.h>

#include "clock.h"

enum { HALF_SECOND = 500000000 };

void progress_open(progress *p, int is_shown)
{
    p->is_shown = is_shown;
    p->shown_at = clock_now();
    p->committed = 0;
}

void progress_show(progress *p, uint64_t bound, const counts *sums)
{
    uint64_t now, passed;
    if (!p->is_shown) return;
    now = clock_now();
    passed = now - p->shown_at;
    if (passed < HALF_SECOND) return;
    fprintf(stderr, "bound %" PRIu64 ", %.0f events a second, %" PRIu64 " rollbacks\n", bound,
            (double)(sums->committed - p->committed) * 1e9 / (double)passed, sums->rollbacks);
    p->shown_at = now;
    p->committed = sums->committed;
}
