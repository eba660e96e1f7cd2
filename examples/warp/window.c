#include "window.h"

enum { FIRST_SPAN = 16 };

void window_open(window *w, uint64_t span)
{
    w->span = span > 0 ? span : FIRST_SPAN;
    w->is_chosen = span == 0;
    w->committed = w->undone = 0;
}

void window_adapt(window *w, const counts *sums)
{
    uint64_t committed = sums->committed - w->committed, undone = sums->undone - w->undone;
    if (!w->is_chosen || committed + undone == 0) return;
    if (undone > (committed + undone) / 4)
        w->span = w->span > 1 ? w->span / 2 : 1;
    else if (w->span < UINT64_MAX / 4)
        w->span += w->span / 2 + 1;
    w->committed = sums->committed;
    w->undone = sums->undone;
}

uint64_t window_last(const window *w, uint64_t bound, uint64_t end)
{
    return w->span < end && bound < end - w->span ? bound + w->span : end;
}
