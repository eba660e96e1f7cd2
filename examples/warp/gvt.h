/*
 * The bound (global virtual time): no event before it can come any more, or be undone. All workers stop sending and take in what is on its
 * way; then the least time of what any of them has to run, and of the messages that came meanwhile, is the bound.
 */
#ifndef GVT_H
#define GVT_H

#include "transport.h"

/*
 * All workers call it. `least` is the least time of the worker's pending events; messages that came meanwhile are added to `incoming`.
 * *sums becomes the sums over all workers.
 */
uint64_t gvt_bound(transport *t, uint64_t least, messages *incoming, counts *sums);

#endif
