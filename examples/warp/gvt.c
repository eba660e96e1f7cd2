#include "gvt.h"

uint64_t gvt_bound(transport *t, uint64_t least, messages *incoming, counts *sums)
{
    size_t k;
    transport_settle(t, incoming);
    for (k = 0; k < incoming->count; k++)
        if (incoming->items[k].event.time < least) least = incoming->items[k].event.time;
    transport_reduce(t, &least, sums);
    return least;
}
