/* What the program takes of the machine. */
#ifndef RESOURCES_H
#define RESOURCES_H

#include <stdint.h>

/* KiB that the program had in memory at its peak. */
uint64_t resources_peak(void);

/* Limits what the program may take, so that too much is a fault of its own and no trouble of the machine; 0 sets no limit. */
void resources_limit(uint64_t mebibytes);

/* Lifts that limit, for what is still to be done once memory ran out. */
void resources_lift(void);

#endif
