/*
 * A process as bytes, to go to another rank: its lists, its state at its oldest log (over the library a checkpoint file), and its counts.
 * The events that it ran after that log are run once more there. The ranks of a run are one program on machines of one kind, so that
 * numbers go as they lie in memory.
 */
#ifndef PACK_H
#define PACK_H

#include "process.h"

/* Makes the bytes of a process, which the caller frees, and closes it. */
fault process_pack(process *p, uint8_t **bytes, uint64_t *length);

/* Opens process k as such bytes have it. FAULT_MOVE: they are none of it. */
fault process_unpack(process *p, const settings *s, uint32_t k, const uint8_t *bytes, uint64_t length);

#endif
