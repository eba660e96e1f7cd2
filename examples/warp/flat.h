/*
 * A state that is one block of memory. Chunks are cut from it by classes of powers of two, with a list of free chunks for each class; all
 * of that lies in the block, so that a copy of its used part is the whole state.
 */
#ifndef FLAT_H
#define FLAT_H

#include <stddef.h>
#include <stdint.h>

#include "fault.h"

enum { FLAT_LEAST = 5, FLAT_MOST = 16, FLAT_SEGMENT = 65536 };

/* The begin of the block: how much of it is used, and the first free chunk of each class, which begins with the address of the next. */
typedef struct flat {
    uint64_t used;
    uint64_t room;
    void *free[FLAT_MOST + 1];
} flat;

/* Called before bytes of the block change; null where nobody asks. */
typedef void flat_keep(void *owner, void *at, size_t length);

/* A block with room for so many segments of 64 KiB of chunks, or null. */
flat *flat_open(uint32_t quota);

/* A chunk of zero bytes, or null where there is no room. */
void *flat_alloc(flat *f, size_t length, flat_keep *keep, void *owner);
void flat_free(flat *f, void *chunk, size_t length, flat_keep *keep, void *owner);

/* The block as bytes, which the caller frees; and a block of such bytes. *distance is how far it lies from where it lay. */
fault flat_save(const flat *f, uint8_t **bytes, uint64_t *length);
fault flat_load(flat **f, const uint8_t *bytes, uint64_t length, uintptr_t *distance);

#endif
