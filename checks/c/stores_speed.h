/* The model that stores_speed.c measures, compiled twice: by dymelor-cc, and by the compiler alone with BY_HAND defined. */
#ifndef STORES_SPEED_H
#define STORES_SPEED_H

#include "dymelor.h"

enum { CHUNK_NUMBERS = 8 };

/* A state: some chunks of 64 bytes, and their handles where they lie in an object. */
typedef struct state {
    dym_object *object;
    size_t count;
    uint64_t **chunks;
    dym_handle *handles;
    uint64_t random;
} state;

/* An event that changes so many chunks: by hand each is touched before, if it lies in an object; told and plain nothing is. */
void event_told(state *s, size_t changes);
void event_plain(state *s, size_t changes);
void event_by_hand(state *s, size_t changes);

/* So many stores, each by itself. */
void stores_told(volatile uint64_t *at, size_t count);
void stores_plain(volatile uint64_t *at, size_t count);

#endif
