/*
 * Ways to store into a chunk, one of each kind. A chunk belongs to one way, so that a store which isn't told stays unseen by the next log
 * whatever else was told.
 */
#ifndef STORES_H
#define STORES_H

#include "dymelor.h"

#include <stdio.h>

typedef struct way {
    const char *name;
    size_t size;
    /* Changes bytes of the chunk, by `draw` which and to what, and for some `draw` none. */
    void (*change)(void *chunk, uint32_t draw);
} way;

#ifdef __cplusplus
extern "C" {
#endif

/* The ways in C and those in C++, and the calls of libraries by their names, each up to one without a name. */
extern const way plain_ways[];
extern const way call_ways[];
extern const way class_ways[];

/* A text as a file that is read, by the simulator: a model that calls fmemopen itself would be told that it isn't known. */
FILE *file_of(const char *text);

/* A sorted list and a tree in one object. Each step adds a node or takes one away. The root is a chunk of ROOT_BYTES bytes. */
enum { ROOT_BYTES = 64 };
void list_step(dym_object *object, void *root, uint32_t draw);
void tree_step(dym_object *object, void *root, uint32_t draw);

#ifdef __cplusplus
}
#endif

#endif
