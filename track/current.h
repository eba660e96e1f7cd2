/* The object that a thread has named by dym_track. */
#ifndef DYMELOR_CURRENT_H
#define DYMELOR_CURRENT_H

#include "dymelor.h"
#include "table.h"

/* Where none is named, the table is that of no object. It says whether the object was closed since. */
typedef struct current {
    table *table;
    dym_object *object;
} current;

extern _Thread_local current dym_current;

#endif
