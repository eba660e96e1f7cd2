/* The models that there are. */
#include "../model.h"

#include <stddef.h>
#include <string.h>

extern const model phold;
extern const model cells;
extern const model queue;

const model *const models[] = {&phold, &cells, &queue, NULL};

const model *model_named(const char *name)
{
    const model *const *m = models;
    while (*m != NULL && strcmp((*m)->name, name) != 0) m++;
    return *m;
}
