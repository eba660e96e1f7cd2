#include "model.h"

#include "memory.h"

void *model_alloc(context *c, size_t length)
{
    return c->memory->way->alloc(c->memory, length);
}

void model_free(context *c, void *chunk, size_t length)
{
    c->memory->way->free(c->memory, chunk, length);
}

void model_send(context *c, uint32_t receiver, uint64_t delay, uint64_t kind, uint64_t data0, uint64_t data1)
{
    event e = {.time = c->now + delay, .sender = c->self, .receiver = receiver, .kind = kind, .data = {data0, data1}};
    if (receiver >= c->processes || delay == 0 || delay > UINT64_MAX - 1 - c->now) fault_end(FAULT_MODEL);
    c->deliver(c, &e);
}
