#include "process.h"

#include <string.h>

static const process_kind *const kinds[] = {&process_library, &process_own, NULL};

const process_kind *process_kind_named(const char *name)
{
    const process_kind *const *kind = kinds;
    while (*kind != NULL && strcmp((*kind)->name, name) != 0) kind++;
    return *kind;
}

void process_context(process *p, const settings *s, uint32_t k)
{
    p->settings = s;
    p->kind = s->kind;
    p->context.self = k;
    p->context.processes = s->processes;
    p->context.seed = s->seed;
    p->context.options = s->options;
    p->context.memory = &p->memory;
    p->context.touches = &p->memory.touches;
    p->context.write = s->way->write;
    p->context.deliver = s->kind->deliver;
    p->context.owner = p;
}

fault process_open(process *p, const settings *s, uint32_t k, messages *out)
{
    memset(p, 0, sizeof *p);
    process_context(p, s, k);
    period_open(&p->period, s->log_every);
    return p->kind->open(p, out);
}

void process_close(process *p)
{
    if (p->kind != NULL) p->kind->close(p);
    memset(p, 0, sizeof *p);
}

void process_execute(process *p, const event *e)
{
    p->context.now = e->time;
    memory_begin(&p->memory);
    p->settings->model->run(&p->context, e);
    memory_end(&p->memory);
}

void process_note_undone(process *p, uint64_t count, uint64_t time)
{
    p->counts.rollbacks++;
    p->counts.undone += count;
    period_note_rollback(&p->period);
    p->reached = time;
}

fault process_commit(process *p, uint64_t bound)
{
    fault f = p->kind->commit(p, bound);
    p->wants_bound = 0;
    period_adapt(&p->period);
    return f;
}

fault process_checksum(process *p, uint64_t *sum)
{
    fault f = p->kind->settle(p);
    if (f == FAULT_NONE) *sum = p->settings->model->checksum(&p->context);
    return f;
}

uint64_t process_reached(const process *p)
{
    return p->reached;
}

const counts *process_counts(const process *p)
{
    return &p->counts;
}

int process_wants_bound(const process *p)
{
    return p->wants_bound;
}
