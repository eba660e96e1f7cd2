/* A model, run optimistically by many workers or, with --sequential, by one ordered queue. */
#include <inttypes.h>
#include <stdio.h>
#include <stdlib.h>
#include <string.h>

#include "kernel.h"
#include "resources.h"
#include "sequential.h"
#include "settings.h"
#include "transport.h"

static void print_outcome(const outcome *out, const settings *s)
{
    const counts *c = &out->counts;
    uint64_t ran = c->committed + c->undone;
    double seconds = (double)out->time / 1e9;
    printf("committed %" PRIu64 "\n", c->committed);
    printf("%.6f s, %.0f events a second; %.6f s of processors\n", seconds, seconds > 0 ? (double)c->committed / seconds : 0,
           (double)c->processor / 1e9);
    printf("peak memory %" PRIu64 " KiB\n", c->memory);
    if (!s->sequential) {
        printf("workers %" PRIu32 " (%s), save %s, processes %s, bounds %" PRIu64 "\n", transport_workers(s), transport_name(), s->way->name,
               s->kind->name, out->bounds);
        printf("rollbacks %" PRIu64 ", undone %" PRIu64 " events, replayed %" PRIu64 ", efficiency %.3f\n", c->rollbacks, c->undone,
               c->replayed, ran > 0 ? (double)c->committed / (double)ran : 1);
        printf("logs %" PRIu64, c->logs);
        if (c->log_bytes > 0) printf(" of %" PRIu64 " bytes", c->log_bytes);
        printf("\n");
    }
    printf("checksum %016" PRIx64 "\n", c->checksum);
}

/* Each worker has the outcome of all; the first one of all prints it. */
static void work(transport *t, const settings *s, process *processes)
{
    outcome out;
    kernel_run(t, s, processes, &out);
    if (transport_is_first() && transport_speaks(t)) print_outcome(&out, s);
}

static fault run_optimistic(const settings *s)
{
    process *processes = calloc(s->processes, sizeof *processes);
    if (processes == NULL) fault_end(FAULT_MEMORY); /* of this rank alone, perhaps */
    transport_run(s, processes, work);
    free(processes);
    return FAULT_NONE;
}

static fault run_in_order(const settings *s)
{
    outcome out;
    fault f;
    memset(&out, 0, sizeof out);
    f = run_sequentially(s, &out);
    out.counts.memory = resources_peak();
    if (f == FAULT_NONE && transport_is_first()) print_outcome(&out, s);
    return f;
}

/* Whether all that was printed is where it is to go: a full disk shows only here. */
static int is_written(void)
{
    return fflush(stdout) == 0 && !ferror(stdout);
}

int main(int count, char **words)
{
    settings s;
    char why[SETTINGS_WHY];
    fault f;
    transport_begin(&count, &words);
    f = settings_read(&s, count, words, why);
    if (f == FAULT_NONE && s.wants_usage) {
        if (transport_is_first()) settings_usage(words[0]);
    } else if (f == FAULT_NONE) {
        resources_limit(s.memory);
        f = s.sequential ? run_in_order(&s) : run_optimistic(&s);
    }
    if (f == FAULT_NONE && !is_written()) {
        f = FAULT_FILE;
        snprintf(why, sizeof why, "the answer can't be written");
    }
    if (f != FAULT_NONE && transport_is_first()) fprintf(stderr, "warp: %s\n", why[0] != '\0' ? why : fault_text(f));
    transport_end();
    return (int)f;
}
