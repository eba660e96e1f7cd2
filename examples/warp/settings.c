#include "settings.h"

#include <errno.h>
#include <inttypes.h>
#include <stdio.h>
#include <stdlib.h>
#include <string.h>

#include "process.h"
#include "transport.h"

/* An option of the kernel: its number, as a model's options have one, where it goes, and the word for 0, or null. */
typedef struct option {
    model_option number;
    size_t at;
    int is_wide; /* 64 bits, else 32 */
    const char *zero;
} option;

#define WIDE(field) offsetof(settings, field), 1
#define NARROW(field) offsetof(settings, field), 0

static const option options[] = {
    {{"processes", 16, 1, 65536, "logical processes"}, NARROW(processes), NULL},
    {{"threads", 2, 1, 64, "workers, in the version over threads"}, NARROW(threads), NULL},
    {{"end", 2000, 1, UINT64_C(1000000000000), "events after this time aren't run"}, WIDE(end), NULL},
    {{"seed", 1, 0, UINT64_MAX, "where random numbers begin"}, WIDE(seed), NULL},
    {{"batch", 1, 1, 65536, "events that a process runs ahead at its turn"}, NARROW(batch), NULL},
    {{"log-every", 4, 0, 65536, "events between two logs of a process; auto follows costs and rollbacks"}, NARROW(log_every), "auto"},
    {{"window", 0, 0, UINT64_MAX, "how far ahead of the bound events are run; auto follows the rollbacks"}, WIDE(window), "auto"},
    {{"bound-every", 1024, 1, UINT64_MAX, "events that a worker runs between two bounds"}, WIDE(bound_every), NULL},
    {{"move", 0, 0, UINT64_MAX, "bounds between two moves of a process to the next worker; 0 for none"}, WIDE(move_every), NULL},
    {{"quota", 4, 1, 1024, "segments of 64 KiB that a process's state may have"}, NARROW(quota), NULL},
    {{"memory", 0, 0, 1048576, "MiB that a program may take; 0 for no limit"}, WIDE(memory), NULL},
    {{"spoil", 0, 0, UINT64_MAX, "spoils this message of each worker, to try the fault; 0 for none"}, WIDE(spoil), NULL},
};

enum { OPTIONS = sizeof options / sizeof *options, RANGE = 64 };

static void set(settings *s, const option *o, uint64_t value)
{
    uint8_t *place = (uint8_t *)s + o->at;
    uint32_t narrow = (uint32_t)value;
    if (o->is_wide)
        memcpy(place, &value, sizeof value);
    else
        memcpy(place, &narrow, sizeof narrow);
}

static const option *option_named(const char *name)
{
    unsigned k;
    for (k = 0; k < OPTIONS; k++)
        if (strcmp(options[k].number.name, name) == 0) return &options[k];
    return NULL;
}

/* Which option of a model has a name: MODEL_OPTIONS for none. */
static unsigned own_option_named(const model *m, const char *name)
{
    unsigned k;
    for (k = 0; k < MODEL_OPTIONS && m->options[k].name != NULL; k++)
        if (strcmp(m->options[k].name, name) == 0) return k;
    return MODEL_OPTIONS;
}

/* What an option takes, in words; zero is the word for 0, or null. */
static const char *range_of(const model_option *o, const char *zero, char range[RANGE])
{
    const char *joined = zero != NULL ? ", or " : "", *word = zero != NULL ? zero : "";
    if (o->most == UINT64_MAX)
        snprintf(range, RANGE, "%" PRIu64 " to 2^64 - 1%s%s", o->least, joined, word);
    else
        snprintf(range, RANGE, "%" PRIu64 " to %" PRIu64 "%s%s", o->least, o->most, joined, word);
    return range;
}

/* Reads a number of an option's range, and answers whether the word is one. */
static int is_number(const char *word, const model_option *o, uint64_t *value)
{
    char *end;
    unsigned long long n;
    errno = 0;
    n = strtoull(word, &end, 10);
    if (errno != 0 || end == word || *end != '\0' || strchr(word, '-') != NULL || n < o->least || n > o->most) return 0;
    *value = n;
    return 1;
}

/* Reads the value of an option with a number, the kernel's or the model's. */
static fault read_number(settings *s, const char *name, const char *word, char *why)
{
    const option *of_kernel = option_named(name);
    unsigned own = own_option_named(s->model, name);
    const model_option *o = of_kernel != NULL ? &of_kernel->number : &s->model->options[own];
    const char *zero = of_kernel != NULL ? of_kernel->zero : NULL;
    char range[RANGE];
    uint64_t value = 0;
    if ((zero == NULL || strcmp(word, zero) != 0) && !is_number(word, o, &value)) {
        snprintf(why, SETTINGS_WHY, "--%s %s: it takes a number from %s", name, word, range_of(o, zero, range));
        return FAULT_OPTION;
    }
    if (of_kernel != NULL)
        set(s, of_kernel, value);
    else
        s->options[own] = value;
    return FAULT_NONE;
}

/* Puts a text behind others, as far as there is room. */
static void append(char *why, const char *text)
{
    size_t used = strlen(why);
    snprintf(why + used, SETTINGS_WHY - used, "%s", text);
}

static fault read_way(settings *s, const char *word, char *why)
{
    const memory_way *const *way;
    s->way = memory_way_named(word);
    if (s->way != NULL) return FAULT_NONE;
    snprintf(why, SETTINGS_WHY, "--save %s: it takes one of", word);
    for (way = memory_ways; *way != NULL; way++) {
        append(why, way == memory_ways ? " " : ", ");
        append(why, (*way)->name);
    }
    return FAULT_OPTION;
}

static fault read_kind(settings *s, const char *word, char *why)
{
    s->kind = process_kind_named(word);
    if (s->kind != NULL) return FAULT_NONE;
    snprintf(why, SETTINGS_WHY, "--process %s: it takes one of %s, %s", word, process_library.name, process_own.name);
    return FAULT_OPTION;
}

static fault read_model(const model **m, const char *word, char *why)
{
    const model *const *each;
    *m = model_named(word);
    if (*m != NULL) return FAULT_NONE;
    snprintf(why, SETTINGS_WHY, "%s: a model is one of", word);
    for (each = models; *each != NULL; each++) {
        append(why, each == models ? " " : ", ");
        append(why, (*each)->name);
    }
    return FAULT_OPTION;
}

/* Whether there is an option of this name that has a value. */
static int has_value(const settings *s, const char *name)
{
    return strcmp(name, "save") == 0 || strcmp(name, "process") == 0 || strcmp(name, "trace") == 0 || option_named(name) != NULL ||
           own_option_named(s->model, name) < MODEL_OPTIONS;
}

static fault read_value(settings *s, const char *name, const char *word, char *why)
{
    if (strcmp(name, "save") == 0) return read_way(s, word, why);
    if (strcmp(name, "process") == 0) return read_kind(s, word, why);
    if (strcmp(name, "trace") != 0) return read_number(s, name, word, why);
    s->trace = word;
    return FAULT_NONE;
}

/* Reads the word that *k counts, and its value, which *k counts then. */
static fault read_word(settings *s, int count, char **words, int *k, char *why)
{
    const char *word = words[*k], *name = strncmp(word, "--", 2) == 0 ? word + 2 : "";
    if (strcmp(name, "sequential") == 0) {
        s->sequential = 1;
    } else if (strcmp(name, "progress") == 0) {
        s->progress = 1;
    } else if (strcmp(name, "help") == 0) {
        s->wants_usage = 1;
    } else if (!has_value(s, name)) {
        snprintf(why, SETTINGS_WHY, "%s: %s (--help says which there are)", fault_text(FAULT_OPTION), word);
        return FAULT_OPTION;
    } else if (*k + 1 == count) {
        snprintf(why, SETTINGS_WHY, "%s needs a value", word);
        return FAULT_OPTION;
    } else {
        return read_value(s, name, words[++*k], why);
    }
    return FAULT_NONE;
}

static void set_defaults(settings *s, const model *m)
{
    unsigned k;
    memset(s, 0, sizeof *s);
    s->model = m;
    s->way = memory_ways[0];
    for (k = 0; k < OPTIONS; k++) set(s, &options[k], options[k].number.value);
    for (k = 0; k < MODEL_OPTIONS && m->options[k].name != NULL; k++) s->options[k] = m->options[k].value;
}

/* The library's processes where a state is an object, no process goes to another rank, and no other kind was asked for. */
static fault set_kind(settings *s, char *why)
{
    int has_object = s->way->open_over != NULL, goes = s->move_every > 0 && transport_packs();
    if (s->kind == NULL) s->kind = has_object && !goes ? &process_library : &process_own;
    if (s->kind == &process_own || (has_object && !goes)) return FAULT_NONE;
    if (has_object)
        snprintf(why, SETTINGS_WHY, "--process library with --move: such a process goes to no other rank");
    else
        snprintf(why, SETTINGS_WHY, "--process library with --save %s: such a process has its state in an object (--save place)", s->way->name);
    return FAULT_OPTION;
}

/* Each worker of a run has a process. */
static fault match_workers(const settings *s, char *why)
{
    uint32_t workers = transport_workers(s);
    if (s->wants_usage || s->sequential || s->processes >= workers) return FAULT_NONE;
    snprintf(why, SETTINGS_WHY, "--processes %" PRIu32 " with %" PRIu32 " %s: there are more workers than processes", s->processes, workers,
             transport_name());
    return FAULT_OPTION;
}

fault settings_read(settings *s, int count, char **words, char why[SETTINGS_WHY])
{
    const model *m = models[0];
    fault f = FAULT_NONE;
    int k = 1;
    why[0] = '\0';
    if (count > 1 && words[1][0] != '-') f = read_model(&m, words[k++], why);
    if (f != FAULT_NONE) return f;
    set_defaults(s, m);
    for (; f == FAULT_NONE && k < count; k++) f = read_word(s, count, words, &k, why);
    if (f == FAULT_NONE) f = set_kind(s, why);
    return f == FAULT_NONE ? match_workers(s, why) : f;
}

/* An option with a number: its default, what it is, and its range. */
static void say(const model_option *o, const char *zero)
{
    char range[RANGE];
    range_of(o, zero, range);
    if (zero != NULL && o->value == 0)
        printf("  --%-12s %8s  %s (%s)\n", o->name, zero, o->says, range);
    else
        printf("  --%-12s %8" PRIu64 "  %s (%s)\n", o->name, o->value, o->says, range);
}

void settings_usage(const char *program)
{
    const model *const *m;
    const memory_way *const *way;
    unsigned k;
    printf("usage: %s [MODEL] [--sequential] [--progress] [--save WAY] [--process KIND] [--trace FILE] [--OPTION NUMBER]..\n", program);
    for (way = memory_ways; *way != NULL; way++)
        printf("  --save %-10s  %s%s\n", (*way)->name, (*way)->says, way == memory_ways ? " (the default)" : "");
    printf("  --process library  the library's processes (the default where a state is an object, and not with --move over MPI)\n");
    printf("  --process own      the kernel's own processes (else the default)\n");
    printf("  --trace FILE       what each process did when, for draw: worker N writes to FILE.N; those of an older run are removed\n");
    printf("options with a number, each with its default and its range:\n");
    for (k = 0; k < OPTIONS; k++) say(&options[k].number, options[k].zero);
    for (m = models; *m != NULL; m++) {
        const model_option *own = (*m)->options;
        printf("%s%s: %s\n", (*m)->name, m == models ? " (the default MODEL)" : "", (*m)->says);
        for (k = 0; k < MODEL_OPTIONS && own[k].name != NULL; k++) say(&own[k], NULL);
    }
}
