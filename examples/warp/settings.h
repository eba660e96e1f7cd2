/* What the command line says of a run. */
#ifndef SETTINGS_H
#define SETTINGS_H

#include "memory.h"
#include "model.h"

struct process_kind;

typedef struct settings {
    const model *model;
    const memory_way *way;
    const struct process_kind *kind; /* the library's processes, or the kernel's own */
    uint64_t options[MODEL_OPTIONS]; /* of the model */
    uint32_t processes;
    uint32_t threads;     /* of the version over threads */
    uint64_t end;         /* events after this time aren't run */
    uint64_t seed;
    uint32_t batch;       /* events that a process runs ahead at its turn */
    uint32_t log_every;   /* events between two logs; 0 for a period that follows costs and rollbacks */
    uint64_t window;      /* how far ahead of the bound events are run; 0 for a window that follows the rollbacks */
    uint64_t bound_every; /* events that a worker runs between two bounds */
    uint64_t move_every;  /* bounds between two moves of a process; 0 for no moves */
    uint32_t quota;       /* segments of 64 KiB that a process's state may have */
    uint64_t memory;      /* MiB that the program may take; 0 for no limit */
    uint64_t spoil;       /* the message of a worker that is spoilt, to try the fault; 0 for none */
    const char *trace;    /* the file for what each process did when, or null */
    int sequential;
    int progress;
    int wants_usage;
} settings;

/* Room for what is said of bad words; what is longer is cut. */
enum { SETTINGS_WHY = 256 };

/* Reads the words of the command line. Where they are bad, `why` says what is wrong, and else it is empty. */
fault settings_read(settings *s, int count, char **words, char why[SETTINGS_WHY]);

/* Prints how the program is called, with all options, their defaults, and the ranges of their numbers. */
void settings_usage(const char *program);

#endif
