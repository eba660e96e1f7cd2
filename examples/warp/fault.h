/* What ends a run before its time. Each fault is the exit status of the program, of every thread and of every rank. */
#ifndef FAULT_H
#define FAULT_H

typedef enum fault {
    FAULT_NONE = 0,
    FAULT_OPTION = 2,  /* a word of the command line is none */
    FAULT_MEMORY = 3,  /* memory was wanting */
    FAULT_QUOTA = 4,   /* the state of a process needs more than its quota */
    FAULT_LOG = 5,     /* a log wasn't taken or not found, or a call of the library was refused */
    FAULT_MESSAGE = 6, /* bytes came that are no message, or a message came that can't be for this worker at this bound */
    FAULT_MODEL = 7,   /* the model got an event that is none of its own, or sent one to no process or to no later time */
    FAULT_MOVE = 8,    /* a process that came from another rank is none */
    FAULT_FILE = 9,    /* the trace or the answer can't be written */
    FAULT_ENDED = 10   /* the run was ended from outside: another rank was lost, or a signal came */
} fault;

/* What a fault is called. */
const char *fault_text(fault f);

/* Ends the run on all workers, with the fault's name on standard error and its number as the status. The transport has it. */
_Noreturn void fault_end(fault f);

#endif
