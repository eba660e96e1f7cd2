/* The same model run by one ordered queue: what every other run must end with. */
#ifndef SEQUENTIAL_H
#define SEQUENTIAL_H

#include "kernel.h"

/* Runs the model to its end. *out has how many events were run, for how long, and the checksum. */
fault run_sequentially(const settings *s, outcome *out);

#endif
