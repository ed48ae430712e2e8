/* The epoch of a run, which is greater than that of each run before. */
#ifndef PASHKURE_EPOCH_H
#define PASHKURE_EPOCH_H

#include "options.h"

/* Takes the epoch that was given, or one above the clock's milliseconds and the epoch of the file, and writes it there. Says why it cannot,
   and returns false. */
bool epoch_take(const struct options *options, uint64_t *epoch);

#endif
