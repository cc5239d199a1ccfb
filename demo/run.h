/* One run of one yard: what is printed as it goes on, and drawn at its end. */
#ifndef RUN_H
#define RUN_H

#include "options.h"

void run_yard(const struct options *o);

#endif
