/* The experiment of docs/ROUTES.md: how many routes arrive, in sparse and dense yards, by loss and setting, and after a reader has died. */
#ifndef ROUTES_H
#define ROUTES_H

#include "options.h"

/* Writes tables and plots into the folder o->routes, with progress on standard error. False where an advised setting fails what is promised of it. */
bool routes_measure(const struct options *o);

#endif
