/* What the yard is told on the command line. */
#ifndef OPTIONS_H
#define OPTIONS_H

#include "yard.h"

struct options {
    struct yard_settings yard;
    uint64_t rounds;
    const char *svg;    /* where to draw the yard; NULL for no picture */
    const char *routes; /* the folder for the experiment of docs/ROUTES.md; NULL for one run of one yard */
    uint64_t seeds;     /* of the experiment: seeds 1 to this */
    uint64_t advised;   /* of the experiment: 1 for the settings that docs/ROUTES.md advises alone */
};

/* Ends the program with a word on what was wrong, or with the help. */
struct options read_options(int count, char **argument);

#endif
