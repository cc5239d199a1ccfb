/* A yard of label readers that find routes to each other over lossy radio: how a daemon uses the library, and how well its routes arrive.
 * reader.c is the daemon's part; yard.c has the rounds, run.c one run, routes.c the experiment of docs/ROUTES.md. */
#include <stdio.h>
#include <stdlib.h>

#include "options.h"
#include "routes.h"
#include "run.h"

int main(int count, char **argument)
{
    struct options o = read_options(count, argument);
    bool held = true;
    if (o.routes != NULL)
        held = routes_measure(&o);
    else
        run_yard(&o);
    if (fflush(stdout) != 0)
        yard_fail("the output can't be written");
    return held ? EXIT_SUCCESS : EXIT_FAILURE;
}
