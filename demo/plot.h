/* Lines over two axes, as a picture. */
#ifndef PLOT_H
#define PLOT_H

#include <stdbool.h>

enum { PLOT_POINTS = 128, PLOT_LINES = 16, PLOT_TICKS = 16 };

struct plot_point {
    double x, least, mean, most; /* a line goes through the means; a bar from the least to the most stands at each point where they differ */
};

struct plot_line {
    const char *name, *colour;
    bool dashed;
    unsigned points;
    struct plot_point point[PLOT_POINTS];
};

struct plot_axis {
    const char *name;
    double most; /* from 0 */
    unsigned ticks;
    double tick[PLOT_TICKS];
};

struct plot {
    const char *title, *subtitle;
    struct plot_axis across, up;
    bool bars;
    unsigned lines;
    struct plot_line line[PLOT_LINES];
};

/* False, with errno set, where the file can't be written. */
bool plot_draw(const char *file, const struct plot *p);

#endif
