#include "plot.h"

#include <stdio.h>

#include "svg.h"

enum { LEFT = 70, RIGHT = 610, TOP = 92, BOTTOM = 420, WIDTH = 900, HEIGHT = 484, LEGEND = 636, STEP = 26 };

static double at_x(const struct plot *p, double x) { return LEFT + (RIGHT - LEFT) * x / p->across.most; }
static double at_y(const struct plot *p, double y) { return BOTTOM - (BOTTOM - TOP) * y / p->up.most; }

static void words(FILE *f, double x, double y, int size, enum svg_anchor anchor, const char *text)
{
    svg_words(f, (struct svg_words){.x = x, .y = y, .size = size, .colour = SVG_INK, .anchor = anchor}, text);
}

static void axes(FILE *f, const struct plot *p)
{
    char number[32];
    for (unsigned i = 0; i < p->up.ticks; i++) {
        double y = at_y(p, p->up.tick[i]);
        svg_line(f, LEFT, y, RIGHT, y, "#dcdcd6", 1, false);
        snprintf(number, sizeof number, "%g", p->up.tick[i]);
        words(f, LEFT - 8, y + 4, 12, SVG_END, number);
    }
    for (unsigned i = 0; i < p->across.ticks; i++) {
        double x = at_x(p, p->across.tick[i]);
        svg_line(f, x, BOTTOM, x, BOTTOM + 5, SVG_INK, 1, false);
        snprintf(number, sizeof number, "%g", p->across.tick[i]);
        words(f, x, BOTTOM + 20, 12, SVG_MIDDLE, number);
    }
    svg_line(f, LEFT, BOTTOM, RIGHT, BOTTOM, SVG_INK, 1, false);
    svg_line(f, LEFT, TOP, LEFT, BOTTOM, SVG_INK, 1, false);
    words(f, (LEFT + RIGHT) / 2.0, BOTTOM + 44, 13, SVG_MIDDLE, p->across.name);
    words(f, LEFT - 46, TOP - 14, 13, SVG_START, p->up.name);
}

static void bar(FILE *f, const struct plot *p, const struct plot_line *l, const struct plot_point *at)
{
    const double half = 4;
    double x = at_x(p, at->x), low = at_y(p, at->least), high = at_y(p, at->most);
    svg_line(f, x, low, x, high, l->colour, 1.25, false);
    svg_line(f, x - half, low, x + half, low, l->colour, 1.25, false);
    svg_line(f, x - half, high, x + half, high, l->colour, 1.25, false);
    svg_circle(f, x, at_y(p, at->mean), 2.5, l->colour, l->colour);
}

static void line(FILE *f, const struct plot *p, const struct plot_line *l)
{
    fprintf(f, "<polyline fill=\"none\" stroke=\"%s\" stroke-width=\"2.5\"%s points=\"", l->colour, l->dashed ? " stroke-dasharray=\"7 5\"" : "");
    for (unsigned i = 0; i < l->points; i++)
        fprintf(f, "%s%.1f,%.1f", i > 0 ? " " : "", at_x(p, l->point[i].x), at_y(p, l->point[i].mean));
    fprintf(f, "\"/>\n");
    for (unsigned i = 0; i < l->points && p->bars; i++)
        bar(f, p, l, &l->point[i]);
}

static void legend(FILE *f, const struct plot *p)
{
    for (unsigned i = 0; i < p->lines; i++) {
        double y = TOP + 8 + STEP * i;
        svg_line(f, LEGEND, y, LEGEND + 34, y, p->line[i].colour, 2.5, p->line[i].dashed);
        words(f, LEGEND + 42, y + 4, 12, SVG_START, p->line[i].name);
    }
}

bool plot_draw(const char *file, const struct plot *p)
{
    FILE *f = svg_begin(file, WIDTH, HEIGHT, p->title);
    if (f == NULL)
        return false;
    svg_words(f, (struct svg_words){.x = LEFT - 46, .y = 34, .size = 19, .colour = SVG_INK, .bold = true}, p->title);
    svg_words(f, (struct svg_words){.x = LEFT - 46, .y = 55, .size = 13, .colour = SVG_PALE}, p->subtitle);
    axes(f, p);
    for (unsigned i = 0; i < p->lines; i++)
        line(f, p, &p->line[i]);
    legend(f, p);
    return svg_end(f);
}
