#include "picture.h"

#include <inttypes.h>
#include <stdio.h>

#include "svg.h"

enum { STEP = 112, LEFT = 72, TOP = 132, RADIUS = 27, LEGEND = 236, LEAST_HEIGHT = 446, CLASSES = 4 };

struct look {
    const char *colour, *meaning;
    double width;
};

/* A link's look by the share of the window that it has counted, from the weakest quarter to the strongest. */
static const struct look looks[CLASSES] = {
    {"#a9bcc4", "below a quarter", 1.5},
    {"#7fa3b0", "a quarter to a half", 2.75},
    {"#4b8797", "a half to three quarters", 4.0},
    {"#14687c", "three quarters or more", 5.25},
};

static const struct look ring_look = {"#c0261c", "a ring", 5.25};

static const struct look *look_of(const struct yard_hop *h)
{
    if (h->in_ring)
        return &ring_look;
    unsigned class = h->window > 0 ? h->count * CLASSES / h->window : 0;
    return &looks[class < CLASSES ? class : CLASSES - 1];
}

/* A reader's look: by where its hops lead. */
struct paint {
    const char *fill, *stroke, *words, *meaning;
};

static const struct paint gate_paint = {SVG_INK, SVG_INK, "#ffffff", "the gate"};
static const struct paint arriving = {"#ffffff", SVG_INK, SVG_INK, "its hops lead to the gate"};
static const struct paint on_ring = {"#c0261c", "#8c1a12", "#ffffff", "on a ring"};
static const struct paint into_ring = {"#f6cfc9", "#c0261c", SVG_INK, "its hops lead into a ring"};
static const struct paint into_gap = {"#fdf0c8", "#b98a10", SVG_INK, "its hops end on the way"};
static const struct paint no_route = {"#e4e4e4", "#9a9a9a", SVG_INK, "no route to the gate"};

static const struct paint *paint_of(const struct yard_hop *h)
{
    switch (h->end) {
    case YARD_ARRIVES: return &arriving;
    case YARD_RING: return h->in_ring ? &on_ring : &into_ring;
    case YARD_GAP: return &into_gap;
    case YARD_NO_ROUTE: break;
    }
    return &no_route;
}

static int centre_x(const struct yard *y, unsigned reader) { return LEFT + (int)(reader % y->grid.columns) * STEP; }
static int centre_y(const struct yard *y, unsigned reader) { return TOP + (int)(reader / y->grid.columns) * STEP; }

/* An arrow between two points, by its direction of length 1: a line, and a head whose tip is at the end. */
static void arrow(FILE *f, const struct look *look, double x, double y, double to_x, double to_y, double dx, double dy)
{
    const double head = 13, half = 4.5 + look->width * 0.6;
    double base_x = to_x - head * dx, base_y = to_y - head * dy;
    svg_line(f, x, y, base_x, base_y, look->colour, look->width, false);
    fprintf(f, "<polygon points=\"%.1f,%.1f %.1f,%.1f %.1f,%.1f\" fill=\"%s\"/>\n", to_x, to_y, base_x - half * dy, base_y + half * dx,
            base_x + half * dy, base_y - half * dx, look->colour);
}

static int sign(int n) { return (n > 0) - (n < 0); }

/* A next hop is one of the eight readers around, so the direction needs no root but that of a half. The two arrows of readers that name each other go
 * side by side, so that both are seen. */
static void hop_arrow(FILE *f, const struct yard *y, unsigned reader)
{
    unsigned gate = yard_gate(y);
    struct yard_hop h = yard_hop(y, reader, gate), back = yard_hop(y, h.to, gate);
    int x = centre_x(y, reader), v = centre_y(y, reader), to_x = centre_x(y, h.to), to_y = centre_y(y, h.to);
    double one = to_x != x && to_y != v ? 0.70711 : 1, dx = sign(to_x - x) * one, dy = sign(to_y - v) * one;
    double aside = h.to != gate && back.end != YARD_NO_ROUTE && back.to == reader ? 9 : 0;
    const double gap = RADIUS + 3;
    double side_x = -dy * aside, side_y = dx * aside;
    arrow(f, look_of(&h), x + RADIUS * dx + side_x, v + RADIUS * dy + side_y, to_x - gap * dx + side_x, to_y - gap * dy + side_y, dx, dy);
}

static void node(FILE *f, const struct yard *y, unsigned reader)
{
    unsigned gate = yard_gate(y);
    struct yard_hop h = yard_hop(y, reader, gate);
    const struct paint *p = reader == gate ? &gate_paint : paint_of(&h);
    int x = centre_x(y, reader), v = centre_y(y, reader);
    char name[16], share[32] = "no route";
    snprintf(name, sizeof name, "%u", reader);
    if (reader == gate)
        snprintf(share, sizeof share, "gate");
    else if (h.end != YARD_NO_ROUTE)
        snprintf(share, sizeof share, "%u of %u", h.count, h.window);
    svg_circle(f, x, v, RADIUS, p->fill, p->stroke);
    svg_words(f, (struct svg_words){.x = x, .y = v + 2, .size = 15, .colour = p->words, .anchor = SVG_MIDDLE}, name);
    svg_words(f, (struct svg_words){.x = x, .y = v + 15, .size = 10, .colour = p->words, .anchor = SVG_MIDDLE}, share);
}

static void legend_words(FILE *f, int x, int y, bool bold, const char *text)
{
    svg_words(f, (struct svg_words){.x = x, .y = y, .size = bold ? 13 : 12, .colour = SVG_INK, .bold = bold}, text);
}

static void legend(FILE *f, int x, int y)
{
    const struct look *arrows[] = {&looks[3], &looks[2], &looks[1], &looks[0], &ring_look};
    const struct paint *circles[] = {&gate_paint, &arriving, &on_ring, &into_ring, &into_gap, &no_route};
    legend_words(f, x, y, true, "Numbers counted on the link,");
    legend_words(f, x, y + 17, true, "as a share of the window");
    for (unsigned i = 0; i < sizeof arrows / sizeof *arrows; i++) {
        int line = y + 44 + 26 * (int)i;
        arrow(f, arrows[i], x, line, x + 36, line, 1, 0);
        legend_words(f, x + 46, line + 4, false, arrows[i]->meaning);
    }
    for (unsigned i = 0; i < sizeof circles / sizeof *circles; i++) {
        int line = y + 184 + 27 * (int)i;
        svg_circle(f, x + 18, line, 10, circles[i]->fill, circles[i]->stroke);
        legend_words(f, x + 36, line + 4, false, circles[i]->meaning);
    }
}

static void heading(FILE *f, const struct yard *y)
{
    char title[64], readers[YARD_WORDS], subtitle[YARD_WORDS + 96];
    yard_describe(y, readers);
    snprintf(title, sizeof title, "Next hops towards the gate, reader %u", yard_gate(y));
    snprintf(subtitle, sizeof subtitle, "%u readers, loss %" PRIu64 " of 100, seed %" PRIu64 ", after %" PRIu64 " rounds; %s", y->readers, y->settings.loss,
             y->settings.seed, y->rounds, readers);
    svg_words(f, (struct svg_words){.x = LEFT - RADIUS, .y = 42, .size = 21, .colour = SVG_INK, .bold = true}, title);
    svg_words(f, (struct svg_words){.x = LEFT - RADIUS, .y = 66, .size = 13, .colour = SVG_PALE}, subtitle);
}

bool picture_draw(const char *file, const struct yard *y)
{
    int side = LEFT + ((int)y->grid.columns - 1) * STEP + 60, width = side + LEGEND;
    int height = TOP + ((int)y->grid.rows - 1) * STEP + 64;
    FILE *f = svg_begin(file, width, height < LEAST_HEIGHT ? LEAST_HEIGHT : height, "Next hops in a yard of readers");
    if (f == NULL)
        return false;
    heading(f, y);
    for (unsigned i = 0; i < y->readers; i++)
        if (i != yard_gate(y) && yard_hop(y, i, yard_gate(y)).end != YARD_NO_ROUTE)
            hop_arrow(f, y, i);
    for (unsigned i = 0; i < y->readers; i++)
        node(f, y, i);
    legend(f, side, TOP - RADIUS + 12);
    return svg_end(f);
}
