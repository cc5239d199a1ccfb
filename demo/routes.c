#define _POSIX_C_SOURCE 200809L

#include "routes.h"

#include <errno.h>
#include <inttypes.h>
#include <stdarg.h>
#include <stdio.h>
#include <stdlib.h>
#include <string.h>
#include <sys/stat.h>

#include "plot.h"

/* ---- what is compared */

enum { YARDS = 2, LINES = 9, LOSSES = 7, LONG = 64, SHORT = 8, PATH_MOST = 4096 }; /* LONG and SHORT are windows */

static const uint64_t neighbours_of[YARDS] = {RADIO_BESIDE, RADIO_AROUND};
static const uint64_t losses[LOSSES] = {0, 5, 10, 20, 30, 40, 60};

/* One line of a plot: a tie, how many of 100 readers have the filter, and a window size. */
static const struct line {
    const char *name, *colour;
    uint64_t tie, filter, window;
} lines[LINES] = {
    {"newest wins, no filter, W 64", "#c0261c", BATMAN_NEWEST_WINS, 0, LONG},
    {"newest wins, no filter, W 8", "#c0261c", BATMAN_NEWEST_WINS, 0, SHORT},
    {"newest wins, filter, W 64", "#e0a030", BATMAN_NEWEST_WINS, YARD_ALL, LONG},
    {"newest wins, filter, W 8", "#e0a030", BATMAN_NEWEST_WINS, YARD_ALL, SHORT},
    {"present stays, no filter, W 64", "#7d6bb0", BATMAN_PRESENT_STAYS, 0, LONG},
    {"present stays, no filter, W 8", "#7d6bb0", BATMAN_PRESENT_STAYS, 0, SHORT},
    {"present stays, half filter, W 64", "#6fae5d", BATMAN_PRESENT_STAYS, YARD_ALL / 2, LONG},
    {"present stays, filter, W 64", "#14687c", BATMAN_PRESENT_STAYS, YARD_ALL, LONG},
    {"present stays, filter, W 8", "#14687c", BATMAN_PRESENT_STAYS, YARD_ALL, SHORT},
};

static bool is_dashed(const struct line *l) { return l->window == SHORT; }
static bool is_advised(const struct line *l) { return l->tie == BATMAN_PRESENT_STAYS && l->filter == YARD_ALL; }
static bool is_wanted(const struct options *o, const struct line *l) { return o->advised == 0 || is_advised(l); }

/* What docs/ROUTES.md promises of the advised settings, in every run. */
enum { PROMISED_LOSS = 40 };
static const double promised_arrive = 99, promised_sends = 1.2;

/* ---- the measures of one run, and their spread over the seeds */

enum measure {
    KNOWN,    /* of 100 possible routes */
    ARRIVE,   /* of 100 known ones, over the measured rounds */
    WORST,    /* as ARRIVE, in the worst of these rounds */
    RINGS,    /* of 100 known ones */
    SHORTEST, /* of 100 that arrive */
    CHANGED,  /* of 100 known ones, next hops that are not those of the round before */
    SENDS,    /* of each message, by each reader */
    MEASURES
};

static const char *const measure_names[MEASURES] = {"known", "arrive", "worst round", "in rings", "shortest", "changed", "sends"};
static const int measure_digits[MEASURES] = {1, 1, 1, 1, 0, 1, 2};

struct spread {
    double least, mean, most;
};

/* Takes the value of the n-th run in, from 0. */
static void take(struct spread *s, uint64_t n, double value)
{
    if (n == 0)
        *s = (struct spread){value, value, value};
    s->least = value < s->least ? value : s->least;
    s->most = value > s->most ? value : s->most;
    s->mean += (value - s->mean) / (double)(n + 1);
}

static double share(unsigned long part, unsigned long whole) { return whole > 0 ? 100.0 * (double)part / (double)whole : 0; }

static struct yard_settings settings_of(const struct options *o, unsigned yard, const struct line *l, uint64_t loss, uint64_t seed)
{
    struct yard_settings s = o->yard;
    s.neighbours = neighbours_of[yard];
    s.loss = loss;
    s.seed = seed;
    s.window = l->window;
    s.tie = l->tie;
    s.filter = l->filter;
    return s;
}

/* The last third of the rounds is measured: routes have formed by then. */
static void measure_rounds(struct yard *y, uint64_t rounds, double value[MEASURES])
{
    struct yard_coverage sum = {0};
    unsigned long own = 0, sent = 0;
    uint64_t first = rounds - (rounds + 2) / 3;
    value[WORST] = 100;
    for (uint64_t round = 0; round < rounds; round++) {
        struct yard_traffic t = yard_round(y);
        if (round + 1 >= first) /* from the round before on, so that changes are seen */
            yard_look(y);
        if (round < first)
            continue;
        struct yard_coverage c = yard_cover(y);
        double arrive = share(c.arrive, c.known);
        value[WORST] = arrive < value[WORST] ? arrive : value[WORST];
        yard_add(&sum, c);
        own += t.own;
        sent += t.own + t.passed_on;
    }
    value[KNOWN] = share(sum.known, sum.possible);
    value[ARRIVE] = share(sum.arrive, sum.known);
    value[RINGS] = share(sum.rings, sum.known);
    value[SHORTEST] = share(sum.shortest, sum.arrive);
    value[CHANGED] = share(sum.changed, sum.known);
    value[SENDS] = (double)sent / (double)own / y->readers;
}

/* ---- a reader that dies */

enum { DYING_ROUNDS = 120 };
static const double routes_back = 99; /* so many of 100 known routes arrive again */

static double arrive_from_neighbours(const struct yard *y, unsigned reader)
{
    const struct radio_station *s = &y->radio.station[reader];
    struct yard_coverage sum = {0};
    for (unsigned i = 0; i < s->links; i++)
        yard_add(&sum, yard_cover_from(y, s->link[i].to));
    return share(sum.arrive, sum.known);
}

/* The first round in which enough routes arrive; one more than were played where there is none. */
static double first_back(const double arrive[DYING_ROUNDS])
{
    unsigned round = 0;
    while (round < DYING_ROUNDS && arrive[round] < routes_back)
        round++;
    return round + 1;
}

/* The reader in the middle dies: in each round after that, the share of its neighbours' known routes that arrive, and of all. */
static void measure_death(struct yard *y, double neighbours[DYING_ROUNDS], double all[DYING_ROUNDS])
{
    unsigned dying = yard_gate(y);
    yard_kill(y, dying);
    for (unsigned round = 0; round < DYING_ROUNDS; round++) {
        yard_round(y);
        yard_look(y);
        struct yard_coverage c = yard_cover(y);
        all[round] = share(c.arrive, c.known);
        neighbours[round] = arrive_from_neighbours(y, dying);
    }
}

/* ---- every run */

enum { DYING_LOSS = 3 }; /* of `losses`: the one whose recovery is drawn, round by round */

static struct results {
    struct spread measure[YARDS][LINES][LOSSES][MEASURES];
    struct spread neighbours_back[YARDS][LINES][LOSSES], all_back[YARDS][LINES][LOSSES];
    struct spread recovery[YARDS][LINES][DYING_ROUNDS];
} results;

/* The n-th run of a point, from 0. */
static void run_seed(const struct options *o, unsigned yard, unsigned line, unsigned loss, uint64_t n)
{
    struct yard y;
    double value[MEASURES], neighbours[DYING_ROUNDS], all[DYING_ROUNDS];
    yard_open(&y, settings_of(o, yard, &lines[line], losses[loss], n + 1));
    measure_rounds(&y, o->rounds, value);
    measure_death(&y, neighbours, all);
    yard_close(&y);
    for (unsigned m = 0; m < MEASURES; m++)
        take(&results.measure[yard][line][loss][m], n, value[m]);
    take(&results.neighbours_back[yard][line][loss], n, first_back(neighbours));
    take(&results.all_back[yard][line][loss], n, first_back(all));
    for (unsigned round = 0; loss == DYING_LOSS && round < DYING_ROUNDS; round++)
        take(&results.recovery[yard][line][round], n, neighbours[round]);
}

static void run_all(const struct options *o)
{
    for (unsigned yard = 0; yard < YARDS; yard++)
        for (unsigned line = 0; line < LINES; line++) {
            if (!is_wanted(o, &lines[line]))
                continue;
            fprintf(stderr, "yard: %" PRIu64 " neighbours, %s, losses of", neighbours_of[yard], lines[line].name);
            for (unsigned loss = 0; loss < LOSSES; loss++) {
                fprintf(stderr, " %" PRIu64, losses[loss]);
                for (uint64_t n = 0; n < o->seeds; n++)
                    run_seed(o, yard, line, loss, n);
            }
            fprintf(stderr, "\n");
        }
}

/* ---- files */

static _Noreturn void cannot_write(const char *path)
{
    fprintf(stderr, "yard: %s: %s\n", path, strerror(errno));
    exit(EXIT_FAILURE);
}

struct path {
    char text[PATH_MOST];
};

static struct path path_in(const struct options *o, const char *format, ...)
{
    struct path p;
    size_t used = (size_t)snprintf(p.text, sizeof p.text, "%s/", o->routes);
    if (used >= sizeof p.text)
        yard_fail("--routes: the folder's name is too long");
    va_list arguments;
    va_start(arguments, format);
    vsnprintf(p.text + used, sizeof p.text - used, format, arguments);
    va_end(arguments);
    return p;
}

/* ---- the table */

static void print_spread(FILE *f, struct spread s, int digits)
{
    char least[32], most[32];
    snprintf(least, sizeof least, "%.*f", digits, s.least);
    snprintf(most, sizeof most, "%.*f", digits, s.most);
    fprintf(f, strcmp(least, most) == 0 ? " %s |" : " %s to %s |", least, most);
}

static void print_rounds(FILE *f, struct spread s)
{
    if (s.least > DYING_ROUNDS)
        fprintf(f, " over %d |", DYING_ROUNDS);
    else if (s.most > DYING_ROUNDS)
        fprintf(f, " %.0f to over %d |", s.least, DYING_ROUNDS);
    else
        print_spread(f, s, 0);
}

static void print_measures(FILE *f, const struct options *o, unsigned yard)
{
    fprintf(f, "\n## Up to %" PRIu64 " neighbours\n\n| setting | loss |", neighbours_of[yard]);
    for (unsigned m = 0; m < MEASURES; m++)
        fprintf(f, " %s |", measure_names[m]);
    fprintf(f, " neighbours again | all again |\n|---|---:|");
    for (unsigned m = 0; m < MEASURES + 2; m++)
        fprintf(f, "---|");
    fprintf(f, "\n");
    for (unsigned line = 0; line < LINES; line++)
        for (unsigned loss = 0; loss < LOSSES && is_wanted(o, &lines[line]); loss++) {
            fprintf(f, "| %s | %" PRIu64 " |", lines[line].name, losses[loss]);
            for (unsigned m = 0; m < MEASURES; m++)
                print_spread(f, results.measure[yard][line][loss][m], measure_digits[m]);
            print_rounds(f, results.neighbours_back[yard][line][loss]);
            print_rounds(f, results.all_back[yard][line][loss]);
            fprintf(f, "\n");
        }
}

static void write_table(const struct options *o)
{
    struct path p = path_in(o, "table.md");
    FILE *f = fopen(p.text, "w");
    if (f == NULL)
        cannot_write(p.text);
    fprintf(f,
            "# Routes, measured\n\n"
            "Written by `make routes`: %" PRIu64 " x %" PRIu64 " readers, %" PRIu64 " rounds of which the last third is measured, seeds 1 to %" PRIu64 ", each cell from the least to the most over the seeds.\n"
            "*Half filter*: every second reader has the filter.\n"
            "*Known*: of 100 possible routes. *Arrive*, *in rings*: of 100 known ones; *worst round*: arrive in the worst of the measured rounds. *Shortest*: of 100 that arrive, those with as few hops as the radio allows.\n"
            "*Changed*: of 100 known ones, those whose next hop is not that of the round before.\n"
            "*Sends*: how often each reader sends each message. *Neighbours again*, *all again*: a reader in the middle dies after these rounds, and so many rounds later %.0f of 100 known routes of its\n"
            "neighbours, and of all readers, arrive.\n",
            o->yard.columns, o->yard.rows, o->rounds, o->seeds, routes_back);
    if (o->yard.poll > 0)
        fprintf(f, "Radios are read every %" PRIu64 " ms.\n", o->yard.poll);
    for (unsigned yard = 0; yard < YARDS; yard++)
        print_measures(f, o, yard);
    if (ferror(f) || fclose(f) != 0)
        cannot_write(p.text);
}

/* ---- the plots */

_Static_assert((int)LINES <= (int)PLOT_LINES && (int)DYING_ROUNDS <= (int)PLOT_POINTS, "a plot has room for every line and point");

static struct plot_line *add_line(struct plot *p, const struct line *l)
{
    struct plot_line *drawn = &p->line[p->lines++];
    *drawn = (struct plot_line){.name = l->name, .colour = l->colour, .dashed = is_dashed(l)};
    return drawn;
}

static void add_point(struct plot_line *l, double x, struct spread s)
{
    l->point[l->points++] = (struct plot_point){.x = x, .least = s.least, .mean = s.mean, .most = s.most};
}

static void draw(struct path file, const struct plot *p)
{
    if (!plot_draw(file.text, p))
        cannot_write(file.text);
}

static void plot_measure(const struct options *o, unsigned yard, enum measure m, struct plot p, const char *name)
{
    for (unsigned line = 0; line < LINES; line++) {
        if (!is_wanted(o, &lines[line]))
            continue;
        struct plot_line *l = add_line(&p, &lines[line]);
        for (unsigned loss = 0; loss < LOSSES; loss++)
            add_point(l, (double)losses[loss], results.measure[yard][line][loss][m]);
    }
    draw(path_in(o, "%s-%" PRIu64 ".svg", name, neighbours_of[yard]), &p);
}

static const struct plot_axis loss_axis = {"packets lost of 100", 60, LOSSES, {0, 5, 10, 20, 30, 40, 60}};
static const struct plot_axis share_axis = {"of 100 known routes arrive", 100, 6, {0, 20, 40, 60, 80, 100}};
static const struct plot_axis rounds_axis = {"rounds after the death", DYING_ROUNDS, 7, {0, 20, 40, 60, 80, 100, 120}};
static const struct plot_axis again_axis = {"of 100 known routes of its neighbours arrive", 100, 6, {0, 20, 40, 60, 80, 100}};

/* Up to the next whole number, with at most eight ticks. */
static struct plot_axis sends_axis(unsigned yard)
{
    struct plot_axis a = {.name = "sends of a message by each reader", .most = 1};
    for (unsigned line = 0; line < LINES; line++)
        for (unsigned loss = 0; loss < LOSSES; loss++)
            while (a.most < results.measure[yard][line][loss][SENDS].most)
                a.most++;
    unsigned most = (unsigned)a.most, step = (most + 7) / 8;
    for (unsigned tick = 0; tick <= most; tick += step)
        a.tick[a.ticks++] = tick;
    return a;
}

static void plot_death(const struct options *o, unsigned yard, const char *subtitle)
{
    struct plot p = {.title = "A reader dies", .subtitle = subtitle, .across = rounds_axis, .up = again_axis};
    for (unsigned line = 0; line < LINES; line++) {
        if (!is_wanted(o, &lines[line]))
            continue;
        struct plot_line *l = add_line(&p, &lines[line]);
        for (unsigned round = 0; round < DYING_ROUNDS; round++)
            add_point(l, round + 1, results.recovery[yard][line][round]);
    }
    draw(path_in(o, "dying-%" PRIu64 ".svg", neighbours_of[yard]), &p);
}

static void plot_yard(const struct options *o, unsigned yard)
{
    char spread[160], death[160];
    snprintf(spread, sizeof spread, "%" PRIu64 " readers, each with up to %" PRIu64 " neighbours; mean of %" PRIu64 " seeds, bars from the least to the most",
             o->yard.columns * o->yard.rows, neighbours_of[yard], o->seeds);
    snprintf(death, sizeof death, "%" PRIu64 " readers, each with up to %" PRIu64 " neighbours, loss %" PRIu64 " of 100; mean of %" PRIu64 " seeds",
             o->yard.columns * o->yard.rows, neighbours_of[yard], losses[DYING_LOSS], o->seeds);
    struct plot arriving = {.title = "Routes that arrive", .subtitle = spread, .across = loss_axis, .up = share_axis, .bars = true};
    struct plot sends = {.title = "What a message costs", .subtitle = spread, .across = loss_axis, .up = sends_axis(yard), .bars = true};
    plot_measure(o, yard, ARRIVE, arriving, "arriving");
    plot_measure(o, yard, SENDS, sends, "sends");
    plot_death(o, yard, death);
}

/* ---- what is promised */

static bool is_kept(void)
{
    double arrive = 100, sends = 0;
    for (unsigned yard = 0; yard < YARDS; yard++)
        for (unsigned line = 0; line < LINES; line++)
            for (unsigned loss = 0; loss < LOSSES && is_advised(&lines[line]); loss++) {
                const struct spread *m = results.measure[yard][line][loss];
                if (losses[loss] <= PROMISED_LOSS && m[ARRIVE].least < arrive)
                    arrive = m[ARRIVE].least;
                sends = m[SENDS].most > sends ? m[SENDS].most : sends;
            }
    printf("present link stays, with the filter: in every run at losses up to %d at least %.1f of 100 known routes arrive (promised: %.0f),\n", PROMISED_LOSS,
           arrive, promised_arrive);
    printf("and in every run each reader sends a message at most %.2f times (promised: %.1f)\n", sends, promised_sends);
    return arrive >= promised_arrive && sends <= promised_sends;
}

bool routes_measure(const struct options *o)
{
    if (mkdir(o->routes, 0777) != 0 && errno != EEXIST)
        cannot_write(o->routes);
    run_all(o);
    write_table(o);
    for (unsigned yard = 0; yard < YARDS; yard++)
        plot_yard(o, yard);
    printf("written: %s/table.md and six plots\n", o->routes);
    return is_kept();
}
