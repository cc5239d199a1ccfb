#include "options.h"

#include <errno.h>
#include <inttypes.h>
#include <stdio.h>
#include <stdlib.h>
#include <string.h>

#include "batman.h"

enum {
    SIDE_MOST = 16, /* 256 readers: each table holds at most 256 originators */
    WINDOW_MOST = 64
};

struct option {
    const char *name, *value, *meaning;
    uint64_t least, most, step; /* a number is one of least, least + step, .. */
    uint64_t *number;           /* for an option that is a number, */
    const char **text;          /* or for one that is a text */
};

enum { OPTIONS = 14 };

static void list_options(struct options *o, struct option list[OPTIONS])
{
    struct yard_settings *y = &o->yard;
    const struct option all[OPTIONS] = {
        {"--columns", "N", "readers in a row, 1 to 16", 1, SIDE_MOST, 1, &y->columns, NULL},
        {"--rows", "N", "rows of readers, 1 to 16", 1, SIDE_MOST, 1, &y->rows, NULL},
        {"--neighbours", "N", "8: readers hear those around them, 4: not across corners", RADIO_BESIDE, RADIO_AROUND, RADIO_AROUND - RADIO_BESIDE, &y->neighbours, NULL},
        {"--loss", "N", "packets of 100 lost between readers side by side, 0 to 90", 0, 90, 1, &y->loss, NULL},
        {"--rounds", "N", "rounds, in which each reader sends once, 1 to 100000", 1, 100000, 1, &o->rounds, NULL},
        {"--seed", "N", "any number; the same one gives the same run", 0, UINT64_MAX, 1, &y->seed, NULL},
        {"--window", "N", "sequence numbers in the window, 1 to 64", 1, WINDOW_MOST, 1, &y->window, NULL},
        {"--tie", "N", "0 newest wins, 1 present link stays", BATMAN_NEWEST_WINS, BATMAN_PRESENT_STAYS, 1, &y->tie, NULL},
        {"--filter", "N", "readers of 100 that have the relay filter, 0 to 100", 0, YARD_ALL, 1, &y->filter, NULL},
        {"--poll", "N", "ms between two readings of a radio, 0 to 1000; 0: each packet is taken as it comes", 0, YARD_INTERVAL, 1, &y->poll, NULL},
        {"--svg", "FILE", "draw the next hops towards the gate, the reader in the middle", 0, 0, 1, NULL, &o->svg},
        {"--routes", "FOLDER", "instead of one run: every setting, loss and seed, with tables and plots in FOLDER", 0, 0, 1, NULL, &o->routes},
        {"--seeds", "N", "of --routes: seeds 1 to N, 1 to 1000", 1, 1000, 1, &o->seeds, NULL},
        {"--advised", "N", "of --routes: 1 for the advised settings alone", 0, 1, 1, &o->advised, NULL},
    };
    memcpy(list, all, sizeof all);
}

static void help(const struct option list[OPTIONS])
{
    printf("Readers on a grid find routes to each other over lossy radio.\n\nusage: yard [options]\n\n");
    for (int i = 0; i < OPTIONS; i++) {
        printf("  %-13s %-7s %s", list[i].name, list[i].value, list[i].meaning);
        if (list[i].number != NULL)
            printf(" (%" PRIu64 ")", *list[i].number);
        printf("\n");
    }
    printf("  %-13s %-7s this text\n", "--help", "");
}

static _Noreturn void bad_use(const char *name, const char *what)
{
    fprintf(stderr, "yard: %s: %s; --help lists the options\n", name, what);
    exit(2);
}

/* The value is decimal digits alone, so signs and blanks are turned away before strtoull takes them. */
static void set_number(const struct option *o, const char *value)
{
    char what[96];
    const char *range = o->least + o->step == o->most ? "or" : "to";
    snprintf(what, sizeof what, "wants a number, %" PRIu64 " %s %" PRIu64 ", not '%.20s'", o->least, range, o->most, value);
    if (value[0] == '\0' || value[strspn(value, "0123456789")] != '\0')
        bad_use(o->name, what);
    errno = 0;
    unsigned long long n = strtoull(value, NULL, 10);
    if (errno != 0 || n < o->least || n > o->most || (n - o->least) % o->step != 0)
        bad_use(o->name, what);
    *o->number = n;
}

static void set(const struct option *o, const char *value)
{
    if (o->number != NULL)
        set_number(o, value);
    else if (value[0] == '\0')
        bad_use(o->name, "wants a name");
    else
        *o->text = value;
}

static const struct option *named(const struct option list[OPTIONS], const char *argument)
{
    for (int i = 0; i < OPTIONS; i++)
        if (strcmp(argument, list[i].name) == 0)
            return &list[i];
    return NULL;
}

struct options read_options(int count, char **argument)
{
    struct batman_settings usual = BATMAN_SETTINGS_DEFAULT;
    struct options o = {.yard = {.columns = 6, .rows = 4, .neighbours = RADIO_AROUND, .loss = 20, .seed = 1, .window = usual.window, .tie = usual.tie, .filter = YARD_ALL},
                        .rounds = 150,
                        .seeds = 8};
    struct option list[OPTIONS];
    list_options(&o, list);
    for (int i = 1; i < count; i += 2) {
        if (strcmp(argument[i], "--help") == 0) {
            help(list);
            exit(EXIT_SUCCESS);
        }
        const struct option *option = named(list, argument[i]);
        if (option == NULL)
            bad_use(argument[i], "no such option");
        else if (i + 1 == count)
            bad_use(argument[i], "its value is missing");
        else
            set(option, argument[i + 1]);
    }
    return o;
}
