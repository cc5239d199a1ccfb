#define _POSIX_C_SOURCE 200809L

#include "run.h"

#include <errno.h>
#include <inttypes.h>
#include <stdio.h>
#include <stdlib.h>
#include <string.h>
#include <unistd.h>

#include "picture.h"

enum {
    LINES = 24,         /* rounds that are printed of a long run */
    NETWORK_WORDS = 24, /* characters of a network with its mask */
    HOST = 7            /* of each network, the one that is looked up */
};

struct dotted {
    char text[16];
};

static struct dotted dotted(uint32_t a)
{
    struct dotted d;
    snprintf(d.text, sizeof d.text, "%u.%u.%u.%u", (unsigned)(a >> 24), (unsigned)(a >> 16 & 255), (unsigned)(a >> 8 & 255), (unsigned)(a & 255));
    return d;
}

static void print_head(const struct yard *y)
{
    const struct yard_settings *s = &y->settings;
    char readers[YARD_WORDS];
    yard_describe(y, readers);
    printf("%" PRIu64 " x %" PRIu64 " readers, each with up to %" PRIu64 " neighbours, loss %" PRIu64 " of 100, seed %" PRIu64 "\n", s->columns, s->rows,
           s->neighbours, s->loss, s->seed);
    printf("%s; %u routes are possible\n\n", readers, y->readers * (y->readers - 1));
    printf("%6s %8s %10s %9s %9s %9s %9s %9s %10s\n", "round", "own", "passed on", "heard", "lost", "routes", "arrive", "in rings", "mean hops");
}

static void print_round(uint64_t round, struct yard_traffic t, struct yard_coverage c)
{
    printf("%6" PRIu64 " %8lu %10lu %9lu %9lu %9lu %9lu %9lu ", round, t.own, t.passed_on, t.heard, t.lost, c.known, c.arrive, c.rings);
    if (c.arrive > 0)
        printf("%10.2f\n", (double)c.hops / (double)c.arrive);
    else
        printf("%10s\n", "-");
}

static void print_answers(const struct yard *y)
{
    unsigned long dropped = 0;
    for (unsigned i = 0; i < y->readers; i++)
        dropped += y->reader[i].dropped;
    printf("\nreceived packets by their answer; the relay filter dropped %lu before; sweeps removed %lu originators\n", dropped, y->removed);
    for (unsigned n = 1; n < READER_ANSWERS; n++) {
        unsigned long times = 0;
        for (unsigned i = 0; i < y->readers; i++)
            times += y->reader[i].answers[n];
        if (times > 0)
            printf("%6u %9lu  %s\n", n, times, reader_meaning(n));
    }
}

/* Where each packet is taken as it comes, this says nothing new: every burst has one. */
static void print_bursts(const struct yard *y)
{
    unsigned long bursts = 0, most = 0;
    if (y->settings.poll == 0)
        return;
    for (unsigned i = 0; i < y->readers; i++) {
        const struct reader *r = &y->reader[i];
        bursts += r->bursts;
        most = r->most_packets > most ? r->most_packets : most;
    }
    printf("handed over in %lu bursts of at most %lu packets\n", bursts, most);
}

static void print_routes(const struct yard *y, unsigned from)
{
    printf("\nroutes of reader %u, %s\n%-16s %-16s %9s  %s\n", from, dotted(yard_address(y, from)).text, "destination", "next hop", "interface", "counted");
    for (unsigned to = 0; to < y->readers; to++) {
        struct batman_route r = reader_route(&y->reader[from], yard_address(y, to));
        if (to == from)
            continue;
        printf("%-16s ", dotted(yard_address(y, to)).text);
        if (r.window > 0)
            printf("%-16s %9" PRIu32 "  %" PRIu32 " of %" PRIu32 "\n", dotted(r.neighbour).text, r.interface, r.count, r.window);
        else
            printf("no route\n");
    }
}

/* Who serves the network that an address is in, and by which neighbour that reader is reached. */
static void print_server(const struct reader *r, uint32_t address)
{
    struct batman_located l = reader_server(r, address);
    char network[NETWORK_WORDS];
    if (!l.found) {
        printf("%-16s nobody\n", dotted(address).text);
        return;
    }
    snprintf(network, sizeof network, "%s/%" PRIu32, dotted(l.network).text, l.mask);
    printf("%-16s %-16s ", network, dotted(l.originator).text);
    printf("%s\n", dotted(reader_route(r, l.originator).neighbour).text);
}

/* A host of each network is looked up: those behind the other readers, and the one outside. */
static void print_networks(const struct yard *y, unsigned from)
{
    const struct reader *r = &y->reader[from];
    printf("\nnetworks behind the other readers\n%-16s %-16s %s\n", "network", "served by", "next hop");
    for (unsigned to = 0; to < y->readers; to++)
        if (to != from)
            print_server(r, yard_network(y, to) + HOST);
    if (from != yard_gate(y))
        print_server(r, yard_outside() + HOST);
}

static void draw(const char *file, const struct yard *y)
{
    if (!picture_draw(file, y)) {
        fprintf(stderr, "yard: %s: %s\n", file, strerror(errno));
        exit(EXIT_FAILURE);
    }
    printf("\ndrawn: %s\n", file);
}

static void play(struct yard *y, uint64_t rounds)
{
    uint64_t every = rounds <= LINES ? 1 : (rounds + LINES - 1) / LINES;
    bool watched = every > 1 && isatty(STDERR_FILENO);
    for (uint64_t round = 1; round <= rounds; round++) {
        struct yard_traffic t = yard_round(y);
        if (watched)
            fprintf(stderr, "round %" PRIu64 " of %" PRIu64 "\r", round, rounds);
        if (round == 1 || round == rounds || round % every == 0) {
            yard_look(y);
            print_round(round, t, yard_cover(y));
        }
    }
    if (watched)
        fprintf(stderr, "%40s\r", "");
}

void run_yard(const struct options *o)
{
    struct yard y;
    yard_open(&y, o->yard);
    print_head(&y);
    play(&y, o->rounds);
    print_answers(&y);
    print_bursts(&y);
    print_routes(&y, y.readers - 1);
    print_networks(&y, y.readers - 1);
    if (o->svg != NULL)
        draw(o->svg, &y);
    yard_close(&y);
}
