/* A yard of label readers on a grid, each with its own table, that find routes to each other over lossy radio. */
#ifndef YARD_H
#define YARD_H

#include <stdbool.h>
#include <stdint.h>

#include "radio.h"
#include "reader.h"

enum {
    YARD_INTERVAL = 1000, /* ms from round to round: the draft's originator interval */
    YARD_DELAY = 100,     /* a packet that is passed on waits a random time up to this, in ms: the draft's longest broadcast delay */
    YARD_ALL = 100,       /* shares of the readers are in hundredths */
    YARD_WORDS = 128      /* characters of a description */
};

struct yard_settings {
    uint64_t columns, rows, neighbours, loss, seed; /* neighbours: RADIO_BESIDE or RADIO_AROUND */
    uint64_t window, tie;                           /* of every reader's table */
    uint64_t filter;                                /* how many of 100 readers have the relay filter */
    uint64_t poll;                                  /* ms between two readings of a radio; 0: each packet is taken as it comes */
};

/* Where the hops from a reader lead when each reader on the way follows its own route. */
enum yard_end {
    YARD_NO_ROUTE, /* it has none itself */
    YARD_ARRIVES,
    YARD_RING, /* readers that name each other in a ring */
    YARD_GAP   /* a reader without a route, or one that is dead */
};

struct yard_hop {
    enum yard_end end;
    bool in_ring;           /* on a ring itself; else its hops may still lead into one */
    bool changed;           /* another next reader than yard_look found before */
    unsigned to, hops;      /* the next reader; all hops where they arrive */
    unsigned count, window; /* of the link to it */
};

/* What happened on the air in a round. */
struct yard_traffic {
    unsigned long own, passed_on, heard, lost;
};

/* Of the routes between readers that live: those known, those that arrive, those that lead into a ring, those that arrive by as few hops as the radio
 * allows, those whose next hop has changed, and the hops of all that arrive. */
struct yard_coverage {
    unsigned long possible, known, arrive, rings, shortest, changed, hops;
};

struct yard {
    struct yard_settings settings;
    struct radio_grid grid;
    unsigned readers;
    struct reader *reader;
    bool *dead;
    struct yard_hop *hop; /* of every reader to every other, as yard_look found them */
    struct radio radio;
    uint64_t now, rounds;  /* rounds that were played */
    unsigned long removed; /* originators that sweeps have removed */
};

/* Ends the program where there is no memory. */
void yard_open(struct yard *y, struct yard_settings settings);
void yard_close(struct yard *y);

uint32_t yard_address(const struct yard *y, unsigned reader);

/* The network behind a reader, with its label printers: every reader announces its own. */
uint32_t yard_network(const struct yard *y, unsigned reader);

/* The reader in the middle: the gate, which is wired to the network outside and announces that too. */
unsigned yard_gate(const struct yard *y);
uint32_t yard_outside(void);

/* The settings of the readers in words, for headings. */
void yard_describe(const struct yard *y, char words[YARD_WORDS]);

/* Every reader that lives sends its own message at some time of the round, and what is due is heard or lost, and passed on. */
struct yard_traffic yard_round(struct yard *y);

/* A reader falls silent and deaf for good. */
void yard_kill(struct yard *y, unsigned reader);

/* Asks every reader for its route to every other, and follows them. */
void yard_look(struct yard *y);
struct yard_hop yard_hop(const struct yard *y, unsigned from, unsigned to);

/* Of the routes that yard_look found: those of one reader, or of all. */
struct yard_coverage yard_cover_from(const struct yard *y, unsigned from);
struct yard_coverage yard_cover(const struct yard *y);
void yard_add(struct yard_coverage *sum, struct yard_coverage more);

/* Says what went wrong, and ends the program. */
_Noreturn void yard_fail(const char *why);

#endif
