/* The relay filter: of a message that this node itself has passed on, it drops what comes back later by a longer way.
 *
 * Such a copy is our own relay repeated by a neighbour, or a way around. batman_receive judges each link by itself and counts it, so that the neighbour
 * who merely repeats us seems to know a way of its own, and routes run in rings (docs/ROUTES.md). One rule mends that: a received message is dropped if
 * we passed on this originator's number with a TTL above that of the packet.
 *
 * A daemon copies relay_filter.h and relay_filter.c, and every node of the mesh has it. The memory is fixed, nothing is allocated, and any octets and numbers may be given. It is plain C
 * with tests (tests/relay_filter.c); the library and what is proved of it know nothing of it. Used by one thread at a time, one for each table. */
#ifndef RELAY_FILTER_H
#define RELAY_FILTER_H

#include <stdbool.h>
#include <stddef.h>
#include <stdint.h>

#include "batman.h"

enum {
    RELAY_FILTER_ORIGINATORS = BATMAN_CAPACITY_MOST, /* originators remembered, as many as the largest table holds */
    RELAY_FILTER_NUMBERS = 64                        /* sequence numbers remembered of each, as many as the largest window has */
};

/* What was passed on of one originator. */
struct relay_filter_row {
    uint64_t time;                     /* when it last was */
    uint16_t latest;                   /* the latest number: it and those below it, a window of them, are remembered */
    uint8_t ttl[RELAY_FILTER_NUMBERS]; /* of number n, at n % RELAY_FILTER_NUMBERS: the highest TTL that it left with; 0: it was not passed on */
};

struct relay_filter {
    uint64_t purge;
    unsigned window, used;                         /* the first `used` rows are in use */
    uint32_t originator[RELAY_FILTER_ORIGINATORS]; /* side by side, as every packet's is looked for */
    struct relay_filter_row row[RELAY_FILTER_ORIGINATORS];
};

/* Makes the filter empty. Give it the window size and the purge timeout of the table, so that it remembers no more than the table does; a window of 0
 * is taken as 1, one above RELAY_FILTER_NUMBERS as that. */
void relay_filter_clear(struct relay_filter *f, uint64_t window, uint64_t purge);

/* Before batman_receive, with the same packet and time: whether to drop the packet, without calling batman_receive. Of a burst, before the packet goes into it. */
bool relay_filter_drops(const struct relay_filter *f, const uint8_t *packet, size_t length, uint64_t time);

/* After batman_receive said 26, with the copy in its output and the same time; after a burst, of each packet that got 26, with its own copy. A copy
 * with U set is not remembered: it came over a link of one direction, by which no route can lead, so a longer way to its originator may be the only one.
 * Where it came in, those who hear it drop it. */
void relay_filter_passed_on(struct relay_filter *f, const uint8_t *copy, size_t length, uint64_t time);

/* After batman_receive said 26: whether the copies for the other interfaces are sent too. Not those of a copy with U set: U is 0 in them, so that nodes
 * there would take us for a way to the originator, repeat it, and be taken for one by us. */
bool relay_filter_goes_elsewhere(const uint8_t *copy, size_t length);

#endif
