/* Lossy radio on a grid: who hears whom, each direction with its own chance of loss, and the packets that wait for their time to go on the air. */
#ifndef RADIO_H
#define RADIO_H

#include <stdbool.h>
#include <stddef.h>
#include <stdint.h>

enum {
    RADIO_BESIDE = 4,  /* readers within reach: the four beside each other, */
    RADIO_AROUND = 8,  /* or the eight around, so that no originator has more than eight links */
    RADIO_OCTETS = 32, /* a message and up to four HNA entries: the longest packet of this yard */
    RADIO_WHOLE = 1000 /* chances are in thousandths */
};

struct radio_grid {
    unsigned columns, rows, neighbours; /* stations are numbered row by row; RADIO_BESIDE or RADIO_AROUND neighbours */
};

struct radio_link {
    unsigned to, loss;
};

struct radio_station {
    struct radio_link link[RADIO_AROUND];
    unsigned links;
};

struct transmission {
    uint64_t time, order; /* those of one time go in the order in which they were sent */
    unsigned sender;
    size_t length; /* 0: the sender's turn to write a packet of its own */
    uint8_t octets[RADIO_OCTETS];
};

struct radio {
    struct radio_station *station;
    struct transmission *queue; /* a heap: the earliest is the first, and none is earlier than the one at half its place */
    size_t waiting, room;
    uint64_t sent, random;
};

/* `loss` is the chance of loss between stations beside each other, in hundredths. False where there is no memory. */
bool radio_open(struct radio *r, struct radio_grid grid, unsigned loss, uint64_t seed);
void radio_close(struct radio *r);

/* The least number of hops between two stations. */
unsigned radio_distance(struct radio_grid grid, unsigned from, unsigned to);

/* Puts a packet on the air at `time`. False where there is no memory or the packet is too long. */
bool radio_send(struct radio *r, uint64_t time, unsigned sender, const uint8_t *octets, size_t length);

/* Takes the earliest packet that waits; false where none goes on the air before `end`. */
bool radio_next(struct radio *r, uint64_t end, struct transmission *t);

/* Whether a packet is lost on this link, this time. */
bool radio_loses(struct radio *r, const struct radio_link *link);

#endif
