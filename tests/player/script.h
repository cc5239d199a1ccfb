/* A script's lines as calls with their arguments, as docs/REPLAY.md fixes them. */
#ifndef SCRIPT_H
#define SCRIPT_H

#include "batman.h"

enum script_limit {
    LINE_MOST = 65536,         /* characters */
    OCTETS_MOST = 2000,        /* of a packet, or of HNA entries */
    BURST_OCTETS_MOST = 16384, /* of all packets of a burst */
    MEMBERS_MOST = 40,         /* of each list of a burst */
    OUTPUT_MOST = 16384,       /* octets */
    LINKS_MOST = 16,           /* rows of the list call */
    ANSWERS_MOST = 40,         /* rows of a burst */
    BUFFER_CELLS = 66560       /* of which a script lends the first ones */
};

enum line_kind { NOTHING, UNREADABLE, SIZE, CELLS, MAKE, RECEIVE, BURST, OWN, SWEEP, BEST, LIST, LOOKUP, CHECK, POKE, DUMP };

/* The lists of a burst: the numbers of their members may differ. */
struct burst_lists {
    uint64_t lengths[MEMBERS_MOST], interfaces[MEMBERS_MOST];
    uint32_t senders[MEMBERS_MOST];
    size_t lengths_count, senders_count, interfaces_count;
};

/* One line; each kind has the arguments that its reader in script.c reads. */
struct line {
    enum line_kind kind;
    struct batman_settings settings;
    struct batman_interfaces interfaces;
    uint64_t capacity, interface, time, version, value;
    uint32_t address; /* the sender, the originator asked for, or what is looked up */
    uint8_t ttl, gateway;
    uint16_t port;
    size_t cells, index;
    size_t room, rows; /* the output's octets; rows for links, or for answers */
    uint8_t octets[BURST_OCTETS_MOST];
    size_t length; /* of the octets */
    struct burst_lists lists;
};

/* Reads a line given without its end: `length` characters, more than LINE_MOST where it is too long. */
void read_line(const char *text, size_t length, struct line *line);

#endif
