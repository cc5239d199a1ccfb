/* One reader's part in the mesh: a table in cells of its own, the relay filter, one interface, an inbox for what it hears, and every answer of the library
 * handled. A daemon has sockets, more interfaces and the kernel's routes besides, and goes on where this ends the program: docs/INTEGRATION.md. */
#ifndef READER_H
#define READER_H

#include <stdbool.h>

#include "batman.h"
#include "relay_filter.h"

enum {
    READER_ANSWERS = 28,                                   /* refusals are 1 to 16, verdicts 20 to 27 */
    READER_OCTETS = BATMAN_PACKETS_MOST * BATMAN_READ_SIZE /* of the packets of a burst, each as long as a datagram that is read can be */
};

/* What was heard and is not handed over yet, as batman_receive_burst takes it: the packets one after another, and of each its length, its sender and the
 * interface that heard it. */
struct reader_inbox {
    uint8_t octets[READER_OCTETS];
    size_t length;
    uint64_t lengths[BATMAN_PACKETS_MOST], interfaces[BATMAN_PACKETS_MOST];
    uint32_t senders[BATMAN_PACKETS_MOST];
    size_t packets;
};

/* What goes on the air again: copies one after another, and the length of each. No shorter than the inbox, so that there is room for every copy. */
struct reader_outbox {
    uint8_t octets[READER_OCTETS];
    size_t lengths[BATMAN_PACKETS_MOST];
    size_t packets;
};

struct reader {
    uint32_t address;
    uint64_t *cells;
    size_t count;
    bool filters;
    struct relay_filter filter;
    struct reader_inbox inbox;
    unsigned long dropped;                 /* packets that the filter dropped */
    unsigned long bursts, most_packets;    /* how often the inbox was handed over, and the most packets that it had */
    unsigned long answers[READER_ANSWERS]; /* how often a packet was answered by each number */
};

struct reader_settings {
    uint64_t capacity; /* originators held */
    uint64_t window;   /* sequence numbers looked back on */
    uint64_t tie;      /* one of enum batman_tie */
    uint16_t first;    /* the first sequence number */
    bool filter;       /* whether the relay filter is on */
};

/* False where there is no memory; settings that are not allowed stop the program. */
bool reader_open(struct reader *r, uint32_t address, struct reader_settings settings);
void reader_close(struct reader *r);

/* Writes the next own packet to `out`, and answers its length. */
size_t reader_own(struct reader *r, uint64_t now, const uint8_t *hna, size_t hna_length, uint8_t *out, size_t room);

/* Puts a packet heard from `sender` in the inbox, unless the relay filter drops it, which knows of what earlier bursts passed on. Answers whether the inbox is
 * full: it takes no more until reader_take has handed it over. */
bool reader_hear(struct reader *r, uint64_t now, uint32_t sender, const uint8_t *packet, size_t length);

/* Hands over all that the inbox has in one call, and empties it. `out` is then what goes on the air again. */
void reader_take(struct reader *r, uint64_t now, struct reader_outbox *out);

/* Forgets originators not heard for the purge timeout, and answers how many. */
uint64_t reader_sweep(struct reader *r, uint64_t now);

/* The best link to an originator; `window` is 0 where there is no route. */
struct batman_route reader_route(const struct reader *r, uint32_t originator);

/* Which originator serves the network that an address is in; `found` is 0 where nobody announces one. */
struct batman_located reader_server(const struct reader *r, uint32_t address);

/* What the answer to a packet means, for people. */
const char *reader_meaning(unsigned number);

#endif
