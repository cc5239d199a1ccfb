/* The library's calls as a row of functions, so that several versions of them can be played and timed by the same code. */
#ifndef CALLS_H
#define CALLS_H

#include <stdbool.h>

#include "batman.h"

typedef struct batman_received receive_call(void *table, size_t count, const uint8_t *packet, size_t length, uint32_t sender, uint64_t interface,
                                            uint64_t time, uint8_t *output, size_t room);

/* A burst as it is lent, with the names of batman_receive_burst. */
struct burst {
    const uint8_t *octets;
    const uint64_t *lengths, *interfaces;
    const uint32_t *senders;
    size_t length, lengths_count, senders_count, interfaces_count;
    uint64_t time;
    uint8_t *output;
    struct batman_received *answers;
    size_t room, rows;
};

/* What searches for originators found: refusal 1, or how many of them have a record, and the most rounds of comparing that one took (0 where none is counted). */
struct searches {
    uint64_t number, held, most;
};

/* `table` is what `size` octets hold; `count` is the number of cells for a version that has cells, and ignored by another. */
struct version {
    const char *name;
    bool has_cells;
    size_t (*size)(uint64_t capacity);
    uint64_t (*make)(void *table, size_t count, struct batman_settings settings, struct batman_interfaces interfaces);
    receive_call *receive;
    struct batman_burst (*burst)(void *table, size_t count, const struct burst *b);
    struct batman_written (*own_packet)(void *table, size_t count, uint64_t interface, uint64_t time, uint8_t ttl, uint8_t gateway,
                                        uint16_t port, const uint8_t *hna, size_t hna_length, uint8_t *output, size_t room);
    struct batman_swept (*sweep)(void *table, size_t count, uint64_t time);
    struct batman_asked (*best)(const void *table, size_t count, uint32_t originator);
    struct batman_located (*lookup)(const void *table, size_t count, uint32_t address);
    struct searches (*search)(const void *table, size_t count, const uint32_t *originators, size_t n); /* NULL where it can't be had */
    uint64_t (*packet_check)(const uint8_t *packet, size_t length, uint64_t version);
};

extern const struct version proved, before, cells_gcc, cells_clang, plain_gcc, plain_clang;

/* Plays random calls on every version and compares them; false, with a word on standard output, at the first difference. */
bool compare(const struct version *const *versions, int n, unsigned long calls);

#endif
