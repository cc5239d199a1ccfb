/* A burst in both versions in C: whether it fits, and its packets one after another. */
#ifndef BURST_H
#define BURST_H

#include "calls.h"

/* What is left of the buffer only falls, so no sum can wrap. */
static inline bool adds_up(const struct burst *b)
{
    size_t rest = b->length;
    for (size_t i = 0; i < b->lengths_count; i++) {
        if (b->lengths[i] > rest)
            return false;
        rest -= b->lengths[i];
    }
    return rest == 0;
}

static inline bool fits(const struct burst *b)
{
    size_t n = b->lengths_count;
    return b->senders_count == n && b->interfaces_count == n && n <= BATMAN_PACKETS_MOST && n <= b->rows && adds_up(b);
}

/* Each packet by `receive`, given the rest of the output; or 14. */
static inline struct batman_burst receive_burst(receive_call *receive, void *table, size_t count, const struct burst *b)
{
    size_t at = 0, written = 0;
    if (!fits(b))
        return (struct batman_burst){BATMAN_WRONG_BURST, 0};
    for (size_t i = 0; i < b->lengths_count; i++) {
        size_t length = b->lengths[i];
        b->answers[i] = receive(table, count, b->octets + at, length, b->senders[i], b->interfaces[i], b->time, b->output + written, b->room - written);
        written += b->answers[i].number == BATMAN_PASSED_ON ? length : 0;
        at += length;
    }
    return (struct batman_burst){0, written};
}

#endif
