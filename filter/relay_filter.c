#include "relay_filter.h"

#include <string.h>

/* Where a message's fields stand, high octet first; and the bit of the flags that says that it came over a link of one direction. */
enum { FLAGS_AT = 1, TTL_AT = 2, NUMBER_AT = 4, ORIGINATOR_AT = 8, UNIDIRECTIONAL = 128 };

static uint16_t number_of(const uint8_t *packet) { return (uint16_t)(packet[NUMBER_AT] << 8 | packet[NUMBER_AT + 1]); }

static uint32_t originator_of(const uint8_t *packet)
{
    const uint8_t *o = packet + ORIGINATOR_AT;
    return (uint32_t)o[0] << 24 | (uint32_t)o[1] << 16 | (uint32_t)o[2] << 8 | o[3];
}

/* The row of an originator; `used` where it has none. */
static unsigned row_of(const struct relay_filter *f, uint32_t originator)
{
    unsigned i = 0;
    while (i < f->used && f->originator[i] != originator)
        i++;
    return i;
}

/* Not passed on for longer than the purge timeout: the table forgets such an originator, and so do we. A clock that went back makes nothing old. */
static bool is_old(const struct relay_filter *f, const struct relay_filter_row *r, uint64_t time)
{
    return time > r->time && time - r->time > f->purge;
}

/* It came over a link without a neighbour row. */
static bool is_unidirectional(const uint8_t *packet) { return (packet[FLAGS_AT] & UNIDIRECTIONAL) != 0; }

/* Modulo 65,536, so that a wrap is a step like any other. */
static uint16_t distance(uint16_t from, uint16_t to) { return (uint16_t)(to - from); }

static uint8_t *ttl_of(struct relay_filter_row *r, uint16_t number) { return &r->ttl[number % RELAY_FILTER_NUMBERS]; }

/* A number outside the window becomes the latest, as the table takes it: a little ahead, or anywhere else where the node has started again and a sweep had removed its record. A stale
 * one is not passed on, so it doesn't come here. */
static void move_to(struct relay_filter_row *r, uint16_t number, unsigned window)
{
    if (distance(r->latest, number) >= window)
        memset(r->ttl, 0, sizeof r->ttl);
    while (r->latest != number && distance(r->latest, number) < window)
        *ttl_of(r, ++r->latest) = 0;
    r->latest = number;
}

static unsigned longest_ago(const struct relay_filter *f)
{
    unsigned oldest = 0;
    for (unsigned i = 1; i < f->used; i++)
        if (f->row[i].time < f->row[oldest].time)
            oldest = i;
    return oldest;
}

/* A row for an originator that has none. Where all are in use the one that was passed on longest ago gives up its row: it is then as without the filter. */
static unsigned new_row(struct relay_filter *f, uint32_t originator)
{
    unsigned i = f->used < RELAY_FILTER_ORIGINATORS ? f->used++ : longest_ago(f);
    f->originator[i] = originator;
    return i;
}

void relay_filter_clear(struct relay_filter *f, uint64_t window, uint64_t purge)
{
    f->purge = purge;
    f->window = window < 1 ? 1 : window < RELAY_FILTER_NUMBERS ? (unsigned)window : RELAY_FILTER_NUMBERS;
    f->used = 0;
}

bool relay_filter_drops(const struct relay_filter *f, const uint8_t *packet, size_t length, uint64_t time)
{
    if (length < BATMAN_HEADER_SIZE)
        return false; /* batman_receive refuses it */
    unsigned i = row_of(f, originator_of(packet));
    if (i == f->used)
        return false;
    const struct relay_filter_row *r = &f->row[i];
    uint16_t number = number_of(packet);
    bool remembered = !is_old(f, r, time) && distance(number, r->latest) < f->window;
    return remembered && r->ttl[number % RELAY_FILTER_NUMBERS] > packet[TTL_AT];
}

void relay_filter_passed_on(struct relay_filter *f, const uint8_t *copy, size_t length, uint64_t time)
{
    if (length < BATMAN_HEADER_SIZE || is_unidirectional(copy))
        return;
    uint32_t originator = originator_of(copy);
    uint16_t number = number_of(copy);
    unsigned i = row_of(f, originator);
    bool known = i < f->used && !is_old(f, &f->row[i], time);
    if (i == f->used)
        i = new_row(f, originator);
    struct relay_filter_row *r = &f->row[i];
    if (!known)
        *r = (struct relay_filter_row){.latest = number};
    else if (distance(number, r->latest) >= f->window)
        move_to(r, number, f->window);
    r->time = time;
    if (copy[TTL_AT] > *ttl_of(r, number))
        *ttl_of(r, number) = copy[TTL_AT];
}

bool relay_filter_goes_elsewhere(const uint8_t *copy, size_t length) { return length >= BATMAN_HEADER_SIZE && !is_unidirectional(copy); }
