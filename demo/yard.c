#include "yard.h"

#include <inttypes.h>
#include <stdio.h>
#include <stdlib.h>
#include <string.h>

#include "random.h"

enum {
    SWEEP_EVERY = 10, /* rounds */
    NETWORK_MASK = 24,
    OUTSIDE_MASK = 16,
    ENTRIES_MOST = 2 /* announced by a reader */
};

void yard_fail(const char *why)
{
    fprintf(stderr, "yard: %s\n", why);
    exit(EXIT_FAILURE);
}

/* ---- readers and their addresses */

/* The reader at column x and row y has the address 10.0.(y + 1).(x + 1). */
uint32_t yard_address(const struct yard *y, unsigned reader)
{
    return 0x0a000000u + (reader / y->grid.columns + 1) * 256 + reader % y->grid.columns + 1;
}

/* The reader 10.0.r.c serves 10.r.c.0/24. */
uint32_t yard_network(const struct yard *y, unsigned reader) { return 0x0a000000u | (yard_address(y, reader) & 0xffff) << 8; }

unsigned yard_gate(const struct yard *y) { return (y->grid.rows - 1) / 2 * y->grid.columns + (y->grid.columns - 1) / 2; }

/* 192.168.0.0/16 */
uint32_t yard_outside(void) { return 0xc0a80000u; }

static unsigned reader_at(const struct yard *y, uint32_t address)
{
    return ((address >> 8 & 255) - 1) * y->grid.columns + (address & 255) - 1;
}

/* Spread evenly over the readers. */
static bool has_filter(const struct yard *y, unsigned reader)
{
    uint64_t share = y->settings.filter;
    return (reader + 1) * share / YARD_ALL > reader * share / YARD_ALL;
}

static void open_readers(struct yard *y)
{
    for (unsigned i = 0; i < y->readers; i++) {
        struct reader_settings s = {.capacity = y->readers > 1 ? y->readers - 1 : 1,
                                    .window = y->settings.window,
                                    .tie = y->settings.tie,
                                    .filter = has_filter(y, i),
                                    .first = (uint16_t)random_next(&y->radio.random)};
        if (!reader_open(&y->reader[i], yard_address(y, i), s))
            yard_fail("no memory");
    }
}

void yard_open(struct yard *y, struct yard_settings s)
{
    struct radio_grid grid = {.columns = (unsigned)s.columns, .rows = (unsigned)s.rows, .neighbours = (unsigned)s.neighbours};
    *y = (struct yard){.settings = s, .grid = grid, .readers = grid.columns * grid.rows};
    y->reader = calloc(y->readers, sizeof *y->reader);
    y->dead = calloc(y->readers, sizeof *y->dead);
    y->hop = calloc((size_t)y->readers * y->readers, sizeof *y->hop);
    if (y->reader == NULL || y->dead == NULL || y->hop == NULL || !radio_open(&y->radio, grid, (unsigned)s.loss, s.seed))
        yard_fail("no memory");
    open_readers(y);
}

void yard_describe(const struct yard *y, char words[YARD_WORDS])
{
    const struct yard_settings *s = &y->settings;
    const char *tie = s->tie == BATMAN_PRESENT_STAYS ? "present link stays" : "newest wins";
    if (s->filter == 0 || s->filter == YARD_ALL)
        snprintf(words, YARD_WORDS, "window %" PRIu64 ", %s, %s the relay filter", s->window, tie, s->filter > 0 ? "with" : "without");
    else
        snprintf(words, YARD_WORDS, "window %" PRIu64 ", %s, the relay filter in %" PRIu64 " of 100 readers", s->window, tie, s->filter);
    size_t used = strlen(words);
    if (s->poll > 0)
        snprintf(words + used, YARD_WORDS - used, ", radios read every %" PRIu64 " ms", s->poll);
}

void yard_close(struct yard *y)
{
    for (unsigned i = 0; i < y->readers; i++)
        reader_close(&y->reader[i]);
    radio_close(&y->radio);
    free(y->reader);
    free(y->dead);
    free(y->hop);
}

/* ---- a round */

static void transmit(struct yard *y, uint64_t time, unsigned sender, const uint8_t *octets, size_t length)
{
    if (!radio_send(&y->radio, time, sender, octets, length))
        yard_fail("no memory for the packets on the air");
}

/* A turn is a packet of no octets that waits for its time. */
static void give_turns(struct yard *y)
{
    static const uint8_t none[1];
    for (unsigned i = 0; i < y->readers; i++)
        if (!y->dead[i])
            transmit(y, y->now + random_below(&y->radio.random, YARD_INTERVAL), i, none, 0);
}

/* A reader takes what its radio has heard; each packet that it passes on waits a random time from then. */
static void read_radio(struct yard *y, struct yard_traffic *t, uint64_t time, unsigned reader)
{
    struct reader_outbox out;
    reader_take(&y->reader[reader], time, &out);
    const uint8_t *copy = out.octets;
    for (size_t i = 0; i < out.packets; copy += out.lengths[i++])
        transmit(y, time + random_below(&y->radio.random, YARD_DELAY + 1), reader, copy, out.lengths[i]);
    t->passed_on += out.packets;
}

/* What a reader announces: HNA entries. */
struct announcement {
    uint8_t hna[ENTRIES_MOST * BATMAN_ENTRY_SIZE];
    size_t length;
};

static void add_entry(struct announcement *a, uint32_t network, uint8_t mask)
{
    const uint8_t entry[BATMAN_ENTRY_SIZE] = {(uint8_t)(network >> 24), (uint8_t)(network >> 16), (uint8_t)(network >> 8), (uint8_t)network, mask};
    memcpy(a->hna + a->length, entry, sizeof entry);
    a->length += sizeof entry;
}

static struct announcement announced_by(const struct yard *y, unsigned reader)
{
    struct announcement a = {.length = 0};
    add_entry(&a, yard_network(y, reader), NETWORK_MASK);
    if (reader == yard_gate(y))
        add_entry(&a, yard_outside(), OUTSIDE_MASK);
    return a;
}

/* The own packet is written when it goes on the air, and not before: only the last one's echo counts. So what was heard until then is taken first. */
static void take_turn(struct yard *y, struct yard_traffic *t, struct transmission *turn)
{
    struct announcement a = announced_by(y, turn->sender);
    read_radio(y, t, turn->time, turn->sender);
    turn->length = reader_own(&y->reader[turn->sender], turn->time, a.hna, a.length, turn->octets, sizeof turn->octets);
    t->own++;
}

static void read_radios(struct yard *y, struct yard_traffic *t, uint64_t time)
{
    for (unsigned i = 0; i < y->readers; i++)
        if (!y->dead[i])
            read_radio(y, t, time, i);
}

static void hear(struct yard *y, struct yard_traffic *t, const struct transmission *sent, unsigned receiver)
{
    bool full = reader_hear(&y->reader[receiver], sent->time, yard_address(y, sent->sender), sent->octets, sent->length);
    t->heard++;
    if (full || y->settings.poll == 0)
        read_radio(y, t, sent->time, receiver);
}

static void sweep_all(struct yard *y)
{
    for (unsigned i = 0; i < y->readers; i++)
        if (!y->dead[i])
            y->removed += reader_sweep(&y->reader[i], y->now);
}

/* A packet reaches those within reach, or is lost on the way to them. */
static void on_air(struct yard *y, struct yard_traffic *t, const struct transmission *sent)
{
    const struct radio_station *s = &y->radio.station[sent->sender];
    for (unsigned i = 0; i < s->links && !y->dead[sent->sender]; i++) {
        if (radio_loses(&y->radio, &s->link[i]) || y->dead[s->link[i].to])
            t->lost++;
        else
            hear(y, t, sent, s->link[i].to);
    }
}

/* Everything that goes on the air before `end`. */
static void play_until(struct yard *y, struct yard_traffic *t, uint64_t end)
{
    struct transmission sent;
    while (radio_next(&y->radio, end, &sent)) {
        if (sent.length == 0)
            take_turn(y, t, &sent);
        on_air(y, t, &sent);
    }
}

/* The same, with the radios read at each multiple of `poll` after now, up to `end`. */
static void play_and_read_until(struct yard *y, struct yard_traffic *t, uint64_t end)
{
    uint64_t poll = y->settings.poll;
    for (uint64_t time = (y->now / poll + 1) * poll; time <= end; time += poll) {
        play_until(y, t, time);
        read_radios(y, t, time);
    }
    play_until(y, t, end);
}

struct yard_traffic yard_round(struct yard *y)
{
    struct yard_traffic t = {0, 0, 0, 0};
    uint64_t end = y->now + YARD_INTERVAL;
    give_turns(y);
    if (y->settings.poll > 0)
        play_and_read_until(y, &t, end);
    else
        play_until(y, &t, end);
    y->now = end;
    if (++y->rounds % SWEEP_EVERY == 0)
        sweep_all(y);
    return t;
}

void yard_kill(struct yard *y, unsigned reader) { y->dead[reader] = true; }

/* ---- what is known */

static struct yard_hop *hop_at(const struct yard *y, unsigned from, unsigned to) { return &y->hop[(size_t)from * y->readers + to]; }

struct yard_hop yard_hop(const struct yard *y, unsigned from, unsigned to) { return *hop_at(y, from, to); }

static void ask(struct yard *y, unsigned from, unsigned to)
{
    struct batman_route r = reader_route(&y->reader[from], yard_address(y, to));
    struct yard_hop *h = hop_at(y, from, to), before = *h;
    *h = (struct yard_hop){.end = YARD_NO_ROUTE};
    if (r.window > 0)
        *h = (struct yard_hop){.end = YARD_RING, .to = reader_at(y, r.neighbour), .count = r.count, .window = r.window};
    h->changed = before.window > 0 && h->window > 0 && before.to != h->to;
}

/* Follows the hops from one reader to another: after as many as there are readers they have come by some reader twice. */
static void follow(struct yard *y, unsigned from, unsigned to)
{
    struct yard_hop *first = hop_at(y, from, to);
    unsigned at = from;
    for (unsigned hops = 1; hops <= y->readers && first->end == YARD_RING; hops++) {
        const struct yard_hop *h = hop_at(y, at, to);
        at = h->to;
        if (h->window == 0 || y->dead[at]) {
            first->end = YARD_GAP;
        } else if (at == to) {
            first->end = YARD_ARRIVES;
            first->hops = hops;
        } else {
            first->in_ring |= at == from;
        }
    }
}

void yard_look(struct yard *y)
{
    for (unsigned from = 0; from < y->readers; from++)
        for (unsigned to = 0; to < y->readers; to++)
            ask(y, from, to);
    for (unsigned from = 0; from < y->readers; from++)
        for (unsigned to = 0; to < y->readers; to++)
            follow(y, from, to);
}

struct yard_coverage yard_cover_from(const struct yard *y, unsigned from)
{
    struct yard_coverage c = {0};
    for (unsigned to = 0; to < y->readers; to++) {
        const struct yard_hop *h = hop_at(y, from, to);
        if (from == to || y->dead[from] || y->dead[to])
            continue;
        c.possible++;
        c.known += h->end != YARD_NO_ROUTE;
        c.arrive += h->end == YARD_ARRIVES;
        c.rings += h->end == YARD_RING;
        c.shortest += h->end == YARD_ARRIVES && h->hops == radio_distance(y->grid, from, to);
        c.changed += h->changed;
        c.hops += h->hops;
    }
    return c;
}

void yard_add(struct yard_coverage *sum, struct yard_coverage more)
{
    sum->possible += more.possible;
    sum->known += more.known;
    sum->arrive += more.arrive;
    sum->rings += more.rings;
    sum->shortest += more.shortest;
    sum->changed += more.changed;
    sum->hops += more.hops;
}

struct yard_coverage yard_cover(const struct yard *y)
{
    struct yard_coverage c = {0};
    for (unsigned from = 0; from < y->readers; from++)
        yard_add(&c, yard_cover_from(y, from));
    return c;
}
