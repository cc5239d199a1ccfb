/* The same random calls on every version: answers, output and cells must be the same after each. */
#include <inttypes.h>
#include <stdio.h>
#include <stdlib.h>
#include <string.h>

#include "calls.h"
#include "../../demo/random.h"

enum {
    VERSIONS = 8,
    ENTRIES = BATMAN_ENTRIES_MOST + 2, /* of a packet, at most, and one that is cut short */
    PACKET = BATMAN_HEADER_SIZE + BATMAN_ENTRY_SIZE * (ENTRIES + 1) - 1, /* octets of a packet, at most */
    LISTS = BATMAN_PACKETS_MOST + 4,   /* packets of a burst that is too long, at most */
    OUTPUT = LISTS * PACKET,
    NUMBERS = 32,
    HISTORY = 500,
    CAPACITY_MOST = 6,
    OWN_FROM = 0x0a090000,
    BROADCAST = 0x0a09ffff
};

enum kind { MAKE, RECEIVE, BURST, OWN_PACKET, SWEEP, BEST, LOOKUP, CHECK };

/* A packet as it is heard; of an own packet, its HNA entries and its interface. */
struct packet {
    uint8_t octets[PACKET];
    size_t length;
    uint32_t sender;
    uint64_t interface;
};

/* The packets of a burst, one after another, and how long everything is said to be. */
struct packets {
    uint8_t octets[OUTPUT];
    uint64_t lengths[LISTS], interfaces[LISTS];
    uint32_t senders[LISTS];
    size_t length, lengths_count, senders_count, interfaces_count, rows;
};

/* One call's arguments, whatever call it is. */
struct call {
    enum kind kind;
    struct batman_settings settings;
    struct batman_interfaces interfaces;
    struct packet packet;
    struct packets packets;
    size_t room;
    uint32_t address; /* the originator, or what is looked up */
    uint64_t time, version;
    uint8_t ttl;
};

/* A row of a burst's answers, in words. */
struct answer {
    uint64_t number, place, flags;
    struct batman_route route;
};

/* One call's answer, in words so that it can be compared as a whole, and what it wrote. */
struct result {
    uint64_t number, place, first, second;
    struct batman_route route;
    struct batman_located located;
    uint8_t output[OUTPUT];
    struct answer rows[LISTS];
};

/* What is drawn from in one history: few addresses and small settings bring duplicates, full tables and timeouts soon. */
struct history {
    struct batman_settings settings;
    struct batman_interfaces interfaces;
    unsigned nodes, originators;
    uint16_t number[16], last[4];
    uint64_t time;
};

static uint64_t state;

static uint64_t below(uint64_t n) { return random_below(&state, n); }
static bool seldom(uint64_t n) { return below(n) == 0; }

/* All rows are kept, so that those behind the packets' are compared too. */
static void play_burst(const struct version *v, void *table, size_t count, const struct call *c, struct result *r)
{
    const struct packets *p = &c->packets;
    struct batman_received rows[LISTS];
    memset(rows, 0xee, sizeof rows);
    struct batman_burst a = v->burst(table, count, &(struct burst){
        .octets = p->octets, .length = p->length, .lengths = p->lengths, .lengths_count = p->lengths_count,
        .senders = p->senders, .senders_count = p->senders_count, .interfaces = p->interfaces, .interfaces_count = p->interfaces_count,
        .time = c->time, .output = r->output, .room = c->room, .answers = rows, .rows = p->rows});
    r->number = a.number, r->first = a.written;
    for (size_t i = 0; i < LISTS; i++)
        r->rows[i] = (struct answer){rows[i].number, rows[i].place, rows[i].flags, rows[i].route};
}

static struct result play(const struct version *v, void *table, size_t count, const struct call *c)
{
    const struct packet *p = &c->packet;
    struct result r;
    memset(&r, 0, sizeof r);
    memset(r.output, 0xee, sizeof r.output);
    switch (c->kind) {
    case MAKE: r.number = v->make(table, count, c->settings, c->interfaces); break;
    case RECEIVE: {
        struct batman_received a = v->receive(table, count, p->octets, p->length, p->sender, p->interface, c->time, r.output, c->room);
        r.number = a.number, r.place = a.place, r.first = a.flags, r.route = a.route;
        break;
    }
    case BURST: play_burst(v, table, count, c, &r); break;
    case OWN_PACKET: {
        struct batman_written a = v->own_packet(table, count, p->interface, c->time, c->ttl, 3, 4305, p->octets, p->length, r.output, c->room);
        r.number = a.number, r.place = a.place, r.first = a.length, r.second = a.sequence;
        break;
    }
    case SWEEP: {
        struct batman_swept a = v->sweep(table, count, c->time);
        r.number = a.number, r.first = a.removed;
        break;
    }
    case BEST: {
        struct batman_asked a = v->best(table, count, c->address);
        r.number = a.number, r.route = a.route;
        break;
    }
    case LOOKUP:
        r.located = v->lookup(table, count, c->address);
        r.number = r.located.number;
        break;
    case CHECK: r.number = v->packet_check(p->octets, p->length, c->version); break;
    }
    return r;
}

/* ---- drawing a call */

static struct history begin_history(void)
{
    struct history h = {.nodes = seldom(2) ? 3 : 11, .originators = 1 + (unsigned)below(7)};
    h.settings = (struct batman_settings){4, seldom(2) ? 64 : 1 + below(9), seldom(2) ? 1000 : 1 + below(5), 1 + below(3000),
                                          1 + below(CAPACITY_MOST), seldom(2) ? BATMAN_NEWEST_WINS : BATMAN_PRESENT_STAYS};
    h.interfaces.used = 1 + below(4);
    for (unsigned i = 0; i < 4; i++)
        h.interfaces.row[i] = (struct batman_interface){OWN_FROM + i, BROADCAST, (uint16_t)(65533 + below(5))};
    return h;
}

static void draw_time(struct history *h, struct call *c)
{
    if (seldom(4))
        h->time += below(700);
    c->time = seldom(50) && h->time > 0 ? h->time - 1 : h->time;
}

/* Mostly one of few networks, so that several entries cover an address; address 0 among them. */
static uint32_t draw_network(void)
{
    static const uint32_t octets[] = {0, 1, 129};
    uint32_t network = 0;
    for (int i = 0; i < 4; i++)
        network = network << 8 | octets[seldom(3) ? below(3) : 0];
    return network;
}

/* Host bits are mostly cleared; of the others some are zero by themselves. */
static void draw_entry(uint8_t *entry)
{
    uint32_t network = draw_network();
    uint8_t mask = (uint8_t)(seldom(4) ? below(33) : 17 + below(16));
    if (!seldom(25))
        network &= (uint32_t)((uint64_t)UINT32_MAX << (32 - mask));
    for (int i = 3; i >= 0; i--, network >>= 8)
        entry[i] = (uint8_t)network;
    entry[4] = mask;
}

/* Octets that are a packet, or HNA entries alone, with a fault now and then: few entries, or about as many as are held. */
static void draw_entries(struct packet *p, size_t from)
{
    p->length = from + 5 * (seldom(5) ? ENTRIES - below(4) : below(4));
    for (size_t at = from; at < p->length; at += 5)
        draw_entry(p->octets + at);
    if (seldom(25) && p->length > from)
        p->octets[p->length - 1 - 5 * below((p->length - from) / 5)] = 33;
    if (seldom(40))
        p->length += below(5);
}

static uint64_t draw_interface(const struct history *h) { return seldom(40) ? 4 : below(h->interfaces.used); }

/* A node's latest number, the next one or one some way ahead; now and then an earlier one, below small windows or the largest, or one about half way round, where the node may go on, as if it had
 * started again. */
static uint16_t draw_number(uint16_t *number)
{
    uint16_t half_way = (uint16_t)(*number + 32766 + below(4));
    *number = (uint16_t)(*number + (seldom(3) ? 1 : 0) + (seldom(60) ? below(80) : 0));
    if (seldom(100))
        return half_way;
    if (seldom(200))
        *number = half_way;
    return (uint16_t)(*number - (seldom(6) ? below(seldom(3) ? 80 : 12) : 0));
}

static void draw_packet(struct history *h, struct packet *p)
{
    bool echo = seldom(4);
    uint32_t node = 1 + (uint32_t)below(h->originators), originator = node;
    uint16_t said = draw_number(&h->number[node]);
    p->interface = draw_interface(h);
    p->sender = seldom(4) ? node : 1 + (uint32_t)below(seldom(12) ? 40 : h->nodes);
    if (echo && p->interface < 4) {
        originator = OWN_FROM + (uint32_t)(seldom(10) ? below(4) : p->interface);
        said = (uint16_t)(h->last[p->interface] - (seldom(8) ? 1 : 0));
        p->sender = 1 + (uint32_t)below(seldom(4) ? 40 : h->nodes);
    }
    if (seldom(30))
        p->sender = seldom(2) ? OWN_FROM : BROADCAST;
    draw_entries(p, 12);
    const uint8_t head[12] = {4, (uint8_t)(seldom(6) ? below(256) : echo ? 64 : below(64)), (uint8_t)(seldom(4) ? below(4) : 20 + below(3)), 1,
                              (uint8_t)(said >> 8), (uint8_t)said, 2, 3, (uint8_t)(originator >> 24), (uint8_t)(originator >> 16),
                              (uint8_t)(originator >> 8), (uint8_t)originator};
    memcpy(p->octets, head, sizeof head);
    if (seldom(40))
        p->octets[0] = 5;
    if (seldom(60))
        p->length = below(12);
}

static void draw_receive(struct history *h, struct call *c)
{
    draw_packet(h, &c->packet);
    c->version = seldom(8) ? 260 : 4;
    c->room = seldom(40) && c->packet.length > 0 ? c->packet.length - 1 : OUTPUT;
}

static void draw_own(struct history *h, struct call *c)
{
    draw_entries(&c->packet, 0);
    c->packet.interface = draw_interface(h);
    c->ttl = (uint8_t)(seldom(20) ? below(2) : 50);
    c->room = c->packet.length + (seldom(30) ? 11 : 12);
}

/* Draws packets behind those that are there, until there are n. */
static void draw_packets(struct history *h, struct packets *b, size_t n)
{
    for (size_t i = b->lengths_count; i < n; i++) {
        struct packet p = {.length = 0};
        draw_packet(h, &p);
        memcpy(b->octets + b->length, p.octets, p.length);
        b->length += p.length;
        b->lengths[i] = p.length;
        b->senders[i] = p.sender;
        b->interfaces[i] = p.interface;
    }
    b->lengths_count = b->senders_count = b->interfaces_count = b->rows = n;
}

/* Makes one length longer and another shorter by as much: the sum stays, but wraps where the other was not that long. */
static void shift_lengths(struct packets *b)
{
    uint64_t by = seldom(2) ? below(PACKET) : random_next(&state);
    if (b->lengths_count == 0)
        return;
    b->lengths[below(b->lengths_count)] += by;
    b->lengths[below(b->lengths_count)] -= by;
}

/* Makes a burst not fit, mostly: a list or the buffer longer or shorter by one, too few rows, too many packets, or lengths that may wrap. */
static void misfit(struct history *h, struct packets *b)
{
    size_t n = b->lengths_count, other = n == 0 || seldom(2) ? n + 1 : n - 1;
    switch (below(7)) {
    case 0: b->lengths_count = other; break;
    case 1: b->senders_count = other; break;
    case 2: b->interfaces_count = other; break;
    case 3: b->length = b->length == 0 || seldom(2) ? b->length + 1 : b->length - 1; break;
    case 4: b->rows = below(n + 1); break;
    case 5: draw_packets(h, b, BATMAN_PACKETS_MOST + 1 + below(LISTS - BATMAN_PACKETS_MOST)); break;
    case 6: shift_lengths(b); break;
    }
}

static void draw_burst(struct history *h, struct call *c)
{
    struct packets *b = &c->packets;
    draw_packets(h, b, below(seldom(4) ? BATMAN_PACKETS_MOST + 1 : 5));
    b->rows += below(3);
    if (seldom(4))
        misfit(h, b);
    c->room = seldom(4) ? below(b->length + 1) : seldom(2) ? b->length : OUTPUT;
}

static struct call draw(struct history *h)
{
    struct call c;
    uint64_t kind = below(100);
    memset(&c, 0, sizeof c);
    draw_time(h, &c);
    c.kind = kind < 62 ? RECEIVE : kind < 68 ? BURST : kind < 80 ? OWN_PACKET : kind < 84 ? SWEEP : kind < 89 ? BEST : kind < 96 ? LOOKUP : CHECK;
    if (c.kind == RECEIVE || c.kind == CHECK)
        draw_receive(h, &c);
    else if (c.kind == BURST)
        draw_burst(h, &c);
    else if (c.kind == OWN_PACKET)
        draw_own(h, &c);
    else if (c.kind == BEST)
        c.address = 1 + (uint32_t)below(9);
    else if (c.kind == LOOKUP)
        c.address = draw_network();
    return c;
}

static struct call draw_make(struct history *h)
{
    struct call c = {.kind = MAKE, .settings = h->settings, .interfaces = h->interfaces};
    switch (below(12)) {
    case 0: c.settings.version = 256; break;
    case 1: c.settings.window = 65 * below(2); break;
    case 2: c.settings.timeout = 1001 * below(2); break;
    case 3: c.settings.purge = below(2) << 32; break;
    case 4: c.interfaces.used = 5 * below(2); break;
    case 5: c.interfaces.row[1].own = OWN_FROM; break;
    case 6: c.settings.tie = seldom(2) ? BATMAN_PRESENT_STAYS + 1 : (uint64_t)1 << 32; break;
    }
    return c;
}

/* ---- playing it */

struct players {
    const struct version *const *version;
    int n;
    void *table[VERSIONS];
    uint64_t *spare[2];
    size_t count;
    unsigned long calls, damaged, bursts, lookups, found; /* calls in all, those of them on a damaged table, bursts, lookups, those that found something */
    unsigned long by_number[NUMBERS], in_bursts[NUMBERS]; /* the answers to calls, and those to the packets of bursts */
};

static bool differ(const struct call *c, const struct version *v, const char *what, uint64_t is, uint64_t should)
{
    printf("calls: %s differs in its %s on a call of kind %d: %" PRIu64 ", should be %" PRIu64 "\n", v->name, what, (int)c->kind, is, should);
    return false;
}

static void note(struct players *p, const struct call *c, const struct result *r)
{
    p->calls++;
    p->by_number[r->number % NUMBERS]++;
    p->lookups += c->kind == LOOKUP;
    p->found += r->located.found;
    if (c->kind != BURST)
        return;
    p->bursts++;
    for (size_t i = 0; r->number == 0 && i < c->packets.lengths_count; i++)
        p->in_bursts[r->rows[i].number % NUMBERS]++;
}

/* Plays a call on every version; the first is what the others are compared with. */
static bool play_all(struct players *p, const struct call *c, struct result *first)
{
    *first = play(p->version[0], p->table[0], p->count, c);
    note(p, c, first);
    for (int i = 1; i < p->n; i++) {
        struct result r = play(p->version[i], p->table[i], p->count, c);
        if (memcmp(&r, first, sizeof r) != 0)
            return differ(c, p->version[i], "answer or output", r.number, first->number);
        if (p->version[i]->has_cells && memcmp(p->table[i], p->table[0], p->count * sizeof(uint64_t)) != 0)
            return differ(c, p->version[i], "cells", r.number, first->number);
    }
    return true;
}

/* Another value for a cell: an end of its range, a neighbour, an own address, anything, or one bit changed, mostly at the edge of a field. */
static uint64_t damaged(uint64_t cell)
{
    static const uint64_t bits[] = {1, 2, 4, 0x20, 0x100, 0x10000, (uint64_t)1 << 32, (uint64_t)1 << 34, (uint64_t)1 << 40, (uint64_t)1 << 63};
    switch (below(10)) {
    case 0: return 0;
    case 1: return UINT64_MAX;
    case 2: return cell + 1;
    case 3: return cell - 1;
    case 4: return OWN_FROM + below(4);
    case 5: return random_next(&state);
    case 6: return cell ^ (uint64_t)1 << below(64);
    default: return cell ^ bits[below(sizeof bits / sizeof *bits)];
    }
}

/* A place before the records, one of a record's first cells, or any. */
static size_t damaged_place(size_t count)
{
    switch (below(3)) {
    case 0: return below(BATMAN_TABLE_CELLS);
    case 1: return BATMAN_TABLE_CELLS + BATMAN_RECORD_CELLS * below((count - BATMAN_TABLE_CELLS) / BATMAN_RECORD_CELLS) + below(8);
    default: return below(count);
    }
}

/* What is done to the cells: one changed, now and then another one too, and now and then some of them not lent. */
struct damage {
    size_t at, also_at, count;
    uint64_t cell, also_cell;
};

static struct damage draw_damage(const uint64_t *cells, size_t count)
{
    struct damage d = {.at = damaged_place(count), .count = seldom(16) ? below(count) : count};
    d.also_at = seldom(8) ? damaged_place(count) : d.at;
    d.cell = d.also_cell = damaged(cells[d.at]);
    if (d.also_at != d.at)
        d.also_cell = damaged(cells[d.also_at]);
    return d;
}

/* A damaged copy of the cells: the versions with cells must judge it alike, and leave the same cells. */
static bool play_damaged(struct players *p, const struct call *c)
{
    size_t octets = p->count * sizeof(uint64_t);
    struct damage d = draw_damage(p->table[0], p->count);
    struct result first = {0};
    for (int i = 0; i < p->n; i++) {
        uint64_t *cells = p->spare[i > 0];
        if (!p->version[i]->has_cells)
            continue;
        memcpy(cells, p->table[0], octets);
        cells[d.at] = d.cell;
        cells[d.also_at] = d.also_cell;
        struct result r = play(p->version[i], cells, d.count, c);
        if (i == 0)
            first = r;
        if (memcmp(&r, &first, sizeof r) != 0 || memcmp(cells, p->spare[0], octets) != 0)
            return differ(c, p->version[i], "judgement of a damaged table", r.number, first.number);
    }
    note(p, c, &first);
    p->damaged++;
    return true;
}

static bool play_history(struct players *p)
{
    struct history h = begin_history();
    struct result r;
    struct call c = {.kind = MAKE, .settings = h.settings, .interfaces = h.interfaces};
    p->count = (size_t)batman_cells_needed(h.settings.capacity);
    if (!play_all(p, &c, &r))
        return false;
    for (int i = 0; i < HISTORY; i++) {
        c = seldom(100) ? draw_make(&h) : draw(&h);
        if (c.kind != MAKE && c.kind != CHECK && seldom(3) && !play_damaged(p, &c))
            return false;
        if (!play_all(p, &c, &r))
            return false;
        if (c.kind == OWN_PACKET && r.number == 0)
            h.last[c.packet.interface] = (uint16_t)r.second;
        if (c.kind == MAKE && r.number == 0)
            h.time = 0;
    }
    return true;
}

static bool came(const unsigned long *answers, int from, int to, const char *to_what)
{
    for (int n = from; n <= to; n++)
        if (answers[n] == 0) {
            printf("calls: no %s was answered %d\n", to_what, n);
            return false;
        }
    return true;
}

static bool every_number_came(const struct players *p)
{
    return came(p->by_number, 0, BATMAN_HOST_BITS_SET, "call") && came(p->by_number, BATMAN_OWN_SENDER, BATMAN_STALE, "call") &&
           came(p->in_bursts, BATMAN_NOT_IN_USE, BATMAN_LINKS_FULL, "packet of a burst") &&
           came(p->in_bursts, BATMAN_ENTRIES_FULL, BATMAN_HOST_BITS_SET, "packet of a burst") &&
           came(p->in_bursts, BATMAN_OWN_SENDER, BATMAN_STALE, "packet of a burst");
}

bool compare(const struct version *const *versions, int n, unsigned long calls)
{
    struct players p = {.version = versions, .n = n};
    bool same = n <= VERSIONS;
    state = random_seeded(1);
    for (int i = 0; same && i < n; i++)
        same = (p.table[i] = calloc(1, versions[i]->size(CAPACITY_MOST))) != NULL;
    for (int i = 0; same && i < 2; i++)
        same = (p.spare[i] = calloc(1, versions[0]->size(CAPACITY_MOST))) != NULL;
    while (same && p.calls < calls)
        same = play_history(&p);
    same = same && every_number_came(&p);
    if (same)
        printf("%lu calls on %d versions, %lu of them bursts, %lu lookups (%lu found an entry) and %lu on damaged tables; %lu packets were stale: the same answers, outputs and "
               "cells; every refusal and verdict came up\n",
               p.calls, n, p.bursts, p.lookups, p.found, p.damaged, p.by_number[BATMAN_STALE] + p.in_bursts[BATMAN_STALE]);
    for (int i = 0; i < n; i++)
        free(p.table[i]);
    free(p.spare[0]);
    free(p.spare[1]);
    return same;
}
