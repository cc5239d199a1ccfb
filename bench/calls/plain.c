/* The calls as a daemon's author would write them without lent cells: structs of its own, originators found by a hash, no check of the table.
 * The answers are the same; the state is trusted, so refusal 1 never comes. Compiled once by each compiler, as cells.c is. */
#include <string.h>

#include "burst.h"
#include "calls.h"
#include "wire.h"

enum { LINK_MOST = 8, NEIGHBOUR_MOST = 32, ORIGINATOR_MOST = 256, NETWORK_MOST = 16, SLOTS = 1024, NOBODY = -1 };

struct link {
    uint32_t neighbour, interface;
    uint64_t marks;
};

/* An HNA entry. */
struct network {
    uint32_t address, mask;
};

struct originator {
    uint32_t address;
    uint16_t current;
    uint8_t last_ttl, links, best, networks;
    uint64_t seen;
    struct link link[LINK_MOST + 1]; /* the ninth is there only while a message is counted */
    struct network network[NETWORK_MOST];
};

struct neighbour {
    uint32_t address, interface;
    uint16_t number;
};

struct sender {
    uint32_t own, broadcast;
    uint16_t first, last;
    bool sent;
};

struct plain {
    struct batman_settings settings;
    uint64_t time;
    unsigned used, neighbours, originators;
    struct sender sender[4];
    struct neighbour neighbour[NEIGHBOUR_MOST];
    struct originator originator[ORIGINATOR_MOST];
    int16_t slot[SLOTS]; /* where an originator stands, open addressing */
};

/* ---- originators by their address */

static inline unsigned slot_of(uint32_t address) { return (address * 2654435761u) >> 22; }

static inline struct originator *find(struct plain *p, uint32_t address)
{
    for (unsigned s = slot_of(address); p->slot[s] != NOBODY; s = (s + 1) % SLOTS)
        if (p->originator[p->slot[s]].address == address)
            return &p->originator[p->slot[s]];
    return NULL;
}

static void enter(struct plain *p, unsigned place)
{
    unsigned s = slot_of(p->originator[place].address);
    while (p->slot[s] != NOBODY)
        s = (s + 1) % SLOTS;
    p->slot[s] = (int16_t)place;
}

static void enter_all(struct plain *p)
{
    memset(p->slot, 0xff, sizeof p->slot);
    for (unsigned i = 0; i < p->originators; i++)
        enter(p, i);
}

/* ---- links and neighbours */

static inline unsigned ones(uint64_t word) { return (unsigned)__builtin_popcountll(word); }

static inline struct link *link_of(struct originator *o, uint32_t neighbour, uint32_t interface)
{
    for (struct link *l = o->link; l < o->link + o->links; l++)
        if (l->neighbour == neighbour && l->interface == interface)
            return l;
    return NULL;
}

static inline struct neighbour *neighbour_of(struct plain *p, uint32_t address, uint32_t interface)
{
    for (struct neighbour *n = p->neighbour; n < p->neighbour + p->neighbours; n++)
        if (n->address == address && n->interface == interface)
            return n;
    return NULL;
}

static inline struct batman_route route_by(const struct plain *p, const struct originator *o)
{
    if (o == NULL)
        return (struct batman_route){0, 0, 0, 0};
    const struct link *l = &o->link[o->best];
    return (struct batman_route){l->neighbour, l->interface, ones(l->marks), (uint32_t)p->settings.window};
}

/* ---- counting */

struct message {
    uint32_t sender, interface, originator;
    uint16_t sequence;
    uint8_t flags, ttl;
    uint64_t time;
    const uint8_t *hna;
    size_t networks;
};

static inline void move_window(struct originator *o, uint64_t window, uint16_t number)
{
    uint16_t up = (uint16_t)(number - o->current);
    for (struct link *l = o->link; l < o->link + o->links; l++)
        l->marks = up < window ? l->marks << up & UINT64_MAX >> (64 - window) : 0;
    o->current = number;
}

/* No other link has a higher count; under present stays none has the same either. */
static inline bool becomes_best(const struct originator *o, uint64_t tie, const struct link *mine)
{
    unsigned count = ones(mine->marks), most = tie == BATMAN_NEWEST_WINS ? count : count - 1;
    for (const struct link *l = o->link; l < o->link + o->links; l++)
        if (l != mine && ones(l->marks) > most)
            return false;
    return true;
}

/* Links without a mark that aren't best give up their place. */
static inline void drop_empty(struct originator *o)
{
    unsigned kept = 0, best = 0;
    for (unsigned i = 0; i < o->links; i++) {
        if (o->link[i].marks == 0 && i != o->best)
            continue;
        if (i == o->best)
            best = kept;
        o->link[kept++] = o->link[i];
    }
    o->links = (uint8_t)kept;
    o->best = (uint8_t)best;
}

static inline void take_networks(struct originator *o, const struct message *m)
{
    const uint8_t *hna = m->hna;
    for (size_t i = 0; i < m->networks; i++, hna += ENTRY)
        o->network[i] = (struct network){read4(hna), hna[MASK_AT]};
    o->networks = (uint8_t)m->networks;
}

static inline void count_on(struct originator *o, const struct batman_settings *s, const struct message *m, bool is_new)
{
    unsigned was = o->best;
    if (is_new)
        move_window(o, s->window, m->sequence);
    struct link *l = link_of(o, m->sender, m->interface);
    if (l == NULL) {
        l = &o->link[o->links++];
        *l = (struct link){m->sender, m->interface, 0};
    }
    l->marks |= (uint64_t)1 << (uint16_t)(o->current - m->sequence);
    if (becomes_best(o, s->tie, l))
        o->best = (uint8_t)(l - o->link);
    if (is_new || o->link[was].marks == 0) /* only then may a link have lost its last mark, or best */
        drop_empty(o);
    o->seen = m->time;
    o->last_ttl = m->ttl;
}

/* A ninth link may take the place of one that is dropped, which only a trial tells. Else the message is refused by 11, or by what comes behind that. */
static uint64_t count_ninth(struct originator *o, const struct batman_settings *s, const struct message *m, bool is_new, uint64_t behind)
{
    struct originator trial = *o;
    count_on(&trial, s, m, is_new);
    if (trial.links > LINK_MOST)
        return 11;
    if (behind == 0)
        *o = trial;
    return behind;
}

/* Counts, and answers 0; or a refusal, with nothing changed. */
static uint64_t count_message(struct originator *o, const struct batman_settings *s, const struct message *m, bool is_new)
{
    uint64_t number = is_new && m->networks > NETWORK_MOST ? 15 : 0;
    if (o->links == LINK_MOST && link_of(o, m->sender, m->interface) == NULL)
        number = count_ninth(o, s, m, is_new, number);
    else if (number == 0)
        count_on(o, s, m, is_new);
    if (number == 0 && is_new)
        take_networks(o, m);
    return number;
}

static uint64_t first_message(struct plain *p, const struct message *m)
{
    struct originator *o = &p->originator[p->originators];
    if (p->originators == p->settings.capacity)
        return 10;
    if (m->networks > NETWORK_MOST)
        return 15;
    *o = (struct originator){.address = m->originator, .current = m->sequence, .last_ttl = m->ttl, .links = 1, .seen = m->time};
    o->link[0] = (struct link){m->sender, m->interface, 1};
    take_networks(o, m);
    enter(p, p->originators++);
    return 0;
}

/* ---- receive */

static inline struct batman_received refusal(struct fault f) { return (struct batman_received){.number = f.number, .place = f.place}; }

static inline struct batman_received verdict_on(struct plain *p, uint64_t number, const struct message *m, const struct originator *o)
{
    p->time = m->time;
    return (struct batman_received){.number = number, .route = route_by(p, o)};
}

static inline struct batman_received verdict(struct plain *p, uint64_t number, const struct message *m) { return verdict_on(p, number, m, find(p, m->originator)); }

static inline const struct sender *own_by(const struct plain *p, uint32_t address)
{
    for (const struct sender *s = p->sender; s < p->sender + p->used; s++)
        if (s->own == address)
            return s;
    return NULL;
}

static inline bool is_broadcast(const struct plain *p, uint32_t address)
{
    for (const struct sender *s = p->sender; s < p->sender + p->used; s++)
        if (s->broadcast == address)
            return true;
    return false;
}

static struct batman_received own_message(struct plain *p, const struct message *m, const struct sender *s)
{
    if (!(m->flags & D) || s != &p->sender[m->interface] || !s->sent || s->last != m->sequence)
        return verdict(p, 23, m);
    struct neighbour *n = neighbour_of(p, m->sender, m->interface);
    if (n == NULL && p->neighbours == NEIGHBOUR_MOST)
        return refusal((struct fault){9, 0});
    if (n == NULL)
        n = &p->neighbour[p->neighbours++];
    *n = (struct neighbour){m->sender, m->interface, m->sequence};
    return verdict(p, 22, m);
}

/* Whether a number inside the window is marked on the link that brings it. */
static inline bool is_marked(struct originator *o, const struct message *m)
{
    uint16_t behind = (uint16_t)(o->current - m->sequence);
    const struct link *l = link_of(o, m->sender, m->interface);
    return l != NULL && l->marks >> behind & 1;
}

static struct batman_received others_message(struct plain *p, const struct message *m, const uint8_t *packet, size_t length, uint8_t *output)
{
    struct originator *o = find(p, m->originator);
    enum position position = o != NULL ? position_of(o->current, m->sequence, p->settings.window) : NEW;
    if (position == STALE)
        return verdict_on(p, 27, m, o);
    bool bidirectional = neighbour_of(p, m->sender, m->interface) != NULL, direct = m->sender == m->originator;
    bool duplicate = position == INSIDE && is_marked(o, m), fresh = !duplicate || m->ttl == o->last_ttl;
    if (bidirectional && !duplicate) {
        uint64_t number = o != NULL ? count_message(o, &p->settings, m, position == NEW) : first_message(p, m);
        if (number != 0)
            return refusal((struct fault){number, 0});
        if (o == NULL)
            o = &p->originator[p->originators - 1];
    }
    p->time = m->time;
    struct batman_route route = route_by(p, o);
    bool by_best = bidirectional && fresh && route.neighbour == m->sender && route.interface == m->interface;
    if (m->ttl < TTL_LEAST || !(direct || by_best))
        return (struct batman_received){.number = 25, .route = route};
    pass_on(output, packet, length, direct, bidirectional);
    return (struct batman_received){.number = 26, .flags = m->flags & UNNAMED, .route = route};
}

/* The refusals that receive and own packet have in common. */
static inline struct fault call_fault(const struct plain *p, uint64_t interface, uint64_t time, bool is_short)
{
    uint64_t number = interface >= p->used ? 2 : time < p->time ? 3 : is_short ? 4 : 0;
    return (struct fault){number, 0};
}

static struct batman_received receive(void *table, size_t count, const uint8_t *packet, size_t length, uint32_t sender, uint64_t interface,
                                      uint64_t time, uint8_t *output, size_t room)
{
    struct plain *p = table;
    struct fault f = call_fault(p, interface, time, room < length);
    (void)count;
    if (f.number == 0)
        f = packet_fault(packet, length, p->settings.version);
    if (f.number != 0)
        return refusal(f);
    struct message m = {sender, (uint32_t)interface, read4(packet + 8), read2(packet + 4), packet[1], packet[2], time, packet + HEADER, entries_in(length)};
    if (own_by(p, sender) != NULL)
        return verdict(p, 20, &m);
    if (is_broadcast(p, sender))
        return verdict(p, 21, &m);
    const struct sender *own = own_by(p, m.originator);
    if (own != NULL)
        return own_message(p, &m, own);
    if (m.flags & U)
        return verdict(p, 24, &m);
    return others_message(p, &m, packet, length, output);
}

static struct batman_burst burst(void *table, size_t count, const struct burst *b) { return receive_burst(receive, table, count, b); }

/* ---- the other calls */

static size_t size(uint64_t capacity)
{
    (void)capacity;
    return sizeof(struct plain);
}

static bool allowed(const struct batman_settings *s, const struct batman_interfaces *f)
{
    if (s->version > 255 || s->window < 1 || s->window > 64 || s->timeout < 1 || s->timeout > 1000 || s->tie > BATMAN_PRESENT_STAYS)
        return false;
    if (s->purge < 1 || s->purge > UINT32_MAX || s->capacity < 1 || s->capacity > ORIGINATOR_MOST || f->used < 1 || f->used > 4)
        return false;
    for (uint64_t i = 1; i < f->used; i++)
        for (uint64_t j = 0; j < i; j++)
            if (f->row[i].own == f->row[j].own)
                return false;
    return true;
}

static uint64_t make(void *table, size_t count, struct batman_settings s, struct batman_interfaces f)
{
    struct plain *p = table;
    (void)count;
    if (!allowed(&s, &f))
        return 12;
    memset(p, 0, sizeof *p);
    p->settings = s;
    p->used = (unsigned)f.used;
    for (unsigned i = 0; i < p->used; i++)
        p->sender[i] = (struct sender){f.row[i].own, f.row[i].broadcast, f.row[i].first, 0, false};
    enter_all(p);
    return 0;
}

static void drop_old(struct plain *p, uint64_t interface)
{
    unsigned kept = 0;
    for (unsigned i = 0; i < p->neighbours; i++) {
        struct neighbour n = p->neighbour[i];
        if (n.interface != interface || (uint16_t)(p->sender[interface].last - n.number) < p->settings.timeout)
            p->neighbour[kept++] = n;
    }
    p->neighbours = kept;
}

static struct batman_written own_packet(void *table, size_t count, uint64_t interface, uint64_t time, uint8_t ttl, uint8_t gateway,
                                        uint16_t port, const uint8_t *hna, size_t hna_length, uint8_t *output, size_t room)
{
    struct plain *p = table;
    struct fault f = call_fault(p, interface, time, room < HEADER || room - HEADER < hna_length);
    (void)count;
    if (f.number == 0)
        f = written_fault(hna, hna_length, ttl);
    if (f.number != 0)
        return (struct batman_written){f.number, f.place, 0, 0};
    struct sender *s = &p->sender[interface];
    s->last = s->sent ? (uint16_t)(s->last + 1) : s->first;
    s->sent = true;
    write_packet(output, (uint8_t)p->settings.version, ttl, gateway, s->last, port, s->own, hna, hna_length);
    drop_old(p, interface);
    p->time = time;
    return (struct batman_written){0, 0, HEADER + hna_length, s->last};
}

static struct batman_swept sweep(void *table, size_t count, uint64_t time)
{
    struct plain *p = table;
    unsigned kept = 0, n = p->originators;
    (void)count;
    if (time < p->time)
        return (struct batman_swept){3, 0};
    for (unsigned i = 0; i < n; i++) {
        if (time - p->originator[i].seen > p->settings.purge)
            continue;
        if (kept < i)
            p->originator[kept] = p->originator[i];
        kept++;
    }
    p->originators = kept;
    p->time = time;
    if (kept < n)
        enter_all(p);
    return (struct batman_swept){0, n - kept};
}

static struct batman_asked best(const void *table, size_t count, uint32_t originator)
{
    const struct plain *p = table;
    (void)count;
    return (struct batman_asked){0, route_by(p, find((struct plain *)p, originator))};
}

/* The best covering network of one originator, by a longer mask, then the earlier; NULL where none covers the address. */
static inline const struct network *longest(const struct originator *o, uint32_t address)
{
    const struct network *best = NULL;
    for (const struct network *n = o->network; n < o->network + o->networks; n++)
        if ((best == NULL || n->mask > best->mask) && covers(n->address, n->mask, address))
            best = n;
    return best;
}

/* Originators stand as they came, so of equal masks the smaller address has to be asked for. */
static inline bool is_better(const struct originator *o, const struct network *n, const struct batman_located *best)
{
    return !best->found || n->mask > best->mask || (n->mask == best->mask && o->address < best->originator);
}

static struct batman_located lookup(const void *table, size_t count, uint32_t address)
{
    const struct plain *p = table;
    struct batman_located best = {0, 0, 0, 0, 0};
    (void)count;
    for (const struct originator *o = p->originator; o < p->originator + p->originators; o++) {
        const struct network *n = longest(o, address);
        if (n != NULL && is_better(o, n, &best))
            best = (struct batman_located){0, 1, o->address, n->address, n->mask};
    }
    return best;
}

static struct searches search(const void *table, size_t count, const uint32_t *originators, size_t n)
{
    struct searches all = {0, 0, 0};
    (void)count;
    for (size_t i = 0; i < n; i++)
        all.held += find((struct plain *)table, originators[i]) != NULL;
    return all;
}

const struct version VERSION = {"plain", false, size, make, receive, burst, own_packet, sweep, best, lookup, search, packet_check};
