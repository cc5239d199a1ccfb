/* The calls on the same cells in ordinary C, written from docs/LAYOUT.md and the rules; the whole table is checked first here too.
 * Compiled once by each compiler: VERSION is the name that the row of functions then has. */
#include <string.h>

#include "burst.h"
#include "calls.h"
#include "wire.h"

enum { OWN, BROADCAST, FIRST, SENT, LAST, INTERFACE };                            /* of an interface row, and its cells */
enum { LINK = 2, LINK_MOST = BATMAN_LINKS_MOST, NEIGHBOUR = 2, NEIGHBOUR_MOST = BATMAN_NEIGHBOURS_MOST, ENTRY_MOST = BATMAN_ENTRIES_MOST };
enum { /* of a record, and its cells */
    ADDRESS, CURRENT, SEEN, LAST_TTL, LINKS, BEST, ENTRIES, LINKS_FROM, ENTRIES_FROM = LINKS_FROM + LINK * LINK_MOST, RECORD = ENTRIES_FROM + ENTRY_MOST
};
enum { MASK_BITS = 8, ENTRY_BITS = 40 }; /* an entry is one cell: the network, and the mask in its lowest octet */
enum {
    VERSION_AT, WINDOW_AT, TIMEOUT_AT, PURGE_AT, CAPACITY_AT, TIE_AT, USED_AT, TIME_AT, ROWS_AT, RECORDS_AT, INTERFACES_AT,
    NEIGHBOURS_AT = INTERFACES_AT + INTERFACE * BATMAN_INTERFACES, ALL_RECORDS_AT = NEIGHBOURS_AT + NEIGHBOUR * NEIGHBOUR_MOST
};
_Static_assert((int)ALL_RECORDS_AT == (int)BATMAN_TABLE_CELLS && (int)RECORD == (int)BATMAN_RECORD_CELLS, "the layout is the one of batman.h");

static size_t cells_needed(uint64_t capacity) { return capacity - 1 < BATMAN_CAPACITY_MOST ? (size_t)BATMAN_CELLS(capacity) : 0; }

/* ---- the check */

static bool zeros(const uint64_t *from, const uint64_t *to)
{
    uint64_t any = 0;
    for (; from < to; from++)
        any |= *from;
    return any == 0;
}

static bool settings_ok(const uint64_t *c)
{
    return c[VERSION_AT] <= 255 && c[WINDOW_AT] - 1 < 64 && c[TIMEOUT_AT] - 1 < 1000 && c[PURGE_AT] - 1 < UINT32_MAX &&
           c[CAPACITY_AT] - 1 < BATMAN_CAPACITY_MOST && c[TIE_AT] <= BATMAN_PRESENT_STAYS;
}

static bool head_ok(const uint64_t *c, size_t count)
{
    return count >= ALL_RECORDS_AT && settings_ok(c) && c[USED_AT] - 1 < BATMAN_INTERFACES && c[ROWS_AT] <= NEIGHBOUR_MOST &&
           c[RECORDS_AT] <= c[CAPACITY_AT] && count == cells_needed(c[CAPACITY_AT]);
}

static bool interfaces_ok(const uint64_t *c)
{
    const uint64_t *row = c + INTERFACES_AT, *end = row + INTERFACE * c[USED_AT];
    for (; row < end; row += INTERFACE) {
        if (row[OWN] >> 32 || row[BROADCAST] >> 32 || row[FIRST] >> 16 || row[SENT] > 1 || row[LAST] >> 16 || row[LAST] > row[SENT] * 65535)
            return false;
        for (const uint64_t *other = c + INTERFACES_AT; other < row; other += INTERFACE)
            if (other[OWN] == row[OWN])
                return false;
    }
    return zeros(row, c + NEIGHBOURS_AT);
}

static bool neighbours_ok(const uint64_t *c)
{
    const uint64_t *row = c + NEIGHBOURS_AT, *end = row + NEIGHBOUR * c[ROWS_AT];
    uint64_t used = c[USED_AT], timeout = c[TIMEOUT_AT], low = 0;
    for (; row < end; row += NEIGHBOUR) {
        const uint64_t *sender = c + INTERFACES_AT + INTERFACE * (row[0] & 3);
        if (row[0] < low || row[0] >> 34 || (row[0] & 3) >= used || row[1] >> 16 || !sender[SENT] || ((sender[LAST] - row[1]) & 0xffff) >= timeout)
            return false;
        low = row[0] + 1;
    }
    return zeros(row, c + ALL_RECORDS_AT);
}

/* What all records are held to: the own addresses, the first again for each that is not in use. */
struct limits {
    uint64_t most_marks, used, time, own[BATMAN_INTERFACES];
};

/* Tests one after another: in a well-formed table none ever goes the other way but for a link without a mark, which is then best. */
static inline bool links_ok(const uint64_t *r, const struct limits *l)
{
    const uint64_t *link = r + LINKS_FROM;
    uint64_t best = r[BEST], low = 0, n = r[LINKS];
    bool held = false;
    for (uint64_t i = 0; i < n; i++) {
        uint64_t key = link[LINK * i], marks = link[LINK * i + 1];
        if (key < low || key >> 34 || (key & 3) >= l->used)
            return false;
        if (marks - 1 >= l->most_marks && (marks != 0 || key != best))
            return false;
        held |= key == best;
        low = key + 1;
    }
    return held && zeros(link + LINK * n, r + ENTRIES_FROM);
}

static inline uint32_t network_of(uint64_t entry) { return (uint32_t)(entry >> MASK_BITS); }
static inline uint32_t mask_of(uint64_t entry) { return entry & UINT8_MAX; }

static inline bool entries_ok(const uint64_t *r)
{
    const uint64_t *entry = r + ENTRIES_FROM;
    uint64_t n = r[ENTRIES], all = 0, masks = 0;
    for (uint64_t i = 0; i < n; i++) {
        all |= entry[i];
        masks |= mask_of(entry[i]) + (UINT8_MAX - MASK_MOST); /* above an octet where a mask is too long */
    }
    return all >> ENTRY_BITS == 0 && masks <= UINT8_MAX && zeros(entry + n, r + RECORD);
}

static inline bool record_ok(const uint64_t *r, uint64_t low, const struct limits *l)
{
    uint64_t a = r[ADDRESS];
    if (a < low || a >> 32 || a == l->own[0] || a == l->own[1] || a == l->own[2] || a == l->own[3])
        return false;
    if (r[CURRENT] >> 16 || r[SEEN] > l->time || r[LAST_TTL] >> 8 || r[LINKS] - 1 >= LINK_MOST || r[ENTRIES] > ENTRY_MOST)
        return false;
    return links_ok(r, l) && entries_ok(r);
}

static bool well_formed(const uint64_t *c, size_t count)
{
    if (!head_ok(c, count) || !interfaces_ok(c) || !neighbours_ok(c))
        return false;
    struct limits l = {UINT64_MAX >> (64 - c[WINDOW_AT]), c[USED_AT], c[TIME_AT], {0}};
    for (uint64_t i = 0; i < BATMAN_INTERFACES; i++)
        l.own[i] = c[INTERFACES_AT + INTERFACE * (i < l.used ? i : 0) + OWN];
    const uint64_t *r = c + ALL_RECORDS_AT, *end = r + RECORD * c[RECORDS_AT];
    uint64_t low = 0;
    for (; r < end; r += RECORD) {
        if (!record_ok(r, low, &l))
            return false;
        low = r[ADDRESS] + 1;
    }
    return zeros(r, c + count);
}

/* ---- rows that rise by their key */

/* Where a key's row stands, or would: found by halving, in as many rounds. */
struct place {
    size_t at;
    bool found;
    uint64_t rounds;
};

static inline struct place find(const uint64_t *rows, size_t width, size_t n, uint64_t key)
{
    size_t low = 0;
    uint64_t rounds = 0;
    while (n > 0) {
        size_t half = n / 2;
        uint64_t other = rows[(low + half) * width];
        rounds++;
        if (other == key)
            return (struct place){low + half, true, rounds};
        if (other < key) {
            low += half + 1;
            n -= half + 1;
        } else {
            n = half;
        }
    }
    return (struct place){low, false, rounds};
}

static void put_in(uint64_t *rows, size_t width, size_t n, size_t at)
{
    memmove(rows + (at + 1) * width, rows + at * width, (n - at) * width * sizeof *rows);
}

/* A kept row goes behind those kept before it; one that is there already is not copied. */
static inline void keep_row(uint64_t *rows, size_t width, uint64_t from, uint64_t to)
{
    if (to < from)
        memcpy(rows + width * to, rows + width * from, width * sizeof *rows);
}

static inline uint64_t clear_rest(uint64_t *rows, size_t width, uint64_t kept, uint64_t n)
{
    if (kept < n)
        memset(rows + width * kept, 0, (n - kept) * width * sizeof *rows);
    return kept;
}

/* ---- records */

static inline unsigned ones(uint64_t word) { return (unsigned)__builtin_popcountll(word); }

static inline struct batman_route route_of(const uint64_t *c, const uint64_t *r)
{
    const uint64_t *link = r + LINKS_FROM;
    while (link[0] != r[BEST])
        link += LINK;
    return (struct batman_route){(uint32_t)(r[BEST] >> 2), (uint32_t)(r[BEST] & 3), ones(link[1]), (uint32_t)c[WINDOW_AT]};
}

static struct batman_route route_to(const uint64_t *c, uint32_t originator)
{
    const uint64_t *records = c + ALL_RECORDS_AT;
    struct place p = find(records, RECORD, (size_t)c[RECORDS_AT], originator);
    return p.found ? route_of(c, records + p.at * RECORD) : (struct batman_route){0, 0, 0, 0};
}

/* An arrived message. */
struct arrival {
    uint64_t key, time;
    uint32_t originator;
    uint16_t sequence;
    uint8_t ttl;
    const uint8_t *hna; /* its HNA entries, and how many */
    size_t entries;
};

/* Whether a number inside the window is marked on this link. */
static inline bool is_marked(const uint64_t *r, uint64_t key, uint16_t number)
{
    uint64_t behind = (uint16_t)(r[CURRENT] - number), n = r[LINKS];
    for (const uint64_t *link = r + LINKS_FROM, *end = link + LINK * n; link < end; link += LINK)
        if (link[0] == key)
            return link[1] >> behind & 1;
    return false;
}

/* The links as counting leaves them: at most nine, before it is known whether they fit. */
struct links {
    uint64_t cell[LINK * (LINK_MOST + 1)];
    size_t n, mine; /* how many, and the place of the one that the message came by */
};

static inline void add(struct links *l, uint64_t key, uint64_t marks)
{
    l->cell[LINK * l->n] = key;
    l->cell[LINK * l->n + 1] = marks;
    l->n++;
}

/* Every link's marks after the window has moved up by d, and this link among them with the number k below current marked. */
static inline struct links moved(const uint64_t *r, uint64_t window, uint64_t d, uint64_t k, uint64_t key)
{
    uint64_t most = UINT64_MAX >> (64 - window), mark = (uint64_t)1 << k;
    struct links l = {.n = 0};
    bool met = false;
    for (const uint64_t *link = r + LINKS_FROM, *end = link + LINK * r[LINKS]; link < end; link += LINK) {
        uint64_t marks = d < window ? link[1] << d & most : 0;
        if (!met && link[0] >= key) {
            met = true;
            l.mine = l.n;
            if (link[0] != key)
                add(&l, key, mark);
            else
                marks |= mark;
        }
        add(&l, link[0], marks);
    }
    if (!met) {
        l.mine = l.n;
        add(&l, key, mark);
    }
    return l;
}

/* Which link is then best: this one, where every other's count is below its own, or level under newest wins. */
static inline uint64_t chosen(const struct links *l, uint64_t tie, uint64_t key, uint64_t best)
{
    uint64_t count = ones(l->cell[LINK * l->mine + 1]);
    for (size_t i = 0; i < l->n; i++)
        if (i != l->mine && ones(l->cell[LINK * i + 1]) + tie > count)
            return best;
    return key;
}

/* The message's entries in place of those held, and zeros behind them where there were more. */
static inline void replace_entries(uint64_t *r, const struct arrival *m)
{
    uint64_t *entry = r + ENTRIES_FROM, was = r[ENTRIES];
    for (size_t i = 0; i < m->entries; i++)
        entry[i] = (uint64_t)read4(m->hna + ENTRY * i) << MASK_BITS | m->hna[ENTRY * i + MASK_AT];
    if (m->entries < was)
        memset(entry + m->entries, 0, (was - m->entries) * sizeof *entry);
    r[ENTRIES] = m->entries;
}

/* Counts, and answers 0; or a refusal, with nothing changed. */
static uint64_t count_message(uint64_t *r, uint64_t window, uint64_t tie, const struct arrival *m, bool is_new)
{
    uint64_t next = is_new ? m->sequence : r[CURRENT];
    struct links all = moved(r, window, (uint16_t)(next - r[CURRENT]), (uint16_t)(next - m->sequence), m->key), kept = {.n = 0};
    uint64_t best = chosen(&all, tie, m->key, r[BEST]);
    for (size_t i = 0; i < all.n; i++)
        if (all.cell[LINK * i + 1] != 0 || all.cell[LINK * i] == best)
            add(&kept, all.cell[LINK * i], all.cell[LINK * i + 1]);
    if (kept.n > LINK_MOST)
        return 11;
    if (is_new && m->entries > ENTRY_MOST)
        return 15;
    uint64_t was = r[LINKS];
    r[CURRENT] = next;
    r[SEEN] = m->time;
    r[LAST_TTL] = m->ttl;
    r[LINKS] = kept.n;
    r[BEST] = best;
    memcpy(r + LINKS_FROM, kept.cell, kept.n * LINK * sizeof *r);
    if (kept.n < was)
        memset(r + LINKS_FROM + kept.n * LINK, 0, (was - kept.n) * LINK * sizeof *r);
    if (is_new)
        replace_entries(r, m);
    return 0;
}

/* The same for the originator's first message, whose record is made at this place. */
static uint64_t make_record(uint64_t *c, size_t at, const struct arrival *m)
{
    if (c[RECORDS_AT] == c[CAPACITY_AT])
        return 10;
    if (m->entries > ENTRY_MOST)
        return 15;
    uint64_t *records = c + ALL_RECORDS_AT, *r = records + at * RECORD;
    put_in(records, RECORD, (size_t)c[RECORDS_AT], at);
    memset(r, 0, RECORD * sizeof *r);
    r[ADDRESS] = m->originator;
    r[CURRENT] = m->sequence;
    r[SEEN] = m->time;
    r[LAST_TTL] = m->ttl;
    r[LINKS] = 1;
    r[BEST] = r[LINKS_FROM] = m->key;
    r[LINKS_FROM + 1] = 1;
    replace_entries(r, m);
    c[RECORDS_AT]++;
    return 0;
}

/* The refusals that receive and own packet have in common, behind the check. */
static inline struct fault call_fault(const uint64_t *c, uint64_t interface, uint64_t time, bool is_short)
{
    if (interface >= c[USED_AT])
        return (struct fault){2, 0};
    if (time < c[TIME_AT])
        return (struct fault){3, 0};
    return (struct fault){is_short ? 4 : 0, 0};
}

/* ---- receive */

static inline struct batman_received answer(uint64_t number, struct batman_route route)
{
    return (struct batman_received){.number = number, .route = route};
}

static inline struct batman_received refusal(struct fault f) { return (struct batman_received){.number = f.number, .place = f.place}; }

static inline bool listed(const uint64_t *c, size_t field, uint32_t address)
{
    for (uint64_t i = 0; i < c[USED_AT]; i++)
        if (c[INTERFACES_AT + INTERFACE * i + field] == address)
            return true;
    return false;
}

static struct batman_received own_message(uint64_t *c, const uint8_t *packet, const struct arrival *m)
{
    const uint64_t *row = c + INTERFACES_AT + INTERFACE * (m->key & 3);
    uint64_t *rows = c + NEIGHBOURS_AT;
    bool echo = (packet[1] & D) && row[OWN] == m->originator && row[SENT] && row[LAST] == m->sequence;
    if (echo) {
        size_t n = (size_t)c[ROWS_AT];
        struct place p = find(rows, NEIGHBOUR, n, m->key);
        if (!p.found) {
            if (n == NEIGHBOUR_MOST)
                return refusal((struct fault){9, 0});
            put_in(rows, NEIGHBOUR, n, p.at);
            rows[p.at * NEIGHBOUR] = m->key;
            c[ROWS_AT]++;
        }
        rows[p.at * NEIGHBOUR + 1] = m->sequence;
    }
    c[TIME_AT] = m->time;
    return answer(echo ? 22 : 23, (struct batman_route){0, 0, 0, 0});
}

static struct batman_received others_message(uint64_t *c, const uint8_t *packet, size_t length, const struct arrival *m, uint8_t *output)
{
    uint64_t *rows = c + NEIGHBOURS_AT, *records = c + ALL_RECORDS_AT, window = c[WINDOW_AT];
    struct place p = find(records, RECORD, (size_t)c[RECORDS_AT], m->originator);
    uint64_t *r = records + p.at * RECORD;
    bool held = p.found;
    enum position position = held ? position_of((uint16_t)r[CURRENT], m->sequence, window) : NEW;
    if (position == STALE) {
        c[TIME_AT] = m->time;
        return answer(27, route_of(c, r));
    }
    bool bidirectional = find(rows, NEIGHBOUR, (size_t)c[ROWS_AT], m->key).found;
    bool direct = m->key >> 2 == m->originator, duplicate = position == INSIDE && is_marked(r, m->key, m->sequence);
    uint64_t last_ttl = held ? r[LAST_TTL] : 0;
    if (bidirectional && !duplicate) {
        uint64_t number = held ? count_message(r, window, c[TIE_AT], m, position == NEW) : make_record(c, p.at, m);
        if (number != 0)
            return refusal((struct fault){number, 0});
        held = true;
    }
    c[TIME_AT] = m->time;
    struct batman_route route = held ? route_of(c, r) : (struct batman_route){0, 0, 0, 0};
    bool by_best = bidirectional && r[BEST] == m->key && (!duplicate || m->ttl == last_ttl);
    if (m->ttl < TTL_LEAST || !(direct || by_best))
        return answer(25, route);
    pass_on(output, packet, length, direct, bidirectional);
    return (struct batman_received){.number = 26, .flags = packet[1] & UNNAMED, .route = route};
}

/* A packet behind the check. */
static struct batman_received receive_checked(void *table, size_t count, const uint8_t *packet, size_t length, uint32_t sender, uint64_t interface,
                                              uint64_t time, uint8_t *output, size_t room)
{
    uint64_t *c = table;
    struct fault f = call_fault(c, interface, time, room < length);
    (void)count;
    if (f.number == 0)
        f = packet_fault(packet, length, c[VERSION_AT]);
    if (f.number != 0)
        return refusal(f);
    struct arrival m = {(uint64_t)sender << 2 | interface, time, read4(packet + 8), read2(packet + 4), packet[2], packet + HEADER, entries_in(length)};
    uint64_t verdict = listed(c, OWN, sender) ? 20 : listed(c, BROADCAST, sender) ? 21 : 0;
    if (verdict == 0 && listed(c, OWN, m.originator))
        return own_message(c, packet, &m);
    if (verdict == 0 && packet[1] & U)
        verdict = 24;
    if (verdict == 0)
        return others_message(c, packet, length, &m, output);
    c[TIME_AT] = time;
    return answer(verdict, route_to(c, m.originator));
}

static struct batman_received receive(void *table, size_t count, const uint8_t *packet, size_t length, uint32_t sender, uint64_t interface,
                                      uint64_t time, uint8_t *output, size_t room)
{
    if (!well_formed(table, count))
        return refusal((struct fault){1, 0});
    return receive_checked(table, count, packet, length, sender, interface, time, output, room);
}

static struct batman_burst burst(void *table, size_t count, const struct burst *b)
{
    if (!well_formed(table, count))
        return (struct batman_burst){1, 0};
    return receive_burst(receive_checked, table, count, b);
}

/* ---- the other calls */

static size_t size(uint64_t capacity) { return cells_needed(capacity) * sizeof(uint64_t); }

static uint64_t make(void *table, size_t count, struct batman_settings s, struct batman_interfaces f)
{
    uint64_t *c = table, head[] = {s.version, s.window, s.timeout, s.purge, s.capacity, s.tie, f.used};
    if (!settings_ok(head) || f.used - 1 >= BATMAN_INTERFACES || count != cells_needed(s.capacity))
        return 12;
    for (uint64_t i = 0; i < f.used; i++)
        for (uint64_t j = 0; j < i; j++)
            if (f.row[i].own == f.row[j].own)
                return 12;
    memset(c, 0, count * sizeof *c);
    memcpy(c, head, sizeof head);
    for (uint64_t i = 0; i < f.used; i++) {
        uint64_t *row = c + INTERFACES_AT + INTERFACE * i;
        row[OWN] = f.row[i].own;
        row[BROADCAST] = f.row[i].broadcast;
        row[FIRST] = f.row[i].first;
    }
    return 0;
}

static inline bool recent_row(const uint64_t *c, const uint64_t *row, uint64_t interface, uint64_t last)
{
    return (row[0] & 3) != interface || (uint16_t)(last - row[1]) < c[TIMEOUT_AT];
}

static struct batman_written own_packet(void *table, size_t count, uint64_t interface, uint64_t time, uint8_t ttl, uint8_t gateway,
                                        uint16_t port, const uint8_t *hna, size_t hna_length, uint8_t *output, size_t room)
{
    uint64_t *c = table;
    if (!well_formed(c, count))
        return (struct batman_written){1, 0, 0, 0};
    struct fault f = call_fault(c, interface, time, room < HEADER || room - HEADER < hna_length);
    if (f.number == 0)
        f = written_fault(hna, hna_length, ttl);
    if (f.number != 0)
        return (struct batman_written){f.number, f.place, 0, 0};
    uint64_t *row = c + INTERFACES_AT + INTERFACE * interface;
    uint16_t sequence = (uint16_t)(row[SENT] ? row[LAST] + 1 : row[FIRST]);
    write_packet(output, (uint8_t)c[VERSION_AT], ttl, gateway, sequence, port, (uint32_t)row[OWN], hna, hna_length);
    row[SENT] = 1;
    row[LAST] = sequence;
    uint64_t *rows = c + NEIGHBOURS_AT, n = c[ROWS_AT], kept = 0;
    for (uint64_t i = 0; i < n; i++)
        if (recent_row(c, rows + NEIGHBOUR * i, interface, sequence))
            keep_row(rows, NEIGHBOUR, i, kept++);
    c[ROWS_AT] = clear_rest(rows, NEIGHBOUR, kept, n);
    c[TIME_AT] = time;
    return (struct batman_written){0, 0, HEADER + hna_length, sequence};
}

static struct batman_swept sweep(void *table, size_t count, uint64_t time)
{
    uint64_t *c = table;
    if (!well_formed(c, count))
        return (struct batman_swept){1, 0};
    if (time < c[TIME_AT])
        return (struct batman_swept){3, 0};
    uint64_t *records = c + ALL_RECORDS_AT, n = c[RECORDS_AT], kept = 0;
    for (uint64_t i = 0; i < n; i++)
        if (time - records[RECORD * i + SEEN] <= c[PURGE_AT])
            keep_row(records, RECORD, i, kept++);
    c[RECORDS_AT] = clear_rest(records, RECORD, kept, n);
    c[TIME_AT] = time;
    return (struct batman_swept){0, n - kept};
}

static struct batman_asked best(const void *table, size_t count, uint32_t originator)
{
    const uint64_t *c = table;
    if (!well_formed(c, count))
        return (struct batman_asked){1, {0, 0, 0, 0}};
    return (struct batman_asked){0, route_to(c, originator)};
}

/* What a lookup has found so far, and the least mask that is better: of equal masks the one met first stays, as originators rise. */
struct search {
    struct batman_located best;
    uint32_t least;
};

static inline void search_record(const uint64_t *r, uint32_t address, struct search *s)
{
    const uint64_t *entry = r + ENTRIES_FROM;
    uint64_t n = r[ENTRIES];
    for (uint64_t i = 0; i < n; i++) {
        uint32_t network = network_of(entry[i]), mask = mask_of(entry[i]);
        if (mask >= s->least && covers(network, mask, address))
            *s = (struct search){{0, 1, (uint32_t)r[ADDRESS], network, mask}, mask + 1};
    }
}

static struct batman_located lookup(const void *table, size_t count, uint32_t address)
{
    const uint64_t *c = table;
    if (!well_formed(c, count))
        return (struct batman_located){1, 0, 0, 0, 0};
    struct search s = {{0, 0, 0, 0, 0}, 0};
    for (const uint64_t *r = c + ALL_RECORDS_AT, *end = r + RECORD * c[RECORDS_AT]; r < end; r += RECORD)
        search_record(r, address, &s);
    return s.best;
}

static struct searches search(const void *table, size_t count, const uint32_t *originators, size_t n)
{
    const uint64_t *c = table;
    struct searches all = {0, 0, 0};
    if (!well_formed(c, count))
        return (struct searches){1, 0, 0};
    for (size_t i = 0; i < n; i++) {
        struct place p = find(c + ALL_RECORDS_AT, RECORD, (size_t)c[RECORDS_AT], originators[i]);
        all.held += p.found;
        all.most = p.rounds > all.most ? p.rounds : all.most;
    }
    return all;
}

const struct version VERSION = {"cells", true, size, make, receive, burst, own_packet, sweep, best, lookup, search, packet_check};
