/* Times the library's calls beside two versions in C, in short slices that take turns, after it has seen that these answer alike. */
#define _POSIX_C_SOURCE 200809L

#include <inttypes.h>
#include <stdio.h>
#include <stdlib.h>
#include <string.h>
#include <time.h>

#include "../../demo/random.h"
#include "calls.h"

enum {
    PROVED,
    CELLS_CLANG,
    CELLS_GCC,
    PLAIN_CLANG,
    PLAIN_GCC,
    OF_THIS_TREE, /* so many: these go by the same rules */
#ifdef BEFORE
    EARLIER = OF_THIS_TREE, /* another archive of the library, which may go by earlier rules */
    VERSIONS,
#else
    VERSIONS = OF_THIS_TREE,
#endif
    SINGLES = VERSIONS, /* the library's single calls, which are timed beside its bursts on a table of their own */
    PLAYERS,
    COMPARED = 1000000, /* calls */
    SLICES = 61,       /* of which the median is taken */
    LINKS = 8,
    WINDOW = 64,
    HALF_WAY = 32768,  /* numbers, of 65,536 */
    MOST = 256,        /* originators */
    CALLS_MOST = 1024, /* in a slice */
    SEARCHES = 8192,   /* in a slice, after one check of the table */
    COPIES_MOST = 32,
    ENTRIES_CHECKED = 292, /* of the packets that are only checked, at most */
    PURGE = 2000000000,
    FILLING = 100 /* numbers of each originator before anything is timed */
};

static const struct version *const versions[VERSIONS] = {
    [PROVED] = &proved, [CELLS_CLANG] = &cells_clang, [CELLS_GCC] = &cells_gcc, [PLAIN_CLANG] = &plain_clang, [PLAIN_GCC] = &plain_gcc,
#ifdef BEFORE
    [EARLIER] = &before,
#endif
};

enum { AT_1, AT_16, AT_64, AT_256, SIZES };

static const unsigned sizes[SIZES] = {[AT_1] = 1, [AT_16] = 16, [AT_64] = 64, [AT_256] = MOST}; /* originators */

static const uint8_t own_hna[] = {10, 7, 0, 0, 16, 192, 168, 4, 0, 24};

/* Every message of an originator has as many entries as are held: one with a new number replaces 16 by 16. */
enum { ENTRIES = BATMAN_ENTRIES_MOST, PACKET = 12 + 5 * ENTRIES };

/* All networks lie in this one, which every originator announces too. */
enum { YARD_NETWORK = 0x0ab00000, YARD_MASK = 12, NETWORK_MASK = 24, HOST = 9 };

struct arrival {
    uint8_t packet[PACKET];
    uint32_t sender;
    uint64_t interface, time;
};

/* What a slice plays, the same for every version; and the arrivals once more as bursts take them. */
struct slice {
    struct arrival arrival[CALLS_MOST];
    unsigned calls, burst; /* how many in all, and of how many packets a burst is */
    uint64_t time;
    unsigned entries; /* of the packet that is only checked */
    uint8_t checked[12 + 5 * ENTRIES_CHECKED];
    uint8_t octets[CALLS_MOST][PACKET];
    uint64_t lengths[CALLS_MOST], interfaces[CALLS_MOST];
    uint32_t senders[CALLS_MOST];
    uint32_t sought[SEARCHES];
};

/* A mesh with its tables, one for each version, and copies of them for calls that can be made only once. */
struct mesh {
    int size; /* its place among the sizes */
    unsigned originators, calls, copies;
    size_t count;
    uint64_t time, random;
    uint16_t sequence[MOST];
    uint8_t heard[MOST]; /* the links that have brought the current number, a bit each */
    void *table[PLAYERS], *copy[VERSIONS][COPIES_MOST];
};

static void stop(const char *why)
{
    printf("calls: %s\n", why);
    exit(EXIT_FAILURE);
}

static uint64_t below(struct mesh *m, uint64_t n) { return random_below(&m->random, n); }

/* The first eight originators are the neighbours, by two interfaces in turn. */
static uint32_t address_of(unsigned originator) { return 0x0a010001u + originator * 259; }
static uint64_t interface_of(unsigned neighbour) { return neighbour % 2; }

/* The networks of each originator are numbered from 0; no two are the same. */
static uint32_t network_of(unsigned originator, unsigned n) { return YARD_NETWORK + 256 * ((ENTRIES - 1) * originator + n); }

/* ---- arrivals */

static void write_entry(uint8_t *entry, uint32_t network, uint8_t mask)
{
    const uint8_t octets[] = {(uint8_t)(network >> 24), (uint8_t)(network >> 16), (uint8_t)(network >> 8), (uint8_t)network, mask};
    memcpy(entry, octets, sizeof octets);
}

/* The entries are left zeros: what an echo has there doesn't matter. */
static struct arrival arrive(struct mesh *m, uint32_t originator, uint16_t sequence, unsigned neighbour, uint8_t flags)
{
    return (struct arrival){{4, flags, (uint8_t)(40 + below(m, 4)), 0, (uint8_t)(sequence >> 8), (uint8_t)sequence, 0, 0, (uint8_t)(originator >> 24),
                             (uint8_t)(originator >> 16), (uint8_t)(originator >> 8), (uint8_t)originator},
                            address_of(neighbour), interface_of(neighbour), ++m->time};
}

/* A number of an originator by a neighbour: whichever link brings it, it has the same entries. */
static struct arrival message(struct mesh *m, unsigned o, uint16_t number, unsigned neighbour)
{
    struct arrival a = arrive(m, address_of(o), number, neighbour, 0);
    uint8_t *entry = a.packet + 12;
    write_entry(entry, YARD_NETWORK, YARD_MASK);
    for (unsigned n = 0; n < ENTRIES - 1; n++)
        write_entry(entry += 5, network_of(o, n), NETWORK_MASK);
    return a;
}

/* A number that comes again by a link that hasn't brought it yet, the first ones rather; after some, the next number. */
static struct arrival relayed(struct mesh *m, unsigned o)
{
    unsigned link = (unsigned)below(m, LINKS), other = (unsigned)below(m, LINKS);
    if (m->heard[o] == 255 || below(m, 6) == 0) {
        m->heard[o] = 0;
        m->sequence[o]++;
    }
    link = link < other ? link : other;
    while (m->heard[o] >> link & 1)
        link = (link + 1) % LINKS;
    m->heard[o] |= (uint8_t)(1u << link);
    return message(m, o, m->sequence[o], link);
}

/* A neighbour's own packet. */
static struct arrival direct(struct mesh *m, unsigned o)
{
    m->heard[o] = (uint8_t)(1u << o);
    m->sequence[o]++;
    return message(m, o, m->sequence[o], o);
}

/* A number below the window, any down to the one half way round, by any neighbour. */
static struct arrival stale(struct mesh *m, unsigned o)
{
    uint16_t number = (uint16_t)(m->sequence[o] - WINDOW - below(m, HALF_WAY - WINDOW + 1));
    return message(m, o, number, (unsigned)below(m, LINKS));
}

static struct batman_received take(const struct version *v, void *table, size_t count, const struct arrival *a)
{
    uint8_t out[PACKET];
    return v->receive(table, count, a->packet, PACKET, a->sender, a->interface, a->time, out, sizeof out);
}

static void take_all(struct mesh *m, const struct arrival *a)
{
    for (int v = 0; v < VERSIONS; v++)
        if (take(versions[v], m->table[v], m->count, a).number < 22)
            stop("a packet was refused while the tables were filled");
}

/* Own packets of both interfaces, and their echoes by every neighbour. */
static void echo_all(struct mesh *m)
{
    for (uint64_t i = 0; i < 2; i++) {
        struct batman_written w = {0, 0, 0, 0};
        uint8_t out[12];
        for (int v = 0; v < VERSIONS; v++)
            w = versions[v]->own_packet(m->table[v], m->count, i, m->time, 50, 0, 0, NULL, 0, out, sizeof out);
        for (unsigned n = 0; n < LINKS; n++) {
            struct arrival a = arrive(m, 0x0a020001u + (uint32_t)i, w.sequence, n, 64);
            if (interface_of(n) == i)
                take_all(m, &a);
        }
    }
}

static void hear_round(struct mesh *m, unsigned without)
{
    for (unsigned o = 0; o < m->originators; o++)
        for (int i = 0; o != without && i < LINKS - 3; i++) {
            struct arrival a = relayed(m, o);
            take_all(m, &a);
        }
}

/* ---- the mesh */

static void *memory(size_t octets)
{
    void *p = malloc(octets);
    if (p == NULL)
        stop("no memory");
    return p;
}

/* An address in one of the networks, a different one for each i: covered by that network's entry, and by one with a shorter mask of every originator. */
static uint32_t looked_up(const struct mesh *m, unsigned i) { return network_of(i * 7 % m->originators, i % (ENTRIES - 1)) + HOST; }

/* Each record has its 16 entries: the last of them is found. */
static void all_entries_held(const struct mesh *m)
{
    for (unsigned o = 0; o < m->originators; o++)
        for (int v = 0; v < VERSIONS; v++)
            if (versions[v]->lookup(m->table[v], m->count, network_of(o, ENTRIES - 2)).originator != address_of(o))
                stop("an originator's entries are not held");
}

/* A search for each originator, and for an address that none has, takes as many rounds in every version that counts them. */
static void same_rounds(const struct mesh *m)
{
    for (unsigned i = 0; i < 2 * m->originators; i++) {
        uint32_t address = address_of(i / 2) + i % 2;
        struct searches first = proved.search(m->table[PROVED], m->count, &address, 1);
        for (int v = 1; v < VERSIONS; v++) {
            if (!versions[v]->has_cells || versions[v]->search == NULL)
                continue;
            struct searches s = versions[v]->search(m->table[v], m->count, &address, 1);
            if (s.number != first.number || s.held != first.held || s.most != first.most)
                stop("a search took another number of rounds");
        }
    }
}

static void open_mesh(struct mesh *m, int size, enum batman_tie tie)
{
    unsigned originators = sizes[size];
    struct batman_settings s = {.version = 4, .window = WINDOW, .timeout = 1000, .purge = PURGE, .capacity = originators, .tie = tie};
    struct batman_interfaces f = {.row = {{0x0a020001, 0x0a02ffff, 1}, {0x0a020002, 0x0a02ffff, 1}}, .used = 2};
    *m = (struct mesh){.size = size, .originators = originators, .calls = originators > 64 ? 256 : originators > 16 ? 512 : CALLS_MOST,
                       .copies = originators > 64 ? 8 : originators > 16 ? 16 : COPIES_MOST, .random = random_seeded(originators)};
    m->count = (size_t)batman_cells_needed(originators);
    m->table[SINGLES] = memory(proved.size(originators));
    for (int v = 0; v < VERSIONS; v++) {
        size_t octets = versions[v]->size(originators);
        m->table[v] = memory(octets);
        if (versions[v]->make(m->table[v], m->count, s, f) != 0)
            stop("no table could be made");
        for (unsigned i = 0; i < m->copies; i++)
            m->copy[v][i] = memory(octets);
    }
    echo_all(m);
    for (int i = 0; i < FILLING; i++)
        hear_round(m, originators);
    all_entries_held(m);
    same_rounds(m);
}

static void close_mesh(struct mesh *m)
{
    free(m->table[SINGLES]);
    for (int v = 0; v < VERSIONS; v++) {
        free(m->table[v]);
        for (unsigned i = 0; i < m->copies; i++)
            free(m->copy[v][i]);
    }
}

static void copy_tables(struct mesh *m, int v)
{
    for (unsigned i = 0; i < m->copies; i++)
        memcpy(m->copy[v][i], m->table[v], versions[v]->size(m->originators));
}

/* ---- what is timed: each plays a slice on one version, and answers a sum over the answers */

typedef uint64_t play(const struct version *v, struct mesh *m, int place, const struct slice *s);

static uint64_t sum_of(struct batman_received r) { return r.number * 64 + r.route.count; }

static uint64_t play_receive(const struct version *v, struct mesh *m, int place, const struct slice *s)
{
    uint64_t sum = 0;
    for (unsigned i = 0; i < s->calls; i++)
        sum += sum_of(take(v, m->table[place], m->count, &s->arrival[i]));
    return sum;
}

/* A slice's packets from `at` on as one burst. */
static uint64_t take_burst(const struct version *v, void *table, size_t count, const struct slice *s, unsigned at)
{
    uint8_t out[BATMAN_PACKETS_MOST * PACKET];
    struct batman_received answers[BATMAN_PACKETS_MOST];
    size_t n = s->burst;
    uint64_t sum = 0;
    struct batman_burst b = v->burst(table, count, &(struct burst){
        .octets = s->octets[at], .length = n * PACKET, .lengths = s->lengths + at, .lengths_count = n, .senders = s->senders + at,
        .senders_count = n, .interfaces = s->interfaces + at, .interfaces_count = n, .time = s->arrival[at + n - 1].time,
        .output = out, .room = n * PACKET, .answers = answers, .rows = n});
    if (b.number != 0)
        stop("a burst was refused");
    for (size_t i = 0; i < n; i++)
        sum += sum_of(answers[i]);
    return sum;
}

static uint64_t play_bursts(const struct version *v, struct mesh *m, int place, const struct slice *s)
{
    uint64_t sum = 0;
    for (unsigned at = 0; at < s->calls; at += s->burst)
        sum += take_burst(v, m->table[place], m->count, s, at);
    return sum;
}

static uint64_t play_first(const struct version *v, struct mesh *m, int place, const struct slice *s)
{
    uint64_t sum = 0;
    for (unsigned i = 0; i < s->calls; i++)
        sum += sum_of(take(v, m->copy[place][i], m->count, &s->arrival[0]));
    return sum;
}

static uint64_t play_own(const struct version *v, struct mesh *m, int place, const struct slice *s)
{
    uint8_t out[PACKET];
    uint64_t sum = 0;
    for (unsigned i = 0; i < s->calls; i++)
        sum += v->own_packet(m->table[place], m->count, 0, s->time, 50, 0, 0, own_hna, sizeof own_hna, out, sizeof out).sequence + out[5];
    return sum;
}

static uint64_t play_sweep(const struct version *v, struct mesh *m, int place, const struct slice *s)
{
    uint64_t sum = 0;
    for (unsigned i = 0; i < s->calls; i++) {
        struct batman_swept a = v->sweep(m->table[place], m->count, s->time);
        sum += a.number + a.removed;
    }
    return sum;
}

static uint64_t play_sweep_one(const struct version *v, struct mesh *m, int place, const struct slice *s)
{
    uint64_t sum = 0;
    for (unsigned i = 0; i < s->calls; i++)
        sum += v->sweep(m->copy[place][i], m->count, s->time).removed;
    return sum;
}

static uint64_t play_best(const struct version *v, struct mesh *m, int place, const struct slice *s)
{
    uint64_t sum = 0;
    for (unsigned i = 0; i < s->calls; i++)
        sum += v->best(m->table[place], m->count, address_of(i * 7 % m->originators)).route.count;
    return sum;
}

static uint64_t play_lookup(const struct version *v, struct mesh *m, int place, const struct slice *s)
{
    uint64_t sum = 0;
    for (unsigned i = 0; i < s->calls; i++) {
        struct batman_located l = v->lookup(m->table[place], m->count, looked_up(m, i));
        sum += l.originator + l.network + l.mask;
    }
    return sum;
}

static uint64_t play_search(const struct version *v, struct mesh *m, int place, const struct slice *s)
{
    return v->search(m->table[place], m->count, s->sought, s->calls).held;
}

static uint64_t play_check(const struct version *v, struct mesh *m, int place, const struct slice *s)
{
    uint64_t sum = 0;
    (void)m, (void)place;
    for (unsigned i = 0; i < s->calls; i++)
        sum += v->packet_check(s->checked, 12 + 5 * s->entries, 4);
    return sum;
}

/* ---- slices */

typedef void prepare(struct mesh *m, struct slice *s);

static void prepare_relayed(struct mesh *m, struct slice *s)
{
    for (unsigned i = 0; i < s->calls; i++)
        s->arrival[i] = relayed(m, (unsigned)below(m, m->originators));
}

static void prepare_bursts(struct mesh *m, struct slice *s)
{
    prepare_relayed(m, s);
    for (unsigned i = 0; i < s->calls; i++) {
        const struct arrival *a = &s->arrival[i];
        memcpy(s->octets[i], a->packet, PACKET);
        s->lengths[i] = PACKET;
        s->senders[i] = a->sender;
        s->interfaces[i] = a->interface;
    }
}

static void prepare_direct(struct mesh *m, struct slice *s)
{
    for (unsigned i = 0; i < s->calls; i++)
        s->arrival[i] = direct(m, (unsigned)below(m, m->originators < LINKS ? m->originators : LINKS));
}

static void prepare_stale(struct mesh *m, struct slice *s)
{
    for (unsigned i = 0; i < s->calls; i++)
        s->arrival[i] = stale(m, (unsigned)below(m, m->originators));
}

/* Echoes keep the neighbour rows, however many own packets have gone out. */
static void prepare_time(struct mesh *m, struct slice *s)
{
    echo_all(m);
    s->time = m->time;
}

/* Of four one that has no record. */
static void prepare_search(struct mesh *m, struct slice *s)
{
    s->calls = SEARCHES;
    for (unsigned i = 0; i < SEARCHES; i++)
        s->sought[i] = address_of((unsigned)below(m, m->originators)) + (below(m, 4) == 0);
}

/* Entries without fault: every bit above the mask set, masks of 8 to 32. */
static void prepare_check(struct mesh *m, struct slice *s)
{
    (void)m;
    s->checked[0] = 4;
    for (unsigned k = 0; k < s->entries; k++) {
        uint8_t mask = (uint8_t)(8 + k % 25);
        write_entry(s->checked + 12 + 5 * k, UINT32_MAX << (32 - mask), mask);
    }
}

static void prepare_copies(struct mesh *m, struct slice *s)
{
    s->calls = m->copies;
    s->time = m->time;
    s->arrival[0] = message(m, m->originators / 2, m->sequence[m->originators / 2], 0);
}

/* ---- timing */

/* The rows, as docs/BENCHMARK.md shows them: those of bursts in a table of their own. */
enum { RELAYED, TIES, DIRECT, STALE, OWN, SWEEP, BEST, LOOKUP, SEARCH, CHECK_2, CHECK_16, CHECK_292, SWEEP_ONE, FIRST, BURST_8, BURST_32, ROWS };

static const struct row {
    const char *name;
    prepare *prepare;
    play *play;
    bool on_copies;
    unsigned burst;   /* packets of a burst, or 0 */
    unsigned entries; /* of a packet that is only checked, or 0 */
} rows[ROWS] = {
    [RELAYED] = {"receive, relayed", prepare_relayed, play_receive, false, 0, 0},
    [TIES] = {"receive, relayed, ties stay", prepare_relayed, play_receive, false, 0, 0},
    [DIRECT] = {"receive, direct", prepare_direct, play_receive, false, 0, 0},
    [STALE] = {"receive, stale", prepare_stale, play_receive, false, 0, 0},
    [OWN] = {"own packet, 2 HNA entries", prepare_time, play_own, false, 0, 0},
    [SWEEP] = {"sweep, none removed", prepare_time, play_sweep, false, 0, 0},
    [BEST] = {"best question", prepare_time, play_best, false, 0, 0},
    [LOOKUP] = {"lookup", prepare_time, play_lookup, false, 0, 0},
    [SEARCH] = {"search alone", prepare_search, play_search, false, 0, 0},
    [CHECK_2] = {"packet check, 2 entries", prepare_check, play_check, false, 0, 2},
    [CHECK_16] = {"packet check, 16 entries", prepare_check, play_check, false, 0, 16},
    [CHECK_292] = {"packet check, 292 entries", prepare_check, play_check, false, 0, ENTRIES_CHECKED},
    [SWEEP_ONE] = {"sweep, one removed", prepare_copies, play_sweep_one, true, 0, 0},
    [FIRST] = {"receive, first of originator", prepare_copies, play_first, true, 0, 0},
    [BURST_8] = {"burst of 8, a packet", prepare_bursts, play_bursts, false, 8, 0},
    [BURST_32] = {"burst of 32, a packet", prepare_bursts, play_bursts, false, 32, 0},
};

/* What each player took, in nanoseconds. */
static double took[ROWS][SIZES][PLAYERS];

static double nanoseconds(void)
{
    struct timespec t;
    clock_gettime(CLOCK_MONOTONIC, &t);
    return (double)t.tv_sec * 1e9 + (double)t.tv_nsec;
}

static int by_size(const void *a, const void *b)
{
    double x = *(const double *)a, y = *(const double *)b;
    return (x > y) - (x < y);
}

static double median(double *x, int n)
{
    qsort(x, (size_t)n, sizeof *x, by_size);
    return x[n / 2];
}

/* Plays a slice on one player's table, and says how long a call, or a packet of a burst, took. */
static double time_slice(struct mesh *m, const struct row *r, int player, const struct slice *s, uint64_t *sum)
{
    if (r->on_copies) /* just before they are used, so that every version's are as near to the processor */
        copy_tables(m, player);
    double start = nanoseconds();
    *sum = player == SINGLES ? play_receive(&proved, m, SINGLES, s) : r->play(versions[player], m, player, s);
    return (nanoseconds() - start) / s->calls;
}

static void same_sums(const uint64_t *sum, int players)
{
    for (int v = 1; v < players; v++)
        if (sum[v] != sum[0])
            stop("the versions answered differently while they were timed");
}

static void time_row(struct mesh *m, int row)
{
    static struct slice s;
    static double slice[PLAYERS][SLICES];
    const struct row *r = &rows[row];
    bool not_before = r->play == play_search || r->prepare == prepare_stale; /* an earlier archive has no search alone, and may count stale numbers */
    int players = not_before ? OF_THIS_TREE : r->burst > 0 ? PLAYERS : VERSIONS;
    memcpy(m->table[SINGLES], m->table[0], m->count * sizeof(uint64_t)); /* the single calls begin where the bursts do */
    for (int i = 0; i < SLICES; i++) {
        uint64_t sum[PLAYERS];
        s.calls = m->calls;
        s.burst = r->burst;
        s.entries = r->entries;
        r->prepare(m, &s);
        for (int turn = 0; turn < players; turn++) {
            int v = (turn + i) % players;
            slice[v][i] = time_slice(m, r, v, &s, &sum[v]);
        }
        same_sums(sum, players);
    }
    for (int v = 0; v < players; v++)
        took[row][m->size][v] = median(slice[v], SLICES);
}

/* Leaves one originator unheard for longer than the purge timeout, and all others heard just now. */
static void age_one(struct mesh *m)
{
    m->time += (uint64_t)PURGE + 1;
    for (int i = 0; i < FILLING; i++)
        hear_round(m, m->originators / 2);
}

static void remove_one(struct mesh *m)
{
    for (int v = 0; v < VERSIONS; v++)
        if (versions[v]->sweep(m->table[v], m->count, m->time).removed != 1)
            stop("the sweep didn't remove the one that it should");
}

static void same_cells(const struct mesh *m)
{
    for (int v = 1; v < VERSIONS; v++)
        if (versions[v]->has_cells && memcmp(m->table[v], m->table[0], m->count * sizeof(uint64_t)) != 0)
            stop("the cells differ after the timed calls");
}

static void time_mesh(int size)
{
    static const int steady[] = {RELAYED, BURST_8, BURST_32, STALE, DIRECT, OWN, SWEEP, BEST, LOOKUP, SEARCH, CHECK_2, CHECK_16, CHECK_292};
    static struct mesh m;
    open_mesh(&m, size, BATMAN_NEWEST_WINS); /* as it was before there was a choice: these rows stay comparable */
    for (size_t i = 0; i < sizeof steady / sizeof *steady; i++)
        time_row(&m, steady[i]);
    age_one(&m);
    time_row(&m, SWEEP_ONE);
    remove_one(&m);
    time_row(&m, FIRST);
    same_cells(&m);
    close_mesh(&m);
}

static void time_ties(int size)
{
    static struct mesh m;
    open_mesh(&m, size, BATMAN_PRESENT_STAYS);
    time_row(&m, TIES);
    same_cells(&m);
    close_mesh(&m);
}

/* ---- what is printed: tables in Markdown, ready for docs/BENCHMARK.md */

/* The faster of two compilers' versions, and a letter for the compiler. */
static double faster(double clang, double gcc, char *which)
{
    *which = clang <= gcc ? 'c' : 'g';
    return clang <= gcc ? clang : gcc;
}

static double beside_cells(int row, int size)
{
    char which;
    return took[row][size][PROVED] / faster(took[row][size][CELLS_CLANG], took[row][size][CELLS_GCC], &which);
}

static double beside_singles(int row, int size) { return took[row][size][PROVED] / took[row][size][SINGLES]; }


static void print_row(int row, int size)
{
    const double *ns = took[row][size];
    char cells_by, plain_by;
    double cells = faster(ns[CELLS_CLANG], ns[CELLS_GCC], &cells_by), plain = faster(ns[PLAIN_CLANG], ns[PLAIN_GCC], &plain_by);
    printf("| %-28s | %11u | %9.1f | %6.1f %c | %5.2f | %5.1f %c |", rows[row].name, sizes[size], ns[PROVED], cells, cells_by, beside_cells(row, size),
           plain, plain_by);
#ifdef BEFORE
    printf(" %9.1f | %9.3f |", ns[EARLIER], ns[EARLIER] > 0 ? ns[PROVED] / ns[EARLIER] : 0);
#endif
    if (rows[row].burst > 0)
        printf(" %9.1f | %11.2f |", ns[SINGLES], beside_singles(row, size));
    printf("\n");
}

static void print_rows(int from, int to)
{
    for (int row = from; row < to; row++)
        for (int size = 0; size < SIZES; size++)
            print_row(row, size);
}

static void print_aim(const char *aim, double most, double is)
{
    printf("%s: at most %.2f, and is %.3f: %s\n", aim, most, is, is <= most ? "holds" : "doesn't hold");
}

static double larger(double a, double b) { return a > b ? a : b; }

/* The highest ratio to (a) of the rows from one on. */
static double slowest_from(int from)
{
    double most = 0;
    for (int row = from; row < ROWS; row++)
        for (int size = 0; size < SIZES; size++)
            most = larger(most, beside_cells(row, size));
    return most;
}

/* In microseconds, of the rows of single packets. */
static double slowest_receive(int size)
{
    static const int receive[] = {RELAYED, TIES, DIRECT, STALE, FIRST};
    double most = 0;
    for (size_t i = 0; i < sizeof receive / sizeof *receive; i++)
        most = larger(most, took[receive[i]][size][0] / 1000);
    return most;
}

#ifdef BEFORE
#define COLUMNS_BEFORE " before ns | of before |"
#define RULE_BEFORE "---:|---:|"
#else
#define COLUMNS_BEFORE ""
#define RULE_BEFORE ""
#endif

static void print_all(void)
{
    static const char *const columns = "| call                         | originators | proved ns |   (a) ns | ratio |  (b) ns |" COLUMNS_BEFORE;
    static const char *const rule = "|---|---:|---:|---:|---:|---:|" RULE_BEFORE;
    printf("\n%s\n%s\n", columns, rule);
    print_rows(0, BURST_8);
    printf("\n%s single ns | of a single |\n%s---:|---:|\n", columns, rule);
    print_rows(BURST_8, ROWS);
    printf("\n(a) the same cells and the same check in C, (b) structs of its own and no check; c by clang, g by gcc, the faster of the two.\n");
    printf("Single: as many single calls of the proved library. The median of %d slices, in which the versions take turns.\n\n", SLICES);
    print_aim("a packet of a burst of 32 at 64 originators beside a single call", 0.25, beside_singles(BURST_32, AT_64));
    print_aim("a packet of a burst of 32 at 256 originators beside a single call", 0.10, beside_singles(BURST_32, AT_256));
    print_aim("a packet of any burst beside (a)", 1.10, slowest_from(BURST_8));
    print_aim("any call beside (a)", 1.10, slowest_from(0));
    print_aim("receive at 64 originators, in microseconds", 2, slowest_receive(AT_64));
}

int main(void)
{
    if (!compare(versions, OF_THIS_TREE, COMPARED))
        return EXIT_FAILURE;
    fflush(stdout);
    for (int size = 0; size < SIZES; size++) {
        time_mesh(size);
        time_ties(size);
    }
    print_all();
    return EXIT_SUCCESS;
}
