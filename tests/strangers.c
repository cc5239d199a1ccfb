/* What a stranger's packets can do to a node and what they can't: each attack and limit that docs/THREATS.md names, run through the public calls.
 * Prints a line for each claim; the first thing that is not as claimed ends it with status 1. */
#define _POSIX_C_SOURCE 200809L

#include <inttypes.h>
#include <stdarg.h>
#include <stdbool.h>
#include <stdio.h>
#include <stdlib.h>
#include <string.h>
#include <sys/socket.h>
#include <unistd.h>

#include "../demo/random.h"
#include "batman.h"

/* Places in a table and in a record, by docs/LAYOUT.md; bits of a flags octet, by RULES 3.3; sequence numbers there are, and how far above current the last new one lies, by RULES 4.2. */
enum { TIME_AT = 7, LINKS_HELD_AT = 4, ENTRIES_HELD_AT = 6, LINKS_AT = 7, LINK_CELLS = 2, ENTRIES_AT = 23, CELL_BITS = 64 };
enum { U = 128, D = 64, FLAGS_AT = 1, TTL_AT = 2 };
enum { NUMBERS = 65536, NEW_MOST = 32767 };

/* Milliseconds between two own packets (draft 8), the TTL of every message here, and a number far above those that are sent, and still new. */
enum { INTERVAL = 1000, TTL = 50, FAR = 30000 };

/* We have up to two interfaces; THEY are another node of this kind. NEAR and NEAR_TOO are honest neighbours, ORIGINATOR is an honest node further off.
 * STRANGER is the address of one who sends what he likes; addresses from MADE_UP on belong to nobody. */
enum { US = 0x0a010001, US_TOO, THEY, NEAR, NEAR_TOO, ORIGINATOR, STRANGER, BROADCAST = 0x0a01ffff, MADE_UP = 0x0a020000 };

/* Networks behind the nodes, from 100.64.0.0/24 on, and one of each kind of host in them. */
enum { NETWORKS = 0x64400000, PRINTER = 7, OTHER_HOST = 8 };

static const struct batman_settings defaults = BATMAN_SETTINGS_DEFAULT;

struct node {
    uint64_t cells[BATMAN_CELLS_MOST], before[BATMAN_CELLS_MOST];
    size_t count;
    uint32_t address;
    uint64_t now;
    uint16_t sent;    /* the number of the last own packet on interface 0 */
    unsigned packets; /* how many were given to it */
    uint8_t output[BATMAN_READ_SIZE];
};

static struct node us, they;

static unsigned claims;

/* ---- what is claimed */

static void must(const char *what, uint64_t is, uint64_t should)
{
    if (is == should)
        return;
    fprintf(stderr, "strangers: claim %u fails: %s: is %" PRIu64 ", should be %" PRIu64 "\n", claims + 1, what, is, should);
    exit(EXIT_FAILURE);
}

/* Ends a function below: all that it asked for came true. */
__attribute__((format(printf, 1, 2))) static void claim(const char *format, ...)
{
    va_list values;
    va_start(values, format);
    vprintf(format, values);
    va_end(values);
    printf("\n");
    claims++;
}

/* ---- a node */

/* An interval passes, and the node sends its next packet on interface 0. */
static void send_own(struct node *n)
{
    n->now += INTERVAL;
    struct batman_written w = batman_own_packet(n->cells, n->count, 0, n->now, TTL, 0, 0, NULL, 0, n->output, sizeof n->output);
    must("an own packet", w.number, 0);
    n->sent = w.sequence;
}

/* Default settings but for the capacity. The first packet is sent, so that there is one to echo. */
static void begin(struct node *n, uint32_t address, uint64_t capacity, uint64_t interfaces)
{
    struct batman_settings s = defaults;
    struct batman_interfaces f = {.row = {{address, BROADCAST, 1}, {US_TOO, BROADCAST, 1}}, .used = interfaces};
    s.capacity = capacity;
    *n = (struct node){.count = (size_t)batman_cells_needed(capacity), .address = address};
    must("make", batman_make(n->cells, n->count, s, f), 0);
    send_own(n);
}

static struct batman_received take(struct node *n, const uint8_t *packet, size_t length, uint32_t sender)
{
    n->packets++;
    return batman_receive(n->cells, n->count, packet, length, sender, 0, n->now, n->output, sizeof n->output);
}

static void write_address(uint8_t *octets, uint32_t address)
{
    for (int i = 0; i < 4; i++)
        octets[i] = (uint8_t)(address >> 8 * (3 - i));
}

static void write_message(uint8_t *packet, uint32_t originator, uint16_t number, uint8_t flags)
{
    const uint8_t first[] = {(uint8_t)defaults.version, flags, TTL, 0, (uint8_t)(number >> 8), (uint8_t)number, 0, 0};
    memcpy(packet, first, sizeof first);
    write_address(packet + sizeof first, originator);
}

/* An HNA entry; and entries of a message, at most a few more than are held. */
struct entry {
    uint32_t network;
    uint8_t mask;
};

enum { SOME_ENTRIES = BATMAN_ENTRIES_MOST + 4, MASK_MOST = 32 };

static void write_entry(uint8_t *octets, struct entry e)
{
    write_address(octets, e.network);
    octets[BATMAN_ENTRY_SIZE - 1] = e.mask;
}

/* A message with these entries, its flags 0. */
static struct batman_received hear_entries(struct node *n, uint32_t sender, uint32_t originator, uint16_t number, const struct entry *entries, size_t count)
{
    uint8_t packet[BATMAN_HEADER_SIZE + BATMAN_ENTRY_SIZE * SOME_ENTRIES], *octets = packet + BATMAN_HEADER_SIZE;
    write_message(packet, originator, number, 0);
    for (size_t i = 0; i < count; i++, octets += BATMAN_ENTRY_SIZE)
        write_entry(octets, entries[i]);
    return take(n, packet, (size_t)(octets - packet), sender);
}

/* A message of 12 octets, its flags 0. */
static struct batman_received hear(struct node *n, uint32_t sender, uint32_t originator, uint16_t number)
{
    return hear_entries(n, sender, originator, number, NULL, 0);
}

/* The node's last packet comes back from this sender: whoever heard it can write that, under any address. */
static uint64_t echo(struct node *n, uint32_t sender)
{
    uint8_t packet[BATMAN_HEADER_SIZE];
    write_message(packet, n->address, n->sent, D);
    return take(n, packet, sizeof packet, sender).number;
}

static void echoes(struct node *n, uint32_t first_sender, uint32_t senders)
{
    for (uint32_t i = 0; i < senders; i++)
        must("an echo", echo(n, first_sender + i), BATMAN_ECHO);
}

static struct batman_route route(const struct node *n, uint32_t originator) { return batman_best(n->cells, n->count, originator).route; }

static uint64_t links(const struct node *n, uint32_t originator)
{
    struct batman_link_row rows[BATMAN_LINKS_MOST];
    return batman_list(n->cells, n->count, originator, rows, BATMAN_LINKS_MOST).filled;
}

/* The count of one link of an originator; 0 where it is not held. */
static uint32_t count_of(const struct node *n, uint32_t originator, uint32_t neighbour)
{
    struct batman_link_row rows[BATMAN_LINKS_MOST];
    uint64_t filled = batman_list(n->cells, n->count, originator, rows, BATMAN_LINKS_MOST).filled;
    for (uint64_t i = 0; i < filled; i++)
        if (rows[i].neighbour == neighbour)
            return rows[i].count;
    return 0;
}

/* A lookup of an address finds an entry of this originator. */
static void must_serve(const char *what, const struct node *n, uint32_t address, uint32_t originator)
{
    struct batman_located l = batman_lookup(n->cells, n->count, address);
    must(what, l.found, 1);
    must(what, l.originator, originator);
}

static void must_serve_none(const char *what, const struct node *n, uint32_t address)
{
    must(what, batman_lookup(n->cells, n->count, address).found, 0);
}

static void must_lead(const char *what, const struct node *n, uint32_t originator, uint32_t neighbour, uint32_t count)
{
    must(what, route(n, originator).neighbour, neighbour);
    must(what, route(n, originator).count, count);
}

static void remember(struct node *n) { memcpy(n->before, n->cells, sizeof n->cells); }

static bool only_time_differs(const struct node *n)
{
    enum { BEHIND = TIME_AT + 1 };
    return memcmp(n->cells, n->before, TIME_AT * sizeof n->cells[0]) == 0 &&
           memcmp(n->cells + BEHIND, n->before + BEHIND, (n->count - BEHIND) * sizeof n->cells[0]) == 0;
}

/* ---- a full table (refusal 10) */

/* So many invented originators, each with this number, from the stranger. */
static void invent(struct node *n, uint32_t originators, uint16_t number)
{
    for (uint32_t i = 0; i < originators; i++)
        must("an invented originator", hear(n, STRANGER, MADE_UP + i, number).number, BATMAN_PASSED_ON);
}

static void fill_with_invented(void)
{
    begin(&us, US, BATMAN_CAPACITY_MOST, 1);
    echoes(&us, STRANGER, 1);
    invent(&us, BATMAN_CAPACITY_MOST, 1);
}

static void table_is_filled(void)
{
    fill_with_invented();
    unsigned packets = us.packets;
    echoes(&us, NEAR, 1);
    must("a neighbour's message to a full table", hear(&us, NEAR, NEAR, 1).number, BATMAN_ORIGINATORS_FULL);
    claim("full table: %u packets of %d octets, one echo among them, fill a table of %d originators; a neighbour's message is then refused by 10", packets,
          BATMAN_HEADER_SIZE, BATMAN_CAPACITY_MOST);
}

/* A neighbour echoes and brings an originator's numbers, one after the other, and the node sweeps, every interval from now up to the purge timeout: each message gets
 * this answer, and no sweep removes anything. */
static void answered_until_purge(uint32_t originator, uint16_t number, uint64_t answer)
{
    for (uint64_t i = 0; i < defaults.purge / INTERVAL; i++) {
        send_own(&us);
        echoes(&us, NEAR, 1);
        must("a sweep before the purge timeout is over", batman_sweep(us.cells, us.count, us.now).removed, 0);
        must("a message until then", hear(&us, NEAR, originator, (uint16_t)(number + i)).number, answer);
    }
}

/* The next millisecond's sweep removes so many. */
static void must_sweep(uint64_t originators)
{
    us.now++;
    must("originators removed after the purge timeout", batman_sweep(us.cells, us.count, us.now).removed, originators);
}

static void table_is_full_until_purge(void)
{
    fill_with_invented();
    answered_until_purge(NEAR, 0, BATMAN_ORIGINATORS_FULL);
    must_sweep(BATMAN_CAPACITY_MOST);
    must("a neighbour's message then", hear(&us, NEAR, NEAR, 1).number, BATMAN_PASSED_ON);
    claim("full table: so for %" PRIu64 " ms after the last of them; a sweep 1 ms later removes all %d, and the neighbour's message is counted", defaults.purge,
          BATMAN_CAPACITY_MOST);
}

static void table_is_kept_full(void)
{
    fill_with_invented();
    answered_until_purge(NEAR, 0, BATMAN_ORIGINATORS_FULL);
    unsigned packets = us.packets;
    echoes(&us, STRANGER, 1);
    invent(&us, BATMAN_CAPACITY_MOST, 2);
    packets = us.packets - packets;
    must_sweep(0);
    must("a neighbour's message to them", hear(&us, NEAR, NEAR, 1).number, BATMAN_ORIGINATORS_FULL);
    claim("full table: %u packets every %" PRIu64 " ms keep it full, one every %" PRIu64 " ms", packets, defaults.purge, defaults.purge / packets);
}

static void held_originators_stay(void)
{
    begin(&us, US, BATMAN_CAPACITY_MOST, 1);
    echoes(&us, NEAR, 1);
    must("a neighbour's message", hear(&us, NEAR, NEAR, 1).number, BATMAN_PASSED_ON);
    echoes(&us, STRANGER, 1);
    invent(&us, BATMAN_CAPACITY_MOST - 1, 1);
    must("one invented originator more", hear(&us, STRANGER, STRANGER, 1).number, BATMAN_ORIGINATORS_FULL);
    must("the neighbour's next message", hear(&us, NEAR, NEAR, 2).number, BATMAN_PASSED_ON);
    must_lead("the route to it", &us, NEAR, NEAR, 2);
    claim("full table: an originator that was held before keeps its place, and its messages are counted");
}

/* ---- without an echo */

enum { SOME_ORIGINATORS = 40, HONEST = 3, RANDOM_PACKETS = 20000 };

static uint64_t state;

static uint64_t below(uint64_t n) { return random_below(&state, n); }

/* The n-th network that somebody announces. */
static struct entry network(uint32_t n) { return (struct entry){NETWORKS + 256 * n, 24}; }

/* A table with three neighbours' rows and some originators heard by them, each with a network. */
static void begin_with_records(void)
{
    begin(&us, US, defaults.capacity, 2);
    echoes(&us, NEAR, HONEST);
    for (uint32_t i = 0; i < 10 * SOME_ORIGINATORS; i++) {
        struct entry e = network(i % SOME_ORIGINATORS);
        hear_entries(&us, (uint32_t)(NEAR + below(HONEST)), MADE_UP + i % SOME_ORIGINATORS, (uint16_t)(FAR + i % 5), &e, 1);
    }
    remember(&us);
}

/* Any entry with a mask that is allowed; its host bits are 0, or as they come. */
static struct entry random_entry(bool host_bits)
{
    uint8_t mask = (uint8_t)below(MASK_MOST + 1);
    uint64_t network = random_next(&state) & UINT32_MAX;
    unsigned cleared = host_bits ? 0 : MASK_MOST - mask;
    return (struct entry){(uint32_t)(network >> cleared << cleared), mask};
}

/* Any octets, or a message that is well-formed but for the host bits of some: of an own address but for our last number, of a held originator or of any, often as if
 * from itself. */
static size_t random_packet(uint8_t *packet, uint32_t *sender)
{
    uint32_t originators[] = {US, US_TOO, (uint32_t)(MADE_UP + below(SOME_ORIGINATORS)), (uint32_t)random_next(&state) | 1u << 31};
    size_t length = below(BATMAN_READ_SIZE + 1), entries = below(SOME_ENTRIES + 1);
    for (size_t i = 0; i < length; i++)
        packet[i] = (uint8_t)random_next(&state);
    *sender = (uint32_t)random_next(&state) | 1u << 31; /* none of 10.0.0.0/8 */
    if (below(4) == 0)
        return length;
    uint32_t originator = originators[below(4)];
    write_message(packet, originator, (uint16_t)(us.sent + 1 + below(UINT16_MAX)), (uint8_t)random_next(&state));
    bool host_bits = below(8) == 0;
    for (size_t i = 0; i < entries; i++)
        write_entry(packet + BATMAN_HEADER_SIZE + BATMAN_ENTRY_SIZE * i, random_entry(host_bits));
    if (originator != US && originator != US_TOO && below(2) == 0)
        *sender = originator;
    return BATMAN_HEADER_SIZE + BATMAN_ENTRY_SIZE * entries;
}

/* Only as if from the originator itself is it passed on, and then marked as come over a link of one direction. */
static void must_be_single_hop(const uint8_t *packet, uint32_t sender)
{
    uint32_t originator = (uint32_t)packet[8] << 24 | (uint32_t)packet[9] << 16 | (uint32_t)packet[10] << 8 | packet[11];
    must("the sender of a packet that is passed on without an echo", sender, originator);
    must("U and D of its copy", us.output[FLAGS_AT] & (U | D), U | D);
}

static void nothing_changes_without_an_echo(void)
{
    unsigned refused = 0, by_host_bits = 0, passed_on = 0, stale = 0, some = RANDOM_PACKETS / 20;
    state = random_seeded(16);
    begin_with_records();
    for (int i = 0; i < RANDOM_PACKETS; i++) {
        uint8_t packet[BATMAN_READ_SIZE];
        uint32_t sender;
        size_t length = random_packet(packet, &sender);
        us.now += below(3);
        struct batman_received r = take(&us, packet, length, sender);
        must("only the time's cell changed by a packet without an echo", only_time_differs(&us), true);
        refused += r.number < BATMAN_OWN_SENDER;
        by_host_bits += r.number == BATMAN_HOST_BITS_SET;
        passed_on += r.number == BATMAN_PASSED_ON;
        stale += r.number == BATMAN_STALE;
        if (r.number == BATMAN_PASSED_ON)
            must_be_single_hop(packet, sender);
    }
    must("a twentieth of them at least is passed on", passed_on >= some, true);
    must("a twentieth of them at least is refused by 16", by_host_bits >= some, true);
    must("half as many at least are stale", stale >= some / 2, true);
    claim("no echo: %d packets of any kind from senders without a neighbour row change no cell but the time's; %u are refused, %u of them by 16, %u are stale, and %u passed on, each as if from its originator",
          RANDOM_PACKETS, refused, by_host_bits, stale, passed_on);
}

/* We and another node hear each other; ours has this address on the link to it. */
static void begin_two(uint32_t our_address_there)
{
    begin(&us, US, BATMAN_CAPACITY_MOST, 2);
    begin(&they, THEY, BATMAN_CAPACITY_MOST, 1);
    echoes(&they, our_address_there, 1);
    remember(&us);
    remember(&they);
}

static void junk_ends_after_one_repetition(void)
{
    begin_two(US);
    must("a made-up neighbour's message", hear(&us, MADE_UP, MADE_UP, 1).number, BATMAN_PASSED_ON);
    must("the copy's flags", us.output[FLAGS_AT], U | D);
    must("only the time's cell changed in our table", only_time_differs(&us), true);
    must("the copy at the next node", take(&they, us.output, BATMAN_HEADER_SIZE, US).number, BATMAN_UNIDIRECTIONAL);
    must("only the time's cell changed in their table", only_time_differs(&they), true);
    claim("no echo: a message as if from its originator, under a made-up address, is repeated once with U set, and a node that hears that drops it by 24");
}

static void junk_crosses_to_another_interface(void)
{
    begin_two(US_TOO);
    for (uint32_t i = 0; i < BATMAN_CAPACITY_MOST; i++) {
        struct batman_received r = hear(&us, MADE_UP + i, MADE_UP + i, 1);
        must("a made-up neighbour's message", r.number, BATMAN_PASSED_ON);
        must("the flags for other interfaces", r.flags, 0);
        us.output[FLAGS_AT] = r.flags;
        must("the copy at the next node", take(&they, us.output, BATMAN_HEADER_SIZE, US_TOO).number, BATMAN_PASSED_ON);
    }
    must("only the time's cell changed in our table", only_time_differs(&us), true);
    echoes(&they, NEAR, 1);
    must("their neighbour's message", hear(&they, NEAR, NEAR, 1).number, BATMAN_ORIGINATORS_FULL);
    claim("no echo: the copies for our other interfaces have U not set: a node there counts them and passes them on, and %d of them fill its table", BATMAN_CAPACITY_MOST);
}

/* ---- repeated and replayed packets */

static void repeated_packets_are_passed_on_again(void)
{
    enum { TIMES = 1000 };
    begin(&us, US, defaults.capacity, 1);
    echoes(&us, NEAR, 1);
    must("a neighbour's relayed message", hear(&us, NEAR, ORIGINATOR, 1).number, BATMAN_PASSED_ON);
    remember(&us);
    for (int i = 0; i < TIMES; i++)
        must("the same again", hear(&us, NEAR, ORIGINATOR, 1).number, BATMAN_PASSED_ON);
    must("only the time's cell changed by repeated packets", only_time_differs(&us), true);
    claim("repeated: a packet of the best link, %d times again within the window, changes no cell but the time's, and is passed on each time", TIMES);
}

/* Two links to the originator: by NEAR with every number of the window, by NEAR_TOO with all but the last. */
static void begin_with_route(void)
{
    begin(&us, US, defaults.capacity, 1);
    echoes(&us, NEAR, 2);
    for (uint16_t number = 1; number <= defaults.window; number++) {
        hear(&us, NEAR, ORIGINATOR, number);
        if (number < defaults.window)
            hear(&us, NEAR_TOO, ORIGINATOR, number);
    }
    must_lead("the honest route", &us, ORIGINATOR, NEAR, (uint32_t)defaults.window);
    must("the other link's count", count_of(&us, ORIGINATOR, NEAR_TOO), defaults.window - 1);
}

static void must_be_wiped(const char *what, uint32_t link)
{
    must_lead(what, &us, ORIGINATOR, link, 1);
    must("the links that are left", links(&us, ORIGINATOR), 1);
}

/* A stale message is neither passed on nor counted: of what was remembered only the time may be another. */
static void must_be_stale(const char *what, uint32_t sender, uint16_t number)
{
    struct entry e = network(0);
    must(what, hear_entries(&us, sender, ORIGINATOR, number, &e, 1).number, BATMAN_STALE);
    must("only the time's cell changed by a stale message", only_time_differs(&us), true);
}

/* By the best link, by another, by links with an echo and without, and from the originator's own address. */
static void stale_numbers_change_nothing(void)
{
    static const uint32_t senders[] = {NEAR, NEAR_TOO, STRANGER, MADE_UP, ORIGINATOR};
    unsigned current = (unsigned)defaults.window, first = (unsigned)defaults.window, last = NUMBERS - NEW_MOST - 1;
    begin_with_route();
    echoes(&us, STRANGER, 1);
    remember(&us);
    for (unsigned below = first; below <= last; below++)
        for (size_t i = 0; i < sizeof senders / sizeof *senders; i++, us.now++)
            must_be_stale("a stale number", senders[i], (uint16_t)(current - below));
    claim("stale: each of the %u numbers that lie %u to %u below the current one of a held originator, from its own address and by four links, with an echo and without, changes no cell but the time's and is not passed on",
          last - first + 1, first, last);
}

/* An originator's numbers one after the other, as a neighbour brings them. */
static void hear_numbers(uint32_t first, uint32_t last)
{
    for (uint32_t number = first; number <= last; number++)
        must("a message of the originator", hear(&us, NEAR, ORIGINATOR, (uint16_t)number).number, BATMAN_PASSED_ON);
    remember(&us);
}

/* Number 1 again: inside the window, just below it, half way round, and one number later. */
static void replayed_packets(void)
{
    uint32_t window = (uint32_t)defaults.window, half_way = NUMBERS - NEW_MOST;
    begin_with_route();
    remember(&us);
    hear(&us, NEAR, ORIGINATOR, 1);
    must("only the time's cell changed by a replay inside the window", only_time_differs(&us), true);
    hear_numbers(window + 1, window + 1);
    must_be_stale("a replay below the window", NEAR, 1);
    hear_numbers(window + 2, half_way);
    must_be_stale("a replay from half way round", NEAR, 1);
    hear_numbers(half_way + 1, half_way + 1);
    must_lead("the route before the last replay", &us, ORIGINATOR, NEAR, window);
    hear(&us, NEAR, ORIGINATOR, 1);
    must_be_wiped("the route after it", NEAR);
    claim("replayed: a neighbour's own packet changes no cell but the time's, also once its number has left the window; when its originator is %u numbers further it is new again, and wipes %u marks",
          half_way, window);
}

/* ---- forged messages */

/* A stranger with an echo sends one message of the originator, numbered so far ahead of its latest. */
static void begin_forged(uint16_t ahead)
{
    begin_with_route();
    echoes(&us, STRANGER, 1);
    hear(&us, STRANGER, ORIGINATOR, (uint16_t)(defaults.window + ahead));
}

static void forged_number_wipes_marks(void)
{
    const uint16_t ahead[] = {(uint16_t)defaults.window, NEW_MOST};
    for (size_t i = 0; i < sizeof ahead / sizeof *ahead; i++) {
        begin_forged(ahead[i]);
        must_be_wiped("the route after a forged number", STRANGER);
    }
    claim("forged: one message numbered %d to %d ahead, from a stranger with an echo, wipes the marks of all links; his link is best with count 1", ahead[0], ahead[1]);
}

/* The true messages go on coming by the link that was best. */
static void true_numbers_are_stale(void)
{
    uint16_t next = (uint16_t)(defaults.window + 1);
    unsigned messages = (unsigned)(defaults.purge / INTERVAL);
    begin_forged(NEW_MOST);
    answered_until_purge(ORIGINATOR, next, BATMAN_STALE);
    must_be_wiped("the route until then", STRANGER);
    must_sweep(1);
    hear(&us, NEAR, ORIGINATOR, (uint16_t)(next + messages));
    must_be_wiped("the route after the next true message", NEAR);
    claim("forged: every true message after it is stale, not counted and not passed on, %u of them, one an interval; the first sweep more than %" PRIu64 " ms after it removes the record, and the next true message is counted",
          messages, defaults.purge);
}

static void true_numbers_are_kept_stale(void)
{
    enum { TIMES = 10 };
    uint16_t next = (uint16_t)(defaults.window + 1), messages = (uint16_t)(defaults.purge / INTERVAL);
    begin_with_route();
    for (uint16_t i = 0; i < TIMES; i++) {
        echoes(&us, STRANGER, 1);
        must("a forged message", hear(&us, STRANGER, ORIGINATOR, (uint16_t)(FAR + i)).number, BATMAN_PASSED_ON);
        must_lead("the route after it", &us, ORIGINATOR, STRANGER, i + 1u);
        answered_until_purge(ORIGINATOR, (uint16_t)(next + messages * i), BATMAN_STALE);
    }
    claim("forged: an echo and one such message every %" PRIu64 " ms, each numbered one more, keep it so: %d true messages, all of them stale", defaults.purge, TIMES * messages);
}

/* The true numbers are stale as long as they lie a window or more below the forged one. The second that is counted has one mark more than the stranger's link. */
static void true_numbers_catch_up(void)
{
    enum { AHEAD = 100 };
    uint16_t number = (uint16_t)defaults.window, last = AHEAD;
    unsigned stale = (unsigned)(last - number);
    begin_forged(AHEAD);
    remember(&us);
    while (number < last)
        must_be_stale("a true message", NEAR, ++number);
    must("the next one", hear(&us, NEAR, ORIGINATOR, ++number).number, BATMAN_KEPT);
    must("the one after that", hear(&us, NEAR, ORIGINATOR, ++number).number, BATMAN_PASSED_ON);
    must_lead("the route then", &us, ORIGINATOR, NEAR, 2);
    claim("forged: of a message numbered %d ahead the next %u true ones are stale; the next is counted, and the one after it has the route back", AHEAD, stale);
}

/* We pass the forged message on, as a new number by the best link is. */
static void true_numbers_are_stale_elsewhere(void)
{
    begin_two(US);
    echoes(&they, NEAR_TOO, 1);
    echoes(&us, NEAR, 1);
    echoes(&us, STRANGER, 1);
    must("a true message", hear(&us, NEAR, ORIGINATOR, 1).number, BATMAN_PASSED_ON);
    must("its copy at the next node", take(&they, us.output, BATMAN_HEADER_SIZE, US).number, BATMAN_PASSED_ON);
    must("the forged message", hear(&us, STRANGER, ORIGINATOR, FAR).number, BATMAN_PASSED_ON);
    must("its copy at the next node", take(&they, us.output, BATMAN_HEADER_SIZE, US).number, BATMAN_PASSED_ON);
    must("the next true message at the next node, by another neighbour", hear(&they, NEAR_TOO, ORIGINATOR, 2).number, BATMAN_STALE);
    claim("forged: the message is passed on like any other, so that at the next node too the true ones are stale, by whichever neighbour they come");
}

/* The message comes as if from the originator, which has no row with us; the node that it does harm to hears our other interface. */
static void forged_number_crosses_to_another_interface(void)
{
    begin_two(US_TOO);
    echoes(&they, NEAR_TOO, 1);
    must("a true message at the next node", hear(&they, NEAR_TOO, ORIGINATOR, 1).number, BATMAN_PASSED_ON);
    struct batman_received r = hear(&us, ORIGINATOR, ORIGINATOR, FAR);
    must("the forged message", r.number, BATMAN_PASSED_ON);
    must("only the time's cell changed in our table", only_time_differs(&us), true);
    us.output[FLAGS_AT] = r.flags;
    must("its copy at the next node", take(&they, us.output, BATMAN_HEADER_SIZE, US_TOO).number, BATMAN_PASSED_ON);
    must("the next true message there", hear(&they, NEAR_TOO, ORIGINATOR, 2).number, BATMAN_STALE);
    claim("forged: without an echo too, as if from the originator, to a node with several interfaces: nothing changes there, and a node that hears its other interface takes the number");
}

static void forger_stays_ahead(void)
{
    enum { INTERVALS = 1000 };
    uint16_t ahead = (uint16_t)defaults.window;
    begin_with_route();
    echoes(&us, STRANGER, 1);
    for (uint16_t i = 1; i <= ahead; i++)
        hear(&us, STRANGER, ORIGINATOR, (uint16_t)(ahead + i));
    for (uint16_t number = ahead + 1; number <= INTERVALS; number++) {
        send_own(&us);
        echoes(&us, NEAR, 1);
        if (number % (defaults.timeout - 1) == 0)
            echoes(&us, STRANGER, 1);
        must("a true message", hear(&us, NEAR, ORIGINATOR, number).number, BATMAN_KEPT);
        must("the true link's count", count_of(&us, ORIGINATOR, NEAR), 1);
        must("a forged message", hear(&us, STRANGER, ORIGINATOR, (uint16_t)(number + ahead)).number, BATMAN_PASSED_ON);
        must_lead("the route", &us, ORIGINATOR, STRANGER, (uint32_t)defaults.window);
    }
    claim("forged: %d messages numbered ahead, then one an interval and an echo every %" PRIu64 ": the route stays with the stranger at count %" PRIu64
          ", the true link's count at 1; his messages are passed on, those of the true link not",
          ahead, defaults.timeout - 1, defaults.window);
}

static void sender_is_forged(void)
{
    begin_with_route();
    hear(&us, NEAR_TOO, ORIGINATOR, FAR); /* the stranger's, under the neighbour's address */
    must_be_wiped("the route after one forged message", NEAR_TOO);
    claim("forged sender: under the address of a neighbour with a row the stranger needs no echo: one packet wipes the marks of all links");
}

static void far_originator_as_neighbour(void)
{
    begin_with_route();
    must("an echo under the originator's address", echo(&us, ORIGINATOR), BATMAN_ECHO);
    hear(&us, ORIGINATOR, ORIGINATOR, FAR);
    must_be_wiped("the route after the message", ORIGINATOR);
    claim("forged sender: an echo and a message under the address of a distant originator: the route leads to that address as if it were a neighbour");
}

static void forged_fields_are_passed_on(void)
{
    /* gateway flags 255, gateway port 4305, HNA entries 0.0.0.0/0 and 10.1.0.4/32 */
    uint8_t packet[] = {4, 0, TTL, 255, 0, 1, 16, 209, 10, 2, 0, 0, 0, 0, 0, 0, 0, 10, 1, 0, 4, 32};
    begin(&us, US, defaults.capacity, 1);
    echoes(&us, STRANGER, 1);
    must("a packet with gateway fields and HNA entries", take(&us, packet, sizeof packet, STRANGER).number, BATMAN_PASSED_ON);
    packet[TTL_AT]--;
    must("its copy has its octets, TTL one less", memcmp(us.output, packet, sizeof packet) == 0, true);
    must_serve("the neighbour's address", &us, NEAR, MADE_UP);
    must_serve("any other address", &us, ORIGINATOR, MADE_UP);
    claim("forged fields: gateway flags, gateway port and HNA entries (0.0.0.0/0 and a neighbour's address) are passed on as they came, and a lookup finds these entries");
}

/* ---- networks */

/* An honest originator with number 1 and one network; and the stranger has an echo. */
static void begin_with_network(void)
{
    struct entry e = network(0);
    begin(&us, US, defaults.capacity, 1);
    echoes(&us, NEAR, 1);
    echoes(&us, STRANGER, 1);
    must("an honest message", hear_entries(&us, NEAR, ORIGINATOR, 1, &e, 1).number, BATMAN_PASSED_ON);
    must_serve("its network", &us, e.network + PRINTER, ORIGINATOR);
    remember(&us);
}

static void longer_mask_takes_an_address(void)
{
    struct entry e = {NETWORKS + PRINTER, 32};
    begin_with_network();
    hear_entries(&us, STRANGER, MADE_UP, 1, &e, 1);
    must_serve("the address that is announced again", &us, NETWORKS + PRINTER, MADE_UP);
    must_serve("another of that network", &us, NETWORKS + OTHER_HOST, ORIGINATOR);
    claim("networks: a stranger with an echo takes one address of an announced network by one message with a longer mask; the others stay");
}

static void smaller_address_takes_a_network(void)
{
    struct entry e = network(0);
    begin_with_network();
    hear_entries(&us, STRANGER, MADE_UP, 1, &e, 1);
    must_serve("the network announced under a larger address too", &us, NETWORKS + PRINTER, ORIGINATOR);
    hear_entries(&us, STRANGER, 1, 1, &e, 1);
    must_serve("the network announced under a smaller address too", &us, NETWORKS + PRINTER, 1);
    claim("networks: with the same mask he takes the whole network under an invented originator address that is smaller, and nothing under a larger one");
}

static void forged_number_replaces_a_list(void)
{
    struct entry e = network(0), his = network(1);
    begin_with_network();
    hear_entries(&us, STRANGER, ORIGINATOR, 1 + NEW_MOST, &his, 1);
    must_serve_none("the network after a forged number", &us, e.network);
    answered_until_purge(ORIGINATOR, 2, BATMAN_STALE);
    must_serve("the forged network until the sweep", &us, his.network, ORIGINATOR);
    must_sweep(1);
    must_serve_none("the forged network after the sweep", &us, his.network);
    hear_entries(&us, NEAR, ORIGINATOR, (uint16_t)(2 + defaults.purge / INTERVAL), &e, 1);
    must_serve("the network after the next true message", &us, e.network, ORIGINATOR);
    claim("networks: a forged message of an originator numbered up to %d ahead replaces its list; its own messages are then stale, and the forged list stays until a sweep removes the record", NEW_MOST);
}

static void first_of_a_number_decides(void)
{
    struct entry e = network(0), his = network(1);
    begin_with_network();
    hear_entries(&us, STRANGER, ORIGINATOR, 2, &his, 1);
    must("the true message of that number", hear_entries(&us, NEAR, ORIGINATOR, 2, &e, 1).number, BATMAN_PASSED_ON);
    must_serve("the forged network until the next number", &us, his.network, ORIGINATOR);
    must_serve_none("the true network until then", &us, e.network);
    hear_entries(&us, NEAR, ORIGINATOR, 3, &e, 1);
    must_serve("the true network after it", &us, e.network, ORIGINATOR);
    claim("networks: of one number the message counted first has the list: who sends it before the originator does sets that list until the next number");
}

/* The other name is an address of the network with the same mask, so that it has host bits. The stranger sends the next number, in the originator's name or in that of
 * an invented one. */
static void network_has_one_name(void)
{
    struct entry names[] = {network(0), {NETWORKS + PRINTER, 24}};
    begin_with_network();
    must("the other name alone", hear_entries(&us, STRANGER, MADE_UP, 1, names + 1, 1).number, BATMAN_HOST_BITS_SET);
    struct batman_received r = hear_entries(&us, STRANGER, ORIGINATOR, 2, names, 2);
    must("both names", r.number, BATMAN_HOST_BITS_SET);
    must("the place of the other one", r.place, 1);
    must("no cell changed by them", memcmp(us.cells, us.before, sizeof us.cells) == 0, true);
    must("the network's own name", hear_entries(&us, NEAR, ORIGINATOR, 2, names, 1).number, BATMAN_PASSED_ON);
    claim("networks: a message that announces a network under another name, by an address of it with the same mask, alone or beside its own, is refused by 16 and changes no cell");
}

/* The stranger sends the next number, in the originator's name or in that of an invented one. */
static void too_many_entries(void)
{
    struct entry entries[SOME_ENTRIES];
    for (uint32_t i = 0; i < SOME_ENTRIES; i++)
        entries[i] = network(i + 1);
    begin_with_network();
    must("17 entries of the originator", hear_entries(&us, STRANGER, ORIGINATOR, 2, entries, BATMAN_ENTRIES_MOST + 1).number, BATMAN_ENTRIES_FULL);
    must("17 entries of an invented originator", hear_entries(&us, STRANGER, MADE_UP, 1, entries, BATMAN_ENTRIES_MOST + 1).number, BATMAN_ENTRIES_FULL);
    must("no cell changed by them", memcmp(us.cells, us.before, sizeof us.cells) == 0, true);
    hear_entries(&us, STRANGER, MADE_UP, 1, entries, BATMAN_ENTRIES_MOST);
    must_serve("the last of 16 networks", &us, entries[BATMAN_ENTRIES_MOST - 1].network, MADE_UP);
    claim("networks: a message that would bring more than %d entries is refused by 15 and changes no cell; %d fill a list", BATMAN_ENTRIES_MOST, BATMAN_ENTRIES_MOST);
}

/* ---- rows and links */

static void neighbour_rows_are_filled(void)
{
    begin(&us, US, defaults.capacity, 1);
    echoes(&us, MADE_UP, BATMAN_NEIGHBOURS_MOST);
    unsigned packets = us.packets;
    must("a row that is held is renewed", echo(&us, MADE_UP), BATMAN_ECHO);
    must("a neighbour's echo", echo(&us, NEAR), BATMAN_NEIGHBOURS_FULL);
    for (uint64_t i = 1; i < defaults.timeout; i++) {
        send_own(&us);
        must("its echo of a later packet", echo(&us, NEAR), BATMAN_NEIGHBOURS_FULL);
        hear(&us, NEAR, NEAR, (uint16_t)i);
        must("a route to it", route(&us, NEAR).window, 0);
    }
    send_own(&us);
    must("its echo once the rows are dropped", echo(&us, NEAR), BATMAN_ECHO);
    claim("neighbour rows: %u echoes under %d addresses fill them; a new neighbour's echo is refused by 9 and nothing of it counted, until own packet %" PRIu64
          " after them drops the rows",
          packets, BATMAN_NEIGHBOURS_MOST, defaults.timeout);
}

static void links_are_filled(void)
{
    begin(&us, US, defaults.capacity, 1);
    echoes(&us, MADE_UP, BATMAN_LINKS_MOST);
    echoes(&us, NEAR, 1);
    for (uint32_t i = 0; i < BATMAN_LINKS_MOST; i++)
        hear(&us, MADE_UP + i, ORIGINATOR, 1);
    must("links held", links(&us, ORIGINATOR), BATMAN_LINKS_MOST);
    must("a ninth link", hear(&us, NEAR, ORIGINATOR, 1).number, BATMAN_LINKS_FULL);
    claim("links: %d links of one originator are held; a message by a ninth is refused by 11", BATMAN_LINKS_MOST);
}

static void honest_links_are_shut_out(void)
{
    begin_with_route();
    unsigned packets = us.packets;
    uint16_t number = (uint16_t)defaults.window, last = (uint16_t)(3 * defaults.window - 1);
    echoes(&us, MADE_UP, BATMAN_LINKS_MOST);
    for (uint32_t i = 0; i < BATMAN_LINKS_MOST; i++)
        hear(&us, MADE_UP + i, ORIGINATOR, (uint16_t)(2 * defaults.window));
    packets = us.packets - packets;
    while (number < last) {
        number++;
        must("a message of an honest link", hear(&us, NEAR, ORIGINATOR, number).number, BATMAN_LINKS_FULL);
        must("a message of the other honest link", hear(&us, NEAR_TOO, ORIGINATOR, number).number, BATMAN_LINKS_FULL);
    }
    must_lead("the route until then", &us, ORIGINATOR, MADE_UP, 1);
    must("the next message", hear(&us, NEAR, ORIGINATOR, (uint16_t)(number + 1)).number, BATMAN_PASSED_ON);
    must_lead("the route after it", &us, ORIGINATOR, NEAR, 1);
    claim("links: %u packets, 8 echoes and 8 messages numbered %" PRIu64 " ahead, take the places of all honest links: their messages of the next %d numbers are refused by 11",
          packets, defaults.window, last - (int)defaults.window);
}

/* ---- damage to a table */

struct share {
    uint64_t flipped, well_formed;
};

/* Each bit of these cells by itself is flipped, and then stands as before: how often the cells are still a well-formed table. */
static void flip(uint64_t *first, size_t cells, struct share *s)
{
    for (size_t i = 0; i < cells; i++)
        for (unsigned bit = 0; bit < CELL_BITS; bit++) {
            first[i] ^= (uint64_t)1 << bit;
            s->well_formed += batman_best(us.cells, us.count, ORIGINATOR).number == 0;
            s->flipped++;
            first[i] ^= (uint64_t)1 << bit;
        }
}

/* As many originators as the capacity, each heard through 1 to 8 neighbours that lose some of its messages, at times of its own, with 0 to 16 networks. */
static void begin_full(void)
{
    struct entry entries[BATMAN_ENTRIES_MOST];
    for (uint32_t i = 0; i < BATMAN_ENTRIES_MOST; i++)
        entries[i] = network(i);
    begin(&us, US, defaults.capacity, 1);
    echoes(&us, NEAR, BATMAN_LINKS_MOST);
    for (uint32_t i = 0; i < defaults.capacity; i++)
        for (uint16_t number = 0; number < 2 * defaults.window; number++) {
            us.now += below(10);
            for (uint32_t link = 0; link <= i % BATMAN_LINKS_MOST; link++)
                if (number == 0 || below(4) != 0)
                    hear_entries(&us, NEAR + link, (uint32_t)(MADE_UP + i), number, entries, i % (BATMAN_ENTRIES_MOST + 1));
        }
    must("a table to damage", batman_best(us.cells, us.count, ORIGINATOR).number, 0);
}

static double percent(struct share s) { return 100.0 * (double)s.well_formed / (double)s.flipped; }

static void flipped_bits(void)
{
    struct share used = {0}, all = {0};
    state = random_seeded(16);
    begin_full();
    for (uint64_t i = 0; i < defaults.capacity; i++) {
        uint64_t *record = us.cells + BATMAN_TABLE_CELLS + BATMAN_RECORD_CELLS * i;
        flip(record, LINKS_AT + LINK_CELLS * record[LINKS_HELD_AT], &used);
        flip(record + ENTRIES_AT, record[ENTRIES_HELD_AT], &used);
    }
    flip(us.cells, us.count, &all);
    must("a quarter to a half of the bits flipped in records leave a table", percent(used) > 25 && percent(used) < 50, true);
    claim("damage: of %" PRIu64 " single bits flipped in the used cells of %" PRIu64 " records, %" PRIu64 " (%.0f %%) leave a well-formed table; of %" PRIu64
          " in all cells, %" PRIu64 " (%.0f %%)",
          used.flipped, defaults.capacity, used.well_formed, percent(used), all.flipped, all.well_formed, percent(all));
}

/* ---- long datagrams */

static void long_packets(void)
{
    static const uint8_t packet[BATMAN_READ_SIZE] = {4, 0, TTL};
    begin(&us, US, defaults.capacity, 1);
    must("1,473 octets, output 1,472", batman_receive(us.cells, us.count, packet, BATMAN_READ_SIZE, STRANGER, 0, us.now, us.output, BATMAN_PACKET_MOST).number,
         BATMAN_SHORT_OUTPUT);
    must("1,473 octets, output 1,473", take(&us, packet, BATMAN_READ_SIZE, STRANGER).number, BATMAN_WRONG_SIZE);
    must("1,472 octets", take(&us, packet, BATMAN_PACKET_MOST, STRANGER).number, BATMAN_KEPT);
    claim("long packets: %d octets are refused by 4 where the output has %d, and by 5 where it has %d", BATMAN_READ_SIZE, BATMAN_PACKET_MOST, BATMAN_READ_SIZE);
}

/* What a socket gives of a datagram to a buffer of this length. */
static size_t read_through_socket(const uint8_t *datagram, size_t length, uint8_t *buffer, size_t room)
{
    int ends[2];
    must("a pair of sockets", (uint64_t)socketpair(AF_UNIX, SOCK_DGRAM, 0, ends), 0);
    must("octets sent", (uint64_t)send(ends[0], datagram, length, 0), length);
    ssize_t got = recv(ends[1], buffer, room, 0);
    close(ends[0]);
    close(ends[1]);
    return got < 0 ? 0 : (size_t)got;
}

static void cut_datagrams(void)
{
    static const uint8_t datagram[2000] = {4, 0, TTL};
    uint8_t buffer[BATMAN_READ_SIZE];
    size_t got = read_through_socket(datagram, sizeof datagram, buffer, BATMAN_PACKET_MOST);
    must("octets read into 1,472", got, BATMAN_PACKET_MOST);
    must("their check", batman_packet_check(buffer, got, defaults.version), 0);
    got = read_through_socket(datagram, sizeof datagram, buffer, BATMAN_READ_SIZE);
    must("octets read into 1,473", got, BATMAN_READ_SIZE);
    must("their check", batman_packet_check(buffer, got, defaults.version), BATMAN_WRONG_SIZE);
    claim("long packets: of a datagram of %zu octets a buffer of %d gets a packet without fault, and one of %d what is refused by 5", sizeof datagram, BATMAN_PACKET_MOST,
          BATMAN_READ_SIZE);
}

/* ---- the daemon's clock */

static void clock_ahead(void)
{
    begin(&us, US, defaults.capacity, 1);
    echoes(&us, NEAR, 1);
    uint64_t now = us.now, year = (uint64_t)365 * 24 * 3600 * 1000;
    us.now += year;
    must("a message a year ahead", hear(&us, NEAR, NEAR, 1).number, BATMAN_PASSED_ON);
    us.now = now + year - 1;
    must("a later message", hear(&us, NEAR, NEAR, 2).number, BATMAN_TIME_BEFORE);
    must("a later sweep", batman_sweep(us.cells, us.count, us.now).number, BATMAN_TIME_BEFORE);
    must("a later own packet", batman_own_packet(us.cells, us.count, 0, us.now, TTL, 0, 0, NULL, 0, us.output, sizeof us.output).number, BATMAN_TIME_BEFORE);
    claim("clock: one call with a time a year ahead, and every packet, own packet and sweep of that year is refused by 3");
}

int main(void)
{
    table_is_filled();
    table_is_full_until_purge();
    table_is_kept_full();
    held_originators_stay();
    nothing_changes_without_an_echo();
    junk_ends_after_one_repetition();
    junk_crosses_to_another_interface();
    repeated_packets_are_passed_on_again();
    stale_numbers_change_nothing();
    replayed_packets();
    forged_number_wipes_marks();
    true_numbers_are_stale();
    true_numbers_are_kept_stale();
    true_numbers_catch_up();
    true_numbers_are_stale_elsewhere();
    forged_number_crosses_to_another_interface();
    forger_stays_ahead();
    sender_is_forged();
    far_originator_as_neighbour();
    forged_fields_are_passed_on();
    longer_mask_takes_an_address();
    smaller_address_takes_a_network();
    forged_number_replaces_a_list();
    first_of_a_number_decides();
    network_has_one_name();
    too_many_entries();
    neighbour_rows_are_filled();
    links_are_filled();
    honest_links_are_shut_out();
    flipped_bits();
    long_packets();
    cut_datagrams();
    clock_ahead();
    printf("strangers: %u claims hold\n", claims);
    return 0;
}
