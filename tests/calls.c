/* Calls every function of the library, with every refusal and every verdict at least once, and compares with what the rules say. */
#include <inttypes.h>
#include <stdbool.h>
#include <stddef.h>
#include <stdio.h>
#include <stdlib.h>
#include <string.h>

#include "batman.h"

/* Places in a table and in a record that are looked at here, by docs/LAYOUT.md. */
enum { VERSION_AT = 0, TIE_AT = 5, TIME_AT = 7, INTERFACES_AT = 10, INTERFACE_CELLS = 5 };
enum { CURRENT_AT = 1, ENTRIES_HELD_AT = 6, ENTRIES_AT = 23 };

/* Sequence numbers there are; a new one is at most NEW_MOST above current, so that the one half way round is not. */
enum { NUMBERS = 65536, NEW_MOST = 32767, HALF_WAY = NUMBERS / 2 };

enum { CELLS = BATMAN_CELLS(64) };

static unsigned long compared, differing;

/* Which refusals and verdicts have come up. */
static int came_up[32];

static uint64_t seen(uint64_t number)
{
    came_up[number % 32] = 1;
    return number;
}

static void expect(const char *what, uint64_t is, uint64_t should)
{
    compared++;
    if (is != should && differing++ < 10)
        printf("calls: %s: %" PRIu64 ", expected %" PRIu64 "\n", what, is, should);
}

static uint64_t cells[CELLS], kept[CELLS];

static const struct batman_settings defaults = BATMAN_SETTINGS_DEFAULT;
static const struct batman_interfaces two = {{{100, 255, 65535}, {101, 255, 7}, {100, 0, 0}, {100, 0, 0}}, 2};

/* One way to break a setting or an interface row, each refused by 12 with nothing changed. */
static void refused(const char *what, struct batman_settings s, struct batman_interfaces f, size_t count)
{
    memcpy(kept, cells, sizeof cells);
    expect(what, seen(batman_make(cells, count, s, f)), BATMAN_NOT_ALLOWED);
    expect("a refused make changed a cell", memcmp(cells, kept, sizeof cells) != 0, 0);
}

static void making(void)
{
    struct batman_settings s = defaults;
    struct batman_interfaces f = two;
    memset(cells, 0xEE, sizeof cells);
    refused("version 256", (s.version = 256, s), f, CELLS), s = defaults;
    refused("window 0", (s.window = 0, s), f, CELLS), s = defaults;
    refused("window 65", (s.window = 65, s), f, CELLS), s = defaults;
    refused("timeout 0", (s.timeout = 0, s), f, CELLS), s = defaults;
    refused("timeout 1,001", (s.timeout = 1001, s), f, CELLS), s = defaults;
    refused("purge 0", (s.purge = 0, s), f, CELLS), s = defaults;
    refused("purge 2^32", (s.purge = 4294967296u, s), f, CELLS), s = defaults;
    refused("capacity 0", (s.capacity = 0, s), f, CELLS), s = defaults;
    refused("capacity 257", (s.capacity = 257, s), f, CELLS), s = defaults;
    refused("tie 2", (s.tie = 2, s), f, CELLS), s = defaults;
    refused("tie 2^32 + 1", (s.tie = 4294967297u, s), f, CELLS), s = defaults;
    refused("tie 2^64 - 1", (s.tie = UINT64_MAX, s), f, CELLS), s = defaults;
    refused("none in use", s, (f.used = 0, f), CELLS), f = two;
    refused("five in use", s, (f.used = 5, f), CELLS), f = two;
    refused("three in use with an address twice", s, (f.used = 3, f), CELLS), f = two;
    refused("a cell too few", s, f, CELLS - 1);
    refused("another capacity", (s.capacity = 63, s), f, CELLS), s = defaults;
    expect("make", batman_make(cells, CELLS, s, f), 0);
    for (size_t i = INTERFACES_AT + INTERFACE_CELLS * f.used; i < CELLS; i++)
        expect("a cell behind the interface rows in use", cells[i], 0);
}

/* The default settings are those of RULES 2.1, each of them named here; an initialiser without a tie has newest wins. */
static void making_with_defaults(void)
{
    struct batman_settings named = {.version = 4, .window = 64, .timeout = 32, .purge = 640000, .capacity = 64};
    expect("make, no tie named", batman_make(cells, CELLS, named, two), 0);
    expect("its tie", cells[TIE_AT], BATMAN_NEWEST_WINS);
    named.tie = BATMAN_PRESENT_STAYS;
    expect("make, every setting named", batman_make(kept, CELLS, named, two), 0);
    expect("make, the default settings", batman_make(cells, CELLS, defaults, two), 0);
    expect("the default settings are others", memcmp(cells, kept, sizeof cells) != 0, 0);
}

/* The macro, which a constant needs, and the function say the same of every capacity that is allowed. */
static void sizes(void)
{
    for (uint64_t capacity = 1; capacity <= BATMAN_CAPACITY_MOST; capacity++)
        expect("cells needed", BATMAN_CELLS(capacity), batman_cells_needed(capacity));
    expect("the parts of a sum as a capacity", BATMAN_CELLS(1 + 2), batman_cells_needed(3));
    expect("the most cells", BATMAN_CELLS_MOST, batman_cells_needed(BATMAN_CAPACITY_MOST));
    expect("cells for none", batman_cells_needed(0), 0);
    expect("cells for 257", batman_cells_needed(BATMAN_CAPACITY_MOST + 1), 0);
}

static void sending(void)
{
    uint8_t hna[10] = {192, 168, 9, 0, 24, 10, 0, 0, 0, 8}, out[40];
    const uint8_t should[22] = {4, 0, 50, 7, 255, 255, 16, 209, 0, 0, 0, 100, 192, 168, 9, 0, 24, 10, 0, 0, 0, 8};
    memset(out, 238, sizeof out);
    struct batman_written w = batman_own_packet(cells, CELLS, 0, 5, 50, 7, 4305, hna, 10, out, sizeof out);
    expect("own packet", w.number, 0);
    expect("its length", w.length, 22);
    expect("its number", w.sequence, 65535);
    expect("its octets", memcmp(out, should, 22) != 0, 0);
    for (size_t i = 22; i < sizeof out; i++)
        expect("an octet behind it", out[i], 238);
    expect("the packet check of it", batman_packet_check(out, 22, 4), 0);
    w = batman_own_packet(cells, CELLS, 0, 5, 50, 7, 4305, hna, 0, out, 12);
    expect("the next number", w.sequence, 0);
    w = batman_own_packet(cells, CELLS, 1, 5, 2, 0, 0, hna, 5, out, 17);
    expect("the other interface's first number", w.sequence, 7);
}

/* The lowest octet of an address with host bits set; every mask that it is used with leaves it some. */
enum { HOST = 7 };

/* Own packets with a fault that stands before 16. `host` is the lowest octet of the first entry's address, 0 or HOST: which of them changes no answer. */
static void own_packets_refused(uint8_t host)
{
    uint8_t hna[10] = {192, 168, 9, host, 24, 10, 0, 0, 0, 33}, many[1465] = {0, 0, 0, host}, out[1500];
    memcpy(kept, cells, sizeof cells);
    expect("interface 2", seen(batman_own_packet(cells, CELLS, 2, 5, 50, 0, 0, hna, 5, out, 40).number), BATMAN_NOT_IN_USE);
    expect("an earlier time", seen(batman_own_packet(cells, CELLS, 0, 4, 50, 0, 0, hna, 5, out, 40).number), BATMAN_TIME_BEFORE);
    expect("an output too short", batman_own_packet(cells, CELLS, 0, 5, 50, 0, 0, hna, 5, out, 16).number, BATMAN_SHORT_OUTPUT);
    expect("an empty output", batman_own_packet(cells, CELLS, 0, 5, 50, 0, 0, hna, 5, NULL, 0).number, BATMAN_SHORT_OUTPUT);
    expect("1,465 HNA octets", batman_own_packet(cells, CELLS, 0, 5, 50, 0, 0, many, sizeof many, out, sizeof out).number, BATMAN_WRONG_SIZE);
    expect("four HNA octets", batman_own_packet(cells, CELLS, 0, 5, 50, 0, 0, hna, 4, out, 40).number, BATMAN_RAGGED_ENTRIES);
    expect("nine HNA octets", batman_own_packet(cells, CELLS, 0, 5, 50, 0, 0, hna, 9, out, 40).number, BATMAN_RAGGED_ENTRIES);
    struct batman_written w = batman_own_packet(cells, CELLS, 0, 5, 50, 0, 0, hna, 10, out, 40);
    expect("a mask of 33", w.number, BATMAN_WRONG_MASK);
    expect("its place", w.place, 1);
    expect("a refused own packet changed a cell", memcmp(cells, kept, sizeof cells) != 0, 0);
}

static void asking_and_sweeping(void)
{
    struct batman_asked a = batman_best(cells, CELLS, 900);
    expect("best question", a.number + a.route.neighbour + a.route.interface + a.route.count + a.route.window, 0);
    expect("sweep", batman_sweep(cells, CELLS, 6).number, 0);
    expect("an earlier sweep", batman_sweep(cells, CELLS, 5).number, 3);
    expect("a sweep of other cells", batman_sweep(cells, CELLS - 1, 7).number, 1);
    expect("a sweep of none", batman_sweep(NULL, 0, 7).number, 1);
    memcpy(kept, cells, sizeof cells);
    for (size_t i = 0; i < CELLS; i++) { /* one cell made the largest number: refused, and left */
        uint64_t was = cells[i];
        cells[i] = UINT64_MAX;
        /* the time may be anything, and then the sweep is before it */
        expect("a damaged cell", batman_sweep(cells, CELLS, 7).number, i == TIME_AT ? BATMAN_TIME_BEFORE : BATMAN_NOT_WELL_FORMED);
        expect("a damaged cell, best question", batman_best(cells, CELLS, 900).number, i == TIME_AT ? 0 : BATMAN_NOT_WELL_FORMED);
        cells[i] = was;
    }
    expect("a refused call changed a cell", memcmp(cells, kept, sizeof cells) != 0, 0);
}

/* ---- receiving: a table of its own, two interfaces, room for two originators */

enum { US = 100, US_TOO = 101, BROADCAST = 255, ORIGINATORS = 2, SMALL = BATMAN_CELLS(ORIGINATORS) };

static uint64_t small[SMALL], small_kept[SMALL];
static uint8_t output[BATMAN_PACKET_MOST];

struct message {
    uint8_t octets[BATMAN_HEADER_SIZE];
};

static struct message message(uint32_t originator, uint16_t number, uint8_t flags, uint8_t ttl)
{
    return (struct message){{4, flags, ttl, 0, (uint8_t)(number >> 8), (uint8_t)number, 0, 0, 0, 0, (uint8_t)(originator >> 8), (uint8_t)originator}};
}

/* Hears a message of 12 octets by interface 0 at time 9. */
static struct batman_received hear(uint32_t sender, uint32_t originator, uint16_t number, uint8_t flags, uint8_t ttl)
{
    struct message m = message(originator, number, flags, ttl);
    return batman_receive(small, SMALL, m.octets, sizeof m.octets, sender, 0, 9, output, sizeof output);
}

/* Makes the table with these settings and sends our first packet. */
static void begin(struct batman_settings s)
{
    s.capacity = ORIGINATORS;
    expect("make", batman_make(small, SMALL, s, two), 0);
    expect("own packet", batman_own_packet(small, SMALL, 0, 9, 50, 0, 0, NULL, 0, output, sizeof output).sequence, 65535);
}

/* The packet comes back from these neighbours: their links are bidirectional. */
static void echo(uint32_t first, uint32_t last)
{
    for (uint32_t neighbour = first; neighbour <= last; neighbour++)
        expect("an echo", seen(hear(neighbour, US, 65535, 64, 50).number), BATMAN_ECHO);
}

/* Before calls that change nothing; and after them, that no cell and no octet of the output is another. */
static void keep_all(void)
{
    memcpy(small_kept, small, sizeof small);
    memset(output, 238, sizeof output);
}

static void all_kept(void)
{
    expect("a cell was changed", memcmp(small, small_kept, sizeof small) != 0, 0);
    for (size_t i = 0; i < sizeof output; i++)
        expect("an octet was written", output[i], 238);
}

/* The answer to a packet is this refusal, and every field behind its place is 0. */
static void is_refused(const char *what, struct batman_received r, uint64_t number, uint64_t place)
{
    expect(what, seen(r.number), number);
    expect("its place", r.place, place);
    expect("another field of a refusal", r.flags + r.route.neighbour + r.route.interface + r.route.count + r.route.window, 0);
}

/* One packet as it stands, refused with nothing changed. */
static void turned_away(const char *what, const uint8_t *packet, size_t length, uint64_t interface, uint64_t time, size_t room, uint64_t number, uint64_t place)
{
    keep_all();
    is_refused(what, batman_receive(small, SMALL, packet, length, 7, interface, time, output, room), number, place);
    all_kept();
}

/* Packets with a fault that stands before 16. `host` is the lowest octet of the first entry's address, 0 or HOST: which of them changes no answer. */
static void packets_refused(uint8_t host)
{
    uint8_t packet[22] = {4, 0, 50, 0, 0, 1, 0, 0, 0, 0, 3, 132, 0, 0, 0, host};
    turned_away("an interface not in use", packet, 17, 2, 9, 17, BATMAN_NOT_IN_USE, 0);
    turned_away("a time before the table's", packet, 17, 0, 8, 17, BATMAN_TIME_BEFORE, 0);
    turned_away("an output shorter than the packet", packet, 17, 0, 9, 16, BATMAN_SHORT_OUTPUT, 0);
    turned_away("11 octets", packet, 11, 0, 9, 12, BATMAN_WRONG_SIZE, 0);
    turned_away("16 octets", packet, 16, 0, 9, 16, BATMAN_RAGGED_ENTRIES, 0);
    turned_away("21 octets", packet, 21, 0, 9, 21, BATMAN_RAGGED_ENTRIES, 0);
    packet[21] = 33;
    turned_away("a mask of 33", packet, 22, 0, 9, 22, BATMAN_WRONG_MASK, 1);
    packet[0] = 5;
    turned_away("version 5", packet, 22, 0, 9, 22, BATMAN_WRONG_VERSION, 0);
    small[VERSION_AT] = 256;
    turned_away("a table not well-formed", packet, 22, 9, 0, 0, BATMAN_NOT_WELL_FORMED, 0);
    small[VERSION_AT] = 4;
}

/* Eight links of originator 900, rising by neighbour, the seventh heard first; and fewer rows, another originator, another table. */
static void listing(void)
{
    struct batman_link_row rows[BATMAN_LINKS_MOST + 1], before[BATMAN_LINKS_MOST + 1];
    memset(rows, 238, sizeof rows);
    memcpy(before, rows, sizeof rows);
    expect("seven rows for eight links", batman_list(small, SMALL, 900, rows, 7).number, BATMAN_SHORT_OUTPUT);
    expect("an unknown originator", batman_list(small, SMALL, 902, rows, 0).filled, 0);
    expect("a list of other cells", batman_list(small, SMALL - 1, 900, rows, 9).number, BATMAN_NOT_WELL_FORMED);
    expect("a list that filled nothing changed a row", memcmp(rows, before, sizeof rows) != 0, 0);
    struct batman_listed l = batman_list(small, SMALL, 900, rows, BATMAN_LINKS_MOST + 1);
    expect("list", l.number, 0);
    expect("rows filled", l.filled, BATMAN_LINKS_MOST);
    for (uint32_t i = 0; i < l.filled; i++) {
        expect("a row's neighbour", rows[i].neighbour, i + 1);
        expect("a row's interface", rows[i].interface, 0);
        expect("a row's count", rows[i].count, 1);
        expect("a row's window", rows[i].window, 64);
        expect("a row that is best", rows[i].best, i + 1 == batman_best(small, SMALL, 900).route.neighbour);
    }
    expect("the row behind", memcmp(&rows[BATMAN_LINKS_MOST], &before[BATMAN_LINKS_MOST], sizeof rows[0]) != 0, 0);
}

/* ---- a table with one cell changed: each of its bits, by one, to the least and to the largest number */

enum { CHANGES = 64 + 4 };

static uint64_t changed(uint64_t cell, unsigned change)
{
    switch (change) {
    case 64: return 0;
    case 65: return UINT64_MAX;
    case 66: return cell + 1;
    case 67: return cell - 1;
    default: return cell ^ (uint64_t)1 << change;
    }
}

/* Every call judges the cells alike: 1 where the best question says so; else what is refused next, or nothing. None of them changes a cell. */
static void judged_alike(void)
{
    const uint8_t packet[BATMAN_HEADER_SIZE] = {4};
    struct batman_link_row rows[BATMAN_LINKS_MOST];
    uint64_t best = batman_best(small, SMALL, 900).number, not_in_use = best ? best : BATMAN_NOT_IN_USE;
    memcpy(small_kept, small, sizeof small);
    expect("a changed table, best question", best > BATMAN_NOT_WELL_FORMED, 0);
    expect("a changed table, lookup", batman_lookup(small, SMALL, 900).number, best);
    expect("a changed table, list", batman_list(small, SMALL, 900, rows, BATMAN_LINKS_MOST).number, best);
    expect("a changed table, receive", batman_receive(small, SMALL, packet, sizeof packet, 7, UINT64_MAX, 9, output, sizeof output).number, not_in_use);
    expect("a changed table, own packet", batman_own_packet(small, SMALL, UINT64_MAX, 9, 50, 0, 0, NULL, 0, output, sizeof output).number, not_in_use);
    expect("a changed table, sweep", batman_sweep(small, SMALL, 0).number, best ? best : small[TIME_AT] > 0 ? BATMAN_TIME_BEFORE : 0);
    expect("a changed table, burst", batman_receive_burst(small, SMALL, NULL, 0, NULL, 0, NULL, 0, NULL, 0, 9, NULL, 0, NULL, 0).number, best);
    expect("a changed table is changed further", memcmp(small, small_kept, sizeof small) != 0, 0);
}

static void changed_tables(void)
{
    for (size_t i = 0; i < SMALL; i++)
        for (unsigned change = 0; change < CHANGES; change++) {
            uint64_t was = small[i];
            small[i] = changed(was, change);
            judged_alike();
            small[i] = was;
        }
}

static void verdicts(void)
{
    struct batman_settings s = defaults;
    s.timeout = 1000;
    begin(s);

    expect("from one of our addresses", seen(hear(US_TOO, 900, 1, 0, 50).number), BATMAN_OWN_SENDER);
    expect("from one of our broadcast addresses", seen(hear(BROADCAST, 900, 1, 0, 50).number), BATMAN_OWN_BROADCAST);
    expect("our own packet, D not set", seen(hear(7, US, 65535, 0, 50).number), BATMAN_OWN_ORIGINATOR);
    expect("from a neighbour, before its echo", seen(hear(7, 7, 1, 0, 50).number), BATMAN_PASSED_ON);
    expect("U and D of its copy", output[1], 192);
    expect("the copy's TTL", output[2], 49);
    expect("no route yet", batman_best(small, SMALL, 7).route.window, 0);
    echo(1, BATMAN_NEIGHBOURS_MOST);
    expect("a 33rd neighbour row", seen(hear(33, US, 65535, 64, 50).number), BATMAN_NEIGHBOURS_FULL);
    expect("U set", seen(hear(7, 900, 1, 128, 50).number), BATMAN_UNIDIRECTIONAL);

    struct batman_received r = hear(7, 900, 1, 69, 50);
    expect("counted and passed on", r.number, BATMAN_PASSED_ON);
    expect("octet 1 elsewhere", r.flags, 5);
    expect("the route's neighbour", r.route.neighbour, 7);
    expect("its count", r.route.count, 1);
    expect("its window", r.route.window, 64);
    expect("TTL 1, counted and kept", seen(hear(8, 900, 1, 0, 1).number), BATMAN_KEPT);
    for (uint32_t neighbour = 1; neighbour <= 6; neighbour++)
        hear(neighbour, 900, 1, 0, 50);
    memcpy(small_kept, small, sizeof small);
    expect("a ninth link", seen(hear(9, 900, 1, 0, 50).number), BATMAN_LINKS_FULL);
    expect("a refused ninth link changed a cell", memcmp(small, small_kept, sizeof small) != 0, 0);
    expect("a second originator", hear(7, 901, 1, 0, 50).number, BATMAN_PASSED_ON);
    memcpy(small_kept, small, sizeof small);
    expect("a third originator", seen(hear(7, 902, 1, 0, 50).number), BATMAN_ORIGINATORS_FULL);
    expect("a refused message changed a cell", memcmp(small, small_kept, sizeof small) != 0, 0);
    listing();
    packets_refused(0);
    packets_refused(HOST);
    changed_tables();
    struct batman_swept swept = batman_sweep(small, SMALL, 640010);
    expect("swept", swept.removed, 2);
}

/* ---- ties: originator 900 over the links A, B and C, in a window of 8 */

/* Hears a number that this link hasn't brought yet: which link is then best. The message is passed on exactly if it came by that one. */
static void counted(const char *what, uint32_t link, uint16_t number, uint32_t best)
{
    struct batman_received r = hear(link, 900, number, 0, 50);
    expect(what, r.route.neighbour, best);
    expect(what, r.number, link == best ? BATMAN_PASSED_ON : BATMAN_KEPT);
}

/* The neighbours 1 to 3 are A, B and C, in one order or another. */
static void begin_ties(enum batman_tie tie)
{
    struct batman_settings s = defaults;
    s.window = 8;
    s.tie = tie;
    begin(s);
    echo(1, 3);
}

/* P8 of RULES 11.1: A is best with 9 and 10, C has 9 and draws level by 10. */
static void level_with_best(enum batman_tie tie, uint32_t a, uint32_t c)
{
    begin_ties(tie);
    counted("9 via A", a, 9, a);
    counted("10 via A", a, 10, a);
    counted("9 via C", c, 9, a);
    counted("10 via C", c, 10, tie == BATMAN_NEWEST_WINS ? c : a);
    counted("11 via C", c, 11, c);
}

/* P7 of RULES 11.1: 12 leaves the best link A with 5 alone and C with 9 and 10. Then B draws level with C, above A; A with both; and B passes them. */
static void level_above_best(enum batman_tie tie, uint32_t a, uint32_t b, uint32_t c)
{
    begin_ties(tie);
    for (uint16_t number = 3; number <= 5; number++)
        counted("3 to 5 via A", a, number, a);
    counted("9 via C", c, 9, a);
    counted("10 via C", c, 10, a);
    counted("12 via B", b, 12, a);
    counted("11 via B", b, 11, tie == BATMAN_NEWEST_WINS ? b : a);
    counted("11 via A", a, 11, a);
    counted("10 via B", b, 10, b);
    counted("30 via C, the others have none left", c, 30, c);
}

static void ties(void)
{
    for (int tie = BATMAN_NEWEST_WINS; tie <= BATMAN_PRESENT_STAYS; tie++) {
        level_with_best(tie, 1, 3);
        level_with_best(tie, 3, 1);
        level_above_best(tie, 1, 2, 3);
        level_above_best(tie, 3, 2, 1);
        small[TIE_AT] = !tie;
        expect("the other tie in the cell", batman_best(small, SMALL, 900).number, 0);
        small[TIE_AT] = 2;
        expect("a tie of 2 in the cell", batman_best(small, SMALL, 900).number, BATMAN_NOT_WELL_FORMED);
        judged_alike();
    }
}

/* ---- bursts */

enum { BURST_MOST = BATMAN_PACKETS_MOST + 1, BURST_OCTETS = 2048, BURST_AT = 20 };

/* What is lent to a burst call, the table aside. */
struct burst {
    uint8_t octets[BURST_OCTETS];
    size_t length;
    uint64_t lengths[BURST_MOST], interfaces[BURST_MOST];
    uint32_t senders[BURST_MOST];
    size_t lengths_count, senders_count, interfaces_count;
    uint64_t time;
    uint8_t output[BURST_OCTETS];
    size_t room;
    struct batman_received answers[BURST_MOST];
    size_t rows;
};

/* No packets yet, at the table's time; output and rows are as large as can be. */
static struct burst no_packets(void)
{
    struct burst b;
    memset(&b, 238, sizeof b);
    b.length = b.lengths_count = b.senders_count = b.interfaces_count = 0;
    b.time = BURST_AT;
    b.room = sizeof b.output;
    b.rows = BURST_MOST;
    return b;
}

static void add_packet(struct burst *b, uint32_t sender, uint64_t interface, const uint8_t *packet, size_t length)
{
    memcpy(b->octets + b->length, packet, length);
    b->length += length;
    b->lengths[b->lengths_count++] = length;
    b->senders[b->senders_count++] = sender;
    b->interfaces[b->interfaces_count++] = interface;
}

/* A message with zero octets behind it, `length` in all. */
static void add_message(struct burst *b, uint32_t sender, struct message m, size_t length)
{
    uint8_t packet[BURST_OCTETS] = {0};
    memcpy(packet, m.octets, sizeof m.octets);
    add_packet(b, sender, 0, packet, length);
}

static struct batman_burst give(struct burst *b)
{
    return batman_receive_burst(small, SMALL, b->octets, b->length, b->lengths, b->lengths_count, b->senders, b->senders_count, b->interfaces,
                                b->interfaces_count, b->time, b->output, b->room, b->answers, b->rows);
}

/* The burst is answered by this number, and nothing that is lent changes. */
static void unchanged(const char *what, struct burst b, uint64_t number)
{
    struct burst before;
    memcpy(&before, &b, sizeof b); /* padding too */
    memcpy(small_kept, small, sizeof small);
    struct batman_burst a = give(&b);
    expect(what, seen(a.number), number);
    expect("octets written of it", a.written, 0);
    expect("a cell, an octet or a row was changed by it", memcmp(small, small_kept, sizeof small) != 0 || memcmp(&b, &before, sizeof b) != 0, 0);
}

/* Refused by 14, and by 1 where the table is damaged as well. */
static void wrong_burst(const char *what, struct burst b)
{
    unchanged(what, b, BATMAN_WRONG_BURST);
    small[VERSION_AT] = 256;
    unchanged(what, b, BATMAN_NOT_WELL_FORMED);
    small[VERSION_AT] = 4;
}

/* Two packets of 12 and 17 octets. */
static struct burst two_packets(void)
{
    struct burst b = no_packets();
    add_message(&b, 1, message(900, 1, 0, 50), 12);
    add_message(&b, 2, message(900, 1, 0, 50), 17);
    return b;
}

static void lists_unequal(void)
{
    struct burst b = two_packets();
    wrong_burst("a length too many", (b.lengths[2] = 0, b.lengths_count = 3, b)), b = two_packets();
    wrong_burst("a length too few", (b.lengths[0] = 29, b.lengths_count = 1, b)), b = two_packets();
    wrong_burst("a sender too many", (b.senders_count = 3, b)), b = two_packets();
    wrong_burst("a sender too few", (b.senders_count = 1, b)), b = two_packets();
    wrong_burst("no senders", (b.senders_count = 0, b)), b = two_packets();
    wrong_burst("an interface too many", (b.interfaces_count = 3, b)), b = two_packets();
    wrong_burst("an interface too few", (b.interfaces_count = 1, b)), b = two_packets();
    wrong_burst("no interfaces", (b.interfaces_count = 0, b)), b = two_packets();
    wrong_burst("lengths too few, the others alike", (b.lengths[0] = 29, b.lengths_count = 1, b.senders_count = b.interfaces_count = 3, b)), b = no_packets();
    wrong_burst("a sender and an interface without a packet", (b.senders_count = b.interfaces_count = 1, b));
}

static void with_lengths(const char *what, size_t length, uint64_t first, uint64_t second)
{
    struct burst b = two_packets();
    b.length = length;
    b.lengths[0] = first;
    b.lengths[1] = second;
    wrong_burst(what, b);
}

static void lengths_that_do_not_add_up(void)
{
    with_lengths("an octet too few", 29, 12, 16);
    with_lengths("an octet too many", 29, 12, 18);
    with_lengths("the first alone as long as the buffer", 12, 12, 17);
    with_lengths("the first longer than the buffer", 12, 13, 0);
    with_lengths("no octets", 0, 12, 17);
    with_lengths("lengths of 0 and octets", 29, 0, 0);
    with_lengths("2^32 more than the octets", 29, 12, 4294967296u + 17);
    with_lengths("2^33 more than the octets", 29, 4294967296u + 12, 4294967296u + 17);
    with_lengths("2^64 more than the octets", 12, UINT64_MAX, 13);
    with_lengths("2^64 more than the octets, the small one first", 12, 13, UINT64_MAX);
    with_lengths("2^64 and no octets", 0, UINT64_MAX, 1);
    with_lengths("2^63 twice and no octets", 0, (uint64_t)1 << 63, (uint64_t)1 << 63);
    with_lengths("the largest number twice", 29, UINT64_MAX, UINT64_MAX);
    struct burst b = no_packets();
    wrong_burst("octets and no packet", (b.length = 12, b));
}

/* As many packets of 12 octets, each from another originator itself, and no more rows. */
static struct burst alike(size_t packets)
{
    struct burst b = no_packets();
    for (uint32_t sender = 1; sender <= packets; sender++)
        add_message(&b, sender, message(sender, 7, 0, 50), 12);
    b.rows = packets;
    return b;
}

/* 16 lengths of 2^60, whose sum wraps to 0, behind a whole packet. */
static struct burst wrapping_late(void)
{
    struct burst b = alike(17);
    b.length = 12;
    for (size_t i = 1; i < 17; i++)
        b.lengths[i] = (uint64_t)1 << 60;
    return b;
}

static void bursts_refused(void)
{
    struct burst b = two_packets();
    wrong_burst("33 packets", alike(BURST_MOST));
    wrong_burst("a row too few", (b.rows = 1, b)), b = two_packets();
    wrong_burst("no rows", (b.rows = 0, b)), b = two_packets();
    wrong_burst("a row too few, and packets that are refused", (b.rows = 1, b.room = 0, b.time = 0, b.interfaces[0] = UINT64_MAX, b));
    wrong_burst("16 lengths of 2^60", wrapping_late());
    lists_unequal();
    lengths_that_do_not_add_up();
}

/* ---- a burst beside single calls */

static bool same_answer(struct batman_received a, struct batman_received b)
{
    return a.number == b.number && a.place == b.place && a.flags == b.flags && memcmp(&a.route, &b.route, sizeof a.route) == 0;
}

/* The packets given one by one to a table, each with the rest of the output; answers and octets go to `b`. Answers how many octets were written. */
static uint64_t give_singly(uint64_t *table, struct burst *b)
{
    const uint8_t *packet = b->octets;
    size_t written = 0;
    for (size_t i = 0; i < b->lengths_count; packet += b->lengths[i++]) {
        struct batman_received a = batman_receive(table, SMALL, packet, b->lengths[i], b->senders[i], b->interfaces[i], b->time, b->output + written, b->room - written);
        b->answers[i] = a;
        written += a.number == BATMAN_PASSED_ON ? b->lengths[i] : 0;
    }
    return written;
}

/* The burst does what single calls do to a copy of the table. Answers the octets written; the answers stay in `b`. */
static uint64_t same_as_singly(const char *what, struct burst *b)
{
    struct burst before, singly = *b;
    memcpy(&before, b, sizeof before); /* padding too */
    memcpy(small_kept, small, sizeof small);
    uint64_t written = give_singly(small_kept, &singly);
    struct batman_burst a = give(b);
    size_t packets = b->lengths_count;
    expect(what, a.number, 0);
    expect("its octets written", a.written, written);
    expect("its octets differ", memcmp(b->output, singly.output, sizeof b->output) != 0, 0);
    expect("its cells differ", memcmp(small, small_kept, sizeof small) != 0, 0);
    for (size_t i = 0; i < packets; i++)
        expect("an answer of it is the same", same_answer(b->answers[i], singly.answers[i]), true);
    expect("a row behind its answers was changed", memcmp(&b->answers[packets], &before.answers[packets], (BURST_MOST - packets) * sizeof b->answers[0]) != 0, 0);
    expect("what it was given was changed", memcmp(b, &before, offsetof(struct burst, output)) != 0, 0);
    return written;
}

/* Does what single calls do, and the packets get these answers. */
static uint64_t answered(const char *what, struct burst *b, const uint64_t *numbers)
{
    uint64_t written = same_as_singly(what, b);
    for (size_t i = 0; i < b->lengths_count; i++)
        expect(what, seen(b->answers[i].number), numbers[i]);
    return written;
}

/* As many as there may be, with no more rows than packets: each is passed on, and its copy stands behind the one before it. */
static void most_packets(void)
{
    struct burst b = alike(BATMAN_PACKETS_MOST);
    expect("octets written of 32 packets", same_as_singly("32 packets", &b), 12 * BATMAN_PACKETS_MOST);
    for (size_t i = 0; i < BATMAN_PACKETS_MOST; i++) {
        expect("an answer of 32", b.answers[i].number, BATMAN_PASSED_ON);
        expect("the TTL of a copy of 32", b.output[12 * i + 2], 49);
        expect("the originator of a copy of 32", b.output[12 * i + 11], i + 1);
    }
}

/* Each packet sees what those before it left in the table, and a refused one stops none behind it. */
static void each_after_the_other(void)
{
    static const uint64_t numbers[] = {BATMAN_KEPT, BATMAN_ECHO, BATMAN_PASSED_ON, BATMAN_PASSED_ON, BATMAN_KEPT, BATMAN_WRONG_MASK, BATMAN_NOT_IN_USE,
                                       BATMAN_WRONG_SIZE, BATMAN_RAGGED_ENTRIES, BATMAN_OWN_SENDER, BATMAN_UNIDIRECTIONAL, BATMAN_PASSED_ON};
    struct burst b = no_packets();
    struct message six = message(900, 6, 5, 50);
    const uint8_t masks[22] = {4, 0, 50, 0, 0, 9, 0, 0, 0, 0, 3, 132, 10, 0, 0, 0, 32, 10, 0, 0, 0, 33};
    add_message(&b, 1, message(900, 4, 0, 50), 12); /* not counted: the echo comes behind it */
    add_message(&b, 1, message(US, 65535, 64, 50), 12);
    add_message(&b, 1, message(900, 5, 0, 50), 12);
    add_message(&b, 1, six, 17);
    add_message(&b, 1, message(900, 6, 0, 40), 12); /* a duplicate */
    add_packet(&b, 1, 0, masks, sizeof masks);
    add_packet(&b, 1, 2, six.octets, 12);
    add_message(&b, 1, six, 0);
    add_message(&b, 1, six, 16);
    add_message(&b, US_TOO, six, 12);
    add_message(&b, 1, message(900, 6, 128, 50), 12);
    add_message(&b, 1, message(900, 7, 0, 50), 22);
    expect("octets written one after another", answered("one after another", &b, numbers), 12 + 17 + 22);
    expect("the place of the mask", b.answers[5].place, 1);
    expect("octet 1 elsewhere", b.answers[3].flags, 5);
    expect("the count, after two of them", b.answers[4].route.count, 2);
    expect("the count, after all of them", b.answers[11].route.count, 3);
    expect("the number in the last copy", b.output[12 + 17 + 5], 7);
}

/* 26 octets of output: the second packet is too long for what is left, the third is not, the fourth is again, and the fifth is too short for a packet. */
static void short_of_output(void)
{
    static const uint64_t numbers[] = {BATMAN_PASSED_ON, BATMAN_SHORT_OUTPUT, BATMAN_PASSED_ON, BATMAN_SHORT_OUTPUT, BATMAN_WRONG_SIZE};
    struct burst b = no_packets();
    add_message(&b, 1, message(1, 8, 0, 50), 12);
    add_message(&b, 2, message(2, 8, 0, 50), 17);
    add_message(&b, 3, message(3, 8, 0, 50), 12);
    add_message(&b, 4, message(4, 8, 0, 50), 12);
    add_message(&b, 5, message(5, 8, 0, 50), 2);
    b.room = 26;
    expect("octets written of 26", answered("an output that runs out", &b, numbers), 24);
    expect("the originator of the first copy", b.output[11], 1);
    expect("the originator of the second copy", b.output[23], 3);
}

/* This message from each of the neighbours. */
static void add_from(struct burst *b, uint32_t first, uint32_t last, struct message m)
{
    for (uint32_t neighbour = first; neighbour <= last; neighbour++)
        add_message(b, neighbour, m, 12);
}

/* 32 neighbours in one burst; then a 33rd, a third originator and a ninth link in another. */
static void full_tables(void)
{
    static const uint64_t numbers[] = {BATMAN_NEIGHBOURS_FULL, BATMAN_PASSED_ON, BATMAN_KEPT, BATMAN_KEPT, BATMAN_KEPT, BATMAN_KEPT, BATMAN_KEPT, BATMAN_KEPT,
                                       BATMAN_KEPT, BATMAN_LINKS_FULL, BATMAN_PASSED_ON, BATMAN_ORIGINATORS_FULL, BATMAN_PASSED_ON};
    begin(defaults);
    struct burst b = no_packets();
    add_from(&b, 1, BATMAN_NEIGHBOURS_MOST, message(US, 65535, 64, 50));
    expect("octets written of 32 echoes", same_as_singly("32 echoes", &b), 0);
    expect("the last echo", b.answers[BATMAN_NEIGHBOURS_MOST - 1].number, BATMAN_ECHO);
    b = no_packets();
    add_message(&b, BATMAN_NEIGHBOURS_MOST + 1, message(US, 65535, 64, 50), 12);
    add_from(&b, 1, BATMAN_LINKS_MOST + 1, message(900, 1, 0, 50));
    add_message(&b, 1, message(901, 1, 0, 50), 12);
    add_message(&b, 1, message(902, 1, 0, 50), 12);
    add_message(&b, 1, message(900, 2, 0, 50), 12);
    answered("a full table", &b, numbers);
}

/* The time is that of all packets: each is refused by it, and the burst is not. */
static void burst_at_an_earlier_time(void)
{
    static const uint64_t numbers[] = {BATMAN_TIME_BEFORE, BATMAN_TIME_BEFORE};
    struct burst b = two_packets();
    b.time = BURST_AT - 1;
    expect("octets written at an earlier time", answered("an earlier time", &b, numbers), 0);
}

/* Nothing is changed, the table's time neither; and pointers with length 0 may be NULL. */
static void bursts_of_none(void)
{
    struct burst b = no_packets();
    unchanged("no packets", b, 0);
    unchanged("no packets, an earlier time", (b.time = 0, b), 0);
    unchanged("no packets, a later time", (b.time = UINT64_MAX, b), 0);
    unchanged("no packets, no rows, no output", (b.rows = b.room = 0, b), 0);
    small[VERSION_AT] = 256;
    unchanged("no packets for a table not well-formed", b, BATMAN_NOT_WELL_FORMED);
    small[VERSION_AT] = 4;
    expect("no packets, NULL", batman_receive_burst(small, SMALL, NULL, 0, NULL, 0, NULL, 0, NULL, 0, 0, NULL, 0, NULL, 0).number, 0);
    expect("no packets and no cells", batman_receive_burst(NULL, 0, NULL, 0, NULL, 0, NULL, 0, NULL, 0, 0, NULL, 0, NULL, 0).number, BATMAN_NOT_WELL_FORMED);
}

/* A packet of no octets, in a buffer and with an output that are NULL; then one that needs an output. */
static void bursts_of_one_with_null(void)
{
    const uint64_t none = 0, twelve = 12, interface = 0;
    const uint32_t sender = 1;
    struct message m = message(1, 9, 0, 50);
    struct batman_received answer;
    struct batman_burst a = batman_receive_burst(small, SMALL, NULL, 0, &none, 1, &sender, 1, &interface, 1, BURST_AT, NULL, 0, &answer, 1);
    expect("a packet of no octets, taken", a.number + a.written, 0);
    expect("a packet of no octets", answer.number, BATMAN_WRONG_SIZE);
    a = batman_receive_burst(small, SMALL, m.octets, 12, &twelve, 1, &sender, 1, &interface, 1, BURST_AT, NULL, 0, &answer, 1);
    expect("a packet without an output, taken", a.number + a.written, 0);
    expect("a packet without an output", answer.number, BATMAN_SHORT_OUTPUT);
}

static void bursts(void)
{
    begin(defaults);
    bursts_refused();
    most_packets();
    each_after_the_other();
    short_of_output();
    bursts_refused();
    burst_at_an_earlier_time();
    bursts_of_none();
    bursts_of_one_with_null();
    full_tables();
}

/* ---- networks: the HNA entries of the originators 900 and 901, in a window of 8, heard from the neighbours 1 to 9 */

enum { TOO_MANY = BATMAN_ENTRIES_MOST + 1, PACKET_ENTRIES_MOST = 292, NETWORKS_WINDOW = 8, NEIGHBOURS = 9, HEARD_FROM = 7 };

static const uint32_t HIGHEST_BIT = (uint32_t)1 << 31;

static uint32_t dotted(uint8_t a, uint8_t b, uint8_t c, uint8_t d) { return (uint32_t)a << 24 | (uint32_t)b << 16 | (uint32_t)c << 8 | d; }

/* A message with entries behind it. */
struct announcement {
    uint8_t octets[BATMAN_PACKET_MOST];
    size_t length;
};

static struct announcement announce(uint32_t originator, uint16_t number)
{
    struct announcement a = {.length = BATMAN_HEADER_SIZE};
    struct message m = message(originator, number, 0, 50);
    memcpy(a.octets, m.octets, sizeof m.octets);
    return a;
}

static struct announcement with(struct announcement a, uint32_t network, uint8_t mask)
{
    const uint8_t entry[BATMAN_ENTRY_SIZE] = {(uint8_t)(network >> 24), (uint8_t)(network >> 16), (uint8_t)(network >> 8), (uint8_t)network, mask};
    memcpy(a.octets + a.length, entry, sizeof entry);
    a.length += sizeof entry;
    return a;
}

/* So many entries more: 10.9.0.0/24, 10.9.1.0/24 and on; from the 257th on 10.10.0.0/24 .. */
static struct announcement with_many(struct announcement a, unsigned entries)
{
    for (unsigned i = 0; i < entries; i++)
        a = with(a, dotted(10, 9, 0, 0) + 256 * i, 24);
    return a;
}

/* The message of this originator and number, with so many entries. */
static struct announcement many(uint32_t originator, uint16_t number, unsigned entries) { return with_many(announce(originator, number), entries); }

static struct batman_received hear_entries(uint32_t sender, struct announcement a)
{
    return batman_receive(small, SMALL, a.octets, a.length, sender, 0, small[TIME_AT], output, sizeof output);
}

/* The message is counted, and passed on as the first of its originator, or as one with a new number, is. */
static void take_entries(struct announcement a) { expect("a message with entries", hear_entries(HEARD_FROM, a).number, BATMAN_PASSED_ON); }

static void begin_networks(void)
{
    struct batman_settings s = defaults;
    s.window = NETWORKS_WINDOW;
    begin(s);
    echo(1, NEIGHBOURS);
}

/* Asks, and sees that asking changes nothing. */
static struct batman_located look_up(uint32_t address)
{
    memcpy(small_kept, small, sizeof small);
    struct batman_located l = batman_lookup(small, SMALL, address);
    expect("a lookup changed a cell", memcmp(small, small_kept, sizeof small) != 0, 0);
    return l;
}

static void found(const char *what, uint32_t address, uint32_t originator, uint32_t network, uint32_t mask)
{
    struct batman_located l = look_up(address);
    expect(what, l.number, 0);
    expect(what, l.found, 1);
    expect(what, l.originator, originator);
    expect(what, l.network, network);
    expect(what, l.mask, mask);
}

static void all_zero_but_number(const char *what, struct batman_located l, uint64_t number)
{
    expect(what, seen(l.number), number);
    expect(what, l.found, 0);
    expect(what, l.originator, 0);
    expect(what, l.network, 0);
    expect(what, l.mask, 0);
}

static void not_found(const char *what, uint32_t address) { all_zero_but_number(what, look_up(address), 0); }

static void lookups_refused(void)
{
    begin_networks();
    take_entries(with(announce(900, 5), 0, 0));
    found("a table to damage", 1, 900, 0, 0);
    all_zero_but_number("a lookup in no cells", batman_lookup(NULL, 0, 1), BATMAN_NOT_WELL_FORMED);
    all_zero_but_number("a lookup in a cell too few", batman_lookup(small, SMALL - 1, 1), BATMAN_NOT_WELL_FORMED);
    small[VERSION_AT] = 256;
    all_zero_but_number("a lookup in a table not well-formed", look_up(1), BATMAN_NOT_WELL_FORMED);
}

/* The longest mask, wherever it stands in the list; none; and the first and last address of a network. */
static void longest_mask(void)
{
    begin_networks();
    not_found("no originator", dotted(10, 1, 2, 3));
    take_entries(announce(900, 5));
    not_found("no entries", dotted(10, 1, 2, 3));
    take_entries(with(with(with(with(announce(901, 5), dotted(10, 1, 0, 0), 16), dotted(10, 1, 2, 0), 24), dotted(10, 0, 0, 0), 8), dotted(10, 1, 2, 3), 32));
    found("mask 32", dotted(10, 1, 2, 3), 901, dotted(10, 1, 2, 3), 32);
    found("beside it", dotted(10, 1, 2, 2), 901, dotted(10, 1, 2, 0), 24);
    found("the first address of mask 24", dotted(10, 1, 2, 0), 901, dotted(10, 1, 2, 0), 24);
    found("the last address of mask 24", dotted(10, 1, 2, 255), 901, dotted(10, 1, 2, 0), 24);
    found("behind it", dotted(10, 1, 3, 0), 901, dotted(10, 1, 0, 0), 16);
    found("before it", dotted(10, 1, 1, 255), 901, dotted(10, 1, 0, 0), 16);
    found("mask 8", dotted(10, 2, 2, 3), 901, dotted(10, 0, 0, 0), 8);
    not_found("the address behind all", dotted(11, 0, 0, 0));
    not_found("the address before all", dotted(9, 255, 255, 255));
}

/* 901 is heard first. Of equal masks 900's is found, of a longer one whosever it is. */
static void equal_masks(void)
{
    begin_networks();
    take_entries(with(with(announce(901, 5), dotted(10, 1, 2, 0), 24), dotted(10, 1, 2, 128), 25));
    found("901 alone", dotted(10, 1, 2, 9), 901, dotted(10, 1, 2, 0), 24);
    take_entries(with(with(announce(900, 5), dotted(10, 1, 2, 0), 23), dotted(10, 1, 2, 0), 24));
    found("equal masks", dotted(10, 1, 2, 9), 900, dotted(10, 1, 2, 0), 24);
    found("a longer mask of the larger originator", dotted(10, 1, 2, 129), 901, dotted(10, 1, 2, 128), 25);
    found("a shorter mask alone", dotted(10, 1, 3, 9), 900, dotted(10, 1, 2, 0), 23);
}

/* Mask 0 covers every address; an address's bits below a mask don't matter. */
static void any_address(void)
{
    begin_networks();
    take_entries(with(with(announce(900, 5), 0, 0), dotted(10, 1, 0, 0), 16));
    found("the least address", 0, 900, 0, 0);
    found("the largest address", UINT32_MAX, 900, 0, 0);
    found("bits below the mask, all of them", dotted(10, 1, 255, 255), 900, dotted(10, 1, 0, 0), 16);
    found("the network's highest bit other", dotted(138, 1, 0, 0), 900, 0, 0);
    found("the network's lowest bit other", dotted(10, 0, 0, 0), 900, 0, 0);
    take_entries(with(announce(900, 6), HIGHEST_BIT, 1));
    found("mask 1", UINT32_MAX, 900, HIGHEST_BIT, 1);
    not_found("mask 1, the other half", INT32_MAX);
}

/* Every field of what is found may be 0: only `found` tells it from nothing. */
static void address_zero(void)
{
    begin_networks();
    take_entries(with(announce(900, 5), 0, 32));
    found("address 0", 0, 900, 0, 32);
    not_found("address 1", 1);
    take_entries(with(announce(0, 5), 0, 0));
    found("address 1 by originator 0", 1, 0, 0, 0);
    found("address 0 by the longer mask", 0, 900, 0, 32);
}

/* Two addresses, each announced with mask 32: 10.1.1.1 and 10.2.2.2. */
enum { OLD = 0x0a010101, NEW = 0x0a020202 };

/* A network, the same with host bits set, and an address that both cover: 10.1.0.0, 10.1.0.7 and 10.1.1.2, the mask 16. */
enum { NETWORK = 0x0a010000, WITH_HOST_BITS = NETWORK + HOST, COVERED = NETWORK + 0x0102, NETWORK_MASK = 16 };

static struct announcement with_host_bits(struct announcement a) { return with(a, WITH_HOST_BITS, NETWORK_MASK); }

static void begin_with_old(void)
{
    begin_networks();
    take_entries(with(announce(900, 10), OLD, 32));
}

/* Answered by this number, and the list has this address and not the other. */
static void leaves(const char *what, uint32_t sender, struct announcement a, uint64_t number, uint32_t held, uint32_t other)
{
    expect(what, hear_entries(sender, a).number, number);
    found(what, held, 900, held, 32);
    not_found(what, other);
}

/* A new number replaces the list, the least and the most above current, also with no entries, and also where the TTL doesn't let the message go on. */
static void lists_replaced(void)
{
    enum { FAR = 11 + NEW_MOST };
    struct announcement low = with(announce(900, FAR + 2), OLD, 32);
    low.octets[2] = 1;
    begin_with_old();
    leaves("the next number", HEARD_FROM, with(announce(900, 11), NEW, 32), BATMAN_PASSED_ON, NEW, OLD);
    leaves("the last number that is new", HEARD_FROM, with(announce(900, FAR), OLD, 32), BATMAN_PASSED_ON, OLD, NEW);
    leaves("a new number by a link that doesn't become best", 2, with(announce(900, FAR + 1), NEW, 32), BATMAN_KEPT, NEW, OLD);
    leaves("a new number with TTL 1", HEARD_FROM, low, BATMAN_KEPT, OLD, NEW);
    take_entries(announce(900, FAR + 3));
    not_found("a new number without entries", OLD);
}

/* A number inside the window, a duplicate and what is not counted leave the list; with more than 16 entries too, since nothing is to be kept of them. */
static void lists_left(unsigned more)
{
    struct announcement inside = with_many(with(announce(900, 11 - NETWORKS_WINDOW), NEW, 32), more), same = with_many(with(announce(900, 10), NEW, 32), more);
    struct announcement below = with_many(with(announce(900, 10 - NETWORKS_WINDOW), NEW, 32), more), far = with_many(with(announce(900, 10 + HALF_WAY), NEW, 32), more);
    struct announcement later = with_many(with(announce(900, 11), NEW, 32), more), marked = later, back = with_many(with(announce(US, 65535), NEW, 32), more);
    marked.octets[1] = 128;
    back.octets[1] = 64;
    begin_with_old();
    leaves("a duplicate of the best link", HEARD_FROM, same, BATMAN_PASSED_ON, OLD, NEW);
    leaves("the last number of the window", HEARD_FROM, inside, BATMAN_PASSED_ON, OLD, NEW);
    leaves("that number again", HEARD_FROM, inside, BATMAN_PASSED_ON, OLD, NEW);
    leaves("the first number below the window", HEARD_FROM, below, BATMAN_STALE, OLD, NEW);
    leaves("the number half way round", HEARD_FROM, far, BATMAN_STALE, OLD, NEW);
    leaves("the current number by another link", 1, same, BATMAN_KEPT, OLD, NEW);
    leaves("a new number by a link without a row", NEIGHBOURS + 1, later, BATMAN_KEPT, OLD, NEW);
    leaves("a new number with U set", HEARD_FROM, marked, BATMAN_UNIDIRECTIONAL, OLD, NEW);
    leaves("a new number from an own address", US_TOO, later, BATMAN_OWN_SENDER, OLD, NEW);
    leaves("a new number from a broadcast address", BROADCAST, later, BATMAN_OWN_BROADCAST, OLD, NEW);
    leaves("an echo", HEARD_FROM, back, BATMAN_ECHO, OLD, NEW);
    back.octets[1] = 0;
    leaves("our own packet by another way", HEARD_FROM, back, BATMAN_OWN_ORIGINATOR, OLD, NEW);
}

/* A neighbour's own message before its echo is not counted: it is passed on, however many entries it has. */
static void passed_on_uncounted(void)
{
    struct announcement a = many(77, 1, PACKET_ENTRIES_MOST);
    begin_networks();
    expect("292 entries, not counted", hear_entries(77, a).number, BATMAN_PASSED_ON);
    expect("the entries of its copy differ", memcmp(output + BATMAN_HEADER_SIZE, a.octets + BATMAN_HEADER_SIZE, a.length - BATMAN_HEADER_SIZE) != 0, 0);
    not_found("its entries", dotted(10, 9, 0, 1));
}

/* An entry as a record holds it. */
static uint64_t entry_cell(uint32_t network, uint8_t mask) { return (uint64_t)network << 8 | mask; }

/* 16 entries are held, each of them, in packet order; fewer leave zeros behind them. */
static void most_entries(void)
{
    const uint64_t *record = small + BATMAN_TABLE_CELLS;
    begin_networks();
    take_entries(many(900, 5, BATMAN_ENTRIES_MOST));
    expect("entries held", record[ENTRIES_HELD_AT], BATMAN_ENTRIES_MOST);
    for (uint32_t i = 0; i < BATMAN_ENTRIES_MOST; i++)
        found("one of 16", dotted(10, 9, (uint8_t)i, 1), 900, dotted(10, 9, (uint8_t)i, 0), 24);
    take_entries(with(with(announce(900, 6), NEW, 32), NEW, 32));
    expect("a repeated entry is held twice", record[ENTRIES_HELD_AT], 2);
    expect("the first of them", record[ENTRIES_AT], entry_cell(NEW, 32));
    expect("the second of them", record[ENTRIES_AT + 1], entry_cell(NEW, 32));
    for (size_t i = 2; i < BATMAN_ENTRIES_MOST; i++)
        expect("a cell behind them", record[ENTRIES_AT + i], 0);
}

/* Refused with nothing changed, at a later time: that is not taken over either. */
static void entries_refused(const char *what, struct announcement a, uint64_t number, uint64_t place)
{
    turned_away(what, a.octets, a.length, 0, small[TIME_AT] + 1, sizeof output, number, place);
}

static void too_many_entries(void)
{
    begin_networks();
    entries_refused("17 entries in a first message", many(900, 5, TOO_MANY), BATMAN_ENTRIES_FULL, 0);
    expect("no record of it", batman_best(small, SMALL, 900).route.window, 0);
    take_entries(many(900, 5, BATMAN_ENTRIES_MOST));
    entries_refused("17 entries in a new number", many(900, 6, TOO_MANY), BATMAN_ENTRIES_FULL, 0);
    entries_refused("292 entries in a new number", many(900, 6, PACKET_ENTRIES_MOST), BATMAN_ENTRIES_FULL, 0);
    entries_refused("17 entries in the last number that is new", many(900, 5 + NEW_MOST, TOO_MANY), BATMAN_ENTRIES_FULL, 0);
    found("the list is the one before", dotted(10, 9, 15, 1), 900, dotted(10, 9, 15, 0), 24);
}

/* A message that is refused by this number is refused by 16 where an entry with host bits stands behind its others. */
static void host_bits_before(const char *what, struct announcement a, uint64_t number)
{
    entries_refused(what, a, number, 0);
    entries_refused(what, with_host_bits(a), BATMAN_HOST_BITS_SET, (a.length - BATMAN_HEADER_SIZE) / BATMAN_ENTRY_SIZE);
}

/* What stands before 15, of messages with 17 entries: a mask (8), host bits (16), the capacity (10) and a ninth link (11). */
static void earlier_refusals(void)
{
    begin_networks();
    for (uint32_t link = 1; link <= NEIGHBOURS; link++)
        if (link != HEARD_FROM)
            hear_entries(link, many(900, 5, 1));
    host_bits_before("a ninth link and 17 entries in a new number", many(900, 6, TOO_MANY), BATMAN_LINKS_FULL);
    host_bits_before("a window that drops eight links, and 17 entries", many(900, 100, TOO_MANY), BATMAN_ENTRIES_FULL);
    entries_refused("a mask of 33 and 17 entries", with(many(901, 5, TOO_MANY), 0, 33), BATMAN_WRONG_MASK, TOO_MANY);
    take_entries(many(901, 5, BATMAN_ENTRIES_MOST));
    host_bits_before("a third originator and 17 entries", many(902, 5, TOO_MANY), BATMAN_ORIGINATORS_FULL);
}

/* 900 is heard at the table's first time and 901 later: a sweep takes the entries of the one alone, and then of both. A make empties the table too. */
static void entries_removed(void)
{
    begin_networks();
    take_entries(with(announce(900, 5), OLD, 32));
    expect("a sweep before the timeout", batman_sweep(small, SMALL, 9 + defaults.purge).removed, 0);
    take_entries(with(announce(901, 5), NEW, 32));
    expect("the sweep of one", batman_sweep(small, SMALL, 10 + defaults.purge).removed, 1);
    not_found("an entry of the swept one", OLD);
    found("an entry of the other", NEW, 901, NEW, 32);
    take_entries(announce(900, 6));
    not_found("the swept one again, without entries", OLD);
    expect("the sweep of both", batman_sweep(small, SMALL, 11 + 2 * defaults.purge).removed, 2);
    not_found("an entry after both are swept", NEW);
    begin_with_old();
    begin_networks();
    not_found("an entry after a make", OLD);
}

/* Our next packet, with the entries of this message. */
static struct batman_written send_entries(struct announcement a, uint8_t ttl, uint64_t time)
{
    return batman_own_packet(small, SMALL, 0, time, ttl, 0, 0, a.octets + BATMAN_HEADER_SIZE, a.length - BATMAN_HEADER_SIZE, output, sizeof output);
}

/* What we announce ourselves is in our packet, as many entries as it can have, and not in our table. */
static void own_entries(void)
{
    struct announcement a = many(US, 0, PACKET_ENTRIES_MOST);
    begin_networks();
    struct batman_written w = send_entries(a, 50, 9);
    expect("an own packet with 292 entries", w.number, 0);
    expect("its length", w.length, BATMAN_PACKET_MOST);
    expect("its entries differ", memcmp(output + BATMAN_HEADER_SIZE, a.octets + BATMAN_HEADER_SIZE, a.length - BATMAN_HEADER_SIZE) != 0, 0);
    not_found("one of them", dotted(10, 9, 0, 1));
}

/* A burst of three packets: the second is refused, and the third is taken. */
static void second_refused(const char *what, struct announcement second, uint64_t number, uint64_t place)
{
    const uint64_t numbers[] = {BATMAN_PASSED_ON, number, BATMAN_PASSED_ON};
    struct burst b = no_packets();
    struct announcement first = many(900, 5, 1), third = many(900, 6, BATMAN_ENTRIES_MOST);
    begin_networks();
    add_packet(&b, HEARD_FROM, 0, first.octets, first.length);
    add_packet(&b, HEARD_FROM, 0, second.octets, second.length);
    add_packet(&b, HEARD_FROM, 0, third.octets, third.length);
    expect("octets written of a burst with a refused packet", answered(what, &b, numbers), first.length + third.length);
    is_refused(what, b.answers[1], number, place);
    found("the last packet's last entry", dotted(10, 9, 15, 1), 900, dotted(10, 9, 15, 0), 24);
}

static void refused_in_a_burst(void)
{
    second_refused("a burst with 17 entries", many(900, 6, TOO_MANY), BATMAN_ENTRIES_FULL, 0);
    second_refused("a burst with host bits", with_host_bits(many(900, 6, 1)), BATMAN_HOST_BITS_SET, 1);
    second_refused("a burst with a mask of 33 behind host bits", with(with_host_bits(many(900, 6, 1)), 0, 33), BATMAN_WRONG_MASK, 2);
}

/* A cell of the first record as it is poked, and whether the table is then well-formed. */
static void poked(const char *what, size_t cell, uint64_t value, uint64_t number)
{
    uint64_t *at = small + BATMAN_TABLE_CELLS + cell, was = *at;
    *at = value;
    expect(what, look_up(0).number, number);
    judged_alike();
    *at = was;
}

static void entries_poked(void)
{
    begin_networks();
    take_entries(many(900, 5, BATMAN_ENTRIES_MOST));
    poked("17 entries held", ENTRIES_HELD_AT, TOO_MANY, BATMAN_NOT_WELL_FORMED);
    poked("15 entries held, and a cell behind them", ENTRIES_HELD_AT, BATMAN_ENTRIES_MOST - 1, BATMAN_NOT_WELL_FORMED);
    poked("mask 32 in the last entry", ENTRIES_AT + BATMAN_ENTRIES_MOST - 1, entry_cell(OLD, 32), 0);
    poked("mask 33 in the last entry", ENTRIES_AT + BATMAN_ENTRIES_MOST - 1, entry_cell(OLD, 33), BATMAN_NOT_WELL_FORMED);
    poked("mask 255 in the first entry", ENTRIES_AT, entry_cell(OLD, 255), BATMAN_NOT_WELL_FORMED);
    poked("the largest network", ENTRIES_AT, entry_cell(UINT32_MAX, 32), 0);
    poked("the largest network with mask 0", ENTRIES_AT, entry_cell(UINT32_MAX, 0), 0);
    poked("host bits in the last entry", ENTRIES_AT + BATMAN_ENTRIES_MOST - 1, entry_cell(OLD, 16), 0);
    poked("an entry of 2^40", ENTRIES_AT, (uint64_t)1 << 40, BATMAN_NOT_WELL_FORMED);
    take_entries(many(900, 6, 2));
    poked("one of three entries is zero", ENTRIES_HELD_AT, 3, 0);
    poked("a cell behind the entries", ENTRIES_AT + 2, 1, BATMAN_NOT_WELL_FORMED);
    poked("the last cell of a record", ENTRIES_AT + BATMAN_ENTRIES_MOST - 1, 1, BATMAN_NOT_WELL_FORMED);
    take_entries(many(901, 5, BATMAN_ENTRIES_MOST));
    changed_tables();
}

/* ---- host bits (16): every call that is given HNA entries refuses them alike */

/* Refused with nothing changed, at a later time: neither that nor a sequence number is taken. */
static void own_refused(const char *what, struct announcement a, uint8_t ttl, uint64_t number, uint64_t place)
{
    keep_all();
    struct batman_written w = send_entries(a, ttl, small[TIME_AT] + 1);
    expect(what, seen(w.number), number);
    expect("its place", w.place, place);
    expect("another field of a refusal", w.length + w.sequence, 0);
    all_kept();
}

/* The packet check, receive, a burst and own packet answer this refusal to a message, or to its entries. */
static void refused_by_all(const char *what, struct announcement a, uint64_t number, uint64_t place)
{
    uint64_t check = batman_packet_check(a.octets, a.length, defaults.version);
    struct burst b = no_packets();
    expect(what, batman_refusal_number(check), number);
    expect("its place", batman_refusal_place(check), place);
    entries_refused(what, a, number, place);
    own_refused(what, a, 50, number, place);
    add_packet(&b, HEARD_FROM, 0, a.octets, a.length);
    expect("octets written of it", same_as_singly(what, &b), 0);
    is_refused(what, b.answers[0], number, place);
}

/* All of them take an entry; 901 is the one who brings it in a burst. */
static void taken_by_all(const char *what, uint32_t network, uint8_t mask)
{
    static const uint64_t numbers[] = {BATMAN_PASSED_ON};
    struct announcement a = with(announce(900, 5), network, mask), other = with(announce(901, 5), network, mask);
    struct burst b = no_packets();
    begin_networks();
    expect(what, batman_packet_check(a.octets, a.length, defaults.version), 0);
    take_entries(a);
    found(what, network, 900, network, mask);
    add_packet(&b, HEARD_FROM, 0, other.octets, other.length);
    expect("octets written of it", answered(what, &b, numbers), other.length);
    expect(what, send_entries(a, 50, small[TIME_AT]).number, 0);
}

/* Under each mask the lowest host bit alone and the highest alone are refused, and the lowest bit of the network alone is taken. */
static void every_mask(void)
{
    char what[64];
    begin_networks();
    for (uint8_t mask = 0; mask < 32; mask++) {
        snprintf(what, sizeof what, "the lowest host bit of mask %d", mask);
        refused_by_all(what, with(announce(900, 5), 1, mask), BATMAN_HOST_BITS_SET, 0);
        snprintf(what, sizeof what, "the highest host bit of mask %d", mask);
        refused_by_all(what, with(announce(900, 5), HIGHEST_BIT >> mask, mask), BATMAN_HOST_BITS_SET, 0);
    }
    for (uint8_t mask = 1; mask <= 32; mask++) {
        snprintf(what, sizeof what, "the lowest network bit of mask %d", mask);
        taken_by_all(what, (uint32_t)1 << (32 - mask), mask);
    }
    taken_by_all("mask 0 with address 0", 0, 0);
    taken_by_all("mask 32 with the largest address", UINT32_MAX, 32);
}

/* The place is that of the first entry with host bits; a mask above 32 is given first wherever it stands, and so are octets that are no whole entries. */
static void place_of_host_bits(void)
{
    struct announcement one = with_host_bits(announce(900, 5)), longer = one;
    longer.length++;
    begin_networks();
    refused_by_all("host bits alone", one, BATMAN_HOST_BITS_SET, 0);
    refused_by_all("host bits behind an entry", with_host_bits(many(900, 5, 1)), BATMAN_HOST_BITS_SET, 1);
    refused_by_all("host bits three times", with_host_bits(with(with_host_bits(with_host_bits(many(900, 5, 2))), 0, 0)), BATMAN_HOST_BITS_SET, 2);
    refused_by_all("host bits in the last of 292", with_host_bits(many(900, 5, PACKET_ENTRIES_MOST - 1)), BATMAN_HOST_BITS_SET, PACKET_ENTRIES_MOST - 1);
    refused_by_all("a mask of 33 behind host bits", with(one, 0, 33), BATMAN_WRONG_MASK, 1);
    refused_by_all("a mask of 33 before host bits", with_host_bits(with(announce(900, 5), 0, 33)), BATMAN_WRONG_MASK, 0);
    refused_by_all("a mask of 255 under every bit", with(announce(900, 5), UINT32_MAX, 255), BATMAN_WRONG_MASK, 0);
    refused_by_all("an octet behind host bits", longer, BATMAN_RAGGED_ENTRIES, 0);
    own_refused("TTL 1", many(US, 0, 1), 1, BATMAN_TTL_TOO_LOW, 0);
    own_refused("TTL 1 and host bits", one, 1, BATMAN_HOST_BITS_SET, 0);
}

/* 16 stands before 9 too: 32 rows are held, and none of the one who sends the echo. */
static void echo_with_host_bits(void)
{
    struct announcement back = many(US, 65535, 2);
    back.octets[1] = 64;
    begin(defaults);
    echo(HEARD_FROM + 1, HEARD_FROM + BATMAN_NEIGHBOURS_MOST);
    host_bits_before("an echo that needs a 33rd row", back, BATMAN_NEIGHBOURS_FULL);
}

/* Host bits are refused before any verdict: also in what is not counted, or leaves the entries that are held. */
static void no_verdict_on_host_bits(void)
{
    static const struct {
        const char *what;
        uint32_t sender, originator;
        uint16_t number;
        uint8_t flags;
    } heard[] = {
        {"host bits from an own address", US_TOO, 900, 11, 0},
        {"host bits from a broadcast address", BROADCAST, 900, 11, 0},
        {"host bits in an echo", HEARD_FROM, US, 65535, 64},
        {"host bits in our own packet by another way", HEARD_FROM, US, 65535, 0},
        {"host bits with U set", HEARD_FROM, 900, 11, 128},
        {"host bits in a new number", HEARD_FROM, 900, 11, 0},
        {"host bits in a number inside the window", HEARD_FROM, 900, 11 - NETWORKS_WINDOW, 0},
        {"host bits in a stale number", HEARD_FROM, 900, 10 - NETWORKS_WINDOW, 0},
        {"host bits in a duplicate", HEARD_FROM, 900, 10, 0},
        {"host bits by a link without a row", NEIGHBOURS + 1, 900, 11, 0},
        {"host bits in a neighbour's own message before its echo", 77, 77, 1, 0},
    };
    begin_with_old();
    keep_all();
    for (size_t i = 0; i < sizeof heard / sizeof *heard; i++) {
        struct announcement a = with_host_bits(announce(heard[i].originator, heard[i].number));
        a.octets[1] = heard[i].flags;
        is_refused(heard[i].what, hear_entries(heard[i].sender, a), BATMAN_HOST_BITS_SET, 0);
    }
    all_kept();
}

static void host_bits(void)
{
    every_mask();
    place_of_host_bits();
    echo_with_host_bits();
    no_verdict_on_host_bits();
}

/* ---- host bits that are held: an earlier version took such entries up, and wrote the same cells */

/* Puts an entry in the place of one that 900's record holds; its record is the first. */
static void hold(size_t place, uint32_t network, uint8_t mask) { small[BATMAN_TABLE_CELLS + ENTRIES_AT + place] = entry_cell(network, mask); }

/* What 900's message with number 10 brought to an earlier version. */
static void begin_with_held(void)
{
    begin_networks();
    take_entries(with(announce(900, 10), NETWORK, NETWORK_MASK));
    hold(0, WITH_HOST_BITS, NETWORK_MASK);
}

static void still_held(const char *what) { found(what, COVERED, 900, WITH_HOST_BITS, NETWORK_MASK); }

/* No call refuses the table, and none of these touches the entry. */
static void held_and_called(void)
{
    static const uint64_t numbers[] = {BATMAN_PASSED_ON};
    struct batman_link_row row;
    struct burst b = no_packets();
    begin_with_held();
    judged_alike();
    still_held("host bits held");
    expect("best question, host bits held", batman_best(small, SMALL, 900).route.window, NETWORKS_WINDOW);
    expect("list, host bits held", batman_list(small, SMALL, 900, &row, 1).filled, 1);
    expect("own packet, host bits held", send_entries(many(US, 0, 1), 50, small[TIME_AT]).number, 0);
    take_entries(many(901, 5, 1));
    add_message(&b, HEARD_FROM, message(901, 6, 0, 50), 12);
    answered("burst, host bits held", &b, numbers);
    struct batman_swept swept = batman_sweep(small, SMALL, small[TIME_AT]);
    expect("sweep, host bits held", swept.number + swept.removed, 0);
    still_held("host bits held through every call");
}

/* A number inside the window and a refused message leave the entry, a counted one with a new number replaces it, also by none. */
static void held_until_replaced(void)
{
    begin_with_held();
    expect("a number inside the window", hear_entries(HEARD_FROM, with(announce(900, 11 - NETWORKS_WINDOW), NETWORK, NETWORK_MASK)).number, BATMAN_PASSED_ON);
    still_held("host bits held after a number inside the window");
    entries_refused("the entry that is held, in a new number", with_host_bits(announce(900, 11)), BATMAN_HOST_BITS_SET, 0);
    take_entries(with(announce(900, 11), NETWORK, NETWORK_MASK));
    found("the network in place of one with host bits", COVERED, 900, NETWORK, NETWORK_MASK);
    begin_with_held();
    take_entries(announce(900, 11));
    not_found("no entries in place of one with host bits", COVERED);
}

static void held_until_swept(void)
{
    begin_with_held();
    uint64_t heard = small[TIME_AT];
    expect("a sweep before the timeout", batman_sweep(small, SMALL, heard + defaults.purge).removed, 0);
    still_held("host bits held until the timeout");
    expect("the sweep after it", batman_sweep(small, SMALL, heard + defaults.purge + 1).removed, 1);
    not_found("host bits after the sweep", COVERED);
}

/* Held host bits don't matter to what an entry covers. Of one originator's equal masks the earlier entry is found: only host bits can tell these apart. */
static void held_and_looked_up(void)
{
    begin_networks();
    take_entries(many(900, 10, 3));
    hold(0, dotted(5, 6, 7, 8), 0);
    hold(1, WITH_HOST_BITS + 1, NETWORK_MASK);
    hold(2, WITH_HOST_BITS, NETWORK_MASK);
    found("the least address", 0, 900, dotted(5, 6, 7, 8), 0);
    found("the largest address", UINT32_MAX, 900, dotted(5, 6, 7, 8), 0);
    found("bits below the mask, none as in the entry", dotted(10, 1, 255, 247), 900, WITH_HOST_BITS + 1, NETWORK_MASK);
    found("the network's highest bit other", dotted(138, 1, 0, 8), 900, dotted(5, 6, 7, 8), 0);
    found("the network's lowest bit other", dotted(10, 0, 0, 8), 900, dotted(5, 6, 7, 8), 0);
    hold(1, WITH_HOST_BITS, NETWORK_MASK);
    hold(2, WITH_HOST_BITS + 1, NETWORK_MASK);
    still_held("the earlier entry is the smaller one");
    take_entries(with(announce(901, 5), NETWORK, NETWORK_MASK));
    still_held("the larger originator has the network without host bits");
    hold(0, UINT32_MAX, 1);
    found("mask 1", HIGHEST_BIT, 900, UINT32_MAX, 1);
    not_found("mask 1, the other half", INT32_MAX);
}

static void held_host_bits(void)
{
    held_and_called();
    held_until_replaced();
    held_until_swept();
    held_and_looked_up();
}

static void networks(void)
{
    lookups_refused();
    longest_mask();
    equal_masks();
    any_address();
    address_zero();
    lists_replaced();
    lists_left(0);
    lists_left(BATMAN_ENTRIES_MOST);
    passed_on_uncounted();
    most_entries();
    too_many_entries();
    earlier_refusals();
    entries_removed();
    own_entries();
    refused_in_a_burst();
    entries_poked();
    host_bits();
    held_host_bits();
}

/* ---- stale numbers (27): 900 is held over the links of eight neighbours, 901 over its own; a ninth neighbour has a row and no link, SILENT has neither */

enum { SILENT = 77 };

/* 901's current number lies half way round from 900's, so that the current number of one is stale for the other: each is judged by its own record. */
static void begin_held(uint64_t window, uint16_t current)
{
    struct batman_settings s = defaults;
    s.window = window;
    begin(s);
    echo(1, NEIGHBOURS);
    echo(901, 901);
    for (uint32_t link = 1; link <= BATMAN_LINKS_MOST; link++)
        hear_entries(link, with(announce(900, current), OLD, 32));
    hear_entries(901, announce(901, (uint16_t)(current + HALF_WAY)));
}

/* The current number of one of the two. */
static uint16_t current_of(uint32_t originator)
{
    return (uint16_t)small[BATMAN_TABLE_CELLS + BATMAN_RECORD_CELLS * (originator - 900) + CURRENT_AT];
}

/* Each number there is comes by the best link: where it lies says whether it is stale, and which number is then current. */
static void every_number(uint64_t window, uint16_t current)
{
    char what[64];
    begin_held(window, current);
    memcpy(small_kept, small, sizeof small);
    for (uint32_t above = 0; above < NUMBERS; above++) {
        uint16_t number = (uint16_t)(current + above);
        bool is_new = above >= 1 && above <= NEW_MOST, is_inside = above == 0 || above > NUMBERS - window;
        snprintf(what, sizeof what, "%d, current %d, window %d", number, current, (int)window);
        memcpy(small, small_kept, sizeof small);
        expect(what, hear(1, 900, number, 0, 50).number, is_new || is_inside ? BATMAN_PASSED_ON : BATMAN_STALE);
        expect(what, current_of(900), is_new ? number : current);
    }
}

static void every_number_there_is(void)
{
    static const uint64_t windows[] = {1, 8, 64};
    static const uint16_t currents[] = {0, 10, HALF_WAY, NUMBERS - 1};
    for (size_t i = 0; i < sizeof windows / sizeof *windows; i++)
        for (size_t k = 0; k < sizeof currents / sizeof *currents; k++)
            every_number(windows[i], currents[k]);
}

/* A stale message of a held originator, a millisecond later: its route as it stood, every other field 0, nothing written, and of all cells only the time's is another. */
static void is_stale(const char *what, uint32_t sender, uint32_t originator, struct announcement a)
{
    struct batman_route route = batman_best(small, SMALL, originator).route;
    keep_all();
    small_kept[TIME_AT]++;
    struct batman_received r = batman_receive(small, SMALL, a.octets, a.length, sender, 0, small_kept[TIME_AT], output, sizeof output);
    expect(what, seen(r.number), BATMAN_STALE);
    expect("its originator is held", route.window > 0, true);
    expect("its route is another", memcmp(&r.route, &route, sizeof route) != 0, 0);
    expect("its place and flags", r.place + r.flags, 0);
    all_kept();
}

/* By any link, from the originator itself too, and where counting would be refused by 11 or 15. */
static void stale_messages(void)
{
    enum { WINDOW = 8 };
    static const uint16_t above[] = {HALF_WAY, HALF_WAY + 1, NUMBERS - WINDOW};
    static const struct {
        const char *what;
        uint32_t sender, originator;
        uint8_t flags, ttl;
        unsigned entries;
    } heard[] = {
        {"stale by the best link", 1, 900, 0, 50, 1},
        {"stale by another link", 2, 900, 0, 50, 1},
        {"stale by a link that would be the ninth", NEIGHBOURS, 900, 0, 50, 1},
        {"stale by a link without a row", SILENT, 900, 0, 50, 1},
        {"stale from the originator, which has a row", 901, 901, 0, 50, 0},
        {"stale from the originator, which has none", 900, 900, 0, 50, 0},
        {"stale with every flag but U", 1, 900, 127, 50, 0},
        {"stale with the largest TTL", 901, 901, 0, 255, 0},
        {"stale with TTL 0", 901, 901, 0, 0, 0},
        {"stale with 17 entries", 1, 900, 0, 50, TOO_MANY},
        {"stale with 292 entries by a link that would be the ninth", NEIGHBOURS, 900, 0, 50, PACKET_ENTRIES_MOST},
    };
    begin_held(WINDOW, 10);
    for (size_t i = 0; i < sizeof heard / sizeof *heard; i++)
        for (size_t k = 0; k < sizeof above / sizeof *above; k++) {
            struct announcement a = many(heard[i].originator, (uint16_t)(current_of(heard[i].originator) + above[k]), heard[i].entries);
            a.octets[1] = heard[i].flags;
            a.octets[2] = heard[i].ttl;
            is_stale(heard[i].what, heard[i].sender, heard[i].originator, a);
        }
}

/* What is asked before gives the same number another verdict, and without a record no number is stale. */
static void asked_before_stale(void)
{
    static const struct {
        const char *what;
        uint32_t sender, originator;
        uint16_t number;
        uint8_t flags;
        uint64_t verdict;
    } heard[] = {
        {"a stale number", 1, 900, 10 + HALF_WAY, 0, BATMAN_STALE},
        {"a stale number from an own address", US_TOO, 900, 10 + HALF_WAY, 0, BATMAN_OWN_SENDER},
        {"a stale number from a broadcast address", BROADCAST, 900, 10 + HALF_WAY, 0, BATMAN_OWN_BROADCAST},
        {"a stale number with U set", 1, 900, 10 + HALF_WAY, 128, BATMAN_UNIDIRECTIONAL},
        {"a stale number with U set, from the originator", 901, 901, 10, 128, BATMAN_UNIDIRECTIONAL},
        {"our last number, back from a neighbour", 1, US, 65535, 64, BATMAN_ECHO},
        {"a number of ours half way round", 1, US, HALF_WAY - 1, 64, BATMAN_OWN_ORIGINATOR},
        {"a number of our other interface, which hasn't sent", 1, US_TOO, HALF_WAY, 0, BATMAN_OWN_ORIGINATOR},
        {"no record, from the originator", SILENT, SILENT, 10 + HALF_WAY, 0, BATMAN_PASSED_ON},
        {"no record, the number half way round from that", SILENT, SILENT, 10, 0, BATMAN_PASSED_ON},
        {"no record, by a link without a row", SILENT, 902, 10 + HALF_WAY, 0, BATMAN_KEPT},
        {"no record, and no place for one", 1, 902, 10 + HALF_WAY, 0, BATMAN_ORIGINATORS_FULL},
    };
    begin_held(8, 10);
    for (size_t i = 0; i < sizeof heard / sizeof *heard; i++)
        expect(heard[i].what, hear(heard[i].sender, heard[i].originator, heard[i].number, heard[i].flags, 50).number, heard[i].verdict);
}

/* The first counted message makes the record, whatever its number: 901's says nothing of 900's. */
static void first_number(void)
{
    static const uint16_t numbers[] = {0, 1, 10, NEW_MOST, HALF_WAY, HALF_WAY + 1, 10 + HALF_WAY, NUMBERS - 1};
    for (size_t i = 0; i < sizeof numbers / sizeof *numbers; i++) {
        begin_networks();
        take_entries(announce(901, 10));
        take_entries(announce(900, numbers[i]));
        expect("the first number is current", current_of(900), numbers[i]);
    }
}

/* The packets of packets_refused are 900's number 1, which is stale here: they get what is wrong with them, and without a fault 27. */
static void refused_before_stale(void)
{
    begin_held(64, 200);
    packets_refused(0);
    packets_refused(HOST);
    entries_refused("host bits in a stale message", with_host_bits(announce(900, 1)), BATMAN_HOST_BITS_SET, 0);
    entries_refused("host bits in a stale message with 17 entries", with_host_bits(many(900, 1, TOO_MANY)), BATMAN_HOST_BITS_SET, TOO_MANY);
    is_stale("that message without a fault", HEARD_FROM, 900, announce(900, 1));
}

/* Links, counts and entries are those before it, and the next number is counted beside what was marked. */
static void stale_between_counted(void)
{
    struct batman_link_row before[BATMAN_LINKS_MOST], after[BATMAN_LINKS_MOST];
    begin_held(8, 10);
    expect("links before a stale message", batman_list(small, SMALL, 900, before, BATMAN_LINKS_MOST).filled, BATMAN_LINKS_MOST);
    is_stale("a number held back", 1, 900, with(announce(900, 2), NEW, 32));
    expect("links after it", batman_list(small, SMALL, 900, after, BATMAN_LINKS_MOST).filled, BATMAN_LINKS_MOST);
    expect("the links are others", memcmp(before, after, sizeof before) != 0, 0);
    found("the entry before it", OLD, 900, OLD, 32);
    expect("the count after the next number", hear_entries(1, announce(900, 11)).route.count, 2);
}

/* Each packet is judged by the window that those before it left: 3 is inside until 11 comes, and 12 current until the one far above it comes. */
static void stale_in_a_burst(void)
{
    static const uint64_t numbers[] = {BATMAN_PASSED_ON, BATMAN_PASSED_ON, BATMAN_STALE, BATMAN_STALE, BATMAN_PASSED_ON, BATMAN_STALE, BATMAN_PASSED_ON, BATMAN_STALE};
    struct burst b = no_packets();
    begin_held(8, 10);
    add_message(&b, 1, message(900, 3, 0, 50), 12);
    add_message(&b, 1, message(900, 11, 0, 50), 12);
    add_message(&b, 2, message(900, 3, 0, 50), 12);
    add_message(&b, 901, message(901, 10, 0, 50), 12);
    add_message(&b, 1, message(900, 12, 0, 50), 17);
    add_message(&b, SILENT, message(900, 12 + HALF_WAY, 0, 50), 12);
    add_message(&b, 1, message(900, 12 + NEW_MOST, 0, 50), 12);
    add_message(&b, 1, message(900, 12, 0, 50), 12);
    expect("octets written of a burst with stale packets", answered("a burst with stale packets", &b, numbers), 12 + 12 + 17 + 12);
    expect("the count in the last answer", b.answers[7].route.count, 1);
}

/* 900 starts again at 1. Its stale messages don't renew its record: the first sweep after the purge timeout removes it, and the next message makes another. */
static void taken_up_after_a_sweep(void)
{
    begin_held(64, 20000);
    uint64_t heard = small[TIME_AT];
    is_stale("the first number again", 1, 900, announce(900, 1));
    is_stale("the next one, from the originator itself", 900, 900, announce(900, 2));
    expect("a sweep before the timeout", batman_sweep(small, SMALL, heard + defaults.purge).removed, 0);
    is_stale("a number after that sweep", 1, 900, announce(900, 3));
    expect("the sweep after the timeout", batman_sweep(small, SMALL, small[TIME_AT]).removed, 2);
    take_entries(with(announce(900, 4), NEW, 32));
    expect("the number that is current", current_of(900), 4);
    found("the entry of that message", NEW, 900, NEW, 32);
    not_found("the one of the earlier record", OLD);
}

static void stale_numbers(void)
{
    every_number_there_is();
    stale_messages();
    asked_before_stale();
    first_number();
    refused_before_stale();
    stale_between_counted();
    stale_in_a_burst();
    taken_up_after_a_sweep();
}

/* Every refusal, of which 16 is the largest, and every verdict. */
static void all_came_up(void)
{
    for (int n = BATMAN_NOT_WELL_FORMED; n <= BATMAN_STALE; n++)
        if (n <= BATMAN_HOST_BITS_SET || n >= BATMAN_OWN_SENDER)
            expect("a number that never came up", (uint64_t)(came_up[n] ? 0 : n), 0);
}

int main(void)
{
    sizes();
    making();
    making_with_defaults();
    sending();
    own_packets_refused(0);
    own_packets_refused(HOST);
    asking_and_sweeping();
    verdicts();
    ties();
    bursts();
    networks();
    stale_numbers();
    all_came_up();
    printf("calls: %lu answers and cells compared; %lu differ\n", compared, differing);
    return differing != 0;
}
