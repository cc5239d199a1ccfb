/* The relay filter (filter/): each of its cases by itself, before and after batman_receive, and beside a plain model over random calls. */
#include <inttypes.h>
#include <stdio.h>
#include <stdlib.h>
#include <string.h>

#include "../demo/random.h"
#include "batman.h"
#include "relay_filter.h"

enum { HEADER = BATMAN_HEADER_SIZE, FLAGS_AT = 1, U = 128, D = 64, PURGE = 1000, NUMBERS = 65536 };

static unsigned long checks;

static void check(bool holds, const char *what)
{
    checks++;
    if (holds)
        return;
    fprintf(stderr, "relay_filter: check %lu fails: %s\n", checks, what);
    exit(EXIT_FAILURE);
}

/* ---- messages */

struct message {
    uint8_t octets[HEADER];
};

static struct message message(uint32_t originator, uint16_t number, uint8_t ttl)
{
    return (struct message){{4, 0, ttl, 0, (uint8_t)(number >> 8), (uint8_t)number, 0, 0, (uint8_t)(originator >> 24), (uint8_t)(originator >> 16),
                             (uint8_t)(originator >> 8), (uint8_t)originator}};
}

static bool drops(const struct relay_filter *f, uint32_t originator, uint16_t number, uint8_t ttl, uint64_t time)
{
    struct message m = message(originator, number, ttl);
    return relay_filter_drops(f, m.octets, sizeof m.octets, time);
}

static void passed_on(struct relay_filter *f, uint32_t originator, uint16_t number, uint8_t ttl, uint64_t time)
{
    struct message m = message(originator, number, ttl);
    relay_filter_passed_on(f, m.octets, sizeof m.octets, time);
}

/* ---- the cases */

enum { A = 0x0a000001 };

static struct relay_filter filter;

static void nothing_passed_on(void)
{
    relay_filter_clear(&filter, 64, PURGE);
    check(!drops(&filter, A, 7, 0, 0), "an empty filter drops nothing");
    check(!drops(&filter, 0, 0, 0, 0), "not of originator 0 either");
}

/* We heard it with TTL 50, so it left with 49; a neighbour repeats it with 48. */
static void comes_back(void)
{
    relay_filter_clear(&filter, 64, PURGE);
    passed_on(&filter, A, 7, 49, 0);
    for (unsigned ttl = 0; ttl < 256; ttl++)
        check(drops(&filter, A, 7, (uint8_t)ttl, 0) == (ttl < 49), "dropped exactly where the TTL is below the one that it left with");
    check(!drops(&filter, A, 8, 48, 0), "another number is not dropped");
    check(!drops(&filter, A, 6, 48, 0), "nor an earlier one that was not passed on");
    for (unsigned bit = 0; bit < 32; bit++)
        check(!drops(&filter, A ^ 1u << bit, 7, 48, 0), "nor another originator's");
}

static void passed_on_twice(void)
{
    relay_filter_clear(&filter, 64, PURGE);
    passed_on(&filter, A, 7, 40, 0);
    passed_on(&filter, A, 7, 45, 1);
    check(drops(&filter, A, 7, 44, 1), "the higher TTL counts where it comes later");
    passed_on(&filter, A, 7, 41, 2);
    check(drops(&filter, A, 7, 44, 2), "and where it came earlier");
}

/* Late copies, in a filter that is empty: as many numbers as the window has are remembered, and not one more; `first` puts a wrap anywhere in them. */
static void late_copies(unsigned window, uint16_t first)
{
    for (unsigned n = 0; n < window; n++)
        passed_on(&filter, A, (uint16_t)(first + n), 49, 0);
    for (unsigned n = 0; n < window; n++)
        check(drops(&filter, A, (uint16_t)(first + n), 48, 0), "a number of the window is remembered");
    passed_on(&filter, A, (uint16_t)(first + window), 49, 0);
    check(!drops(&filter, A, first, 48, 0), "one that has left the window is not");
    check(window == 1 || drops(&filter, A, (uint16_t)(first + 1), 48, 0), "the next one is");
}

static void wraps(void)
{
    static const unsigned windows[] = {1, 2, 8, 63, 64};
    for (unsigned w = 0; w < sizeof windows / sizeof *windows; w++)
        for (unsigned first = NUMBERS - 70; first < NUMBERS + 3; first++) {
            relay_filter_clear(&filter, windows[w], PURGE);
            late_copies(windows[w], (uint16_t)first);
        }
}

/* Numbers that were skipped, lost on the way to us, were never passed on. */
static void skipped_numbers(void)
{
    relay_filter_clear(&filter, 8, PURGE);
    for (unsigned n = 0; n < 64; n++)
        passed_on(&filter, A, (uint16_t)n, 49, 0);
    passed_on(&filter, A, 67, 49, 0);
    for (unsigned n = 64; n < 67; n++)
        check(!drops(&filter, A, (uint16_t)n, 48, 0), "a skipped number is not taken for the one at its place before");
    check(drops(&filter, A, 63, 48, 0) && drops(&filter, A, 60, 48, 0), "those before it are remembered");
    check(!drops(&filter, A, 59, 48, 0), "as far as the window goes");
}

/* A node that starts again anywhere outside the window: once the table passes a message of it on, as its number is new or its old record was swept, what it sent before is forgotten. */
static void starts_again_elsewhere(void)
{
    static const uint16_t starts[] = {1, 935, 936, 30000, 65535};
    for (unsigned i = 0; i < sizeof starts / sizeof *starts; i++) {
        relay_filter_clear(&filter, 64, PURGE);
        passed_on(&filter, A, 999, 49, 0);
        passed_on(&filter, A, 1000, 49, 0);
        bool outside = starts[i] != 999 && (uint16_t)(1000 - starts[i]) >= 64;
        check(!drops(&filter, A, starts[i], 20, 1), "its first message is let through, however far it came");
        passed_on(&filter, A, starts[i], 19, 1);
        check(drops(&filter, A, starts[i], 18, 1) && !drops(&filter, A, starts[i], 19, 1), "and judged by its own TTL from then on");
        check(drops(&filter, A, 1000, 48, 1) == !outside, "what was sent before is forgotten");
    }
}

/* One that starts again at a number of the window, and further away than before, is not heard until its numbers are past the latest. */
static void starts_again_inside(void)
{
    relay_filter_clear(&filter, 64, PURGE);
    for (unsigned n = 990; n <= 1000; n++)
        passed_on(&filter, A, (uint16_t)n, 49, 0);
    check(!drops(&filter, A, 990, 50, 1) && !drops(&filter, A, 990, 49, 1), "at the same distance or nearer it is let through");
    check(drops(&filter, A, 990, 40, 1) && drops(&filter, A, 1000, 40, 1), "further away it is dropped");
    check(!drops(&filter, A, 1001, 40, 1), "until it is past the latest number");
}

/* A node that walks away: its next number was not passed on yet, so the longer way counts at once. */
static void moves_away(void)
{
    relay_filter_clear(&filter, 64, PURGE);
    passed_on(&filter, A, 7, 49, 0);
    check(!drops(&filter, A, 8, 30, 1), "a new number is let through by any way");
    passed_on(&filter, A, 8, 29, 1);
    check(!drops(&filter, A, 8, 49, 1), "and so is a shorter way to it");
    check(drops(&filter, A, 7, 48, 1), "the number before is judged by its own TTL");
}

/* One more originator than there is room for: the one passed on longest ago is forgotten, and no other. */
static void more_originators_than_room(void)
{
    relay_filter_clear(&filter, 64, PURGE);
    for (uint32_t i = 0; i < RELAY_FILTER_ORIGINATORS; i++)
        passed_on(&filter, A + i, 7, 49, i);
    for (uint32_t i = 0; i < RELAY_FILTER_ORIGINATORS; i++)
        check(drops(&filter, A + i, 7, 48, 300), "as many as there is room for are remembered");
    passed_on(&filter, A, 8, 49, 301);
    passed_on(&filter, A + RELAY_FILTER_ORIGINATORS, 7, 49, 302);
    check(!drops(&filter, A + 1, 7, 48, 302), "the one passed on longest ago is forgotten");
    for (uint32_t i = 0; i <= RELAY_FILTER_ORIGINATORS; i++)
        check(i == 1 || drops(&filter, A + i, 7, 48, 302), "the others are not");
    check(!drops(&filter, A + RELAY_FILTER_ORIGINATORS, 6, 48, 302), "and nothing of it is left in the row that another took over");
}

static void forgets(void)
{
    relay_filter_clear(&filter, 64, PURGE);
    passed_on(&filter, A, 7, 49, 5000);
    check(drops(&filter, A, 7, 48, 5000 + PURGE), "remembered for the purge timeout");
    check(!drops(&filter, A, 7, 48, 5000 + PURGE + 1), "and no longer");
    check(drops(&filter, A, 7, 48, 0), "a clock that went back makes nothing old");
    passed_on(&filter, A, 8, 40, 5000 + PURGE + 1);
    check(!drops(&filter, A, 7, 48, 5000 + PURGE + 1), "what was forgotten does not come back with the next number");
    check(drops(&filter, A, 8, 39, 5000 + PURGE + 1), "which is remembered");
    relay_filter_clear(&filter, 64, UINT64_MAX);
    passed_on(&filter, A, 7, 49, 0);
    check(drops(&filter, A, 7, 48, UINT64_MAX), "with the longest timeout nothing is forgotten");
}

static void cleared(void)
{
    relay_filter_clear(&filter, 64, PURGE);
    passed_on(&filter, A, 7, 49, 0);
    relay_filter_clear(&filter, 64, PURGE);
    check(!drops(&filter, A, 7, 48, 0), "a cleared filter remembers nothing");
}

/* Octets that are no message: not dropped, so that batman_receive refuses and counts them, and not remembered. */
static void short_packets(void)
{
    struct message m = message(A, 7, 49), back = message(A, 7, 48);
    relay_filter_clear(&filter, 64, PURGE);
    for (size_t length = 0; length < HEADER; length++)
        relay_filter_passed_on(&filter, length > 0 ? m.octets : NULL, length, 0);
    check(!relay_filter_drops(&filter, back.octets, HEADER, 0), "a packet that is too short is not remembered");
    check(!relay_filter_goes_elsewhere(m.octets, HEADER - 1), "nor sent on");
    relay_filter_passed_on(&filter, m.octets, HEADER, 0);
    for (size_t length = 0; length < HEADER; length++)
        check(!relay_filter_drops(&filter, length > 0 ? back.octets : NULL, length, 0), "nor dropped");
}

static void any_window(void)
{
    relay_filter_clear(&filter, 0, PURGE);
    late_copies(1, 0);
    relay_filter_clear(&filter, RELAY_FILTER_NUMBERS + 1, PURGE);
    late_copies(RELAY_FILTER_NUMBERS, 0);
    relay_filter_clear(&filter, UINT64_MAX, PURGE);
    late_copies(RELAY_FILTER_NUMBERS, 0);
}

/* Bit by bit: U alone keeps a copy from being remembered. */
static void one_way_copies(void)
{
    for (unsigned flags = 0; flags < 256; flags++) {
        struct message m = message(A, 7, 49);
        m.octets[FLAGS_AT] = (uint8_t)flags;
        relay_filter_clear(&filter, 64, PURGE);
        relay_filter_passed_on(&filter, m.octets, HEADER, 0);
        check(drops(&filter, A, 7, 48, 0) == ((flags & U) == 0), "a copy is remembered exactly where U is not set");
        check(relay_filter_goes_elsewhere(m.octets, HEADER) == ((flags & U) == 0), "and goes out on the other interfaces exactly there");
    }
}

/* ---- before and after batman_receive */

enum { US = 0x0a000009, NEAR = 0x0a000003, ORIGINATORS = 4, NOW = 1000 };

static uint64_t cells[BATMAN_CELLS(ORIGINATORS)];

static struct batman_received receive(uint32_t sender, struct message m)
{
    uint8_t out[HEADER];
    struct batman_received r = batman_receive(cells, BATMAN_CELLS(ORIGINATORS), m.octets, HEADER, sender, 0, NOW, out, sizeof out);
    if (r.number == BATMAN_PASSED_ON)
        relay_filter_passed_on(&filter, out, HEADER, NOW);
    return r;
}

/* Our first packet is sent, and comes back from the neighbour. */
static void begin(void)
{
    struct batman_settings settings = BATMAN_SETTINGS_DEFAULT;
    struct batman_interfaces interfaces = {.row = {{.own = US, .broadcast = 0x0a00ffff, .first = 1}}, .used = 1};
    uint8_t out[HEADER];
    settings.capacity = ORIGINATORS;
    relay_filter_clear(&filter, settings.window, settings.purge);
    check(batman_make(cells, BATMAN_CELLS(ORIGINATORS), settings, interfaces) == 0, "a table is made");
    check(batman_own_packet(cells, BATMAN_CELLS(ORIGINATORS), 0, NOW, 50, 0, 0, NULL, 0, out, sizeof out).number == 0, "our packet is sent");
}

static void echo(uint32_t sender)
{
    struct message m = message(US, 1, 49);
    m.octets[FLAGS_AT] = D;
    check(!relay_filter_drops(&filter, m.octets, HEADER, NOW), "an echo is not dropped");
    check(receive(sender, m).number == BATMAN_ECHO, "and makes the link bidirectional");
}

/* A is heard, and hears us: what the neighbour repeats of our relay is dropped. */
static void relay_comes_back(void)
{
    begin();
    echo(A);
    echo(NEAR);
    check(receive(A, message(A, 7, 50)).number == BATMAN_PASSED_ON, "A's message is passed on");
    check(drops(&filter, A, 7, 48, NOW), "what the neighbour repeats of it is dropped");
    check(!drops(&filter, A, 7, 49, NOW), "what a neighbour of A's passes on is not");
}

/* A is heard and doesn't hear us: the route leads by the neighbour, though its way is longer than the one by which we hear A. */
static void way_around_a_one_way_link(void)
{
    begin();
    echo(NEAR);
    check(receive(A, message(A, 7, 50)).number == BATMAN_PASSED_ON, "A's message is passed on, with U set");
    check(!drops(&filter, A, 7, 48, NOW), "the longer way is let through");
    check(receive(NEAR, message(A, 7, 48)).route.neighbour == NEAR, "and is the route");
}

/* ---- a plain model: for each originator every number's TTL, and the latest number */

enum { MODELLED = RELAY_FILTER_ORIGINATORS + 8 };

static struct model {
    bool held;
    uint64_t time;
    uint16_t latest;
    uint8_t ttl[NUMBERS];
} models[MODELLED];

static bool model_inside(const struct model *m, uint16_t number, unsigned window)
{
    for (unsigned back = 0; back < window; back++)
        if ((uint16_t)(m->latest - back) == number)
            return true;
    return false;
}

static bool model_drops(const struct model *m, uint16_t number, uint8_t ttl, unsigned window, uint64_t time)
{
    return m->held && time <= m->time + PURGE && model_inside(m, number, window) && m->ttl[number] > ttl;
}

static void model_make_room(void)
{
    struct model *oldest = NULL;
    unsigned held = 0;
    for (unsigned i = 0; i < MODELLED; i++)
        if (models[i].held) {
            held++;
            oldest = oldest == NULL || models[i].time < oldest->time ? &models[i] : oldest;
        }
    if (held == RELAY_FILTER_ORIGINATORS)
        oldest->held = false;
}

static void model_move(struct model *m, uint16_t number, unsigned window)
{
    uint8_t kept[NUMBERS] = {0};
    struct model before = {.latest = m->latest};
    m->latest = number;
    for (unsigned back = 0; back < window; back++) {
        uint16_t n = (uint16_t)(number - back);
        kept[n] = model_inside(&before, n, window) ? m->ttl[n] : 0;
    }
    memcpy(m->ttl, kept, sizeof kept);
}

static void model_passed_on(struct model *m, uint16_t number, uint8_t ttl, unsigned window, uint64_t time)
{
    if (!m->held)
        model_make_room();
    if (!m->held || time > m->time + PURGE) {
        memset(m, 0, sizeof *m);
        m->held = true;
        m->latest = number;
    }
    if (!model_inside(m, number, window))
        model_move(m, number, window);
    m->time = time;
    m->ttl[number] = ttl > m->ttl[number] ? ttl : m->ttl[number];
}

/* Mostly near the latest number, now and then anywhere; times rise by one, and now and then by more than the purge timeout. */
static void beside_the_model(unsigned window, unsigned originators, uint64_t seed)
{
    uint64_t random = random_seeded(seed), time = 0;
    relay_filter_clear(&filter, window, PURGE);
    memset(models, 0, sizeof models);
    for (unsigned i = 0; i < 20000; i++) {
        uint32_t o = (uint32_t)random_below(&random, originators);
        bool far = random_below(&random, 50) == 0;
        uint16_t number = (uint16_t)(models[o].latest + (far ? random_next(&random) : 8 - random_below(&random, window + 16)));
        uint8_t ttl = (uint8_t)(40 + random_below(&random, 10));
        time += random_below(&random, 3000) == 0 ? PURGE + 1 : 1;
        check(drops(&filter, o, number, ttl, time) == model_drops(&models[o], number, ttl, window, time), "the filter drops what the model drops");
        if (random_below(&random, 2) == 0) {
            model_passed_on(&models[o], number, ttl, window, time);
            passed_on(&filter, o, number, ttl, time);
        }
    }
}

int main(void)
{
    nothing_passed_on();
    comes_back();
    passed_on_twice();
    wraps();
    skipped_numbers();
    starts_again_elsewhere();
    starts_again_inside();
    moves_away();
    more_originators_than_room();
    forgets();
    cleared();
    short_packets();
    any_window();
    one_way_copies();
    relay_comes_back();
    way_around_a_one_way_link();
    beside_the_model(1, 3, 1);
    beside_the_model(8, 3, 2);
    beside_the_model(64, 3, 3);
    beside_the_model(64, MODELLED, 4);
    printf("relay_filter: %lu checks hold\n", checks);
    return EXIT_SUCCESS;
}
