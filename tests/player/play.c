/* Plays a script on the archive through batman.h, and prints what `replay` prints of it (docs/REPLAY.md). Each call is lent exactly what the
 * script says, and after it everything that it may not change is looked at: a fault ends the program with its line. */
#include <inttypes.h>
#include <stdio.h>
#include <stdlib.h>
#include <string.h>

#include "lent.h"
#include "script.h"

/* The script's cells, the first `count` of which are lent to every call; and what is lent to the present one. */
struct player {
    uint64_t buffer[BUFFER_CELLS];
    size_t count;
    unsigned long line;
    struct lent cells, octets, output, links;
    struct lent lengths, senders, interfaces, answers; /* of a burst */
};

static void expect(const struct player *p, bool holds, const char *what)
{
    if (holds)
        return;
    fflush(stdout);
    fprintf(stderr, "player: line %lu: %s\n", p->line, what);
    exit(EXIT_FAILURE);
}

/* ---- what is lent, and what must be as it was after the call */

static uint64_t *lend_cells(struct player *p) { return lend_copy(&p->cells, p->buffer, p->count * sizeof *p->buffer); }
static const uint8_t *lend_octets(struct player *p, const struct line *l) { return lend_copy(&p->octets, l->octets, l->length); }

static void octets_kept(const struct player *p, const struct line *l)
{
    expect(p, is_copy(&p->octets, l->octets), "an octet that was given, or one beside them, has changed");
}

static void cells_kept(const struct player *p) { expect(p, is_copy(&p->cells, p->buffer), "a cell, or an octet beside the lent ones, has changed"); }

static void lists_kept(const struct player *p, const struct burst_lists *l)
{
    expect(p, is_copy(&p->lengths, l->lengths), "a length, or an octet beside the lent ones, has changed");
    expect(p, is_copy(&p->senders, l->senders), "a sender, or an octet beside the lent ones, has changed");
    expect(p, is_copy(&p->interfaces, l->interfaces), "an interface, or an octet beside the lent ones, has changed");
}

/* 16 is the largest of them, though not the last in order. */
static bool is_refusal(uint64_t number) { return number >= BATMAN_NOT_WELL_FORMED && number <= BATMAN_HOST_BITS_SET; }

/* The cells as the call left them; a refused one leaves them as they were. */
static void take_cells(struct player *p, uint64_t number)
{
    if (!is_refusal(number))
        memcpy(p->buffer, p->cells.octets, p->cells.length);
    cells_kept(p);
}

/* ---- printing */

static void print_route(struct batman_route r)
{
    printf(" %" PRIu32 " %" PRIu32 " %" PRIu32 " %" PRIu32, r.neighbour, r.interface, r.count, r.window);
}

/* The answer to one packet, behind the line's first word. */
static void print_received(struct batman_received r)
{
    printf(" %" PRIu64 " %" PRIu64 " %u", r.number, r.place, (unsigned)r.flags);
    print_route(r.route);
}

/* The first octets of the output end a line, `-` for none; those behind them are as they were. */
static void print_written(const struct player *p, size_t written)
{
    expect(p, untouched_from(&p->output, written), "an octet behind those written has changed");
    fputs(written > 0 ? " " : " -", stdout);
    for (size_t i = 0; i < written; i++)
        printf("%02x", p->output.octets[i]);
    putchar('\n');
}

/* ---- the calls */

static void play_make(struct player *p, const struct line *l)
{
    uint64_t number = batman_make(lend_cells(p), p->count, l->settings, l->interfaces);
    take_cells(p, number);
    printf("make %" PRIu64 "\n", number);
}

static void play_receive(struct player *p, const struct line *l)
{
    struct batman_received r = batman_receive(lend_cells(p), p->count, lend_octets(p, l), l->length, l->address, l->interface, l->time,
                                              lend(&p->output, l->room), l->room);
    take_cells(p, r.number);
    octets_kept(p, l);
    printf("receive");
    print_received(r);
    print_written(p, r.number == BATMAN_PASSED_ON ? l->length : 0);
}

static struct batman_burst call_burst(struct player *p, const struct line *l, struct batman_received *answers)
{
    const struct burst_lists *given = &l->lists;
    const uint64_t *lengths = lend_copy(&p->lengths, given->lengths, given->lengths_count * sizeof *lengths);
    const uint32_t *senders = lend_copy(&p->senders, given->senders, given->senders_count * sizeof *senders);
    const uint64_t *interfaces = lend_copy(&p->interfaces, given->interfaces, given->interfaces_count * sizeof *interfaces);
    return batman_receive_burst(lend_cells(p), p->count, lend_octets(p, l), l->length, lengths, given->lengths_count, senders, given->senders_count,
                                interfaces, given->interfaces_count, l->time, lend(&p->output, l->room), l->room, answers, l->rows);
}

/* The octets of all packets that are passed on. */
static uint64_t octets_passed_on(const struct batman_received *answers, const uint64_t *lengths, size_t packets)
{
    uint64_t sum = 0;
    for (size_t i = 0; i < packets; i++)
        sum += answers[i].number == BATMAN_PASSED_ON ? lengths[i] : 0;
    return sum;
}

static void print_packets(const struct batman_received *answers, size_t packets)
{
    for (size_t i = 0; i < packets; i++) {
        printf("packet");
        print_received(answers[i]);
        putchar('\n');
    }
}

static void play_burst(struct player *p, const struct line *l)
{
    struct batman_received *answers = lend(&p->answers, l->rows * sizeof *answers);
    struct batman_burst b = call_burst(p, l, answers);
    size_t packets = b.number == 0 ? l->lists.lengths_count : 0;
    expect(p, packets <= l->rows, "a burst of more packets than rows is not refused");
    expect(p, untouched_from(&p->answers, packets * sizeof *answers), "an octet behind the answers has changed");
    expect(p, b.written == octets_passed_on(answers, l->lists.lengths, packets), "the copies have another number of octets than written");
    lists_kept(p, &l->lists);
    octets_kept(p, l);
    if (packets == 0) /* not even the time */
        cells_kept(p);
    take_cells(p, b.number);
    printf("burst %" PRIu64 " %zu %" PRIu64, b.number, packets, b.written);
    print_written(p, (size_t)b.written);
    print_packets(answers, packets);
}

static void play_own(struct player *p, const struct line *l)
{
    struct batman_written w = batman_own_packet(lend_cells(p), p->count, l->interface, l->time, l->ttl, l->gateway, l->port, lend_octets(p, l),
                                                l->length, lend(&p->output, l->room), l->room);
    take_cells(p, w.number);
    octets_kept(p, l);
    printf("own %" PRIu64 " %" PRIu64 " %" PRIu64 " %u", w.number, w.place, w.length, (unsigned)w.sequence);
    print_written(p, (size_t)w.length);
}

static void play_sweep(struct player *p, const struct line *l)
{
    struct batman_swept s = batman_sweep(lend_cells(p), p->count, l->time);
    take_cells(p, s.number);
    printf("sweep %" PRIu64 " %" PRIu64 "\n", s.number, s.removed);
}

static void play_best(struct player *p, const struct line *l)
{
    struct batman_asked a = batman_best(lend_cells(p), p->count, l->address);
    cells_kept(p);
    printf("best %" PRIu64, a.number);
    print_route(a.route);
    putchar('\n');
}

static void play_list(struct player *p, const struct line *l)
{
    struct batman_link_row *rows = lend(&p->links, l->rows * sizeof *rows);
    struct batman_listed a = batman_list(lend_cells(p), p->count, l->address, rows, l->rows);
    cells_kept(p);
    expect(p, a.filled <= l->rows, "more rows are filled than were lent");
    expect(p, untouched_from(&p->links, (size_t)a.filled * sizeof *rows), "an octet behind the rows filled has changed");
    printf("list %" PRIu64 " %" PRIu64 "\n", a.number, a.filled);
    for (uint64_t i = 0; i < a.filled; i++)
        printf("row %" PRIu32 " %" PRIu32 " %" PRIu32 " %" PRIu32 " %" PRIu32 "\n", rows[i].neighbour, rows[i].interface, rows[i].count,
               rows[i].window, rows[i].best);
}

static void play_lookup(struct player *p, const struct line *l)
{
    struct batman_located a = batman_lookup(lend_cells(p), p->count, l->address);
    cells_kept(p);
    printf("lookup %" PRIu64 " %" PRIu32 " %" PRIu32 " %" PRIu32 " %" PRIu32 "\n", a.number, a.found, a.originator, a.network, a.mask);
}

static void play_check(struct player *p, const struct line *l)
{
    uint64_t number = batman_packet_check(lend_octets(p, l), l->length, l->version);
    octets_kept(p, l);
    printf("check %" PRIu64 "\n", number);
}

static void play_dump(const struct player *p)
{
    for (size_t i = 0; i < p->count; i++)
        if (p->buffer[i] != 0)
            printf("cell %zu %" PRIu64 "\n", i, p->buffer[i]);
}

static void play(struct player *p, const struct line *l)
{
    switch (l->kind) {
    case NOTHING: break;
    case UNREADABLE: printf("error %lu\n", p->line); break;
    case SIZE: printf("size %" PRIu64 "\n", batman_cells_needed(l->capacity)); break;
    case CELLS: p->count = l->cells; break;
    case MAKE: play_make(p, l); break;
    case RECEIVE: play_receive(p, l); break;
    case BURST: play_burst(p, l); break;
    case OWN: play_own(p, l); break;
    case SWEEP: play_sweep(p, l); break;
    case BEST: play_best(p, l); break;
    case LIST: play_list(p, l); break;
    case LOOKUP: play_lookup(p, l); break;
    case CHECK: play_check(p, l); break;
    case POKE: p->buffer[l->index] = l->value; break;
    case DUMP: play_dump(p); break;
    }
}

/* ---- the script */

/* The next line of the input without its end; false where there is none. Of a line that is too long one character more than allowed is kept. */
static bool next_line(char text[LINE_MOST + 1], size_t *length)
{
    int c = getchar();
    *length = 0;
    if (c == EOF)
        return false;
    for (; c != EOF && c != '\n'; c = getchar())
        if (*length <= LINE_MOST)
            text[(*length)++] = (char)c;
    return true;
}

int main(void)
{
    static struct player p = {.count = BUFFER_CELLS};
    static struct line line;
    static char text[LINE_MOST + 1];
    size_t length;
    open_lent(&p.cells, sizeof p.buffer);
    open_lent(&p.octets, sizeof line.octets);
    open_lent(&p.output, OUTPUT_MOST);
    open_lent(&p.links, LINKS_MOST * sizeof(struct batman_link_row));
    open_lent(&p.lengths, sizeof line.lists.lengths);
    open_lent(&p.senders, sizeof line.lists.senders);
    open_lent(&p.interfaces, sizeof line.lists.interfaces);
    open_lent(&p.answers, ANSWERS_MOST * sizeof(struct batman_received));
    while (next_line(text, &length)) {
        p.line++;
        read_line(text, length, &line);
        play(&p, &line);
    }
    return ferror(stdin) || fflush(stdout) != 0 ? EXIT_FAILURE : EXIT_SUCCESS;
}
