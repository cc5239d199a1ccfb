#include "reader.h"

#include <inttypes.h>
#include <stdio.h>
#include <stdlib.h>
#include <string.h>

enum { INTERFACE = 0, TTL = 50, NO_GATEWAY = 0, NO_PORT = 0, BROADCAST = 0x0a00ffff };

/* An answer that only a fault of this program or of the memory can bring: going on would route by a table that can't be trusted. */
static _Noreturn void stop(const struct reader *r, const char *call, uint64_t number)
{
    fprintf(stderr, "yard: reader %08" PRIx32 ": %s was refused by %" PRIu64 "\n", r->address, call, number);
    exit(EXIT_FAILURE);
}

bool reader_open(struct reader *r, uint32_t address, struct reader_settings s)
{
    struct batman_settings settings = BATMAN_SETTINGS_DEFAULT;
    settings.capacity = s.capacity;
    settings.window = s.window;
    settings.tie = s.tie;
    struct batman_interfaces interfaces = {.row = {{.own = address, .broadcast = BROADCAST, .first = s.first}}, .used = 1};
    *r = (struct reader){.address = address, .count = (size_t)batman_cells_needed(s.capacity), .filters = s.filter};
    relay_filter_clear(&r->filter, settings.window, settings.purge);
    r->cells = calloc(r->count > 0 ? r->count : 1, sizeof *r->cells);
    if (r->cells == NULL)
        return false;
    uint64_t number = batman_make(r->cells, r->count, settings, interfaces);
    if (number != 0) /* 12: a setting or an interface row that is not allowed */
        stop(r, "make", number);
    return true;
}

void reader_close(struct reader *r)
{
    free(r->cells);
    r->cells = NULL;
}

size_t reader_own(struct reader *r, uint64_t now, const uint8_t *hna, size_t hna_length, uint8_t *out, size_t room)
{
    struct batman_written w =
        batman_own_packet(r->cells, r->count, INTERFACE, now, TTL, NO_GATEWAY, NO_PORT, hna, hna_length, out, room);
    switch (w.number) {
    case 0: return (size_t)w.length;
    case BATMAN_NOT_WELL_FORMED: /* the table is damaged: a daemon logs it and makes a new one */
    case BATMAN_NOT_IN_USE: /* an interface that make was not given */
    case BATMAN_TIME_BEFORE: /* the clock went back: take a monotonic one */
    case BATMAN_SHORT_OUTPUT: /* the output is too short for these HNA entries */
    case BATMAN_WRONG_SIZE: /* more than 292 HNA entries: announce fewer, and no more than 16, or others refuse the packet by 15 */
    case BATMAN_RAGGED_ENTRIES: /* HNA octets that are no whole entries */
    case BATMAN_WRONG_MASK: /* a mask above 32 in the configuration: entry w.place */
    case BATMAN_HOST_BITS_SET: /* an address with host bits set in the configuration, entry w.place: a daemon clears them where it reads that, and announces the network */
    case BATMAN_TTL_TOO_LOW: /* a TTL below 2 in the configuration */
    default: stop(r, "an own packet", w.number);
    }
}

/* A daemon has recvfrom write to in->octets + in->length, with room for BATMAN_READ_SIZE octets. A longer datagram is cut as recvfrom cuts it: it is still
 * too long for a packet. */
static void put_in(struct reader_inbox *in, uint32_t sender, const uint8_t *packet, size_t length)
{
    size_t read = length < BATMAN_READ_SIZE ? length : BATMAN_READ_SIZE;
    memcpy(in->octets + in->length, packet, read);
    in->length += read;
    in->lengths[in->packets] = read;
    in->senders[in->packets] = sender;
    in->interfaces[in->packets] = INTERFACE;
    in->packets++;
}

bool reader_hear(struct reader *r, uint64_t now, uint32_t sender, const uint8_t *packet, size_t length)
{
    if (r->filters && relay_filter_drops(&r->filter, packet, length, now)) /* what we passed on, come back or by a longer way */
        r->dropped++;
    else if (r->inbox.packets < BATMAN_PACKETS_MOST) /* what a full inbox doesn't take is a packet lost */
        put_in(&r->inbox, sender, packet, length);
    return r->inbox.packets == BATMAN_PACKETS_MOST;
}

static void hand_over(struct reader *r, uint64_t now, struct reader_outbox *out, struct batman_received answers[BATMAN_PACKETS_MOST])
{
    const struct reader_inbox *in = &r->inbox;
    struct batman_burst b = batman_receive_burst(r->cells, r->count, in->octets, in->length, in->lengths, in->packets, in->senders, in->packets,
                                                 in->interfaces, in->packets, now, out->octets, sizeof out->octets, answers, BATMAN_PACKETS_MOST);
    switch (b.number) {
    case 0: break;
    case BATMAN_NOT_WELL_FORMED: /* the table is damaged: a daemon logs it and makes a new one */
    case BATMAN_WRONG_BURST: /* the inbox's lists, lengths and the rows don't fit each other: no packet can bring that about */
    default: stop(r, "a burst", b.number);
    }
    r->bursts++;
    r->most_packets = in->packets > r->most_packets ? in->packets : r->most_packets;
}

/* Does what the answer to one packet asks for. Answers whether the packet goes on the air again. */
static bool handle_answer(struct reader *r, struct batman_received a)
{
    if (a.number < READER_ANSWERS)
        r->answers[a.number]++;
    switch (a.number) {
    case BATMAN_NOT_IN_USE: /* an interface that make was not given */
    case BATMAN_TIME_BEFORE: /* the clock went back: take a monotonic one */
        stop(r, "a received packet", a.number);
    case BATMAN_SHORT_OUTPUT: /* longer than what is left of the output: doesn't come up where that is as long as the inbox */
    case BATMAN_WRONG_SIZE: /* too short or too long for an originator message */
    case BATMAN_WRONG_VERSION: /* another version of the protocol */
    case BATMAN_RAGGED_ENTRIES: /* HNA octets that are no whole entries */
    case BATMAN_WRONG_MASK: /* a mask above 32, in entry a.place */
        return false; /* anyone can send such octets: drop them, and log no more than now and then */
    case BATMAN_HOST_BITS_SET: /* its originator announces a network with host bits set, in entry a.place: log that now and then; they have to be cleared there */
    case BATMAN_NEIGHBOURS_FULL: /* 32 neighbours are held: this one stays unidirectional until another falls silent */
    case BATMAN_ORIGINATORS_FULL: /* the table is full: drop it; a daemon sweeps if it has not for long, or makes a larger table */
    case BATMAN_LINKS_FULL: /* eight other links to this originator are held: one more is not needed */
    case BATMAN_ENTRIES_FULL: /* its originator announces more than 16 networks: log that now and then; they have to be joined under shorter masks there */
        return false;
    case BATMAN_OWN_SENDER: /* our own transmission, heard by ourselves */
    case BATMAN_OWN_BROADCAST: /* no sender has a broadcast address: forged, or a broken network stack */
    case BATMAN_ECHO: /* our last packet came back: from now on this neighbour's link counts as bidirectional */
    case BATMAN_OWN_ORIGINATOR: /* our own packet by a longer way, or an older one */
    case BATMAN_UNIDIRECTIONAL: /* its sender had it over a link that works in one direction only: it says nothing of a way back */
    case BATMAN_STALE: /* held back on its way. Where one comes every interval, its originator has started again at a lower number, or somebody forges higher ones: log that now and then */
        return false;
    case BATMAN_KEPT: /* taken: a daemon compares a.route with the kernel's route to the originator, and changes that where they differ */
        return false;
    case BATMAN_PASSED_ON: /* as 25, and it goes on the air; with more interfaces and relay_filter_goes_elsewhere, on those with a.flags as octet 1 */
        return true;
    default: /* a number that this header doesn't know */
        stop(r, "a received packet", a.number);
    }
}

/* Of each packet that is passed on the copy stands in the output behind those before it, as long as the packet. */
void reader_take(struct reader *r, uint64_t now, struct reader_outbox *out)
{
    struct reader_inbox *in = &r->inbox;
    struct batman_received answers[BATMAN_PACKETS_MOST];
    const uint8_t *copy = out->octets;
    out->packets = 0;
    if (in->packets > 0)
        hand_over(r, now, out, answers);
    for (size_t i = 0; i < in->packets; i++) {
        if (!handle_answer(r, answers[i]))
            continue;
        if (r->filters)
            relay_filter_passed_on(&r->filter, copy, in->lengths[i], now);
        copy += in->lengths[i];
        out->lengths[out->packets++] = in->lengths[i];
    }
    in->length = in->packets = 0;
}

uint64_t reader_sweep(struct reader *r, uint64_t now)
{
    struct batman_swept s = batman_sweep(r->cells, r->count, now);
    if (s.number != 0) /* 1: the table is damaged; 3: the clock went back */
        stop(r, "a sweep", s.number);
    return s.removed; /* where any were, a daemon asks for each route that it has set, and takes out those that are gone */
}

struct batman_route reader_route(const struct reader *r, uint32_t originator)
{
    struct batman_asked a = batman_best(r->cells, r->count, originator);
    if (a.number != 0) /* 1: the table is damaged */
        stop(r, "a best question", a.number);
    return a.route;
}

/* A daemon asks this for each destination behind the mesh when it sets its routes, and then reader_route for the originator. */
struct batman_located reader_server(const struct reader *r, uint32_t address)
{
    struct batman_located l = batman_lookup(r->cells, r->count, address);
    if (l.number != 0) /* 1: the table is damaged */
        stop(r, "a lookup", l.number);
    return l;
}

const char *reader_meaning(unsigned number)
{
    switch (number) {
    case BATMAN_WRONG_SIZE: return "refused: wrong size";
    case BATMAN_WRONG_VERSION: return "refused: another version";
    case BATMAN_RAGGED_ENTRIES: return "refused: ragged HNA entries";
    case BATMAN_WRONG_MASK: return "refused: a mask above 32";
    case BATMAN_HOST_BITS_SET: return "refused: a network with host bits";
    case BATMAN_NEIGHBOURS_FULL: return "refused: 32 neighbours are held";
    case BATMAN_ORIGINATORS_FULL: return "refused: the table is full";
    case BATMAN_LINKS_FULL: return "refused: 8 other links are held";
    case BATMAN_ENTRIES_FULL: return "refused: more than 16 networks";
    case BATMAN_OWN_SENDER: return "from our own address";
    case BATMAN_OWN_BROADCAST: return "from a broadcast address";
    case BATMAN_ECHO: return "our own, straight back: the link is bidirectional";
    case BATMAN_OWN_ORIGINATOR: return "our own, by another way";
    case BATMAN_UNIDIRECTIONAL: return "over a link of one direction";
    case BATMAN_STALE: return "stale: its number is too far back";
    case BATMAN_KEPT: return "taken, not passed on";
    case BATMAN_PASSED_ON: return "taken and passed on";
    default: return "unknown";
    }
}
