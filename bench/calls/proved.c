/* The library's calls as a row of functions. Compiled a second time with BEFORE where another archive of the library is timed beside: its calls' names then begin with
 * `before_`. */
#ifdef BEFORE
#define batman_cells_needed before_batman_cells_needed
#define batman_make before_batman_make
#define batman_receive before_batman_receive
#define batman_receive_burst before_batman_receive_burst
#define batman_own_packet before_batman_own_packet
#define batman_sweep before_batman_sweep
#define batman_best before_batman_best
#define batman_lookup before_batman_lookup
#define batman_packet_check before_batman_packet_check
#endif
#include "calls.h"

static size_t size(uint64_t capacity) { return (size_t)batman_cells_needed(capacity) * sizeof(uint64_t); }

static uint64_t make(void *table, size_t count, struct batman_settings settings, struct batman_interfaces interfaces)
{
    return batman_make(table, count, settings, interfaces);
}

static struct batman_received receive(void *table, size_t count, const uint8_t *packet, size_t length, uint32_t sender, uint64_t interface,
                                      uint64_t time, uint8_t *output, size_t room)
{
    return batman_receive(table, count, packet, length, sender, interface, time, output, room);
}

static struct batman_burst burst(void *table, size_t count, const struct burst *b)
{
    return batman_receive_burst(table, count, b->octets, b->length, b->lengths, b->lengths_count, b->senders, b->senders_count, b->interfaces,
                                b->interfaces_count, b->time, b->output, b->room, b->answers, b->rows);
}

static struct batman_written own_packet(void *table, size_t count, uint64_t interface, uint64_t time, uint8_t ttl, uint8_t gateway,
                                        uint16_t port, const uint8_t *hna, size_t hna_length, uint8_t *output, size_t room)
{
    return batman_own_packet(table, count, interface, time, ttl, gateway, port, hna, hna_length, output, room);
}

static struct batman_swept sweep(void *table, size_t count, uint64_t time) { return batman_sweep(table, count, time); }

static struct batman_asked best(const void *table, size_t count, uint32_t originator) { return batman_best(table, count, originator); }

static struct batman_located lookup(const void *table, size_t count, uint32_t address) { return batman_lookup(table, count, address); }

#ifdef BEFORE
const struct version before = {"before", true, size, make, receive, burst, own_packet, sweep, best, lookup, NULL, batman_packet_check};
#else
/* Of an archive of its own (crate bench_search), since no call of batman.h is a search alone. */
struct searches bench_search(const uint64_t *cells, size_t count, const uint32_t *originators, size_t n);

static struct searches search(const void *table, size_t count, const uint32_t *originators, size_t n) { return bench_search(table, count, originators, n); }

const struct version proved = {"proved", true, size, make, receive, burst, own_packet, sweep, best, lookup, search, batman_packet_check};
#endif
