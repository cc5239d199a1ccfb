/* The octets of a packet, and where its number lies, for both versions in C. */
#ifndef WIRE_H
#define WIRE_H

#include <stdbool.h>
#include <stddef.h>
#include <stdint.h>
#include <string.h>

enum { HEADER = 12, ENTRY = 5, PACKET_MOST = 1472, MASK_AT = 4, MASK_MOST = 32, TTL_LEAST = 2, U = 128, D = 64, UNNAMED = 63 };

enum { HALF_WAY = 32768 }; /* numbers, of 65,536 */

struct fault {
    uint64_t number, place;
};

static inline uint16_t read2(const uint8_t *p) { return (uint16_t)(p[0] << 8 | p[1]); }
static inline uint32_t read4(const uint8_t *p) { return (uint32_t)p[0] << 24 | (uint32_t)p[1] << 16 | (uint32_t)p[2] << 8 | p[3]; }

/* Whether an address has bits below the mask, of 0 to 32. In 64 bits, so that mask 32 leaves none. */
static inline bool has_host_bits(uint32_t network, uint8_t mask) { return (uint32_t)((uint64_t)network << mask) != 0; }

static inline bool entry_faulty(const uint8_t *entry) { return entry[MASK_AT] > MASK_MOST || has_host_bits(read4(entry), entry[MASK_AT]); }

/* Which fault whole entries have, and where: a mask above 32 goes first, wherever it stands. Out of the way of packets without one. */
static __attribute__((noinline)) struct fault entries_fault(const uint8_t *hna, size_t length)
{
    for (size_t at = 0; at < length; at += ENTRY)
        if (hna[at + MASK_AT] > MASK_MOST)
            return (struct fault){8, at / ENTRY};
    for (size_t at = 0; at < length; at += ENTRY)
        if (entry_faulty(hna + at))
            return (struct fault){16, at / ENTRY};
    return (struct fault){0, 0};
}

static inline struct fault hna_fault(const uint8_t *hna, size_t length)
{
    if (length % ENTRY != 0)
        return (struct fault){7, 0};
    for (size_t at = 0; at < length; at += ENTRY)
        if (entry_faulty(hna + at))
            return entries_fault(hna, length);
    return (struct fault){0, 0};
}

static inline struct fault packet_fault(const uint8_t *packet, size_t length, uint64_t version)
{
    if (length < HEADER || length > PACKET_MOST)
        return (struct fault){5, 0};
    if (packet[0] != version)
        return (struct fault){6, 0};
    return hna_fault(packet + HEADER, length - HEADER);
}

/* The packet check as one number. */
static inline uint64_t packet_check(const uint8_t *packet, size_t length, uint64_t version)
{
    struct fault f = packet_fault(packet, length, version);
    return f.number + 256 * f.place;
}

/* Of an own packet with these HNA octets. */
static inline struct fault written_fault(const uint8_t *hna, size_t length, uint8_t ttl)
{
    if (length > PACKET_MOST - HEADER)
        return (struct fault){5, 0};
    struct fault f = hna_fault(hna, length);
    if (f.number == 0 && ttl < TTL_LEAST)
        f.number = 13;
    return f;
}

/* Where a number lies beside the current one of its originator. */
enum position { NEW, INSIDE, STALE };

static inline enum position position_of(uint16_t current, uint16_t number, uint64_t window)
{
    uint16_t below = (uint16_t)(current - number);
    return below < window ? INSIDE : below > HALF_WAY ? NEW : STALE;
}

/* How many HNA entries a packet of this length has. */
static inline size_t entries_in(size_t length) { return (length - HEADER) / ENTRY; }

/* Whether network and address agree in as many leading bits as the mask says. */
static inline bool covers(uint32_t network, uint32_t mask, uint32_t address) { return (uint64_t)(network ^ address) >> (32 - mask) == 0; }

static inline void write2(uint8_t *p, uint16_t n)
{
    p[0] = (uint8_t)(n >> 8);
    p[1] = (uint8_t)n;
}

/* Writes an own packet, flags 0. */
static inline void write_packet(uint8_t *out, uint8_t version, uint8_t ttl, uint8_t gateway, uint16_t sequence, uint16_t port, uint32_t originator,
                                const uint8_t *hna, size_t hna_length)
{
    out[0] = version;
    out[1] = 0;
    out[2] = ttl;
    out[3] = gateway;
    write2(out + 4, sequence);
    write2(out + 6, port);
    write2(out + 8, (uint16_t)(originator >> 16));
    write2(out + 10, (uint16_t)originator);
    if (hna_length > 0)
        memcpy(out + HEADER, hna, hna_length);
}

/* Writes the passed-on copy for the receiving interface. */
static inline void pass_on(uint8_t *out, const uint8_t *packet, size_t length, bool direct, bool bidirectional)
{
    memcpy(out, packet, length);
    out[1] = (uint8_t)((packet[1] & UNNAMED) | (direct ? D : 0) | (bidirectional ? 0 : U));
    out[2] = (uint8_t)(packet[2] - 1);
}

#endif
