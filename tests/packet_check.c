/* Compares the proved packet check with an independent one on random, cut, damaged and systematic packets and on those of real nodes.
 * The independent one below is written from the table of refusals and shares no text with the library. */
#include <inttypes.h>
#include <stdbool.h>
#include <stdio.h>
#include <stdlib.h>
#include <string.h>

#include "../demo/random.h"
#include "batman.h"

enum { LONGEST = 1480, RANDOM_PACKETS = 1200000, COMPARED_LEAST = 1000000 };

/* All packets compared; and of them those that the independent check answers by each number, 0 for accepted. */
static unsigned long compared, differing, answered[256];

static uint64_t state;

static uint64_t next(void) { return random_next(&state); }

/* Octet by octet: of its 8 bits as many belong to the network as the mask leaves for it, and what remains when these are shifted out are host bits. */
static bool has_host_bits(const uint8_t *entry)
{
    for (int octet = 0, mask = entry[4]; octet < 4; octet++, mask -= 8) {
        int network = mask <= 0 ? 0 : mask >= 8 ? 8 : mask;
        if ((uint8_t)(entry[octet] << network) != 0)
            return true;
    }
    return false;
}

/* The independent check: walks the packet once from its end, so that the first bad entry of each kind is the last one met. */
static uint64_t expected(const uint8_t *packet, size_t length, uint64_t version)
{
    if (length < 12 || length > 1472)
        return 5;
    if ((uint64_t)packet[0] != version)
        return 6;
    size_t rest = length - 12;
    while (rest >= 5)
        rest -= 5;
    if (rest != 0)
        return 7;
    uint64_t long_mask = 0, host_bits = 0;
    for (size_t last = length; last > 12; last -= 5) {
        uint64_t place = (last - 17) / 5;
        if (packet[last - 1] > 32)
            long_mask = 8 + 256 * place;
        else if (has_host_bits(packet + last - 5))
            host_bits = 16 + 256 * place;
    }
    return long_mask != 0 ? long_mask : host_bits;
}

/* Answers what the library does. */
static uint64_t compare(const uint8_t *packet, size_t length, uint64_t version)
{
    uint64_t is = batman_packet_check(packet, length, version);
    uint64_t should = expected(packet, length, version);
    compared++;
    answered[should % 256]++;
    if (is != should && differing++ < 10)
        printf("packet check: %zu octets, version %" PRIu64 ": answers %" PRIu64 ", expected %" PRIu64 "\n", length, version, is, should);
    return is;
}

/* Of this packet of version 4 the answer is known without any check. */
static void known(const char *what, const uint8_t *packet, size_t length, uint64_t should)
{
    uint64_t is = compare(packet, length, 4);
    if (is != should && differing++ < 10)
        printf("packet check: %s, %zu octets: answers %" PRIu64 ", expected %" PRIu64 "\n", what, length, is, should);
}

/* The bits of an entry's address are numbered from 0, the highest: those from the mask on are its host bits. */
static void set_bit(uint8_t *entry, int bit) { entry[bit / 8] |= (uint8_t)(128 >> bit % 8); }
static void clear_bit(uint8_t *entry, int bit) { entry[bit / 8] &= (uint8_t)~(128 >> bit % 8); }

static uint8_t *entry_at(uint8_t *packet, size_t place) { return packet + 12 + 5 * place; }

/* A packet without fault of version 4 and this length: where it has whole entries, their masks are up to 32 and their host bits 0. */
static void fill(uint8_t *packet, size_t length)
{
    for (size_t i = 0; i < length; i++)
        packet[i] = (uint8_t)next();
    if (length > 0)
        packet[0] = 4;
    for (uint8_t *entry = packet + 12; entry + 5 <= packet + length; entry += 5) {
        entry[4] = (uint8_t)(next() % 33);
        for (int bit = entry[4]; bit < 32; bit++)
            clear_bit(entry, bit);
    }
}

/* Sets any one host bit of an entry; a mask of 32, which leaves none, is made 31. */
static void set_host_bit(uint8_t *entry)
{
    if (entry[4] == 32)
        entry[4] = 31;
    set_bit(entry, entry[4] + (int)(next() % (32u - entry[4])));
}

static const uint64_t versions[] = {0, 3, 4, 5, 255, 256, 260, 1u << 16, UINT64_MAX, UINT64_MAX - 251};
enum { VERSIONS = sizeof versions / sizeof versions[0] };

static void every_length(void)
{
    uint8_t packet[LONGEST];
    for (size_t length = 0; length <= LONGEST; length++) {
        fill(packet, length);
        for (int v = 0; v < VERSIONS; v++)
            compare(packet, length, versions[v]);
    }
    compare(NULL, 0, 4);
}

static void every_mask_in_every_place(void)
{
    uint8_t packet[1472];
    for (size_t place = 0; place < 292; place++) {
        fill(packet, 1472);
        for (int mask = 0; mask < 256; mask++) {
            entry_at(packet, place)[4] = (uint8_t)mask;
            compare(packet, 1472, 4);
            compare(packet, 17 + 5 * place, 4); /* the entry is the last one */
        }
    }
}

/* Every bit of an address alone under every mask, as this entry of a packet without other faults. */
static void every_bit(uint8_t *packet, size_t length, size_t place)
{
    uint8_t *entry = entry_at(packet, place);
    for (uint8_t mask = 0; mask <= 32; mask++)
        for (int bit = 0; bit < 32; bit++) {
            memset(entry, 0, 4);
            entry[4] = mask;
            set_bit(entry, bit);
            known("one bit of an address", packet, length, bit < mask ? 0 : 16 + 256 * (uint64_t)place);
        }
}

static void every_bit_in_every_place(void)
{
    static const size_t entries[] = {1, 2, 16, 17, 292};
    uint8_t packet[1472];
    for (size_t i = 0; i < sizeof entries / sizeof *entries; i++)
        for (size_t place = 0; place < entries[i]; place++) {
            size_t length = 12 + 5 * entries[i];
            fill(packet, length);
            every_bit(packet, length, place);
        }
}

/* A mask above 32 decides, wherever host bits stand: before it, behind it or in the same entry. */
static void long_mask_and_host_bits(size_t entries, size_t long_mask, size_t host_bits)
{
    uint8_t packet[1472];
    size_t length = 12 + 5 * entries;
    fill(packet, length);
    set_host_bit(entry_at(packet, host_bits));
    for (int mask = 33; mask < 256; mask += 37) { /* 33, 70 .. 255 */
        entry_at(packet, long_mask)[4] = (uint8_t)mask;
        known("a mask above 32 and host bits", packet, length, 8 + 256 * (uint64_t)long_mask);
    }
}

static void long_masks_and_host_bits(void)
{
    static const size_t entries[] = {2, 3, 24};
    for (size_t i = 0; i < sizeof entries / sizeof *entries; i++)
        for (size_t pair = 0; pair < entries[i] * entries[i]; pair++)
            long_mask_and_host_bits(entries[i], pair / entries[i], pair % entries[i]);
    long_mask_and_host_bits(292, 291, 0);
    long_mask_and_host_bits(292, 0, 291);
}

/* Some masks, about one in four, become anything. */
static void change_masks(uint8_t *packet, size_t entries)
{
    for (size_t i = 0; i < entries; i++)
        if (next() % 4 == 0)
            entry_at(packet, i)[4] = (uint8_t)next();
}

/* Some entries, about one in four, get a host bit, and some of these more. */
static void set_host_bits(uint8_t *packet, size_t entries)
{
    for (size_t i = 0; i < entries; i++)
        while (next() % 4 == 0)
            set_host_bit(entry_at(packet, i));
}

static void random_packets(void)
{
    uint8_t packet[LONGEST];
    for (long n = 0; n < RANDOM_PACKETS; n++) {
        size_t entries = next() % 8 == 0 ? next() % 293 : next() % 6;
        size_t length = 12 + 5 * entries;
        fill(packet, length);
        switch (next() % 8) {
        case 0: /* cut */
            length = next() % (length + 1);
            break;
        case 1: /* damaged: one octet anything */
            packet[next() % length] = (uint8_t)next();
            break;
        case 2:
            change_masks(packet, entries);
            break;
        case 3: /* any octets, any length */
            length = next() % (LONGEST + 1);
            for (size_t i = 0; i < length; i++)
                packet[i] = (uint8_t)next();
            break;
        case 4: /* one host bit */
            if (entries > 0)
                set_host_bit(entry_at(packet, next() % entries));
            break;
        case 5:
            set_host_bits(packet, entries);
            break;
        case 6:
            set_host_bits(packet, entries);
            change_masks(packet, entries);
            break;
        }
        compare(packet, length, next() % 8 == 0 ? versions[next() % VERSIONS] : 4);
    }
}

/* A file of outside packets: a sender and octets in hex on each line, # for comments. */
static unsigned long outside(const char *name)
{
    FILE *file = fopen(name, "r");
    char line[8192];
    unsigned long packets = 0;
    if (!file) {
        perror(name);
        exit(1);
    }
    while (fgets(line, sizeof line, file)) {
        uint8_t packet[LONGEST];
        size_t length = 0;
        char *hex = strchr(line, ' ');
        if (line[0] == '#' || !hex)
            continue;
        unsigned octet;
        for (hex++; length < LONGEST && sscanf(hex, "%2x", &octet) == 1; hex += 2)
            packet[length++] = (uint8_t)octet;
        compare(packet, length, 4);
        compare(packet, length, 5);
        packets++;
    }
    fclose(file);
    return packets;
}

/* The plain examples: what RULES 3.5, 3.6 and 11.2 say of the check. */
static void examples(void)
{
    uint8_t packet[1473] = {4};
    known("the longest packet", packet, 1472, 0);
    known("one octet more", packet, 1473, 5);
    known("four octets of an entry", packet, 16, 7);
    packet[16] = 32;
    known("mask 32", packet, 17, 0);
    packet[16] = 33;
    known("mask 33", packet, 17, 8);
    packet[16] = 0;
    packet[31] = 33;
    packet[46] = 255;
    known("mask 33 at place 3", packet, 52, 8 + 256 * 3);
}

/* A packet with this one entry, or with it behind another that has host bits. */
static void example_of_entry(const char *what, const uint8_t entry[5], uint64_t alone, uint64_t behind_host_bits)
{
    uint8_t one[17] = {4}, two[22] = {4, [12] = 10, 1, 0, 7, 16};
    memcpy(entry_at(one, 0), entry, 5);
    memcpy(entry_at(two, 1), entry, 5);
    known(what, one, sizeof one, alone);
    known(what, one, sizeof one - 1, 7);
    known(what, two, sizeof two, behind_host_bits);
    known(what, two, sizeof two - 1, 7);
}

static void examples_of_host_bits(void)
{
    example_of_entry("10.1.0.0 with mask 16", (uint8_t[]){10, 1, 0, 0, 16}, 0, 16);
    example_of_entry("10.1.0.7 with mask 16", (uint8_t[]){10, 1, 0, 7, 16}, 16, 16);
    example_of_entry("10.1.128.0 with mask 16", (uint8_t[]){10, 1, 128, 0, 16}, 16, 16);
    example_of_entry("10.1.128.0 with mask 17", (uint8_t[]){10, 1, 128, 0, 17}, 0, 16);
    example_of_entry("0.0.0.0 with mask 0", (uint8_t[]){0, 0, 0, 0, 0}, 0, 16);
    example_of_entry("0.0.0.1 with mask 0", (uint8_t[]){0, 0, 0, 1, 0}, 16, 16);
    example_of_entry("128.0.0.0 with mask 0", (uint8_t[]){128, 0, 0, 0, 0}, 16, 16);
    example_of_entry("128.0.0.0 with mask 1", (uint8_t[]){128, 0, 0, 0, 1}, 0, 16);
    example_of_entry("0.0.0.1 with mask 31", (uint8_t[]){0, 0, 0, 1, 31}, 16, 16);
    example_of_entry("0.0.0.1 with mask 32", (uint8_t[]){0, 0, 0, 1, 32}, 0, 16);
    example_of_entry("255.255.255.255 with mask 32", (uint8_t[]){255, 255, 255, 255, 32}, 0, 16);
    example_of_entry("10.1.0.7 with mask 33", (uint8_t[]){10, 1, 0, 7, 33}, 8, 8 + 256);
}

/* What hardly comes up is hardly compared. */
static bool enough(const char *what, unsigned long are, unsigned long least)
{
    if (are < least)
        printf("packet check: %s: %lu, and at least %lu are wanted\n", what, are, least);
    return are >= least;
}

/* Of the packets compared a tenth each at least is accepted, has a mask above 32 and has host bits. */
static bool enough_of_all(unsigned long real)
{
    unsigned long tenth = compared / 10;
    return enough("packets compared", compared, COMPARED_LEAST) && enough("packets of real nodes", real, 1) && enough("packets accepted", answered[0], tenth) &&
           enough("packets refused by 8", answered[8], tenth) && enough("packets refused by 16", answered[16], tenth);
}

int main(int argc, char **argv)
{
    unsigned long real = 0;
    state = random_seeded(1);
    examples();
    examples_of_host_bits();
    every_length();
    every_mask_in_every_place();
    every_bit_in_every_place();
    long_masks_and_host_bits();
    random_packets();
    for (int i = 1; i < argc; i++)
        real += outside(argv[i]);
    printf("packet check: %lu packets compared, %lu of them of real nodes at versions 4 and 5; %lu accepted, %lu refused by 8, %lu by 16; %lu differ\n", compared,
           2 * real, answered[0], answered[8], answered[16], differing);
    return differing != 0 || !enough_of_all(real);
}
