/* Checks packets given as hex on the command line, or without arguments a few that are built in. */
#include <ctype.h>
#include <inttypes.h>
#include <stdbool.h>
#include <stdio.h>
#include <string.h>

#include "batman.h"

enum { VERSION = 4, DIGITS = 2, STATUS_BAD_ARGUMENT = 2 };

static const char usage[] =
    "usage: check [HEX ..]\n"
    "Checks each packet, given as two hex digits an octet, against version 4; without arguments a few that are built in.\n"
    "Exit status 0, also where a packet is refused; 2 for an argument that can't be read.\n";

/* Whether a refusal comes with the place of an HNA entry. */
static bool has_place(uint64_t number) { return number == BATMAN_WRONG_MASK || number == BATMAN_HOST_BITS_SET; }

/* Prints what the check answers and begins no new line; whether the packet is accepted. */
static bool check(const char *what, const uint8_t *packet, size_t length)
{
    uint64_t answer = batman_packet_check(packet, length, VERSION), number = batman_refusal_number(answer);
    printf("%-34s %4zu octets: ", what, length);
    if (number == 0)
        printf("accepted");
    else
        printf("refused by %" PRIu64, number);
    if (has_place(number))
        printf(" at HNA entry %" PRIu64, batman_refusal_place(answer));
    return number == 0;
}

static void show(const char *what, const uint8_t *packet, size_t length)
{
    check(what, packet, length);
    printf("\n");
}

static void show_built_in(void)
{
    static uint8_t packet[BATMAN_READ_SIZE] = {4, 0, 50, 0, 1, 44, 0, 0, 10, 1, 0, 7}; /* version 4, TTL 50, number 300, originator 10.1.0.7 */
    static const uint8_t network[BATMAN_ENTRY_SIZE] = {10, 1, 0, 0, 16};
    show("an originator message", packet, 12);
    show("cut short", packet, 11);
    show("the longest packet", packet, 1472);
    show("one octet more", packet, 1473);
    show("four octets of an HNA entry", packet, 16);
    packet[16] = 32;
    packet[21] = 33;
    show("a mask of 32", packet, 17);
    show("then a mask of 33", packet, 22);
    memcpy(packet + 17, network, sizeof network);
    show("then 10.1.0.0 with mask 16", packet, 22);
    packet[20] = 7;
    show("then 10.1.0.7 with mask 16", packet, 22);
    packet[0] = 5;
    show("another version", packet, 12);
}

static bool bad(int argument, size_t character, const char *what)
{
    fprintf(stderr, "check: argument %d, character %zu: %s\n", argument, character, what);
    return false;
}

/* Reads the octets of an argument; false where it is bad. */
static bool read_octets(int argument, const char *hex, size_t digits, uint8_t packet[BATMAN_READ_SIZE])
{
    static const char values[] = "0123456789abcdef";
    for (size_t i = 0; i < digits; i++) {
        const char *value = strchr(values, tolower((unsigned char)hex[i]));
        if (value == NULL)
            return bad(argument, i + 1, "this is no hex digit");
        if (i / DIGITS == BATMAN_READ_SIZE)
            return bad(argument, i + 1, "more than 1,473 octets");
        packet[i / DIGITS] = (uint8_t)((i % DIGITS == 0 ? 0 : packet[i / DIGITS] << 4) | (value - values));
    }
    return digits % DIGITS == 0 || bad(argument, digits, "an octet's second digit is missing");
}

/* The fields of an accepted packet, where RULES 3.2 has them. */
static void show_fields(const uint8_t *p, size_t length)
{
    printf(": version %d, flags %d, TTL %d, number %d, originator %d.%d.%d.%d, HNA entries %zu", p[0], p[1], p[2], p[4] << 8 | p[5], p[8], p[9], p[10],
           p[11], (length - BATMAN_HEADER_SIZE) / BATMAN_ENTRY_SIZE);
}

static bool show_argument(int argument, const char *hex)
{
    uint8_t packet[BATMAN_READ_SIZE];
    size_t digits = strlen(hex), length = digits / DIGITS;
    char what[32];
    if (!read_octets(argument, hex, digits, packet))
        return false;
    snprintf(what, sizeof what, "argument %d", argument);
    if (check(what, packet, length))
        show_fields(packet, length);
    printf("\n");
    return true;
}

int main(int argc, char **argv)
{
    if (argc == 2 && strcmp(argv[1], "--help") == 0) {
        fputs(usage, stdout);
        return 0;
    }
    if (argc == 1)
        show_built_in();
    for (int i = 1; i < argc; i++)
        if (!show_argument(i, argv[i]))
            return STATUS_BAD_ARGUMENT;
    return 0;
}
