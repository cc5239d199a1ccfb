/* The mesh routing core: B.A.T.M.A.N. originator messages by the Internet-Draft of March 2008.
 *
 * Link with libbatman.a (x86-64 Linux; `make archive` writes target/staticlib/libbatman.a). The library has no state of its own,
 * allocates nothing, calls nothing but the C library's memcpy, memmove and memset, and is free to be called from several threads on
 * different buffers. */
#ifndef BATMAN_H
#define BATMAN_H

#include <stddef.h>
#include <stdint.h>

#ifdef __cplusplus
extern "C" {
#endif

/* How many cells a table of this capacity lies in, from 1 to 256: a constant where the capacity is one, as for an array's size.
 * batman_cells_needed answers the same, and 0 for a capacity that is not allowed. */
#define BATMAN_CELLS(capacity) (BATMAN_TABLE_CELLS + BATMAN_RECORD_CELLS * (capacity))

/* Sizes and limits. */
enum batman_limit {
    BATMAN_HEADER_SIZE = 12,      /* octets of a message before its HNA entries */
    BATMAN_ENTRY_SIZE = 5,        /* octets of an HNA entry */
    BATMAN_PACKET_MOST = 1472,    /* octets of a packet */
    BATMAN_READ_SIZE = BATMAN_PACKET_MOST + 1, /* octets to read a datagram into: a longer one, cut to this, is still too long for a packet */
    BATMAN_INTERFACES = 4,        /* interface rows given to make */
    BATMAN_NEIGHBOURS_MOST = 32,  /* neighbour rows held */
    BATMAN_LINKS_MOST = 8,        /* links held of one originator */
    BATMAN_ENTRIES_MOST = 16,     /* HNA entries held of one originator; a packet may have up to 292 */
    BATMAN_PACKETS_MOST = 32,     /* packets of a burst */
    BATMAN_CAPACITY_MOST = 256,   /* originators held */
    BATMAN_TABLE_CELLS = 94,      /* cells of a table before its records */
    BATMAN_RECORD_CELLS = 39,     /* cells of a record, one for each originator of the capacity */
    BATMAN_CELLS_MOST = BATMAN_CELLS(BATMAN_CAPACITY_MOST)
};

/* Why a call is refused. Each call gives the first that applies, in the order of this list, which is not that of the numbers: 16 stands between 8 and 9.
 * 0 is no refusal. 8 and 16 come with a place: that of the first such HNA entry of the packet, counted from 0. */
enum batman_refusal {
    BATMAN_NOT_WELL_FORMED = 1,   /* the cells are not a well-formed table's */
    BATMAN_NOT_IN_USE = 2,        /* no such interface in use */
    BATMAN_TIME_BEFORE = 3,       /* a time before the table's */
    BATMAN_SHORT_OUTPUT = 4,      /* the output is shorter than the packet; of the list call: fewer rows than links */
    BATMAN_WRONG_SIZE = 5,        /* fewer than 12 or more than 1,472 octets */
    BATMAN_WRONG_VERSION = 6,     /* the first octet is not the version asked for */
    BATMAN_RAGGED_ENTRIES = 7,    /* the octets after the first 12 are not a multiple of 5 */
    BATMAN_WRONG_MASK = 8,        /* an HNA entry has a mask length above 32 */
    BATMAN_HOST_BITS_SET = 16,    /* an HNA entry's address has host bits set, the low 32 - mask ones: as 10.1.0.7 with mask 16; with mask 0 only 0.0.0.0 has none */
    BATMAN_NEIGHBOURS_FULL = 9,   /* 32 neighbour rows are held and another would be needed */
    BATMAN_ORIGINATORS_FULL = 10, /* as many originators as the capacity are held and another would be needed */
    BATMAN_LINKS_FULL = 11,       /* more than 8 links of the originator would be held */
    BATMAN_NOT_ALLOWED = 12,      /* a setting, an interface row or the number of cells is not allowed */
    BATMAN_TTL_TOO_LOW = 13,      /* an own packet's TTL is below 2 */
    BATMAN_WRONG_BURST = 14,      /* a burst's lists differ in length, its lengths don't add up to its octets, it has more than 32 packets, or fewer rows than packets */
    BATMAN_ENTRIES_FULL = 15      /* a message with more than 16 HNA entries that would replace its originator's list: it makes the record or has a new number */
};

/* What a received packet that is not refused gets: the first that applies, in the order of this list, which is not that of the numbers: 27 stands between 24 and 25. */
enum batman_verdict {
    BATMAN_OWN_SENDER = 20,       /* the sender is one of our addresses */
    BATMAN_OWN_BROADCAST = 21,    /* the sender is one of our broadcast addresses */
    BATMAN_ECHO = 22,             /* the echo of our last packet: its link is bidirectional */
    BATMAN_OWN_ORIGINATOR = 23,   /* our own packet, but no such echo */
    BATMAN_UNIDIRECTIONAL = 24,   /* its U flag is set: its sender had it over a link of one direction */
    BATMAN_STALE = 27,            /* the originator is held, and the number is stale (below): neither counted nor passed on, by whichever link it came, also from the originator itself */
    BATMAN_KEPT = 25,             /* counted or not, and not passed on */
    BATMAN_PASSED_ON = 26         /* counted or not, and passed on: the copy for the receiving interface is in the output */
};

/* ---- sequence numbers
 *
 * They go modulo 65,536. Of each originator that it holds the table has the current number: that of the counted message that made the record, or the latest new one that was counted
 * since. A number of that originator is one of three things:
 *
 *   new     1 to 32,767 above current: (uint16_t)(number - current) is in that range. Counted, it becomes current, and the window moves up to it
 *   inside  current, or one of the window - 1 numbers below it: (uint16_t)(current - number) is less than the window size. Counted, it moves nothing
 *   stale   any other, from the first number below the window down to the one half way round, 32,768 away: the message gets 27
 *
 * 27 changes no cell but that of the table's time: no mark, no link, no entry, and not the time of the record, which a sweep goes by. Its answer has the originator's route, which stays as
 * it was, every other field is 0, and nothing is written to the output. Such a packet was held back on its way; or its originator has started again at a lower number; or somebody has
 * forged a higher one.
 *
 * Without a record nothing is stale: the first message that is counted makes the record, whatever its number. So a node that has started again at a lower number is taken up once a sweep
 * has removed its record, or its numbers have come up to the window. Until then nobody who holds it passes its packets on, so that it gets no echo either. It need not come to that: give
 * make a first number that is new to the others (docs/INTEGRATION.md, "After a restart"). */

/* ---- what is lent
 *
 * Each buffer of a call is a pointer and how many elements it has. The pointer is aligned for them (8 octets for cells, lengths,
 * interfaces and answer rows, 4 for senders and link rows, any for packets, HNA octets and outputs); with length 0 it may be anything, NULL too. Buffers of one call must not overlap, packet and output among them. */

/* Checks a received packet, before anything else is done with it. Refused by 5, 6, 7, 8 and 16, in this order.
 *
 * packet   the octets as they came (not read where length is 0)
 * length   how many there are, 0 and any larger number included
 * version  the packet version in use, 4 by default; any number may be given, and one above 255 never equals an octet
 *
 * Answers 0 for a packet without fault, and otherwise the first of these refusals that applies. 8 and 16 come with the place of the first HNA entry whose mask
 * is above 32, or whose host bits are set: the answer is then 8 + 256 * place, or 16 + 256 * place. Where any mask of the packet is above 32 it is 8, whichever
 * entries have host bits set. Take the answer apart by batman_refusal_number and batman_refusal_place. */
uint64_t batman_packet_check(const uint8_t *packet, size_t length, uint64_t version);

static inline uint64_t batman_refusal_number(uint64_t answer) { return answer % 256; }
static inline uint64_t batman_refusal_place(uint64_t answer) { return answer / 256; }

/* ---- the table
 *
 * A table lies in cells of 64 bits that the caller lends to every call: BATMAN_CELLS says how many, docs/LAYOUT.md how they are laid
 * out. Every call but make and the packet check begins by checking the whole table: cells that are no well-formed table are refused by 1.
 * A refused call answers its number, every other field 0 (but the place for 8 and 16), and changes no cell, no octet and no row. */

/* A link on which a message was counted becomes best where its count is above every other link's. Where it is level with the highest of them: */
enum batman_tie {
    BATMAN_NEWEST_WINS = 0,  /* it becomes best too: among equally good links the route jumps with every message */
    BATMAN_PRESENT_STAYS = 1 /* the link that is best stays best, until another is above */
};

/* What a table is made with. Values that are not allowed are refused by 12. Take BATMAN_SETTINGS_DEFAULT and change what you want: a member that an
 * initialiser leaves out is 0, and a tie of 0 is newest wins, not the default. Whoever counts on newest wins names it. */
struct batman_settings {
    uint64_t version;  /* 0 to 255; the default is 4 */
    uint64_t window;   /* 1 to 64 sequence numbers; 64 */
    uint64_t timeout;  /* link timeout in own messages, 1 to 1,000; 32 */
    uint64_t purge;    /* purge timeout in milliseconds, 1 to 2^32 - 1; 640,000 */
    uint64_t capacity; /* originators held, 1 to 256; 64 */
    uint64_t tie;      /* one of enum batman_tie; BATMAN_PRESENT_STAYS */
};

/* Every setting's default: struct batman_settings settings = BATMAN_SETTINGS_DEFAULT; */
#define BATMAN_SETTINGS_DEFAULT {4, 64, 32, 640000, 64, BATMAN_PRESENT_STAYS}

struct batman_interface {
    uint32_t own;       /* own address; those in use differ */
    uint32_t broadcast; /* broadcast address */
    uint16_t first;     /* the first sequence number; after a restart one that is new to the others */
};

/* Four rows, of which the first `used` are in use, 1 to 4; they are numbered from 0, and the others are ignored. */
struct batman_interfaces {
    struct batman_interface row[BATMAN_INTERFACES];
    uint64_t used;
};

/* A route is always neighbour, interface, count and window size together; all zeros where there is none. */
struct batman_route {
    uint32_t neighbour, interface, count, window;
};

struct batman_received {
    uint64_t number;
    uint64_t place;            /* with 8 and 16: which HNA entry of the packet, from 0; else 0 */
    struct batman_route route; /* to the packet's originator, as the call leaves the table */
    uint8_t flags;             /* with 26: octet 1 of the copies for the other interfaces */
};

struct batman_burst {
    uint64_t number;
    uint64_t written; /* how many octets of the output were written */
};

struct batman_written {
    uint64_t number;
    uint64_t place;    /* with 8 and 16: which of the HNA entries given, from 0; else 0 */
    uint64_t length;   /* how many octets were written */
    uint16_t sequence; /* the packet's sequence number */
};

struct batman_swept {
    uint64_t number;
    uint64_t removed; /* how many originators were removed */
};

struct batman_asked {
    uint64_t number;
    struct batman_route route;
};

/* A row of the list call: one held link. */
struct batman_link_row {
    uint32_t neighbour, interface, count, window;
    uint32_t best; /* 1 where the link is the best one, else 0 */
};

struct batman_listed {
    uint64_t number;
    uint64_t filled; /* how many rows were filled */
};

/* What a lookup found. `found` alone says whether: where it is 0 the fields behind it are 0, and of an entry each of them may be 0 too, as address 0 is an
 * ordinary address. */
struct batman_located {
    uint64_t number;
    uint32_t found;      /* 1 where an entry covers the address, else 0 */
    uint32_t originator; /* whose entry it is: held, so that batman_best answers a route to it */
    uint32_t network;    /* the entry's network as it is held; only one that an earlier version took up may have host bits set (see below) */
    uint32_t mask;       /* the entry's mask length, 0 to 32 */
};

/* How many cells a capacity needs; 0 for one that is not allowed. */
uint64_t batman_cells_needed(uint64_t capacity);

/* Makes a fresh table in all the cells given, whatever they held: 0, or 12 and nothing is changed. */
uint64_t batman_make(uint64_t *cells, size_t count, struct batman_settings settings, struct batman_interfaces interfaces);

/* Takes a received packet: `length` octets from `sender`, heard by `interface` at `time` in milliseconds. Refused by 1 to 8, 16,
 * 9, 10, 11 and 15, in this order: so a packet with host bits set in any of its HNA entries is refused whoever sent it, and never passed on. 10, 11 and 15 are for messages
 * that would be counted, so that a stale one gets 27 and none of them.
 * With 26 the first `length` octets of the output are the copy to be sent on the receiving interface; nothing else is ever written there.
 * `room` is how many octets the output has, and must be at least `length` whatever the verdict: 4 stands before 5, so a stranger's long datagram
 * gets 4 from a shorter output. Read datagrams into BATMAN_READ_SIZE octets, lend an output of as many, and drop what gets 4. */
struct batman_received batman_receive(uint64_t *cells, size_t count, const uint8_t *packet, size_t length, uint32_t sender,
                                      uint64_t interface, uint64_t time, uint8_t *output, size_t room);

/* Takes up to 32 received packets in one call, which checks the table once. They stand one after another in `octets`, which has `length` octets in
 * all; of each packet `lengths` has how many octets it has, `senders` who sent it and `interfaces` by which interface it was heard, all at `time`.
 * Each list has a number of members of its own: they must be the same, and the lengths must add up to `length`. `answers` are rows for the answers, `rows`
 * of them, no fewer than packets. Refused by 1, and then by 14; nothing is changed.
 * Otherwise it does what batman_receive does with each packet in turn, given the rest of the output from where the copy before it ended: row i is
 * the answer to packet i, refusals and their places among them, and where it is 26 that packet's copy stands behind those of the packets before it. A packet that is refused
 * doesn't stop those after it. Further rows, and the output behind what is written, are left as they are; a burst of no packets changes nothing.
 * With an output of as many octets as `octets` no packet gets 4. */
struct batman_burst batman_receive_burst(uint64_t *cells, size_t count, const uint8_t *octets, size_t length, const uint64_t *lengths,
                                         size_t lengths_count, const uint32_t *senders, size_t senders_count, const uint64_t *interfaces,
                                         size_t interfaces_count, uint64_t time, uint8_t *output, size_t room, struct batman_received *answers,
                                         size_t rows);

/* Writes an interface's next own packet at the start of the output, and nothing behind it. Refused by 1 to 5, 7, 8, 16 and 13, in this order.
 * `hna` are the octets after the packet's first 12, `hna_length` of them; `room` is how many octets the output has.
 * Announce no more than 16 entries: more are written as given, but nodes with this library refuse such a packet by 15.
 * Announce the network, and not an address in it: 16 says that entry `place` has host bits set. Clear them where the configuration is read, by
 * network & (mask == 0 ? 0 : UINT32_MAX << (32 - mask)), so that 10.1.0.7 with mask 16 becomes 10.1.0.0. */
struct batman_written batman_own_packet(uint64_t *cells, size_t count, uint64_t interface, uint64_t time, uint8_t ttl, uint8_t gateway,
                                        uint16_t port, const uint8_t *hna, size_t hna_length, uint8_t *output, size_t room);

/* Removes the originators whose latest counted message is more than the purge timeout ago. Refused by 1 and 3. Call it every second or so: no other call but make removes an
 * originator, and one that has started again at a lower number may get 27 for as long as its old record is held. */
struct batman_swept batman_sweep(uint64_t *cells, size_t count, uint64_t time);

/* The best link to an originator, or no route. Refused by 1 alone; changes nothing. */
struct batman_asked batman_best(const uint64_t *cells, size_t count, uint32_t originator);

/* The held links of an originator, one row each at the start of `rows`, rising by neighbour, then interface; none for an originator without
 * a record. `room` is how many rows are lent, 8 are always enough; further rows are left as they are. Refused by 1, and by 4 where there are
 * fewer rows than links; changes no cell. */
struct batman_listed batman_list(const uint64_t *cells, size_t count, uint32_t originator, struct batman_link_row *rows, size_t room);

/* ---- networks behind the originators
 *
 * The table keeps the HNA entries of each originator that it holds: up to 16, in packet order, repeats included. A counted message that makes the record or has a new
 * number (1 to 32,767 above current) replaces them by its own, and by none where it has none. Every other message leaves them: one with a number inside the
 * window, a duplicate, one that isn't counted, a stale one among these. A sweep removes them with their record, make removes all.
 *
 * A message that would replace them by more than 16 is refused by 15, and nothing of it is taken. To a daemon that means: an originator that announces more is not
 * taken up; one that is held keeps its older entries, and is swept where nothing else of it is counted for the purge timeout. Nor is such a packet passed on, so that
 * through this node others don't hear of it either. A node with more than 16 networks has to announce them joined under shorter masks.
 *
 * A message with host bits set in any entry is refused by 16, whether it would replace them or not, so that no network is taken up under two names (10.1.0.7 and 10.1.0.0, both
 * with mask 16). What follows for a daemon is as with 15; the operator of such a node has to clear the bits there. Earlier versions took these entries up and passed them on. A
 * table that one of them has filled is well-formed as before, since the cells are the same: such an entry stays until it is replaced or swept with its record, and until then
 * a lookup finds it. Where you go on with such a table, clear the host bits of a lookup's `network` before you set a route by it or compare it with another. */

/* Which originator's entry covers an address: of all entries held the one with the longest mask; of equal masks that of the smaller originator address, and of one
 * originator's the earlier in its list. An entry covers an address that agrees with its network in as many leading bits as the mask says: mask 0 covers every
 * address, mask 32 one. What this node announces itself is not in its table, and isn't found. Refused by 1 alone; changes nothing. As every call it checks the whole
 * table each time, and then goes over all entries: ask when routes are set, and not for each datagram that is forwarded. */
struct batman_located batman_lookup(const uint64_t *cells, size_t count, uint32_t address);

#ifdef __cplusplus
}
#endif

#endif
