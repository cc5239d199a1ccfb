#define _DEFAULT_SOURCE

#include "lent.h"

#include <stdio.h>
#include <stdlib.h>
#include <string.h>
#include <sys/mman.h>

/* A page of the machines that the archive is for; and how far the octets around the lent ones are looked at. */
enum { PAGE = 4096 };

void open_lent(struct lent *l, size_t most)
{
    *l = (struct lent){.size = (most / PAGE + 1) * PAGE};
    uint8_t *all = mmap(NULL, l->size + 2 * PAGE, PROT_NONE, MAP_PRIVATE | MAP_ANONYMOUS, -1, 0);
    if (all == MAP_FAILED || mprotect(all + PAGE, l->size, PROT_READ | PROT_WRITE) != 0) {
        perror("player: no memory to lend");
        exit(EXIT_FAILURE);
    }
    l->pages = all + PAGE;
}

struct span {
    uint8_t *octets;
    size_t length;
};

/* The octets on the side where no such page stands, as far as they are looked at. */
static struct span around(const struct lent *l)
{
    size_t left = l->size - l->length, length = left < PAGE ? left : PAGE;
    return (struct span){l->at_start ? l->octets + l->length : l->octets - length, length};
}

void *lend(struct lent *l, size_t length)
{
    l->at_start = !l->at_start;
    l->octets = l->at_start ? l->pages : l->pages + l->size - length;
    l->length = length;
    struct span beside = around(l);
    memset(beside.octets, UNTOUCHED, beside.length);
    memset(l->octets, UNTOUCHED, length);
    return l->octets;
}

/* The first octet is, and each is the same as the one before it. */
static bool all_untouched(struct span s)
{
    return s.length == 0 || (s.octets[0] == UNTOUCHED && memcmp(s.octets, s.octets + 1, s.length - 1) == 0);
}

bool untouched_from(const struct lent *l, size_t from)
{
    return from <= l->length && all_untouched((struct span){l->octets + from, l->length - from}) && all_untouched(around(l));
}

void *lend_copy(struct lent *l, const void *octets, size_t length) { return memcpy(lend(l, length), octets, length); }

bool is_copy(const struct lent *l, const void *octets) { return memcmp(l->octets, octets, l->length) == 0 && untouched_from(l, l->length); }
