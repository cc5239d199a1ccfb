#include "radio.h"

#include <stdlib.h>
#include <string.h>

#include "random.h"

enum { FIRST_ROOM = 256, MOST_LOSS = 950 };

/* A chance between half and one and a half of the given one, twice that on the diagonal, so that no two directions are alike. */
static unsigned drawn_loss(struct radio *r, unsigned loss, bool diagonal)
{
    uint64_t thousandths = (uint64_t)loss * (RADIO_WHOLE / 100) * (diagonal ? 2 : 1);
    uint64_t drawn = thousandths / 2 + random_below(&r->random, thousandths + 1);
    return drawn < MOST_LOSS ? (unsigned)drawn : MOST_LOSS;
}

static void connect(struct radio *r, struct radio_grid grid, unsigned loss, unsigned x, unsigned y)
{
    struct radio_station *s = &r->station[y * grid.columns + x];
    for (unsigned v = y > 0 ? y - 1 : 0; v <= y + 1 && v < grid.rows; v++)
        for (unsigned u = x > 0 ? x - 1 : 0; u <= x + 1 && u < grid.columns; u++) {
            unsigned to = v * grid.columns + u;
            bool diagonal = u != x && v != y;
            if ((u != x || v != y) && (!diagonal || grid.neighbours == RADIO_AROUND))
                s->link[s->links++] = (struct radio_link){.to = to, .loss = drawn_loss(r, loss, diagonal)};
        }
}

bool radio_open(struct radio *r, struct radio_grid grid, unsigned loss, uint64_t seed)
{
    *r = (struct radio){.random = random_seeded(seed)};
    r->station = calloc((size_t)grid.columns * grid.rows, sizeof *r->station);
    if (r->station == NULL)
        return false;
    for (unsigned y = 0; y < grid.rows; y++)
        for (unsigned x = 0; x < grid.columns; x++)
            connect(r, grid, loss, x, y);
    return true;
}

void radio_close(struct radio *r)
{
    free(r->station);
    free(r->queue);
    *r = (struct radio){0};
}

static unsigned apart(unsigned a, unsigned b) { return a < b ? b - a : a - b; }

unsigned radio_distance(struct radio_grid grid, unsigned from, unsigned to)
{
    unsigned across = apart(from % grid.columns, to % grid.columns), down = apart(from / grid.columns, to / grid.columns);
    if (grid.neighbours == RADIO_BESIDE)
        return across + down;
    return across > down ? across : down;
}

static bool make_room(struct radio *r)
{
    if (r->waiting < r->room)
        return true;
    size_t room = r->room > 0 ? 2 * r->room : FIRST_ROOM;
    if (room > SIZE_MAX / sizeof *r->queue)
        return false;
    struct transmission *queue = realloc(r->queue, room * sizeof *queue);
    if (queue == NULL)
        return false;
    r->queue = queue;
    r->room = room;
    return true;
}

static bool is_earlier(const struct transmission *a, const struct transmission *b)
{
    return a->time != b->time ? a->time < b->time : a->order < b->order;
}

/* Of the two behind a place, the earlier; past the end where there is none. */
static size_t earlier_below(const struct radio *r, size_t place)
{
    size_t left = 2 * place + 1, right = left + 1;
    return right < r->waiting && is_earlier(&r->queue[right], &r->queue[left]) ? right : left;
}

bool radio_send(struct radio *r, uint64_t time, unsigned sender, const uint8_t *octets, size_t length)
{
    if (length > RADIO_OCTETS || !make_room(r))
        return false;
    struct transmission t = {.time = time, .order = r->sent++, .sender = sender, .length = length};
    memcpy(t.octets, octets, length);
    size_t place = r->waiting++;
    for (; place > 0 && is_earlier(&t, &r->queue[(place - 1) / 2]); place = (place - 1) / 2)
        r->queue[place] = r->queue[(place - 1) / 2];
    r->queue[place] = t;
    return true;
}

bool radio_next(struct radio *r, uint64_t end, struct transmission *t)
{
    if (r->waiting == 0 || r->queue[0].time >= end)
        return false;
    *t = r->queue[0];
    const struct transmission *last = &r->queue[--r->waiting];
    size_t place = 0;
    for (size_t next = earlier_below(r, place); next < r->waiting && is_earlier(&r->queue[next], last); next = earlier_below(r, place)) {
        r->queue[place] = r->queue[next];
        place = next;
    }
    r->queue[place] = *last;
    return true;
}

bool radio_loses(struct radio *r, const struct radio_link *link) { return random_below(&r->random, RADIO_WHOLE) < link->loss; }
