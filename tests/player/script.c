#include "script.h"

#include "words.h"

static uint64_t any_number(struct words *w) { return read_number(w, UINT64_MAX); }
static uint32_t address(struct words *w) { return (uint32_t)read_number(w, UINT32_MAX); }

static void read_size(struct words *w, struct line *l) { l->capacity = any_number(w); }
static void read_cells(struct words *w, struct line *l) { l->cells = (size_t)read_number(w, BUFFER_CELLS); }

/* The tie stands last and may be left out: it is then the default. */
static void read_make(struct words *w, struct line *l)
{
    l->settings = (struct batman_settings)BATMAN_SETTINGS_DEFAULT;
    l->settings.version = any_number(w);
    l->settings.window = any_number(w);
    l->settings.timeout = any_number(w);
    l->settings.purge = any_number(w);
    l->settings.capacity = any_number(w);
    l->interfaces.used = any_number(w);
    for (int i = 0; i < BATMAN_INTERFACES; i++) {
        l->interfaces.row[i].own = address(w);
        l->interfaces.row[i].broadcast = address(w);
        l->interfaces.row[i].first = (uint16_t)read_number(w, UINT16_MAX);
    }
    if (has_word(*w))
        l->settings.tie = any_number(w);
}

/* What receive and own packet end with: OUTPUT and octets. */
static void read_output_and_octets(struct words *w, struct line *l)
{
    l->room = (size_t)read_number(w, OUTPUT_MOST);
    l->length = read_octets(w, l->octets, OCTETS_MOST);
}

static void read_receive(struct words *w, struct line *l)
{
    l->interface = any_number(w);
    l->address = address(w);
    l->time = any_number(w);
    read_output_and_octets(w, l);
}

/* A list: its number of members, then these. Answers the number. */
static size_t read_members(struct words *w, uint64_t members[MEMBERS_MOST])
{
    size_t count = (size_t)read_number(w, MEMBERS_MOST);
    for (size_t i = 0; i < count; i++)
        members[i] = any_number(w);
    return count;
}

static size_t read_addresses(struct words *w, uint32_t members[MEMBERS_MOST])
{
    size_t count = (size_t)read_number(w, MEMBERS_MOST);
    for (size_t i = 0; i < count; i++)
        members[i] = address(w);
    return count;
}

static void read_burst(struct words *w, struct line *l)
{
    l->time = any_number(w);
    l->room = (size_t)read_number(w, OUTPUT_MOST);
    l->rows = (size_t)read_number(w, ANSWERS_MOST);
    l->length = read_octets(w, l->octets, BURST_OCTETS_MOST);
    l->lists.lengths_count = read_members(w, l->lists.lengths);
    l->lists.senders_count = read_addresses(w, l->lists.senders);
    l->lists.interfaces_count = read_members(w, l->lists.interfaces);
}

static void read_own(struct words *w, struct line *l)
{
    l->interface = any_number(w);
    l->time = any_number(w);
    l->ttl = (uint8_t)read_number(w, UINT8_MAX);
    l->gateway = (uint8_t)read_number(w, UINT8_MAX);
    l->port = (uint16_t)read_number(w, UINT16_MAX);
    read_output_and_octets(w, l);
}

static void read_sweep(struct words *w, struct line *l) { l->time = any_number(w); }
static void read_address_alone(struct words *w, struct line *l) { l->address = address(w); }

static void read_list(struct words *w, struct line *l)
{
    l->address = address(w);
    l->rows = (size_t)read_number(w, LINKS_MOST);
}

static void read_check(struct words *w, struct line *l)
{
    l->version = any_number(w);
    l->length = read_octets(w, l->octets, OCTETS_MOST);
}

static void read_poke(struct words *w, struct line *l)
{
    l->index = (size_t)read_number(w, BUFFER_CELLS - 1);
    l->value = any_number(w);
}

static void read_dump(struct words *w, struct line *l) { (void)w, (void)l; }

static const struct {
    const char *name;
    enum line_kind kind;
    void (*read)(struct words *w, struct line *l);
} calls[] = {
    {"size", SIZE, read_size},    {"cells", CELLS, read_cells}, {"make", MAKE, read_make},    {"receive", RECEIVE, read_receive},
    {"burst", BURST, read_burst}, {"own", OWN, read_own},       {"sweep", SWEEP, read_sweep}, {"best", BEST, read_address_alone},
    {"list", LIST, read_list},    {"check", CHECK, read_check}, {"poke", POKE, read_poke},    {"lookup", LOOKUP, read_address_alone},
    {"dump", DUMP, read_dump},
};

/* The kind of a line that begins with this word, its arguments read. */
static enum line_kind read_call(struct word name, struct words *w, struct line *l)
{
    for (size_t i = 0; i < sizeof calls / sizeof *calls; i++)
        if (word_is(name, calls[i].name)) {
            calls[i].read(w, l);
            return w->unreadable || has_word(*w) ? UNREADABLE : calls[i].kind;
        }
    return UNREADABLE;
}

void read_line(const char *text, size_t length, struct line *l)
{
    struct words w = {text, text + length, false};
    l->kind = UNREADABLE;
    if (length > LINE_MOST)
        return;
    struct word first = next_word(&w);
    l->kind = first.length == 0 || first.text[0] == '#' ? NOTHING : read_call(first, &w, l);
}
