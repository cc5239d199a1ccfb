/* Memory as it is lent to a call: exactly so many octets, beside a page that nobody may touch. The archive is built without sanitizers, which
 * therefore see only what it does through the C library; of every other access outside what is lent the page makes a SIGSEGV, or it
 * changes an octet that is looked at after the call. */
#ifndef LENT_H
#define LENT_H

#include <stdbool.h>
#include <stddef.h>
#include <stdint.h>

enum { UNTOUCHED = 238 }; /* every octet that a call may not change, or has not changed yet */

/* One kind of lent memory. What is lent stands by turns at the end of the pages and at their start. */
struct lent {
    uint8_t *pages; /* the first of `size` octets that may be touched */
    size_t size;
    bool at_start;
    uint8_t *octets; /* those lent at present */
    size_t length;
};

/* Gets pages for up to `most` octets; ends the program where there are none. */
void open_lent(struct lent *l, size_t most);

/* Lends this many octets, all UNTOUCHED, as are those around them. */
void *lend(struct lent *l, size_t length);

/* Whether the lent octets from this one on, and those around the lent ones, are still UNTOUCHED. */
bool untouched_from(const struct lent *l, size_t from);

/* Lends a copy of these octets. */
void *lend_copy(struct lent *l, const void *octets, size_t length);

/* Whether the lent octets are these, and those around them still UNTOUCHED. */
bool is_copy(const struct lent *l, const void *octets);

#endif
