/* The words of a script's line, as docs/REPLAY.md fixes them. */
#ifndef WORDS_H
#define WORDS_H

#include <stdbool.h>
#include <stddef.h>
#include <stdint.h>

/* What is left of a line. Once a word could not be read, `unreadable` stays set, and everything read after it is 0. */
struct words {
    const char *at, *end;
    bool unreadable;
};

/* The next word; its length is 0 where the line has none left. */
struct word {
    const char *text;
    size_t length;
};

struct word next_word(struct words *w);
bool has_word(struct words w);
bool word_is(struct word word, const char *name);

/* A decimal number of at most `most`. */
uint64_t read_number(struct words *w, uint64_t most);

/* At most `most` octets in lower-case hex, `-` for none, to `octets`; answers how many. */
size_t read_octets(struct words *w, uint8_t *octets, size_t most);

#endif
