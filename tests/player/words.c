#include "words.h"

#include <string.h>

struct word next_word(struct words *w)
{
    while (w->at < w->end && *w->at == ' ')
        w->at++;
    struct word word = {w->at, 0};
    while (w->at < w->end && *w->at != ' ')
        w->at++;
    word.length = (size_t)(w->at - word.text);
    return word;
}

bool has_word(struct words w) { return next_word(&w).length > 0; }

bool word_is(struct word word, const char *name) { return word.length == strlen(name) && memcmp(word.text, name, word.length) == 0; }

/* Puts a digit behind a number; false where it is no digit or the number would be above `most`. */
static bool append_digit(uint64_t *number, char digit, uint64_t most)
{
    if (digit < '0' || digit > '9')
        return false;
    uint64_t ones = (uint64_t)(digit - '0');
    if (ones > most || *number > (most - ones) / 10)
        return false;
    *number = *number * 10 + ones;
    return true;
}

uint64_t read_number(struct words *w, uint64_t most)
{
    struct word word = next_word(w);
    uint64_t number = 0;
    bool readable = !w->unreadable && word.length > 0;
    for (size_t i = 0; readable && i < word.length; i++)
        readable = append_digit(&number, word.text[i], most);
    w->unreadable = !readable;
    return readable ? number : 0;
}

/* The value of a hex digit; -1 where it is none. */
static int hex_digit(char c)
{
    if (c >= '0' && c <= '9')
        return c - '0';
    return c >= 'a' && c <= 'f' ? c - 'a' + 10 : -1;
}

static bool hex_octet(const char *digits, uint8_t *octet)
{
    int high = hex_digit(digits[0]), low = hex_digit(digits[1]);
    if (high < 0 || low < 0)
        return false;
    *octet = (uint8_t)(high * 16 + low);
    return true;
}

size_t read_octets(struct words *w, uint8_t *octets, size_t most)
{
    struct word word = next_word(w);
    size_t length = word.length / 2;
    if (w->unreadable || word_is(word, "-"))
        return 0;
    bool readable = word.length > 0 && word.length % 2 == 0 && length <= most;
    for (size_t i = 0; readable && i < length; i++)
        readable = hex_octet(word.text + 2 * i, &octets[i]);
    w->unreadable = !readable;
    return readable ? length : 0;
}
