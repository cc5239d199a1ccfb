/* What the pictures are made of: a file with a title, words, lines and circles. */
#ifndef SVG_H
#define SVG_H

#include <stdbool.h>
#include <stdio.h>

#define SVG_INK "#1f2d3a"
#define SVG_PALE "#5b6670"
#define SVG_PAPER "#fbfaf7"

enum svg_anchor { SVG_START, SVG_MIDDLE, SVG_END };

struct svg_words {
    double x, y;
    int size;
    const char *colour;
    enum svg_anchor anchor;
    bool bold;
};

/* Opens a file and begins a picture; NULL, with errno set, where it can't. */
FILE *svg_begin(const char *file, int width, int height, const char *title);

/* Ends the picture and closes the file; false, with errno set, where not all could be written. */
bool svg_end(FILE *f);

void svg_words(FILE *f, struct svg_words how, const char *text);
void svg_line(FILE *f, double x, double y, double to_x, double to_y, const char *colour, double width, bool dashed);
void svg_circle(FILE *f, double x, double y, double radius, const char *fill, const char *stroke);

#endif
