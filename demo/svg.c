#include "svg.h"

FILE *svg_begin(const char *file, int width, int height, const char *title)
{
    FILE *f = fopen(file, "w");
    if (f == NULL)
        return NULL;
    fprintf(f, "<svg xmlns=\"http://www.w3.org/2000/svg\" width=\"%d\" height=\"%d\" viewBox=\"0 0 %d %d\" font-family=\"sans-serif\">\n", width,
            height, width, height);
    fprintf(f, "<title>%s</title>\n<rect width=\"%d\" height=\"%d\" fill=\"%s\"/>\n", title, width, height, SVG_PAPER);
    return f;
}

bool svg_end(FILE *f)
{
    fprintf(f, "</svg>\n");
    bool written = !ferror(f);
    return fclose(f) == 0 && written;
}

void svg_words(FILE *f, struct svg_words how, const char *text)
{
    static const char *const anchors[] = {[SVG_START] = "start", [SVG_MIDDLE] = "middle", [SVG_END] = "end"};
    fprintf(f, "<text x=\"%.1f\" y=\"%.1f\" font-size=\"%d\" fill=\"%s\" text-anchor=\"%s\"%s>%s</text>\n", how.x, how.y, how.size, how.colour,
            anchors[how.anchor], how.bold ? " font-weight=\"bold\"" : "", text);
}

void svg_line(FILE *f, double x, double y, double to_x, double to_y, const char *colour, double width, bool dashed)
{
    fprintf(f, "<line x1=\"%.1f\" y1=\"%.1f\" x2=\"%.1f\" y2=\"%.1f\" stroke=\"%s\" stroke-width=\"%.2f\"%s/>\n", x, y, to_x, to_y, colour, width,
            dashed ? " stroke-dasharray=\"7 5\"" : "");
}

void svg_circle(FILE *f, double x, double y, double radius, const char *fill, const char *stroke)
{
    fprintf(f, "<circle cx=\"%.1f\" cy=\"%.1f\" r=\"%.1f\" fill=\"%s\" stroke=\"%s\" stroke-width=\"2\"/>\n", x, y, radius, fill, stroke);
}
