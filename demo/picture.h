/* A yard's next hops towards its gate, as a picture. */
#ifndef PICTURE_H
#define PICTURE_H

#include <stdbool.h>

#include "yard.h"

/* Draws what yard_look found last. False, with errno set, where the file can't be written. */
bool picture_draw(const char *file, const struct yard *y);

#endif
