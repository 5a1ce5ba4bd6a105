/* Index texts to be measured on. */
#ifndef SHAPES_H
#define SHAPES_H

#include "sample.h"

struct shape {
    const char *name;
    struct buffer (*make)(size_t size);
};

/* Texts of ASCII, the last of them nested; then the names in characters of two bytes, and of three. */
enum { FLAT, INDENTED, NESTED, CYRILLIC, KANJI, SHAPES };

extern const struct shape shapes[SHAPES];

#endif
