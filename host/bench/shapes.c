#include "shapes.h"

static struct buffer flat(size_t size)
{
    return index_of_size(size, false);
}

static struct buffer indented(size_t size)
{
    return index_of_size(size, true);
}

/* 30 directories and their contents: elements 60 deep, of 64 that the form has. */
static struct buffer nested(size_t size)
{
    return nested_index(size, 30);
}

static struct buffer cyrillic(size_t size)
{
    return index_of_names(size, "\xd0\xb6");
}

static struct buffer kanji(size_t size)
{
    return index_of_names(size, "\xe9\x9f\xb3");
}

const struct shape shapes[SHAPES] = {
    [FLAT] = { "flat", flat },         [INDENTED] = { "indented", indented }, [NESTED] = { "nested", nested },
    [CYRILLIC] = { "Cyrillic", cyrillic }, [KANJI] = { "kanji", kanji },
};
