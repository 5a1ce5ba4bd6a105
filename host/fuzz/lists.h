/* Well-formed lists by their own bytes, without the library: their elements, and others made of them. */
#ifndef LISTS_H
#define LISTS_H

#include "fuzz.h"

enum element_kind { MARK = 1, BLOCK = 2, UNREADABLE = 3 };

/* A place in a list, and how much is before it. */
struct walk {
    struct slice rest;
    uint64_t element;
    size_t listed, stored;
};

/* The kind of the element that is next, 0 at the end. */
static inline int next_kind(const struct walk *walk)
{
    return walk->rest.length > 0 ? walk->rest.start[0] : 0;
}

/* Bytes of the store that belong to the element that is next. */
static inline uint64_t next_length(const struct walk *walk)
{
    struct slice body = walk->rest;
    if (next_kind(walk) != BLOCK)
        return 0;
    take_number(&body, 1);
    return take_number(&body, 4);
}

static inline void walk_on(struct walk *walk)
{
    size_t listed = next_kind(walk) == BLOCK ? 5 : 1;
    walk->stored += next_length(walk);
    walk->listed += listed;
    walk->element++;
    walk->rest.start += listed;
    walk->rest.length -= listed;
}

/* To this element, or to the end. */
static inline struct walk walk_to(const struct slice *list, uint64_t element)
{
    struct walk walk = { *list, 0, 0, 0 };
    while (walk.element < element && walk.rest.length > 0)
        walk_on(&walk);
    return walk;
}

/* A list and its store in memory that is the side's own. */
struct own_side {
    uint8_t *bytes[2];
    struct slice list, store;
};

static inline void free_side(struct own_side *side)
{
    free(side->bytes[0]);
    free(side->bytes[1]);
}

/* A slice without its bytes from..to, in their place `put` bytes 3. */
static inline struct slice replaced(const struct slice *whole, size_t from, size_t to, size_t put, uint8_t **bytes)
{
    size_t rest = whole->length - to;
    *bytes = malloc(from + put + rest + 1);
    if (from > 0)
        memcpy(*bytes, whole->start, from);
    memset(*bytes + from, UNREADABLE, put);
    if (rest > 0)
        memcpy(*bytes + from + put, whole->start + to, rest);
    return (struct slice){ *bytes, from + put + rest };
}

/* An unreadable block in the place of element n, or behind the last where there is none. */
static inline struct own_side lose(const struct slice *list, const struct slice *store, uint64_t n)
{
    struct own_side side;
    struct walk from = walk_to(list, n), to = walk_to(list, n + 1);
    side.list = replaced(list, from.listed, to.listed, 1, &side.bytes[0]);
    side.store = replaced(store, from.stored, to.stored, 0, &side.bytes[1]);
    return side;
}

#endif
