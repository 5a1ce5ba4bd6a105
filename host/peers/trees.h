/* The trees of texts by the library's reader of elements, which the program `trees` writes, beside another parser's. */
#ifndef TREES_H
#define TREES_H

#include <stddef.h>
#include <stdint.h>

#include "sample.h"

/*
 * A tree is lines: `(` and a name at an element's start; `@`, a key, `=` and a value; `"` and the text of an element
 * without children; `)` at an element's end. Value and text stand behind their length and a space.
 */
void put_counted(struct buffer *tree, const void *bytes, size_t length);

/* Puts a text aside with its tree by another parser. */
void tree_wanted(const uint8_t *text, size_t length, const struct buffer *tree);

/*
 * Calls `differs` with each text put aside whose tree is another one, and forgets them; answers how many there were.
 * Where the program can't be run it ends this one with a message and status 2.
 */
uint64_t compare_trees(void (*differs)(const uint8_t *text, size_t length));

/* Whether it is time to. */
bool many_trees_wanted(void);

#endif
