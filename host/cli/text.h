/* Texts made fit to print: one printer for terminals, JSON and pictures. */
#ifndef TEXT_H
#define TEXT_H

#include <stdbool.h>
#include <stdint.h>
#include <stdio.h>

#include "volume.h"

/* Where a text goes. */
enum form { TO_TERMINAL, TO_JSON, TO_XML };

struct bytes bytes_of(const char *text);

/*
 * A text as characters that can be seen. Those that a terminal obeys or does not
 * draw (controls, C1, marks of direction, separators, zero widths) and bytes that
 * are no UTF-8 are written as numbers: \x1b for a byte, \u202e for a character,
 * and \\ is a backslash, so that texts that differ are printed differently. JSON has
 * \u alone, and U+FFFD for a byte that is no UTF-8; is_utf8 says whether one is.
 */
void print_text(FILE *out, enum form form, struct bytes text);

/* To a terminal: any text, and a value of a label or an index as spelled, its references decoded. */
void print_bytes(FILE *out, struct bytes text);
void print_spelled(FILE *out, struct bytes text);

/* A JSON string with its quotes. */
void print_json(FILE *out, struct bytes text);

bool is_utf8(struct bytes text);

/* How many characters a text has; a byte that is no UTF-8 counts as one. */
size_t count_characters(struct bytes text);

/* The character that has this byte of a text, or the byte alone; behind the last byte an empty one. */
struct bytes character_at(struct bytes text, size_t byte);

/* `"key":"text"`, and where that would lose bytes, being no UTF-8, `,"key_bytes":"hex"`. */
void print_json_name(FILE *out, const char *key, struct bytes text);

/* To a terminal, filled up with spaces to so many columns. */
void print_padded(FILE *out, struct bytes text, size_t columns);

/* How many columns a text takes where it is printed. */
size_t all_columns(struct bytes text);

/* The front, and the end, of a text that takes at most so many. */
struct bytes first_columns(struct bytes text, size_t columns);
struct bytes last_columns(struct bytes text, size_t columns);

/* Whether two texts have the same bytes. */
bool are_same(struct bytes one, struct bytes other);

/* 12,345,678: digits in threes. The text stands until the fourth call after. */
const char *grouped(uint64_t number);

/* "1 block", "1,200 blocks": the plural is given whole. */
void print_counted(FILE *out, uint64_t number, const char *one, const char *many);

#endif
