/* A place in a text, told by line and column and marked under its line. */
#ifndef TEXT_PLACE_H
#define TEXT_PLACE_H

#include "text.h"

/*
 * Bytes count from 0, lines and columns from 1. A column is a character, however wide, or a byte that is no UTF-8. A line
 * ends with LF; it is shown without that and a CR before it, unless the place is there.
 */
struct text_place {
    uint64_t byte, line, column;
    struct bytes character; /* that has the byte; empty behind the last */
    struct bytes before;    /* what the line has before the character */
    struct bytes from;      /* and from it on */
};

struct text_place text_place(struct bytes text, uint64_t byte);

/* "byte 52, line 2, column 14" */
void print_text_place(FILE *out, struct bytes text, uint64_t byte);

/* The same as the members of a JSON object: "front", "line", "column". */
void print_json_text_place(FILE *out, struct bytes text, uint64_t byte);

/*
 * The line with its number before it, and under it a caret at the place. Of a long line as much around the place as a
 * line of the terminal has room for, or 80 columns where there is none; ... stands for what is left out.
 */
void print_marked_line(FILE *out, const struct text_place *place);

#endif
