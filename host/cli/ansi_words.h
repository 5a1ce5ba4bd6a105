/*
 * What is wrong with an ANSI labelled tape, in words. The library says that it
 * is refused and at which place; a walk over the labels before it finds what
 * could stand there. Where that has nothing to say there are no words.
 */
#ifndef ANSI_WORDS_H
#define ANSI_WORDS_H

#include "ansi_tape.h"

/* "EOF1 says 3 blocks, 4 stand there", to be freed and safe for a terminal; NULL where there are none. */
char *ansi_words(const struct ansi_tape *tape);

/* "refused 18: text", what is wanted between, and "element 12: words". */
void print_ansi_refusal(FILE *out, const struct ansi_tape *tape, const char *between);

#endif
