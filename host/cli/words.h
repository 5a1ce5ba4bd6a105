/* What the library's numbers say, in words. */
#ifndef WORDS_H
#define WORDS_H

#include "ansi_tape.h"
#include "text.h"
#include "volume.h"

/* ---- Colour ---- */

enum colour { PLAIN, BOLD, DIM, RED, GREEN, YELLOW, BLUE, MAGENTA, CYAN, ON_RED };

/* Colour goes to terminals only, and not where NO_COLOR is set. */
bool takes_colour(FILE *out);

/* The sequence that sets a colour; empty where none is wanted. */
const char *colour_code(FILE *out, enum colour colour);

/* ---- Refusals and verdicts ---- */

/* Why the labels of a volume are refused; with 4 the text is that of the label that the library tells. */
struct refused volume_refused(const struct volume *volume);

/* The same of one side, whatever the other one has. */
struct refused labels_refused(const struct side *side);

/* Where a refusal of the volume comes from. */
struct origin {
    const char *side; /* "index", "data", "both" */
    const char *file;
};

struct origin origin_of(const struct volume *volume, uint64_t refusal);

/* The same of a refusal of one side's labels. */
struct origin origin_on(const struct volume *volume, int side, uint64_t refusal);

/* "index side: index.store, element 0" */
void print_origin(FILE *out, struct origin origin);

/* Whether a volume whose labels are refused is an ANSI labelled tape; it is open then, to be closed. */
bool is_ansi(const struct volume *volume, uint64_t refusal, struct ansi_tape *tape);

/* "refused 6: text" of a text, and with 4 "at byte 52, line 2, column 14". */
void print_text_refusal(FILE *out, const struct refused *refused);

/*
 * "refused 3: text (index side: index.store, element 0)", with 4 the place in the text too, or that it is an ANSI
 * labelled tape and which command reads it.
 */
void print_refusal(FILE *out, enum form form, const struct volume *volume, uint64_t refusal);

/* The same on standard error, after the folder. */
void complain_refusal(const struct volume *volume, uint64_t refusal);

/* That a list is refused, whatever kind of tape it is, on standard error. */
void complain_list(const struct volume *volume);

/* "refused 6: text (side side, side.store, index construct n)" on standard error. */
void complain_construct(const struct volume *volume, int side, uint64_t construct,
                        uint64_t refusal);

/* "consistent", or "break 3: ..". The index is the one that break 3 or 4 names, which may be sound. */
void print_verdict(FILE *out, const uint64_t verdict[KLAPOUZEN_BREAK], const struct refused *index);

/* What a break means, in words; the number is the construct's or the file's. */
void print_break(FILE *out, const uint64_t verdict[KLAPOUZEN_BREAK], const struct refused *index);

#endif
