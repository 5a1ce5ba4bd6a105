/*
 * The vectors kept in crates/, in the shape of the reference's cases. A file of them that is missing or malformed ends
 * the program with a message and status 2.
 */
#ifndef VECTORS_H
#define VECTORS_H

#include "cases.h"

/* What cases.h has of each; of a volume and a label no numbers, of a label and a VOL1 only what is read. */
enum vectors {
    VOLUMES,
    LABELS,
    VOL1S,
    INDEXES,
    ROW_LISTS,
    TEXTS, /* Bytes: a text. Numbers: 1 where it is in the form, else 0. */
    ANSI_TAPES, /* Bytes: list, store, lent buffer, the buffer after. Numbers: bytes lent, refusal, files. */
    ANSI_PLACES /* Bytes: list, store. Numbers: bytes lent, all that are needed; refusal with them, place. */
};

/* Calls `use` with each vector of a kind; it is gone afterwards. */
void each_vector(enum vectors kind, void (*use)(const struct random_case *vector));

#endif
