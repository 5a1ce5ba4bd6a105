/* Two reads of one tape, OLD and NEW: each side element by element. */
#ifndef READS_H
#define READS_H

#include "volume.h"

enum { OLD, NEW };

/* What the reads are to each other, of a side or of both. MALFORMED: of a list that can't be walked. */
enum relation { SAME, NEW_CONTINUES_OLD, OLD_CONTINUES_NEW, DIFFERENT, MALFORMED };

struct comparison {
    enum relation relation; /* nothing else is known where it is MALFORMED */
    uint64_t both;          /* elements that both reads have, the same or not */
    uint64_t common;        /* of these, the ones before the first that differs; all where none does */
    uint64_t differing;     /* of these, the ones that differ */
    uint64_t unreadable_alone[2]; /* of these, the ones that are unreadable in OLD and not in NEW, and the other way */
    struct element first[2];      /* the first that differs, in each read */
    uint64_t byte;                /* and where these are blocks of one length, the first byte that differs */
};

/* Whether the first that differs is a block of one length in both reads. */
bool differs_in_bytes(const struct comparison *found);

/* Of lists that the library took. */
struct comparison compare_side(const struct side *old, const struct side *new);

/* Of both sides together. */
enum relation joined(enum relation index, enum relation data);

#endif
