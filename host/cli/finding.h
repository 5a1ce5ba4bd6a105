/* A label or an index that is refused, and as much of the reason as is known; or an index that is sound. */
#ifndef FINDING_H
#define FINDING_H

#include "volume.h"

/* The side of labels that disagree. */
enum { BOTH = DATA + 1 };

struct finding {
    const struct volume *volume;
    int side;
    struct refused refused;
    /* Of an index; the row of a label is NULL. */
    const uint32_t *row;
    uint64_t construct;
    const struct label *label;
    const struct unreadable *unreadable; /* blocks of the side */
};

/* Some lines: which one it is, the refusal, what is known of it. */
void print_finding(const struct finding *finding);

/* An object without its end. */
void print_json_finding(const struct finding *finding);

#endif
