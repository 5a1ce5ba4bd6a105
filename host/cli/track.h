/*
 * A partition as it is drawn to scale: which runs stand alone, and which are so
 * narrow that neighbours are drawn as one. However many runs there are, no more
 * are drawn than can be told apart.
 */
#ifndef TRACK_H
#define TRACK_H

#include "layout.h"

/* Segments first..end of the layout. */
struct drawn {
    size_t first, end;
    bool is_narrow; /* drawn together where it has such a neighbour */
    bool is_kept;
    unsigned looks; /* a bit for each look that is within */
    double x, width;
};

struct track {
    const struct layout *layout;
    struct drawn *runs;
    size_t count;
};

/* The unit in which both layouts fit a width. */
double unit_for(const struct layout layouts[2], double width);

/* The drawn runs of a layout, from `left` on and no wider than `width`. `kept`: elements before the cut. */
void track_read(struct track *track, const struct layout *layout, uint64_t kept, double unit);
void track_place(struct track *track, double left, double width);
void track_free(struct track *track);

/* The drawn run with a segment. */
const struct drawn *drawn_with(const struct track *track, size_t segment);

/* The segment of a run that has no other; else NULL. */
const struct segment *only_segment(const struct track *track, const struct drawn *run);

/* Whether a look is within a run. */
bool has_look(const struct drawn *run, enum look look);

/* How many segments of a run have a look. */
size_t count_look(const struct track *track, const struct drawn *run, enum look look);

#endif
