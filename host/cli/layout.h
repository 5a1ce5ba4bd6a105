/*
 * What a partition holds, for drawing: the label construct, data runs and index
 * runs, unreadable blocks, the first defect. Which constructs stand, and what
 * their indexes say, the library answers.
 */
#ifndef LAYOUT_H
#define LAYOUT_H

#include "assess.h"

enum kind { LABELS, DATA_RUN, INDEX_RUN };

struct segment {
    enum kind kind;
    uint64_t first, elements; /* an index run's marks are its own */
    uint64_t blocks, bytes;   /* the unreadable blocks too; the bytes are those of the store */
    uint64_t unreadable;      /* how many of the blocks are */
    size_t first_stretch, stretches; /* of unreadable blocks, in the layout */
    bool is_closed;           /* an index run with its closing mark */
    bool stands;
    uint64_t construct;       /* its number where it stands */
    struct refused refused;   /* its index, number 0 where it is sound */
    uint64_t header[KLAPOUZEN_INDEX];
};

/* What a run is drawn as; where several share a place, the highest is. */
enum look { LOOKS_DATA, LOOKS_LABELS, LOOKS_INDEX, LOOKS_UNSOUND };

enum look look_of(const struct segment *segment);

struct defect {
    const char *what; /* NULL where there is none */
    uint64_t element;
};

/* Unreadable blocks next to each other in one segment. */
struct stretch {
    uint64_t first, blocks;
};

struct layout {
    struct segment *segments;
    size_t count;
    struct stretch *stretches; /* of all segments, by rising number */
    size_t stretch_count;
    uint64_t elements, unreadable;
    uint64_t block_size; /* the largest that is allowed where the labels were refused */
    bool has_labels; /* that agree: without them no construct stands */
    struct defect defect;
};

/*
 * The layout of one side. Where the labels were refused nothing is known to
 * stand; where the list was, there are no segments.
 */
void layout_read(struct layout *layout, const struct volume *volume,
                 const struct assessment *found, int side);
void layout_free(struct layout *layout);

/* The bytes of a segment as they were on tape, an unreadable block taken for a full one. */
uint64_t bytes_on_tape(const struct layout *layout, const struct segment *segment);

/* How many unreadable blocks are among the elements from..to, the last not included. */
uint64_t unreadable_between(const struct layout *layout, uint64_t from, uint64_t to);

/* Whether a segment has the element. */
bool is_within(const struct segment *segment, uint64_t element);

/* The segment with this standing construct whose first block is this element; or NULL. */
const struct segment *segment_at(const struct layout *layout, uint64_t first_block);

#endif
