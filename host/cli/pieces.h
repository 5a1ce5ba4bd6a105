/*
 * The stored bytes of a file as pieces, each what a row has in one block. Where a
 * byte is, the library's map says; what the block holds, the library too.
 */
#ifndef PIECES_H
#define PIECES_H

#include "chosen.h"

struct piece {
    uint64_t position, length; /* in the file */
    struct bytes stored;       /* its bytes; empty on an unreadable block */
    uint8_t letter;            /* of the partition */
    uint64_t block;            /* the element */
};

struct pieces {
    struct piece *all; /* by rising position */
    size_t count;
    uint64_t stored, lost; /* bytes; those on unreadable blocks are lost */
    size_t gaps;           /* how many pieces are lost */
};

/* Whether a piece lies on an unreadable block. */
bool is_lost(const struct piece *piece);

/*
 * The pieces of a file of the chosen index; its rows are put in order. Where a byte is on no block, or the block is
 * too short for it, says so and answers false; there is nothing to free then.
 */
bool pieces_read(struct pieces *pieces, const struct volume *volume, const struct chosen *chosen,
                 const struct contents *contents, uint64_t entry);
void pieces_free(struct pieces *pieces);

#endif
