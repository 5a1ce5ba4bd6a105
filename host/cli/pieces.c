#include "pieces.h"

#include <inttypes.h>
#include <stdlib.h>

#include "common.h"
#include "words.h"

struct source {
    const struct volume *volume;
    const struct chosen *chosen;
    uint64_t length; /* of the file */
    struct unreadable sides[2];
};

bool is_lost(const struct piece *piece)
{
    return piece->stored.length == 0;
}

/* ---- One piece ---- */

static bool not_stored(const struct source *from, const uint64_t place[KLAPOUZEN_BYTE], uint64_t position)
{
    int side = place[KLAPOUZEN_BYTE_LETTER] == from->chosen->label.letters[INDEX] ? INDEX : DATA;
    complain("%s: position %" PRIu64 " of the file is byte %" PRIu64 " of block %" PRIu64
             ", which is not there (%s side: %s.store)",
             from->volume->folder, position, place[KLAPOUZEN_BYTE_OFFSET],
             place[KLAPOUZEN_BYTE_BLOCK], from->volume->sides[side].name,
             from->volume->sides[side].name);
    return false;
}

/*
 * From a place on to the end of its block, or of what the row has left. What a block has beyond the block size is at no
 * place, and an unreadable block is taken for a full one. The library is asked for no unreadable block: for each it would
 * walk both lists, and there may be as many as a list has elements.
 */
static bool find_stored(const struct source *from, const uint64_t place[KLAPOUZEN_BYTE], uint64_t left,
                        struct piece *piece)
{
    const struct label *label = &from->chosen->label;
    uint64_t block[KLAPOUZEN_BLOCK], offset = place[KLAPOUZEN_BYTE_OFFSET], length = label->block_size;
    int side = piece->letter == label->letters[INDEX] ? INDEX : DATA;
    bool is_gap = unreadable_at(&from->sides[side], piece->block);
    if (!is_gap && klapouzen_block(VOLUME(from->volume), label->letters[INDEX], label->letters[DATA], piece->letter,
                                   piece->block, block) != 0)
        return false;
    if (!is_gap && length > block[KLAPOUZEN_BLOCK_LENGTH])
        length = block[KLAPOUZEN_BLOCK_LENGTH];
    if (offset >= length)
        return false;
    piece->length = length - offset < left ? length - offset : left;
    if (!is_gap)
        piece->stored = part_of(from->volume->sides[block[KLAPOUZEN_BLOCK_SIDE]].store,
                                block[KLAPOUZEN_BLOCK_OFFSET] + offset, piece->length);
    return true;
}

/* What a row has from a position of the file on, as far as it lies in one block. */
static bool find_piece(const struct source *from, const uint64_t *row, uint64_t position,
                       struct piece *piece)
{
    uint64_t place[KLAPOUZEN_BYTE];
    uint64_t left = row[KLAPOUZEN_ROW_FILEOFFSET] + row[KLAPOUZEN_ROW_BYTECOUNT] - position;
    /* No other row has this position: the map needs this one alone, whatever the number of rows. */
    uint64_t refusal = klapouzen_byte_at(row, KLAPOUZEN_ROW, from->length,
                                         from->chosen->label.block_size, position, place);
    if (refusal != 0) {
        complain_construct(from->volume, from->chosen->side, from->chosen->construct, refusal);
        return false;
    }
    *piece = (struct piece){
        .position = position,
        .letter = (uint8_t)place[KLAPOUZEN_BYTE_LETTER],
        .block = place[KLAPOUZEN_BYTE_BLOCK],
    };
    return find_stored(from, place, left, piece) || not_stored(from, place, position);
}

/* ---- All of them ---- */

static void add_piece(struct pieces *pieces, const struct piece *piece)
{
    pieces->all = room_for(pieces->all, pieces->count, sizeof *pieces->all);
    pieces->all[pieces->count++] = *piece;
    if (is_lost(piece)) {
        pieces->lost += piece->length;
        pieces->gaps++;
    } else {
        pieces->stored += piece->length;
    }
}

static bool add_row(struct pieces *pieces, const struct source *from, const uint64_t *row)
{
    uint64_t position = row[KLAPOUZEN_ROW_FILEOFFSET], end = position + row[KLAPOUZEN_ROW_BYTECOUNT];
    struct piece piece;
    while (position < end) {
        if (!find_piece(from, row, position, &piece))
            return false;
        add_piece(pieces, &piece);
        position += piece.length;
    }
    return true;
}

static int by_position(const void *one, const void *other)
{
    uint64_t first = ((const uint64_t *)one)[KLAPOUZEN_ROW_FILEOFFSET];
    uint64_t second = ((const uint64_t *)other)[KLAPOUZEN_ROW_FILEOFFSET];
    return (first > second) - (first < second);
}

bool pieces_read(struct pieces *pieces, const struct volume *volume, const struct chosen *chosen,
                 const struct contents *contents, uint64_t entry)
{
    const uint64_t *file = entry_of(contents, entry);
    struct source from = { .volume = volume, .chosen = chosen, .length = file[KLAPOUZEN_ENTRY_LENGTH] };
    uint64_t *rows = rows_of(contents, entry), count = file[KLAPOUZEN_ENTRY_ROWS];
    bool is_whole = true;
    *pieces = (struct pieces){ .count = 0 };
    for (int side = INDEX; side <= DATA; side++)
        from.sides[side] = unreadable_read(volume->sides[side].list);
    qsort(rows, count, KLAPOUZEN_ROW * sizeof *rows, by_position);
    for (uint64_t i = 0; is_whole && i < count; i++)
        is_whole = add_row(pieces, &from, rows + KLAPOUZEN_ROW * i);
    for (int side = INDEX; side <= DATA; side++)
        unreadable_free(&from.sides[side]);
    if (!is_whole)
        pieces_free(pieces);
    return is_whole;
}

void pieces_free(struct pieces *pieces)
{
    free(pieces->all);
}
