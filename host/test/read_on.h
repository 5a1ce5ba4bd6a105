/* Reading on never hurts: a tape that was read farther than before, and what its rescue owes the one before. */
#ifndef READ_ON_H
#define READ_ON_H

#include <stddef.h>
#include <stdint.h>
#include <string.h>

#include "klapouzen.h"
#include "sample.h"

/* A read of a tape: index list, index store, data list, data store. */
struct read {
    const uint8_t *starts[4];
    size_t lengths[4];
};

/* Of four slices, each test's own type. */
#define READ_OF(parts) ((struct read){ \
        { (parts)[0].start, (parts)[1].start, (parts)[2].start, (parts)[3].start }, \
        { (parts)[0].length, (parts)[1].length, (parts)[2].length, (parts)[3].length } })

#define READ_PART(read, part) (read)->starts[part], (read)->lengths[part]
#define READ_SIDE(read, side) READ_PART(read, 2 * (side)), READ_PART(read, 2 * (side) + 1)
#define READ(read) READ_SIDE(read, 0), READ_SIDE(read, 1)

/* ---- Shorter and longer ---- */

/* The first elements of both sides, as the library counts them. Of a malformed list there are none. */
static inline struct read front_of(const struct read *read, uint64_t index_elements, uint64_t data_elements)
{
    const uint64_t elements[2] = { index_elements, data_elements };
    struct read front = *read;
    for (int side = 0; side < 2; side++) {
        uint64_t kept[KLAPOUZEN_KEPT];
        klapouzen_keep(READ_SIDE(read, side), elements[side], kept);
        front.lengths[2 * side] = kept[KLAPOUZEN_KEPT_LIST];
        front.lengths[2 * side + 1] = kept[KLAPOUZEN_KEPT_STORE];
    }
    return front;
}

static inline struct read kept_of(const struct read *read, const uint64_t cut[KLAPOUZEN_CUT])
{
    return front_of(read, cut[KLAPOUZEN_CUT_INDEX_KEPT], cut[KLAPOUZEN_CUT_DATA_KEPT]);
}

static inline int is_same_cut(const uint64_t one[KLAPOUZEN_CUT], const uint64_t other[KLAPOUZEN_CUT])
{
    return memcmp(one, other, KLAPOUZEN_CUT * sizeof *one) == 0;
}

/* How many elements a front of a side has that ends at or beside a standing construct's closing mark. */
static inline uint64_t end_beside_construct(const struct read *read, int side, uint64_t block_size, uint64_t n)
{
    static uint32_t table[KLAPOUZEN_CONSTRUCT_TABLE];
    uint64_t standing;
    klapouzen_constructs(READ_SIDE(read, side), block_size, table, &standing);
    if (standing == 0)
        return 4;
    return table[KLAPOUZEN_CONSTRUCT * (n % standing) + KLAPOUZEN_CONSTRUCT_KEPT] + n / 5 % 3 - 1;
}

/*
 * What a second read does that it must not, where the one before has this cut and it has all that this keeps; NULL where
 * it does nothing of that. `refusal` and `after` are what its rescue answers. It may keep less of the data side, and a
 * lower generation.
 */
static inline const char *harm(const struct read *before, const struct read *second,
                               const uint64_t cut[KLAPOUZEN_CUT], uint64_t refusal,
                               const uint64_t after[KLAPOUZEN_CUT])
{
    uint64_t verdict[KLAPOUZEN_BREAK];
    if (refusal != 0)
        return "has no cut";
    if (!is_same_cut(cut, after) && after[KLAPOUZEN_CUT_INDEX_CONSTRUCT] <= cut[KLAPOUZEN_CUT_INDEX_CONSTRUCT])
        return "has another cut with no more index constructs";
    struct read kept = kept_of(second, cut), kept_before = kept_of(before, cut);
    if (memcmp(kept.lengths, kept_before.lengths, sizeof kept.lengths) != 0)
        return "keeps other bytes by the cut before";
    if (klapouzen_verdict(READ(&kept), verdict) != 0 || verdict[KLAPOUZEN_BREAK_WHICH] != 0)
        return "is not consistent where the cut before ends";
    return NULL;
}

/* ---- What is read behind ---- */

enum more {
    MORE_NONE,
    MORE_MARKS,
    MORE_BLOCKS,   /* below the block size, of it, above it */
    MORE_LOST,     /* unreadable blocks */
    MORE_TORN_RUN, /* a mark and blocks without the closing mark */
    MORE_LOST_RUN, /* the blocks of an index, an unreadable one among them */
    MORE_FIRST,    /* the side's first elements again */
    MORE_LAST,     /* its last ones, in most cases an index that does not stand where it says */
    MORE_INDEX,    /* a sound index */
    MORE_KINDS
};

/* A tape being read on, and what its next index says. */
struct longer {
    struct tape sides[2];
    const uint8_t *uuid;
    char letters[2];
    uint64_t block_size;
    uint64_t generation, back_block;
};

/* A length below the block size, the block size, or a byte more; of large blocks the first. */
static inline size_t some_length(const struct longer *longer, uint64_t n)
{
    enum { LARGE = 8192 };
    if (longer->block_size > LARGE || n % 3 == 0)
        return 1 + n % 60;
    return longer->block_size + n % 3 - 1;
}

/* So many of the tape's own elements, from one on. */
static inline void put_again(struct tape *tape, uint64_t from, uint64_t count)
{
    struct tape own = { 0 };
    size_t list = 0, store = 0;
    put_bytes(&own.list, tape->list.bytes, tape->list.length);
    put_bytes(&own.store, tape->store.bytes, tape->store.length);
    for (uint64_t i = 0; i < from + count && list < own.list.length; i++) {
        struct tape_element element = tape_take(&own, &list, &store);
        if (i >= from)
            tape_put(tape, element);
    }
    tape_free(&own);
}

/* A sound index without files, in one block. If it is the data side's, the next one points at it. */
static inline void put_index(struct longer *longer, int side)
{
    struct tape *tape = &longer->sides[side];
    struct index_head head = { .generation = longer->generation, .letter = longer->letters[side],
                               .block = tape->elements + 1, .back_letter = longer->letters[1],
                               .back_block = longer->back_block };
    struct index_text index;
    index_begin(&index, &head);
    index_end(&index);
    memcpy(memmem(index.text.bytes, index.text.length, SAMPLE_UUID, strlen(SAMPLE_UUID)), longer->uuid,
           strlen(SAMPLE_UUID));
    tape_mark(tape);
    tape_block(tape, index.text.bytes, index.text.length);
    tape_mark(tape);
    buffer_free(&index.text);
    if (side == 1)
        longer->back_block = head.block;
}

/* Elements behind a side's last, by a number that varies them. */
static inline void put_more(struct longer *longer, int side, enum more more, uint64_t n)
{
    struct tape *tape = &longer->sides[side];
    uint64_t some = 1 + n % 4, elements = tape->elements;
    if (more == MORE_TORN_RUN || more == MORE_LOST_RUN)
        tape_mark(tape);
    for (uint64_t i = 0; i < some; i++)
        if (more == MORE_MARKS)
            tape_mark(tape);
        else if (more == MORE_LOST || (more == MORE_LOST_RUN && i == n / 4 % some))
            tape_unreadable_block(tape);
        else if (more == MORE_BLOCKS || more == MORE_TORN_RUN || more == MORE_LOST_RUN)
            tape_filled_block(tape, 'x', some_length(longer, n / 7 + i));
    if (more == MORE_LOST_RUN)
        tape_mark(tape);
    else if (more == MORE_FIRST)
        put_again(tape, 0, 4 + some);
    else if (more == MORE_LAST)
        put_again(tape, elements - (elements < 2 + some ? elements : 2 + some), 2 + some);
    else if (more == MORE_INDEX)
        put_index(longer, side);
}

/* The read with nothing behind it yet. An index behind it points at this construct of the data side, which is sound. */
static inline struct longer begin_longer(const struct read *read, const uint64_t label[KLAPOUZEN_LABEL],
                                         uint64_t construct)
{
    struct longer longer = { .uuid = read->starts[1] + label[KLAPOUZEN_LABEL_UUID],
                             .letters = { (char)label[KLAPOUZEN_LABEL_INDEX_LETTER],
                                          (char)label[KLAPOUZEN_LABEL_DATA_LETTER] },
                             .block_size = label[KLAPOUZEN_LABEL_BLOCK_SIZE] };
    uint64_t target[KLAPOUZEN_CHOSEN];
    klapouzen_index(READ_SIDE(read, 1), longer.uuid, strlen(SAMPLE_UUID), (uint8_t)longer.letters[0],
                    (uint8_t)longer.letters[1], longer.block_size, (uint8_t)longer.letters[1], construct, target);
    longer.generation = target[KLAPOUZEN_CHOSEN_HEADER + KLAPOUZEN_INDEX_GENERATION];
    longer.back_block = target[KLAPOUZEN_CHOSEN_FIRST_BLOCK];
    for (int side = 0; side < 2; side++) {
        struct tape *tape = &longer.sides[side];
        put_bytes(&tape->list, READ_PART(read, 2 * side));
        put_bytes(&tape->store, READ_PART(read, 2 * side + 1));
        klapouzen_check_list(READ_SIDE(read, side), &tape->elements);
    }
    return longer;
}

/* A read that goes on behind one with this label and this cut, on each side as a number says. */
static inline struct longer read_on(const struct read *read, const uint64_t label[KLAPOUZEN_LABEL],
                                    const uint64_t cut[KLAPOUZEN_CUT], uint64_t n)
{
    enum more of_index = (enum more)(n % MORE_KINDS), of_data = (enum more)(n / MORE_KINDS % MORE_KINDS);
    uint64_t last = cut[KLAPOUZEN_CUT_DATA_CONSTRUCT], rest = n / (MORE_KINDS * MORE_KINDS);
    struct longer longer = begin_longer(read, label, of_data == MORE_INDEX ? last : rest % (last + 1));
    put_more(&longer, 1, of_data, rest);
    put_more(&longer, 0, of_index, rest / 3);
    return longer;
}

static inline struct read read_of(const struct longer *longer)
{
    const struct tape *index = &longer->sides[0], *data = &longer->sides[1];
    return (struct read){ { index->list.bytes, index->store.bytes, data->list.bytes, data->store.bytes },
                          { index->list.length, index->store.length, data->list.length, data->store.length } };
}

static inline void free_longer(struct longer *longer)
{
    tape_free(&longer->sides[0]);
    tape_free(&longer->sides[1]);
}

/* Whether both sides are within the bounds of klapouzen.h. */
static inline int is_within_bounds(const struct longer *longer)
{
    for (int side = 0; side < 2; side++)
        if (longer->sides[side].elements > KLAPOUZEN_MAX_ELEMENTS
            || longer->sides[side].store.length > KLAPOUZEN_MAX_STORE)
            return 0;
    return 1;
}

#endif
