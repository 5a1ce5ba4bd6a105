/* Four slices as a volume: every volume function, and what their answers owe each other. */
#include "lists.h"
#include "read_on.h"

#define SIDE(volume, side) SLICE((volume)->parts[2 * (side)]), SLICE((volume)->parts[2 * (side) + 1])
#define VOLUME(volume) SIDE(volume, 0), SIDE(volume, 1)

struct volume {
    struct slice parts[4];
};

/* What is counted. */
enum { FIRST_CUT, OTHER_CUT, INDEX_FRONT, DATA_FRONT };

static uint32_t table[KLAPOUZEN_CONSTRUCT_TABLE];

/* Keeping m elements and then n is keeping the smaller of the two. */
static void try_again(const struct volume *volume, int side, uint64_t m, uint64_t n)
{
    uint64_t first[KLAPOUZEN_KEPT], again[KLAPOUZEN_KEPT], once[KLAPOUZEN_KEPT];
    const uint8_t *list = volume->parts[2 * side].start, *store = volume->parts[2 * side + 1].start;
    must(klapouzen_keep(SIDE(volume, side), m, FILLED(first)) == 0);
    must(klapouzen_keep(list, first[KLAPOUZEN_KEPT_LIST], store, first[KLAPOUZEN_KEPT_STORE], n, FILLED(again)) == 0);
    must(klapouzen_keep(SIDE(volume, side), m < n ? m : n, FILLED(once)) == 0);
    must(memcmp(again, once, sizeof once) == 0);
}

/* To the mark that closes an index run: is there an unreadable block in it? No block but the last is short. */
static int walk_run(struct walk *walk, uint64_t block_size)
{
    int is_lost = 0, kind;
    while ((kind = next_kind(walk)) == BLOCK || kind == UNREADABLE) {
        uint64_t length = next_length(walk);
        is_lost |= kind == UNREADABLE;
        walk_on(walk);
        must(length <= block_size && (kind == UNREADABLE || length == block_size || next_kind(walk) == MARK));
    }
    must(kind == MARK);
    return is_lost;
}

/* Each row is as the list says: its text is from its first block to its mark, or none with an unreadable block. */
static void try_rows(const struct slice *list, uint64_t block_size, uint64_t rows)
{
    struct walk walk = walk_to(list, 0);
    for (const uint32_t *row = table; row < table + KLAPOUZEN_CONSTRUCT * rows; row += KLAPOUZEN_CONSTRUCT) {
        while (walk.element < row[KLAPOUZEN_CONSTRUCT_FIRST_BLOCK])
            walk_on(&walk);
        must(row[KLAPOUZEN_CONSTRUCT_BEGIN] == walk.stored && next_kind(&walk) != MARK);
        int is_lost = walk_run(&walk, block_size);
        must(row[KLAPOUZEN_CONSTRUCT_KEPT] == walk.element + 1);
        must(row[KLAPOUZEN_CONSTRUCT_END] == (is_lost ? row[KLAPOUZEN_CONSTRUCT_BEGIN] : walk.stored));
    }
}

/* Keeping fewer elements keeps fewer bytes, and the kept front is well formed. */
static void try_list(const struct volume *volume, int side, uint64_t n)
{
    uint64_t count[1], kept[KLAPOUZEN_KEPT], all[1], standing[1];
    const struct slice *list = &volume->parts[2 * side], *store = &volume->parts[2 * side + 1];
    uint64_t refusal = ANSWERED(klapouzen_check_list(SIDE(volume, side), FILLED(all)), all);
    must(ANSWERED(klapouzen_keep(SIDE(volume, side), n, FILLED(kept)), kept) == refusal);
    must(ANSWERED(klapouzen_constructs(SIDE(volume, side), KLAPOUZEN_MIN_BLOCK_SIZE, table, FILLED(standing)), standing)
         == refusal);
    if (refusal != 0)
        return;
    must(kept[0] <= list->length && kept[1] <= store->length);
    must(klapouzen_check_list(list->start, kept[0], store->start, kept[1], FILLED(count)) == 0);
    must(count[0] == (n < all[0] ? n : all[0]));
    const uint64_t numbers[] = { n / 2, n, all[0] - 1, UINT64_MAX };
    for (int i = 0; i < 16; i++)
        try_again(volume, side, numbers[i / 4], numbers[i % 4]);
    try_rows(list, KLAPOUZEN_MIN_BLOCK_SIZE, standing[0]);
}

/* A block asked for by its number: where the list has it, 2 for a mark or nothing, 19 for an unreadable one. */
static void try_block(const struct volume *volume, int side, uint64_t n)
{
    uint64_t block[KLAPOUZEN_BLOCK], count[1];
    uint64_t refusal
        = ANSWERED(klapouzen_block(VOLUME(volume), 'a', 'b', side == 0 ? 'a' : 'b', n, FILLED(block)), block);
    if (klapouzen_check_list(SIDE(volume, 0), count) != 0 || klapouzen_check_list(SIDE(volume, 1), count) != 0) {
        must(refusal == KLAPOUZEN_BAD_LIST);
        return;
    }
    struct walk walk = walk_to(&volume->parts[2 * side], n);
    int kind = next_kind(&walk);
    must(refusal == (kind == BLOCK ? 0 : kind == UNREADABLE ? KLAPOUZEN_UNREADABLE_BLOCK : KLAPOUZEN_MISSING));
    if (refusal == 0)
        must(block[KLAPOUZEN_BLOCK_SIDE] == (uint64_t)side && block[KLAPOUZEN_BLOCK_OFFSET] == walk.stored
             && block[KLAPOUZEN_BLOCK_LENGTH] == next_length(&walk));
}

/* The fronts of a cut. */
static struct volume cut_volume(const struct volume *volume, const uint64_t cut[KLAPOUZEN_CUT])
{
    struct volume front = *volume;
    for (int side = 0; side < 2; side++) {
        uint64_t kept[KLAPOUZEN_KEPT], elements = cut[KLAPOUZEN_CUT_INDEX_KEPT + side];
        must(klapouzen_keep(SIDE(volume, side), elements, kept) == 0);
        front.parts[2 * side].length = kept[KLAPOUZEN_KEPT_LIST];
        front.parts[2 * side + 1].length = kept[KLAPOUZEN_KEPT_STORE];
    }
    return front;
}

/* The cut leaves a consistent volume, and cutting that again drops nothing. */
static void try_cut(const struct volume *volume, const uint64_t cut[KLAPOUZEN_CUT], int is_consistent)
{
    uint64_t verdict[KLAPOUZEN_BREAK], again[KLAPOUZEN_CUT];
    struct volume front = cut_volume(volume, cut);
    must(klapouzen_verdict(VOLUME(&front), verdict) == 0 && verdict[0] == 0);
    must(klapouzen_rescue(VOLUME(&front), again) == 0);
    must(memcmp(cut, again, sizeof again) == 0);
    int drops = 0;
    for (int i = 0; i < 4; i += 2)
        drops |= front.parts[i].length != volume->parts[i].length;
    must(drops == !is_consistent);
}

/* The index of a construct says what is read of the text where the table has it; without a text it is refused 19. */
static void try_indexes(const struct volume *volume, int side, const uint64_t label[KLAPOUZEN_LABEL])
{
    uint64_t standing[1], index[KLAPOUZEN_CHOSEN], header[KLAPOUZEN_INDEX];
    uint64_t block_size = label[KLAPOUZEN_LABEL_BLOCK_SIZE];
    uint8_t letters[2] = { (uint8_t)label[KLAPOUZEN_LABEL_INDEX_LETTER], (uint8_t)label[KLAPOUZEN_LABEL_DATA_LETTER] };
    const uint8_t *store = volume->parts[2 * side + 1].start;
#define GIVEN volume->parts[1].start + label[KLAPOUZEN_LABEL_UUID], label[KLAPOUZEN_LABEL_UUID_LENGTH], letters[0], \
        letters[1], block_size, letters[side]
    must(klapouzen_constructs(SIDE(volume, side), block_size, table, standing) == 0);
    must(ANSWERED(klapouzen_index(SIDE(volume, side), GIVEN, standing[0], FILLED(index)), index) == KLAPOUZEN_MISSING);
    for (uint64_t i = 0; i < standing[0] && i < 3; i++) {
        const uint32_t *row = table + KLAPOUZEN_CONSTRUCT * i;
        uint32_t begin = row[KLAPOUZEN_CONSTRUCT_BEGIN], length = row[KLAPOUZEN_CONSTRUCT_END] - begin;
        uint64_t refusal = TOLD(klapouzen_index(SIDE(volume, side), GIVEN, i, FILLED(index)), index, length);
        must((refusal == KLAPOUZEN_UNREADABLE_BLOCK) == (length == 0));
        if (length == 0)
            continue;
        must(klapouzen_read_index(store + begin, length, GIVEN, row[KLAPOUZEN_CONSTRUCT_FIRST_BLOCK], FILLED(header))
             == refusal);
        must(index[KLAPOUZEN_CHOSEN_HEADER + KLAPOUZEN_INDEX_FRONT] == header[KLAPOUZEN_INDEX_FRONT]);
        if (refusal != 0)
            continue;
        must(index[KLAPOUZEN_CHOSEN_FIRST_BLOCK] == row[KLAPOUZEN_CONSTRUCT_FIRST_BLOCK]
             && index[KLAPOUZEN_CHOSEN_KEPT] == row[KLAPOUZEN_CONSTRUCT_KEPT]
             && index[KLAPOUZEN_CHOSEN_TEXT] == begin && index[KLAPOUZEN_CHOSEN_TEXT_LENGTH] == length);
        must(memcmp(index + KLAPOUZEN_CHOSEN_HEADER, header, sizeof header) == 0);
    }
#undef GIVEN
}

/* Where the label of a side spells the UUID, in its store. */
static uint64_t uuid_place(const struct volume *volume, int side)
{
    uint64_t block[KLAPOUZEN_BLOCK], label[KLAPOUZEN_LABEL];
    must(klapouzen_block(VOLUME(volume), 'a', 'b', side == 0 ? 'a' : 'b', 2, block) == 0);
    const uint8_t *text = volume->parts[2 * side + 1].start + block[KLAPOUZEN_BLOCK_OFFSET];
    must(klapouzen_read_label(text, block[KLAPOUZEN_BLOCK_LENGTH], label) == 0);
    return block[KLAPOUZEN_BLOCK_OFFSET] + label[KLAPOUZEN_LABEL_UUID];
}

/* One label's UUID in the other case changes no answer; another digit in it makes the labels disagree. */
static void try_spelling(const struct volume *volume, int side, const uint64_t verdict[KLAPOUZEN_BREAK],
                         uint64_t no_cut, const uint64_t cut[KLAPOUZEN_CUT])
{
    uint64_t label[KLAPOUZEN_LABELS], other_verdict[KLAPOUZEN_BREAK], other_cut[KLAPOUZEN_CUT];
    struct volume other = *volume;
    struct slice *store = &other.parts[2 * side + 1];
    uint8_t *bytes = malloc(store->length), *uuid = bytes + uuid_place(volume, side);
    memcpy(bytes, store->start, store->length);
    store->start = bytes;
    other_case(uuid);
    must(klapouzen_verdict(VOLUME(&other), FILLED(other_verdict)) == 0);
    must(memcmp(verdict, other_verdict, sizeof other_verdict) == 0);
    must(klapouzen_rescue(VOLUME(&other), FILLED(other_cut)) == no_cut);
    must(memcmp(cut, other_cut, sizeof other_cut) == 0);
    uuid[0] = uuid[0] == '0' ? 'A' : '0';
    must(klapouzen_check_labels(VOLUME(&other), FILLED(label)) == KLAPOUZEN_DISAGREEMENT);
    free(bytes);
}

/* ---- Labels outside the form ---- */

/* The third element of a side, a block. */
static struct slice label_text(const struct volume *volume, int side)
{
    struct walk walk = walk_to(&volume->parts[2 * side], 2);
    return (struct slice){ volume->parts[2 * side + 1].start + walk.stored, next_length(&walk) };
}

/*
 * A function that tells a label's front and side behind so many numbers: the front is what the label's reader tells, and
 * before the data side's label the index side's is read.
 */
static uint64_t told_label(unsigned what, uint64_t refusal, const uint64_t *out, size_t front,
                           const struct volume *volume)
{
    uint64_t label[KLAPOUZEN_LABEL], side = out[front + 1];
    answered(what, refusal, out, front);
    must(refusal == KLAPOUZEN_BAD_FORM ? side <= 1 : out[front] == 0 && side == 0);
    if (refusal != KLAPOUZEN_BAD_FORM)
        return refusal;
    struct slice index = label_text(volume, 0), text = label_text(volume, (int)side);
    must(klapouzen_read_label(SLICE(text), FILLED(label)) == KLAPOUZEN_BAD_FORM);
    must(label[KLAPOUZEN_LABEL_FRONT] == out[front]);
    must(side == 0 || klapouzen_read_label(SLICE(index), FILLED(label)) == 0);
    return refusal;
}

#define TOLD_LABEL(call, out, volume) told_label(__LINE__, (call), out, sizeof(out) / sizeof(out)[0] - 2, volume)

/* ---- Blocks that are lost ---- */

/* What is said of a volume whose labels agree. */
struct said {
    uint64_t verdict[KLAPOUZEN_BREAK], no_cut, cut[KLAPOUZEN_CUT];
};

/* Of the volume with an unreadable block in the place of an element of a side, or behind its last. */
static uint64_t said_without(const struct volume *volume, int side, uint64_t element, struct said *said)
{
    struct volume other = *volume;
    struct own_side lost = lose(&volume->parts[2 * side], &volume->parts[2 * side + 1], element);
    other.parts[2 * side] = lost.list;
    other.parts[2 * side + 1] = lost.store;
    uint64_t refusal = ANSWERED(klapouzen_verdict(VOLUME(&other), FILLED(said->verdict)), said->verdict);
    said->no_cut = ANSWERED(klapouzen_rescue(VOLUME(&other), FILLED(said->cut)), said->cut);
    free_side(&lost);
    return refusal;
}

/* A block of a standing construct: all constructs stand as before, and this one's index is not sound. */
static void try_lost_index(int side, uint64_t construct, int is_last, const struct said *before,
                           const struct said *after)
{
    uint64_t which = side == 1 ? 3 : 4;
    const uint64_t *was = before->verdict, *is = after->verdict;
    int is_before = was[0] != 0 && (was[0] < which || (was[0] == which && was[1] < construct));
    if (is_before || (side == 0 && !is_last))
        must(memcmp(was, is, sizeof before->verdict) == 0);
    else
        must(is[0] == which && is[1] == construct);
    if (before->no_cut != 0)
        return;
    int is_kept = side == 1 ? construct <= before->cut[KLAPOUZEN_CUT_DATA_CONSTRUCT]
                            : construct == before->cut[KLAPOUZEN_CUT_INDEX_CONSTRUCT];
    if (is_kept)
        must(after->no_cut != 0
             || after->cut[KLAPOUZEN_CUT_INDEX_CONSTRUCT] < before->cut[KLAPOUZEN_CUT_INDEX_CONSTRUCT]);
    else
        must(after->no_cut == 0 && memcmp(before->cut, after->cut, sizeof before->cut) == 0);
}

/* A data block: only files can be lost with it. */
static void try_lost_data(const struct said *before, const struct said *after)
{
    const uint64_t *was = before->verdict, *is = after->verdict;
    if (was[0] == 0)
        must(is[0] == 0 || is[0] == 5);
    else
        must(is[0] == was[0] && (was[0] == 5 ? is[1] <= was[1] : is[1] == was[1]));
}

/* A block before the last standing construct's end, where there is no defect. */
static void try_lost_block(const struct volume *volume, int side, uint64_t element, uint64_t standing,
                           const struct said *before)
{
    struct said after;
    uint64_t construct = 0;
    struct walk walk = walk_to(&volume->parts[2 * side], element);
    if (next_kind(&walk) != BLOCK)
        return;
    must(said_without(volume, side, element, &after) == 0);
    must(before->no_cut == 0 || after.no_cut == before->no_cut);
    must(after.no_cut != 0
         || after.cut[KLAPOUZEN_CUT_INDEX_CONSTRUCT] <= before->cut[KLAPOUZEN_CUT_INDEX_CONSTRUCT]);
    while (table[KLAPOUZEN_CONSTRUCT * construct + KLAPOUZEN_CONSTRUCT_KEPT] <= element)
        construct++;
    if (element >= table[KLAPOUZEN_CONSTRUCT * construct + KLAPOUZEN_CONSTRUCT_FIRST_BLOCK])
        try_lost_index(side, construct, construct == standing - 1, before, &after);
    else
        try_lost_data(before, &after);
}

/* An element of the labels, a block behind them, and one more behind all. */
static void try_lost(const struct volume *volume, int side, uint64_t n, uint64_t block_size, const struct said *before)
{
    struct said after;
    uint64_t standing[1], elements[1];
    must(said_without(volume, side, n % 4, &after) == KLAPOUZEN_NO_LABELS && after.no_cut == KLAPOUZEN_NO_LABELS);
    must(klapouzen_constructs(SIDE(volume, side), block_size, table, standing) == 0);
    if (standing[0] > 0) {
        uint64_t kept = table[KLAPOUZEN_CONSTRUCT * (standing[0] - 1) + KLAPOUZEN_CONSTRUCT_KEPT];
        try_lost_block(volume, side, 4 + n % (kept - 4), standing[0], before);
    }
    must(klapouzen_check_list(SIDE(volume, side), elements) == 0);
    if (elements[0] == KLAPOUZEN_MAX_ELEMENTS)
        return;
    must(said_without(volume, side, elements[0], &after) == 0);
    must(after.verdict[0] == (before->verdict[0] == 1 || side == 0 ? 1 : 2) && after.verdict[1] == 0);
    must(after.no_cut == before->no_cut && memcmp(after.cut, before->cut, sizeof after.cut) == 0);
}

/* ---- Reading on ---- */

/* What the rescue answers of two reads, the second of which has all that the first one's cut keeps. */
static void try_second(const struct read *first, const struct read *second, const uint64_t cut[KLAPOUZEN_CUT],
                       uint64_t no_cut, const uint64_t after[KLAPOUZEN_CUT])
{
    fuzz_counts[FIRST_CUT].times++;
    fuzz_counts[OTHER_CUT].times += !is_same_cut(cut, after);
    must(harm(first, second, cut, no_cut, after) == NULL);
}

/* The volume is what was read on to, from fronts of one side and of both. */
static void try_fronts(const struct read *read, uint64_t n, uint64_t block_size, const struct said *said)
{
    uint64_t ends[2] = { end_beside_construct(read, 0, block_size, n),
                         end_beside_construct(read, 1, block_size, n / 3) };
    for (int i = 0; i < 2; i++) {
        uint64_t cut[KLAPOUZEN_CUT];
        struct read front = front_of(read, ends[0], ends[1]);
        if (ANSWERED(klapouzen_rescue(READ(&front), FILLED(cut)), cut) == 0)
            try_second(&front, read, cut, said->no_cut, said->cut);
        ends[n % 2] = UINT64_MAX;
    }
}

/* A volume with this cut is what is read on. */
static void try_behind(const struct read *before, uint64_t n, const uint64_t label[KLAPOUZEN_LABEL],
                       const uint64_t cut[KLAPOUZEN_CUT])
{
    uint64_t after[KLAPOUZEN_CUT], elements[1];
    struct longer longer = read_on(before, label, cut, n);
    struct read read = read_of(&longer);
    if (is_within_bounds(&longer)) {
        must(klapouzen_check_list(READ_SIDE(&read, 0), elements) == 0);
        must(klapouzen_check_list(READ_SIDE(&read, 1), elements) == 0);
        uint64_t no_cut = ANSWERED(klapouzen_rescue(READ(&read), FILLED(after)), after);
        try_second(before, &read, cut, no_cut, after);
    }
    free_longer(&longer);
}

/*
 * Two reads, in one of which an unreadable block stands for an element, or behind the last. Where the cut of either ends
 * before it, the other has all that it keeps.
 */
static void try_reread(const struct volume *volume, int side, uint64_t n, const struct said *said)
{
    uint64_t elements[1], cut[KLAPOUZEN_CUT], kept = KLAPOUZEN_CUT_INDEX_KEPT + (uint64_t)side;
    must(klapouzen_check_list(SIDE(volume, side), elements) == 0);
    uint64_t element = 4 + n % (elements[0] - 3);
    if (element == KLAPOUZEN_MAX_ELEMENTS)
        return;
    struct volume other = *volume;
    struct own_side lost = lose(&volume->parts[2 * side], &volume->parts[2 * side + 1], element);
    other.parts[2 * side] = lost.list;
    other.parts[2 * side + 1] = lost.store;
    struct read read = READ_OF(volume->parts), worn = READ_OF(other.parts);
    uint64_t no_cut = ANSWERED(klapouzen_rescue(READ(&worn), FILLED(cut)), cut);
    if (said->no_cut == 0 && said->cut[kept] <= element)
        try_second(&read, &worn, said->cut, no_cut, cut);
    if (no_cut == 0 && cut[kept] <= element)
        try_second(&worn, &read, cut, said->no_cut, said->cut);
    free_side(&lost);
}

static void try_read_on(const struct volume *volume, uint64_t n, const uint64_t label[KLAPOUZEN_LABEL],
                        const struct said *said)
{
    struct read read = READ_OF(volume->parts);
    for (int i = 0; i < 4; i++)
        n += 257 * read.lengths[i];
    try_fronts(&read, n, label[KLAPOUZEN_LABEL_BLOCK_SIZE], said);
    try_reread(volume, (int)(n / 5 % 2), n / 11, said);
    if (said->no_cut != 0)
        return;
    if (n % 2 == 1)
        read = kept_of(&read, said->cut);
    try_behind(&read, n / 2, label, said->cut);
}

static void try_volume(const struct volume *volume, uint64_t n)
{
    uint64_t label[KLAPOUZEN_LABELS], verdict[KLAPOUZEN_BREAK], cut[KLAPOUZEN_CUT];
    uint64_t refusal = judged(TOLD_LABEL(klapouzen_check_labels(VOLUME(volume), FILLED(label)), label, volume));
    must(TOLD_LABEL(klapouzen_verdict(VOLUME(volume), FILLED(verdict)), verdict, volume) == refusal);
    uint64_t no_cut = TOLD_LABEL(klapouzen_rescue(VOLUME(volume), FILLED(cut)), cut, volume);
    fuzz_counts[INDEX_FRONT + label[KLAPOUZEN_LABELS_SIDE]].times += refusal == KLAPOUZEN_BAD_FORM;
    must(refusal == 0 ? no_cut == 0 || no_cut == KLAPOUZEN_NO_CUT : no_cut == refusal);
    if (refusal == 0) {
        must(no_cut == 0 || verdict[0] != 0);
        try_indexes(volume, 0, label);
        try_indexes(volume, 1, label);
        try_spelling(volume, 0, verdict, no_cut, cut);
        try_spelling(volume, 1, verdict, no_cut, cut);
        struct said before = { { verdict[0], verdict[1] }, no_cut, { 0 } };
        memcpy(before.cut, cut, sizeof cut);
        try_lost(volume, 0, n, label[KLAPOUZEN_LABEL_BLOCK_SIZE], &before);
        try_lost(volume, 1, n, label[KLAPOUZEN_LABEL_BLOCK_SIZE], &before);
        try_read_on(volume, n, label, &before);
    }
    if (no_cut == 0)
        try_cut(volume, cut, verdict[0] == 0);
}

int LLVMFuzzerTestOneInput(const uint8_t *input, size_t size)
{
    struct slice rest = { input, size };
    uint64_t n = take_number(&rest, 1);
    struct volume volume;
    fuzz_counts[FIRST_CUT].name = "first reads with a cut";
    fuzz_counts[OTHER_CUT].name = "second ones with another";
    fuzz_counts[INDEX_FRONT].name = "index labels outside the form";
    fuzz_counts[DATA_FRONT].name = "data labels outside it";
    for (int i = 0; i < 4; i++)
        volume.parts[i] = take_slice(&rest);
    try_list(&volume, 0, n);
    try_list(&volume, 1, n);
    try_block(&volume, 0, n);
    try_block(&volume, 1, n);
    try_volume(&volume, n);
    return 0;
}
