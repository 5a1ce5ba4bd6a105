/*
 * The library against the reference, through the same C functions with the same
 * arguments: differential [CASES [FIRST]]. Outputs and lent buffers are filled
 * with other data first and compared whole afterwards. Inputs are read-only and
 * border pages that can't be touched.
 */
#include <inttypes.h>
#include <stdbool.h>
#include <stdio.h>
#include <stdlib.h>
#include <string.h>

#include "cases.h"
#include "guard.h"
#include "klapouzen.h"
#include "read_on.h"
#include "vectors.h"

/* ---- Both sides' functions ---- */

#define FUNCTIONS(X) \
    X(check_list) X(keep) X(block) X(constructs) X(check_form) X(read_vol1) X(write_vol1) \
    X(read_label) X(write_label) X(check_labels) X(read_index) X(read_file) X(read_rows) \
    X(read_whole) X(decode) X(path) X(index) X(byte_at) X(verdict) X(rescue) X(ansi) X(ansi_place)

#define DECLARE(name) extern __typeof__(klapouzen_##name) reference_##name;
#define MEMBER(name) __typeof__(klapouzen_##name) *name;
#define OF_LIBRARY(name) .name = klapouzen_##name,
#define OF_REFERENCE(name) .name = reference_##name,

FUNCTIONS(DECLARE)

struct functions {
    FUNCTIONS(MEMBER)
};

static const struct functions sides[2] = {
    { FUNCTIONS(OF_LIBRARY) },
    { FUNCTIONS(OF_REFERENCE) },
};

/* ---- Answers ---- */

/* A number more than any function hands out. */
enum { NUMBERS = KLAPOUZEN_CHOSEN + 1, LENT = 4096, ROWS = 512, ENTRIES = 720, REFUSALS = KLAPOUZEN_UNREADABLE_BLOCK + 1 };

struct answer {
    uint64_t refusal;
    uint64_t out[NUMBERS];
    uint8_t lent[LENT];
    uint64_t rows[ROWS], entries[ENTRIES];
};

static struct answer answers[2];
static uint32_t tables[2][KLAPOUZEN_CONSTRUCT_TABLE];
static uint64_t seed, differences, calls, vectors, refusals[REFUSALS];

/* How many indexes were read whole, how many paths had a / in them, and the refusals of paths. */
static uint64_t wholes, deep_paths, path_refusals[REFUSALS];

/* The functions that tell a front: where the side stands that goes with it, if one does, and how often by that side. */
static struct {
    const char *function;
    int side;
    uint64_t times[2];
} fronts[] = {
    { .function = "check_form" }, { .function = "read_label" }, { .function = "read_index" },
    { .function = "read_file" }, { .function = "read_rows" }, { .function = "read_whole" }, { .function = "index" },
    { .function = "check_labels", .side = KLAPOUZEN_LABELS_SIDE },
    { .function = "verdict", .side = KLAPOUZEN_BREAK_SIDE },
    { .function = "rescue", .side = KLAPOUZEN_CUT_SIDE },
};

enum { FRONTS = sizeof fronts / sizeof fronts[0] };

/* How many volumes had both labels outside the form. */
static uint64_t both_labels;

static void count_front(const char *what)
{
    for (int i = 0; i < FRONTS; i++)
        if (strcmp(fronts[i].function, what) == 0)
            fronts[i].times[fronts[i].side > 0 && answers[1].out[fronts[i].side] == 1]++;
}

/* The same other data on both sides. */
static void fill(struct answer *answer)
{
    memset(answer, (int)(0x5a + calls % 97), sizeof *answer);
}

static void print_numbers(const char *who, const struct answer *answer)
{
    fprintf(stderr, "  %s: refusal %" PRIu64 ",", who, answer->refusal);
    for (int i = 0; i < NUMBERS; i++)
        fprintf(stderr, " %" PRIu64, answer->out[i]);
    fputc('\n', stderr);
}

static void differ(const char *what)
{
    differences++;
    fprintf(stderr, "seed %" PRIu64 ": %s differs\n", seed, what);
    print_numbers("library", &answers[0]);
    print_numbers("reference", &answers[1]);
}

static void compare(const char *what)
{
    calls++;
    if (answers[1].refusal == KLAPOUZEN_BAD_FORM)
        count_front(what);
    if (answers[1].refusal < REFUSALS)
        refusals[answers[1].refusal]++;
    if (memcmp(&answers[0], &answers[1], sizeof answers[0]) != 0)
        differ(what);
}

/* The call, on both sides: `f` is the side's functions, `a` its answer. */
#define BOTH(what, call) \
    do { \
        for (int side = 0; side < 2; side++) { \
            const struct functions *f = &sides[side]; \
            struct answer *a = &answers[side]; \
            fill(a); \
            a->refusal = (call); \
        } \
        compare(what); \
    } while (0)

/* A large buffer, one that fits, one a byte short, and none: the first call says what fits. */
enum { ROOMS = 4 };

static void fit_rooms(size_t rooms[ROOMS], int at)
{
    if (at > 0 || answers[1].refusal != 0 || answers[1].out[0] == 0)
        return;
    rooms[1] = answers[1].out[0];
    rooms[2] = answers[1].out[0] - 1;
}

/* ---- Slices ---- */

struct slice {
    uint8_t *start;
    size_t length;
};

#define SLICE(slice) (slice).start, (slice).length
#define SIDE(list, store) SLICE(list), SLICE(store)
#define VOLUME(parts) SIDE((parts)[0], (parts)[1]), SIDE((parts)[2], (parts)[3])

static void guard_case(const struct random_case *random, struct slice parts[4])
{
    for (int i = 0; i < 4; i++) {
        parts[i].length = random->lengths[i];
        parts[i].start = guarded_copy(random->bytes[i], random->lengths[i]);
    }
}

static void drop_case(struct random_case random, struct slice parts[4])
{
    for (int i = 0; i < 4; i++)
        guarded_free(parts[i].start, parts[i].length);
    random_free(random);
}

/* Now and then a text filled up with white space to a bound, or a byte past it. */
static struct slice stretched(struct slice text, uint64_t every, size_t bound)
{
    if (seed % every != 0 || text.length > bound)
        return (struct slice){ NULL, 0 };
    struct slice longer = { NULL, bound + seed / every % 2 };
    uint8_t *bytes = malloc(longer.length);
    if (text.length > 0)
        memcpy(bytes, text.start, text.length);
    memset(bytes + text.length, ' ', longer.length - text.length);
    longer.start = guarded_copy(bytes, longer.length);
    free(bytes);
    return longer;
}

/* ---- Lists ---- */

static void compare_tables(void)
{
    if (memcmp(tables[0], tables[1], sizeof tables[0]) != 0)
        differ("constructs' table");
}

static struct slice guarded_front(struct slice whole, uint64_t length)
{
    return (struct slice){ guarded_copy(whole.start, length), length };
}

/* m elements and then n, which are the smaller of the two. */
static void compare_again(struct slice list, struct slice store, uint64_t m, uint64_t n)
{
    uint64_t again[KLAPOUZEN_KEPT];
    BOTH("keep", f->keep(SIDE(list, store), m, a->out));
    if (answers[1].refusal != 0)
        return;
    struct slice list_front = guarded_front(list, answers[1].out[KLAPOUZEN_KEPT_LIST]);
    struct slice store_front = guarded_front(store, answers[1].out[KLAPOUZEN_KEPT_STORE]);
    BOTH("keep of what was kept", f->keep(SIDE(list_front, store_front), n, a->out));
    memcpy(again, answers[0].out, sizeof again);
    BOTH("keep", f->keep(SIDE(list, store), m < n ? m : n, a->out));
    if (memcmp(again, answers[0].out, sizeof again) != 0)
        differ("keeping twice");
    guarded_free(SLICE(list_front));
    guarded_free(SLICE(store_front));
}

static void compare_list(struct slice list, struct slice store, const uint64_t *numbers,
                         uint64_t block_size)
{
    BOTH("check_list", f->check_list(SIDE(list, store), a->out));
    compare_again(list, store, numbers[0], numbers[1]);
    compare_again(list, store, numbers[1], numbers[2]);
    compare_again(list, store, numbers[2], numbers[0]);
    BOTH("constructs", f->constructs(SIDE(list, store), block_size, tables[side], a->out));
    compare_tables();
    BOTH("constructs", f->constructs(SIDE(list, store), numbers[2] % 9000, tables[side], a->out));
    compare_tables();
}

static void compare_blocks(const struct slice parts[4], const uint64_t *numbers, uint8_t index,
                           uint8_t data)
{
    const uint8_t letters[] = { index, data, 'c', (uint8_t)numbers[2] };
    for (int i = 0; i < 4; i++)
        for (int j = 0; j < 3; j++)
            BOTH("block", f->block(VOLUME(parts), index, data, letters[i], numbers[j], a->out));
    BOTH("block", f->block(VOLUME(parts), index, index, index, numbers[0], a->out));
    BOTH("block", f->block(VOLUME(parts), letters[3], data, letters[3], numbers[0], a->out));
}

/* ---- Indexes ---- */

struct given {
    struct slice uuid;
    uint8_t index, data;
    uint64_t block_size;
};

#define GIVEN(given) SLICE((given)->uuid), (given)->index, (given)->data, (given)->block_size

/* How much room so many numbers take, as far as there is any. */
static size_t room_for(uint64_t numbers, size_t most)
{
    return numbers < most ? (size_t)numbers : most;
}

#define AT SLICE(text), GIVEN(given), letter, block

/* ---- Names and paths ---- */

/* Some bytes of a text: many, or few from a reference on, which may be cut off. */
static struct slice part_of_text(struct slice text, uint64_t n)
{
    if (text.length == 0)
        return text;
    size_t from = n * 7919 % text.length, most = LENT / 2;
    const uint8_t *reference = memchr(text.start + from, '&', text.length - from);
    if (n % 2 == 1 && reference != NULL) {
        from = (size_t)(reference - text.start);
        most = n / 2 % 12;
    }
    return (struct slice){ text.start + from, text.length - from < most ? text.length - from : most };
}

static void compare_decode(struct slice text)
{
    size_t rooms[ROOMS] = { LENT };
    for (int i = 0; i < ROOMS; i++) {
        BOTH("decode", f->decode(SLICE(text), a->lent, rooms[i], a->out));
        fit_rooms(rooms, i);
    }
}

/* By a table of so many numbers. */
static void compare_path(struct slice text, const uint64_t *entries, size_t length, uint64_t entry)
{
    size_t rooms[ROOMS] = { LENT };
    for (int i = 0; i < ROOMS; i++) {
        BOTH("path", f->path(SLICE(text), entries, length, entry, a->lent, rooms[i], a->out));
        if (i == 0) {
            path_refusals[answers[1].refusal]++;
            deep_paths += memchr(answers[1].lent, '/', answers[1].out[0]) != NULL;
        }
        fit_rooms(rooms, i);
    }
}

/* A number of the table changed: a parent or a name, most often, to one near a bound. */
static void damage_table(uint64_t *entries, size_t length, uint64_t n, uint64_t text_length)
{
    static const int numbers[] = { KLAPOUZEN_ENTRY_PARENT, KLAPOUZEN_ENTRY_NAME, KLAPOUZEN_ENTRY_NAME_LENGTH,
                                   KLAPOUZEN_ENTRY_UID };
    size_t entry = n / 4 % (length / KLAPOUZEN_ENTRY), at = KLAPOUZEN_ENTRY * entry + numbers[n % 4];
    const uint64_t values[] = { entry, entry + 1, 0, text_length, text_length + 1, UINT64_MAX, entries[at] + 1, entry / 2 };
    entries[at] = values[n / 64 % 8];
}

/* Each entry's path, and that of one behind the last. */
static void compare_table(struct slice text, const uint64_t *table, size_t length)
{
    size_t size = length * sizeof *table;
    uint64_t *entries = guarded_copy(table, size);
    for (uint64_t entry = 0; entry <= length / KLAPOUZEN_ENTRY; entry++)
        compare_path(text, entries, length, entry);
    compare_path(text, entries, length, UINT64_MAX);
    compare_path((struct slice){ NULL, 0 }, entries, length, length / KLAPOUZEN_ENTRY - 1);
    guarded_free(entries, size);
}

/* By what was read, by a damaged table, and by one that is no table. */
static void compare_paths(struct slice text, const uint64_t *whole, size_t length)
{
    uint64_t table[ENTRIES];
    memcpy(table, whole, length * sizeof *table);
    compare_table(text, table, length);
    compare_path(text, table, length - 1 - seed % (KLAPOUZEN_ENTRY - 1), seed % 3);
    damage_table(table, length, seed, text.length);
    compare_table(text, table, length);
}

/* ---- Whole indexes ---- */

/* Into large buffers, into such that fit, and with each of them a number short, or none. */
static void compare_whole(struct slice text, const struct given *given, uint8_t letter, uint64_t block)
{
    BOTH("read_whole", f->read_whole(AT, a->entries, ENTRIES, a->rows, ROWS, a->out));
    const uint64_t *header = answers[1].out;
    uint64_t count = header[KLAPOUZEN_INDEX_DIRECTORIES] + header[KLAPOUZEN_INDEX_FILES];
    size_t entries = room_for(KLAPOUZEN_ENTRY * count, ENTRIES);
    size_t rows = room_for(KLAPOUZEN_ROW * header[KLAPOUZEN_INDEX_ROWS], ROWS);
    if (answers[1].refusal == 0) {
        wholes++;
        compare_paths(text, answers[0].entries, entries);
    }
    BOTH("read_whole", f->read_whole(AT, a->entries, entries, a->rows, rows, a->out));
    if (entries > 0)
        BOTH("read_whole", f->read_whole(AT, a->entries, entries - 1, a->rows, rows, a->out));
    if (rows > 0)
        BOTH("read_whole", f->read_whole(AT, a->entries, entries, a->rows, rows - 1, a->out));
    BOTH("read_whole", f->read_whole(AT, a->entries, entries, NULL, 0, a->out));
    BOTH("read_whole", f->read_whole(AT, NULL, 0, a->rows, rows, a->out));
    BOTH("read_whole", f->read_whole(AT, NULL, 0, NULL, 0, a->out));
}

static void compare_rows(struct slice text, const struct given *given, uint8_t letter, uint64_t block, uint64_t file)
{
    BOTH("read_file", f->read_file(AT, file, a->out));
    size_t exact = answers[1].refusal == 0 ? room_for(KLAPOUZEN_ROW * answers[1].out[KLAPOUZEN_FILE_ROWS], ROWS) : 0;
    BOTH("read_rows", f->read_rows(AT, file, a->rows, ROWS, a->out, a->out + 1));
    BOTH("read_rows", f->read_rows(AT, file, a->rows, exact, a->out, a->out + 1));
    if (exact > 0)
        BOTH("read_rows", f->read_rows(AT, file, a->rows, exact - 1, a->out, a->out + 1));
}

static void compare_index(struct slice text, const struct given *given, uint8_t letter, uint64_t block)
{
    BOTH("read_index", f->read_index(AT, a->out));
    uint64_t files = answers[1].refusal == 0 ? answers[1].out[KLAPOUZEN_INDEX_FILES] : 0;
    for (uint64_t file = 0; file <= files; file++)
        compare_rows(text, given, letter, block, file);
    BOTH("read_file", f->read_file(AT, UINT64_MAX, a->out));
    compare_whole(text, given, letter, block);
}

static void compare_constructs(struct slice list, struct slice store, const struct given *given,
                               uint8_t letter)
{
    uint64_t number = 0;
    do {
        BOTH("index", f->index(SIDE(list, store), GIVEN(given), letter, number, a->out));
        number++;
    } while (answers[1].refusal != KLAPOUZEN_MISSING && number < 12);
}

static void index_case(void)
{
    struct random_case random = random_index(seed);
    struct slice parts[4];
    guard_case(&random, parts);
    struct given given = { parts[1], (uint8_t)random.numbers[0], (uint8_t)random.numbers[1],
                           random.numbers[2] };
    compare_index(parts[0], &given, (uint8_t)random.numbers[3], random.numbers[4]);
    compare_decode(part_of_text(parts[0], seed));
    BOTH("check_form", f->check_form(SLICE(parts[0]), a->out));
    struct slice longer = stretched(parts[0], 100, KLAPOUZEN_MAX_INDEX);
    BOTH("read_index", f->read_index(SLICE(longer), GIVEN(&given), (uint8_t)random.numbers[3],
                                     random.numbers[4], a->out));
    guarded_free(longer.start, longer.length);
    drop_case(random, parts);
}

/* ---- Texts of any elements ---- */

/* Each is broken somewhere else: as it is, as a label and as an index. */
static void form_cases(void)
{
    enum { TEXTS_OF_A_CASE = 4 };
    const struct given given = { { (uint8_t *)SAMPLE_UUID, strlen(SAMPLE_UUID) }, 'a', 'b', 4096 };
    for (uint64_t i = 0; i < TEXTS_OF_A_CASE; i++) {
        struct random_case random = random_form(TEXTS_OF_A_CASE * seed + i);
        struct slice parts[4];
        guard_case(&random, parts);
        BOTH("check_form", f->check_form(SLICE(parts[0]), a->out));
        BOTH("read_label", f->read_label(SLICE(parts[0]), a->out));
        compare_index(parts[0], &given, 'a', 5);
        drop_case(random, parts);
    }
}

/* ---- Reading on ---- */

/* From a front of a volume to all of it, and behind a volume. */
enum { FROM_FRONTS, BEHIND, WAYS };

/* How often what was read on had a cut, and how often the longer read has another. */
static uint64_t read_on_times[WAYS], other_cuts[WAYS];

/* What a read's rescue answers. */
struct rescued {
    uint64_t refusal, cut[KLAPOUZEN_CUT];
};

static struct rescued library_rescued(void)
{
    struct rescued rescued = { answers[0].refusal, { 0 } };
    memcpy(rescued.cut, answers[0].out, sizeof rescued.cut);
    return rescued;
}

static struct rescued compare_rescue(const struct read *read)
{
    BOTH("rescue of a read", f->rescue(READ(read), a->out));
    return library_rescued();
}

/* By the library's answers. */
static void expect_no_harm(int way, const struct read *before, const struct rescued *of_before,
                           const struct read *longer, const struct rescued *of_longer)
{
    if (of_before->refusal != 0)
        return;
    const char *found = harm(before, longer, of_before->cut, of_longer->refusal, of_longer->cut);
    read_on_times[way]++;
    other_cuts[way] += !is_same_cut(of_before->cut, of_longer->cut);
    if (found != NULL) {
        differences++;
        fprintf(stderr, "seed %" PRIu64 ": a longer read %s\n", seed, found);
    }
}

/* From a front of one side or of both; the volume's other bytes are behind it. */
static void compare_front(const struct read *read, const struct rescued *rescued, uint64_t block_size, uint64_t n)
{
    uint64_t ends[2] = { end_beside_construct(read, 0, block_size, n),
                         end_beside_construct(read, 1, block_size, n / 3) };
    if (n % 3 < 2)
        ends[n % 3] = UINT64_MAX;
    struct read front = front_of(read, ends[0], ends[1]);
    struct rescued of_front = compare_rescue(&front);
    expect_no_harm(FROM_FRONTS, &front, &of_front, read, rescued);
}

/* A longer read at the border of pages. */
static void guard_longer(const struct longer *longer, struct slice parts[4])
{
    struct read read = read_of(longer);
    for (int i = 0; i < 4; i++)
        parts[i] = (struct slice){ guarded_copy(READ_PART(&read, i)), read.lengths[i] };
}

/* Behind the volume, or behind what its cut keeps. */
static void compare_behind(const struct read *read, const struct rescued *rescued,
                           const uint64_t label[KLAPOUZEN_LABEL], uint64_t n)
{
    struct slice parts[4];
    struct read before = n % 2 == 0 ? *read : kept_of(read, rescued->cut);
    struct longer longer = read_on(&before, label, rescued->cut, n / 2);
    guard_longer(&longer, parts);
    struct read more = READ_OF(parts);
    struct rescued of_longer = compare_rescue(&more);
    expect_no_harm(BEHIND, &before, rescued, &more, &of_longer);
    for (int i = 0; i < 4; i++)
        guarded_free(SLICE(parts[i]));
    free_longer(&longer);
}

/* One of the two ways, or none, of a volume with this label whose rescue was asked for last. */
static void compare_read_on(const struct slice parts[4], const uint64_t label[KLAPOUZEN_LABEL], uint64_t n)
{
    struct read read = READ_OF(parts);
    struct rescued rescued = library_rescued();
    if (seed % 4 == 1 || (seed % 4 == 3 && rescued.refusal == 0))
        compare_front(&read, &rescued, label[KLAPOUZEN_LABEL_BLOCK_SIZE], n);
    else if (rescued.refusal == 0)
        compare_behind(&read, &rescued, label, n);
}

/* ---- Volumes ---- */

/* Whether the data side's label is outside the form, in a volume of which the index side's is. */
static bool is_data_label_outside(const struct slice parts[4])
{
    uint64_t block[KLAPOUZEN_BLOCK], label[KLAPOUZEN_LABEL];
    return reference_block(VOLUME(parts), 'a', 'b', 'b', 2, block) == 0
        && reference_read_label(parts[3].start + block[KLAPOUZEN_BLOCK_OFFSET], block[KLAPOUZEN_BLOCK_LENGTH], label)
               == KLAPOUZEN_BAD_FORM;
}

static void volume_case(void)
{
    struct random_case random = random_volume(seed);
    struct slice parts[4];
    uint64_t label[KLAPOUZEN_LABEL];
    guard_case(&random, parts);
    BOTH("check_labels", f->check_labels(VOLUME(parts), a->out));
    uint64_t refusal = answers[1].refusal;
    if (refusal == KLAPOUZEN_BAD_FORM && answers[1].out[KLAPOUZEN_LABELS_SIDE] == 0)
        both_labels += is_data_label_outside(parts);
    memcpy(label, answers[1].out, sizeof label);
    struct given given = { { NULL, 0 }, 'a', 'b', 4096 };
    if (refusal == 0) {
        given.uuid = (struct slice){ parts[1].start + label[KLAPOUZEN_LABEL_UUID],
                                     label[KLAPOUZEN_LABEL_UUID_LENGTH] };
        given.index = (uint8_t)label[KLAPOUZEN_LABEL_INDEX_LETTER];
        given.data = (uint8_t)label[KLAPOUZEN_LABEL_DATA_LETTER];
        given.block_size = label[KLAPOUZEN_LABEL_BLOCK_SIZE];
    }
    BOTH("verdict", f->verdict(VOLUME(parts), a->out));
    BOTH("rescue", f->rescue(VOLUME(parts), a->out));
    if (refusal == 0)
        compare_read_on(parts, label, random.numbers[2]);
    compare_list(parts[0], parts[1], random.numbers, given.block_size);
    compare_list(parts[2], parts[3], random.numbers, given.block_size);
    compare_blocks(parts, random.numbers, given.index, given.data);
    compare_constructs(parts[0], parts[1], &given, given.index);
    compare_constructs(parts[2], parts[3], &given, given.data);
    compare_constructs(parts[2], parts[3], &given, given.index);
    drop_case(random, parts);
}

/* ---- Labels and rows ---- */

static void compare_label_writer(const struct slice parts[4], const uint64_t *n)
{
    size_t rooms[ROOMS] = { LENT };
    for (int i = 0; i < ROOMS; i++) {
        BOTH("write_label",
             f->write_label(a->lent, rooms[i], SLICE(parts[1]), SLICE(parts[2]), SLICE(parts[3]),
                            (uint8_t)n[0], (uint8_t)n[1], (uint8_t)n[2], n[3], n[4], a->out));
        fit_rooms(rooms, i);
    }
}

static void label_case(void)
{
    struct random_case random = random_label(seed);
    struct slice parts[4];
    guard_case(&random, parts);
    BOTH("read_label", f->read_label(SLICE(parts[0]), a->out));
    BOTH("check_form", f->check_form(SLICE(parts[0]), a->out));
    compare_label_writer(parts, random.numbers);
    struct slice longer = stretched(parts[0], 20, KLAPOUZEN_MAX_LABEL);
    BOTH("read_label", f->read_label(SLICE(longer), a->out));
    guarded_free(longer.start, longer.length);
    drop_case(random, parts);
}

static void vol1_case(void)
{
    struct random_case random = random_vol1(seed);
    struct slice parts[4];
    guard_case(&random, parts);
    BOTH("read_vol1", f->read_vol1(SLICE(parts[0]), a->out));
    for (size_t room = 79; room <= 81; room++)
        BOTH("write_vol1", f->write_vol1(a->lent, room, SLICE(parts[1]), SLICE(parts[2]), a->out));
    drop_case(random, parts);
}

static void rows_case(void)
{
    struct random_case random = random_rows(seed);
    size_t size = random.row_numbers * sizeof *random.rows;
    uint64_t *rows = guarded_copy(random.rows, size);
    const uint64_t *n = random.numbers;
    BOTH("byte_at", f->byte_at(rows, random.row_numbers, n[0], n[1], n[2], a->out));
    BOTH("byte_at", f->byte_at(rows, random.row_numbers, n[0], n[1], n[2] + 1, a->out));
    BOTH("byte_at", f->byte_at(rows, random.row_numbers, n[0], n[1], n[0] - 1, a->out));
    guarded_free(rows, size);
    random_free(random);
}

/* As many rows as there may be, or one more; sometimes the last two share a position. */
static void many_rows_case(void)
{
    static uint64_t rows[KLAPOUZEN_ROW * (KLAPOUZEN_MAX_ROWS + 1)];
    uint64_t count = KLAPOUZEN_MAX_ROWS + seed % 2;
    for (uint64_t i = 0; i < count; i++)
        memcpy(rows + KLAPOUZEN_ROW * i, (uint64_t[]){ 'b', i, seed % 5000, 7, 7 * i - (seed % 3 == 0 && i == 1023) },
               KLAPOUZEN_ROW * sizeof *rows);
    BOTH("byte_at", f->byte_at(rows, KLAPOUZEN_ROW * count, 8000, 4096, seed % 8001, a->out));
}

/* ---- ANSI labelled tapes ---- */

/* What the library left in the buffer that it was lent. */
static uint8_t after[LENT];

/* Into buffers with these bytes, at the border of a page; a refusal changes none, an answer none past the files. */
static void compare_ansi(struct slice list, struct slice store, const uint8_t *before, size_t room)
{
    uint8_t *lent[2] = { guarded_room(room), guarded_room(room) };
    for (int i = 0; i < 2 && room > 0; i++)
        memcpy(lent[i], before, room);
    BOTH("ansi", f->ansi(SIDE(list, store), lent[side], room, a->out));
    size_t put = answers[1].refusal == 0 ? KLAPOUZEN_ANSI_FILE * (size_t)answers[1].out[0] : 0;
    if (room > 0) {
        memcpy(after, lent[0], room);
        if (memcmp(lent[0], lent[1], room) != 0 || put > room || memcmp(after + put, before + put, room - put) != 0)
            differ("ansi's buffer");
    }
    for (int i = 0; i < 2; i++)
        guarded_free(lent[i], room);
}

/* A large buffer, one that the case names, one that fits, one a byte short, one a byte longer, and none. */
static void ansi_case(void)
{
    struct random_case random = random_ansi(seed);
    struct slice parts[4];
    uint8_t before[LENT];
    size_t rooms[] = { LENT, (size_t)random.numbers[0], 0, 0, 0, 0 };
    guard_case(&random, parts);
    for (size_t i = 0; i < LENT; i++)
        before[i] = (uint8_t)(seed + 37 * i);
    BOTH("ansi_place", f->ansi_place(SIDE(parts[0], parts[1]), a->out));
    for (int i = 0; i < 6; i++) {
        compare_ansi(parts[0], parts[1], before, rooms[i]);
        if (i == 0 && answers[1].refusal == 0) {
            rooms[2] = KLAPOUZEN_ANSI_FILE * (size_t)answers[1].out[0];
            rooms[3] = rooms[2] - 1;
            rooms[4] = rooms[2] + 1;
        }
    }
    drop_case(random, parts);
}

/* Of a vector also what it says itself. */
static void ansi_vector(const struct random_case *vector)
{
    struct slice parts[4];
    guard_case(vector, parts);
    if (parts[2].length > LENT || parts[2].length != parts[3].length)
        abort();
    compare_ansi(parts[0], parts[1], parts[2].start, parts[2].length);
    if (answers[0].refusal != vector->numbers[1] || answers[0].out[0] != vector->numbers[2]
        || memcmp(after, vector->bytes[3], vector->lengths[3]) != 0)
        differ("a vector of ansi");
    vectors++;
    for (int i = 0; i < 4; i++)
        guarded_free(parts[i].start, parts[i].length);
}

static void ansi_place_vector(const struct random_case *vector)
{
    struct slice parts[4];
    uint8_t before[LENT] = { 0 };
    guard_case(vector, parts);
    compare_ansi(parts[0], parts[1], before, LENT);
    if (answers[0].refusal != vector->numbers[1])
        differ("a vector's refusal");
    BOTH("ansi_place", f->ansi_place(SIDE(parts[0], parts[1]), a->out));
    if (answers[0].out[0] != vector->numbers[2])
        differ("a vector's place");
    vectors++;
    for (int i = 0; i < 4; i++)
        guarded_free(parts[i].start, parts[i].length);
}

/*
 * So many cases meet every refusal, 4 in each function that tells a front, and are read on both ways to another cut;
 * fewer say nothing of the generator.
 */
enum { ENOUGH = 1000 };

/* Answers how many are missing, of the functions, of the sides where they tell one, and of both labels. */
static uint64_t print_fronts(void)
{
    uint64_t never = both_labels == 0;
    printf("; refused 4:");
    for (int i = 0; i < FRONTS; i++) {
        printf(" %s %" PRIu64, fronts[i].function, fronts[i].times[0]);
        never += fronts[i].times[0] == 0;
        if (fronts[i].side > 0) {
            printf(" (data side %" PRIu64 ")", fronts[i].times[1]);
            never += fronts[i].times[1] == 0;
        }
    }
    printf(", both labels of %" PRIu64 " volumes outside the form", both_labels);
    return never;
}

static uint64_t print_counts(uint64_t cases)
{
    uint64_t never = 0;
    for (int way = 0; way < WAYS; way++) {
        const char *name = way == FROM_FRONTS ? "read on from fronts" : "behind volumes";
        printf(" %s %" PRIu64 " times, %" PRIu64 " with another cut;", name, read_on_times[way], other_cuts[way]);
        never += read_on_times[way] == 0 || other_cuts[way] == 0;
    }
    printf(" answers by refusal:");
    for (int i = 0; i < REFUSALS; i++) {
        printf(" %d:%" PRIu64, i, refusals[i]);
        never += refusals[i] == 0;
    }
    printf("; %" PRIu64 " indexes read whole, %" PRIu64 " paths with a / in them, of all %" PRIu64 " refused 2 and %" PRIu64
           " 14", wholes, deep_paths, path_refusals[KLAPOUZEN_MISSING], path_refusals[KLAPOUZEN_BAD_ARGUMENT]);
    never += wholes == 0 || deep_paths == 0;
    never += print_fronts();
    putchar('\n');
    return cases < ENOUGH ? 0 : never;
}

int main(int count, char **words)
{
    uint64_t cases = count > 1 ? strtoull(words[1], NULL, 10) : 10000;
    uint64_t first = count > 2 ? strtoull(words[2], NULL, 10) : 0;
    memset(tables, 0xc3, sizeof tables);
    each_vector(ANSI_TAPES, ansi_vector);
    each_vector(ANSI_PLACES, ansi_place_vector);
    for (seed = first; seed < first + cases && differences < 20; seed++) {
        volume_case();
        index_case();
        label_case();
        form_cases();
        vol1_case();
        rows_case();
        many_rows_case();
        ansi_case();
    }
    printf("%" PRIu64 " cases, %" PRIu64 " vectors, %" PRIu64 " calls, %" PRIu64 " differences;", cases,
           vectors, calls, differences);
    return print_counts(cases) > 0 || differences > 0;
}
