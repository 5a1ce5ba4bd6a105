/*
 * How much stack the functions need: they run on a painted stack of their own,
 * on the largest and deepest inputs, and what they touched is measured.
 */
#include <pthread.h>
#include <stdbool.h>
#include <stdio.h>
#include <stdlib.h>
#include <string.h>

#include "klapouzen.h"
#include "sample.h"

enum { STACK = 8 << 20, PAINT = 0x6b, OWN = 16384, CONSTRUCTS = 2000 };

static struct sample volume;
static struct buffer index_text;
static uint32_t table[KLAPOUZEN_CONSTRUCT_TABLE];
static uint64_t rows[KLAPOUZEN_ROW * KLAPOUZEN_MAX_ROWS];
static uint64_t entries[KLAPOUZEN_ENTRY * KLAPOUZEN_MAX_ELEMENTS];
static uint8_t path[2 * KLAPOUZEN_MAX_ELEMENTS];
static struct tape ansi;
static uint8_t ansi_files[KLAPOUZEN_ANSI_FILE * KLAPOUZEN_MAX_ANSI_FILES];

#define WORD(text, length) (const uint8_t *)(text), length
#define UUID WORD(SAMPLE_UUID, 36)
#define GIVEN index_text.bytes, index_text.length, UUID, 'a', 'b', 4096, 'a', 5

/* Extended attributes down to the deepest nesting. */
static void put_attributes(struct index_text *index)
{
    enum { FILE_AND_ATTRIBUTES = 2 };
    index_attributes(index, "attributes", KLAPOUZEN_MAX_NESTING - index->depth - FILE_AND_ATTRIBUTES);
}

/*
 * An index of a file with the most extents, of directories in directories as deep as can be, and of attributes down
 * to the deepest nesting, below the root directory and below the last but one. The last directory's contents are of
 * nesting 63, and nothing is in them: an entry has elements in it.
 */
static void put_deepest(struct index_text *index, const struct index_head *head)
{
    static struct extent extents[KLAPOUZEN_MAX_ROWS];
    for (size_t i = 0; i < KLAPOUZEN_MAX_ROWS; i++)
        extents[i] = (struct extent){ 'b', 4, 0, 1, KLAPOUZEN_MAX_ROWS - 1 - i };
    index_begin(index, head);
    index_file(index, "rows", KLAPOUZEN_MAX_ROWS, extents, KLAPOUZEN_MAX_ROWS);
    put_attributes(index);
    while (index->depth < KLAPOUZEN_MAX_NESTING - 3)
        index_directory(index, "d");
    put_attributes(index);
    index_directory(index, "last");
    index_end(index);
}

static void make_index(void)
{
    struct index_head head = { .generation = 1, .letter = 'a', .block = 5 };
    struct index_text index;
    put_deepest(&index, &head);
    index_text = index.text;
}

static void put_deepest_construct(int side)
{
    struct index_head head = sample_head(&volume, side);
    struct index_text index;
    put_deepest(&index, &head);
    sample_index(&volume, side, &index);
}

/* Many constructs on both sides, the last ones with the deepest index; unreadable blocks where nothing needs them. */
static void make_volume(void)
{
    sample_begin(&volume, 4096);
    for (int i = 0; i < CONSTRUCTS - 1; i++) {
        tape_filled_block(&volume.sides[1], 'x', 4096);
        tape_unreadable_block(&volume.sides[1]);
        tape_unreadable_block(&volume.sides[0]);
        volume.generation++;
        sample_unmount(&volume);
    }
    put_deepest_construct(1);
    put_deepest_construct(0);
}

static void must(bool holds)
{
    if (!holds)
        abort();
}

/* A call that is refused does not get to the bottom. */
static void answered(uint64_t refusal)
{
    must(refusal == 0);
}

static void call_lists(void)
{
    uint64_t out[KLAPOUZEN_BLOCK];
    const struct tape *data = &volume.sides[1];
    answered(klapouzen_check_list(TAPE(*data), out));
    answered(klapouzen_keep(TAPE(*data), 1000, out));
    answered(klapouzen_block(SAMPLE(&volume), 'a', 'b', 'b', 4, out));
    must(klapouzen_block(SAMPLE(&volume), 'a', 'b', 'b', 5, out) == KLAPOUZEN_UNREADABLE_BLOCK);
    answered(klapouzen_constructs(TAPE(*data), 4096, table, out));
}

static void call_labels(void)
{
    uint64_t out[KLAPOUZEN_LABELS], length;
    uint8_t buffer[KLAPOUZEN_MAX_LABEL];
    answered(klapouzen_write_vol1(buffer, sizeof buffer, WORD(SAMPLE_UUID, 6), WORD(SAMPLE_UUID, 14), &length));
    answered(klapouzen_read_vol1(buffer, length, out));
    answered(klapouzen_write_label(buffer, sizeof buffer, UUID, WORD(SAMPLE_TIME, 30), UUID, 'a', 'a', 'b', 4096, 0,
                                   &length));
    answered(klapouzen_read_label(buffer, length, out));
    answered(klapouzen_check_labels(SAMPLE(&volume), out));
}

/* The root directory, at nesting 2, and below it one at every second nesting up to 62. */
enum { DIRECTORIES = 31, FILES = 3 };

static void check_index(const uint64_t header[KLAPOUZEN_INDEX])
{
    must(header[KLAPOUZEN_INDEX_DIRECTORIES] == DIRECTORIES);
    must(header[KLAPOUZEN_INDEX_FILES] == FILES);
}

static void call_indexes(void)
{
    uint64_t out[KLAPOUZEN_CHOSEN];
    answered(klapouzen_check_form(index_text.bytes, index_text.length, out));
    answered(klapouzen_read_index(GIVEN, out));
    check_index(out);
    answered(klapouzen_read_file(GIVEN, 2, out));
    answered(klapouzen_read_rows(GIVEN, 0, rows, sizeof rows / sizeof rows[0], out, out + 1));
    answered(klapouzen_read_whole(GIVEN, entries, sizeof entries / sizeof entries[0], rows, sizeof rows / sizeof rows[0],
                                  out));
    check_index(out);
    answered(klapouzen_path(index_text.bytes, index_text.length, entries, KLAPOUZEN_ENTRY * (DIRECTORIES + FILES),
                            DIRECTORIES + FILES - 1, path, sizeof path, out));
    must(out[0] == 2 * (DIRECTORIES - 2) + strlen("last"));
    must(index_text.length > sizeof path);
    answered(klapouzen_decode(index_text.bytes, sizeof path, path, sizeof path, out));
    answered(klapouzen_byte_at(rows, sizeof rows / sizeof rows[0], KLAPOUZEN_MAX_ROWS, 4096, 0, out));
    answered(klapouzen_index(TAPE(volume.sides[1]), UUID, 'a', 'b', 4096, 'b', CONSTRUCTS - 1, out));
    check_index(out + KLAPOUZEN_CHOSEN_HEADER);
}

/* Of a table in which each entry is in the one before it. */
static void call_paths(void)
{
    uint64_t count;
    for (uint64_t i = 1; i < KLAPOUZEN_MAX_ELEMENTS; i++)
        memcpy(entries + KLAPOUZEN_ENTRY * i, (uint64_t[KLAPOUZEN_ENTRY]){ [KLAPOUZEN_ENTRY_PARENT] = i - 1,
               [KLAPOUZEN_ENTRY_NAME_LENGTH] = 1 }, KLAPOUZEN_ENTRY * sizeof *entries);
    answered(klapouzen_path(UUID, entries, sizeof entries / sizeof entries[0], KLAPOUZEN_MAX_ELEMENTS - 1, path,
                            sizeof path, &count));
    must(count == 2 * (KLAPOUZEN_MAX_ELEMENTS - 1) - 1);
}

static void call_volumes(void)
{
    uint64_t out[KLAPOUZEN_CUT];
    answered(klapouzen_verdict(SAMPLE(&volume), out));
    must(out[KLAPOUZEN_BREAK_WHICH] == 0);
    answered(klapouzen_rescue(SAMPLE(&volume), out));
    must(out[KLAPOUZEN_CUT_INDEX_CONSTRUCT] == CONSTRUCTS - 1);
    must(out[KLAPOUZEN_CUT_DATA_CONSTRUCT] == CONSTRUCTS - 1);
}

static void outside(uint64_t refusal)
{
    must(refusal == KLAPOUZEN_BAD_FORM);
}

/* The same index with a zero byte for its last, alone and as a construct. */
static void call_outside(void)
{
    uint64_t out[KLAPOUZEN_CHOSEN];
    struct buffer *store = &volume.sides[1].store;
    uint8_t *last = &index_text.bytes[index_text.length - 1], *stored = &store->bytes[store->length - 1];
    uint8_t byte = *last;
    *last = *stored = 0;
    outside(klapouzen_check_form(index_text.bytes, index_text.length, out));
    must(out[0] == index_text.length - 1);
    outside(klapouzen_read_index(GIVEN, out));
    outside(klapouzen_read_file(GIVEN, 0, out));
    outside(klapouzen_read_rows(GIVEN, 0, rows, sizeof rows / sizeof rows[0], out, out + 1));
    outside(klapouzen_read_whole(GIVEN, entries, sizeof entries / sizeof entries[0], rows, sizeof rows / sizeof rows[0],
                                 out));
    outside(klapouzen_index(TAPE(volume.sides[1]), UUID, 'a', 'b', 4096, 'b', CONSTRUCTS - 1, out));
    *last = *stored = byte;
}

/* The data side's label with one for its first. */
static void call_labels_outside(void)
{
    uint64_t out[KLAPOUZEN_LABELS];
    uint8_t *first = &volume.sides[1].store.bytes[KLAPOUZEN_VOL1_LENGTH];
    *first = 0;
    outside(klapouzen_check_labels(SAMPLE(&volume), out));
    must(out[KLAPOUZEN_LABELS_SIDE] == 1);
    outside(klapouzen_verdict(SAMPLE(&volume), out));
    outside(klapouzen_rescue(SAMPLE(&volume), out));
    *first = '<';
}

static void call_ansi(void)
{
    uint64_t count, place;
    answered(klapouzen_ansi(TAPE(ansi), ansi_files, sizeof ansi_files, &count));
    must(count == KLAPOUZEN_MAX_ANSI_FILES);
    answered(klapouzen_ansi_place(TAPE(ansi), &place));
    must(place == KLAPOUZEN_MAX_ELEMENTS);
}

static void *run(void *nothing)
{
    call_lists();
    call_ansi();
    call_labels();
    call_indexes();
    call_outside();
    call_paths();
    call_volumes();
    call_labels_outside();
    return nothing;
}

int main(void)
{
    uint8_t *stack = aligned_alloc(4096, STACK);
    pthread_attr_t attributes;
    pthread_t thread;
    make_index();
    make_volume();
    ansi_most_files(&ansi);
    memset(stack, PAINT, STACK);
    pthread_attr_init(&attributes);
    if (pthread_attr_setstack(&attributes, stack, STACK) != 0
        || pthread_create(&thread, &attributes, run, NULL) != 0)
        return 2;
    pthread_join(thread, NULL);
    size_t untouched = 0;
    while (untouched < STACK && stack[untouched] == PAINT)
        untouched++;
    size_t used = STACK - untouched;
    printf("stack: %zu bytes, with up to %d of the test's own\n", used, OWN);
    return used >= KLAPOUZEN_STACK;
}
