/*
 * Every exported function with the smallest sizes (NULL with length 0), with the
 * largest that document 01 names, and with one more.
 */
#include <inttypes.h>
#include <stdbool.h>
#include <stdio.h>
#include <stdlib.h>
#include <string.h>

#include "guard.h"
#include "klapouzen.h"
#include "read_on.h"
#include "sample.h"

static int failures;

static void expect(const char *what, uint64_t found, uint64_t wanted)
{
    if (found == wanted)
        return;
    fprintf(stderr, "%s: %" PRIu64 " and not %" PRIu64 "\n", what, found, wanted);
    failures++;
}

/* Outputs are filled before each call and must be zero after a refusal. */
static uint64_t out[KLAPOUZEN_CHOSEN];

static uint64_t *filled(void)
{
    memset(out, 0xa5, sizeof out);
    return out;
}

static void expect_zeros(const char *what, int count)
{
    for (int i = 0; i < count; i++)
        expect(what, out[i], 0);
}

#define TEXT(text) (const uint8_t *)(text), sizeof(text) - 1
#define NONE NULL, 0
#define NO_VOLUME NONE, NONE, NONE, NONE
#define UUID TEXT(SAMPLE_UUID)
#define GIVEN UUID, 'a', 'b', 4096

static uint32_t table[KLAPOUZEN_CONSTRUCT_TABLE];

/* A slice of a buffer that borders a guard page. */
struct slice {
    uint8_t *start;
    size_t length;
};

static struct slice guarded(struct buffer *buffer)
{
    struct slice slice = { guarded_copy(buffer->bytes, buffer->length), buffer->length };
    buffer_free(buffer);
    return slice;
}

#define SLICE(slice) (slice).start, (slice).length

static void drop(struct slice slice)
{
    guarded_free(slice.start, slice.length);
}

/* ---- Refusals ---- */

static void refusal_texts(void)
{
    for (uint64_t number = 0; number <= KLAPOUZEN_UNREADABLE_BLOCK; number++)
        expect("a refusal without a text", strlen(klapouzen_refusal_text(number)) > 0, true);
    expect("no refusal", strlen(klapouzen_refusal_text(KLAPOUZEN_UNREADABLE_BLOCK + 1)), 0);
    expect("no refusal", strlen(klapouzen_refusal_text(UINT64_MAX)), 0);
}

/* ---- The smallest ---- */

/* Of one byte: a mark, an unreadable block, or no element. */
static void smallest_elements(void)
{
    for (int kind = 0; kind < 256; kind++) {
        uint8_t list[1] = { (uint8_t)kind };
        uint64_t wanted = kind == 1 || kind == 3 ? 0 : 1;
        expect("a list of a byte", klapouzen_check_list(list, 1, NONE, filled()), wanted);
        expect("its count", out[0], wanted == 0 ? 1 : 0);
        expect("a byte in its store", klapouzen_check_list(list, 1, list, 1, filled()), 1);
        expect("its fronts", klapouzen_keep(list, 1, NONE, 1, filled()), wanted);
        expect("of the list", out[KLAPOUZEN_KEPT_LIST], wanted == 0 ? 1 : 0);
        expect("of the store", out[KLAPOUZEN_KEPT_STORE], 0);
        expect("its block", klapouzen_block(list, 1, NONE, NONE, NONE, 'a', 'b', 'a', 0, filled()),
               wanted == 1 ? 1 : kind == 1 ? 2 : 19);
        expect_zeros("its place", KLAPOUZEN_BLOCK);
    }
}

static void smallest_lists(void)
{
    expect("check_list of nothing", klapouzen_check_list(NONE, NONE, filled()), 0);
    expect("its count", out[0], 0);
    expect("keep of nothing", klapouzen_keep(NONE, NONE, UINT64_MAX, filled()), 0);
    expect_zeros("its fronts", KLAPOUZEN_KEPT);
    expect("block of nothing", klapouzen_block(NO_VOLUME, 'a', 'b', 'a', 0, filled()), 2);
    expect_zeros("its place", KLAPOUZEN_BLOCK);
    expect("block of letter c", klapouzen_block(NO_VOLUME, 'a', 'b', 'c', 0, filled()), 14);
    expect("block of equal letters", klapouzen_block(NO_VOLUME, 'a', 'a', 'a', 0, filled()), 14);
    memset(table, 0xa5, sizeof table);
    expect("constructs of nothing", klapouzen_constructs(NONE, NONE, 4096, table, filled()), 0);
    expect("their count", out[0], 0);
    expect("their table", table[0], 0xa5a5a5a5);
    expect("constructs of small blocks", klapouzen_constructs(NONE, NONE, 4095, table, filled()), 14);
    expect("their count", out[0], 0);
    expect("constructs of large blocks",
           klapouzen_constructs(NONE, NONE, 1048577, table, filled()), 14);
    expect("check_labels of nothing", klapouzen_check_labels(NO_VOLUME, filled()), 9);
    expect_zeros("its label", KLAPOUZEN_LABELS);
    expect("verdict on nothing", klapouzen_verdict(NO_VOLUME, filled()), 9);
    expect_zeros("its break", KLAPOUZEN_BREAK);
    expect("rescue of nothing", klapouzen_rescue(NO_VOLUME, filled()), 9);
    expect_zeros("its cut", KLAPOUZEN_CUT);
}

static void smallest_texts(void)
{
    expect("check_form of nothing", klapouzen_check_form(NONE, filled()), 4);
    expect_zeros("its front", 1);
    expect("read_vol1 of nothing", klapouzen_read_vol1(NONE, filled()), 3);
    expect_zeros("its fields", KLAPOUZEN_VOL1);
    expect("write_vol1 to nothing",
           klapouzen_write_vol1(NONE, TEXT("KLA001"), TEXT("Klapouzen     "), filled()), 10);
    expect_zeros("its length", 1);
    expect("write_vol1 of nothing", klapouzen_write_vol1(NONE, NONE, NONE, filled()), 14);
    expect("read_label of nothing", klapouzen_read_label(NONE, filled()), 4);
    expect_zeros("its fields", KLAPOUZEN_LABEL);
    expect("write_label to nothing",
           klapouzen_write_label(NONE, TEXT("c"), TEXT(SAMPLE_TIME), UUID, 'a', 'a', 'b', 4096, 0, filled()),
           10);
    expect_zeros("its length", 1);
    expect("write_label of nothing",
           klapouzen_write_label(NONE, NONE, NONE, NONE, 'a', 'a', 'b', 4096, 0, filled()), 14);
    expect("write_label, compression 2",
           klapouzen_write_label(NONE, TEXT("c"), TEXT(SAMPLE_TIME), UUID, 'a', 'a', 'b', 4096, 2, filled()),
           14);
}

static void smallest_indexes(void)
{
    uint64_t rows[KLAPOUZEN_ROW] = { 'b', 10, 100, 8000, 0 };
    expect("read_index of nothing", klapouzen_read_index(NONE, GIVEN, 'a', 5, filled()), 4);
    expect_zeros("its header", KLAPOUZEN_INDEX);
    expect("read_index, no UUID", klapouzen_read_index(NONE, NONE, 'a', 'b', 4096, 'a', 5, filled()), 14);
    expect("read_file of nothing", klapouzen_read_file(NONE, GIVEN, 'a', 5, 0, filled()), 4);
    expect_zeros("its file", KLAPOUZEN_FILE);
    expect("read_rows of nothing", klapouzen_read_rows(NONE, GIVEN, 'a', 5, 0, NONE, filled(), out + 1), 4);
    expect_zeros("its count and its front", 2);
    expect("read_whole of nothing", klapouzen_read_whole(NONE, GIVEN, 'a', 5, NONE, NONE, filled()), 4);
    expect_zeros("its header", KLAPOUZEN_INDEX);
    expect("index of nothing", klapouzen_index(NONE, NONE, GIVEN, 'a', 0, filled()), 2);
    expect_zeros("its header", KLAPOUZEN_CHOSEN);
    expect("byte_at without rows", klapouzen_byte_at(NONE, 1, 4096, 0, filled()), 0);
    expect_zeros("its place", KLAPOUZEN_BYTE);
    expect("byte_at past the end", klapouzen_byte_at(NONE, 0, 4096, 0, filled()), 2);
    expect_zeros("its place", KLAPOUZEN_BYTE);
    expect("byte_at 3996", klapouzen_byte_at(rows, KLAPOUZEN_ROW, 9000, 4096, 3996, filled()), 0);
    expect("its block", out[KLAPOUZEN_BYTE_BLOCK], 11);
    expect("its byte", out[KLAPOUZEN_BYTE_OFFSET], 0);
    expect("byte_at 9000", klapouzen_byte_at(rows, KLAPOUZEN_ROW, 9000, 4096, 9000, filled()), 2);
}

static void smallest_paths(void)
{
    uint64_t entries[KLAPOUZEN_ENTRY] = { 0 };
    expect("decode of nothing", klapouzen_decode(NONE, NONE, filled()), 0);
    expect_zeros("its bytes", 1);
    expect("decode to nothing", klapouzen_decode(TEXT("&lt;"), NONE, filled()), 10);
    expect_zeros("its bytes", 1);
    expect("path in no entries", klapouzen_path(NONE, NONE, 0, NONE, filled()), 2);
    expect_zeros("its bytes", 1);
    expect("path in a part of an entry", klapouzen_path(NONE, entries, 1, 1, NONE, filled()), 14);
    expect("path of the root", klapouzen_path(NONE, entries, KLAPOUZEN_ENTRY, 0, NONE, filled()), 0);
    expect_zeros("its bytes", 1);
    expect("path behind the root", klapouzen_path(NONE, entries, KLAPOUZEN_ENTRY, 1, NONE, filled()), 2);
}

static void smallest_ansi(void)
{
    expect("ansi of nothing", klapouzen_ansi(NONE, NONE, NONE, filled()), 16);
    expect_zeros("its files", 1);
    expect("ansi_place of nothing", klapouzen_ansi_place(NONE, NONE, filled()), 0);
    expect_zeros("its place", 1);
}

/* ---- The largest lists ---- */

/* All elements but the last are what is kept of them again. */
static void keep_again(const char *what, struct slice list, struct slice store, uint64_t elements)
{
    expect(what, klapouzen_keep(SLICE(list), SLICE(store), elements - 1, filled()), 0);
    uint64_t list_kept = out[KLAPOUZEN_KEPT_LIST], store_kept = out[KLAPOUZEN_KEPT_STORE];
    expect(what, list_kept < list.length, true);
    expect(what, klapouzen_keep(list.start, list_kept, store.start, store_kept, elements, filled()), 0);
    expect(what, out[KLAPOUZEN_KEPT_LIST], list_kept);
    expect(what, out[KLAPOUZEN_KEPT_STORE], store_kept);
}

static void list_of(const char *what, uint64_t blocks, size_t length, uint64_t marks, uint64_t lost, uint64_t wanted)
{
    struct tape tape = { 0 };
    for (uint64_t i = 0; i < blocks; i++)
        tape_filled_block(&tape, 'x', length);
    for (uint64_t i = 0; i < marks; i++)
        tape_mark(&tape);
    for (uint64_t i = 0; i < lost; i++)
        tape_unreadable_block(&tape);
    struct slice list = guarded(&tape.list), store = guarded(&tape.store);
    expect(what, klapouzen_check_list(SLICE(list), SLICE(store), filled()), wanted);
    expect(what, out[0], wanted == 0 ? tape.elements : 0);
    expect(what, klapouzen_keep(SLICE(list), SLICE(store), UINT64_MAX, filled()), wanted);
    expect(what, out[KLAPOUZEN_KEPT_LIST], wanted == 0 ? list.length : 0);
    expect(what, out[KLAPOUZEN_KEPT_STORE], wanted == 0 ? store.length : 0);
    if (wanted == 0)
        keep_again(what, list, store, tape.elements);
    drop(list);
    drop(store);
}

static void largest_lists(void)
{
    list_of("65,536 marks", 0, 0, 65536, 0, 0);
    list_of("65,537 marks", 0, 0, 65537, 0, 1);
    list_of("65,536 blocks, 16 MiB", 65536, 256, 0, 0, 0);
    list_of("65,537 blocks", 65537, 1, 0, 0, 1);
    list_of("16 blocks of 1 MiB", 16, 1048576, 0, 0, 0);
    list_of("17 blocks of 1 MiB", 17, 1048576, 0, 0, 1);
    list_of("a block of 1 MiB and a byte", 1, 1048577, 0, 0, 1);
    list_of("65,536 unreadable blocks", 0, 0, 0, 65536, 0);
    list_of("65,537 unreadable blocks", 0, 0, 0, 65537, 1);
    list_of("65,536 elements of three kinds, 16 MiB", 16, 1048576, 32760, 32760, 0);
    list_of("65,537 elements of three kinds", 16, 1048576, 32760, 32761, 1);
}

/* As many constructs as a list can hold, each with an index of a byte or with an unreadable block. */
static void most_constructs(bool lost)
{
    struct tape tape = { 0 };
    for (int i = 0; i < 4; i++)
        tape_mark(&tape);
    while (tape.elements + 3 <= KLAPOUZEN_MAX_ELEMENTS) {
        tape_mark(&tape);
        if (lost)
            tape_unreadable_block(&tape);
        else
            tape_filled_block(&tape, 'x', 1);
        tape_mark(&tape);
    }
    struct slice list = guarded(&tape.list), store = guarded(&tape.store);
    uint32_t *room = guarded_room(sizeof table);
    memset(room, 0xa5, sizeof table);
    expect("most constructs", klapouzen_constructs(SLICE(list), SLICE(store), 4096, room, filled()), 0);
    expect("their count", out[0], 21844);
    const uint32_t *last = room + (size_t)KLAPOUZEN_CONSTRUCT * 21843;
    expect("the last's first block", last[KLAPOUZEN_CONSTRUCT_FIRST_BLOCK], 65534);
    expect("its elements", last[KLAPOUZEN_CONSTRUCT_KEPT], 65536);
    expect("its text's begin", last[KLAPOUZEN_CONSTRUCT_BEGIN], lost ? 0 : 21843);
    expect("its text's end", last[KLAPOUZEN_CONSTRUCT_END], lost ? 0 : 21844);
    expect("the table's rest", last[KLAPOUZEN_CONSTRUCT], 0xa5a5a5a5);
    expect("the last index", klapouzen_index(SLICE(list), SLICE(store), GIVEN, 'a', 21843, filled()),
           lost ? 19 : 4);
    expect_zeros("its header", KLAPOUZEN_CHOSEN);
    expect("one more", klapouzen_index(SLICE(list), SLICE(store), GIVEN, 'a', 21844, filled()), 2);
    guarded_free(room, sizeof table);
    drop(list);
    drop(store);
}

/* ---- The largest texts ---- */

static const char declaration[] = "<?xml version=\"1.0\" encoding=\"UTF-8\"?>";

/* A text in the form of this length. */
static struct slice text_of(size_t length)
{
    struct buffer text = { 0 };
    put(&text, "%s<a>", declaration);
    put_byte(&text, 'x', length - text.length - 4);
    put(&text, "</a>");
    return guarded(&text);
}

static struct slice nested(int depth)
{
    struct buffer text = { 0 };
    put(&text, "%s", declaration);
    for (int i = 0; i < depth; i++)
        put(&text, "<a>");
    for (int i = 0; i < depth; i++)
        put(&text, "</a>");
    return guarded(&text);
}

static void expect_form(const char *what, struct slice text, uint64_t wanted, uint64_t front)
{
    expect(what, klapouzen_check_form(SLICE(text), filled()), wanted);
    expect(what, out[0], front);
    drop(text);
}

/* The same text with another byte for its last. */
static struct slice ending_in(struct slice text, uint8_t last)
{
    struct buffer other = { 0 };
    put_bytes(&other, text.start, text.length - 1);
    put_byte(&other, last, 1);
    drop(text);
    return guarded(&other);
}

/* A written label, filled up with white space to this length. */
static void label_of(size_t length, uint64_t wanted)
{
    struct buffer text = { 0 };
    uint8_t label[KLAPOUZEN_MAX_LABEL];
    uint64_t written;
    klapouzen_write_label(label, sizeof label, TEXT("LTFS"), TEXT(SAMPLE_TIME), UUID, 'a', 'a', 'b', 524288,
                          1, &written);
    expect("the written label", written, 378);
    put_bytes(&text, label, written);
    put_byte(&text, ' ', length - written);
    struct slice slice = guarded(&text);
    expect("a long label", klapouzen_read_label(SLICE(slice), filled()), wanted);
    expect("its block size", out[KLAPOUZEN_LABEL_BLOCK_SIZE], wanted == 0 ? 524288 : 0);
    drop(slice);
}

/* The writer into exactly its room, and into a byte less. */
static void label_room(void)
{
    uint8_t *room = guarded_room(378);
    memset(room, 7, 378);
    expect("377 bytes", klapouzen_write_label(room, 377, TEXT("LTFS"), TEXT(SAMPLE_TIME), UUID, 'a', 'a', 'b',
                                              524288, 1, filled()), 10);
    for (int i = 0; i < 378; i++)
        expect("an unchanged byte", room[i], 7);
    expect("378 bytes", klapouzen_write_label(room, 378, TEXT("LTFS"), TEXT(SAMPLE_TIME), UUID, 'a', 'a', 'b',
                                              524288, 1, filled()), 0);
    guarded_free(room, 378);
}

static void creator_of(size_t length, uint64_t wanted)
{
    uint8_t label[KLAPOUZEN_MAX_LABEL], creator[300];
    memset(creator, '&', sizeof creator);
    expect("a long creator", klapouzen_write_label(label, sizeof label, creator, length, TEXT(SAMPLE_TIME),
                                                   UUID, 'a', 'a', 'b', 4096, 0, filled()), wanted);
}

static void largest_texts(void)
{
    enum { MOST = KLAPOUZEN_MAX_STORE, DECLARATION = sizeof declaration - 1 };
    expect_form("a text of 16 MiB", text_of(MOST), 0, 0);
    expect_form("one with another last byte", ending_in(text_of(MOST), '<'), 4, MOST - 1);
    expect_form("one that ends too early", ending_in(text_of(MOST), ' '), 4, MOST);
    expect_form("nesting 64", nested(64), 0, 0);
    expect_form("nesting 65", nested(65), 4, DECLARATION + 64 * strlen("<a>") + 1);
    label_of(KLAPOUZEN_MAX_LABEL, 0);
    label_of(KLAPOUZEN_MAX_LABEL + 1, 15);
    label_room();
    creator_of(255, 0);
    creator_of(256, 14);
}

/* ---- The largest indexes ---- */

static const struct index_head head = { .generation = 7, .letter = 'a', .block = 5 };

static void expect_index(const char *what, struct index_text *index, size_t length, uint64_t wanted)
{
    index_end(index);
    if (length > index->text.length)
        put_byte(&index->text, ' ', length - index->text.length);
    struct slice text = guarded(&index->text);
    expect(what, klapouzen_read_index(SLICE(text), GIVEN, 'a', 5, filled()), wanted);
    expect(what, out[KLAPOUZEN_INDEX_GENERATION], wanted == 0 ? 7 : 0);
    expect(what, klapouzen_read_whole(SLICE(text), GIVEN, 'a', 5, NONE, NONE, filled()), wanted == 0 ? 10 : wanted);
    expect_zeros(what, KLAPOUZEN_INDEX);
    drop(text);
}

/* Files without values are refused 6, after they were counted: lawful ones are too long for 4,096. */
static void index_of(const char *what, size_t files, size_t length, uint64_t wanted)
{
    struct index_text index;
    index_begin(&index, &head);
    for (size_t i = 0; i < files; i++)
        put(&index.text, "<file><fileuid/><name/><readonly/><creationtime/><changetime/><modifytime/>"
                         "<accesstime/><backuptime/><length/></file>");
    expect_index(what, &index, length, wanted);
}

static void rows_of(const char *what, size_t count, uint64_t wanted)
{
    struct extent *extents = calloc(count, sizeof *extents);
    struct index_text index;
    for (size_t i = 0; i < count; i++)
        extents[i] = (struct extent){ 'b', i, 0, 1, i };
    index_begin(&index, &head);
    index_file(&index, "f", count, extents, count);
    expect_index(what, &index, 0, wanted);
    free(extents);
}

/* An index with so many rows in files of the most rows; the rows' blocks count on from file to file. */
static struct buffer text_of_rows(size_t rows)
{
    struct extent extents[KLAPOUZEN_MAX_ROWS];
    struct index_text index;
    index_begin(&index, &head);
    for (size_t put = 0; put < rows;) {
        size_t count = 0;
        while (count < KLAPOUZEN_MAX_ROWS && put < rows) {
            extents[count] = (struct extent){ 'b', put++, 0, 1, count };
            count++;
        }
        index_file(&index, "f", KLAPOUZEN_MAX_ROWS, extents, count);
    }
    index_end(&index);
    return index.text;
}

static struct slice index_of_rows(size_t rows)
{
    struct buffer text = text_of_rows(rows);
    return guarded(&text);
}

/* All rows of a file into exactly their room, and into a number less. */
static void row_room(void)
{
    enum { NUMBERS = KLAPOUZEN_ROW * KLAPOUZEN_MAX_ROWS };
    struct slice text = index_of_rows(KLAPOUZEN_MAX_ROWS);
    uint64_t *rows = guarded_room(NUMBERS * sizeof *rows);
    memset(rows, 0xa5, NUMBERS * sizeof *rows);
    expect("short rows", klapouzen_read_rows(SLICE(text), GIVEN, 'a', 5, 0, rows, NUMBERS - 1, filled(), out + 1), 10);
    expect_zeros("their count and their front", 2);
    expect("an unchanged number", rows[0], 0xa5a5a5a5a5a5a5a5);
    expect("all rows", klapouzen_read_rows(SLICE(text), GIVEN, 'a', 5, 0, rows, NUMBERS, filled(), out + 1), 0);
    expect("their count", out[0], KLAPOUZEN_MAX_ROWS);
    expect("their front", out[1], 0);
    expect("the last position", rows[NUMBERS - 1], KLAPOUZEN_MAX_ROWS - 1);
    expect("its byte", klapouzen_byte_at(rows, NUMBERS, 1024, 4096, 1023, filled()), 0);
    expect("its block", out[KLAPOUZEN_BYTE_BLOCK], 1023);
    guarded_free(rows, NUMBERS * sizeof *rows);
    drop(text);
}

/* ---- Whole indexes ---- */

enum { FILLING = 0xa5 };

/* What klapouzen_read_whole puts into exactly its room. */
struct whole {
    struct slice text;
    uint64_t count, row_count;
    uint64_t *entries, *rows;
};

static uint64_t *filled_room(size_t numbers)
{
    uint64_t *room = guarded_room(numbers * sizeof *room);
    for (size_t i = 0; i < numbers; i++)
        room[i] = FILLING;
    return room;
}

static void expect_filled(const char *what, const uint64_t *room, size_t numbers)
{
    for (size_t i = 0; i < numbers; i++)
        expect(what, room[i], FILLING);
}

/* Rooms that are too short: refused, and nothing is changed. */
static void expect_short(const char *what, const struct whole *whole, size_t entries, size_t rows)
{
    expect(what, klapouzen_read_whole(SLICE(whole->text), GIVEN, 'a', 5, whole->entries, entries, whole->rows, rows,
                                      filled()), 10);
    expect_zeros(what, KLAPOUZEN_INDEX);
    expect_filled("an unchanged entry", whole->entries, KLAPOUZEN_ENTRY * whole->count);
    expect_filled("an unchanged row", whole->rows, KLAPOUZEN_ROW * whole->row_count);
}

/* A sound index of so many entries and rows. */
static struct whole read_whole(const char *what, struct slice text, uint64_t count, uint64_t row_count)
{
    uint64_t header[KLAPOUZEN_INDEX];
    size_t entries = KLAPOUZEN_ENTRY * count, rows = KLAPOUZEN_ROW * row_count;
    struct whole whole = { text, count, row_count, filled_room(entries), filled_room(rows) };
    expect(what, klapouzen_read_index(SLICE(text), GIVEN, 'a', 5, header), 0);
    expect(what, header[KLAPOUZEN_INDEX_DIRECTORIES] + header[KLAPOUZEN_INDEX_FILES], count);
    expect(what, header[KLAPOUZEN_INDEX_ROWS], row_count);
    expect_short(what, &whole, entries - 1, rows);
    if (rows > 0)
        expect_short(what, &whole, entries, rows - 1);
    expect(what, klapouzen_read_whole(SLICE(text), GIVEN, 'a', 5, whole.entries, entries, whole.rows, rows, filled()), 0);
    expect(what, memcmp(out, header, sizeof header) != 0, 0);
    return whole;
}

static void drop_whole(struct whole *whole)
{
    guarded_free(whole->entries, KLAPOUZEN_ENTRY * whole->count * sizeof *whole->entries);
    guarded_free(whole->rows, KLAPOUZEN_ROW * whole->row_count * sizeof *whole->rows);
    drop(whole->text);
}

static uint64_t number_of(const struct whole *whole, uint64_t entry, enum klapouzen_entry which)
{
    return whole->entries[KLAPOUZEN_ENTRY * entry + which];
}

/* A path into exactly its room, after a byte less of it was refused and nothing changed. */
static void expect_path(const char *what, const struct whole *whole, uint64_t entry, struct buffer wanted)
{
    size_t numbers = KLAPOUZEN_ENTRY * whole->count;
    uint8_t *room = guarded_room(wanted.length);
    memset(room, FILLING, wanted.length);
    expect(what, klapouzen_path(SLICE(whole->text), whole->entries, numbers, entry, room, wanted.length - 1, filled()), 10);
    expect_zeros(what, 1);
    for (size_t i = 0; i < wanted.length; i++)
        expect("an unchanged byte", room[i], FILLING);
    expect(what, klapouzen_path(SLICE(whole->text), whole->entries, numbers, entry, room, wanted.length, filled()), 0);
    expect(what, out[0], wanted.length);
    expect(what, memcmp(room, wanted.bytes, wanted.length) != 0, 0);
    guarded_free(room, wanted.length);
    buffer_free(&wanted);
}

/* The most files of one extent each: some of them are as the readers of a file have them. */
static void most_files(void)
{
    struct buffer buffer = index_of_size(KLAPOUZEN_MAX_INDEX, false);
    struct slice text = guarded(&buffer);
    expect("their index", klapouzen_read_index(SLICE(text), GIVEN, 'a', 5, filled()), 0);
    uint64_t count = out[KLAPOUZEN_INDEX_FILES], row[KLAPOUZEN_ROW], rows_read, front;
    struct whole whole = read_whole("most files", text, count + 1, count);
    for (uint64_t i = 0; i < count; i += count / 7) {
        const uint64_t *entry = whole.entries + KLAPOUZEN_ENTRY * (i + 1);
        expect("a file", klapouzen_read_file(SLICE(text), GIVEN, 'a', 5, i, filled()), 0);
        expect("its length", entry[KLAPOUZEN_ENTRY_LENGTH], out[KLAPOUZEN_FILE_LENGTH]);
        expect("its name", entry[KLAPOUZEN_ENTRY_NAME], out[KLAPOUZEN_FILE_NAME]);
        expect("its name's length", entry[KLAPOUZEN_ENTRY_NAME_LENGTH], out[KLAPOUZEN_FILE_NAME_LENGTH]);
        expect("its rows", entry[KLAPOUZEN_ENTRY_ROWS], out[KLAPOUZEN_FILE_ROWS]);
        expect("its row", klapouzen_read_rows(SLICE(text), GIVEN, 'a', 5, i, row, KLAPOUZEN_ROW, &rows_read, &front), 0);
        expect("as alone", memcmp(row, whole.rows + KLAPOUZEN_ROW * i, sizeof row) != 0, 0);
        struct buffer path = { 0 };
        put(&path, "recording %05" PRIu64 ".wav", i);
        expect_path("its path", &whole, i + 1, path);
    }
    drop_whole(&whole);
}

/* An entry in the fewest bytes, the kind's own elements as given. */
static void put_small_entry(struct index_text *index, uint64_t uid, const char *kind, const char *own)
{
    static const char *const times[] = { "creation", "change", "modify", "access", "backup" };
    put(&index->text, "<%s><fileuid>%" PRIu64 "</fileuid><name>f</name><readonly>0</readonly>%s", kind, uid, own);
    for (int i = 0; i < 5; i++)
        put(&index->text, "<%stime>" SAMPLE_TIME "</%stime>", times[i], times[i]);
    put(&index->text, "</%s>", kind);
}

/* As many lawful entries as an index has room for, which are below 4,096: directories and files by turns. */
static void most_entries(void)
{
    struct index_text index;
    uint64_t count = 1;
    index_begin(&index, &head);
    while (index.text.length + 512 < KLAPOUZEN_MAX_INDEX) {
        bool file = count % 2 == 0;
        count++;
        put_small_entry(&index, count, file ? "file" : "directory", file ? "<length>9</length>" : "<contents/>");
    }
    index_end(&index);
    struct whole whole = read_whole("most entries", guarded(&index.text), count, 0);
    for (uint64_t i = 1; i < count; i++) {
        expect("its kind", number_of(&whole, i, KLAPOUZEN_ENTRY_KIND), i % 2 == 0);
        expect("its parent", number_of(&whole, i, KLAPOUZEN_ENTRY_PARENT), 0);
        expect("files before it", number_of(&whole, i, KLAPOUZEN_ENTRY_FILE), (i - 1) / 2);
        expect("its fileuid", number_of(&whole, i, KLAPOUZEN_ENTRY_UID), i + 1);
        expect("its length", number_of(&whole, i, KLAPOUZEN_ENTRY_LENGTH), i % 2 == 0 ? 9 : 0);
    }
    drop_whole(&whole);
}

static void whole_rows(size_t count)
{
    size_t files = (count + KLAPOUZEN_MAX_ROWS - 1) / KLAPOUZEN_MAX_ROWS;
    struct whole whole = read_whole("many rows", index_of_rows(count), files + 1, count);
    for (uint64_t i = 0; i < count; i++) {
        expect("a block", whole.rows[KLAPOUZEN_ROW * i + KLAPOUZEN_ROW_STARTBLOCK], i);
        expect("a position", whole.rows[KLAPOUZEN_ROW * i + KLAPOUZEN_ROW_FILEOFFSET], i % KLAPOUZEN_MAX_ROWS);
    }
    for (uint64_t i = 1; i <= files; i++) {
        uint64_t before = KLAPOUZEN_MAX_ROWS * (i - 1), left = count - before;
        expect("its first row", number_of(&whole, i, KLAPOUZEN_ENTRY_FIRST_ROW), before);
        expect("its rows", number_of(&whole, i, KLAPOUZEN_ENTRY_ROWS),
               left < KLAPOUZEN_MAX_ROWS ? left : KLAPOUZEN_MAX_ROWS);
    }
    drop_whole(&whole);
}

/* As many rows as an index has room for. */
static void most_rows(void)
{
    size_t count = 6 * KLAPOUZEN_MAX_ROWS, length = 0;
    while (length <= KLAPOUZEN_MAX_INDEX) {
        count += 32;
        struct buffer text = text_of_rows(count);
        length = text.length;
        buffer_free(&text);
    }
    whole_rows(count - 32);
}

/* Directories as deep as they may stand, the innermost ones side by side. */
static void deepest_paths(void)
{
    enum { DEPTH = 30 };
    struct buffer text = nested_index(KLAPOUZEN_MAX_INDEX, DEPTH);
    struct slice slice = guarded(&text);
    expect("its index", klapouzen_read_index(SLICE(slice), GIVEN, 'a', 5, filled()), 0);
    struct whole whole = read_whole("deepest", slice, out[KLAPOUZEN_INDEX_DIRECTORIES], 0);
    for (uint64_t i = 1; i < whole.count; i++) {
        expect("its parent", number_of(&whole, i, KLAPOUZEN_ENTRY_PARENT), i < DEPTH ? i - 1 : DEPTH - 1);
        expect("its fileuid", number_of(&whole, i, KLAPOUZEN_ENTRY_UID), i + 1);
    }
    struct buffer path = { 0 };
    for (int i = 1; i < DEPTH; i++)
        put(&path, "nested/");
    put(&path, "innermost");
    expect_path("the deepest path", &whole, whole.count - 1, path);
    drop_whole(&whole);
}

/* In directories as deep as a file may stand: one with an extent, and one whose attributes go down to this nesting. */
static struct slice index_of_nesting(int nesting)
{
    enum { FILE_AND_ATTRIBUTES = 2 };
    struct extent extent = { 'b', 4, 0, 1, 0 };
    struct index_text index;
    index_begin(&index, &head);
    while (index.depth < KLAPOUZEN_MAX_NESTING - 5)
        index_directory(&index, "d");
    index_file(&index, "rows", 1, &extent, 1);
    index_attributes(&index, "attributes", nesting - index.depth - FILE_AND_ATTRIBUTES);
    index_end(&index);
    return guarded(&index.text);
}

static void deepest_elements(void)
{
    enum { DIRECTORIES = 29 };
    struct slice deeper = index_of_nesting(KLAPOUZEN_MAX_NESTING + 1);
    struct whole whole = read_whole("nesting 64", index_of_nesting(KLAPOUZEN_MAX_NESTING), DIRECTORIES + 2, 1);
    for (int i = 0; i < 2; i++) {
        expect("its parent", number_of(&whole, DIRECTORIES + i, KLAPOUZEN_ENTRY_PARENT), DIRECTORIES - 1);
        expect("files before it", number_of(&whole, DIRECTORIES + i, KLAPOUZEN_ENTRY_FILE), i);
        expect("rows before it", number_of(&whole, DIRECTORIES + i, KLAPOUZEN_ENTRY_FIRST_ROW), i);
        expect("its rows", number_of(&whole, DIRECTORIES + i, KLAPOUZEN_ENTRY_ROWS), 1 - i);
    }
    expect("nesting 65", klapouzen_read_whole(SLICE(deeper), GIVEN, 'a', 5, NONE, NONE, filled()), 4);
    drop_whole(&whole);
    drop(deeper);
}

/* A path of the longest names, each character a reference. */
static void longest_path(void)
{
    enum { DEPTH = 30, CHARACTERS = 255 };
    char name[6 * CHARACTERS + 1];
    struct buffer path = { 0 };
    struct index_text index;
    for (int i = 0; i < CHARACTERS; i++)
        memcpy(name + 6 * i, "&quot;", 7);
    index_begin(&index, &head);
    for (int i = 0; i < DEPTH; i++) {
        index_directory(&index, name);
        put_byte(&path, '/', i > 0);
        put_byte(&path, '"', CHARACTERS);
    }
    index_end(&index);
    struct whole whole = read_whole("longest names", guarded(&index.text), DEPTH + 1, 0);
    expect_path("the longest path", &whole, DEPTH, path);
    drop_whole(&whole);
}

/* A table that no index has: each entry in the one before it, as many as there may be elements. */
static void longest_table(void)
{
    enum { COUNT = KLAPOUZEN_MAX_ELEMENTS };
    struct buffer path = { 0 };
    struct whole whole = { { guarded_copy("x", 1), 1 }, COUNT, 0, filled_room(KLAPOUZEN_ENTRY * COUNT), NULL };
    for (uint64_t i = 0; i < COUNT; i++) {
        uint64_t *entry = whole.entries + KLAPOUZEN_ENTRY * i;
        entry[KLAPOUZEN_ENTRY_PARENT] = i - (i > 0);
        entry[KLAPOUZEN_ENTRY_NAME] = 0;
        entry[KLAPOUZEN_ENTRY_NAME_LENGTH] = 1;
    }
    for (int i = 1; i < COUNT; i++)
        put_bytes(&path, i > 1 ? "/x" : "x", i > 1 ? 2 : 1);
    expect_path("the longest table's path", &whole, COUNT - 1, path);
    drop_whole(&whole);
}

/* So many times a spelling and what is left of it, into exactly its room and into a byte less. */
static void decode_of(const char *spelled, const char *decoded, size_t times)
{
    struct buffer buffer = { 0 };
    size_t length = times * strlen(decoded);
    for (size_t i = 0; i < times; i++)
        put_bytes(&buffer, spelled, strlen(spelled));
    struct slice text = guarded(&buffer);
    uint8_t *room = guarded_room(length);
    memset(room, FILLING, length);
    expect("a long text", klapouzen_decode(SLICE(text), room, length - 1, filled()), 10);
    expect_zeros("its bytes", 1);
    expect("an unchanged byte", room[0] == FILLING && room[length - 1] == FILLING, true);
    expect("a long text", klapouzen_decode(SLICE(text), room, length, filled()), 0);
    expect("its bytes", out[0], length);
    for (size_t i = 0; i < length; i += strlen(decoded))
        expect("decoded", memcmp(room + i, decoded, strlen(decoded)) != 0, 0);
    guarded_free(room, length);
    drop(text);
}

/* An index without files needs no room for rows. */
static void no_files(void)
{
    struct index_text index;
    index_begin(&index, &head);
    index_end(&index);
    struct whole whole = read_whole("no files", guarded(&index.text), 1, 0);
    const uint64_t wanted[KLAPOUZEN_ENTRY] = { 0, 0, 0, 1, number_of(&whole, 0, KLAPOUZEN_ENTRY_NAME), strlen("sample") };
    expect("the root directory", memcmp(whole.entries, wanted, sizeof wanted) != 0, 0);
    expect("its name", memcmp(whole.text.start + wanted[KLAPOUZEN_ENTRY_NAME], "sample", strlen("sample")) != 0, 0);
    expect("its path", klapouzen_path(SLICE(whole.text), wanted, KLAPOUZEN_ENTRY, 0, NONE, filled()), 0);
    expect_zeros("its bytes", 1);
    drop_whole(&whole);
}

static void map_of(size_t count, uint64_t wanted)
{
    size_t size = KLAPOUZEN_ROW * count * sizeof(uint64_t);
    uint64_t *rows = guarded_room(size);
    for (size_t i = 0; i < count; i++)
        memcpy(rows + KLAPOUZEN_ROW * i, (uint64_t[]){ 'z', UINT64_MAX, 0, 1, i }, 5 * sizeof *rows);
    expect("many rows", klapouzen_byte_at(rows, KLAPOUZEN_ROW * count, UINT64_MAX, 1048576, count - 1, filled()),
           wanted);
    guarded_free(rows, size);
}

static void largest_indexes(void)
{
    index_of("an index of 1 MiB", 0, KLAPOUZEN_MAX_INDEX, 0);
    index_of("an index of 1 MiB and a byte", 0, KLAPOUZEN_MAX_INDEX + 1, 15);
    index_of("4,096 entries", KLAPOUZEN_MAX_ENTRIES - 1, 0, 6);
    index_of("4,097 entries", KLAPOUZEN_MAX_ENTRIES, 0, 15);
    rows_of("1,024 extents", 1024, 0);
    rows_of("1,025 extents", 1025, 15);
    row_room();
    no_files();
    most_files();
    most_entries();
    whole_rows(4096);
    whole_rows(4097);
    most_rows();
    map_of(1024, 0);
    map_of(1025, 15);
}

static void largest_paths(void)
{
    deepest_paths();
    deepest_elements();
    longest_path();
    longest_table();
    decode_of("&amp;", "&", KLAPOUZEN_MAX_INDEX / 5);
    decode_of("&amp;lt;&lt", "&lt;&lt", KLAPOUZEN_MAX_INDEX / 11);
    decode_of("&", "&", KLAPOUZEN_MAX_STORE);
    decode_of("x", "x", KLAPOUZEN_MAX_STORE);
}

/* ---- The largest volume ---- */

/* 65,536 elements on each side, and a store of nearly 16 MiB or none of its data blocks readable. */
static void largest_volume(bool lost)
{
    struct sample sample;
    sample_begin(&sample, 4096);
    for (int side = 1; side >= 0; side--) {
        struct tape *tape = &sample.sides[side];
        while (tape->elements + 3 < KLAPOUZEN_MAX_ELEMENTS)
            if (lost)
                tape_unreadable_block(tape);
            else
                tape_filled_block(tape, 'x', 255);
        sample_empty_index(&sample, side);
    }
    struct slice parts[4] = { guarded(&sample.sides[0].list), guarded(&sample.sides[0].store),
                              guarded(&sample.sides[1].list), guarded(&sample.sides[1].store) };
#define PARTS SLICE(parts[0]), SLICE(parts[1]), SLICE(parts[2]), SLICE(parts[3])
    expect("labels", klapouzen_check_labels(PARTS, filled()), 0);
    expect("verdict", klapouzen_verdict(PARTS, filled()), 0);
    expect("break", out[KLAPOUZEN_BREAK_WHICH], 0);
    expect("rescue", klapouzen_rescue(PARTS, filled()), 0);
    expect("kept", out[KLAPOUZEN_CUT_DATA_KEPT], KLAPOUZEN_MAX_ELEMENTS);
    expect("data block", klapouzen_block(PARTS, 'a', 'b', 'b', 65532, filled()), lost ? 19 : 0);
    expect("block", klapouzen_block(PARTS, 'a', 'b', 'b', 65534, filled()), 0);
    expect("mark", klapouzen_block(PARTS, 'a', 'b', 'b', 65535, filled()), 2);
    expect("past", klapouzen_block(PARTS, 'a', 'b', 'b', 65536, filled()), 2);
    for (int i = 0; i < 4; i++)
        drop(parts[i]);
}

/* An index of as many unreadable blocks as a side has room for: it stands, and nothing is known of it. */
static void largest_lost_index(void)
{
    struct sample sample;
    sample_begin(&sample, 4096);
    struct tape *data = &sample.sides[1];
    tape_mark(data);
    while (data->elements + 1 < KLAPOUZEN_MAX_ELEMENTS)
        tape_unreadable_block(data);
    tape_mark(data);
    sample_empty_index(&sample, 0);
    expect("its constructs", klapouzen_constructs(TAPE(*data), 4096, table, filled()), 0);
    expect("their count", out[0], 1);
    expect("its first block", table[KLAPOUZEN_CONSTRUCT_FIRST_BLOCK], 5);
    expect("its elements", table[KLAPOUZEN_CONSTRUCT_KEPT], KLAPOUZEN_MAX_ELEMENTS);
    expect("its begin", table[KLAPOUZEN_CONSTRUCT_BEGIN], data->store.length);
    expect("its end", table[KLAPOUZEN_CONSTRUCT_END], data->store.length);
    expect("the index", klapouzen_index(TAPE(*data), GIVEN, 'b', 0, filled()), 19);
    expect("verdict", klapouzen_verdict(SAMPLE(&sample), filled()), 0);
    expect("break", out[KLAPOUZEN_BREAK_WHICH], 3);
    expect("its construct", out[KLAPOUZEN_BREAK_NUMBER], 0);
    expect("rescue", klapouzen_rescue(SAMPLE(&sample), filled()), 13);
    sample_free(&sample);
}

/* ---- The longest reads ---- */

/* Blocks of so many bytes in all, behind each an unreadable one, so far that an index construct fills the list. */
static void put_long_run(struct tape *tape, uint64_t bytes)
{
    uint64_t blocks = (KLAPOUZEN_MAX_ELEMENTS - 3 - tape->elements + 1) / 2;
    for (uint64_t i = 0; tape->elements + 3 < KLAPOUZEN_MAX_ELEMENTS; i++)
        if (i % 2 == 1)
            tape_unreadable_block(tape);
        else
            tape_filled_block(tape, 'x', bytes / blocks + (i / 2 < bytes % blocks));
}

/* An index construct on each side, a long run, and another. */
static void long_volume(struct sample *sample, const uint64_t bytes[2])
{
    sample_begin(sample, 4096);
    sample_unmount(sample);
    sample->generation++;
    put_long_run(&sample->sides[0], bytes[0]);
    put_long_run(&sample->sides[1], bytes[1]);
    sample_unmount(sample);
}

/* The same with as many bytes in the runs as make the stores full. */
static void full_volume(struct sample *sample)
{
    uint64_t bytes[2] = { KLAPOUZEN_MAX_ELEMENTS, KLAPOUZEN_MAX_ELEMENTS };
    long_volume(sample, bytes);
    for (int side = 0; side < 2; side++)
        bytes[side] += KLAPOUZEN_MAX_STORE - sample->sides[side].store.length;
    sample_free(sample);
    long_volume(sample, bytes);
    for (int side = 0; side < 2; side++) {
        expect("its elements", sample->sides[side].elements, KLAPOUZEN_MAX_ELEMENTS);
        expect("its bytes", sample->sides[side].store.length, KLAPOUZEN_MAX_STORE);
    }
}

/* From fronts through the first constructs, into the runs and short of the last mark. */
static void expect_read_on(const struct read *longer, const uint64_t wanted[KLAPOUZEN_CUT])
{
    static const uint64_t ends[] = { 7, 8, 40000, 65533, 65535 }, first[KLAPOUZEN_CUT] = { 0, 0, 7, 7, 1 };
    uint64_t after[KLAPOUZEN_CUT], refusal = klapouzen_rescue(READ(longer), after);
    expect("the longest read's cut", is_same_cut(after, wanted), true);
    for (size_t i = 0; i < sizeof ends / sizeof ends[0]; i++) {
        struct read front = front_of(longer, ends[i], ends[sizeof ends / sizeof ends[0] - 1 - i]);
        expect("a front's rescue", klapouzen_rescue(READ(&front), filled()), 0);
        expect("its cut", is_same_cut(out, first), true);
        const char *found = harm(&front, longer, first, refusal, after);
        expect(found == NULL ? "reading on" : found, found == NULL, true);
    }
}

/* The most elements and bytes on both sides. On the side that is `torn`, if it is one, the last mark was not read. */
static void longest_read(int torn)
{
    struct sample sample;
    full_volume(&sample);
    if (torn < 2)
        sample.sides[torn].list.bytes[sample.sides[torn].list.length - 1] = 3;
    struct slice parts[4] = { guarded(&sample.sides[0].list), guarded(&sample.sides[0].store),
                              guarded(&sample.sides[1].list), guarded(&sample.sides[1].store) };
    struct read read = READ_OF(parts);
    static const uint64_t cuts[2][KLAPOUZEN_CUT] = { { 0, 0, 7, 7, 1 }, { 1, 1, 65536, 65536, 2 } };
    expect_read_on(&read, cuts[torn == 2]);
    for (int i = 0; i < 4; i++)
        drop(parts[i]);
}

/* ---- ANSI labelled tapes ---- */

/* As ansi_file writes it, behind files of seven elements each. */
static void expect_file(const uint8_t *file, uint64_t number)
{
    char labels[KLAPOUZEN_ANSI_ELEMENT + 1];
    uint64_t element = 0;
    snprintf(labels, sizeof labels, "FILE%06u.DAT   F2048000080", (unsigned)(number + 1) % 1000000);
    expect("a file's labels", memcmp(file, labels, KLAPOUZEN_ANSI_ELEMENT) != 0, 0);
    for (int i = KLAPOUZEN_ANSI_ELEMENT; i < KLAPOUZEN_ANSI_FILE; i++)
        element = element << 8 | file[i];
    expect("its element", element, 7 * number + 4);
}

/* Into exactly their room, after a byte less of it was refused and nothing changed. */
static void expect_files(const char *what, struct slice list, struct slice store, uint64_t count)
{
    size_t size = KLAPOUZEN_ANSI_FILE * count;
    uint8_t *room = guarded_room(size);
    memset(room, 0xa5, size);
    expect(what, klapouzen_ansi(SLICE(list), SLICE(store), NONE, filled()), 10);
    expect(what, klapouzen_ansi(SLICE(list), SLICE(store), room, size - 1, filled()), 10);
    expect_zeros(what, 1);
    for (size_t i = 0; i < size; i++)
        expect("an unchanged byte", room[i], 0xa5);
    expect(what, klapouzen_ansi(SLICE(list), SLICE(store), room, size, filled()), 0);
    expect(what, out[0], count);
    for (uint64_t i = 0; i < count; i++)
        expect_file(room + KLAPOUZEN_ANSI_FILE * i, i);
    guarded_free(room, size);
}

/* The tape's place, and its files or its refusal; it is gone afterwards. */
static void expect_ansi(const char *what, struct tape *tape, uint64_t refusal, uint64_t place, uint64_t files)
{
    struct slice list = guarded(&tape->list), store = guarded(&tape->store);
    expect(what, klapouzen_ansi_place(SLICE(list), SLICE(store), filled()), refusal == 1 ? 1 : 0);
    expect(what, out[0], place);
    if (refusal == 0) {
        expect_files(what, list, store, files);
    } else {
        expect(what, klapouzen_ansi(SLICE(list), SLICE(store), NONE, filled()), refusal);
        expect_zeros(what, 1);
    }
    drop(list);
    drop(store);
}

static void most_ansi_files(void)
{
    struct tape tape;
    ansi_most_files(&tape);
    expect("their elements", tape.elements, KLAPOUZEN_MAX_ELEMENTS);
    expect_ansi("9,362 files", &tape, 0, 65536, 9362);
    ansi_most_files(&tape);
    tape_mark(&tape);
    expect_ansi("an element more", &tape, 1, 0, 0);
    ansi_most_files(&tape);
    tape.list.length--;
    expect_ansi("an element less", &tape, 16, 65535, 0);
}

/* One file. */
static void ansi_blocks(const char *what, size_t blocks, size_t length, uint64_t refusal, uint64_t place)
{
    struct tape tape;
    ansi_begin(&tape);
    ansi_file(&tape, 1, blocks, length);
    ansi_end(&tape);
    expect_ansi(what, &tape, refusal, place, 1);
}

/* The most data blocks, and one told that is not there. */
static void most_ansi_blocks(void)
{
    enum { BLOCKS = KLAPOUZEN_MAX_ELEMENTS - 9, COUNT_END = 3 * 80 + 18 * BLOCKS + 60 };
    struct tape tape;
    ansi_blocks("65,527 data blocks", BLOCKS, 18, 0, 65536);
    ansi_blocks("65,528 data blocks", BLOCKS + 1, 18, 1, 0);
    ansi_begin(&tape);
    ansi_file(&tape, 1, BLOCKS, 18);
    ansi_end(&tape);
    tape.store.bytes[COUNT_END - 1]++;
    expect_ansi("another count", &tape, 18, 65532, 0);
}

/* The last of the most data blocks can't be read, or no element of the longest tape can. */
static void lost_ansi_blocks(void)
{
    enum { BLOCKS = KLAPOUZEN_MAX_ELEMENTS - 9, LAST = 3 * 5 + 1 + 5 * (BLOCKS - 1) };
    struct tape tape;
    ansi_begin(&tape);
    ansi_file(&tape, 1, BLOCKS, 18);
    ansi_end(&tape);
    tape.list.bytes[LAST] = 3;
    memmove(tape.list.bytes + LAST + 1, tape.list.bytes + LAST + 5, tape.list.length - LAST - 5);
    tape.list.length -= 4;
    memmove(tape.store.bytes + 3 * 80, tape.store.bytes + 3 * 80 + 18, tape.store.length - 3 * 80 - 18);
    tape.store.length -= 18;
    expect_ansi("the last data block unreadable", &tape, 16, 65530, 0);
    tape = (struct tape){ 0 };
    while (tape.elements < KLAPOUZEN_MAX_ELEMENTS)
        tape_unreadable_block(&tape);
    expect_ansi("65,536 unreadable blocks", &tape, 16, 0, 0);
}

static void largest_ansi(void)
{
    most_ansi_files();
    most_ansi_blocks();
    lost_ansi_blocks();
    ansi_blocks("no data blocks", 0, 0, 0, 9);
    ansi_blocks("data blocks of 17 bytes", 1, 17, 16, 4);
    ansi_blocks("data blocks of 18 bytes", 1, 18, 0, 10);
    ansi_blocks("data blocks of 20,480 bytes", 1, 20480, 0, 10);
    ansi_blocks("data blocks of 20,481 bytes", 1, 20481, 16, 4);
    ansi_blocks("16 MB of data blocks", 819, 20480, 0, 828);
    ansi_blocks("more than a store holds", 820, 20480, 1, 0);
}

int main(void)
{
    refusal_texts();
    smallest_elements();
    smallest_lists();
    smallest_texts();
    smallest_indexes();
    smallest_paths();
    smallest_ansi();
    largest_lists();
    most_constructs(false);
    most_constructs(true);
    largest_texts();
    largest_indexes();
    largest_paths();
    largest_volume(false);
    largest_volume(true);
    largest_lost_index();
    for (int torn = 0; torn <= 2; torn++)
        longest_read(torn);
    largest_ansi();
    return failures > 0;
}
