/*
 * What a caller gives outside its rule: 14, once for each cause that klapouzen.h
 * names, and once with nothing wrong; and 19, which comes after it. After every
 * refusal all outputs are zero, and no byte of a buffer is changed.
 */
#include <ctype.h>
#include <inttypes.h>
#include <stdio.h>
#include <string.h>

#include "klapouzen.h"
#include "sample.h"

static int failures;

#define NONE NULL, 0
#define NO_VOLUME NONE, NONE, NONE, NONE
#define WORD(text) (const uint8_t *)(text), strlen(text)

/* What a function may write, filled before each call. */
static uint64_t out[KLAPOUZEN_CHOSEN], numbers[KLAPOUZEN_ROW], entries[KLAPOUZEN_ENTRY];
static uint8_t buffer[KLAPOUZEN_MAX_LABEL];
static uint32_t table[KLAPOUZEN_CONSTRUCT_TABLE];

static void fill(void)
{
    memset(out, 0xa5, sizeof out);
    memset(numbers, 0xa5, sizeof numbers);
    memset(entries, 0xa5, sizeof entries);
    memset(buffer, 0xa5, sizeof buffer);
    memset(table, 0xa5, sizeof table);
}

static int is_filled(const void *memory, size_t size)
{
    const uint8_t *bytes = memory;
    while (size > 0 && bytes[size - 1] == 0xa5)
        size--;
    return size == 0;
}

static void fail(const char *function, const char *what, uint64_t found)
{
    fprintf(stderr, "%s, %s: %" PRIu64 "\n", function, what, found);
    failures++;
}

/* So many zeros at the front of out, and all else as it was. */
static int is_as_refused(size_t handed)
{
    static const uint64_t zeros[KLAPOUZEN_CHOSEN];
    size_t size = handed * sizeof *out;
    return memcmp(out, zeros, size) == 0 && is_filled(out + handed, sizeof out - size)
        && is_filled(numbers, sizeof numbers) && is_filled(entries, sizeof entries)
        && is_filled(buffer, sizeof buffer) && is_filled(table, sizeof table);
}

/* The answer; where it is a refusal, what the function leaves in memory too. */
static void expect(const char *function, const char *what, uint64_t found, uint64_t wanted, size_t handed)
{
    if (found != wanted)
        fail(function, what, found);
    if (wanted != 0 && !is_as_refused(handed))
        fail(function, "its outputs and buffers", found);
    fill();
}

/* ---- The readers of indexes, blocks and constructs ---- */

/* 0 for nothing wrong: the empty text, list or volume is looked at then. */
static const struct volume_given {
    uint64_t refusal;
    const char *what, *uuid;
    uint8_t index, data, letter;
    uint64_t size;
} volumes[] = {
    { 0, "nothing wrong", SAMPLE_UUID, 'a', 'z', 'z', 4096 },
    { 0, "the largest blocks", SAMPLE_UUID, 'z', 'a', 'z', 1048576 },
    { 14, "no UUID", "", 'a', 'b', 'a', 4096 },
    { 14, "a digit less", "30a91a08-daae-48d1-ae75-69804e61d2e", 'a', 'b', 'a', 4096 },
    { 14, "a digit more", "30a91a08-daae-48d1-ae75-69804e61d2eaa", 'a', 'b', 'a', 4096 },
    { 14, "no hex digit", "30a91a08-daae-48d1-ae75-69804e61d2eg", 'a', 'b', 'a', 4096 },
    { 14, "a hyphen elsewhere", "30a91a0-8daae-48d1-ae75-69804e61d2ea", 'a', 'b', 'a', 4096 },
    { 14, "index letter before a", SAMPLE_UUID, '`', 'b', 'b', 4096 },
    { 14, "data letter behind z", SAMPLE_UUID, 'a', '{', 'a', 4096 },
    { 14, "the same letter twice", SAMPLE_UUID, 'a', 'a', 'a', 4096 },
    { 14, "a letter that is neither", SAMPLE_UUID, 'a', 'b', 'c', 4096 },
    { 14, "small blocks", SAMPLE_UUID, 'a', 'b', 'a', 4095 },
    { 14, "large blocks", SAMPLE_UUID, 'a', 'b', 'a', 1048577 },
};

static void read_with(const struct volume_given *v)
{
    uint64_t wanted = v->refusal == 14 ? 14 : KLAPOUZEN_BAD_FORM;
    uint64_t missing = v->refusal == 14 ? 14 : KLAPOUZEN_MISSING;
#define TEXT NONE, WORD(v->uuid), v->index, v->data, v->size, v->letter, 5
    expect("read_index", v->what, klapouzen_read_index(TEXT, out), wanted, KLAPOUZEN_INDEX);
    expect("read_file", v->what, klapouzen_read_file(TEXT, 0, out), wanted, KLAPOUZEN_FILE);
    expect("read_rows", v->what, klapouzen_read_rows(TEXT, 0, numbers, KLAPOUZEN_ROW, out, out + 1), wanted, 2);
    expect("read_whole", v->what,
           klapouzen_read_whole(TEXT, entries, KLAPOUZEN_ENTRY, numbers, KLAPOUZEN_ROW, out), wanted, KLAPOUZEN_INDEX);
    expect("read_whole, no room", v->what, klapouzen_read_whole(TEXT, NONE, NONE, out), wanted, KLAPOUZEN_INDEX);
    expect("index", v->what,
           klapouzen_index(NONE, NONE, WORD(v->uuid), v->index, v->data, v->size, v->letter, 0, out), missing,
           KLAPOUZEN_CHOSEN);
#undef TEXT
}

/* Four marks for the labels, an unreadable block, a mark, another one as an index, a mark. */
static const uint8_t lost[] = { 1, 1, 1, 1, 3, 1, 3, 1 };

#define LOST lost, sizeof lost, NONE
#define LOST_AND_MORE lost, sizeof lost, lost, 1

/* 19 comes behind 14, 1 and 2. */
static void lose_with(const struct volume_given *v)
{
    int is_volume = v->refusal == 0;
#define GIVEN WORD(v->uuid), v->index, v->data, v->size, v->letter
    expect("index of an unreadable block", v->what, klapouzen_index(LOST, GIVEN, 0, out), is_volume ? 19 : 14,
           KLAPOUZEN_CHOSEN);
    expect("index, bad list", v->what, klapouzen_index(LOST_AND_MORE, GIVEN, 0, out), is_volume ? 1 : 14,
           KLAPOUZEN_CHOSEN);
    expect("index, missing", v->what, klapouzen_index(LOST, GIVEN, 1, out), is_volume ? 2 : 14, KLAPOUZEN_CHOSEN);
#undef GIVEN
}

static void block_with(uint8_t letter, uint64_t number, uint64_t wanted)
{
    expect("block", "unreadable ones", klapouzen_block(LOST, LOST, 'a', 'b', letter, number, out), wanted,
           KLAPOUZEN_BLOCK);
    uint64_t refusal = wanted == 14 ? 14 : KLAPOUZEN_BAD_LIST;
    expect("block", "the index side's list", klapouzen_block(LOST_AND_MORE, LOST, 'a', 'b', letter, number, out),
           refusal, KLAPOUZEN_BLOCK);
    expect("block", "the data side's list", klapouzen_block(LOST, LOST_AND_MORE, 'a', 'b', letter, number, out),
           refusal, KLAPOUZEN_BLOCK);
}

static void blocks_with(void)
{
    for (uint64_t number = 0; number <= sizeof lost; number++) {
        uint64_t wanted = number == 4 || number == 6 ? KLAPOUZEN_UNREADABLE_BLOCK : KLAPOUZEN_MISSING;
        block_with('a', number, wanted);
        block_with('b', number, wanted);
        block_with('c', number, 14);
    }
}

/* Each byte in each place of a UUID, of no index and of one: no digit, a digit of either case, or another one. */
static void digits_with(void)
{
    static const char sample[] = SAMPLE_UUID;
    struct index_text index;
    index_begin(&index, &(struct index_head){ .generation = 1, .letter = 'a', .block = 5 });
    index_end(&index);
    for (size_t place = 0; place < sizeof sample - 1; place++)
        for (int byte = 0; byte < 256; byte++) {
            uint8_t uuid[sizeof sample - 1];
            memcpy(uuid, sample, sizeof uuid);
            uuid[place] = (uint8_t)byte;
            int may_stand = sample[place] == '-' ? byte == '-' : isxdigit(byte) != 0;
            uint64_t found = klapouzen_read_index(NONE, uuid, sizeof uuid, 'a', 'b', 4096, 'a', 5, out);
            if (found != (may_stand ? KLAPOUZEN_BAD_FORM : 14))
                fail("read_index", "a byte of the UUID", found);
            uint64_t wanted = tolower(byte) == tolower(sample[place]) ? 0 : KLAPOUZEN_DISAGREEMENT;
            found = klapouzen_read_index(index.text.bytes, index.text.length, uuid, sizeof uuid, 'a', 'b', 4096, 'a', 5,
                                         out);
            if (found != (may_stand ? wanted : 14))
                fail("read_index", "a byte of the UUID, of an index", found);
        }
    buffer_free(&index.text);
    fill();
}

/* These are given the letters alone, or the block size alone. */
static void find_with(const struct volume_given *v)
{
    int is_outside = v->index < 'a' || v->data > 'z' || v->index == v->data;
    int is_neither = v->letter != v->index && v->letter != v->data;
    int has_size = v->size >= KLAPOUZEN_MIN_BLOCK_SIZE && v->size <= KLAPOUZEN_MAX_BLOCK_SIZE;
    expect("block", v->what, klapouzen_block(NO_VOLUME, v->index, v->data, v->letter, 0, out),
           is_outside || is_neither ? 14 : KLAPOUZEN_MISSING, KLAPOUZEN_BLOCK);
    expect("constructs", v->what, klapouzen_constructs(NONE, NONE, v->size, table, out), has_size ? 0 : 14, 1);
}

/* ---- The writers ---- */

static const struct {
    uint64_t refusal;
    const char *what, *identifier, *owner;
} vol1s[] = {
    { 0, "nothing wrong", " ~0001", "              " },
    { 14, "an identifier of 5", "KLA00", "Klapouzen     " },
    { 14, "an identifier of 7", "KLA0001", "Klapouzen     " },
    { 14, "an owner of 13", "KLA001", "Klapouzen    " },
    { 14, "an owner of 15", "KLA001", "Klapouzen      " },
    { 14, "a byte 31", "KLA00\x1f", "Klapouzen     " },
    { 14, "a byte 127", "KLA001", "Klapouzen    \x7f" },
};

#define TIME SAMPLE_TIME
#define LETTERS 'a', 'a', 'b'

static const struct label_given {
    uint64_t refusal;
    const char *what, *creator, *time, *uuid;
    uint8_t location, index, data;
    uint64_t size, compression;
} labels[] = {
    { 0, "nothing wrong", "c <&> \xc3\x9f", TIME, SAMPLE_UUID, LETTERS, 4096, 1 },
    { 14, "no creator", "", TIME, SAMPLE_UUID, LETTERS, 4096, 1 },
    { 14, "a byte 31", "c\x1f", TIME, SAMPLE_UUID, LETTERS, 4096, 1 },
    { 14, "a cut character", "c\xc3", TIME, SAMPLE_UUID, LETTERS, 4096, 1 },
    { 14, "U+FFFF, not XML's", "\xef\xbf\xbf", TIME, SAMPLE_UUID, LETTERS, 4096, 1 },
    { 14, "no fraction", "c", "2026-11-15T05:00:00Z", SAMPLE_UUID, LETTERS, 4096, 1 },
    { 14, "month 13", "c", "2026-13-15T05:00:00.000000000Z", SAMPLE_UUID, LETTERS, 4096, 1 },
    { 14, "day 0", "c", "2026-11-00T05:00:00.000000000Z", SAMPLE_UUID, LETTERS, 4096, 1 },
    { 0, "day 31 of any month", "c", "2026-02-31T05:00:00.000000000Z", SAMPLE_UUID, LETTERS, 4096, 1 },
    { 14, "hour 24", "c", "2026-11-15T24:00:00.000000000Z", SAMPLE_UUID, LETTERS, 4096, 1 },
    { 14, "second 60", "c", "2026-11-15T05:00:60.000000000Z", SAMPLE_UUID, LETTERS, 4096, 1 },
    { 14, "no UUID", "c", TIME, "", LETTERS, 4096, 1 },
    { 14, "a location that is neither", "c", TIME, SAMPLE_UUID, 'c', 'a', 'b', 4096, 1 },
    { 14, "the same letter twice", "c", TIME, SAMPLE_UUID, 'a', 'a', 'a', 4096, 1 },
    { 14, "index letter before a", "c", TIME, SAMPLE_UUID, 'b', '`', 'b', 4096, 1 },
    { 14, "small blocks", "c", TIME, SAMPLE_UUID, LETTERS, 4095, 1 },
    { 14, "large blocks", "c", TIME, SAMPLE_UUID, LETTERS, 1048577, 1 },
    { 14, "compression 2", "c", TIME, SAMPLE_UUID, LETTERS, 4096, 2 },
};

static void write_with(const struct label_given *l)
{
    expect("write_label", l->what,
           klapouzen_write_label(buffer, sizeof buffer, WORD(l->creator), WORD(l->time), WORD(l->uuid), l->location,
                                 l->index, l->data, l->size, l->compression, out),
           l->refusal, 1);
}

static void creator_of(size_t length, uint64_t wanted)
{
    char creator[257];
    memset(creator, '&', length);
    creator[length] = '\0';
    write_with(&(struct label_given){ wanted, "a long creator", creator, TIME, SAMPLE_UUID, LETTERS, 4096, 1 });
}

/* ---- Rows ---- */

static void map_with(const char *what, uint8_t letter, size_t length, uint64_t size, uint64_t wanted)
{
    const uint64_t row[KLAPOUZEN_ROW + 1] = { letter, 4, 0, 1, 0 };
    expect("byte_at", what, klapouzen_byte_at(row, length, 1, size, 0, out), wanted, KLAPOUZEN_BYTE);
}

/* ---- Paths ---- */

/* The root, a directory in it, and a file in that. What is wrong is in the directory. */
static void path_with(const char *what, uint64_t parent, uint64_t name, uint64_t name_length, uint64_t wanted)
{
    static const char text[] = "abc&lt;d";
    const uint64_t given[3 * KLAPOUZEN_ENTRY] = {
        9, 9, 9, 9, 99, 99, 9, 9, 9, /* the root's numbers are not looked at */
        9, parent, 9, 9, name, name_length, 9, 9, 9, 9, 1, 9, 9, 2, 6, 9, 9, 9,
    };
#define PATH(length, entry) WORD(text), given, length, entry, buffer, sizeof buffer, out
    expect("path of the root", what, klapouzen_path(PATH(27, 0)), 0, 1);
    expect("path of the directory", what, klapouzen_path(PATH(27, 1)), wanted, 1);
    expect("path of the file", what, klapouzen_path(PATH(27, 2)), wanted, 1);
    expect("path, no such entry", what, klapouzen_path(PATH(27, 3)), KLAPOUZEN_MISSING, 1);
    expect("path, no such entry", what, klapouzen_path(PATH(18, 2)), KLAPOUZEN_MISSING, 1);
    expect("path, no such number", what, klapouzen_path(PATH(27, UINT64_MAX)), KLAPOUZEN_MISSING, 1);
    for (size_t length = 19; length < 27; length++)
        expect("path, no table", what, klapouzen_path(PATH(length, 9)), 14, 1);
    expect("path, no room", what, klapouzen_path(WORD(text), given, 27, 2, buffer, 2, out),
           wanted == 0 ? KLAPOUZEN_SHORT_OUTPUT : wanted, 1);
#undef PATH
}

static void paths_with(void)
{
    path_with("nothing wrong", 0, 0, 2, 0);
    path_with("a name of all bytes", 0, 0, 8, 0);
    path_with("an empty name at the end", 0, 8, 0, 0);
    path_with("itself as its parent", 1, 0, 2, 14);
    path_with("a parent behind it", 2, 0, 2, 14);
    path_with("a parent that is none", UINT64_MAX, 0, 2, 14);
    path_with("a name behind the text", 0, 9, 0, 14);
    path_with("a name that goes on behind the text", 0, 7, 2, 14);
    path_with("a name far behind the text", 0, UINT64_MAX, 1, 14);
    path_with("a name without end", 0, 2, UINT64_MAX, 14);
    path_with("a name whose end is past 64 bits", 0, UINT64_MAX, UINT64_MAX, 14);
}

/* No refusal but 10, whatever the bytes are. */
static void decode_with(const char *text, size_t length, uint64_t wanted)
{
    expect("decode", text, klapouzen_decode((const uint8_t *)text, length, buffer, sizeof buffer, out), 0, 1);
    expect("decode, no room", text, klapouzen_decode((const uint8_t *)text, length, buffer, wanted - 1, out),
           KLAPOUZEN_SHORT_OUTPUT, 1);
    klapouzen_decode((const uint8_t *)text, length, buffer, sizeof buffer, out);
    if (out[0] != wanted || !is_filled(buffer + wanted, sizeof buffer - wanted))
        fail("decode", text, out[0]);
    fill();
}

static void decodes_with(void)
{
    decode_with("a", 1, 1);
    decode_with("&amp;&lt;&gt;&quot;&apos;", 25, 5);
    decode_with("&amp;lt;", 8, 4);
    decode_with("&amp", 4, 4);
    decode_with("&am&amp;p;", 10, 6);
    decode_with("&AMP;&#38;&nbsp;", 16, 16);
    decode_with("\0\xff&gt;\xc3", 7, 4);
}

/* ---- ANSI labelled tapes ---- */

/* No 14: they take slices alone, of any bytes. */
static void read_ansi(const char *what, const uint8_t *list, size_t list_length, const uint8_t *store,
                      size_t store_length, uint64_t wanted)
{
    expect("ansi", what, klapouzen_ansi(list, list_length, store, store_length, buffer, sizeof buffer, out), wanted, 1);
    expect("ansi", what, klapouzen_ansi(list, list_length, store, store_length, NONE, out), wanted, 1);
    uint64_t refusal = wanted == KLAPOUZEN_BAD_LIST ? wanted : 0;
    expect("ansi_place", what, klapouzen_ansi_place(list, list_length, store, store_length, out), refusal, 1);
}

static void ansi_with(void)
{
    static const uint8_t block[5] = { 2, 0, 0, 0, 80 };
    uint8_t label[80];
    memset(label, 0xff, sizeof label);
    read_ansi("nothing", NONE, NONE, KLAPOUZEN_BAD_ANSI_LABELS);
    read_ansi("a mark", (const uint8_t *)"\1", 1, NONE, KLAPOUZEN_BAD_ANSI_LABELS);
    read_ansi("an unreadable block", (const uint8_t *)"\3", 1, NONE, KLAPOUZEN_BAD_ANSI_LABELS);
    read_ansi("an unreadable block with bytes", (const uint8_t *)"\3", 1, label, sizeof label, KLAPOUZEN_BAD_LIST);
    read_ansi("another kind", (const uint8_t *)"\4", 1, NONE, KLAPOUZEN_BAD_LIST);
    read_ansi("a block", block, sizeof block, label, sizeof label, KLAPOUZEN_BAD_ANSI_LABELS);
    read_ansi("a block without bytes", block, sizeof block, NONE, KLAPOUZEN_BAD_LIST);
    read_ansi("bytes without a block", NONE, label, sizeof label, KLAPOUZEN_BAD_LIST);
    read_ansi("a list cut off", block, sizeof block - 1, label, sizeof label, KLAPOUZEN_BAD_LIST);
    read_ansi("no list", label, sizeof label, NONE, KLAPOUZEN_BAD_LIST);
}

int main(void)
{
    fill();
    ansi_with();
    paths_with();
    decodes_with();
    digits_with();
    blocks_with();
    for (size_t i = 0; i < sizeof volumes / sizeof volumes[0]; i++) {
        read_with(&volumes[i]);
        find_with(&volumes[i]);
        lose_with(&volumes[i]);
    }
    for (size_t i = 0; i < sizeof vol1s / sizeof vol1s[0]; i++)
        expect("write_vol1", vol1s[i].what,
               klapouzen_write_vol1(buffer, sizeof buffer, WORD(vol1s[i].identifier), WORD(vol1s[i].owner), out),
               vol1s[i].refusal, 1);
    for (size_t i = 0; i < sizeof labels / sizeof labels[0]; i++)
        write_with(&labels[i]);
    creator_of(255, 0);
    creator_of(256, 14);
    map_with("nothing wrong", 'z', KLAPOUZEN_ROW, 1048576, 0);
    map_with("a letter before a", '`', KLAPOUZEN_ROW, 4096, 14);
    map_with("a letter behind z", '{', KLAPOUZEN_ROW, 4096, 14);
    map_with("a number less", 'b', KLAPOUZEN_ROW - 1, 4096, 14);
    map_with("a number more", 'b', KLAPOUZEN_ROW + 1, 4096, 14);
    map_with("small blocks", 'b', KLAPOUZEN_ROW, 4095, 14);
    map_with("large blocks", 'b', KLAPOUZEN_ROW, 1048577, 14);
    return failures > 0;
}
