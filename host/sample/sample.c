#include "sample.h"

#include <inttypes.h>
#include <stdarg.h>
#include <stdio.h>
#include <stdlib.h>
#include <string.h>

#include "klapouzen.h"

/* ---- A buffer that grows ---- */

static uint8_t *make_room(struct buffer *buffer, size_t length)
{
    if (buffer->length + length > buffer->room) {
        buffer->room = 2 * (buffer->length + length) + 64;
        buffer->bytes = realloc(buffer->bytes, buffer->room);
        if (buffer->bytes == NULL)
            abort();
    }
    uint8_t *end = buffer->bytes + buffer->length;
    buffer->length += length;
    return end;
}

void put_bytes(struct buffer *buffer, const void *bytes, size_t length)
{
    if (length > 0)
        memcpy(make_room(buffer, length), bytes, length);
}

void put_byte(struct buffer *buffer, uint8_t byte, size_t times)
{
    if (times > 0)
        memset(make_room(buffer, times), byte, times);
}

void put(struct buffer *buffer, const char *format, ...)
{
    char text[1024];
    va_list arguments;
    va_start(arguments, format);
    int length = vsnprintf(text, sizeof text, format, arguments);
    va_end(arguments);
    if (length < 0 || (size_t)length >= sizeof text)
        abort();
    put_bytes(buffer, text, (size_t)length);
}

void buffer_free(struct buffer *buffer)
{
    free(buffer->bytes);
    *buffer = (struct buffer){ 0 };
}

/* ---- Index texts ---- */

static void new_line(struct index_text *index, int depth)
{
    if (!index->indented)
        return;
    put_byte(&index->text, '\n', 1);
    put_byte(&index->text, ' ', 4 * (size_t)depth);
}

static void tag(struct index_text *index, int depth, const char *tag)
{
    new_line(index, depth);
    put(&index->text, "%s", tag);
}

static void value(struct index_text *index, int depth, const char *name, const char *text)
{
    new_line(index, depth);
    put(&index->text, "<%s>", name);
    put_bytes(&index->text, text, strlen(text));
    put(&index->text, "</%s>", name);
}

static void number(struct index_text *index, int depth, const char *name, uint64_t number)
{
    char text[24];
    snprintf(text, sizeof text, "%" PRIu64, number);
    value(index, depth, name, text);
}

static void letter(struct index_text *index, int depth, char letter)
{
    value(index, depth, "partition", (char[]){ letter, '\0' });
}

static void place(struct index_text *index, const char *name, char of, uint64_t block)
{
    new_line(index, 1);
    put(&index->text, "<%s>", name);
    letter(index, 2, of);
    number(index, 2, "startblock", block);
    new_line(index, 1);
    put(&index->text, "</%s>", name);
}

/* What directories and files have alike. */
static void entry(struct index_text *index, int depth, const char *name)
{
    static const char *const times[] = {
        "creationtime", "changetime", "modifytime", "accesstime", "backuptime",
    };
    number(index, depth, "fileuid", ++index->last_uid);
    value(index, depth, "name", name);
    value(index, depth, "readonly", "false");
    for (size_t i = 0; i < sizeof times / sizeof times[0]; i++)
        value(index, depth, times[i], SAMPLE_TIME);
}

void index_begin(struct index_text *index, const struct index_head *head)
{
    *index = (struct index_text){ .indented = head->indented, .depth = 1 };
    put(&index->text, "<?xml version=\"1.0\" encoding=\"UTF-8\"?>\n<ltfsindex version=\"2.0.1\">");
    value(index, 1, "creator", "klapouzen sample");
    value(index, 1, "volumeuuid", SAMPLE_UUID);
    number(index, 1, "generationnumber", head->generation);
    value(index, 1, "updatetime", SAMPLE_TIME);
    place(index, "location", head->letter, head->block);
    if (head->back_letter != 0)
        place(index, "previousgenerationlocation", head->back_letter, head->back_block);
    value(index, 1, "allowpolicyupdate", "true");
    number(index, 1, "highestfileuid", 4096);
    index_directory(index, "sample");
}

void index_directory(struct index_text *index, const char *name)
{
    tag(index, index->depth++, "<directory>");
    entry(index, index->depth, name);
    tag(index, index->depth++, "<contents>");
}

void index_leave(struct index_text *index)
{
    tag(index, --index->depth, "</contents>");
    tag(index, --index->depth, "</directory>");
}

static void put_extent(struct index_text *index, int depth, const struct extent *extent)
{
    tag(index, depth, "<extent>");
    letter(index, depth + 1, extent->letter);
    number(index, depth + 1, "startblock", extent->startblock);
    number(index, depth + 1, "byteoffset", extent->byteoffset);
    number(index, depth + 1, "bytecount", extent->bytecount);
    number(index, depth + 1, "fileoffset", extent->fileoffset);
    tag(index, depth, "</extent>");
}

/* A file's front, to the end of its length. */
static void begin_file(struct index_text *index, const char *name, uint64_t length)
{
    tag(index, index->depth, "<file>");
    entry(index, index->depth + 1, name);
    number(index, index->depth + 1, "length", length);
}

void index_file(struct index_text *index, const char *name, uint64_t length,
                const struct extent *extents, size_t count)
{
    int depth = index->depth + 1;
    begin_file(index, name, length);
    tag(index, depth, "<extentinfo>");
    for (size_t i = 0; i < count; i++)
        put_extent(index, depth + 1, &extents[i]);
    tag(index, depth, "</extentinfo>");
    tag(index, index->depth, "</file>");
}

void index_attributes(struct index_text *index, const char *name, int nesting)
{
    int depth = index->depth + 1;
    begin_file(index, name, 0);
    tag(index, depth, "<extendedattributes>");
    for (int i = 1; i <= nesting; i++)
        tag(index, depth + i, "<x>");
    for (int i = nesting; i >= 1; i--)
        tag(index, depth + i, "</x>");
    tag(index, depth, "</extendedattributes>");
    tag(index, index->depth, "</file>");
}

void index_end(struct index_text *index)
{
    while (index->depth > 1)
        index_leave(index);
    tag(index, 0, "</ltfsindex>");
    put(&index->text, "\n");
}

struct buffer index_of_size(size_t size, bool indented)
{
    struct index_head head = { .generation = 7, .letter = 'a', .block = 5, .back_letter = 'b',
                               .back_block = 5, .indented = indented };
    struct index_text index;
    index_begin(&index, &head);
    size_t before = 0;
    for (uint64_t i = 0; index.text.length + 2 * (index.text.length - before) + 256 < size; i++) {
        char name[32];
        struct extent extent = { 'b', 5 + i, 0, 4096, 0 };
        snprintf(name, sizeof name, "recording %05" PRIu64 ".wav", i);
        before = index.text.length;
        index_file(&index, name, 4096, &extent, 1);
    }
    index_end(&index);
    return index.text;
}

struct buffer index_of_names(size_t size, const char *character)
{
    enum { CHARACTERS = 255 };
    struct index_head head = { .generation = 7, .letter = 'a', .block = 5 };
    struct index_text index;
    struct buffer name = { 0 };
    for (int i = 0; i < CHARACTERS; i++)
        put(&name, "%s", character);
    put_byte(&name, '\0', 1);
    index_begin(&index, &head);
    while (index.text.length + 2 * name.length + 1024 < size)
        index_file(&index, (const char *)name.bytes, 0, NULL, 0);
    index_end(&index);
    buffer_free(&name);
    return index.text;
}

struct buffer nested_index(size_t size, int depth)
{
    struct index_head head = { .generation = 7, .letter = 'a', .block = 5 };
    struct index_text index;
    index_begin(&index, &head);
    for (int i = 1; i < depth; i++)
        put(&index.text, "<directory><contents>");
    index.last_uid = (uint64_t)depth;
    size_t before = 0;
    while (index.text.length + (size_t)(depth + 1) * (index.text.length - before) + 256 < size) {
        before = index.text.length;
        put(&index.text, "<directory><contents/>");
        entry(&index, 0, "innermost");
        put(&index.text, "</directory>");
    }
    for (int i = depth; i > 1; i--) {
        index.last_uid = (uint64_t)i - 1;
        put(&index.text, "</contents>");
        entry(&index, 0, "nested");
        put(&index.text, "</directory>");
    }
    index_end(&index);
    return index.text;
}

/* How many bytes the start tag of a number element has that stands there; 0 where none does. */
static size_t number_tag(const uint8_t *text, size_t length)
{
    static const char *const tags[] = {
        "<blocksize>",  "<generationnumber>", "<startblock>", "<highestfileuid>", "<fileuid>", "<length>",
        "<byteoffset>", "<bytecount>",        "<fileoffset>",
    };
    for (size_t i = 0; *text == '<' && i < sizeof tags / sizeof tags[0]; i++) {
        size_t tag = strlen(tags[i]);
        if (tag <= length && memcmp(text, tags[i], tag) == 0)
            return tag;
    }
    return 0;
}

struct buffer pad_numbers(const uint8_t *text, size_t length)
{
    struct buffer padded = { 0 };
    for (size_t at = 0; at < length;) {
        size_t tag = number_tag(text + at, length - at), end = at + tag;
        while (tag > 0 && end < length && text[end] >= '0' && text[end] <= '9')
            end++;
        if (end == at + tag || end == length || text[end] != '<') {
            put_byte(&padded, text[at++], 1);
            continue;
        }
        put_bytes(&padded, text + at, tag);
        put(&padded, "\r\n\t +000");
        put_bytes(&padded, text + at + tag, end - at - tag);
        put(&padded, "\n");
        at = end;
    }
    return padded;
}

/* ---- Volumes ---- */

void tape_free(struct tape *tape)
{
    buffer_free(&tape->list);
    buffer_free(&tape->store);
}

void tape_mark(struct tape *tape)
{
    put_byte(&tape->list, 1, 1);
    tape->elements++;
}

static void list_block(struct tape *tape, size_t length)
{
    uint8_t element[] = { 2, (uint8_t)(length >> 24), (uint8_t)(length >> 16),
                          (uint8_t)(length >> 8), (uint8_t)length };
    put_bytes(&tape->list, element, sizeof element);
    tape->elements++;
}

void tape_block(struct tape *tape, const void *bytes, size_t length)
{
    list_block(tape, length);
    put_bytes(&tape->store, bytes, length);
}

void tape_filled_block(struct tape *tape, uint8_t byte, size_t length)
{
    list_block(tape, length);
    put_byte(&tape->store, byte, length);
}

void tape_unreadable_block(struct tape *tape)
{
    put_byte(&tape->list, 3, 1);
    tape->elements++;
}

struct tape_element tape_take(const struct tape *tape, size_t *list, size_t *store)
{
    const uint8_t *at = tape->list.bytes + *list;
    struct tape_element element = { at[0], NULL, 0 };
    (*list)++;
    if (element.kind != 2)
        return element;
    for (int i = 1; i <= 4; i++)
        element.length = 256 * element.length + at[i];
    element.bytes = tape->store.bytes + *store;
    *list += 4;
    *store += element.length;
    return element;
}

void tape_put(struct tape *tape, struct tape_element element)
{
    if (element.kind == 1)
        tape_mark(tape);
    else if (element.kind == 3)
        tape_unreadable_block(tape);
    else
        tape_block(tape, element.bytes, element.length);
}

void tape_lose(struct tape *tape, uint64_t number)
{
    struct tape rest = { 0 };
    for (size_t list = 0, store = 0; list < tape->list.length;) {
        bool is_lost = rest.elements == number;
        struct tape_element element = tape_take(tape, &list, &store);
        tape_put(&rest, is_lost ? (struct tape_element){ 3, NULL, 0 } : element);
    }
    tape_free(tape);
    *tape = rest;
}

static void put_labels(struct tape *tape, uint8_t letter, uint64_t block_size)
{
#define TEXT(text) (const uint8_t *)(text), sizeof(text) - 1
    uint8_t vol1[KLAPOUZEN_VOL1_LENGTH], label[KLAPOUZEN_MAX_LABEL];
    uint64_t vol1_length, label_length;
    if (klapouzen_write_vol1(vol1, sizeof vol1, TEXT("KLA001"), TEXT("Klapouzen     "), &vol1_length) != 0
        || klapouzen_write_label(label, sizeof label, TEXT("klapouzen sample"), TEXT(SAMPLE_TIME),
                                 TEXT(SAMPLE_UUID), letter, 'a', 'b', block_size, 1, &label_length) != 0)
        abort();
#undef TEXT
    tape_block(tape, vol1, vol1_length);
    tape_mark(tape);
    tape_block(tape, label, label_length);
    tape_mark(tape);
}

void sample_begin(struct sample *sample, uint64_t block_size)
{
    *sample = (struct sample){ .block_size = block_size, .generation = 1 };
    put_labels(&sample->sides[0], 'a', block_size);
    put_labels(&sample->sides[1], 'b', block_size);
}

void sample_free(struct sample *sample)
{
    tape_free(&sample->sides[0]);
    tape_free(&sample->sides[1]);
}

static void put_blocks(struct sample *sample, int side, const uint8_t *bytes, size_t length)
{
    while (length > 0) {
        size_t part = length < sample->block_size ? length : (size_t)sample->block_size;
        tape_block(&sample->sides[side], bytes, part);
        bytes += part;
        length -= part;
    }
}

uint64_t sample_data(struct sample *sample, int side, const void *bytes, size_t length)
{
    uint64_t first = sample->sides[side].elements;
    put_blocks(sample, side, bytes, length);
    return first;
}

struct index_head sample_head(const struct sample *sample, int side)
{
    uint64_t last = sample->last_data_index;
    return (struct index_head){
        .generation = sample->generation,
        .letter = side == 0 ? 'a' : 'b',
        .block = sample->sides[side].elements + 1,
        .back_letter = last > 0 ? 'b' : 0,
        .back_block = last,
    };
}

void sample_index(struct sample *sample, int side, struct index_text *index)
{
    struct tape *tape = &sample->sides[side];
    tape_mark(tape);
    if (side == 1)
        sample->last_data_index = tape->elements;
    put_blocks(sample, side, index->text.bytes, index->text.length);
    tape_mark(tape);
    buffer_free(&index->text);
}

void sample_empty_index(struct sample *sample, int side)
{
    struct index_head head = sample_head(sample, side);
    struct index_text index;
    index_begin(&index, &head);
    index_end(&index);
    sample_index(sample, side, &index);
}

void sample_unmount(struct sample *sample)
{
    sample_empty_index(sample, 1);
    sample_empty_index(sample, 0);
}

/* ---- ANSI labelled tapes ---- */

/* The text, and spaces behind it. */
static void ansi_label(struct tape *tape, const char *text)
{
    uint8_t label[80];
    memset(label, ' ', sizeof label);
    memcpy(label, text, strlen(text));
    tape_block(tape, label, sizeof label);
}

/* HDR1 or EOF1; the dates are those of the 320th day of 2026 and of no end. */
static void ansi_first_label(struct tape *tape, const char *word, uint64_t number, size_t blocks)
{
    char text[81];
    snprintf(text, sizeof text, "%sFILE%06u.DAT   0000010001%04u000100026320 99366 %06uKLAPOUZEN0001", word,
             (unsigned)(number % 1000000), (unsigned)(number % 10000), (unsigned)(blocks % 1000000));
    ansi_label(tape, text);
}

void ansi_begin(struct tape *tape)
{
    char text[81];
    snprintf(text, sizeof text, "%-79s3", "VOL1KLA001");
    *tape = (struct tape){ 0 };
    ansi_label(tape, text);
}

void ansi_file(struct tape *tape, uint64_t number, size_t blocks, size_t length)
{
    ansi_first_label(tape, "HDR1", number, 0);
    ansi_label(tape, "HDR2F2048000080");
    tape_mark(tape);
    for (size_t i = 0; i < blocks; i++)
        tape_filled_block(tape, (uint8_t)('a' + (number + i) % 26), length);
    tape_mark(tape);
    ansi_first_label(tape, "EOF1", number, blocks);
    ansi_label(tape, "EOF2F2048000080");
    tape_mark(tape);
}

void ansi_end(struct tape *tape)
{
    tape_mark(tape);
}

void ansi_most_files(struct tape *tape)
{
    ansi_begin(tape);
    for (uint64_t number = 1; number <= KLAPOUZEN_MAX_ANSI_FILES; number++)
        ansi_file(tape, number, 0, 0);
    ansi_end(tape);
}
