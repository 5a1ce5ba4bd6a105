#include "ansi_tape.h"

#include <stdlib.h>
#include <string.h>

#include "common.h"

/* ---- Reading ---- */

static void read_elements(struct ansi_tape *tape, const struct side *side)
{
    struct bytes list = side->list;
    uint64_t at = 0;
    tape->elements = allocate(tape->count * sizeof *tape->elements);
    for (uint64_t i = 0; i < tape->count; i++) {
        struct element next = take_element(&list);
        tape->elements[i].kind = next.kind;
        tape->elements[i].block = part_of(side->store, at, next.length);
        at += next.length;
    }
}

/* The elements at the front that hold whole files: each has three marks, the last behind its trailer. */
static uint64_t whole_files_end(const struct ansi_tape *tape)
{
    uint64_t marks = 0, end = 0;
    for (uint64_t i = 0; i < tape->place; i++)
        if (tape->elements[i].kind == MARK && ++marks % 3 == 0)
            end = i + 1;
    return end;
}

/* Of a refused tape: the library is asked about the front that holds whole files, ended by a mark. */
static void read_front(struct ansi_tape *tape, const struct side *side, size_t room)
{
    uint64_t kept[KLAPOUZEN_KEPT], end = whole_files_end(tape);
    if (end == 0 || klapouzen_keep(SIDE(side), end, kept) != 0)
        return;
    size_t length = (size_t)kept[KLAPOUZEN_KEPT_LIST];
    uint8_t *list = allocate(length + 1);
    memcpy(list, side->list.start, length);
    list[length] = 1;
    klapouzen_ansi(list, length + 1, side->store.start, (size_t)kept[KLAPOUZEN_KEPT_STORE],
                   tape->rows, room, &tape->files);
    free(list);
}

void ansi_open(struct ansi_tape *tape, const struct side *side)
{
    size_t room = (size_t)KLAPOUZEN_MAX_ANSI_FILES * KLAPOUZEN_ANSI_FILE;
    *tape = (struct ansi_tape){ .rows = allocate(room) };
    tape->refusal = klapouzen_ansi(SIDE(side), tape->rows, room, &tape->files);
    if (klapouzen_check_list(SIDE(side), &tape->count) != 0)
        return;
    klapouzen_ansi_place(SIDE(side), &tape->place);
    read_elements(tape, side);
    if (tape->refusal != 0)
        read_front(tape, side, room);
}

void ansi_close(struct ansi_tape *tape)
{
    free(tape->elements);
    free(tape->rows);
}

/* An LTFS volume begins with a VOL1 too, but has no HDR1. */
static bool is_unreadable_behind_header(const struct ansi_tape *tape)
{
    if (tape->place >= tape->count || tape->elements[tape->place].kind != UNREADABLE_BLOCK)
        return false;
    for (uint64_t i = 0; i < tape->place; i++)
        if (begins_with(tape->elements[i].block, "HDR1"))
            return true;
    return false;
}

bool is_labelled(const struct ansi_tape *tape)
{
    return tape->refusal == 0 || tape->refusal == KLAPOUZEN_END_OF_VOLUME
        || tape->refusal == KLAPOUZEN_WRONG_BLOCK_COUNT || is_unreadable_behind_header(tape);
}

/* ---- Labels ---- */

struct bytes label_bytes(struct bytes label, size_t first, size_t last)
{
    return part_of(label, first - 1, last - first + 1);
}

static struct bytes without_spaces(struct bytes text)
{
    while (text.length > 0 && text.start[text.length - 1] == ' ')
        text.length--;
    return text;
}

struct bytes label_field(struct bytes label, size_t first, size_t last)
{
    return without_spaces(label_bytes(label, first, last));
}

uint64_t number_in(struct bytes digits)
{
    uint64_t number = 0;
    for (size_t i = 0; i < digits.length; i++)
        number = 10 * number + (uint64_t)(digits.start[i] - '0');
    return number;
}

bool begins_with(struct bytes block, const char *word)
{
    size_t length = strlen(word);
    return block.length >= length && memcmp(block.start, word, length) == 0;
}

/* Behind place 0 the library took element 0 for a VOL1. */
struct ansi_volume ansi_volume(const struct ansi_tape *tape)
{
    if (tape->place == 0)
        return (struct ansi_volume){ 0 };
    struct bytes vol1 = tape->elements[0].block;
    return (struct ansi_volume){
        .version = vol1.start[79],
        .identifier = label_field(vol1, 5, 10),
        .owner = label_field(vol1, 38, 51),
        .implementation = label_field(vol1, 25, 37),
    };
}

/* ---- Files ---- */

static uint64_t first_element(const uint8_t *row)
{
    uint64_t element = 0;
    for (int i = 0; i < 8; i++)
        element = element << 8 | row[KLAPOUZEN_ANSI_ELEMENT + i];
    return element;
}

struct ansi_file ansi_file(const struct ansi_tape *tape, uint64_t number)
{
    const uint8_t *row = tape->rows + KLAPOUZEN_ANSI_FILE * number;
    struct bytes id = { row + KLAPOUZEN_ANSI_ID, KLAPOUZEN_ANSI_FORMAT - KLAPOUZEN_ANSI_ID };
    struct ansi_file file = {
        .id = without_spaces(id),
        .format = (char)row[KLAPOUZEN_ANSI_FORMAT],
        .block_length = number_in((struct bytes){ row + KLAPOUZEN_ANSI_BLOCK_LENGTH, 5 }),
        .record_length = number_in((struct bytes){ row + KLAPOUZEN_ANSI_RECORD_LENGTH, 5 }),
        .element = first_element(row),
    };
    for (uint64_t i = file.element; tape->elements[i].kind != MARK; i++) {
        file.blocks++;
        file.bytes += tape->elements[i].block.length;
    }
    return file;
}

/* ---- Paths ---- */

/* The numbered labels of a file; an empty one isn't there. */
struct labels {
    struct bytes headers[10], trailers[10];
};

static void note_label(struct bytes labels[10], const char *word, struct bytes block)
{
    if (begins_with(block, word) && block.start[3] >= '1' && block.start[3] <= '9')
        labels[block.start[3] - '0'] = block;
}

/* The header labels stand before the mark before the data, the trailer labels behind the one behind it. */
static struct labels labels_of(const struct ansi_tape *tape, uint64_t number)
{
    struct ansi_file file = ansi_file(tape, number);
    struct labels labels = { 0 };
    const struct ansi_element *elements = tape->elements;
    for (uint64_t i = file.element - 1; i > 0 && elements[i - 1].kind != MARK; i--)
        note_label(labels.headers, "HDR", elements[i - 1].block);
    for (uint64_t i = file.element + file.blocks + 1; elements[i].kind != MARK; i++)
        note_label(labels.trailers, "EOF", elements[i].block);
    return labels;
}

/* VOL1 of version 4 says which system wrote the volume; version 3 leaves it to HDR1. */
static bool is_ultrix(const struct ansi_tape *tape, struct bytes hdr1)
{
    struct ansi_volume volume = ansi_volume(tape);
    return begins_with(volume.implementation, "DECULTRIX")
        || (volume.version == '3' && begins_with(label_field(hdr1, 61, 73), "DECULTRIX"));
}

/* The number from 3 to 9 in a byte; 0 for any other. */
static int last_label(uint8_t digit)
{
    return digit >= '3' && digit <= '9' ? digit - '0' : 0;
}

static int highest_label(const struct bytes labels[10])
{
    int number = 9;
    while (number >= 3 && labels[number].length == 0)
        number--;
    return number;
}

/* Adds what the labels from 3 to this one hold; without one of them there is no path. */
static bool add_labels(struct ansi_path *path, const struct bytes labels[10], const char *word, int last)
{
    for (int number = 3; number <= last; number++) {
        if (labels[number].length == 0) {
            path->length = 0;
            snprintf(path->missing, sizeof path->missing, "%s%d", word, number);
            return false;
        }
        size_t first = begins_with(labels[number], "HDR3") ? 45 : 5;
        struct bytes part = label_bytes(labels[number], first, ANSI_LABEL);
        memcpy(path->bytes + path->length, part.start, part.length);
        path->length += part.length;
    }
    return true;
}

void ansi_path(const struct ansi_tape *tape, uint64_t number, struct ansi_path *path)
{
    struct labels labels = labels_of(tape, number);
    *path = (struct ansi_path){ .length = 0 };
    if (!is_ultrix(tape, labels.headers[1]))
        return;
    struct bytes hdr2 = labels.headers[2];
    int header = last_label(hdr2.start[47]), trailer = last_label(hdr2.start[48]);
    if (header == 0)
        header = highest_label(labels.headers);
    if (add_labels(path, labels.headers, "HDR", header)
        && add_labels(path, labels.trailers, "EOF", trailer))
        path->length = without_spaces((struct bytes){ path->bytes, path->length }).length;
}
