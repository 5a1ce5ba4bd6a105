#include "vectors.h"

#include <errno.h>
#include <stdlib.h>
#include <string.h>

#include "case_files.h"
#include "klapouzen.h"

/* What of a vector does not stand in its file as it is. */
static struct buffer made;

static void read_parts(struct case_file *file, struct random_case *vector, int count)
{
    for (int i = 0; i < count; i++)
        vector->bytes[i] = next_bytes(file, &vector->lengths[i]);
}

/* ---- Volumes and labels ---- */

/* The volume; the lines expected. */
static bool read_volume(struct case_file *file, struct random_case *vector)
{
    read_parts(file, vector, 4);
    skip_bytes(file, 1);
    return true;
}

/* The text; refusal, release, creator, time, UUID, letters, block size and compression expected. */
static bool read_label(struct case_file *file, struct random_case *vector)
{
    read_parts(file, vector, 1);
    skip_numbers(file, 2);
    skip_bytes(file, 3);
    skip_numbers(file, 5);
    return true;
}

/* The block; the refusal expected. */
static bool read_vol1(struct case_file *file, struct random_case *vector)
{
    read_parts(file, vector, 1);
    skip_numbers(file, 1);
    return true;
}

/* ---- ANSI labelled tapes ---- */

/* List, store and lent buffer; refusal, files and the buffer after it expected. */
static bool read_ansi(struct case_file *file, struct random_case *vector)
{
    read_parts(file, vector, 3);
    vector->numbers[0] = vector->lengths[2];
    vector->numbers[1] = next_number(file);
    vector->numbers[2] = next_number(file);
    vector->bytes[3] = next_bytes(file, &vector->lengths[3]);
    return true;
}

/* List and store; refusal and place expected. */
static bool read_ansi_place(struct case_file *file, struct random_case *vector)
{
    read_parts(file, vector, 2);
    vector->numbers[0] = (uint64_t)KLAPOUZEN_ANSI_FILE * vector->lengths[0];
    vector->numbers[1] = next_number(file);
    vector->numbers[2] = next_number(file);
    return true;
}

/* ---- Indexes ---- */

static void read_given(struct case_file *file, struct random_case *vector)
{
    read_parts(file, vector, 2);
    for (int i = 0; i < 5; i++)
        vector->numbers[i] = next_number(file);
}

static void skip_list(struct case_file *file)
{
    skip_numbers(file, next_number(file));
}

/* A lent buffer; refusal and number of rows expected, and the buffer after. */
static void skip_rows(struct case_file *file)
{
    skip_list(file);
    skip_numbers(file, 2);
    skip_list(file);
}

/* A file's number; refusal, length, name and number of rows expected; its rows twice. */
static void skip_file(struct case_file *file)
{
    skip_numbers(file, 3);
    skip_bytes(file, 1);
    skip_numbers(file, 1);
    skip_rows(file);
    skip_rows(file);
}

/* What is given; the refusal and, without one, the header and its time expected; the files. */
static bool read_index(struct case_file *file, struct random_case *vector)
{
    read_given(file, vector);
    if (next_number(file) == 0) {
        skip_list(file);
        skip_bytes(file, 1);
    }
    for (uint64_t files = next_number(file); files > 0; files--)
        skip_file(file);
    return true;
}

/* What is given; a file's number, refusal and length expected; its rows. */
static bool read_index_of_rows(struct case_file *file, struct random_case *vector)
{
    read_given(file, vector);
    skip_numbers(file, 3);
    skip_rows(file);
    return true;
}

/* ---- Rows ---- */

static void make_number(uint64_t number)
{
    put_bytes(&made, &number, sizeof number);
}

/* The made numbers from one on. */
static void rows_from(struct random_case *vector, size_t first)
{
    vector->rows = (uint64_t *)(void *)made.bytes + first;
    vector->row_numbers = made.length / sizeof(uint64_t) - first;
}

/* As read_index_of_rows, but the rows, and only of a file that is not refused. */
static bool read_rows(struct case_file *file, struct random_case *vector)
{
    struct random_case index = { 0 };
    read_given(file, &index);
    skip_numbers(file, 1);
    uint64_t refusal = next_number(file);
    vector->numbers[0] = next_number(file);
    vector->numbers[1] = index.numbers[2];
    skip_list(file);
    skip_numbers(file, 1);
    uint64_t rows = next_number(file), after = next_number(file);
    if (rows > after / KLAPOUZEN_ROW)
        malformed(file, "more rows than their buffer holds");
    for (uint64_t i = 0; i < KLAPOUZEN_ROW * rows; i++)
        make_number(next_number(file));
    skip_numbers(file, after - KLAPOUZEN_ROW * rows);
    rows_from(vector, 0);
    return refusal == 0;
}

static uint64_t number_on_line(struct case_file *file)
{
    const char *start = (const char *)file->bytes.bytes + file->at;
    char *end;
    errno = 0;
    uint64_t number = strtoull(start, &end, 10);
    if (*start < '0' || *start > '9' || errno != 0 || (*end != ' ' && *end != '\n'))
        malformed(file, "no number");
    file->at += (size_t)(end - start);
    return number;
}

/* Length, block size, position and the rows, with a space between. */
static bool read_row_line(struct case_file *file, struct random_case *vector)
{
    enum { BEFORE = 3 };
    uint8_t space;
    do
        make_number(number_on_line(file));
    while (next_byte(file, &space));
    if (made.length < BEFORE * sizeof(uint64_t))
        malformed(file, "too few numbers");
    memcpy(vector->numbers, made.bytes, BEFORE * sizeof(uint64_t));
    rows_from(vector, BEFORE);
    return true;
}

/* ---- Texts ---- */

static uint8_t hex_digit(struct case_file *file)
{
    uint8_t byte = 0;
    next_byte(file, &byte);
    if (byte >= '0' && byte <= '9')
        return (uint8_t)(byte - '0');
    if (byte < 'a' || byte > 'f')
        malformed(file, "no hex digit");
    return (uint8_t)(byte - 'a' + 10);
}

/* `\` and two digits stand for a byte; `|` is the mark where a text leaves the form. */
static void decode(struct case_file *file)
{
    uint8_t byte;
    while (next_byte(file, &byte)) {
        if (byte == '\\') {
            byte = hex_digit(file);
            byte = (uint8_t)(16 * byte + hex_digit(file));
        } else if (byte == '|') {
            continue;
        }
        put_byte(&made, byte, 1);
    }
}

/* xml_cases' src/lines.rt says how a line spells a text. */
static bool read_text_line(struct case_file *file, struct random_case *vector)
{
    uint8_t kind = '#', space = 0;
    if (!next_byte(file, &kind) || kind == '#')
        return false;
    if (!next_byte(file, &space) || space != ' ' || memchr("+-*=!", kind, 5) == NULL)
        malformed(file, "no kind of a line");
    if (kind == '+' || kind == '-')
        put(&made, "<?xml version=\"1.0\" encoding=\"UTF-8\"?>");
    decode(file);
    vector->bytes[0] = made.bytes;
    vector->lengths[0] = made.length;
    vector->numbers[0] = kind == '+' || kind == '=';
    return true;
}

/* ---- The files ---- */

static const struct vector_file {
    enum vectors kind;
    enum { CASES, LINES } manner;
    const char *path;
    bool (*read)(struct case_file *file, struct random_case *vector); /* false: nothing of this kind */
} files[] = {
    { VOLUMES, CASES, "../crates/bench_cases/data/examples", read_volume },
    { VOLUMES, CASES, "../crates/bench_cases/data/own", read_volume },
    { VOLUMES, CASES, "../crates/bench_cases/data/vectors", read_volume },
    { VOLUMES, CASES, "../crates/bench_cases/data/spellings", read_volume },
    { VOLUMES, CASES, "../crates/bench_cases/data/numbers", read_volume },
    { VOLUMES, CASES, "../crates/bench_cases/data/kinds", read_volume },
    { VOLUMES, CASES, "../crates/bench_cases/data/unreadable", read_volume },
    { LABELS, CASES, "../crates/label_cases/data/read_vectors", read_label },
    { LABELS, CASES, "../crates/label_cases/data/read_example", read_label },
    { LABELS, CASES, "../crates/label_cases/data/read_structure", read_label },
    { LABELS, CASES, "../crates/label_cases/data/read_form", read_label },
    { LABELS, CASES, "../crates/label_cases/data/read_version", read_label },
    { LABELS, CASES, "../crates/label_cases/data/read_values", read_label },
    { LABELS, CASES, "../crates/label_cases/data/read_order", read_label },
    { LABELS, CASES, "../crates/label_cases/data/read_uuid", read_label },
    { LABELS, CASES, "../crates/label_cases/data/read_numbers", read_label },
    { VOL1S, CASES, "../crates/label_cases/data/vol1_read", read_vol1 },
    { INDEXES, CASES, "../crates/index_cases/data/index", read_index },
    { INDEXES, CASES, "../crates/index_cases/data/own", read_index },
    { INDEXES, CASES, "../crates/index_cases/data/uuid", read_index },
    { INDEXES, CASES, "../crates/index_cases/data/spellings", read_index },
    { INDEXES, CASES, "../crates/index_cases/data/numbers", read_index },
    { INDEXES, CASES, "../crates/index_cases/data/number_spellings", read_index },
    { INDEXES, CASES, "../crates/index_cases/data/rows", read_index_of_rows },
    { ROW_LISTS, CASES, "../crates/index_cases/data/rows", read_rows },
    { ROW_LISTS, LINES, "../crates/extents_cases/stdin", read_row_line },
    { TEXTS, LINES, "../crates/xml_cases/data/cases", read_text_line },
    { TEXTS, LINES, "../crates/xml_cases/data/vectors", read_text_line },
    { TEXTS, LINES, "../crates/xml_cases/data/fronts", read_text_line },
    { ANSI_TAPES, CASES, "../crates/ansi_cases/data/vectors", read_ansi },
    { ANSI_PLACES, CASES, "../crates/ansi_cases/data/places", read_ansi_place },
    { ANSI_PLACES, CASES, "../crates/ansi_cases/data/unreadable", read_ansi_place },
};

static void each_of_file(const struct vector_file *from, void (*use)(const struct random_case *vector))
{
    struct case_file file;
    (from->manner == LINES ? open_lines : open_cases)(&file, from->path);
    while ((from->manner == LINES ? next_line : next_case)(&file)) {
        struct random_case vector = { 0 };
        made.length = 0;
        if (from->read(&file, &vector))
            use(&vector);
    }
    buffer_free(&made);
}

void each_vector(enum vectors kind, void (*use)(const struct random_case *vector))
{
    for (size_t i = 0; i < sizeof files / sizeof files[0]; i++)
        if (files[i].kind == kind)
            each_of_file(&files[i], use);
}
