/*
 * make_corpus DIR CASES: writes the inputs that fuzzing starts from, a folder for each target: the vectors in crates/,
 * and CASES of the reference's generator.
 */
#include <inttypes.h>
#include <stdio.h>
#include <stdlib.h>
#include <string.h>
#include <sys/stat.h>

#include "sample.h"
#include "vectors.h"

enum target { VOLUME, LABEL, INDEX, FORM, ROWS, ANSI, TARGETS };

static const char *const names[TARGETS] = { "volume", "label", "index", "form", "rows", "ansi" };
static uint64_t written[TARGETS];
static const char *folder;

static void write_input(enum target target, struct buffer *input)
{
    char path[4096];
    snprintf(path, sizeof path, "%s/%s/%06" PRIu64, folder, names[target], written[target]++);
    FILE *file = fopen(path, "wb");
    if (file != NULL && input->length > 0)
        fwrite(input->bytes, 1, input->length, file);
    if (file == NULL || fclose(file) != 0) {
        perror(path);
        exit(2);
    }
    buffer_free(input);
}

/* As fuzz.h takes them apart. */
static void put_number(struct buffer *input, uint64_t number, int bytes)
{
    while (bytes-- > 0)
        put_byte(input, (uint8_t)(number >> 8 * bytes), 1);
}

static void put_part(struct buffer *input, const struct random_case *from, int which)
{
    put_bytes(input, from->bytes[which], from->lengths[which]);
}

static void put_slice(struct buffer *input, const struct random_case *from, int which)
{
    put_number(input, from->lengths[which], 3);
    put_part(input, from, which);
}

static void write_volume(const struct random_case *volume)
{
    struct buffer input = { 0 };
    put_number(&input, volume->numbers[0], 1);
    for (int i = 0; i < 4; i++)
        put_slice(&input, volume, i);
    write_input(VOLUME, &input);
}

/* Of a label and of a VOL1. */
static void write_label(const struct random_case *label)
{
    struct buffer input = { 0 };
    put_part(&input, label, 0);
    write_input(LABEL, &input);
}

static void write_index(const struct random_case *index)
{
    struct buffer input = { 0 };
    const uint64_t *n = index->numbers;
    put_number(&input, n[0], 1);
    put_number(&input, n[1], 1);
    put_number(&input, n[3], 1);
    put_number(&input, n[4], 2);
    put_number(&input, n[2], 4);
    put_slice(&input, index, 1);
    put_part(&input, index, 0);
    write_input(INDEX, &input);
}

static void write_form(const struct random_case *text)
{
    struct buffer input = { 0 };
    put_part(&input, text, 0);
    write_input(FORM, &input);
}

static void write_rows(const struct random_case *list)
{
    struct buffer input = { 0 };
    put_number(&input, list->numbers[0], 8);
    put_number(&input, list->numbers[1], 4);
    put_number(&input, list->numbers[2], 8);
    for (size_t i = 0; i < list->row_numbers; i++)
        put_number(&input, list->rows[i], 8);
    write_input(ROWS, &input);
}

static void write_ansi(const struct random_case *tape)
{
    struct buffer input = { 0 };
    put_number(&input, tape->numbers[0], 2);
    put_slice(&input, tape, 0);
    put_part(&input, tape, 1);
    write_input(ANSI, &input);
}

static void write_random(struct random_case random, void (*write)(const struct random_case *random))
{
    write(&random);
    random_free(random);
}

static void make_folders(void)
{
    char path[4096];
    mkdir(folder, 0777);
    for (int i = 0; i < TARGETS; i++) {
        snprintf(path, sizeof path, "%s/%s", folder, names[i]);
        mkdir(path, 0777);
    }
}

static void write_vectors(void)
{
    each_vector(VOLUMES, write_volume);
    each_vector(LABELS, write_label);
    each_vector(VOL1S, write_label);
    each_vector(INDEXES, write_index);
    each_vector(TEXTS, write_form);
    each_vector(ROW_LISTS, write_rows);
    each_vector(ANSI_TAPES, write_ansi);
    each_vector(ANSI_PLACES, write_ansi);
}

int main(int count, char **words)
{
    uint64_t vectors[TARGETS];
    if (count != 3)
        return 2;
    folder = words[1];
    make_folders();
    write_vectors();
    memcpy(vectors, written, sizeof vectors);
    uint64_t cases = strtoull(words[2], NULL, 10);
    for (uint64_t seed = 0; seed < cases; seed++) {
        write_random(random_volume(seed), write_volume);
        write_random(random_label(seed), write_label);
        write_random(random_vol1(seed), write_label);
        write_random(random_index(seed), write_index);
        write_random(random_form(seed), write_form);
        write_random(random_rows(seed), write_rows);
        write_random(random_ansi(seed), write_ansi);
    }
    for (int i = 0; i < TARGETS; i++)
        printf("%s: %" PRIu64 " inputs from vectors, %" PRIu64 " from the generator\n", names[i], vectors[i],
               written[i] - vectors[i]);
    return 0;
}
