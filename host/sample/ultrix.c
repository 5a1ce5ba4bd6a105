#include "ultrix.h"

#include <stdio.h>
#include <stdlib.h>
#include <string.h>

enum { LABEL = 80, PATH_IN_HDR3 = 36, PATH_IN_HDR4 = 76 };

void ultrix_label(struct tape *tape, const char *text)
{
    char label[LABEL + 1];
    if (strlen(text) > LABEL)
        abort();
    snprintf(label, sizeof label, "%-80s", text);
    tape_block(tape, label, LABEL);
}

void ultrix_begin(struct tape *tape, const char *identifier, const char *owner)
{
    char text[LABEL + 1];
    snprintf(text, sizeof text, "VOL1%-6.6s%14sDECULTRIX0001%-14.14s%28s4", identifier, "", owner, "");
    ultrix_label(tape, text);
}

void ultrix_end(struct tape *tape)
{
    tape_mark(tape);
}

/* HDR1 and EOF1 differ in their name and the count. */
static void put_label1(struct tape *tape, const char *name, const struct ultrix_file *file, size_t blocks)
{
    char text[LABEL + 1];
    snprintf(text, sizeof text, "%s1%-17.17s0000010001%04u000100 91001 99366 %06u%-13s%7s", name, file->id,
             file->sequence % 10000, (unsigned)blocks % 1000000, "DECULTRIX0001", "");
    ultrix_label(tape, text);
}

static size_t path_labels(const struct ultrix_file *file)
{
    size_t length = strlen(file->path);
    if (length <= PATH_IN_HDR3)
        return length > 0;
    return 1 + (length - PATH_IN_HDR3 + PATH_IN_HDR4 - 1) / PATH_IN_HDR4;
}

static void put_label2(struct tape *tape, const char *name, const struct ultrix_file *file)
{
    char text[LABEL + 1], last = file->path[0] == '\0' ? ' ' : (char)('2' + path_labels(file));
    snprintf(text, sizeof text, "%s2%c%05u%05u100644%4d%4d%4d%s %10zu%c0000", name, file->format,
             file->block_length % 100000, file->record_length % 100000, 20, 15, 0, "asc", file->length, last);
    ultrix_label(tape, text);
}

/* The path in HDR3 and as many labels behind it as it needs. */
static void put_path(struct tape *tape, const struct ultrix_file *file)
{
    char text[LABEL + 1];
    const char *rest = file->path;
    for (size_t i = 0; i < path_labels(file); i++) {
        if (i == 0)
            snprintf(text, sizeof text, "HDR3%10d%-10s%-20s%.36s", 662688000, "staff", "bench", rest);
        else
            snprintf(text, sizeof text, "HDR%c%.76s", (char)('3' + i), rest);
        rest += i == 0 ? PATH_IN_HDR3 : PATH_IN_HDR4;
        ultrix_label(tape, text);
    }
}

/* Bytes that can be told apart by their position, in blocks of the file's length. */
static size_t put_data(struct tape *tape, const struct ultrix_file *file)
{
    size_t blocks = 0;
    uint8_t *bytes = malloc(file->length + 1);
    if (bytes == NULL)
        abort();
    for (size_t i = 0; i < file->length; i++)
        bytes[i] = (uint8_t)(i % 80 == 79 ? '\n' : 'a' + (i / 80 + file->sequence + i) % 26);
    for (size_t at = 0; at < file->length; blocks++) {
        size_t length = file->length - at < file->block_length ? file->length - at : file->block_length;
        tape_block(tape, bytes + at, length);
        at += length;
    }
    free(bytes);
    return blocks;
}

void ultrix_file(struct tape *tape, const struct ultrix_file *file)
{
    put_label1(tape, "HDR", file, 0);
    put_label2(tape, "HDR", file);
    put_path(tape, file);
    if (file->has_user_labels)
        ultrix_label(tape, "UHL1 of the application");
    tape_mark(tape);
    size_t blocks = put_data(tape, file);
    tape_mark(tape);
    put_label1(tape, "EOF", file, blocks + file->lost);
    put_label2(tape, "EOF", file);
    if (file->has_user_labels)
        ultrix_label(tape, "UTL1 of the application");
    tape_mark(tape);
}
