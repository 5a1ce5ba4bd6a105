#include "case_files.h"

#include <errno.h>
#include <stdio.h>
#include <stdlib.h>
#include <string.h>

void malformed(const struct case_file *file, const char *what)
{
    fprintf(stderr, "%s: %s at byte %zu\n", file->path, what, file->at);
    exit(2);
}

static void read_whole(struct case_file *file, const char *path)
{
    static uint8_t part[65536];
    FILE *stream = fopen(path, "rb");
    size_t length;
    *file = (struct case_file){ .path = path };
    while (stream != NULL && (length = fread(part, 1, sizeof part, stream)) > 0)
        put_bytes(&file->bytes, part, length);
    if (stream == NULL || ferror(stream)) {
        fprintf(stderr, "%s: %s\n", path, strerror(errno));
        exit(2);
    }
    fclose(stream);
    if (file->bytes.length == 0)
        malformed(file, "nothing in it");
}

/* ---- In the manner of crates/case_files ---- */

static uint8_t *take(struct case_file *file, uint64_t length)
{
    if (length > file->bytes.length - file->at)
        malformed(file, "ends too early");
    file->at += length;
    return file->bytes.bytes + file->at - length;
}

uint64_t next_number(struct case_file *file)
{
    const uint8_t *bytes = take(file, 8);
    uint64_t number = 0;
    for (int i = 7; i >= 0; i--)
        number = number << 8 | bytes[i];
    return number;
}

uint8_t *next_bytes(struct case_file *file, size_t *length)
{
    *length = next_number(file);
    return take(file, *length);
}

void skip_numbers(struct case_file *file, uint64_t count)
{
    while (count-- > 0)
        next_number(file);
}

void skip_bytes(struct case_file *file, uint64_t strings)
{
    size_t length;
    while (strings-- > 0)
        next_bytes(file, &length);
}

void open_cases(struct case_file *file, const char *path)
{
    read_whole(file, path);
    file->left = next_number(file);
    if (file->left == 0)
        malformed(file, "no cases");
}

bool next_case(struct case_file *file)
{
    if (file->left-- > 0)
        return true;
    if (file->at != file->bytes.length)
        malformed(file, "more than its cases");
    buffer_free(&file->bytes);
    return false;
}

/* ---- Lines ---- */

void open_lines(struct case_file *file, const char *path)
{
    read_whole(file, path);
    file->line_end = SIZE_MAX; /* as if a line ended before the first */
    if (file->bytes.bytes[file->bytes.length - 1] != '\n')
        malformed(file, "a last line without its end");
}

bool next_line(struct case_file *file)
{
    file->at = file->line_end + 1;
    if (file->at == file->bytes.length) {
        buffer_free(&file->bytes);
        return false;
    }
    const uint8_t *end = memchr(file->bytes.bytes + file->at, '\n', file->bytes.length - file->at);
    file->line_end = (size_t)(end - file->bytes.bytes);
    return true;
}

bool next_byte(struct case_file *file, uint8_t *byte)
{
    if (file->at == file->line_end)
        return false;
    *byte = file->bytes.bytes[file->at++];
    return true;
}
