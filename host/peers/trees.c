#include "trees.h"

#include <errno.h>
#include <stdio.h>
#include <stdlib.h>
#include <string.h>

#include "case_files.h"

#define PROGRAM "target/programs/trees"
#define INPUT "target/peers/texts"

/* Byte strings, each behind its length: as the program takes the texts, and as case_files reads both. */
static struct buffer texts, trees;

/* ---- Texts put aside ---- */

static void put_aside(struct buffer *aside, const void *bytes, size_t length)
{
    for (int i = 0; i < 8; i++)
        put_byte(aside, (uint8_t)((uint64_t)length >> 8 * i), 1);
    put_bytes(aside, bytes, length);
}

void tree_wanted(const uint8_t *text, size_t length, const struct buffer *tree)
{
    put_aside(&texts, text, length);
    put_aside(&trees, tree->bytes, tree->length);
}

bool many_trees_wanted(void)
{
    return texts.length > 16 << 20;
}

/* ---- The program ---- */

static void give_up(const char *what, const char *why)
{
    fprintf(stderr, "%s: %s\n", what, why);
    exit(2);
}

static struct buffer run_program(void)
{
    static uint8_t part[65536];
    struct buffer output = { 0 };
    FILE *input = fopen(INPUT, "wb");
    if (input == NULL || fwrite(texts.bytes, 1, texts.length, input) != texts.length || fclose(input) != 0)
        give_up(INPUT, strerror(errno));
    FILE *program = popen(PROGRAM " < " INPUT, "r");
    if (program == NULL)
        give_up(PROGRAM, strerror(errno));
    for (size_t length; (length = fread(part, 1, sizeof part, program)) > 0;)
        put_bytes(&output, part, length);
    if (pclose(program) != 0)
        give_up(PROGRAM, "failed");
    return output;
}

/* ---- Its output ---- */

void put_counted(struct buffer *tree, const void *bytes, size_t length)
{
    put(tree, "%zu ", length);
    put_bytes(tree, bytes, length);
    put(tree, "\n");
}

/* XML 1.0, 2.11 and 3.3.3: other parsers hand out a line end as LF, and white space in a value as spaces. */
static void put_handed_out(struct buffer *tree, const uint8_t *bytes, size_t length, bool is_value)
{
    struct buffer handed_out = { 0 };
    for (size_t i = 0; i < length; i++) {
        uint8_t byte = bytes[i];
        if (byte == '\r' && i + 1 < length && bytes[i + 1] == '\n')
            continue;
        if (byte == '\r')
            byte = '\n';
        put_byte(&handed_out, is_value && (byte == '\n' || byte == '\t') ? ' ' : byte, 1);
    }
    put_counted(tree, handed_out.bytes, handed_out.length);
    buffer_free(&handed_out);
}

/* Copies the output up to a byte, and that byte; false where it is missing. */
static bool copy_through(struct buffer *tree, const struct buffer *output, size_t *at, char last)
{
    const uint8_t *start = output->bytes + *at, *end = memchr(start, last, output->length - *at);
    if (end == NULL)
        return false;
    put_bytes(tree, start, (size_t)(end - start) + 1);
    *at += (size_t)(end - start) + 1;
    return true;
}

/* A value or text behind its length, and the line end. */
static bool copy_counted(struct buffer *tree, const struct buffer *output, size_t *at, bool is_value)
{
    size_t length = 0;
    for (; *at < output->length && output->bytes[*at] >= '0' && output->bytes[*at] <= '9'; ++*at)
        length = 10 * length + output->bytes[*at] - '0';
    if (output->length - *at < 2 || length > output->length - *at - 2)
        return false;
    put_handed_out(tree, output->bytes + *at + 1, length, is_value);
    *at += length + 2;
    return output->bytes[*at - length - 2] == ' ' && output->bytes[*at - 1] == '\n';
}

/* The next tree of the output, as other parsers hand it out, and the point behind it; false where it is malformed. */
static bool next_tree(struct buffer *tree, const struct buffer *output, size_t *at)
{
    bool well_formed = true;
    while (well_formed && *at + 1 < output->length && memcmp(output->bytes + *at, ".\n", 2) != 0) {
        switch (output->bytes[*at]) {
        case '@':
            well_formed = copy_through(tree, output, at, '=') && copy_counted(tree, output, at, true);
            break;
        case '"':
            well_formed = copy_through(tree, output, at, '"') && copy_counted(tree, output, at, false);
            break;
        default:
            well_formed = copy_through(tree, output, at, '\n');
        }
    }
    *at += 2;
    return well_formed && *at <= output->length;
}

/* ---- Comparing ---- */

uint64_t compare_trees(void (*differs)(const uint8_t *text, size_t length))
{
    if (texts.length == 0)
        return 0;
    struct buffer output = run_program();
    struct case_file text_file = { .path = "texts put aside", .bytes = texts };
    struct case_file tree_file = { .path = "trees put aside", .bytes = trees };
    size_t at = 0;
    uint64_t count = 0;
    for (bool well_formed = true; text_file.at < texts.length && well_formed; count++) {
        struct buffer tree = { 0 };
        size_t length, wanted_length;
        const uint8_t *text = next_bytes(&text_file, &length), *wanted = next_bytes(&tree_file, &wanted_length);
        well_formed = next_tree(&tree, &output, &at);
        if (!well_formed || tree.length != wanted_length || memcmp(tree.bytes, wanted, wanted_length) != 0)
            differs(text, length);
        buffer_free(&tree);
    }
    if (at != output.length)
        give_up(PROGRAM, "not as many trees as texts");
    buffer_free(&output);
    buffer_free(&texts);
    buffer_free(&trees);
    return count;
}
