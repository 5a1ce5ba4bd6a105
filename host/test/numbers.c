/*
 * Every text of up to six of some bytes as a number in an index and in a label: it
 * is one where XML Schema's pattern matches and the value fits 64 bits, and is read
 * as what strtoull says.
 */
#include <errno.h>
#include <inttypes.h>
#include <regex.h>
#include <stdio.h>
#include <stdlib.h>
#include <string.h>

#include "klapouzen.h"
#include "sample.h"

enum { LONGEST = 6 };

static const char bytes[] = " \n+-07x";

static uint64_t texts, failures;
static regex_t pattern;

/* Whether a text says a number, and which. */
static bool said(const char *text, uint64_t *value)
{
    errno = 0;
    *value = strtoull(text, NULL, 10);
    return regexec(&pattern, text, 0, NULL, 0) == 0 && errno == 0;
}

static void fail(const char *what, const char *text, uint64_t refusal)
{
    fprintf(stderr, "%s, \"%s\": %" PRIu64 "\n", what, text, refusal);
    failures++;
}

/* A text before and behind the number that is tried. */
struct around {
    struct buffer before, behind;
};

static struct around split(const uint8_t *text, size_t length, const char *tag)
{
    struct around around = { 0 };
    size_t at = 0, end;
    while (memcmp(text + at, tag, strlen(tag)) != 0)
        at++;
    at += strlen(tag);
    for (end = at; text[end] != '<';)
        end++;
    put_bytes(&around.before, text, at);
    put_bytes(&around.behind, text + end, length - end);
    return around;
}

static struct buffer joined(const struct around *around, const char *number)
{
    struct buffer text = { 0 };
    put_bytes(&text, around->before.bytes, around->before.length);
    put(&text, "%s", number);
    put_bytes(&text, around->behind.bytes, around->behind.length);
    return text;
}

static struct around index_around(void)
{
    struct index_text index;
    index_begin(&index, &(struct index_head){ .generation = 1, .letter = 'a', .block = 5 });
    index_end(&index);
    struct around around = split(index.text.bytes, index.text.length, "<highestfileuid>");
    buffer_free(&index.text);
    return around;
}

static struct around label_around(void)
{
    struct sample sample;
    sample_begin(&sample, 4096);
    const struct buffer *store = &sample.sides[0].store;
    struct around around
        = split(store->bytes + KLAPOUZEN_VOL1_LENGTH, store->length - KLAPOUZEN_VOL1_LENGTH, "<blocksize>");
    sample_free(&sample);
    return around;
}

static void try_in_index(const struct around *around, const char *number)
{
    uint64_t header[KLAPOUZEN_INDEX], value;
    struct buffer text = joined(around, number);
    uint64_t refusal = klapouzen_read_index(text.bytes, text.length, (const uint8_t *)SAMPLE_UUID, 36, 'a', 'b', 4096,
                                            'a', 5, header);
    bool is_number = said(number, &value);
    if (refusal != (is_number ? 0 : KLAPOUZEN_BAD_VALUE))
        fail("index", number, refusal);
    if (is_number && header[KLAPOUZEN_INDEX_HIGHEST_UID] != value)
        fail("index, its value", number, header[KLAPOUZEN_INDEX_HIGHEST_UID]);
    buffer_free(&text);
}

static void try_in_label(const struct around *around, const char *number)
{
    uint64_t label[KLAPOUZEN_LABEL], value;
    struct buffer text = joined(around, number);
    uint64_t refusal = klapouzen_read_label(text.bytes, text.length, label);
    bool is_size = said(number, &value) && value >= KLAPOUZEN_MIN_BLOCK_SIZE && value <= KLAPOUZEN_MAX_BLOCK_SIZE;
    if (refusal != (is_size ? 0 : KLAPOUZEN_BAD_VALUE))
        fail("label", number, refusal);
    if (is_size && label[KLAPOUZEN_LABEL_BLOCK_SIZE] != value)
        fail("label, its value", number, label[KLAPOUZEN_LABEL_BLOCK_SIZE]);
    buffer_free(&text);
}

/* All texts that begin so. */
static void try_from(const struct around *index, const struct around *label, char *text, size_t length)
{
    text[length] = '\0';
    try_in_index(index, text);
    try_in_label(label, text);
    texts++;
    for (size_t i = 0; length < LONGEST && bytes[i] != '\0'; i++) {
        text[length] = bytes[i];
        try_from(index, label, text, length + 1);
    }
}

/* What six bytes are too few for. */
static void try_long(const struct around *index, const struct around *label)
{
    static const char *const long_ones[] = {
        "18446744073709551615",  "18446744073709551616",    "+18446744073709551615", "0018446744073709551615\n",
        "99999999999999999999",  "184467440737095516150",   "-00000000000000000000", "-18446744073709551615",
        "\r\n\t +0000524288\t\r", "+0000000000000000004096", "4096 4096",             "-4096",
        "\xc2\xa0" "4096",       "4096.0",
    };
    for (size_t i = 0; i < sizeof long_ones / sizeof long_ones[0]; i++) {
        try_in_index(index, long_ones[i]);
        try_in_label(label, long_ones[i]);
        texts++;
    }
}

int main(void)
{
    char text[LONGEST + 1];
    if (regcomp(&pattern, "^[ \t\r\n]*([+]?[0-9]+|-0+)[ \t\r\n]*$", REG_EXTENDED | REG_NOSUB) != 0)
        return 2;
    struct around index = index_around(), label = label_around();
    try_from(&index, &label, text, 0);
    try_long(&index, &label);
    printf("%" PRIu64 " texts, %" PRIu64 " failures\n", texts, failures);
    return failures != 0;
}
