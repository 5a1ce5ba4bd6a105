#include "text.h"

#include <inttypes.h>
#include <stdlib.h>
#include <string.h>
#include <wchar.h>

#include "common.h"

struct bytes bytes_of(const char *text)
{
    return (struct bytes){ .start = (const uint8_t *)text, .length = strlen(text) };
}

/* ---- Characters ---- */

/* How many bytes of well-formed UTF-8 the text begins with, for one character; else 0. */
static size_t utf8_length(struct bytes text)
{
    uint8_t lead = text.start[0];
    size_t length = lead < 0x80 ? 1 : lead < 0xc2 ? 0 : lead < 0xe0 ? 2 : lead < 0xf0 ? 3
                  : lead < 0xf5 ? 4 : 0;
    if (length > text.length)
        return 0;
    for (size_t i = 1; i < length; i++)
        if ((text.start[i] & 0xc0) != 0x80)
            return 0;
    uint8_t second = length > 1 ? text.start[1] : 0x80;
    bool overlong = (lead == 0xe0 && second < 0xa0) || (lead == 0xf0 && second < 0x90);
    bool outside = (lead == 0xed && second >= 0xa0) || (lead == 0xf4 && second >= 0x90);
    return overlong || outside ? 0 : length;
}

/* A character, or a byte that is none, and how many bytes it took. */
struct character {
    uint32_t code;
    size_t taken;
    bool is_byte;
};

static struct character next_character(struct bytes text)
{
    static const uint8_t lead_bits[] = { 0xff, 0x7f, 0x1f, 0x0f, 0x07 };
    size_t length = utf8_length(text);
    uint32_t code = text.start[0] & lead_bits[length];
    for (size_t i = 1; i < length; i++)
        code = code << 6 | (text.start[i] & 0x3f);
    return (struct character){ code, length > 0 ? length : 1, length == 0 };
}

static struct bytes rest_of(struct bytes text, size_t taken)
{
    return part_of(text, taken, text.length - taken);
}

bool is_utf8(struct bytes text)
{
    bool all = true;
    while (all && text.length > 0) {
        struct character next = next_character(text);
        all = !next.is_byte;
        text = rest_of(text, next.taken);
    }
    return all;
}

size_t count_characters(struct bytes text)
{
    size_t count = 0;
    while (text.length > 0) {
        text = rest_of(text, next_character(text).taken);
        count++;
    }
    return count;
}

struct bytes character_at(struct bytes text, size_t byte)
{
    size_t begin = 0, end = 0;
    while (end <= byte && end < text.length) {
        begin = end;
        end += next_character(rest_of(text, end)).taken;
    }
    return end > byte ? part_of(text, begin, end - begin) : part_of(text, end, 0);
}

/* What a terminal obeys, or shows nothing for, or XML has no place for. */
static bool is_unseen(struct character character)
{
    static const struct { uint32_t from, to; } ranges[] = {
        { 0x00, 0x1f },     { 0x7f, 0x9f },     { 0xad, 0xad },     { 0x61c, 0x61c },
        { 0x180e, 0x180e }, { 0x200b, 0x200f }, { 0x2028, 0x202e }, { 0x2060, 0x206f },
        { 0xfeff, 0xfeff }, { 0xfff9, 0xfffb }, { 0xfffe, 0xffff }, { 0x1bca0, 0x1bca3 },
        { 0x1d173, 0x1d17a }, { 0xe0000, 0xe007f },
    };
    if (character.is_byte)
        return true;
    for (size_t i = 0; i < sizeof ranges / sizeof ranges[0]; i++)
        if (ranges[i].from <= character.code && character.code <= ranges[i].to)
            return true;
    return false;
}

/* ---- Printing ---- */

/* Two halves above U+FFFF, as JSON has it. */
static void put_json_number(FILE *out, struct character character)
{
    uint32_t code = character.is_byte ? 0xfffd : character.code;
    if (code > 0xffff) {
        fprintf(out, "\\u%04" PRIx32, 0xd800 + ((code - 0x10000) >> 10));
        code = 0xdc00 + (code & 0x3ff);
    }
    fprintf(out, "\\u%04" PRIx32, code);
}

static void put_number(FILE *out, struct character character)
{
    if (character.is_byte || character.code < 0x80)
        fprintf(out, "\\x%02" PRIx32, character.code);
    else
        fprintf(out, character.code > 0xffff ? "\\U%08" PRIx32 : "\\u%04" PRIx32, character.code);
}

/* A character below 128 that can be seen. */
static void put_ascii(FILE *out, enum form form, char character)
{
    if (character == '\\' || (form == TO_JSON && character == '"'))
        fputc('\\', out);
    if (form == TO_XML && strchr("&<>\"", character) != NULL)
        fprintf(out, "&#%d;", character);
    else
        fputc(character, out);
}

void print_text(FILE *out, enum form form, struct bytes text)
{
    while (text.length > 0) {
        struct character next = next_character(text);
        if (is_unseen(next))
            (form == TO_JSON ? put_json_number : put_number)(out, next);
        else if (next.code < 0x80)
            put_ascii(out, form, (char)next.code);
        else
            fwrite(text.start, 1, next.taken, out);
        text = rest_of(text, next.taken);
    }
}

void print_bytes(FILE *out, struct bytes text)
{
    print_text(out, TO_TERMINAL, text);
}

void print_spelled(FILE *out, struct bytes text)
{
    uint8_t *decoded = allocate(text.length);
    uint64_t length;
    klapouzen_decode(SLICE(text), decoded, text.length, &length);
    print_bytes(out, (struct bytes){ decoded, length });
    free(decoded);
}

void print_json(FILE *out, struct bytes text)
{
    fputc('"', out);
    print_text(out, TO_JSON, text);
    fputc('"', out);
}

void print_json_name(FILE *out, const char *key, struct bytes text)
{
    fprintf(out, "\"%s\":", key);
    print_json(out, text);
    if (is_utf8(text))
        return;
    fprintf(out, ",\"%s_bytes\":\"", key);
    for (size_t i = 0; i < text.length; i++)
        fprintf(out, "%02x", text.start[i]);
    fputc('"', out);
}

/* ---- Columns ---- */

/*
 * As terminals draw it, by the C library's table of characters: a letter from East Asia or a picture takes two, an accent
 * that is a character of its own none. Without a table all from these letters on take two.
 */
static size_t columns_of(struct character character)
{
    if (is_unseen(character))
        return character.is_byte || character.code < 0x80 ? 4 : character.code > 0xffff ? 10 : 6;
    if (character.code == '\\')
        return 2;
    int columns = wcwidth((wchar_t)character.code);
    return columns >= 0 ? (size_t)columns : character.code >= 0x1100 ? 2 : 1;
}

size_t all_columns(struct bytes text)
{
    size_t all = 0;
    while (text.length > 0) {
        struct character next = next_character(text);
        all += columns_of(next);
        text = rest_of(text, next.taken);
    }
    return all;
}

void print_padded(FILE *out, struct bytes text, size_t columns)
{
    print_bytes(out, text);
    for (size_t i = all_columns(text); i < columns; i++)
        fputc(' ', out);
}

struct bytes last_columns(struct bytes text, size_t columns)
{
    size_t all = all_columns(text);
    while (all > columns) {
        struct character next = next_character(text);
        all -= columns_of(next);
        text = rest_of(text, next.taken);
    }
    return text;
}

struct bytes first_columns(struct bytes text, size_t columns)
{
    struct bytes rest = text;
    size_t all = 0;
    while (rest.length > 0) {
        struct character next = next_character(rest);
        all += columns_of(next);
        if (all > columns)
            break;
        rest = rest_of(rest, next.taken);
    }
    return part_of(text, 0, text.length - rest.length);
}

/* ---- Comparing and counting ---- */

bool are_same(struct bytes one, struct bytes other)
{
    return one.length == other.length && (one.length == 0 || memcmp(one.start, other.start, one.length) == 0);
}

const char *grouped(uint64_t number)
{
    static char texts[4][32];
    static int turn;
    char digits[24];
    int length = snprintf(digits, sizeof digits, "%" PRIu64, number);
    char *text = texts[turn = (turn + 1) % 4], *end = text;
    for (int i = 0; i < length; i++) {
        if (i > 0 && (length - i) % 3 == 0)
            *end++ = ',';
        *end++ = digits[i];
    }
    *end = '\0';
    return text;
}

void print_counted(FILE *out, uint64_t number, const char *one, const char *many)
{
    fprintf(out, "%s %s", grouped(number), number == 1 ? one : many);
}
