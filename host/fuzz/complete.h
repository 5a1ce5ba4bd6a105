/*
 * Fronts of texts in the form, completed: a reading of its own, which looks for no fault. Where some text in the form
 * begins with the bytes, what it makes of them is one; where none does, it is none, since it begins with them.
 */
#ifndef COMPLETE_H
#define COMPLETE_H

#include "fuzz.h"
#include "sample.h"

enum place { BETWEEN_TAGS, TAG_BEGUN, START_NAME, IN_START_TAG, KEY, BEFORE_VALUE, VALUE, AFTER_SLASH, END_TAG };

struct scan {
    enum place place;
    uint8_t quote;
    int has_root;
    struct slice open[KLAPOUZEN_MAX_NESTING + 1]; /* the names of elements that are not at their ends, the root's first */
    size_t depth;
    size_t named; /* bytes of the name in the end tag that is begun */
};

static inline int is_white(uint8_t byte)
{
    return byte == ' ' || byte == '\t' || byte == '\r' || byte == '\n';
}

/* No text in the form goes deeper than what is noted. */
static inline void open_element(struct scan *scan, const uint8_t *name)
{
    if (scan->depth < sizeof scan->open / sizeof scan->open[0])
        scan->open[scan->depth++] = (struct slice){ name, 1 };
    scan->has_root = 1;
    scan->place = START_NAME;
}

static inline void close_element(struct scan *scan)
{
    scan->depth -= scan->depth > 0;
    scan->place = BETWEEN_TAGS;
}

/* In a start tag where it may end; else on to another place. */
static inline void end_start_tag(struct scan *scan, uint8_t byte, enum place other)
{
    scan->place = byte == '>' ? BETWEEN_TAGS : byte == '/' ? AFTER_SLASH : other;
}

static inline void scan_byte(struct scan *scan, const uint8_t *byte)
{
    switch (scan->place) {
    case BETWEEN_TAGS:
        scan->place = *byte == '<' ? TAG_BEGUN : BETWEEN_TAGS;
        break;
    case TAG_BEGUN:
        scan->place = END_TAG;
        scan->named = 0;
        if (*byte != '/')
            open_element(scan, byte);
        break;
    case START_NAME:
        end_start_tag(scan, *byte, is_white(*byte) ? IN_START_TAG : START_NAME);
        scan->open[scan->depth - 1].length += scan->place == START_NAME;
        break;
    case IN_START_TAG:
        end_start_tag(scan, *byte, is_white(*byte) ? IN_START_TAG : KEY);
        break;
    case KEY:
        scan->place = *byte == '=' ? BEFORE_VALUE : KEY;
        break;
    case BEFORE_VALUE:
        scan->quote = *byte;
        scan->place = is_white(*byte) ? BEFORE_VALUE : VALUE;
        break;
    case VALUE:
        scan->place = *byte == scan->quote ? IN_START_TAG : VALUE;
        break;
    case AFTER_SLASH:
        close_element(scan);
        break;
    case END_TAG:
        scan->named += !is_white(*byte);
        if (*byte == '>')
            close_element(scan);
    }
}

/* ---- What is missing ---- */

/* Of a reference that is begun at the end. */
static inline void put_reference(struct buffer *text)
{
    static const char *const references[] = { "&amp;", "&lt;", "&gt;", "&quot;", "&apos;" };
    enum { LONGEST = 5 };
    const uint8_t *end = text->bytes + text->length, *begin = memrchr(end - LONGEST, '&', LONGEST);
    if (begin == NULL || memchr(begin, ';', (size_t)(end - begin)) != NULL)
        return;
    for (size_t i = 0, length = (size_t)(end - begin); i < sizeof references / sizeof references[0]; i++)
        if (strncmp(references[i], (const char *)begin, length) == 0) {
            put(text, "%s", references[i] + length);
            return;
        }
}

/* Of a character that is begun at the end: bytes 80, but behind E0 and F0, which begin no shorter one's value. */
static inline void put_character(struct buffer *text)
{
    size_t there = 1;
    while (there < 4 && (text->bytes[text->length - there] & 0xc0) == 0x80)
        there++;
    uint8_t first = text->bytes[text->length - there];
    size_t all = first >= 0xf0 ? 4 : first >= 0xe0 ? 3 : first >= 0xc0 ? 2 : 1;
    for (; there < all; there++)
        put_byte(text, there == 1 && first == 0xe0 ? 0xa0 : there == 1 && first == 0xf0 ? 0x90 : 0x80, 1);
}

/* Of the tag that is begun, its element's end among it where it is a start tag. */
static inline void put_tag(struct buffer *text, const struct scan *scan)
{
    const struct slice *name = &scan->open[scan->depth - 1];
    size_t named = scan->place == END_TAG && scan->named < name->length ? scan->named : name->length;
    switch (scan->place) {
    case BETWEEN_TAGS:
        put(text, "</");
        put_bytes(text, SLICE(*name));
        break;
    case TAG_BEGUN:
        put(text, "/");
        put_bytes(text, SLICE(*name));
        break;
    case END_TAG:
        put_bytes(text, name->start + named, name->length - named);
        break;
    case KEY:
        put(text, "=''/");
        break;
    case BEFORE_VALUE:
        put(text, "''/");
        break;
    case VALUE:
        put_byte(text, scan->quote, 1);
        put(text, "/");
        break;
    case START_NAME:
    case IN_START_TAG:
        put(text, "/");
        break;
    case AFTER_SLASH:
        break;
    }
    put(text, ">");
}

static inline void put_rest(struct buffer *text, struct scan *scan)
{
    if (scan->place == BETWEEN_TAGS || scan->place == VALUE) {
        put_reference(text);
        put_character(text);
    }
    if (!scan->has_root) {
        put(text, scan->place == BETWEEN_TAGS ? "<a/>" : "a/>");
        return;
    }
    for (; scan->depth > 0; scan->depth--, scan->place = BETWEEN_TAGS)
        put_tag(text, scan);
}

/* The bytes, and what completes them. */
static inline struct buffer completed(const uint8_t *bytes, size_t length)
{
    static const char declaration[] = "<?xml version=\"1.0\" encoding=\"UTF-8\"?>";
    enum { DECLARATION = sizeof declaration - 1 };
    struct buffer text = { 0 };
    struct scan scan = { 0 };
    put_bytes(&text, bytes, length);
    if (length < DECLARATION)
        put(&text, "%s", declaration + length);
    for (size_t i = DECLARATION; i < length; i++)
        scan_byte(&scan, bytes + i);
    put_rest(&text, &scan);
    return text;
}

#endif
