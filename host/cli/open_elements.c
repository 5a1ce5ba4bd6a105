#include "open_elements.h"

#include <ctype.h>
#include <string.h>

/* The bytes of the tag that a text begins with; 0 where it is not whole. */
static size_t tag_length(struct bytes text)
{
    uint8_t quote = 0;
    for (size_t i = 0; i < text.length; i++) {
        uint8_t byte = text.start[i];
        if (quote != 0)
            quote = byte == quote ? 0 : quote;
        else if (byte == '"' || byte == '\'')
            quote = byte;
        else if (byte == '>')
            return i + 1;
    }
    return 0;
}

/* The name of a start tag, behind its <. */
static struct bytes name_of_tag(struct bytes tag)
{
    size_t end = 1;
    while (end < tag.length && (isalnum(tag.start[end]) || strchr("_-.", tag.start[end]) != NULL))
        end++;
    return part_of(tag, 1, end - 1);
}

static void add_tag(struct open_elements *open, struct bytes tag)
{
    if (tag.start[1] == '?')
        return;
    if (tag.start[1] == '/') {
        open->count -= open->count > 0;
        return;
    }
    if (open->count == KLAPOUZEN_MAX_NESTING)
        return;
    open->names[open->count] = name_of_tag(tag);
    open->count += tag.start[tag.length - 2] != '/';
}

struct open_elements open_elements(struct bytes front)
{
    struct open_elements open = { .count = 0 };
    const uint8_t *end = front.start + front.length, *tag = front.start;
    while (tag < end && (tag = memchr(tag, '<', (size_t)(end - tag))) != NULL) {
        struct bytes rest = { tag, (size_t)(end - tag) };
        size_t length = tag_length(rest);
        if (length == 0)
            break;
        add_tag(&open, part_of(rest, 0, length));
        tag += length;
    }
    return open;
}
