#include "reads.h"

#include <string.h>

/* An element and the bytes that the store has of it. */
struct taken {
    struct element element;
    const uint8_t *bytes;
};

/* Takes an element off the front of a side. */
static struct taken take(struct side *rest)
{
    struct taken taken = { take_element(&rest->list), rest->store.start };
    uint64_t length = taken.element.length;
    rest->store = part_of(rest->store, length, rest->store.length - length);
    return taken;
}

static bool are_alike(const struct element pair[2])
{
    return pair[OLD].kind == pair[NEW].kind && pair[OLD].length == pair[NEW].length;
}

static bool are_same(const struct taken pair[2])
{
    const struct element elements[] = { pair[OLD].element, pair[NEW].element };
    size_t length = elements[OLD].length;
    return are_alike(elements) && (length == 0 || memcmp(pair[OLD].bytes, pair[NEW].bytes, length) == 0);
}

bool differs_in_bytes(const struct comparison *found)
{
    return are_alike(found->first);
}

static void note_first(struct comparison *found, const struct taken pair[2])
{
    found->common = found->both;
    found->first[OLD] = pair[OLD].element;
    found->first[NEW] = pair[NEW].element;
    while (differs_in_bytes(found) && pair[OLD].bytes[found->byte] == pair[NEW].bytes[found->byte])
        found->byte++;
}

static void note_difference(struct comparison *found, const struct taken pair[2])
{
    if (found->differing++ == 0)
        note_first(found, pair);
    /* Two that are both unreadable do not differ. */
    for (int read = OLD; read <= NEW; read++)
        found->unreadable_alone[read] += pair[read].element.kind == UNREADABLE_BLOCK;
}

struct comparison compare_side(const struct side *old, const struct side *new)
{
    struct side rests[] = { *old, *new };
    struct comparison found = { .relation = DIFFERENT };
    while (rests[OLD].list.length > 0 && rests[NEW].list.length > 0) {
        const struct taken pair[] = { take(&rests[OLD]), take(&rests[NEW]) };
        if (!are_same(pair))
            note_difference(&found, pair);
        found.both++;
    }
    if (found.differing > 0)
        return found;
    found.common = found.both;
    found.relation = rests[NEW].list.length > 0 ? NEW_CONTINUES_OLD
                   : rests[OLD].list.length > 0 ? OLD_CONTINUES_NEW : SAME;
    return found;
}

enum relation joined(enum relation index, enum relation data)
{
    if (index == DIFFERENT || data == DIFFERENT)
        return DIFFERENT;
    if (index == MALFORMED || data == MALFORMED)
        return MALFORMED;
    if (index == SAME || index == data)
        return data;
    return data == SAME ? index : DIFFERENT;
}
