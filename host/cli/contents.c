#include "contents.h"

#include <stdlib.h>

#include "common.h"

/* What was read of a sound index is refused nothing where the room is right. */
static void expect(uint64_t refusal, const char *what)
{
    if (refusal == 0)
        return;
    complain("%s: %s", what, klapouzen_refusal_text(refusal));
    exit(FAILED);
}

void contents_read(struct contents *contents, const struct label *label, const struct place *place,
                   const uint64_t header[KLAPOUZEN_INDEX])
{
    uint64_t again[KLAPOUZEN_INDEX];
    uint64_t count = header[KLAPOUZEN_INDEX_DIRECTORIES] + header[KLAPOUZEN_INDEX_FILES];
    size_t entries = KLAPOUZEN_ENTRY * count, rows = KLAPOUZEN_ROW * header[KLAPOUZEN_INDEX_ROWS];
    *contents = (struct contents){
        .text = place->text,
        .count = count,
        .entries = allocate(entries * sizeof(uint64_t)),
        .rows = allocate(rows * sizeof(uint64_t)),
        .room = allocate(place->text.length),
    };
    expect(klapouzen_read_whole(INDEX_AT(label, place), contents->entries, entries, contents->rows, rows, again),
           "reading all of an index");
}

void contents_free(struct contents *contents)
{
    free(contents->entries);
    free(contents->rows);
    free(contents->room);
}

const uint64_t *entry_of(const struct contents *contents, uint64_t entry)
{
    return contents->entries + KLAPOUZEN_ENTRY * entry;
}

bool is_file(const struct contents *contents, uint64_t entry)
{
    return entry_of(contents, entry)[KLAPOUZEN_ENTRY_KIND] == REGULAR;
}

bool find_numbered(const struct contents *contents, uint64_t number, uint64_t *entry)
{
    for (uint64_t i = 0; i < contents->count; i++)
        if (is_file(contents, i) && entry_of(contents, i)[KLAPOUZEN_ENTRY_FILE] == number) {
            *entry = i;
            return true;
        }
    return false;
}

uint64_t *rows_of(const struct contents *contents, uint64_t entry)
{
    return contents->rows + KLAPOUZEN_ROW * entry_of(contents, entry)[KLAPOUZEN_ENTRY_FIRST_ROW];
}

/* No path and no name is longer than the text that spells it. */
struct bytes path_of(const struct contents *contents, uint64_t entry)
{
    uint64_t length;
    expect(klapouzen_path(SLICE(contents->text), contents->entries, KLAPOUZEN_ENTRY * contents->count, entry,
                          contents->room, contents->text.length, &length), "a path");
    return (struct bytes){ contents->room, length };
}

struct bytes name_of(const struct contents *contents, uint64_t entry)
{
    const uint64_t *numbers = entry_of(contents, entry);
    struct bytes spelled = part_of(contents->text, numbers[KLAPOUZEN_ENTRY_NAME], numbers[KLAPOUZEN_ENTRY_NAME_LENGTH]);
    uint64_t length;
    expect(klapouzen_decode(SLICE(spelled), contents->room, contents->text.length, &length), "a name");
    return (struct bytes){ contents->room, length };
}
