#include "collect.h"

#include <stdio.h>
#include <stdlib.h>
#include <string.h>

#include "klapouzen.h"

enum element {
    OTHER, GENERATION, UUID, TIME, LOCATION, BACK, PARTITION, STARTBLOCK, POLICY_UPDATE, HIGHEST, DIRECTORY,
    FILE_, UID, NAME, LENGTH, EXTENT, BYTEOFFSET, BYTECOUNT, FILEOFFSET, SKIPPED,
};

static const struct { const char *name; enum element element; } elements[] = {
    { "generationnumber", GENERATION }, { "volumeuuid", UUID }, { "updatetime", TIME },
    { "location", LOCATION }, { "previousgenerationlocation", BACK }, { "partition", PARTITION },
    { "startblock", STARTBLOCK }, { "allowpolicyupdate", POLICY_UPDATE }, { "highestfileuid", HIGHEST },
    { "directory", DIRECTORY }, { "file", FILE_ }, { "fileuid", UID }, { "name", NAME }, { "length", LENGTH },
    { "extent", EXTENT }, { "byteoffset", BYTEOFFSET }, { "bytecount", BYTECOUNT },
    { "fileoffset", FILEOFFSET }, { "extendedattributes", SKIPPED }, { "dataplacementpolicy", SKIPPED },
};

static enum element element_of(const char *name)
{
    for (size_t i = 0; i < sizeof elements / sizeof elements[0]; i++)
        if (elements[i].name[0] == name[0] && strcmp(elements[i].name, name) == 0)
            return elements[i].element;
    return OTHER;
}

size_t collected_entries(const struct collected *collected)
{
    return collected->entries.length / (KLAPOUZEN_ENTRY * sizeof(uint64_t));
}

const uint64_t *collected_entry(const struct collected *collected, size_t number)
{
    return (const uint64_t *)(const void *)collected->entries.bytes + KLAPOUZEN_ENTRY * number;
}

size_t collected_rows(const struct collected *collected)
{
    return collected->rows.length / (KLAPOUZEN_ROW * sizeof(uint64_t));
}

/* The innermost entry that is open. */
static uint64_t *this_entry(struct collector *collector)
{
    return (uint64_t *)(void *)collector->found.entries.bytes + KLAPOUZEN_ENTRY * collector->open[collector->opened - 1];
}

static uint64_t *last_row(struct collected *found)
{
    return (uint64_t *)(void *)found->rows.bytes + KLAPOUZEN_ROW * (collected_rows(found) - 1);
}

void collect_begin(struct collector *collector)
{
    *collector = (struct collector){ 0 };
}

static void begin_entry(struct collector *collector, enum element element)
{
    struct collected *found = &collector->found;
    uint64_t entry[KLAPOUZEN_ENTRY] = {
        [KLAPOUZEN_ENTRY_KIND] = element == FILE_,
        [KLAPOUZEN_ENTRY_PARENT] = collector->opened > 0 ? collector->open[collector->opened - 1] : 0,
        [KLAPOUZEN_ENTRY_FILE] = found->files,
        [KLAPOUZEN_ENTRY_FIRST_ROW] = collected_rows(found),
    };
    collector->open[collector->opened++] = collected_entries(found);
    put_bytes(&found->entries, entry, sizeof entry);
    found->directories += element == DIRECTORY;
    found->files += element == FILE_;
}

static void begin_row(struct collector *collector)
{
    uint64_t row[KLAPOUZEN_ROW] = { 0 };
    put_bytes(&collector->found.rows, row, sizeof row);
    this_entry(collector)[KLAPOUZEN_ENTRY_ROWS]++;
}

void collect_start(struct collector *collector, const char *name)
{
    enum element element = element_of(name);
    if (collector->depth < 64)
        collector->path[++collector->depth] = element;
    collector->text.length = 0;
    if (collector->skipped != 0)
        return;
    if (element == SKIPPED)
        collector->skipped = collector->depth;
    else if (element == DIRECTORY || element == FILE_)
        begin_entry(collector, element);
    else if (element == EXTENT)
        begin_row(collector);
}

void collect_text(struct collector *collector, const char *text, size_t length)
{
    if (collector->skipped == 0)
        put_bytes(&collector->text, text, length);
}

/* Partition and startblock belong to a location, a back pointer or an extent. */
static void end_place(struct collected *found, enum element parent, int which, uint64_t number)
{
    if (parent == LOCATION)
        found->place[which] = number;
    else if (parent == BACK)
        found->back[which] = number;
    else if (parent == EXTENT)
        last_row(found)[which] = number;
}

static void end_in_entry(struct collector *collector, enum element element, uint64_t number)
{
    struct collected *found = &collector->found;
    uint64_t *entry = this_entry(collector);
    if (element == UID)
        entry[KLAPOUZEN_ENTRY_UID] = number;
    if (element == LENGTH)
        entry[KLAPOUZEN_ENTRY_LENGTH] = number;
    if (element != NAME)
        return;
    entry[KLAPOUZEN_ENTRY_NAME] = found->names.length;
    entry[KLAPOUZEN_ENTRY_NAME_LENGTH] = collector->text.length;
    put_bytes(&found->names, collector->text.bytes, collector->text.length);
}

static void end_value(struct collector *collector, enum element element, enum element parent)
{
    struct collected *found = &collector->found;
    put_byte(&collector->text, '\0', 1);
    collector->text.length--;
    const char *text = (const char *)collector->text.bytes;
    uint64_t number = strtoull(text, NULL, 10);
    switch (element) {
    case GENERATION: found->generation = number; break;
    case HIGHEST: found->highest_uid = number; break;
    case POLICY_UPDATE: found->policy_update = text[0] == 't' || text[0] == '1'; break;
    case UUID: snprintf(found->uuid, sizeof found->uuid, "%.36s", text); break;
    case TIME: snprintf(found->time, sizeof found->time, "%.30s", text); break;
    case PARTITION: end_place(found, parent, 0, (uint8_t)text[0]); break;
    case STARTBLOCK: end_place(found, parent, 1, number); break;
    case BACK: found->has_back = true; break;
    case BYTEOFFSET: last_row(found)[2] = number; break;
    case BYTECOUNT: last_row(found)[3] = number; break;
    case FILEOFFSET: last_row(found)[4] = number; break;
    case DIRECTORY: case FILE_: collector->opened--; break;
    default:
        if (parent == FILE_ || parent == DIRECTORY)
            end_in_entry(collector, element, number);
    }
}

void collect_end(struct collector *collector)
{
    int depth = collector->depth--;
    enum element parent = depth > 1 ? (enum element)collector->path[depth - 1] : OTHER;
    if (collector->skipped == 0)
        end_value(collector, (enum element)collector->path[depth], parent);
    if (collector->skipped == depth)
        collector->skipped = 0;
    collector->text.length = 0;
}

void collect_free(struct collector *collector)
{
    buffer_free(&collector->text);
    buffer_free(&collector->found.names);
    buffer_free(&collector->found.entries);
    buffer_free(&collector->found.rows);
}
