/* An index's fields, collected from any parser's start, text and end of elements. */
#ifndef COLLECT_H
#define COLLECT_H

#include <stdbool.h>
#include <stddef.h>
#include <stdint.h>

#include "sample.h"

/* All that klapouzen_read_whole answers, and the UUID and the time themselves. */
struct collected {
    char uuid[40], time[32];
    uint64_t generation, highest_uid, directories, files;
    uint64_t place[2], back[2]; /* letter, block */
    bool has_back, policy_update;
    struct buffer names;         /* decoded */
    struct buffer entries, rows; /* the numbers of enum klapouzen_entry, names being in `names`, and of enum klapouzen_row */
};

size_t collected_entries(const struct collected *collected);
const uint64_t *collected_entry(const struct collected *collected, size_t number);
size_t collected_rows(const struct collected *collected);

/* A collection going on. */
struct collector {
    struct collected found;
    int path[65], depth;
    int skipped; /* depth of the element whose inside is passed over; 0 for none */
    size_t open[65]; /* the entries that are not at their ends yet, the outermost first */
    int opened;
    struct buffer text;
};

void collect_begin(struct collector *collector);
void collect_start(struct collector *collector, const char *name);
void collect_text(struct collector *collector, const char *text, size_t length);
void collect_end(struct collector *collector);
void collect_free(struct collector *collector);

/* The whole of a text by each parser; false where it refuses the text. */
bool collect_by_expat(struct collector *collector, const uint8_t *text, size_t length);
bool collect_by_sax(struct collector *collector, const uint8_t *text, size_t length);
bool collect_by_reader(struct collector *collector, const uint8_t *text, size_t length);

#endif
