/* All that a sound index holds: directories and files with their paths, and the files' rows. */
#ifndef CONTENTS_H
#define CONTENTS_H

#include "volume.h"

/* As KLAPOUZEN_ENTRY_KIND tells them. */
enum entry_kind { DIRECTORY, REGULAR };

struct contents {
    struct bytes text;
    uint64_t count;    /* of entries: the root directory first, in the order of the text */
    uint64_t *entries; /* KLAPOUZEN_ENTRY numbers each */
    uint64_t *rows;    /* KLAPOUZEN_ROW numbers each */
    uint8_t *room;     /* for a path or a name */
};

/* In one reading, by the header that was read before. */
void contents_read(struct contents *contents, const struct label *label, const struct place *place,
                   const uint64_t header[KLAPOUZEN_INDEX]);
void contents_free(struct contents *contents);

/* The numbers of an entry. */
const uint64_t *entry_of(const struct contents *contents, uint64_t entry);

bool is_file(const struct contents *contents, uint64_t entry);

/* Sets the entry of the file with this number; false where there is none. */
bool find_numbered(const struct contents *contents, uint64_t number, uint64_t *entry);

/* A file's rows. */
uint64_t *rows_of(const struct contents *contents, uint64_t entry);

/* Decoded; until the next call of either. */
struct bytes path_of(const struct contents *contents, uint64_t entry);
struct bytes name_of(const struct contents *contents, uint64_t entry);

#endif
