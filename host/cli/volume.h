/* A cartridge's four files, and what its labels say. */
#ifndef VOLUME_H
#define VOLUME_H

#include <stdbool.h>
#include <stddef.h>
#include <stdint.h>
#include <stdio.h>

#include "klapouzen.h"

struct bytes {
    const uint8_t *start;
    size_t length;
};

struct side {
    const char *name; /* "index" or "data" */
    struct bytes list, store;
};

struct volume {
    const char *folder;
    struct side sides[2]; /* index, data */
};

enum { INDEX, DATA };

/* A slice, a side and a volume as the library's functions take them. */
#define SLICE(bytes) (bytes).start, (bytes).length
#define SIDE(side) SLICE((side)->list), SLICE((side)->store)
#define VOLUME(volume) SIDE(&(volume)->sides[INDEX]), SIDE(&(volume)->sides[DATA])

/*
 * Reads the four files of a folder, a missing one as empty. Where one can't be
 * read, or none is there, says so on standard error and answers false; there is
 * nothing to close then.
 */
bool volume_open(struct volume *volume, const char *folder);
void volume_close(struct volume *volume);

/* Opens a volume for a function that answers the exit status; FAILED where it can't be read. */
int on_volume(const char *folder, int (*use)(const struct volume *volume, const void *wish),
              const void *wish);

/* The same of the index side alone, to which a tape of one partition is read; the data side is empty. */
int on_tape(const char *folder, int (*use)(const struct volume *volume, const void *wish),
            const void *wish);

/* A part of a slice. */
struct bytes part_of(struct bytes whole, uint64_t offset, uint64_t length);

/* An element of a list: its kind, by the byte that it begins with, and the bytes that the store has of it. */
enum element_kind { MARK = 1, BLOCK = 2, UNREADABLE_BLOCK = 3 };

struct element {
    enum element_kind kind;
    uint64_t length; /* 0 but of a block */
};

/* Takes an element off the front of a list that the library took. */
struct element take_element(struct bytes *list);

/* How many unreadable blocks such a list has. */
uint64_t count_unreadable(struct bytes list);

/* How many of them stand before each of its elements, and before its end. */
struct unreadable {
    uint64_t elements;
    uint32_t *before;
};

struct unreadable unreadable_read(struct bytes list);
void unreadable_free(struct unreadable *unreadable);

/* Before an element; before the end where there is none. */
uint32_t unreadable_before(const struct unreadable *unreadable, uint64_t element);

bool unreadable_at(const struct unreadable *unreadable, uint64_t element);

/* The block with this element number; empty where there is none, or the list is malformed. */
struct bytes block_of(const struct side *side, uint64_t number);

/* The blocks of a partition's labels. */
enum { VOL1_ELEMENT = 0, LABEL_ELEMENT = 2, LABEL_ELEMENTS = 4 };

/* Why a text is refused, number 0 where it isn't; with 4 the front tells where. */
struct refused {
    uint64_t number;
    struct bytes text;
    uint64_t front;
};

/* What the labels of a volume say. */
struct label {
    struct bytes identifier, owner; /* of VOL1 */
    struct bytes creator, time, uuid;
    struct bytes data_uuid; /* the same UUID, as the data partition's label spells it */
    uint64_t block_size, release;
    uint8_t letters[2]; /* index, data */
    bool compression;
};

/* The label check's refusal, or 0 and the labels. */
uint64_t read_labels(const struct volume *volume, struct label *label);

/* Whether the two labels spell the UUID differently, which is no disagreement. */
bool has_two_spellings(const struct label *label);

/* An index text and where it stands. */
struct place {
    struct bytes text;
    uint8_t letter;
    uint64_t block;
};

/* What the index readers take. */
#define INDEX_AT(label, place) \
    SLICE((place)->text), SLICE((label)->uuid), (label)->letters[INDEX], \
        (label)->letters[DATA], (label)->block_size, (place)->letter, (place)->block

/* The standing index constructs of one side. */
struct constructs {
    uint64_t count;
    uint32_t table[KLAPOUZEN_CONSTRUCT_TABLE];
};

uint64_t read_constructs(const struct side *side, uint64_t block_size,
                         struct constructs *constructs);

/* A row of the table. */
const uint32_t *construct_row(const struct constructs *constructs, uint64_t number);

/* The text of a construct, with its place; empty with an unreadable block in it. */
struct place construct_place(const struct volume *volume, const struct label *label,
                             int side, const uint32_t *row);

/* The refusal of the index at the place of a construct, or 0 and its header; as klapouzen_index has it. */
uint64_t read_index_at(const struct label *label, const struct place *place,
                       uint64_t header[KLAPOUZEN_INDEX]);

/* The same without the header. */
struct refused index_refused(const struct label *label, const struct place *place);

#endif
