/*
 * An ANSI labelled tape: one partition, read to the index side of a folder.
 * Whether it is one, where it is wrong and its files are the library's answers;
 * what else the labels of an accepted tape say is read here.
 */
#ifndef ANSI_TAPE_H
#define ANSI_TAPE_H

#include "volume.h"

/* An element and the bytes of its block, which are none but of a block that was read. */
struct ansi_element {
    enum element_kind kind;
    struct bytes block;
};

struct ansi_tape {
    uint64_t refusal;
    uint64_t place; /* where it is refused; the number of all elements where the tape ends too early */
    uint64_t count; /* of elements; 0 where the list is malformed */
    struct ansi_element *elements;
    uint64_t files; /* of a refused tape: those that stand whole before the place */
    uint8_t *rows;  /* KLAPOUZEN_ANSI_FILE bytes a file */
};

void ansi_open(struct ansi_tape *tape, const struct side *side);
void ansi_close(struct ansi_tape *tape);

/* Whether it is plainly such a tape: all labels are right before an EOV1, a wrong count, or an unreadable block behind a HDR1. */
bool is_labelled(const struct ansi_tape *tape);

/* ---- Labels ---- */

enum { ANSI_LABEL = 80 };

/* Bytes of a label, counted from 1 as the standard does, and the same without the spaces at the end. */
struct bytes label_bytes(struct bytes label, size_t first, size_t last);
struct bytes label_field(struct bytes label, size_t first, size_t last);

/* The number that digits say. */
uint64_t number_in(struct bytes digits);

/* Whether a block begins with a word. */
bool begins_with(struct bytes block, const char *word);

/* The fields of VOL1; all empty where the tape has none. */
struct ansi_volume {
    uint8_t version; /* '3' or '4', 0 where there is no VOL1 */
    struct bytes identifier, owner, implementation;
};

struct ansi_volume ansi_volume(const struct ansi_tape *tape);

/* ---- Files ---- */

struct ansi_file {
    struct bytes id; /* without the spaces at its end */
    char format;
    uint64_t block_length, record_length;
    uint64_t element; /* of the first data block, or of the mark where there is none */
    uint64_t blocks, bytes;
};

struct ansi_file ansi_file(const struct ansi_tape *tape, uint64_t number);

/* HDR3 holds 36 bytes of a path, HDR4 to HDR9 and EOF3 to EOF9 76 each. */
enum { ANSI_PATH = 36 + 13 * 76 };

/* The path that ULTRIX writes to a file's further labels. */
struct ansi_path {
    size_t length; /* 0: none */
    uint8_t bytes[ANSI_PATH];
    char missing[5]; /* the label without which there is none; empty where none is wanted */
};

void ansi_path(const struct ansi_tape *tape, uint64_t number, struct ansi_path *path);

#endif
