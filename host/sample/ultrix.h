/* Makes ANSI labelled tapes as ULTRIX writes them. */
#ifndef ULTRIX_H
#define ULTRIX_H

#include "sample.h"

/* A file as ULTRIX writes it; the path, where there is one, goes to HDR3 and the labels behind it. */
struct ultrix_file {
    const char *id, *path;
    char format;
    unsigned block_length, record_length, sequence;
    size_t length; /* of the data, in blocks of the block length */
    bool has_user_labels;
    size_t lost; /* blocks that EOF1 counts and that are not there */
};

/* A label: the text, filled up with spaces. */
void ultrix_label(struct tape *tape, const char *text);

/* VOL1, of version 4; a file with its labels and marks; the further mark behind the last. */
void ultrix_begin(struct tape *tape, const char *identifier, const char *owner);
void ultrix_file(struct tape *tape, const struct ultrix_file *file);
void ultrix_end(struct tape *tape);

#endif
