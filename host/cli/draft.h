/*
 * New files and folders. What the program writes goes to a draft beside its
 * place and is put there once it is whole and on disk; what exists is never
 * replaced. While there is a draft, signals that end the program wait; one that
 * came before the draft is whole leaves nothing of it, nor does exit().
 */
#ifndef DRAFT_H
#define DRAFT_H

#include <stdbool.h>
#include <stdio.h>

#include "volume.h"

enum { DRAFT_PARTS = 4 };

struct draft {
    const char *path; /* its place */
    char *temporary;
    bool is_folder;
    FILE *file;                     /* open, of a file */
    const char *parts[DRAFT_PARTS]; /* the names of a folder's files */
    int count;
    struct draft *next; /* of those that are not ended */
};

/* Begins a file. On false nothing was made, and the reason was said. */
bool draft_begin(struct draft *draft, const char *path);

/* The same for a folder. */
bool draft_begin_folder(struct draft *draft, const char *path);

/* Writes a file of the folder, whose name must outlive the draft; says why not. */
bool draft_add(struct draft *draft, const char *name, struct bytes bytes);

/* The four files of a cartridge. */
bool draft_add_sides(struct draft *draft, const struct side sides[2]);

/* Puts the whole draft in its place. On false nothing is left of it, and the reason was said. */
bool draft_finish(struct draft *draft);

/* The same with two drafts of files, the first one first: both are in their places, or none. */
bool draft_finish_both(struct draft *first, struct draft *second);

/* Leaves nothing of the draft. */
void draft_drop(struct draft *draft);

#endif
