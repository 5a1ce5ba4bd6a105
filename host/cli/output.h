/* Where the bytes of a file go: to a new file, whole or not at all, or to standard output. */
#ifndef OUTPUT_H
#define OUTPUT_H

#include <stdbool.h>
#include <stdint.h>
#include <stdio.h>

struct output {
    FILE *file;
    const char *path; /* in messages */
    bool is_regular;
    bool skips_gaps; /* regular, with nothing behind the place of writing: a gap can be left out */
    FILE *list;      /* a second new file, NULL where none is wanted */
};

/* Whether so many bytes are free, where the output is a regular file; says where they aren't. */
bool has_room(const struct output *output, uint64_t wanted);

/* Says why writing failed; not where a signal ended it, nor what the program's end says of standard output. */
void complain_output(const struct output *output);

/*
 * Has `write` write to a new file, which stays only where it answers DONE, or to standard output where the path is
 * NULL. Beside a file it can have a second one, the list, where its path is not NULL: both stay, or none. Answers the
 * exit status.
 */
int write_output(const char *path, const char *list_path,
                 int (*write)(const struct output *output, const void *data), const void *data);

#endif
