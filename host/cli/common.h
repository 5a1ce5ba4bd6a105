/* Small things that every command uses: messages, memory, exit statuses. */
#ifndef COMMON_H
#define COMMON_H

#include <stdbool.h>
#include <stddef.h>

/* Exit statuses. */
enum {
    DONE = 0,
    NOT_SO = 1, /* the tape refuses, or is not consistent */
    FAILED = 2, /* bad use, a file that can't be read or written */
    HOLED = 3   /* a file was written, with zeros for what could not be read of it */
};

/* A line on standard error, after the program's name, in characters that can be seen. */
void complain(const char *format, ...) __attribute__((format(printf, 1, 2)));

/* Memory that is there; without it the program ends with FAILED. */
void *allocate(size_t size);
void *reallocate(void *start, size_t size);

/* An array of so many things of a size with room for one more; it grows by doubling. */
void *room_for(void *start, size_t count, size_t size);

/* A new string, to be freed. */
char *format_text(const char *format, ...) __attribute__((format(printf, 1, 2)));

#endif
