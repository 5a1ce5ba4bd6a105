/*
 * Files of test cases in crates/. One that is missing, ends too early, goes on after its last case or is malformed in
 * another way ends the program: a message and status 2.
 */
#ifndef CASE_FILES_H
#define CASE_FILES_H

#include <stdbool.h>
#include <stddef.h>
#include <stdint.h>

#include "sample.h"

struct case_file {
    const char *path;
    struct buffer bytes;
    size_t at;       /* what is read next */
    uint64_t left;   /* cases, in a file of case_files */
    size_t line_end; /* in a file of lines */
};

_Noreturn void malformed(const struct case_file *file, const char *what);

/*
 * A file in the manner of crates/case_files: the number of its cases, then the cases. To be called until it answers
 * false; the file is closed then.
 */
void open_cases(struct case_file *file, const char *path);
bool next_case(struct case_file *file);

/* Numbers of 8 bytes, low byte first; byte strings, each behind its length as such a number. */
uint64_t next_number(struct case_file *file);
uint8_t *next_bytes(struct case_file *file, size_t *length);
void skip_numbers(struct case_file *file, uint64_t count);
void skip_bytes(struct case_file *file, uint64_t strings);

/* A file with a case on a line. */
void open_lines(struct case_file *file, const char *path);
bool next_line(struct case_file *file);

/* The next byte of the line; false at its end. */
bool next_byte(struct case_file *file, uint8_t *byte);

#endif
