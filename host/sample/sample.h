/* Makes volumes and index texts for tests, benchmarks and pictures. */
#ifndef SAMPLE_H
#define SAMPLE_H

#include <stdbool.h>
#include <stddef.h>
#include <stdint.h>

/* ---- A buffer that grows ---- */

struct buffer {
    uint8_t *bytes;
    size_t length, room;
};

void put_bytes(struct buffer *buffer, const void *bytes, size_t length);
void put_byte(struct buffer *buffer, uint8_t byte, size_t times);
void put(struct buffer *buffer, const char *format, ...) __attribute__((format(printf, 2, 3)));
void buffer_free(struct buffer *buffer);

/* ---- Index texts ---- */

struct index_head {
    uint64_t generation;
    char letter; /* where the index stands */
    uint64_t block;
    char back_letter; /* 0: no back pointer */
    uint64_t back_block;
    bool indented; /* a line to an element, as formatters write it; else no white space */
};

struct extent {
    char letter;
    uint64_t startblock, byteoffset, bytecount, fileoffset;
};

/* A text being written; the names go in as spelled. */
struct index_text {
    struct buffer text;
    bool indented;
    int depth; /* elements around what is written next */
    uint64_t last_uid;
};

/* To the contents of the root directory, and from any directory to the end. */
void index_begin(struct index_text *index, const struct index_head *head);
void index_end(struct index_text *index);

/* To the contents of a directory, and back. */
void index_directory(struct index_text *index, const char *name);
void index_leave(struct index_text *index);

void index_file(struct index_text *index, const char *name, uint64_t length,
                const struct extent *extents, size_t count);

/* A file without bytes whose extended attributes are so many elements, one within the other. */
void index_attributes(struct index_text *index, const char *name, int nesting);

/* A text of about this many bytes and no more: files of one extent each. */
struct buffer index_of_size(size_t size, bool indented);

/* The same of files without extents whose names are this character, as often as a name has room for it. */
struct buffer index_of_names(size_t size, const char *character);

/* The same of directories: so many one in the other, the rest in the innermost; contents stand before the fileuid. */
struct buffer nested_index(size_t size, int depth);

/* The same text with each number between line ends, and a sign and zeros before its digits. */
struct buffer pad_numbers(const uint8_t *text, size_t length);

/* ---- Volumes ---- */

#define SAMPLE_UUID "30a91a08-daae-48d1-ae75-69804e61d2ea"
#define SAMPLE_TIME "2026-11-15T05:00:00.000000000Z"

struct tape {
    struct buffer list, store;
    uint64_t elements;
};

struct sample {
    struct tape sides[2]; /* index a, data b */
    uint64_t block_size;
    uint64_t generation;
    uint64_t last_data_index; /* 0 where there is none yet */
};

void tape_free(struct tape *tape);
void tape_mark(struct tape *tape);
void tape_block(struct tape *tape, const void *bytes, size_t length);
void tape_filled_block(struct tape *tape, uint8_t byte, size_t length);
void tape_unreadable_block(struct tape *tape);

/* An element of a tape: 1 a mark, 2 a block with its bytes, 3 an unreadable block. */
struct tape_element {
    uint8_t kind;
    const uint8_t *bytes;
    size_t length;
};

/* Takes the element at these places of list and store, and moves them behind it. */
struct tape_element tape_take(const struct tape *tape, size_t *list, size_t *store);

/* Puts an element behind the others. */
void tape_put(struct tape *tape, struct tape_element element);

/* The block with this number as the drive leaves it that could not read it. */
void tape_lose(struct tape *tape, uint64_t number);

/* A volume with labels and nothing behind them. */
void sample_begin(struct sample *sample, uint64_t block_size);
void sample_free(struct sample *sample);

/* Blocks of a data run; answers the element number of the first. */
uint64_t sample_data(struct sample *sample, int side, const void *bytes, size_t length);

/* The head of the next index of a side, which points at the data side's last. */
struct index_head sample_head(const struct sample *sample, int side);

/* Writes the text as the next index construct of a side, and frees it. */
void sample_index(struct sample *sample, int side, struct index_text *index);

/* The next index construct, with no files. */
void sample_empty_index(struct sample *sample, int side);

/* The next index construct on both sides, with no files: what unmounting writes. */
void sample_unmount(struct sample *sample);

/* ---- ANSI labelled tapes ---- */

/* VOL1 alone; then files, numbered from 1, with so many data blocks of a length; then the last mark. */
void ansi_begin(struct tape *tape);
void ansi_file(struct tape *tape, uint64_t number, size_t blocks, size_t length);
void ansi_end(struct tape *tape);

/* As many files as a list of the most elements has room for. */
void ansi_most_files(struct tape *tape);

/* ---- Slices ---- */

/* The four slices, as the library's functions take them. */
#define TAPE(tape) (tape).list.bytes, (tape).list.length, (tape).store.bytes, (tape).store.length
#define SAMPLE(sample) TAPE((sample)->sides[0]), TAPE((sample)->sides[1])

#endif
