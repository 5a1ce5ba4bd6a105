/*
 * klapouzen.h: the library's interface for C.
 *
 * An LTFS volume has two partitions, the index partition and the data partition,
 * each with a letter of its own, a to z (in numbers: its ASCII code). A partition
 * that was read to disk is a list and a store. The list has an element for each
 * file mark, a byte 1; for each block, a byte 2 and four bytes of length, high
 * byte first; and for each unreadable block, one that the drive could not read, a
 * byte 3 and nothing more. The store holds the blocks' bytes in the same order
 * with nothing between, and nothing of an unreadable block. An element's number
 * is its place in the list, from 0; file marks and unreadable blocks count too.
 * Every block number below is such a number.
 *
 * A partition's first four elements are its labels: the VOL1 block, a mark, the
 * block with the LTFS label, a mark. Data and indexes follow in turns: a run of
 * data blocks, which may be empty, a mark, the blocks of an index, a mark, and
 * so on. A mark, the blocks of an index and the mark behind them are an index
 * construct; the bytes of these blocks are the index's text. A defect is what
 * can't be in such an order: a block above the block size, an index without a
 * block, a block of an index that is shorter than the block size and not its
 * last. Constructs that are closed before the first defect stand; they are
 * numbered from 0 on each partition.
 *
 * An unreadable block may stand in any run of blocks and is no defect there: how
 * long it was is not known, so it is taken for neither too long nor too short.
 * It is a block of its index, so that an index of unreadable blocks alone is not
 * without a block, and a short block before it is not the last. A construct with
 * an unreadable block stands and has its number, but no text: its index can't be
 * sound, whatever its other blocks hold.
 *
 * A volume has a UUID, 8-4-4-4-12 hex digits, which both labels and every index
 * of it spell. Two UUIDs are the same when the 16 bytes that they spell are the
 * same: a and A are one digit. A UUID that is handed out is as its text spells it.
 *
 * An ANSI labelled tape, an old tape without LTFS, is one list with its
 * store and no volume: klapouzen_ansi is for it.
 *
 * How the functions go together: klapouzen_check_labels gives the UUID, the
 * letters and the block size of a volume, klapouzen_constructs with that block
 * size where the texts of its indexes are, and klapouzen_read_index and the
 * readers behind it take all of these. klapouzen_read_index says how much room
 * klapouzen_read_whole needs for all that an index holds, and klapouzen_path
 * tells the paths of what it found. klapouzen_verdict and klapouzen_rescue do it
 * all by themselves, and klapouzen_keep says what a cut leaves.
 *
 * Every function
 *   - answers a refusal number, enum klapouzen_refusal, 0 for none. The
 *     comments name the numbers that a function can answer in the order in
 *     which it looks for them: the first that applies is answered;
 *   - fills all of `out`, *count, *length, *place and *front: with its answer, or
 *     on a refusal with zeros, but for the front and the side that go with 4
 *     (below). On a refusal `buffer`, `entries`, `rows` and `table` keep every
 *     byte;
 *   - takes NULL for a slice of length 0, and takes any bytes in a slice: there
 *     is nothing that a caller must check before;
 *   - writes only to the memory named in its comment, keeps no pointer,
 *     allocates nothing, and may be called from several threads at once.
 *
 * Where a text goes wrong. Every function that can answer 4, a text outside the XML
 * form (klapouzen_check_form), tells with it the text's front: the length of the
 * longest part of its beginning that some text in the form, of any length, begins
 * with. It is the offset of the first byte that can't stand where it does, or the
 * text's length where it only ends too early. It stands in a place of its own
 * behind the other numbers (*front, or in `out` the number whose name ends in
 * _FRONT), which is 0 with every other answer. The functions that read both labels
 * of a volume tell behind it whose label's text it is (the name ends in _SIDE), 0
 * the index partition's, 1 the data partition's; it is 0 with every other answer.
 *
 * A slice is a pointer and a length: in bytes, or for 64-bit numbers (`entries`,
 * `rows`) in numbers. Slices that are only read may overlap each other. What a
 * function writes (`out`, *count, *length, *place, *front, `table`, and where they
 * are not const `buffer`, `entries` and `rows`) must not overlap anything else that
 * it is given. `out`, `table` and the pointers to single numbers must not be
 * NULL, and must have room for as many numbers as the declaration says. The names
 * of the numbers in `out`, in an entry and in a row are an enum above the
 * function; its last name is how many they are.
 *
 * Stack: a call needs less than KLAPOUZEN_STACK bytes.
 */
#ifndef KLAPOUZEN_H
#define KLAPOUZEN_H

#include <stddef.h>
#include <stdint.h>

#ifdef __cplusplus
extern "C" {
#endif

#define KLAPOUZEN_VERSION "0.1.0"

/* ---- Bounds ---- */

#define KLAPOUZEN_MAX_ELEMENTS 65536    /* elements of a list */
#define KLAPOUZEN_MAX_LIST 327680       /* bytes of a list: all elements blocks */
#define KLAPOUZEN_MAX_BLOCK 1048576     /* bytes of a block */
#define KLAPOUZEN_MAX_STORE 16777216    /* bytes of a store */
#define KLAPOUZEN_MAX_LABEL 4096        /* bytes of a label's text */
#define KLAPOUZEN_MAX_INDEX 1048576     /* bytes of an index's text */
#define KLAPOUZEN_MAX_NESTING 64        /* elements within elements, the root being 1 */
#define KLAPOUZEN_MAX_ENTRIES 4096      /* directories and files of an index, its root too */
#define KLAPOUZEN_MAX_ROWS 1024         /* extents of a file */
#define KLAPOUZEN_MIN_BLOCK_SIZE 4096
#define KLAPOUZEN_MAX_BLOCK_SIZE 1048576
#define KLAPOUZEN_VOL1_LENGTH 80        /* bytes of a VOL1 label */
#define KLAPOUZEN_CONSTRUCT_TABLE 87380 /* numbers of klapouzen_constructs' table */
#define KLAPOUZEN_MAX_ANSI_FILES 9362   /* files of an ANSI labelled tape: seven elements each */

/* A stack of so many bytes is enough for every call; host/test/stack measures it. */
#define KLAPOUZEN_STACK 2097152

/* ---- Refusals ---- */

enum klapouzen_refusal {
    KLAPOUZEN_OK = 0,
    KLAPOUZEN_BAD_LIST = 1,
    KLAPOUZEN_MISSING = 2,
    KLAPOUZEN_BAD_VOL1 = 3,
    KLAPOUZEN_BAD_FORM = 4,
    KLAPOUZEN_BAD_STRUCTURE = 5,
    KLAPOUZEN_BAD_VALUE = 6,
    KLAPOUZEN_BAD_VERSION = 7,
    KLAPOUZEN_DISAGREEMENT = 8,
    KLAPOUZEN_NO_LABELS = 9,
    KLAPOUZEN_SHORT_OUTPUT = 10,
    KLAPOUZEN_BAD_EXTENTS = 11,
    KLAPOUZEN_WRONG_PLACE = 12,
    KLAPOUZEN_NO_CUT = 13,
    KLAPOUZEN_BAD_ARGUMENT = 14,
    KLAPOUZEN_TOO_LONG = 15,
    KLAPOUZEN_BAD_ANSI_LABELS = 16,
    KLAPOUZEN_END_OF_VOLUME = 17,
    KLAPOUZEN_WRONG_BLOCK_COUNT = 18,
    KLAPOUZEN_UNREADABLE_BLOCK = 19
};

/* A refusal's text in a few words; an empty one for a number that is none. */
static inline const char *klapouzen_refusal_text(uint64_t refusal)
{
    static const char *const texts[] = {
        "none",
        "the block list is malformed or does not fit its store",
        "no such element, construct, file, entry or file position",
        "not a VOL1 label of an LTFS volume",
        "the text is not in the XML form",
        "wrong root, or an element or attribute missing, repeated, unknown or misplaced",
        "a value outside its rule",
        "the version is not 2.0.R",
        "labels disagree, or an index belongs to another volume",
        "the partition does not begin with block, mark, block, mark",
        "the lent output is too short",
        "the extents are unlawful",
        "the index does not stand where it says",
        "no consistent cut",
        "a given field or number is outside its rule",
        "text too long, or too many entries or extents",
        "not an ANSI labelled tape: its layout or a label is wrong",
        "a file that goes on on another tape: EOV1 in the place of EOF1",
        "EOF1's block count is not that of the data blocks present",
        "an unreadable block"
    };
    return refusal < sizeof texts / sizeof texts[0] ? texts[refusal] : "";
}

/* ---- Lists ---- */

/*
 * Checks a list with its store. *count: the number of elements.
 * Refusals: 1 (another byte than 1, 2 and 3 where an element begins, an element
 * that is cut off, a block of no bytes, or more of anything than the bounds
 * above; or the blocks' lengths do not add up to the store's).
 */
uint64_t klapouzen_check_list(const uint8_t *list, size_t list_length,
                              const uint8_t *store, size_t store_length,
                              uint64_t *count);

/*
 * How many bytes at the front of list and store hold the first n elements; with
 * n above the count, all of them. These bytes are a list and its store again:
 * keeping m elements of them is keeping the smaller of n and m of the whole.
 * Refusals: 1.
 */
enum klapouzen_kept {
    KLAPOUZEN_KEPT_LIST,  /* bytes of the list */
    KLAPOUZEN_KEPT_STORE, /* bytes of the store */
    KLAPOUZEN_KEPT
};

uint64_t klapouzen_keep(const uint8_t *list, size_t list_length,
                        const uint8_t *store, size_t store_length,
                        uint64_t n, uint64_t out[KLAPOUZEN_KEPT]);

/*
 * Where the block with this element number lies on the partition `letter`.
 * Refusals: 14 (index_letter or data_letter outside a to z, or both the same;
 * `letter` neither of them), 1 (index side first), 2 (a mark, or no such
 * element), 19 (an unreadable block).
 */
enum klapouzen_block_place {
    KLAPOUZEN_BLOCK_SIDE,   /* 0: in index_store, 1: in data_store */
    KLAPOUZEN_BLOCK_OFFSET, /* from that store's beginning */
    KLAPOUZEN_BLOCK_LENGTH,
    KLAPOUZEN_BLOCK
};

uint64_t klapouzen_block(const uint8_t *index_list, size_t index_list_length,
                         const uint8_t *index_store, size_t index_store_length,
                         const uint8_t *data_list, size_t data_list_length,
                         const uint8_t *data_store, size_t data_store_length,
                         uint8_t index_letter, uint8_t data_letter,
                         uint8_t letter, uint64_t number,
                         uint64_t out[KLAPOUZEN_BLOCK]);

/*
 * The index constructs that stand on a partition. *count: how many. Each has a
 * row of KLAPOUZEN_CONSTRUCT numbers at the front of the table, the first one's
 * first; the rest of the table is unchanged. It has room for the 21,845 rows
 * that a list of the most elements can need, and must have it for every list.
 * A construct with an unreadable block has no text: its row's begin and end are
 * both the number of the store's bytes before its first block, where in every
 * other row the end is behind the begin. What was read of such an index is not
 * handed out: it might be a lawful text that says something else.
 * klapouzen_index answers 19 for it; klapouzen_read_index, given the row's empty
 * text, 4.
 * Refusals: 14 (block_size outside 4,096 to 1,048,576), 1.
 */
enum klapouzen_construct_row {
    KLAPOUZEN_CONSTRUCT_FIRST_BLOCK, /* element number of its first block */
    KLAPOUZEN_CONSTRUCT_KEPT,        /* elements of the list through its closing mark */
    KLAPOUZEN_CONSTRUCT_BEGIN,       /* its text's first byte, from the store's beginning */
    KLAPOUZEN_CONSTRUCT_END,         /* the byte behind its text, likewise */
    KLAPOUZEN_CONSTRUCT
};

uint64_t klapouzen_constructs(const uint8_t *list, size_t list_length,
                              const uint8_t *store, size_t store_length,
                              uint64_t block_size,
                              uint32_t table[KLAPOUZEN_CONSTRUCT_TABLE],
                              uint64_t *count);

/* ---- Texts and labels ---- */

/*
 * Whether a text, of any length, is in the XML form of labels and indexes. This
 * form is a part of XML 1.0: UTF-8; the declaration
 * <?xml version="1.0" encoding="UTF-8"?>, spelled so, and one root element;
 * names of ASCII letters, digits, _ - and .; no more than one attribute in a
 * tag; of references only &amp; &lt; &gt; &quot; and &apos;; no comments, CDATA,
 * DOCTYPE or instructions; nothing but white space beside child elements; and
 * elements nested no deeper than KLAPOUZEN_MAX_NESTING. *front: the text's, with 4.
 * Refusals: 4.
 */
uint64_t klapouzen_check_form(const uint8_t *text, size_t length, uint64_t *front);

/*
 * Reads a VOL1 label, the whole block. Where the two fields stand, padding
 * spaces included; they stand at the same place in every VOL1 label.
 * Refusals: 3.
 */
enum klapouzen_vol1 {
    KLAPOUZEN_VOL1_IDENTIFIER, /* the volume identifier, from the block's beginning */
    KLAPOUZEN_VOL1_IDENTIFIER_LENGTH,
    KLAPOUZEN_VOL1_OWNER, /* the owner identifier, likewise */
    KLAPOUZEN_VOL1_OWNER_LENGTH,
    KLAPOUZEN_VOL1
};

uint64_t klapouzen_read_vol1(const uint8_t *block, size_t length,
                             uint64_t out[KLAPOUZEN_VOL1]);

/*
 * Writes a VOL1 label to the front of the buffer; the bytes after it keep their
 * values. *length: 80, KLAPOUZEN_VOL1_LENGTH.
 * Refusals: 14 (identifier_length not 6, owner_length not 14, or a byte of
 * either outside 32 to 126), 10 (the buffer has under 80 bytes).
 */
uint64_t klapouzen_write_vol1(uint8_t *buffer, size_t buffer_length,
                              const uint8_t *identifier, size_t identifier_length,
                              const uint8_t *owner, size_t owner_length,
                              uint64_t *length);

/*
 * Reads an LTFS label's text. Offsets count from the text's beginning. The
 * creator is told as the text spells it, with &amp; and the like; the block size
 * by its value. As XML Schema allows, a number in a label or an index may have
 * white space around it, a plus sign, leading zeros, and zero a minus sign.
 * Refusals: 15 (over 4,096 bytes), 4, 5 (root and its version attribute), 7,
 * 5 (the rest), 6.
 */
enum klapouzen_label {
    KLAPOUZEN_LABEL_RELEASE, /* the R of version 2.0.R */
    KLAPOUZEN_LABEL_CREATOR,
    KLAPOUZEN_LABEL_CREATOR_LENGTH,
    KLAPOUZEN_LABEL_TIME, /* of formatting */
    KLAPOUZEN_LABEL_TIME_LENGTH,
    KLAPOUZEN_LABEL_UUID,
    KLAPOUZEN_LABEL_UUID_LENGTH,
    KLAPOUZEN_LABEL_LOCATION, /* the letter of the label's own partition */
    KLAPOUZEN_LABEL_INDEX_LETTER,
    KLAPOUZEN_LABEL_DATA_LETTER,
    KLAPOUZEN_LABEL_BLOCK_SIZE,
    KLAPOUZEN_LABEL_COMPRESSION, /* 0 or 1 */
    KLAPOUZEN_LABEL_FRONT,       /* of the text, with 4 */
    KLAPOUZEN_LABEL
};

uint64_t klapouzen_read_label(const uint8_t *text, size_t length,
                              uint64_t out[KLAPOUZEN_LABEL]);

/*
 * Writes an LTFS label's text, version 2.0.1, to the front of the buffer; the
 * bytes after it keep their values. *length: the text's length, for which
 * KLAPOUZEN_MAX_LABEL bytes are always enough. The creator is given as plain
 * text; & < > are written as references.
 * Refusals: 14, 10 (the buffer is shorter than the text). 14 is any of
 *   creator      not 1 to 255 bytes, a byte below 32, not UTF-8, or a character
 *                that XML 1.0 does not have
 *   time         not as 2026-11-15T20:00:00.000000000Z, or no such month, day
 *                (1 to 31), hour, minute or second (0 to 59)
 *   uuid         not 8-4-4-4-12 hex digits
 *   letters      one outside a to z, index_letter and data_letter the same, or
 *                location neither of them
 *   block_size   outside 4,096 to 1,048,576
 *   compression  above 1
 */
uint64_t klapouzen_write_label(uint8_t *buffer, size_t buffer_length,
                               const uint8_t *creator, size_t creator_length,
                               const uint8_t *time, size_t time_length,
                               const uint8_t *uuid, size_t uuid_length,
                               uint8_t location, uint8_t index_letter,
                               uint8_t data_letter, uint64_t block_size,
                               uint64_t compression, uint64_t *length);

/*
 * Checks the labels of both partitions, and that they are of one volume. out:
 * what klapouzen_read_label says of the index partition's label, but offsets
 * count from the beginning of index_store, and the front is that of the label that
 * is refused; then whose it is. The data partition's label may spell the same UUID differently.
 * Refusals: 1, 9 (also for an unreadable block among the first four elements), 3,
 * those of klapouzen_read_label, each of these four steps on the index side
 * first; then 8 (the two disagree).
 */
enum klapouzen_labels {
    KLAPOUZEN_LABELS_SIDE = KLAPOUZEN_LABEL, /* with 4: 0 the index partition's label, 1 the data partition's */
    KLAPOUZEN_LABELS
};

uint64_t klapouzen_check_labels(const uint8_t *index_list, size_t index_list_length,
                                const uint8_t *index_store, size_t index_store_length,
                                const uint8_t *data_list, size_t data_list_length,
                                const uint8_t *data_store, size_t data_store_length,
                                uint64_t out[KLAPOUZEN_LABELS]);

/* ---- Indexes ---- */

/*
 * The readers of an index are given its text, the volume's UUID, letters and
 * block size as its label says them, and where the index stands: the letter of
 * its partition and the element number of its first block. Whichever way the
 * given UUID is spelled, they answer the same. Numbers are told by their values,
 * however the text spells them. Offsets count from the text's beginning. An
 * index that klapouzen_read_index does not refuse is sound.
 * Refusals: 14, 15 (over 1,048,576 bytes), 4, 5 (root and its version
 * attribute), 7, 5 (the rest), 15 (over 4,096 entries, or over 1,024 extents of
 * a file), 6, 8 (another UUID, a letter that is neither of the two), 11 (as
 * klapouzen_byte_at has it), 12.
 * 14 is about what is given beside the text, and looked for first:
 *   uuid        not 8-4-4-4-12 hex digits
 *   letters     index_letter or data_letter outside a to z, or both the same;
 *               `letter` neither of them
 *   block_size  outside 4,096 to 1,048,576
 */
enum klapouzen_index_header {
    KLAPOUZEN_INDEX_RELEASE, /* the R of version 2.0.R */
    KLAPOUZEN_INDEX_GENERATION,
    KLAPOUZEN_INDEX_TIME, /* of its update */
    KLAPOUZEN_INDEX_TIME_LENGTH,
    KLAPOUZEN_INDEX_LETTER,      /* where it says that it stands: */
    KLAPOUZEN_INDEX_BLOCK,       /* as it was given, or else 12 */
    KLAPOUZEN_INDEX_HAS_BACK,    /* 0: no back pointer, and the next two are 0 */
    KLAPOUZEN_INDEX_BACK_LETTER, /* the partition and the first block of the */
    KLAPOUZEN_INDEX_BACK_BLOCK,  /* index that it points back at */
    KLAPOUZEN_INDEX_POLICY_UPDATE, /* 0 or 1 */
    KLAPOUZEN_INDEX_HIGHEST_UID,
    KLAPOUZEN_INDEX_DIRECTORIES, /* the root directory too */
    KLAPOUZEN_INDEX_FILES,
    KLAPOUZEN_INDEX_ROWS,  /* extents of all files */
    KLAPOUZEN_INDEX_FRONT, /* of the text, with 4 */
    KLAPOUZEN_INDEX
};

uint64_t klapouzen_read_index(const uint8_t *text, size_t length,
                              const uint8_t *uuid, size_t uuid_length,
                              uint8_t index_letter, uint8_t data_letter,
                              uint64_t block_size, uint8_t letter, uint64_t block,
                              uint64_t out[KLAPOUZEN_INDEX]);

/*
 * A file of an index by its number; the first in the text has number 0. Its name
 * is told as the text spells it, with &amp; and the like.
 * Refusals: as klapouzen_read_index, then 2 (no such file).
 */
enum klapouzen_file {
    KLAPOUZEN_FILE_LENGTH,      /* of the file, in bytes */
    KLAPOUZEN_FILE_NAME,        /* from the beginning of the index's text */
    KLAPOUZEN_FILE_NAME_LENGTH, /* in bytes of that text */
    KLAPOUZEN_FILE_ROWS,        /* how many extents it has */
    KLAPOUZEN_FILE_FRONT,       /* of the index's text, with 4 */
    KLAPOUZEN_FILE
};

uint64_t klapouzen_read_file(const uint8_t *text, size_t length,
                             const uint8_t *uuid, size_t uuid_length,
                             uint8_t index_letter, uint8_t data_letter,
                             uint64_t block_size, uint8_t letter, uint64_t block,
                             uint64_t file, uint64_t out[KLAPOUZEN_FILE]);

/*
 * A file's extents as rows of KLAPOUZEN_ROW numbers at the front of `rows`, in
 * the order of the text; the rest of it is unchanged. rows_length counts
 * numbers, *count rows. The numbers have the names of an extent's elements. *front:
 * of the index's text, with 4.
 * Refusals: as klapouzen_read_index, then 2 (no such file), 10 (rows_length is
 * below KLAPOUZEN_ROW times the file's rows).
 */
enum klapouzen_row {
    KLAPOUZEN_ROW_LETTER,     /* of its partition */
    KLAPOUZEN_ROW_STARTBLOCK, /* element number of its first block */
    KLAPOUZEN_ROW_BYTEOFFSET, /* of its first byte, from that block's beginning */
    KLAPOUZEN_ROW_BYTECOUNT,  /* how many bytes it has, over as many blocks as needed */
    KLAPOUZEN_ROW_FILEOFFSET, /* of its first byte, from the file's beginning */
    KLAPOUZEN_ROW
};

uint64_t klapouzen_read_rows(const uint8_t *text, size_t length,
                             const uint8_t *uuid, size_t uuid_length,
                             uint8_t index_letter, uint8_t data_letter,
                             uint64_t block_size, uint8_t letter, uint64_t block,
                             uint64_t file, uint64_t *rows, size_t rows_length,
                             uint64_t *count, uint64_t *front);

/*
 * All of an index in one reading. out: what klapouzen_read_index says. Each
 * directory and each file has an entry of KLAPOUZEN_ENTRY numbers at the front of
 * `entries`, in the order of their start tags, so that the root directory is
 * entry 0 and what a directory holds comes behind it. The rows of all files stand
 * at the front of `rows`, those of file 0 first, each as klapouzen_read_rows has
 * it. The rest of both is unchanged. entries_length and rows_length count
 * numbers: KLAPOUZEN_ENTRY times KLAPOUZEN_INDEX_DIRECTORIES and
 * KLAPOUZEN_INDEX_FILES together, and KLAPOUZEN_ROW times KLAPOUZEN_INDEX_ROWS,
 * are enough.
 * Refusals: as klapouzen_read_index, then 10 (entries_length or rows_length is
 * below that).
 */
enum klapouzen_entry {
    KLAPOUZEN_ENTRY_KIND,   /* 0: a directory, 1: a file */
    KLAPOUZEN_ENTRY_PARENT, /* entry of the directory that holds it; the root's is 0, itself */
    KLAPOUZEN_ENTRY_FILE,   /* how many files come before it: a file's own number */
    KLAPOUZEN_ENTRY_UID,    /* its fileuid */
    KLAPOUZEN_ENTRY_NAME,   /* as spelled, from the beginning of the index's text */
    KLAPOUZEN_ENTRY_NAME_LENGTH, /* in bytes of that text */
    KLAPOUZEN_ENTRY_LENGTH,      /* of the file, in bytes; of a directory 0 */
    KLAPOUZEN_ENTRY_FIRST_ROW,   /* how many rows come before it: its own are from here on */
    KLAPOUZEN_ENTRY_ROWS,        /* how many it has; a directory has none */
    KLAPOUZEN_ENTRY
};

uint64_t klapouzen_read_whole(const uint8_t *text, size_t length,
                              const uint8_t *uuid, size_t uuid_length,
                              uint8_t index_letter, uint8_t data_letter,
                              uint64_t block_size, uint8_t letter, uint64_t block,
                              uint64_t *entries, size_t entries_length,
                              uint64_t *rows, size_t rows_length,
                              uint64_t out[KLAPOUZEN_INDEX]);

/*
 * A name or another value as spelled, with each of the five references &amp;
 * &lt; &gt; &quot; and &apos; replaced by the character that it stands for, at
 * the front of the buffer; the bytes after it keep their values. *count: its
 * bytes, never more than the text has. The text may be any bytes: those that are
 * no such reference stay as they are, and what a reference leaves is not looked
 * at again.
 * Refusals: 10 (the buffer is too short for it).
 */
uint64_t klapouzen_decode(const uint8_t *text, size_t length,
                          uint8_t *buffer, size_t buffer_length,
                          uint64_t *count);

/*
 * The path of an entry, by the text and the entries that klapouzen_read_whole
 * handed out: the decoded names of the directories below the root that hold it
 * and its own, with / between them, at the front of the buffer; the bytes after
 * it keep their values. The root's path is empty. *count: its bytes, which are
 * never more than the text's. entries_length counts numbers. Of other tables
 * than klapouzen_read_whole's the path may be longer.
 * Refusals: 14 (entries_length no multiple of KLAPOUZEN_ENTRY), 2 (no such
 * entry), 14 (on the way from the entry up to the root an entry whose parent is
 * not before it, or whose name does not lie in the text; the root's own is not
 * looked at), 10 (the buffer is too short for it).
 */
uint64_t klapouzen_path(const uint8_t *text, size_t length,
                        const uint64_t *entries, size_t entries_length,
                        uint64_t entry, uint8_t *buffer, size_t buffer_length,
                        uint64_t *count);

/*
 * The index of a partition by the number of its construct among those that
 * stand. `letter` is that of the partition whose list and store are given. out:
 * where the construct is, then what klapouzen_read_index says of its text, so
 * that the generation is out[KLAPOUZEN_CHOSEN_HEADER +
 * KLAPOUZEN_INDEX_GENERATION]. The offset of the text counts from the store's
 * beginning, that of the time, KLAPOUZEN_INDEX_TIME, and the front, which is the
 * last number, from the text's. Where the text is refused, klapouzen_constructs
 * says where it lies.
 * Refusals: 14 (as klapouzen_read_index), 1, 2 (no such construct), 19 (one with
 * an unreadable block), then those of klapouzen_read_index.
 */
enum klapouzen_chosen {
    KLAPOUZEN_CHOSEN_FIRST_BLOCK, /* element number of its first block */
    KLAPOUZEN_CHOSEN_KEPT,        /* elements of the list through its closing mark */
    KLAPOUZEN_CHOSEN_TEXT,        /* its text's first byte, from the store's beginning */
    KLAPOUZEN_CHOSEN_TEXT_LENGTH,
    KLAPOUZEN_CHOSEN_HEADER, /* here enum klapouzen_index_header begins */
    KLAPOUZEN_CHOSEN = KLAPOUZEN_CHOSEN_HEADER + KLAPOUZEN_INDEX
};

uint64_t klapouzen_index(const uint8_t *list, size_t list_length,
                         const uint8_t *store, size_t store_length,
                         const uint8_t *uuid, size_t uuid_length,
                         uint8_t index_letter, uint8_t data_letter,
                         uint64_t block_size, uint8_t letter, uint64_t number,
                         uint64_t out[KLAPOUZEN_CHOSEN]);

/*
 * Where the byte at a position of a file is, by the file's rows, its length and
 * the block size. A byte in no row is a zero that is not stored: all of out is
 * 0. rows_length counts numbers. What is on the tape is not looked at:
 * klapouzen_block says whether there is such a block, whether it was read, and
 * how long it is.
 * Refusals: 14 (block_size outside 4,096 to 1,048,576, a row's letter outside a
 * to z, or rows_length no multiple of KLAPOUZEN_ROW), 15 (over 1,024 rows), 11
 * (a row without bytes, one that begins behind its first block or ends behind
 * the file, a position in two rows, or a block number that 64 bits can't hold),
 * 2 (the position is not below the length).
 */
enum klapouzen_byte_place {
    KLAPOUZEN_BYTE_STORED, /* 0 or 1 */
    KLAPOUZEN_BYTE_LETTER, /* of the partition */
    KLAPOUZEN_BYTE_BLOCK,  /* element number of the block */
    KLAPOUZEN_BYTE_OFFSET, /* from the block's beginning */
    KLAPOUZEN_BYTE
};

uint64_t klapouzen_byte_at(const uint64_t *rows, size_t rows_length,
                           uint64_t length, uint64_t block_size,
                           uint64_t position, uint64_t out[KLAPOUZEN_BYTE]);

/* ---- Volumes ---- */

/*
 * Whether a volume is consistent: break 0 if it is, else the first of these that
 * holds:
 *   1  the index partition does not end with a construct that stands
 *   2  the data partition does not
 *   3  an index of the data partition is not sound, does not point back at the
 *      one before it (the first one: points back at all), or has a lower
 *      generation than that
 *   4  the index partition's last index is not sound, does not point back at
 *      the data partition's last, or has a lower generation
 *   5  an extent of a file of that index does not lie on the tape: one of its
 *      blocks is no data block, unreadable, or too short for it
 * Refusals: those of klapouzen_check_labels. An index whose text is outside the XML
 * form is a break and no refusal; klapouzen_index tells its front.
 */
enum klapouzen_break {
    KLAPOUZEN_BREAK_WHICH,  /* 0 to 5 */
    KLAPOUZEN_BREAK_NUMBER, /* of 3 and 4 the construct's, of 5 the file's, else 0 */
    KLAPOUZEN_BREAK_FRONT,  /* of a label's text, with 4 */
    KLAPOUZEN_BREAK_SIDE,   /* with 4: 0 the index partition's label, 1 the data partition's */
    KLAPOUZEN_BREAK
};

uint64_t klapouzen_verdict(const uint8_t *index_list, size_t index_list_length,
                           const uint8_t *index_store, size_t index_store_length,
                           const uint8_t *data_list, size_t data_list_length,
                           const uint8_t *data_store, size_t data_store_length,
                           uint64_t out[KLAPOUZEN_BREAK]);

/*
 * The cut that leaves a consistent volume with the most index constructs on the
 * index partition. klapouzen_keep turns the numbers of elements into bytes.
 * Refusals: those of klapouzen_check_labels, then 13 (no cut leaves one).
 *
 * Reading on never hurts. Where a first read of a tape has a cut, so has a second
 * one whose lists are well formed and whose lists and stores begin with those of
 * the first. It is enough that klapouzen_keep with that cut's numbers of elements
 * gives the same bytes of both reads. The cut's five numbers are the same, or the index
 * construct is higher; then the data construct, the elements kept of the data
 * partition and the generation may be lower. The first cut leaves a consistent
 * volume of the second read as well.
 */
enum klapouzen_cut {
    KLAPOUZEN_CUT_INDEX_CONSTRUCT, /* number of the last construct kept, index partition */
    KLAPOUZEN_CUT_DATA_CONSTRUCT,  /* data partition */
    KLAPOUZEN_CUT_INDEX_KEPT,      /* how many elements to keep of the index partition */
    KLAPOUZEN_CUT_DATA_KEPT,       /* of the data partition */
    KLAPOUZEN_CUT_GENERATION,      /* of the last index kept on the index partition */
    KLAPOUZEN_CUT_FRONT,           /* of a label's text, with 4 */
    KLAPOUZEN_CUT_SIDE,            /* with 4: 0 the index partition's label, 1 the data partition's */
    KLAPOUZEN_CUT
};

uint64_t klapouzen_rescue(const uint8_t *index_list, size_t index_list_length,
                          const uint8_t *index_store, size_t index_store_length,
                          const uint8_t *data_list, size_t data_list_length,
                          const uint8_t *data_store, size_t data_store_length,
                          uint64_t out[KLAPOUZEN_CUT]);

/* ---- ANSI labelled tapes ---- */

/*
 * The files of an ANSI labelled tape. *count: how many. Each has
 * KLAPOUZEN_ANSI_FILE bytes at the front of the buffer, in tape order; the bytes
 * after them keep their values. There are KLAPOUZEN_MAX_ANSI_FILES at most.
 *
 * The layout, a label being a block of 80 bytes that begins with the four named
 * here, and a user label (UVL, UHL, UTL) with three:
 *   VOL1, VOL2 to VOL9, user labels UVL
 *   for each file, one or more:
 *     HDR1, HDR2, HDR3 to HDR9, user labels UHL, a mark
 *     data blocks, or none, each of 18 to 20,480 bytes, and a mark
 *     EOF1, EOF2, EOF3 to EOF9, user labels UTL, a mark
 *   a mark, the last element
 * VOL1, HDR1, HDR2, EOF1 and EOF2 must be there. Of the other numbered labels any
 * may be missing, and the numbers rise; there may be any number of user labels.
 * Counted from 1, byte 80 of VOL1 is 3 or 4; byte 5 of HDR2 is F, D or S, bytes 6
 * to 15 are digits; bytes 5 to 54 and 61 to 80 of EOF1 are as in HDR1, bytes 55
 * to 60 are digits, the number of the file's data blocks. All else may be any
 * bytes.
 *
 * Refusals: 1; then the one of the first element that can't stand where it does,
 * or of a tape that ends too early: 17 (an EOV1 label in the place of EOF1), 18
 * (an EOF1 label with all right but the number in its six digits), 16 (any other
 * cause, an unreadable block wherever it stands); then 10 (buffer_length is below
 * KLAPOUZEN_ANSI_FILE times the files).
 */
enum klapouzen_ansi_file {
    KLAPOUZEN_ANSI_ID = 0,             /* the file ID, 17 bytes, any */
    KLAPOUZEN_ANSI_FORMAT = 17,        /* the record format: F, D or S */
    KLAPOUZEN_ANSI_BLOCK_LENGTH = 18,  /* 5 digits */
    KLAPOUZEN_ANSI_RECORD_LENGTH = 23, /* 5 digits */
    KLAPOUZEN_ANSI_ELEMENT = 28,       /* number of the element after the header mark: 8 bytes, high byte first */
    KLAPOUZEN_ANSI_FILE = 36           /* bytes of a file */
};

uint64_t klapouzen_ansi(const uint8_t *list, size_t list_length,
                        const uint8_t *store, size_t store_length,
                        uint8_t *buffer, size_t buffer_length,
                        uint64_t *count);

/*
 * Where a tape leaves that layout, to be told with klapouzen_ansi's 16, 17 or 18.
 * *place: how many elements at the front some tape in the layout, of any length,
 * begins with. It is the number of the first element that can't stand where it
 * does, or the number of all elements where the tape is in the layout or ends too
 * early.
 * Refusals: 1.
 */
uint64_t klapouzen_ansi_place(const uint8_t *list, size_t list_length,
                              const uint8_t *store, size_t store_length,
                              uint64_t *place);

#ifdef __cplusplus
}
#endif

#endif
