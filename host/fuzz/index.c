/* An index text with what is given of its label and place: header, entries, paths, rows, byte map. */
#include "fuzz.h"
#include "sample.h"

struct index {
    struct slice uuid, text;
    uint8_t index_letter, data_letter, letter;
    uint64_t block_size, block;
};

#define GIVEN(index) \
    SLICE((index)->text), SLICE((index)->uuid), (index)->index_letter, (index)->data_letter, \
        (index)->block_size, (index)->letter, (index)->block

enum { NUMBERS = KLAPOUZEN_ROW * KLAPOUZEN_MAX_ROWS };

static uint64_t rows[NUMBERS];

/* The first byte of a row; of many rows some. */
static void try_rows(const struct index *index, uint64_t length, uint64_t count)
{
    uint64_t place[KLAPOUZEN_BYTE];
    for (uint64_t i = 0; i < count; i += 1 + count / 16) {
        const uint64_t *row = rows + KLAPOUZEN_ROW * i;
        must(klapouzen_byte_at(rows, KLAPOUZEN_ROW * count, length, index->block_size,
                               row[KLAPOUZEN_ROW_FILEOFFSET], FILLED(place)) == 0);
        must(place[KLAPOUZEN_BYTE_STORED] == 1 && place[KLAPOUZEN_BYTE_LETTER] == row[KLAPOUZEN_ROW_LETTER]
             && place[KLAPOUZEN_BYTE_BLOCK] == row[KLAPOUZEN_ROW_STARTBLOCK]
             && place[KLAPOUZEN_BYTE_OFFSET] == row[KLAPOUZEN_ROW_BYTEOFFSET]);
    }
}

static void must_be_filled(const uint64_t *from, const uint64_t *to)
{
    for (; from < to; from++)
        must(*from == 0xa5a5a5a5a5a5a5a5);
}

/* A file alone, and its rows, are as they were read with all the others. */
static void try_file(const struct index *index, uint64_t number, const uint64_t *as, const uint64_t *as_rows)
{
    uint64_t file[KLAPOUZEN_FILE], count[1], front[1];
    must(klapouzen_read_file(GIVEN(index), number, FILLED(file)) == 0);
    must(memcmp(file, as, sizeof file) == 0);
    must(file[KLAPOUZEN_FILE_NAME] + file[KLAPOUZEN_FILE_NAME_LENGTH] <= index->text.length);
    fill(rows, NUMBERS);
    must(klapouzen_read_rows(GIVEN(index), number, rows, NUMBERS, FILLED(count), FILLED(front)) == 0);
    must(count[0] == file[KLAPOUZEN_FILE_ROWS] && front[0] == 0);
    must(memcmp(rows, as_rows, KLAPOUZEN_ROW * count[0] * sizeof *rows) == 0);
    must_be_filled(rows + KLAPOUZEN_ROW * count[0], rows + NUMBERS);
    try_rows(index, file[KLAPOUZEN_FILE_LENGTH], count[0]);
}

/* ---- All of an index ---- */

/* Room behind what is wanted, which no call may change. */
enum { BEHIND = 16 };

struct whole {
    size_t entries, rows; /* numbers */
    uint64_t *entry, *row;
};

static void must_be_untouched(const struct whole *whole)
{
    must_be_filled(whole->entry, whole->entry + whole->entries + BEHIND);
    must_be_filled(whole->row, whole->row + whole->rows + BEHIND);
}

static void try_short(const struct index *index, const struct whole *whole, size_t entries, size_t rows)
{
    uint64_t header[KLAPOUZEN_INDEX];
    must(ANSWERED(klapouzen_read_whole(GIVEN(index), whole->entry, entries, whole->row, rows, FILLED(header)), header)
         == KLAPOUZEN_SHORT_OUTPUT);
    must_be_untouched(whole);
}

/* Into exactly its room, and into more. Into a number less it puts nothing, nor where the index is refused. */
static void try_rooms(const struct index *index, const struct whole *whole, uint64_t refusal,
                      const uint64_t header[KLAPOUZEN_INDEX])
{
    uint64_t again[KLAPOUZEN_INDEX];
    if (whole->entries > 0)
        try_short(index, whole, whole->entries - 1, whole->rows + BEHIND);
    if (whole->rows > 0)
        try_short(index, whole, whole->entries + BEHIND, whole->rows - 1);
    for (size_t more = 0; more <= BEHIND; more += BEHIND) {
        must(klapouzen_read_whole(GIVEN(index), whole->entry, whole->entries + more, whole->row, whole->rows + more,
                                  FILLED(again)) == refusal);
        must(memcmp(header, again, sizeof again) == 0);
    }
    must_be_filled(whole->entry + whole->entries, whole->entry + whole->entries + BEHIND);
    must_be_filled(whole->row + whole->rows, whole->row + whole->rows + BEHIND);
}

/* A path is its directory's, a / and its name decoded; it fits in the text's length. */
static void try_path(const struct index *index, const struct whole *whole, uint64_t entry)
{
    const uint64_t *numbers = whole->entry + KLAPOUZEN_ENTRY * entry;
    uint64_t count[1], above[1] = { 0 }, name[1] = { 0 }, parent = numbers[KLAPOUZEN_ENTRY_PARENT];
    size_t room = index->text.length;
    uint8_t *path = malloc(room), *wanted = malloc(2 * room + 1);
    must(ANSWERED(klapouzen_path(SLICE(index->text), whole->entry, whole->entries, entry, path, room, FILLED(count)), count)
         == 0);
    if (entry > 0) {
        must(klapouzen_path(SLICE(index->text), whole->entry, whole->entries, parent, wanted, room, above) == 0);
        if (parent > 0)
            wanted[above[0]++] = '/';
        must(klapouzen_decode(index->text.start + numbers[KLAPOUZEN_ENTRY_NAME], numbers[KLAPOUZEN_ENTRY_NAME_LENGTH],
                              wanted + above[0], room, name) == 0);
    }
    must(count[0] == above[0] + name[0] && memcmp(path, wanted, count[0]) == 0);
    if (count[0] > 0)
        must(ANSWERED(klapouzen_path(SLICE(index->text), whole->entry, whole->entries, entry, path, count[0] - 1, above),
                      above) == KLAPOUZEN_SHORT_OUTPUT);
    free(path);
    free(wanted);
}

/* What an entry owes the ones before it. */
static void try_entry(const struct index *index, const struct whole *whole, uint64_t entry)
{
    const uint64_t *numbers = whole->entry + KLAPOUZEN_ENTRY * entry;
    must(numbers[KLAPOUZEN_ENTRY_KIND] <= 1 && numbers[KLAPOUZEN_ENTRY_PARENT] <= entry);
    must(numbers[KLAPOUZEN_ENTRY_NAME] + numbers[KLAPOUZEN_ENTRY_NAME_LENGTH] <= index->text.length);
    if (entry == 0)
        return;
    const uint64_t *before = numbers - KLAPOUZEN_ENTRY;
    must(numbers[KLAPOUZEN_ENTRY_PARENT] < entry);
    must(whole->entry[KLAPOUZEN_ENTRY * numbers[KLAPOUZEN_ENTRY_PARENT] + KLAPOUZEN_ENTRY_KIND] == 0);
    must(numbers[KLAPOUZEN_ENTRY_FILE] == before[KLAPOUZEN_ENTRY_FILE] + before[KLAPOUZEN_ENTRY_KIND]);
    must(numbers[KLAPOUZEN_ENTRY_FIRST_ROW] == before[KLAPOUZEN_ENTRY_FIRST_ROW] + before[KLAPOUZEN_ENTRY_ROWS]);
}

/* All entries; the files among the first of them also alone, and their paths. */
static void try_entries(const struct index *index, const struct whole *whole)
{
    enum { SOME = 8 };
    for (uint64_t i = 0; i < whole->entries / KLAPOUZEN_ENTRY; i++) {
        const uint64_t *entry = whole->entry + KLAPOUZEN_ENTRY * i;
        try_entry(index, whole, i);
        if (i >= SOME)
            continue;
        const uint64_t file[KLAPOUZEN_FILE] = { entry[KLAPOUZEN_ENTRY_LENGTH], entry[KLAPOUZEN_ENTRY_NAME],
                                                entry[KLAPOUZEN_ENTRY_NAME_LENGTH], entry[KLAPOUZEN_ENTRY_ROWS], 0 };
        try_path(index, whole, i);
        if (entry[KLAPOUZEN_ENTRY_KIND] == 1)
            try_file(index, entry[KLAPOUZEN_ENTRY_FILE], file,
                     whole->row + KLAPOUZEN_ROW * entry[KLAPOUZEN_ENTRY_FIRST_ROW]);
    }
}

static void try_whole(const struct index *index, uint64_t refusal, const uint64_t header[KLAPOUZEN_INDEX])
{
    uint64_t count = header[KLAPOUZEN_INDEX_DIRECTORIES] + header[KLAPOUZEN_INDEX_FILES];
    struct whole whole = { KLAPOUZEN_ENTRY * count, KLAPOUZEN_ROW * header[KLAPOUZEN_INDEX_ROWS], NULL, NULL };
    whole.entry = malloc((whole.entries + BEHIND) * sizeof *whole.entry);
    whole.row = malloc((whole.rows + BEHIND) * sizeof *whole.row);
    fill(whole.entry, whole.entries + BEHIND);
    fill(whole.row, whole.rows + BEHIND);
    try_rooms(index, &whole, refusal, header);
    try_entries(index, &whole);
    free(whole.entry);
    free(whole.row);
}

/* Any bytes of the text, by a number. */
static void try_decode(const struct index *index, uint64_t number)
{
    uint64_t count[1], again[1];
    size_t from = index->text.length > 0 ? number % index->text.length : 0, length = index->text.length - from;
    uint8_t *room = malloc(length + 1), *exact;
    must(ANSWERED(klapouzen_decode(index->text.start + from, length, room, length, FILLED(count)), count) == 0);
    must(count[0] <= length && length <= 6 * count[0]);
    exact = malloc(count[0] + 1);
    must(klapouzen_decode(index->text.start + from, length, exact, count[0], FILLED(again)) == 0);
    must(again[0] == count[0] && memcmp(room, exact, count[0]) == 0);
    free(room);
    free(exact);
}

/* ---- Other spellings ---- */

/* The same answer to the UUID in the other case; and 8, where it is looked for, to another UUID. */
static void try_spelling(const struct index *index, uint64_t refusal, const uint64_t header[KLAPOUZEN_INDEX])
{
    uint64_t other_header[KLAPOUZEN_INDEX];
    uint8_t uuid[UUID_LENGTH];
    struct index other = *index;
    memcpy(uuid, index->uuid.start, sizeof uuid);
    other.uuid.start = uuid;
    other_case(uuid);
    must(klapouzen_read_index(GIVEN(&other), FILLED(other_header)) == refusal);
    must(memcmp(header, other_header, sizeof other_header) == 0);
    uuid[UUID_LENGTH - 1] = uuid[UUID_LENGTH - 1] == '0' ? 'A' : '0';
    uint64_t another = klapouzen_read_index(GIVEN(&other), FILLED(other_header));
    must(refusal != 0 || another == KLAPOUZEN_DISAGREEMENT);
}

/* The same answer where the numbers are padded; the update time stands elsewhere then. A front has them padded too. */
static void try_padded(const struct index *index, uint64_t refusal, uint64_t header[KLAPOUZEN_INDEX])
{
    uint64_t padded_header[KLAPOUZEN_INDEX];
    struct buffer text = pad_numbers(SLICE(index->text));
    struct index padded = *index;
    padded.text = (struct slice){ text.bytes, text.length };
    uint64_t answer = klapouzen_read_index(GIVEN(&padded), FILLED(padded_header));
    struct buffer front = pad_numbers(index->text.start, header[KLAPOUZEN_INDEX_FRONT]);
    if (text.length <= KLAPOUZEN_MAX_INDEX) {
        must(answer == refusal && padded_header[KLAPOUZEN_INDEX_FRONT] == front.length);
        padded_header[KLAPOUZEN_INDEX_TIME] = header[KLAPOUZEN_INDEX_TIME];
        padded_header[KLAPOUZEN_INDEX_FRONT] = header[KLAPOUZEN_INDEX_FRONT];
        must(memcmp(header, padded_header, sizeof padded_header) == 0);
    }
    buffer_free(&front);
    buffer_free(&text);
}

/* Each of its readers tells the front of the form check. */
static void try_front(const struct index *index, uint64_t refusal, const uint64_t header[KLAPOUZEN_INDEX])
{
    uint64_t form[1], count[1], front[1], outside = klapouzen_check_form(SLICE(index->text), FILLED(form));
    int is_looked_at = refusal != KLAPOUZEN_BAD_ARGUMENT && index->text.length <= KLAPOUZEN_MAX_INDEX;
    must((refusal == KLAPOUZEN_BAD_FORM) == (is_looked_at && outside != 0));
    must(header[KLAPOUZEN_INDEX_FRONT] == (refusal == KLAPOUZEN_BAD_FORM ? form[0] : 0));
    uint64_t answer = ANSWERED(klapouzen_read_rows(GIVEN(index), 0, NULL, 0, FILLED(count), FILLED(front)), count);
    must(refusal == 0 || answer == refusal);
    must(front[0] == header[KLAPOUZEN_INDEX_FRONT]);
}

/* Number by number: the expressions of an initializer list are evaluated in any order. */
static struct index take_index(struct slice rest)
{
    struct index index;
    index.index_letter = (uint8_t)take_number(&rest, 1);
    index.data_letter = (uint8_t)take_number(&rest, 1);
    index.letter = (uint8_t)take_number(&rest, 1);
    index.block = take_number(&rest, 2);
    index.block_size = take_number(&rest, 4);
    index.uuid = take_slice(&rest);
    index.text = rest;
    return index;
}

int LLVMFuzzerTestOneInput(const uint8_t *input, size_t size)
{
    uint64_t header[KLAPOUZEN_INDEX], file[KLAPOUZEN_FILE];
    struct index index = take_index((struct slice){ input, size });
    uint64_t refusal = judged(TOLD(klapouzen_read_index(GIVEN(&index), FILLED(header)), header, index.text.length));
    uint64_t files = header[KLAPOUZEN_INDEX_FILES];
    must(TOLD(klapouzen_read_file(GIVEN(&index), files, FILLED(file)), file, index.text.length)
         == (refusal != 0 ? refusal : KLAPOUZEN_MISSING));
    must(file[KLAPOUZEN_FILE_FRONT] == header[KLAPOUZEN_INDEX_FRONT]);
    try_front(&index, refusal, header);
    try_whole(&index, refusal, header);
    try_decode(&index, index.block);
    if (refusal != KLAPOUZEN_BAD_ARGUMENT)
        try_spelling(&index, refusal, header);
    try_padded(&index, refusal, header);
    return 0;
}
