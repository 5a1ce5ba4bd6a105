/* make_sample KIND DIR: writes one of the sample volumes to a new folder. */
#include <ctype.h>
#include <stdio.h>
#include <stdlib.h>
#include <string.h>
#include <sys/stat.h>

#include "klapouzen.h"
#include "sample.h"
#include "ultrix.h"

enum { BLOCK_SIZE = 4096 };

/* Bytes that can be told apart by their position. */
static uint8_t *made_bytes(size_t length, uint8_t seed)
{
    uint8_t *bytes = malloc(length);
    if (bytes == NULL)
        abort();
    for (size_t i = 0; i < length; i++)
        bytes[i] = (uint8_t)(seed + i + i / 251);
    return bytes;
}

/* A data run of made bytes; answers its first element. */
static uint64_t put_run(struct sample *sample, int side, size_t length, uint8_t seed)
{
    uint8_t *bytes = made_bytes(length, seed);
    uint64_t first = sample_data(sample, side, bytes, length);
    free(bytes);
    return first;
}

/* ---- The kinds ---- */

static void fresh(struct sample *sample)
{
    sample_unmount(sample);
}

/* The data side stops after element 5: nothing to cut to. */
static void torn(struct sample *sample)
{
    fresh(sample);
    struct tape *data = &sample->sides[1];
    data->list.length -= 1;
    data->elements--;
}

/* Files in an index: one for each run written so far. */
struct run {
    const char *name;
    uint64_t first, length;
};

static void put_files(struct sample *sample, int side, const struct run *runs, size_t count)
{
    struct index_head head = sample_head(sample, side);
    struct index_text index;
    index_begin(&index, &head);
    for (size_t i = 0; i < count; i++) {
        struct extent extent = { 'b', runs[i].first, 0, runs[i].length, 0 };
        index_file(&index, runs[i].name, runs[i].length, &extent, 1);
    }
    index_end(&index);
    sample_index(sample, side, &index);
}

/* Recordings of some nights; the last was cut off while its data was written. */
static void nights(struct sample *sample)
{
    struct run runs[] = {
        { "monday.wav", 0, 61000 }, { "tuesday.wav", 0, 9000 }, { "wednesday.wav", 0, 150000 },
    };
    sample_unmount(sample);
    for (size_t i = 0; i < 3; i++) {
        sample->generation++;
        runs[i].first = put_run(sample, 1, (size_t)runs[i].length, (uint8_t)(40 * i));
        put_files(sample, 1, runs, i + 1);
        if (i != 1)
            put_files(sample, 0, runs, i + 1);
    }
    put_run(sample, 1, 20000, 7);
    tape_mark(&sample->sides[1]);
    tape_filled_block(&sample->sides[1], '<', 1200);
}

/*
 * Recordings of three nights. Behind the index side's index of all three stands one of the first night alone, which
 * points at an earlier index of the data side and has a lower generation: the cut that keeps both drops two nights.
 */
static void rewound(struct sample *sample)
{
    struct run runs[] = {
        { "monday.wav", 0, 61000 }, { "tuesday.wav", 0, 9000 }, { "wednesday.wav", 0, 150000 },
    };
    uint64_t monday = 0;
    for (size_t i = 0; i < 3; i++) {
        sample->generation = i + 1;
        runs[i].first = put_run(sample, 1, (size_t)runs[i].length, (uint8_t)(40 * i));
        put_files(sample, 1, runs, i + 1);
        monday = i == 0 ? sample->last_data_index : monday;
    }
    put_files(sample, 0, runs, 3);
    sample->generation = 1;
    sample->last_data_index = monday;
    put_files(sample, 0, runs, 1);
}

/* By software that writes names as they are: an index with a name that has an & is not in the XML form. */
static void unescaped(struct sample *sample)
{
    struct run runs[] = { { "monday.wav", 0, 61000 }, { "salt & pepper.wav", 0, 9000 } };
    sample_unmount(sample);
    for (size_t i = 0; i < 2; i++) {
        sample->generation++;
        runs[i].first = put_run(sample, 1, (size_t)runs[i].length, (uint8_t)(40 * i));
        put_files(sample, 1, runs, i + 1);
        put_files(sample, 0, runs, i + 1);
    }
}

/* A defect in the middle of the data side, and later constructs that stand no more. */
static void defect(struct sample *sample)
{
    sample_unmount(sample);
    sample->generation++;
    put_run(sample, 1, 12000, 1);
    sample_unmount(sample);
    sample->generation++;
    tape_filled_block(&sample->sides[1], 'x', BLOCK_SIZE + 1);
    sample_unmount(sample);
}

/* More generations than fit a screen, an unsound index among them. */
static void long_one(struct sample *sample)
{
    for (int i = 0; i < 60; i++) {
        sample->generation++;
        put_run(sample, 1, 5000, (uint8_t)i);
        sample_unmount(sample);
        if (i != 30)
            continue;
        tape_mark(&sample->sides[0]);
        tape_filled_block(&sample->sides[0], '?', 100);
        tape_mark(&sample->sides[0]);
    }
}

/* Files with several extents, gaps and names that need references. */
static void sparse(struct sample *sample)
{
    sample_empty_index(sample, 1);
    sample->generation++;
    uint64_t first = put_run(sample, 1, 10000, 9);
    sample_empty_index(sample, 1);
    struct index_head head = sample_head(sample, 0);
    struct extent gaps[] = {
        { 'b', first, 100, 5000, 70000 }, { 'b', first + 2, 0, 10, 3 }, { 'b', first + 1, 0, 4096, 20 },
    };
    struct extent past = { 'b', first + 2, 2000, 10, 0 };
    struct index_text index;
    index_begin(&index, &head);
    index_file(&index, "gaps &amp; &lt;more&gt;", 80000, gaps, 3);
    index_file(&index, "nothing stored", 100000, NULL, 0);
    index_file(&index, "empty", 0, NULL, 0);
    index_file(&index, "twice", 0, NULL, 0);
    index_file(&index, "twice", 1, NULL, 0);
    index_file(&index, "past the block", 10, &past, 1);
    index_end(&index);
    sample_index(sample, 0, &index);
}

/*
 * Files that are hard to extract: names that are numbers, a terabyte of which next to nothing is stored, and
 * 12 MiB in as many rows as may be, the last part of the file first.
 */
static void extents(struct sample *sample)
{
    enum { TEXT = 3 * BLOCK_SIZE, ALL = KLAPOUZEN_MAX_ROWS * TEXT };
    static struct extent falling[KLAPOUZEN_MAX_ROWS];
    uint64_t first = put_run(sample, 1, ALL, 5), terabyte = (uint64_t)1 << 40;
    struct extent few[] = { { 'b', first, 4000, 200, terabyte / 2 }, { 'b', first + 9, 7, 5000, 100 } };
    for (uint64_t i = 0; i < KLAPOUZEN_MAX_ROWS; i++)
        falling[i] = (struct extent){ 'b', first + 3 * (i ^ 5), 0, TEXT, ALL - (i + 1) * TEXT };
    sample_empty_index(sample, 1);
    struct index_head head = sample_head(sample, 0);
    struct index_text index;
    index_begin(&index, &head);
    index_file(&index, "3", 10, few, 0);
    index_file(&index, "terabyte", terabyte, NULL, 0);
    index_file(&index, "terabyte with bytes", terabyte, few, 2);
    index_file(&index, "falling", ALL, falling, KLAPOUZEN_MAX_ROWS);
    index_end(&index);
    sample_index(sample, 0, &index);
}

/* As many files as an index has room for; one in sixteen has bytes. */
static void many(struct sample *sample)
{
    uint64_t first = put_run(sample, 1, BLOCK_SIZE, 3);
    struct extent extent = { 'b', first, 16, 10, 0 };
    struct index_text index;
    sample_empty_index(sample, 1);
    struct index_head head = sample_head(sample, 0);
    index_begin(&index, &head);
    for (int i = 0; index.text.length + 1024 < KLAPOUZEN_MAX_INDEX; i++) {
        char name[16];
        snprintf(name, sizeof name, "%d.wav", i);
        index_file(&index, name, i % 16 == 0 ? 10 : 0, &extent, i % 16 == 0);
    }
    index_end(&index);
    sample_index(sample, 0, &index);
}

/* Names with characters that a terminal obeys or does not draw, and some that it draws. */
static void odd(struct sample *sample)
{
    static const char *const names[] = {
        "del\x7f",
        "csi\xc2\x9b[31m",
        "override\xe2\x80\xaegpj",
        "isolate\xe2\x81\xa6",
        "mark\xd8\x9c",
        "line\xe2\x80\xa8" "end",
        "width\xe2\x80\x8b",
        "bom\xef\xbb\xbf",
        "tag\xf3\xa0\x80\x81",
        "back\\x1b",
        "quote&quot;&amp;amp;&lt;",
        "Stra\xc3\x9f" "e \xf0\x9f\x8e\xb5",
    };
    sample_empty_index(sample, 1);
    struct index_head head = sample_head(sample, 0);
    struct index_text index;
    index_begin(&index, &head);
    for (size_t i = 0; i < sizeof names / sizeof names[0]; i++)
        index_file(&index, names[i], 0, NULL, 0);
    index_end(&index);
    sample_index(sample, 0, &index);
}

/* A tree in the order of its text: a file, a directory, or the end of one. */
struct branch {
    enum { FILE_HERE, DIRECTORY_BEGINS, DIRECTORY_ENDS } kind;
    const char *name;
};

/* An index of a tree whose files are runs one behind the other, each of 4,097 bytes. */
static void put_tree(struct sample *sample, int side, uint64_t first, const struct branch *branches, size_t count)
{
    struct index_head head = sample_head(sample, side);
    struct extent extent = { 'b', first, 0, BLOCK_SIZE + 1, 0 };
    struct index_text index;
    index_begin(&index, &head);
    for (size_t i = 0; i < count; i++) {
        if (branches[i].kind == DIRECTORY_BEGINS)
            index_directory(&index, branches[i].name);
        else if (branches[i].kind == DIRECTORY_ENDS)
            index_leave(&index);
        else
            index_file(&index, branches[i].name, extent.bytecount, &extent, 1);
        extent.startblock += branches[i].kind == FILE_HERE ? 2 : 0;
    }
    index_end(&index);
    sample_index(sample, side, &index);
}

/*
 * Directories in directories: names that several files have, names with references and one that looks like a reference
 * when it is decoded, directories whose names are numbers, an empty one, one with characters that a terminal obeys.
 */
static void folders(struct sample *sample)
{
    enum { FILES = 9 };
    static const struct branch branches[] = {
        { FILE_HERE, "notes.txt" },
        { DIRECTORY_BEGINS, "takes &amp; cuts" },
        { FILE_HERE, "notes.txt" },
        { DIRECTORY_BEGINS, "&lt;raw&gt;" },
        { FILE_HERE, "monday.wav" },
        { FILE_HERE, "the &quot;one&quot;.wav" },
        { DIRECTORY_ENDS, NULL },
        { FILE_HERE, "monday.wav" },
        { DIRECTORY_ENDS, NULL },
        { DIRECTORY_BEGINS, "5" },
        { DIRECTORY_BEGINS, "6" },
        { FILE_HERE, "&amp;lt;" },
        { DIRECTORY_ENDS, NULL },
        { DIRECTORY_ENDS, NULL },
        { DIRECTORY_BEGINS, "odd\x7f\xe2\x80\xaegpj" },
        { FILE_HERE, "csi\xc2\x9b[31m" },
        { FILE_HERE, "tuesday.wav" },
        { FILE_HERE, "tuesday.wav" },
        { DIRECTORY_ENDS, NULL },
        { DIRECTORY_BEGINS, "empty" },
        { DIRECTORY_ENDS, NULL },
    };
    uint64_t first = sample->sides[1].elements;
    for (int i = 0; i < FILES; i++)
        put_run(sample, 1, BLOCK_SIZE + 1, (uint8_t)(25 * i));
    put_tree(sample, 1, first, branches, sizeof branches / sizeof branches[0]);
    put_tree(sample, 0, first, branches, sizeof branches / sizeof branches[0]);
}

/* The UUID in capitals wherever it stands in the store, every second time, from the first on or from the second. */
static void respell(struct tape *tape, bool first)
{
    enum { LENGTH = sizeof SAMPLE_UUID - 1 };
    uint8_t *bytes = tape->store.bytes;
    for (size_t at = 0; at + LENGTH <= tape->store.length; at++) {
        if (memcmp(bytes + at, SAMPLE_UUID, LENGTH) != 0)
            continue;
        for (size_t i = at; first && i < at + LENGTH; i++)
            bytes[i] = (uint8_t)toupper(bytes[i]);
        first = !first;
    }
}

/* Two programs wrote this volume, one with capitals: the data side's label, and every second index of each side. */
static void spellings(struct sample *sample)
{
    for (int i = 0; i < 4; i++) {
        put_run(sample, 1, 5000, (uint8_t)i);
        sample_unmount(sample);
        sample->generation++;
    }
    respell(&sample->sides[0], false);
    respell(&sample->sides[1], true);
}

/* Each block of a tape with its numbers padded, as far as it is a text. */
static void pad_tape(struct tape *tape)
{
    struct tape padded = { 0 };
    for (size_t list = 0, store = 0; list < tape->list.length;) {
        struct tape_element element = tape_take(tape, &list, &store);
        struct buffer block = pad_numbers(element.bytes, element.length);
        tape_put(&padded, (struct tape_element){ element.kind, block.bytes, block.length });
        buffer_free(&block);
    }
    tape_free(tape);
    *tape = padded;
}

/* The volume of nights as software wrote it that pads its numbers and puts line ends round them. */
static void padded(struct sample *sample)
{
    nights(sample);
    pad_tape(&sample->sides[0]);
    pad_tape(&sample->sides[1]);
}

struct listed {
    const char *name;
    uint64_t length;
    struct extent extents[2];
    size_t count;
};

/* An index of these files and of cue sheets without bytes, which make it longer than a block. */
static void put_listed(struct sample *sample, int side, const struct listed *files, size_t count)
{
    enum { CUES = 8 };
    struct index_head head = sample_head(sample, side);
    struct index_text index;
    index_begin(&index, &head);
    for (size_t i = 0; i < count; i++)
        index_file(&index, files[i].name, files[i].length, files[i].extents, files[i].count);
    for (int i = 1; i <= CUES; i++) {
        char name[16];
        snprintf(name, sizeof name, "%d.cue", i);
        index_file(&index, name, 0, NULL, 0);
    }
    index_end(&index);
    sample_index(sample, side, &index);
}

/*
 * Recordings of three nights, of which the drive could not read some blocks. On the data side two next to each other in
 * the last night, where the jingle is too, and one further on; on the index side the first block of the third index, and
 * the last of the notes.
 */
static void unreadable(struct sample *sample)
{
    enum { NIGHTS = 3, NOTES = 5000, JINGLE = 9 };
    struct listed files[] = {
        { .name = "monday.wav", .length = 61000 }, { .name = "tuesday.wav", .length = 9000 },
        { .name = "wednesday.wav", .length = 150000 }, { .name = "jingle.wav", .length = 6000, .count = 2 },
        { .name = "notes.txt", .length = NOTES, .count = 1 },
    };
    uint64_t older = 0, last = 0, notes = 0;
    sample_unmount(sample);
    for (size_t i = 0; i < NIGHTS; i++) {
        bool is_last = i == NIGHTS - 1;
        sample->generation++;
        last = put_run(sample, 1, (size_t)files[i].length, (uint8_t)(40 * i));
        files[i].extents[files[i].count++] = (struct extent){ 'b', last, 0, files[i].length, 0 };
        if (is_last) {
            files[3].extents[0] = (struct extent){ 'b', last + JINGLE, 4000, 300, 0 };
            files[3].extents[1] = (struct extent){ 'b', last, 0, 5000, 1000 };
            notes = put_run(sample, 0, NOTES, 200);
            files[4].extents[0] = (struct extent){ 'a', notes, 0, NOTES, 0 };
        }
        put_listed(sample, 1, files, is_last ? 5 : i + 1);
        older = i == 1 ? sample->sides[0].elements + 1 : older;
        put_listed(sample, 0, files, is_last ? 5 : i + 1);
    }
    tape_lose(&sample->sides[0], older);
    tape_lose(&sample->sides[0], notes + 1);
    tape_lose(&sample->sides[1], last + JINGLE);
    tape_lose(&sample->sides[1], last + JINGLE + 1);
    tape_lose(&sample->sides[1], last + 30);
}

/* As many generations as the stores have room for; one index is unsound, and the last is of the data side alone. */
static void full(struct sample *sample)
{
    enum { UNSOUND = 9000, ROOM = 4096 };
    while (sample->sides[1].store.length + ROOM < KLAPOUZEN_MAX_STORE) {
        struct buffer *store = &sample->sides[0].store;
        size_t before = store->length;
        if (sample->generation % 2 == 0)
            sample_data(sample, 1, "take", 4);
        sample_unmount(sample);
        if (sample->generation == UNSOUND)
            store->bytes[before] = '?';
        sample->generation++;
    }
    sample_empty_index(sample, 1);
}

/* A tape of ULTRIX: record formats, paths, an ID that stands twice, a file without data, one without a path. */
static void put_ansi(struct sample *sample, size_t lost)
{
    const struct ultrix_file files[] = {
        { "HOSTS", "/etc/hosts", 'D', 2048, 512, 1, 4000, false, 0 },
        { "PAYROLL.DAT", "/usr/staff/payroll.dat", 'F', 4000, 80, 2, 12000, false, 0 },
        { "PAYROLL.DAT", "/usr/staff/1990/payroll.dat", 'F', 4000, 80, 3, 9600, false, lost },
        { "QUARTERLY.REPORT.", "/usr/staff/letters/board/1991/quarterly.report.with.figures", 'S', 2048, 0, 4, 5000,
          false, 0 },
        { "LOCK", "/usr/spool/lock", 'F', 2048, 80, 5, 0, false, 0 },
        { "TAPE.LOG", "", 'D', 2048, 132, 6, 300, true, 0 },
    };
    struct tape *tape = &sample->sides[0];
    sample_free(sample);
    *sample = (struct sample){ .block_size = BLOCK_SIZE };
    ultrix_begin(tape, "BENCH1", "Klapouzen");
    ultrix_label(tape, "UVL1 of the application");
    for (size_t i = 0; i < sizeof files / sizeof files[0]; i++)
        ultrix_file(tape, &files[i]);
    ultrix_end(tape);
}

static void ansi(struct sample *sample)
{
    put_ansi(sample, 0);
}

/* The same where a block of the third file was lost in reading. */
static void ansi_worn(struct sample *sample)
{
    put_ansi(sample, 1);
}

/* As many files as a list has room for. */
static void ansi_many(struct sample *sample)
{
    struct tape *tape = &sample->sides[0];
    sample_free(sample);
    *sample = (struct sample){ .block_size = BLOCK_SIZE };
    ultrix_begin(tape, "FULL", "");
    for (unsigned i = 0; i < KLAPOUZEN_MAX_ANSI_FILES; i++) {
        char id[16];
        snprintf(id, sizeof id, "FILE%05u.DAT", i);
        ultrix_file(tape, &(struct ultrix_file){ id, "", 'F', 2048, 80, i + 1, 0, false, 0 });
    }
    ultrix_end(tape);
}

/* ---- Writing ---- */

static void write_part(const char *folder, const char *name, const struct buffer *bytes)
{
    char path[4096];
    snprintf(path, sizeof path, "%s/%s", folder, name);
    FILE *file = fopen(path, "wbx");
    if (file == NULL || fwrite(bytes->bytes, 1, bytes->length, file) != bytes->length
        || fclose(file) != 0) {
        perror(path);
        exit(2);
    }
}

/* A tape of one partition has no data side. */
static void write_sample(const struct sample *sample, const char *folder)
{
    mkdir(folder, 0777);
    write_part(folder, "index.list", &sample->sides[0].list);
    write_part(folder, "index.store", &sample->sides[0].store);
    if (sample->sides[1].elements == 0)
        return;
    write_part(folder, "data.list", &sample->sides[1].list);
    write_part(folder, "data.store", &sample->sides[1].store);
}

int main(int count, char **words)
{
    static const struct { const char *name; void (*make)(struct sample *); } kinds[] = {
        { "extents", extents },
        { "fresh", fresh }, { "torn", torn }, { "nights", nights }, { "rewound", rewound },
        { "unescaped", unescaped }, { "defect", defect },
        { "sparse", sparse }, { "long", long_one }, { "many", many }, { "odd", odd },
        { "spellings", spellings }, { "padded", padded }, { "unreadable", unreadable },
        { "full", full }, { "folders", folders }, { "ansi", ansi }, { "ansi_worn", ansi_worn },
        { "ansi_many", ansi_many },
    };
    struct sample sample;
    for (size_t i = 0; count == 3 && i < sizeof kinds / sizeof kinds[0]; i++) {
        if (strcmp(words[1], kinds[i].name) != 0)
            continue;
        sample_begin(&sample, BLOCK_SIZE);
        kinds[i].make(&sample);
        write_sample(&sample, words[2]);
        sample_free(&sample);
        return 0;
    }
    fputs("usage: make_sample fresh|torn|nights|rewound|unescaped|defect|sparse|long|many|extents|odd|spellings|padded|"
          "unreadable|full|folders|ansi|ansi_worn|ansi_many DIR\n", stderr);
    return 2;
}
