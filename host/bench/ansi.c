/* The files of ANSI labelled tapes that grow to the bounds, and where they leave the layout: nowhere. */
#include <inttypes.h>
#include <stdio.h>
#include <stdlib.h>

#include "bench.h"
#include "clock.h"
#include "klapouzen.h"
#include "sample.h"

static uint8_t files[KLAPOUZEN_ANSI_FILE * KLAPOUZEN_MAX_ANSI_FILES];

/* ---- What is measured ---- */

static uint64_t count_files(const struct tape *tape)
{
    uint64_t count;
    if (klapouzen_ansi(TAPE(*tape), files, sizeof files, &count) != 0)
        exit(1);
    return count;
}

static void run_files(const void *input)
{
    count_files(input);
}

static void run_place(const void *input)
{
    const struct tape *tape = input;
    uint64_t place;
    if (klapouzen_ansi_place(TAPE(*tape), &place) != 0 || place != tape->elements)
        exit(1);
}

/* ---- Shapes; `part` of 16 of what the bounds allow ---- */

enum { AROUND = 9 }; /* elements of a tape with one file, without its data blocks */

static uint64_t elements_of(int part)
{
    return KLAPOUZEN_MAX_ELEMENTS / 16 * (uint64_t)part;
}

static void no_blocks(struct tape *tape, int part)
{
    ansi_begin(tape);
    for (uint64_t number = 1; tape->elements + 8 <= elements_of(part); number++)
        ansi_file(tape, number, 0, 0);
    ansi_end(tape);
}

static void one_file(struct tape *tape, int part)
{
    ansi_begin(tape);
    ansi_file(tape, 1, elements_of(part) - AROUND, 240);
    ansi_end(tape);
}

/* One file, and volume labels of the user in all the rest. */
static void user_labels(struct tape *tape, int part)
{
    char label[80 + 1];
    snprintf(label, sizeof label, "%-80s", "UVL1");
    ansi_begin(tape);
    while (tape->elements + AROUND - 1 < elements_of(part))
        tape_block(tape, label, 80);
    ansi_file(tape, 1, 0, 0);
    ansi_end(tape);
}

static const struct shape {
    const char *name;
    void (*make)(struct tape *tape, int part);
} shapes[] = {
    { "files without blocks", no_blocks },
    { "one file", one_file },
    { "user labels", user_labels },
};

/* ---- Tables ---- */

enum { CONTESTANTS = 2 };

static struct contestant contestants[CONTESTANTS] = {
    { "files", run_files, 0 },
    { "place", run_place, 0 },
};

static void print_row(const struct shape *shape, const struct tape *tape, const double *before)
{
    uint64_t count = count_files(tape);
    measure(contestants, CONTESTANTS, tape);
    printf("%-20s %9" PRIu64 " %10zu %7" PRIu64, shape->name, tape->elements, tape->store.length, count);
    for (int i = 0; i < CONTESTANTS; i++) {
        printf("  %9.3f ms", 1e3 * contestants[i].seconds);
        if (before[i] > 0)
            printf(" %5.1fx", contestants[i].seconds / before[i]);
        else
            printf(" %6s", "");
    }
    putchar('\n');
}

static void print_shape(const struct shape *shape)
{
    double before[CONTESTANTS] = { 0 };
    for (int part = 1; part <= 16; part *= 2) {
        struct tape tape;
        shape->make(&tape, part);
        print_row(shape, &tape, before);
        for (int i = 0; i < CONTESTANTS; i++)
            before[i] = contestants[i].seconds;
        buffer_free(&tape.list);
        buffer_free(&tape.store);
    }
}

void bench_ansi(void)
{
    printf("\nANSI labelled tapes up to the bounds; beside a time, how it grew where the tape doubled.\n");
    printf("%-20s %9s %10s %7s", "shape", "elements", "bytes", "files");
    for (int i = 0; i < CONTESTANTS; i++)
        printf("  %19s", contestants[i].name);
    putchar('\n');
    for (size_t i = 0; i < sizeof shapes / sizeof shapes[0]; i++)
        print_shape(&shapes[i]);
}

void ansi_once(void)
{
    struct tape tape;
    ansi_most_files(&tape);
    printf("%" PRIu64 " files in %" PRIu64 " elements\n", count_files(&tape), tape.elements);
    buffer_free(&tape.list);
    buffer_free(&tape.store);
}
