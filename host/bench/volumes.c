/* The label check, the verdict and the rescue on volumes that grow to the bounds. */
#include <inttypes.h>
#include <stdbool.h>
#include <stdio.h>
#include <stdlib.h>

#include "bench.h"
#include "clock.h"
#include "klapouzen.h"
#include "sample.h"

/* ---- What is measured ---- */

static void run_labels(const void *input)
{
    uint64_t out[KLAPOUZEN_LABELS];
    if (klapouzen_check_labels(SAMPLE((const struct sample *)input), out) != 0)
        exit(1);
}

static void run_verdict(const void *input)
{
    uint64_t out[KLAPOUZEN_BREAK];
    if (klapouzen_verdict(SAMPLE((const struct sample *)input), out) != 0)
        exit(1);
}

static void run_rescue(const void *input)
{
    uint64_t out[KLAPOUZEN_CUT], refusal = klapouzen_rescue(SAMPLE((const struct sample *)input), out);
    if (refusal != 0 && refusal != KLAPOUZEN_NO_CUT)
        exit(1);
}

/* ---- Shapes; `part` of 16 of what the bounds allow ---- */

/* Whether one more index of a side would pass the part. */
static bool is_full(const struct sample *sample, int part, size_t text)
{
    for (int side = 0; side < 2; side++) {
        const struct tape *tape = &sample->sides[side];
        if ((tape->store.length + text) * 16 > (size_t)KLAPOUZEN_MAX_STORE * (size_t)part
            || (tape->elements + 8) * 16 > KLAPOUZEN_MAX_ELEMENTS * (uint64_t)part)
            return true;
    }
    return false;
}

/* Data alone: as many elements as there may be, one index a side. */
static void data_blocks(struct sample *sample, int part)
{
    while (!is_full(sample, part, 4096))
        for (int side = 0; side < 2; side++)
            tape_filled_block(&sample->sides[side], 'x', 240);
    sample_unmount(sample);
}

/* A generation after the other, none torn. */
static void generations(struct sample *sample, int part)
{
    while (!is_full(sample, part, 4096)) {
        sample->generation++;
        sample_unmount(sample);
    }
}

static void put_row_file(struct index_text *index, struct extent *extents, uint64_t block)
{
    for (size_t i = 0; i < KLAPOUZEN_MAX_ROWS; i++)
        extents[i] = (struct extent){ 'b', block, 0, 1, i };
    index_file(index, "rows", KLAPOUZEN_MAX_ROWS, extents, KLAPOUZEN_MAX_ROWS);
}

/* Indexes of nearly 1 MiB on the index side, thousands of extents in each, all on the tape or none. */
static void extents(struct sample *sample, int part, uint64_t block)
{
    static struct extent rows[KLAPOUZEN_MAX_ROWS];
    tape_filled_block(&sample->sides[1], 'x', 4096);
    sample_empty_index(sample, 1);
    while (!is_full(sample, part, 1048576)) {
        struct index_head head = sample_head(sample, 0);
        struct index_text index;
        index_begin(&index, &head);
        while (index.text.length < 850000)
            put_row_file(&index, rows, block);
        index_end(&index);
        sample_index(sample, 0, &index);
    }
}

static void extents_on_tape(struct sample *sample, int part)
{
    extents(sample, part, 4);
}

/* Each index is right but for its last extents, so that the rescue reads them all and finds nothing. */
static void extents_off_tape(struct sample *sample, int part)
{
    extents(sample, part, 40);
}

/* Every index of the index side points at a data index past a break in the chain. */
static void broken_chain(struct sample *sample, int part)
{
    sample_empty_index(sample, 1);
    sample->last_data_index = 1;
    while (!is_full(sample, part, 4096)) {
        sample->generation++;
        sample_unmount(sample);
    }
}

/* An oversized block as the third element behind the labels: nothing after it stands. */
static void early_defect(struct sample *sample, int part)
{
    sample_unmount(sample);
    tape_filled_block(&sample->sides[1], 'x', 4097);
    generations(sample, part);
}

static const struct shape {
    const char *name;
    void (*make)(struct sample *sample, int part);
} shapes[] = {
    { "data blocks", data_blocks },
    { "generations", generations },
    { "extents on the tape", extents_on_tape },
    { "extents off the tape", extents_off_tape },
    { "broken chain", broken_chain },
    { "early defect", early_defect },
};

/* ---- Tables ---- */

enum { CONTESTANTS = 3 };

static struct contestant contestants[CONTESTANTS] = {
    { "label check", run_labels, 0 }, { "verdict", run_verdict, 0 }, { "rescue", run_rescue, 0 },
};

static void print_row(const struct shape *shape, const struct sample *sample, const double *before)
{
    size_t bytes = sample->sides[0].store.length + sample->sides[1].store.length;
    measure(contestants, CONTESTANTS, sample);
    printf("%-20s %9" PRIu64 " %10zu", shape->name, sample->sides[0].elements + sample->sides[1].elements, bytes);
    for (int i = 0; i < CONTESTANTS; i++) {
        printf("  %9.3f ms", 1e3 * contestants[i].seconds);
        if (before[i] > 0)
            printf(" %5.1fx", contestants[i].seconds / before[i]);
        else
            printf(" %6s", "");
    }
    putchar('\n');
}

static void print_shape(const struct shape *shape)
{
    double before[CONTESTANTS] = { 0 };
    for (int part = 1; part <= 16; part *= 2) {
        struct sample sample;
        sample_begin(&sample, 4096);
        shape->make(&sample, part);
        print_row(shape, &sample, before);
        for (int i = 0; i < CONTESTANTS; i++)
            before[i] = contestants[i].seconds;
        sample_free(&sample);
    }
}

/* ---- A month's cartridges ---- */

enum { MONTH = 1000, KINDS = 10 };

static void make_small(struct sample *sample, int kind)
{
    sample_begin(sample, 4096);
    for (int i = 0; i <= kind; i++) {
        sample->generation++;
        for (int block = 0; block < kind; block++)
            tape_filled_block(&sample->sides[1], 'x', 4096);
        sample_unmount(sample);
    }
    if (kind % 3 == 0)
        tape_filled_block(&sample->sides[1], 'x', 100);
}

static void run_month(const void *input)
{
    const struct sample *samples = input;
    for (int i = 0; i < MONTH; i++) {
        run_labels(&samples[i % KINDS]);
        run_verdict(&samples[i % KINDS]);
        run_rescue(&samples[i % KINDS]);
    }
}

static void bench_month(void)
{
    struct sample samples[KINDS];
    struct contestant month = { "month", run_month, 0 };
    size_t bytes = 0;
    for (int i = 0; i < KINDS; i++) {
        make_small(&samples[i], i);
        bytes += (samples[i].sides[0].store.length + samples[i].sides[1].store.length) * MONTH / KINDS;
    }
    measure(&month, 1, samples);
    printf("\n%d small cartridges, %zu bytes of stores, label check, verdict and rescue of each: %.1f ms\n", MONTH,
           bytes, 1e3 * month.seconds);
    for (int i = 0; i < KINDS; i++)
        sample_free(&samples[i]);
}

void bench_volumes(void)
{
    printf("\nVolumes up to the bounds; beside a time, how it grew where the volume doubled.\n");
    printf("%-20s %9s %10s", "shape", "elements", "bytes");
    for (int i = 0; i < CONTESTANTS; i++)
        printf("  %19s", contestants[i].name);
    putchar('\n');
    for (size_t i = 0; i < sizeof shapes / sizeof shapes[0]; i++)
        print_shape(&shapes[i]);
    bench_month();
}
