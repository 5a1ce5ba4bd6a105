/* A single call of a function of the library, for counts.sh. */
#include <stdio.h>
#include <stdlib.h>
#include <string.h>

#include "bench.h"
#include "collect.h"
#include "klapouzen.h"
#include "shapes.h"

#define WORD(text) (const uint8_t *)(text), strlen(text)
#define SLICE_OF(text) ((const struct buffer *)(text))->bytes, ((const struct buffer *)(text))->length

static void expect(uint64_t found, uint64_t wanted)
{
    if (found == wanted)
        return;
    fprintf(stderr, "answered %d\n", (int)found);
    exit(1);
}

static void fail(const char *what, const char *name)
{
    fprintf(stderr, "no %s has the name %s\n", what, name);
    exit(1);
}

static void read_with(struct buffer text, const char *uuid)
{
    uint64_t header[KLAPOUZEN_INDEX];
    expect(klapouzen_read_index(SLICE_OF(&text), WORD(uuid), 'a', 'b', 4096, 'a', 5, header), 0);
    buffer_free(&text);
}

static void read_once(struct buffer text)
{
    read_with(text, SAMPLE_UUID);
}

/* An index without files, in which the UUID counts most. */
static struct buffer smallest(void)
{
    struct index_text index;
    index_begin(&index, &(struct index_head){ .generation = 1, .letter = 'a', .block = 5 });
    index_end(&index);
    return index.text;
}

static void smallest_once(void)
{
    read_once(smallest());
}

static void respelled_once(void)
{
    read_with(smallest(), "30A91A08-DAAE-48D1-AE75-69804E61D2EA");
}

static void padded_once(void)
{
    struct buffer text = index_of_size(KLAPOUZEN_MAX_INDEX * 9 / 10, false);
    read_once(pad_numbers(text.bytes, text.length));
    buffer_free(&text);
}

/* Before the highest fileuid of an index without files: what is given, and as many zeros as there is room for. */
static void zeros_with(const char *front)
{
    static const char tag[] = "<highestfileuid>";
    struct buffer text = smallest(), filled = { 0 };
    size_t before = 0;
    while (memcmp(text.bytes + before, tag, sizeof tag - 1) != 0)
        before++;
    before += sizeof tag - 1;
    put_bytes(&filled, text.bytes, before);
    put(&filled, "%s", front);
    put_byte(&filled, '0', KLAPOUZEN_MAX_INDEX - text.length - strlen(front));
    put_bytes(&filled, text.bytes + before, text.length - before);
    buffer_free(&text);
    read_once(filled);
}

static void zeros_once(void)
{
    zeros_with("");
}

static void signed_zeros_once(void)
{
    zeros_with(" +");
}

/* No text: the UUID, the letters and the block size are all that is looked at before the refusal. */
static void given_once(void)
{
    uint64_t header[KLAPOUZEN_INDEX];
    expect(klapouzen_read_index(NULL, 0, WORD(SAMPLE_UUID), 'a', 'b', 4096, 'a', 5, header), KLAPOUZEN_BAD_FORM);
}

/* Its last byte can't stand there. */
static struct buffer broken(void)
{
    struct buffer text = index_of_size(KLAPOUZEN_MAX_INDEX, false);
    text.bytes[text.length - 1] = 0;
    return text;
}

static void form_broken_once(void)
{
    struct buffer text = broken();
    uint64_t front;
    expect(klapouzen_check_form(SLICE_OF(&text), &front), KLAPOUZEN_BAD_FORM);
    expect(front, text.length - 1);
    buffer_free(&text);
}

static void index_broken_once(void)
{
    struct buffer text = broken();
    uint64_t header[KLAPOUZEN_INDEX];
    expect(klapouzen_read_index(SLICE_OF(&text), WORD(SAMPLE_UUID), 'a', 'b', 4096, 'a', 5, header), KLAPOUZEN_BAD_FORM);
    expect(header[KLAPOUZEN_INDEX_FRONT], text.length - 1);
    buffer_free(&text);
}

static void label_once(void)
{
    uint8_t label[KLAPOUZEN_MAX_LABEL];
    uint64_t length;
    expect(klapouzen_write_label(label, sizeof label, WORD("LTFS"), WORD(SAMPLE_TIME), WORD(SAMPLE_UUID), 'a', 'a', 'b',
                                 524288, 1, &length), 0);
}

/* ---- Lists of the most elements ---- */

static void check_list(void (*add)(struct tape *tape))
{
    struct tape tape = { 0 };
    uint64_t count;
    while (tape.elements < KLAPOUZEN_MAX_ELEMENTS)
        add(&tape);
    expect(klapouzen_check_list(tape.list.bytes, tape.list.length, tape.store.bytes, tape.store.length, &count), 0);
    tape_free(&tape);
}

static void small_block(struct tape *tape)
{
    tape_filled_block(tape, 'x', 240);
}

static void blocks_once(void)
{
    check_list(small_block);
}

static void unreadable_once(void)
{
    check_list(tape_unreadable_block);
}

/* A data run to the bound and an index on each side; of 16 data blocks so many are unreadable. */
static void judge_once(uint64_t unreadable)
{
    struct sample sample;
    uint64_t verdict[KLAPOUZEN_BREAK];
    sample_begin(&sample, 4096);
    for (int side = 0; side < 2; side++)
        while (sample.sides[side].elements + 3 < KLAPOUZEN_MAX_ELEMENTS)
            (sample.sides[side].elements % 16 < unreadable ? tape_unreadable_block : small_block)(&sample.sides[side]);
    sample_unmount(&sample);
    expect(klapouzen_verdict(SAMPLE(&sample), verdict), 0);
    expect(verdict[KLAPOUZEN_BREAK_WHICH], 0);
    sample_free(&sample);
}

static void data_once(void)
{
    judge_once(0);
}

static void holed_once(void)
{
    judge_once(8);
}

static const struct {
    const char *what;
    void (*run)(void);
} calls[] = {
    { "ansi", ansi_once }, { "given", given_once }, { "label", label_once },
    { "smallest", smallest_once }, { "respelled", respelled_once },
    { "form_broken", form_broken_once }, { "index_broken", index_broken_once },
    { "padded", padded_once }, { "zeros", zeros_once }, { "signed_zeros", signed_zeros_once },
    { "blocks", blocks_once }, { "unreadable", unreadable_once }, { "data", data_once }, { "holed", holed_once },
};

/* ---- Texts of 1 MB ---- */

static void index_by_library(const void *text)
{
    uint64_t header[KLAPOUZEN_INDEX];
    expect(klapouzen_read_index(SLICE_OF(text), WORD(SAMPLE_UUID), 'a', 'b', 4096, 'a', 5, header), 0);
}

static void whole_by_sax(const void *text)
{
    struct collector collector;
    expect(collect_by_sax(&collector, SLICE_OF(text)), true);
    collect_free(&collector);
}

static const struct {
    const char *what;
    void (*run)(const void *text);
} readings[] = {
    { "index", index_by_library }, { "whole", whole_by_library }, { "sax", whole_by_sax },
    { "form", form_by_library },   { "expat", form_by_expat },
};

static void read_shape(void (*run)(const void *text), const char *name)
{
    for (int i = 0; i < SHAPES; i++) {
        if (strcmp(name, shapes[i].name) != 0)
            continue;
        struct buffer text = shapes[i].make(KLAPOUZEN_MAX_INDEX);
        run(&text);
        buffer_free(&text);
        return;
    }
    fail("text", name);
}

void bench_once(const char *what, const char *shape)
{
    for (size_t i = 0; shape == NULL && i < sizeof calls / sizeof calls[0]; i++)
        if (strcmp(what, calls[i].what) == 0) {
            calls[i].run();
            return;
        }
    for (size_t i = 0; shape != NULL && i < sizeof readings / sizeof readings[0]; i++)
        if (strcmp(what, readings[i].what) == 0) {
            read_shape(readings[i].run, shape);
            return;
        }
    fail("call", what);
}
