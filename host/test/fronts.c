/*
 * Where a text goes wrong: what every function that can answer 4 tells with it, on texts broken by each rule of the form
 * and at each of their bytes. A zero byte stands nowhere in a text in the form, so a text in it with one set in has its
 * front there; and one that ends before its root element does has all its bytes for a front. With every other answer
 * nothing is told.
 */
#include <inttypes.h>
#include <stdio.h>
#include <stdlib.h>
#include <string.h>

#include "guard.h"
#include "klapouzen.h"
#include "sample.h"

static uint64_t texts, failures;

static void fail(const char *function, const char *what, uint64_t place, uint64_t found, uint64_t wanted)
{
    fprintf(stderr, "%s, %s %" PRIu64 ": %" PRIu64 " and not %" PRIu64 "\n", function, what, place, found, wanted);
    failures++;
}

/* ---- What is told ---- */

#define NONE NULL, 0
#define UUID (const uint8_t *)SAMPLE_UUID, sizeof SAMPLE_UUID - 1
#define GIVEN UUID, 'a', 'b', 4096

/* A refusal and what goes with it. */
struct told {
    uint64_t refusal, front, side;
};

/* Filled before each call; a number more than the most that a function hands out. */
static uint64_t out[KLAPOUZEN_CHOSEN + 1];

enum { FILLING = 0xa5 };

static uint64_t *filled(void)
{
    memset(out, FILLING, sizeof out);
    return out;
}

/* So many numbers: zeros, the front and, where one goes with it, the side; what is behind them is as it was. */
static void expect(const char *function, uint64_t refusal, int count, int has_side, const struct told *wanted)
{
    int front = count - 1 - has_side;
    if (refusal != wanted->refusal)
        fail(function, "its refusal at", wanted->front, refusal, wanted->refusal);
    for (int i = 0; i < count; i++) {
        uint64_t number = i == front ? wanted->front : i > front ? wanted->side : 0;
        if (out[i] != number)
            fail(function, "its number", (uint64_t)i, out[i], number);
    }
    uint8_t behind[sizeof out[0]];
    memset(behind, FILLING, sizeof behind);
    if (memcmp(&out[count], behind, sizeof behind) != 0)
        fail(function, "behind its numbers", (uint64_t)count, out[count], 0);
}

#define EXPECT_TEXT(function, arguments, count, wanted) expect(#function, function arguments, count, 0, wanted)
#define EXPECT_VOLUME(function, arguments, count, wanted) expect(#function, function arguments, count, 1, wanted)

/* ---- As an index ---- */

/* By the readers of its text. */
static void as_index(const uint8_t *text, size_t length, char letter, uint64_t block, const struct told *wanted)
{
    uint64_t entries[KLAPOUZEN_ENTRY], rows[KLAPOUZEN_ROW];
#define TEXT text, length, GIVEN, (uint8_t)letter, block
    EXPECT_TEXT(klapouzen_read_index, (TEXT, filled()), KLAPOUZEN_INDEX, wanted);
    EXPECT_TEXT(klapouzen_read_file, (TEXT, 0, filled()), KLAPOUZEN_FILE, wanted);
    EXPECT_TEXT(klapouzen_read_rows, (TEXT, 0, rows, KLAPOUZEN_ROW, filled(), out + 1), 2, wanted);
    EXPECT_TEXT(klapouzen_read_whole, (TEXT, entries, KLAPOUZEN_ENTRY, rows, KLAPOUZEN_ROW, filled()), KLAPOUZEN_INDEX,
                wanted);
    EXPECT_TEXT(klapouzen_read_whole, (TEXT, NONE, NONE, filled()), KLAPOUZEN_INDEX, wanted);
#undef TEXT
}

/* As a construct between two others: the front counts from the text's first byte, over the borders of its blocks. */
static void as_construct(const uint8_t *text, size_t length, const struct told *wanted)
{
    struct sample sample;
    sample_begin(&sample, 4096);
    struct tape *data = &sample.sides[1];
    tape_filled_block(data, 'x', 99);
    sample_empty_index(&sample, 1);
    tape_mark(data);
    for (size_t at = 0; at < length; at += 4096)
        tape_block(data, text + at, length - at < 4096 ? length - at : 4096);
    tape_mark(data);
    sample_empty_index(&sample, 1);
    EXPECT_TEXT(klapouzen_index, (TAPE(*data), GIVEN, 'b', 1, filled()), KLAPOUZEN_CHOSEN, wanted);
    sample_free(&sample);
}

/* ---- As a label ---- */

static struct tape relabelled(const struct tape *tape, const uint8_t *text, size_t length)
{
    struct tape other = { 0 };
    size_t list = 0, store = 0;
    while (list < tape->list.length) {
        struct tape_element element = tape_take(tape, &list, &store);
        if (other.elements == 2)
            element = (struct tape_element){ element.kind, text, length };
        tape_put(&other, element);
    }
    return other;
}

static void of_volume(const struct tape *index, const struct tape *data, const struct told *wanted)
{
    EXPECT_VOLUME(klapouzen_check_labels, (TAPE(*index), TAPE(*data), filled()), KLAPOUZEN_LABELS, wanted);
    EXPECT_VOLUME(klapouzen_verdict, (TAPE(*index), TAPE(*data), filled()), KLAPOUZEN_BREAK, wanted);
    EXPECT_VOLUME(klapouzen_rescue, (TAPE(*index), TAPE(*data), filled()), KLAPOUZEN_CUT, wanted);
}

/* Of the index side, of the data side, of both where each goes wrong elsewhere, and of the data side behind another. */
static void as_label_of_volume(const uint8_t *text, size_t length, const struct told *wanted)
{
    static const char other[] = "<?xml version=\"1.0\" encoding=\"UTF-8\"?>\n<ltfslabel version=\"2.0.1\">!";
    static const char unlike[] = "<?xml version=\"1.0\" encoding=\"UTF-8\"?><a/>";
    const struct told of_data = { wanted->refusal, wanted->front, wanted->refusal == KLAPOUZEN_BAD_FORM };
    const struct told of_other = { KLAPOUZEN_BAD_FORM, sizeof other - 1, 0 };
    const struct told of_unlike = { KLAPOUZEN_BAD_STRUCTURE, 0, 0 };
    struct sample sample;
    sample_begin(&sample, 4096);
    sample_unmount(&sample);
    struct tape *index = &sample.sides[0], *data = &sample.sides[1];
    struct tape broken_index = relabelled(index, text, length), broken_data = relabelled(data, text, length);
    struct tape other_index = relabelled(index, (const uint8_t *)other, sizeof other - 1);
    struct tape other_data = relabelled(data, (const uint8_t *)other, sizeof other - 1);
    struct tape unlike_index = relabelled(index, (const uint8_t *)unlike, sizeof unlike - 1);
    of_volume(&broken_index, data, wanted);
    of_volume(index, &broken_data, &of_data);
    of_volume(&broken_index, &other_data, wanted);
    of_volume(&other_index, &broken_data, &of_other);
    of_volume(&unlike_index, &broken_data, &of_unlike);
    struct tape *const made[] = { &broken_index, &broken_data, &other_index, &other_data, &unlike_index };
    for (size_t i = 0; i < sizeof made / sizeof made[0]; i++)
        tape_free(made[i]);
    sample_free(&sample);
}

/* ---- Texts outside the form ---- */

static void try_text(const uint8_t *bytes, size_t length, uint64_t front)
{
    const struct told wanted = { KLAPOUZEN_BAD_FORM, front, 0 };
    uint8_t *text = guarded_copy(bytes, length);
    texts++;
    EXPECT_TEXT(klapouzen_check_form, (text, length, filled()), 1, &wanted);
    EXPECT_TEXT(klapouzen_read_label, (text, length, filled()), KLAPOUZEN_LABEL, &wanted);
    as_index(text, length, 'a', 5, &wanted);
    /* A block has a byte at least. */
    if (length > 0) {
        as_construct(text, length, &wanted);
        as_label_of_volume(text, length, &wanted);
    }
    guarded_free(text, length);
}

static const char declaration[] = "<?xml version=\"1.0\" encoding=\"UTF-8\"?>";

enum { DECLARATION = sizeof declaration - 1 };

/* By each rule: what is behind the declaration, and how many bytes of that the front has. */
static const struct {
    const char *text;
    uint64_t front;
} rules[] = {
    { "", 0 }, { " \t\r\n", 4 }, { "x<a/>", 0 }, { "&amp;<a/>", 0 }, { "<", 1 }, { "< a/>", 1 }, { "<a", 2 },
    { "<a/>x", 4 }, { "<a/> <b/>", 5 }, { "<a/>&lt;", 4 }, { "<a></a></a>", 7 },
    { "<1a/>", 1 }, { "<_a/>", 1 }, { "<a:b/>", 2 }, { "<\xc3\xa9/>", 1 }, { "<a.b-c_1:/>", 8 },
    { "<a/ >", 3 }, { "<a / >", 4 }, { "<a /", 4 }, { "<a></ a>", 5 }, { "<a></b>", 5 }, { "<a></ab>", 6 },
    { "<ab></a>", 7 }, { "<a></a b>", 7 }, { "<a></a ", 7 }, { "<a><b></a></b>", 8 }, { "<a><b/></b>", 9 },
    { "<a b/>", 4 }, { "<a b />", 5 }, { "<a b", 4 }, { "<a b =c/>", 6 }, { "<a b=", 5 }, { "<a b= c='d'/>", 6 },
    { "<a 'b'/>", 3 }, { "<a b=\"c'/>", 10 }, { "<a b='c'd='e'/>", 8 }, { "<a b='c' d='e'/>", 9 },
    { "<a b='<'/>", 6 }, { "<a b='&'/>", 7 }, { "<a b='&#65;'/>", 7 }, { "<a b='&amp'/>", 10 }, { "<a b='\x01'/>", 6 },
    { "<a b='\xc3'/>", 7 }, { "<a b='\xed\xa0\x80'/>", 7 }, { "<a b='c'", 8 },
    { "<a>]]></a>", 5 }, { "<a>]]]></a>", 6 }, { "<a>] ]>]]", 9 },
    { "<a>&</a>", 4 }, { "<a>&#65;</a>", 4 }, { "<a>&nbsp;</a>", 4 }, { "<a>&ax;</a>", 5 }, { "<a>&apo</a>", 7 },
    { "<a>&lt</a>", 6 }, { "<a>&gt", 6 },
    { "<a>\x1f</a>", 3 }, { "<a>\x80</a>", 3 }, { "<a>\xc1\xbf</a>", 3 }, { "<a>\xc3<", 4 }, { "<a>\xe0\x9f\xbf", 4 },
    { "<a>\xed\xa0\x80", 4 }, { "<a>\xef\xbf\xbe", 5 }, { "<a>\xef\xbf", 5 }, { "<a>\xf0\x8f\xbf\xbf", 4 },
    { "<a>\xf4\x90\x80\x80", 4 }, { "<a>\xf5\x80\x80\x80", 3 }, { "<a>\xf0\x9f\x98 ", 6 },
    { "<a>t<b/></a>", 5 }, { "<a>&lt;<b/></a>", 8 }, { "<a><b/>t</a>", 7 }, { "<a> <b/>\n&lt;</a>", 9 },
    { "<!-- x --><a/>", 1 }, { "<a><!-- x --></a>", 4 }, { "<a><![CDATA[x]]></a>", 4 }, { "<!DOCTYPE a><a/>", 1 },
    { "<?x?><a/>", 1 }, { "<a><?x?></a>", 4 }, { "<a/><!-- x -->", 4 },
};

static void try_rules(void)
{
    for (size_t i = 0; i < sizeof rules / sizeof rules[0]; i++) {
        struct buffer text = { 0 };
        put(&text, "%s%s", declaration, rules[i].text);
        try_text(text.bytes, text.length, DECLARATION + rules[i].front);
        buffer_free(&text);
    }
}

/* Of nothing, of each byte, and of the declaration up to each of its bytes. */
static void try_beginnings(void)
{
    for (int byte = 0; byte < 256; byte++)
        try_text((const uint8_t[]){ (uint8_t)byte }, 1, byte == '<');
    for (size_t length = 0; length <= DECLARATION; length++)
        try_text((const uint8_t *)declaration, length, length);
    try_text((const uint8_t *)"\xef\xbb\xbf<?xml", 8, 0);
    try_text((const uint8_t *)"<?xml version='1.0'", 19, 14);
}

/* A good text with a zero byte in the place of each of its bytes, and without its end from each of them on. */
static void try_each_byte(struct buffer *text)
{
    size_t root_end = text->length;
    while (text->bytes[root_end - 1] != '>')
        root_end--;
    for (size_t at = 0; at < text->length; at++) {
        uint8_t byte = text->bytes[at];
        text->bytes[at] = 0;
        try_text(text->bytes, text->length, at);
        text->bytes[at] = byte;
        if (at < root_end)
            try_text(text->bytes, at, at);
    }
    buffer_free(text);
}

/* ---- The largest ---- */

/* Where elements nest deeper than they may: behind the `<` that begins the first one. */
static uint64_t too_deep(const struct buffer *text)
{
    int depth = 0;
    for (uint64_t at = DECLARATION; at + 1 < text->length; at++) {
        if (text->bytes[at] == '<')
            depth += text->bytes[at + 1] == '/' ? -1 : 1;
        else if (text->bytes[at] == '/' && text->bytes[at + 1] == '>')
            depth--;
        if (depth > KLAPOUZEN_MAX_NESTING)
            return at + 1;
    }
    return 0;
}

/* A large index: broken at its last bytes, without them, and broken far before its end. */
static void try_largest(void)
{
    struct buffer text = index_of_size(KLAPOUZEN_MAX_INDEX, false);
    const struct told last = { KLAPOUZEN_BAD_FORM, text.length - 1, 0 }, first = { KLAPOUZEN_BAD_FORM, 4096, 0 };
    const struct told ends = { KLAPOUZEN_BAD_FORM, text.length - 9, 0 };
    uint8_t byte = text.bytes[text.length - 1];
    texts += 3;
    as_index(text.bytes, text.length - 9, 'a', 5, &ends);
    as_construct(text.bytes, text.length - 9, &ends);
    text.bytes[text.length - 1] = 0;
    as_index(text.bytes, text.length, 'a', 5, &last);
    as_construct(text.bytes, text.length, &last);
    text.bytes[text.length - 1] = byte;
    text.bytes[4096] = 0;
    as_index(text.bytes, text.length, 'a', 5, &first);
    as_construct(text.bytes, text.length, &first);
    buffer_free(&text);
}

static void try_deepest(void)
{
    struct index_text index;
    index_begin(&index, &(struct index_head){ .generation = 1, .letter = 'a', .block = 5 });
    index_attributes(&index, "attributes", KLAPOUZEN_MAX_NESTING);
    index_file(&index, "behind", 0, NULL, 0);
    index_end(&index);
    const struct told wanted = { KLAPOUZEN_BAD_FORM, too_deep(&index.text), 0 };
    texts++;
    as_index(index.text.bytes, index.text.length, 'a', 5, &wanted);
    as_construct(index.text.bytes, index.text.length, &wanted);
    buffer_free(&index.text);
}

/* ---- Other answers ---- */

static struct buffer sample_label(void)
{
    uint8_t label[KLAPOUZEN_MAX_LABEL];
    uint64_t length;
    struct buffer text = { 0 };
    klapouzen_write_label(label, sizeof label, (const uint8_t *)"LTFS", 4, (const uint8_t *)SAMPLE_TIME,
                          strlen(SAMPLE_TIME), UUID, 'a', 'a', 'b', 4096, 1, &length);
    put_bytes(&text, label, length);
    return text;
}

static struct buffer sample_index_text(void)
{
    struct extent extent = { 'b', 4, 0, 9, 0 };
    struct index_text index;
    index_begin(&index, &(struct index_head){ .generation = 1, .letter = 'b', .block = 9 });
    index_file(&index, "file", 9, &extent, 1);
    index_end(&index);
    return index.text;
}

/* Changes that leave a text in the form, and what it is refused for then; both words are of one length. */
static const struct change {
    uint64_t refusal;
    const char *from, *to;
} label_changes[] = {
    { 5, "label version", "label Version" },
    { 7, "\"2.0.1\"", "\"2.1.1\"" },
    { 6, "<blocksize>4096", "<blocksize>4095" },
}, index_changes[] = {
    { 5, "index version", "index Version" },
    { 7, "\"2.0", "\"3.0" },
    { 6, "<fileuid>1<", "<fileuid>0<" },
    { 8, "<volumeuuid>3", "<volumeuuid>4" },
    { 11, "<bytecount>9", "<bytecount>0" },
    { 12, "<startblock>9", "<startblock>8" },
};

static void change(struct buffer *text, const struct change *change)
{
    uint8_t *found = memmem(text->bytes, text->length, change->from, strlen(change->from));
    if (found == NULL)
        abort();
    memcpy(found, change->to, strlen(change->to));
}

static void try_label_changes(void)
{
    for (size_t i = 0; i < sizeof label_changes / sizeof label_changes[0]; i++) {
        const struct told wanted = { label_changes[i].refusal, 0, 0 };
        struct buffer text = sample_label();
        change(&text, &label_changes[i]);
        EXPECT_TEXT(klapouzen_read_label, (text.bytes, text.length, filled()), KLAPOUZEN_LABEL, &wanted);
        as_label_of_volume(text.bytes, text.length, &wanted);
        buffer_free(&text);
    }
}

static void try_index_changes(void)
{
    for (size_t i = 0; i < sizeof index_changes / sizeof index_changes[0]; i++) {
        const struct told wanted = { index_changes[i].refusal, 0, 0 };
        struct buffer text = sample_index_text();
        change(&text, &index_changes[i]);
        as_index(text.bytes, text.length, 'b', 9, &wanted);
        as_construct(text.bytes, text.length, &wanted);
        buffer_free(&text);
    }
}

/* Outside the form too, but refused before that is looked at: too long, or for what is given with it. */
static void try_refused_before(void)
{
    struct buffer text = { 0 };
    const struct told too_long = { KLAPOUZEN_TOO_LONG, 0, 0 }, given = { KLAPOUZEN_BAD_ARGUMENT, 0, 0 };
    put_byte(&text, '<', KLAPOUZEN_MAX_INDEX + 1);
    EXPECT_TEXT(klapouzen_read_label, (text.bytes, KLAPOUZEN_MAX_LABEL + 1, filled()), KLAPOUZEN_LABEL, &too_long);
    as_label_of_volume(text.bytes, KLAPOUZEN_MAX_LABEL + 1, &too_long);
    as_index(text.bytes, text.length, 'a', 5, &too_long);
    as_construct(text.bytes, text.length, &too_long);
    as_index(text.bytes, 1, 'c', 5, &given);
    buffer_free(&text);
}

/* Labels that disagree, none, no VOL1, no list, and no cut: a volume is refused for these, too, before or behind 4. */
static void try_volumes(void)
{
    const struct told disagree = { KLAPOUZEN_DISAGREEMENT, 0, 0 }, none = { KLAPOUZEN_NO_LABELS, 0, 0 };
    const struct told no_vol1 = { KLAPOUZEN_BAD_VOL1, 0, 0 }, no_list = { KLAPOUZEN_BAD_LIST, 0, 0 };
    const struct told no_cut = { KLAPOUZEN_NO_CUT, 0, 0 };
    struct sample sample;
    sample_begin(&sample, 4096);
    struct tape *index = &sample.sides[0], *data = &sample.sides[1];
    struct tape broken = relabelled(index, (const uint8_t *)"<", 1), empty = { 0 };
    EXPECT_VOLUME(klapouzen_rescue, (SAMPLE(&sample), filled()), KLAPOUZEN_CUT, &no_cut);
    of_volume(data, index, &disagree);
    of_volume(&broken, &empty, &none);
    data->store.bytes[0] = 'v';
    of_volume(&broken, data, &no_vol1);
    data->list.length--;
    data->list.bytes[0] = 0;
    of_volume(&broken, data, &no_list);
    tape_free(&broken);
    sample_free(&sample);
}

/* What is read tells no front and no side. */
static void try_good(void)
{
    struct sample sample;
    struct buffer label = sample_label(), text = sample_index_text();
    uint64_t entries[2 * KLAPOUZEN_ENTRY], rows[KLAPOUZEN_ROW];
    sample_begin(&sample, 4096);
    sample_unmount(&sample);
#define EXPECT_NOTHING(function, arguments, ...) \
    do { \
        static const int places[] = { __VA_ARGS__ }; \
        uint64_t refusal = function arguments; \
        if (refusal != 0) \
            fail(#function, "its refusal of a good text", 0, refusal, 0); \
        for (size_t i = 0; i < sizeof places / sizeof places[0]; i++) \
            if (out[places[i]] != 0) \
                fail(#function, "of a good text, its number", (uint64_t)places[i], out[places[i]], 0); \
    } while (0)
#define TEXT text.bytes, text.length, GIVEN, 'b', 9
    EXPECT_NOTHING(klapouzen_check_form, (text.bytes, text.length, filled()), 0);
    EXPECT_NOTHING(klapouzen_read_label, (label.bytes, label.length, filled()), KLAPOUZEN_LABEL_FRONT);
    EXPECT_NOTHING(klapouzen_read_index, (TEXT, filled()), KLAPOUZEN_INDEX_FRONT);
    EXPECT_NOTHING(klapouzen_read_file, (TEXT, 0, filled()), KLAPOUZEN_FILE_FRONT);
    EXPECT_NOTHING(klapouzen_read_rows, (TEXT, 0, rows, KLAPOUZEN_ROW, filled(), out + 1), 1);
    EXPECT_NOTHING(klapouzen_read_whole, (TEXT, entries, 2 * KLAPOUZEN_ENTRY, rows, KLAPOUZEN_ROW, filled()),
                   KLAPOUZEN_INDEX_FRONT);
    EXPECT_NOTHING(klapouzen_index, (TAPE(sample.sides[1]), GIVEN, 'b', 0, filled()),
                   KLAPOUZEN_CHOSEN_HEADER + KLAPOUZEN_INDEX_FRONT);
    EXPECT_NOTHING(klapouzen_check_labels, (SAMPLE(&sample), filled()), KLAPOUZEN_LABEL_FRONT, KLAPOUZEN_LABELS_SIDE);
    EXPECT_NOTHING(klapouzen_verdict, (SAMPLE(&sample), filled()), KLAPOUZEN_BREAK_FRONT, KLAPOUZEN_BREAK_SIDE);
    EXPECT_NOTHING(klapouzen_rescue, (SAMPLE(&sample), filled()), KLAPOUZEN_CUT_FRONT, KLAPOUZEN_CUT_SIDE);
#undef TEXT
    buffer_free(&label);
    buffer_free(&text);
    sample_free(&sample);
}

int main(void)
{
    struct buffer label = sample_label(), index = sample_index_text();
    try_beginnings();
    try_rules();
    try_each_byte(&label);
    try_each_byte(&index);
    try_largest();
    try_deepest();
    try_label_changes();
    try_index_changes();
    try_refused_before();
    try_volumes();
    try_good();
    printf("%" PRIu64 " texts outside the form, %" PRIu64 " failures\n", texts, failures);
    return failures > 0;
}
