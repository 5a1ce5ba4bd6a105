#include "ansi_words.h"

#include <inttypes.h>
#include <stdlib.h>
#include <string.h>

#include "common.h"
#include "text.h"
#include "words.h"

/* ---- The walk ---- */

/* What was read last. */
enum state {
    NOTHING, VOLUME_LABELS, HDR1, HEADER_LABELS, DATA_BLOCKS, DATA_MARK, EOF1, TRAILER_LABELS,
    TRAILER_MARK, LAST_MARK
};

/* What can follow; what is missing where the tape ends; the words that a label there can begin with. */
static const struct follower {
    const char *expected, *missing, *words[3];
} followers[] = {
    [NOTHING] = { "VOL1", "VOL1", { "VOL1" } },
    [VOLUME_LABELS] = { "a volume label (VOL2 to VOL9, UVL) or HDR1", "HDR1",
                        { "VOL", "UVL", "HDR1" } },
    [HDR1] = { "HDR2", "HDR2", { "HDR2" } },
    [HEADER_LABELS] = { "a header label (HDR3 to HDR9, UHL) or a mark",
                        "the mark behind the header labels", { "HDR", "UHL" } },
    [DATA_BLOCKS] = { "a data block or a mark", "the mark behind the data blocks", { NULL } },
    [DATA_MARK] = { "EOF1", "EOF1", { "EOF1", "EOV1" } },
    [EOF1] = { "EOF2", "EOF2", { "EOF2" } },
    [TRAILER_LABELS] = { "a trailer label (EOF3 to EOF9, UTL) or a mark",
                         "the mark behind the trailer labels", { "EOF", "UTL" } },
    [TRAILER_MARK] = { "HDR1 or the mark that ends the tape", "the further mark that ends the tape",
                       { "HDR1" } },
    [LAST_MARK] = { "nothing", "nothing", { NULL } },
};

struct walk {
    enum state state;
    uint64_t files;      /* whose HDR1 was read */
    uint64_t hdr1;       /* the element of the last of them */
    uint64_t blocks;     /* of data, of that file */
    struct bytes before; /* the block before; empty for a mark */
};

/* The state behind an element that the library lets stand there. */
static enum state state_behind(enum state state, const struct ansi_element *element)
{
    switch (state) {
    case VOLUME_LABELS:
        return begins_with(element->block, "HDR1") ? HDR1 : VOLUME_LABELS;
    case HEADER_LABELS:
    case DATA_BLOCKS:
    case TRAILER_LABELS:
        return element->kind == MARK ? state + 1 : state;
    case TRAILER_MARK:
        return element->kind == MARK ? LAST_MARK : HDR1;
    case LAST_MARK:
        return LAST_MARK;
    default:
        return state + 1;
    }
}

static struct walk walk_to_place(const struct ansi_tape *tape)
{
    struct walk walk = { .state = NOTHING };
    for (uint64_t i = 0; i < tape->place; i++) {
        const struct ansi_element *element = &tape->elements[i];
        if (walk.state == DATA_BLOCKS && element->kind == BLOCK)
            walk.blocks++;
        walk.state = state_behind(walk.state, element);
        walk.before = element->block;
        if (walk.state == HDR1) {
            walk.files++;
            walk.hdr1 = i;
            walk.blocks = 0;
        }
    }
    return walk;
}

/* ---- Parts of sentences ---- */

static void put_quoted(FILE *out, struct bytes text)
{
    fputc('"', out);
    print_bytes(out, text);
    fputc('"', out);
}

/* The bytes that a block begins with: of a label its name. */
static struct bytes name_of(struct bytes block)
{
    return part_of(block, 0, block.length < 4 ? block.length : 4);
}

/* Without quotes where that is plain. */
static void put_name(FILE *out, struct bytes label)
{
    struct bytes name = name_of(label);
    bool is_plain = name.length == 4 && name.start[3] > ' ' && name.start[3] < 0x7f;
    (is_plain ? print_bytes : put_quoted)(out, name);
}

static bool is_known(struct bytes block)
{
    static const char *const words[] = { "VOL", "UVL", "HDR", "UHL", "EOF", "EOV", "UTL" };
    bool known = false;
    for (size_t i = 0; i < sizeof words / sizeof words[0]; i++)
        known = known || begins_with(block, words[i]);
    return known;
}

/* What stands somewhere. */
static void put_element(FILE *out, const struct ansi_element *element)
{
    struct bytes block = element->block;
    if (element->kind == MARK) {
        fputs("a mark", out);
    } else if (element->kind == UNREADABLE_BLOCK) {
        fputs("an unreadable block", out);
    } else if (block.length == ANSI_LABEL && is_known(block)) {
        put_name(out, block);
    } else {
        fputs("a block of ", out);
        print_counted(out, block.length, "byte", "bytes");
        fputs(" that begins with ", out);
        put_quoted(out, name_of(block));
    }
}

static bool are_digits(struct bytes text)
{
    bool digits = true;
    for (size_t i = 0; i < text.length; i++)
        digits = digits && text.start[i] >= '0' && text.start[i] <= '9';
    return digits;
}

/* A field of a label, by its bytes. */
struct field {
    const char *name;
    size_t first, last;
};

/* "EOF1's file ID (bytes 5-21) is "X"" */
static void put_field(FILE *out, const char *label, const struct field *field, struct bytes block)
{
    fprintf(out, "%s's %s (", label, field->name);
    if (field->first == field->last)
        fprintf(out, "byte %zu) is ", field->first);
    else
        fprintf(out, "bytes %zu-%zu) is ", field->first, field->last);
    put_quoted(out, label_bytes(block, field->first, field->last));
}

/* ---- What is wrong with a label ---- */

/* Each says what is wrong, or answers false. */

static bool put_version(FILE *out, struct bytes vol1)
{
    static const struct field version = { "version", 80, 80 };
    if (vol1.start[79] == '3' || vol1.start[79] == '4')
        return false;
    put_field(out, "VOL1", &version, vol1);
    fputs(", not 3 or 4", out);
    return true;
}

static bool put_hdr2(FILE *out, struct bytes hdr2)
{
    static const struct field format = { "record format", 5, 5 };
    static const struct field lengths[] = { { "block length", 6, 10 }, { "record length", 11, 15 } };
    bool said = false;
    if (hdr2.start[4] == '\0' || strchr("FDS", hdr2.start[4]) == NULL) {
        put_field(out, "HDR2", &format, hdr2);
        fputs(", not F, D or S", out);
        said = true;
    }
    for (size_t i = 0; i < 2; i++) {
        if (are_digits(label_bytes(hdr2, lengths[i].first, lengths[i].last)))
            continue;
        fputs(said ? "; " : "", out);
        put_field(out, "HDR2", &lengths[i], hdr2);
        fputs(", not five digits", out);
        said = true;
    }
    return said;
}

/* The fields in which EOF1 is to repeat HDR1. */
static const struct field repeated[] = {
    { "file ID", 5, 21 },
    { "file set ID", 22, 27 },
    { "file section number", 28, 31 },
    { "file sequence number", 32, 35 },
    { "generation number", 36, 39 },
    { "generation version number", 40, 41 },
    { "creation date", 42, 47 },
    { "expiration date", 48, 53 },
    { "file security", 54, 54 },
    { "implementation ID", 61, 73 },
    { "reserved part", 74, 80 },
};

static bool put_unrepeated(FILE *out, const struct ansi_tape *tape, const struct walk *walk,
                           struct bytes eof1)
{
    struct bytes hdr1 = tape->elements[walk->hdr1].block;
    bool said = false;
    for (size_t i = 0; i < sizeof repeated / sizeof repeated[0]; i++) {
        struct bytes first = label_bytes(hdr1, repeated[i].first, repeated[i].last);
        if (memcmp(eof1.start + repeated[i].first - 1, first.start, first.length) == 0)
            continue;
        fputs(said ? "; " : "", out);
        put_field(out, "EOF1", &repeated[i], eof1);
        fprintf(out, ", HDR1's in element %" PRIu64 " ", walk->hdr1);
        put_quoted(out, first);
        said = true;
    }
    return said;
}

/* "EOF1 says 3 blocks, 4 stand there" */
static void put_counts(FILE *out, const char *label, uint64_t said, uint64_t present)
{
    fprintf(out, "%s says ", label);
    print_counted(out, said, "block", "blocks");
    if (present == 0)
        fputs(", none stands there", out);
    else
        fprintf(out, ", %s %s there", grouped(present), present == 1 ? "stands" : "stand");
}

static bool put_eof1(FILE *out, const struct ansi_tape *tape, const struct walk *walk,
                     struct bytes eof1)
{
    static const struct field count = { "block count", 55, 60 };
    struct bytes digits = label_bytes(eof1, count.first, count.last);
    bool said = put_unrepeated(out, tape, walk, eof1);
    if (!are_digits(digits)) {
        fputs(said ? "; " : "", out);
        put_field(out, "EOF1", &count, eof1);
        fputs(", not six digits", out);
        return true;
    }
    if (said || number_in(digits) == walk->blocks)
        return said;
    put_counts(out, "EOF1", number_in(digits), walk->blocks);
    return true;
}

static bool put_eov1(FILE *out, const struct walk *walk, struct bytes eov1)
{
    struct bytes digits = label_bytes(eov1, 55, 60);
    fputs("EOV1 stands in the place of EOF1: the file goes on on another tape", out);
    if (are_digits(digits)) {
        fputs("; ", out);
        put_counts(out, "EOV1", number_in(digits), walk->blocks);
    }
    return true;
}

static bool put_expected(FILE *out, enum state state, const struct ansi_element *element)
{
    fprintf(out, "%s is expected, ", followers[state].expected);
    put_element(out, element);
    fputs(" stands there", out);
    return true;
}

/* Optional labels: numbers that rise, then user labels. */
static bool put_numbered(FILE *out, const struct walk *walk, const struct ansi_element *element)
{
    struct bytes label = element->block, before = walk->before;
    char least = walk->state == VOLUME_LABELS ? '2' : '3', number = (char)label.start[3];
    bool is_first = walk->state == VOLUME_LABELS && begins_with(label, "HDR1");
    if (label.start[0] == 'U' || is_first)
        return false;
    if (number < least || number > '9')
        return put_expected(out, walk->state, element);
    if (before.start[0] != 'U' && (char)before.start[3] < number)
        return false;
    put_name(out, label);
    fputs(" stands behind ", out);
    put_name(out, before);
    fputs(before.start[0] == 'U' ? ": numbered labels stand before user labels"
                                 : ": the numbers have to rise", out);
    return true;
}

/* ---- What is wrong at a place ---- */

static bool could_begin(enum state state, struct bytes block)
{
    bool could = false;
    for (size_t i = 0; i < 3 && followers[state].words[i] != NULL; i++)
        could = could || begins_with(block, followers[state].words[i]);
    return could;
}

/* A label that begins as one that could stand there. */
static bool put_label(FILE *out, const struct ansi_tape *tape, const struct walk *walk,
                      const struct ansi_element *element)
{
    struct bytes label = element->block;
    switch (walk->state) {
    case NOTHING:
        return put_version(out, label);
    case HDR1:
        return put_hdr2(out, label);
    case DATA_MARK:
        return begins_with(label, "EOV1") ? put_eov1(out, walk, label)
                                          : put_eof1(out, tape, walk, label);
    case VOLUME_LABELS:
    case HEADER_LABELS:
    case TRAILER_LABELS:
        return put_numbered(out, walk, element);
    default:
        return false;
    }
}

static bool put_data_block(FILE *out, uint64_t length)
{
    enum { LEAST = 18, MOST = 20480 };
    if (length >= LEAST && length <= MOST)
        return false;
    fputs("a data block of ", out);
    print_counted(out, length, "byte", "bytes");
    fprintf(out, ", %s are the %s", grouped(length < LEAST ? LEAST : MOST),
            length < LEAST ? "least" : "most");
    return true;
}

static bool put_behind(FILE *out, const struct ansi_tape *tape)
{
    uint64_t behind = tape->count - tape->place;
    print_counted(out, behind, "element stands", "elements stand");
    fprintf(out, " behind the mark that ends the tape: %s", behind == 1 ? "" : "the first is ");
    put_element(out, &tape->elements[tape->place]);
    return true;
}

static bool put_wrong(FILE *out, const struct ansi_tape *tape, const struct walk *walk)
{
    const struct ansi_element *element = &tape->elements[tape->place];
    struct bytes block = element->block;
    if (walk->state == LAST_MARK)
        return put_behind(out, tape);
    if (walk->state == DATA_BLOCKS && element->kind != UNREADABLE_BLOCK)
        return element->kind == BLOCK && put_data_block(out, block.length);
    if (element->kind != BLOCK || !could_begin(walk->state, block))
        return put_expected(out, walk->state, element);
    if (block.length == ANSI_LABEL)
        return put_label(out, tape, walk, element);
    put_name(out, block);
    fputs(" has ", out);
    print_counted(out, block.length, "byte", "bytes");
    fputs(", a label has 80", out);
    return true;
}

/* ---- The words ---- */

static bool put_missing(FILE *out, const struct ansi_tape *tape, const struct walk *walk)
{
    if (walk->state == LAST_MARK)
        return false;
    fprintf(out, "the tape %s, %s is missing", tape->count == 0 ? "is empty" : "ends too early",
            followers[walk->state].missing);
    return true;
}

/* " (file 2, PAYROLL)": within a file the one it is, as the list numbers it. */
static void put_file(FILE *out, const struct ansi_tape *tape, const struct walk *walk)
{
    if (walk->state < HDR1 || walk->state > TRAILER_LABELS)
        return;
    struct bytes id = label_field(tape->elements[walk->hdr1].block, 5, 21);
    fprintf(out, " (file %" PRIu64 "%s", walk->files - 1, id.length > 0 ? ", " : "");
    print_bytes(out, id);
    fputc(')', out);
}

char *ansi_words(const struct ansi_tape *tape)
{
    struct walk walk = walk_to_place(tape);
    char *text = NULL;
    size_t length;
    FILE *out = open_memstream(&text, &length);
    if (out == NULL)
        return NULL;
    bool said = (tape->place < tape->count ? put_wrong : put_missing)(out, tape, &walk);
    if (said)
        put_file(out, tape, &walk);
    if (fclose(out) == 0 && said)
        return text;
    free(text);
    return NULL;
}

/* Where: an element, or behind the last. */
static void print_place(FILE *out, const struct ansi_tape *tape)
{
    if (tape->place < tape->count)
        fprintf(out, "element %" PRIu64, tape->place);
    else
        fprintf(out, "behind element %" PRIu64 ", the last", tape->count - 1);
}

void print_ansi_refusal(FILE *out, const struct ansi_tape *tape, const char *between)
{
    fprintf(out, "%srefused %" PRIu64 ": %s%s", colour_code(out, RED), tape->refusal,
            klapouzen_refusal_text(tape->refusal), colour_code(out, PLAIN));
    if (tape->refusal == KLAPOUZEN_BAD_LIST)
        return;
    fputs(between, out);
    char *words = ansi_words(tape);
    if (tape->count > 0)
        print_place(out, tape);
    fprintf(out, "%s%s", words == NULL || tape->count == 0 ? "" : ": ", words == NULL ? "" : words);
    free(words);
}
