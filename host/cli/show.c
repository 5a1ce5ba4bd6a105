/* klapouzen show: both partitions as a map. */
#include <inttypes.h>
#include <string.h>

#include "commands.h"
#include "common.h"
#include "layout.h"
#include "svg.h"
#include "words.h"

static const char help[] =
    "usage: klapouzen show [--all] [--svg FILE] DIR\n"
    "\n"
    "Draws both partitions of a cartridge: labels, data runs, index constructs with\n"
    "generation and back pointer, unreadable blocks, the first defect, and where the cut\n"
    "falls. In the bars L is a label construct, = data, I a sound index, ? an index run\n"
    "with none, X an unreadable block, ! the first defect; what a cut would drop is in\n"
    "small letters or -. An index that is not sound has its refusal beside it; klapouzen why\n"
    "says more of it.\n"
    "\n"
    "  --all       every run, and every stretch of unreadable blocks, also where there\n"
    "              are many\n"
    "  --svg FILE  also writes the map as a picture to a new file\n"
    "  --help      this text\n"
    "\n"
    "Exit status: 0 drawn, 1 the labels are refused, 2 bad use or a file that can't be\n"
    "read or written.\n";

/* ---- The bar ---- */

enum { BAR = 72 };

/* Unreadable blocks are drawn over the run that they lie in, and the first defect over everything. */
enum { LOOKS_UNREADABLE = LOOKS_UNSOUND + 1, LOOKS_DEFECT };

static const struct mark {
    char kept, dropped;
    enum colour colour;
} marks[] = {
    [LOOKS_DATA] = { '=', '-', BLUE },      [LOOKS_LABELS] = { 'L', 'l', CYAN },
    [LOOKS_INDEX] = { 'I', 'i', GREEN },    [LOOKS_UNSOUND] = { '?', '?', YELLOW },
    [LOOKS_UNREADABLE] = { 'X', 'x', ON_RED }, [LOOKS_DEFECT] = { '!', '!', RED },
};

/* Sets the colour of a mark; what is dropped has it too, dimmed. */
static void set_colour(const struct mark *mark, bool is_kept)
{
    fputs(is_kept ? "" : colour_code(stdout, DIM), stdout);
    fputs(colour_code(stdout, mark->colour), stdout);
}

/* The highest look of the segments within elements from..to. */
static int look_between(const struct layout *layout, uint64_t from, uint64_t to)
{
    enum look highest = LOOKS_DATA;
    for (size_t i = 0; i < layout->count; i++) {
        const struct segment *segment = &layout->segments[i];
        bool within = segment->first < to && segment->first + segment->elements > from;
        if (within && look_of(segment) > highest)
            highest = look_of(segment);
    }
    bool defect = layout->defect.what != NULL && layout->defect.element >= from
        && layout->defect.element < to;
    if (defect)
        return LOOKS_DEFECT;
    return unreadable_between(layout, from, to) > 0 ? LOOKS_UNREADABLE : (int)highest;
}

static void print_bar(const struct layout *layout, uint64_t kept)
{
    uint64_t cells = layout->elements < BAR ? layout->elements : BAR;
    if (cells == 0)
        return;
    fputs("  [", stdout);
    for (uint64_t cell = 0; cell < cells; cell++) {
        uint64_t from = cell * layout->elements / cells, to = (cell + 1) * layout->elements / cells;
        const struct mark *mark = &marks[look_between(layout, from, to)];
        bool is_kept = from < kept;
        set_colour(mark, is_kept);
        printf("%c%s", is_kept ? mark->kept : mark->dropped, colour_code(stdout, PLAIN));
    }
    puts("]");
}

/* ---- The lines ---- */

static void print_index_refusal(const struct segment *segment)
{
    fputs(colour_code(stdout, RED), stdout);
    print_text_refusal(stdout, &segment->refused);
    fputs(colour_code(stdout, PLAIN), stdout);
    if (segment->refused.number != KLAPOUZEN_UNREADABLE_BLOCK)
        return;
    printf(", %s of ", grouped(segment->unreadable));
    print_counted(stdout, segment->blocks, "block", "blocks");
}

static void print_index(const struct segment *segment)
{
    const uint64_t *header = segment->header;
    if (segment->refused.number != 0) {
        print_index_refusal(segment);
        return;
    }
    printf("generation %" PRIu64 ", ", header[KLAPOUZEN_INDEX_GENERATION]);
    if (header[KLAPOUZEN_INDEX_HAS_BACK])
        printf("points back to %c %" PRIu64, (char)header[KLAPOUZEN_INDEX_BACK_LETTER],
               header[KLAPOUZEN_INDEX_BACK_BLOCK]);
    else
        fputs("no back pointer", stdout);
    fputs(", ", stdout);
    print_counted(stdout, header[KLAPOUZEN_INDEX_FILES], "file", "files");
}

static void print_blocks(const char *what, const struct segment *segment)
{
    printf("%-9s  ", what);
    print_counted(stdout, segment->blocks, "block", "blocks");
    fputs(", ", stdout);
    if (segment->unreadable > 0)
        printf("%s unreadable, ", grouped(segment->unreadable));
    print_counted(stdout, segment->bytes, "byte", "bytes");
}

static void print_what(const struct layout *layout, const struct segment *segment)
{
    char name[32];
    snprintf(name, sizeof name, "index %" PRIu64, segment->construct);
    if (segment->kind == LABELS && layout->has_labels) {
        fputs("labels     VOL1 and LTFS label", stdout);
    } else if (segment->kind != INDEX_RUN) {
        print_blocks(segment->kind == LABELS ? "labels?" : "data", segment);
    } else if (!segment->stands) {
        print_blocks("index run", segment);
        fputs(segment->is_closed ? "" : ", no closing mark", stdout);
    } else {
        printf("%-9s  ", name);
        print_index(segment);
    }
}

static void print_range(uint64_t first, uint64_t elements)
{
    char range[48];
    if (elements == 1)
        snprintf(range, sizeof range, "%" PRIu64, first);
    else
        snprintf(range, sizeof range, "%" PRIu64 "-%" PRIu64, first, first + elements - 1);
    printf("  %11s  ", range);
}

enum { FEW_STRETCHES = 8 };

/* The unreadable blocks of a run: where there are many stretches of them, the first ones. */
static void print_stretches(const struct layout *layout, const struct segment *segment, bool all)
{
    uint64_t left = segment->unreadable;
    for (size_t i = 0; i < segment->stretches && (all || i < FEW_STRETCHES); i++) {
        const struct stretch *stretch = &layout->stretches[segment->first_stretch + i];
        print_range(stretch->first, stretch->blocks);
        printf("%sunreadable%s ", colour_code(stdout, ON_RED), colour_code(stdout, PLAIN));
        print_counted(stdout, stretch->blocks, "block", "blocks");
        putchar('\n');
        left -= stretch->blocks;
    }
    if (left == 0)
        return;
    printf("%s  %11s  unreadable ", colour_code(stdout, DIM), "...");
    print_counted(stdout, left, "block", "blocks");
    printf(" more; --all shows them%s\n", colour_code(stdout, PLAIN));
}

static void print_segment(const struct layout *layout, const struct segment *segment, bool is_kept,
                          bool all)
{
    set_colour(&marks[look_of(segment)], is_kept);
    print_range(segment->first, segment->elements);
    print_what(layout, segment);
    printf("%s\n", colour_code(stdout, PLAIN));
    print_stretches(layout, segment, all);
    if (layout->defect.what != NULL && is_within(segment, layout->defect.element))
        printf("%s  %11" PRIu64 "  defect     %s%s\n", colour_code(stdout, RED),
               layout->defect.element, layout->defect.what, colour_code(stdout, PLAIN));
}

static void print_cut_line(uint64_t kept, uint64_t elements)
{
    printf("%s  ---- cut: %s kept, %s dropped ----%s\n", colour_code(stdout, MAGENTA), grouped(kept),
           grouped(elements - kept), colour_code(stdout, PLAIN));
}

/* ---- Long partitions ---- */

enum { FEW = 60, NEAR = 8 };

/* Whether a run near this one has the element. */
static bool is_near(const struct layout *layout, size_t i, uint64_t element)
{
    size_t from = i > NEAR ? i - NEAR : 0, to = i + NEAR;
    for (size_t other = from; other <= to && other < layout->count; other++)
        if (is_within(&layout->segments[other], element))
            return true;
    return false;
}

/* Where there are many runs: the first, the last, and those at the cut and the defect. */
static bool is_shown(const struct layout *layout, size_t i, uint64_t kept, bool all)
{
    return all || layout->count <= FEW || i < NEAR || i + NEAR >= layout->count
        || is_near(layout, i, kept)
        || (layout->defect.what != NULL && is_near(layout, i, layout->defect.element));
}

/* How many runs from i on are left out. */
static size_t count_left_out(const struct layout *layout, size_t i, uint64_t kept)
{
    size_t count = 0;
    while (i + count < layout->count && !is_shown(layout, i + count, kept, false))
        count++;
    return count;
}

/* How many index runs that are not sound have each refusal; those with none do not stand. */
struct unsound {
    size_t all, by_refusal[KLAPOUZEN_UNREADABLE_BLOCK + 1];
};

static void count_unsound(struct unsound *unsound, const struct segment *segments, size_t count)
{
    for (size_t i = 0; i < count; i++) {
        if (look_of(&segments[i]) != LOOKS_UNSOUND)
            continue;
        unsound->all++;
        unsound->by_refusal[segments[i].refused.number]++;
    }
}

/* "2 refused 4, 1 refused 19, 3 do not stand" */
static void print_unsound(const struct unsound *unsound)
{
    const char *between = "";
    for (int refusal = 1; refusal <= KLAPOUZEN_UNREADABLE_BLOCK; refusal++) {
        if (unsound->by_refusal[refusal] == 0)
            continue;
        printf("%s%s refused %d", between, grouped(unsound->by_refusal[refusal]), refusal);
        between = ", ";
    }
    if (unsound->by_refusal[0] == 0)
        return;
    fputs(between, stdout);
    print_counted(stdout, unsound->by_refusal[0], "does not stand", "do not stand");
}

/* The runs from i on that are left out; answers how many. */
static size_t print_left_out(const struct layout *layout, size_t i, uint64_t kept)
{
    size_t count = count_left_out(layout, i, kept);
    const struct segment *first = &layout->segments[i], *last = first + count - 1;
    uint64_t unreadable = unreadable_between(layout, first->first, last->first + last->elements);
    struct unsound unsound = { 0 };
    count_unsound(&unsound, first, count);
    printf("%s  %11s  ", colour_code(stdout, DIM), "...");
    print_counted(stdout, count, "run", "runs");
    fputs(" more", stdout);
    if (unsound.all > 0) {
        printf(", %s of them not sound: ", grouped(unsound.all));
        print_unsound(&unsound);
    }
    if (unreadable > 0) {
        fputs(unsound.all > 0 ? "; " : ", ", stdout);
        print_counted(stdout, unreadable, "unreadable block", "unreadable blocks");
    }
    printf("; --all shows them%s\n", colour_code(stdout, PLAIN));
    return count;
}

/* ---- A side ---- */

static void print_side_head(const struct volume *volume, const struct assessment *found,
                            const struct layout *layout, int side)
{
    printf("\n%s%s partition%s", colour_code(stdout, BOLD), volume->sides[side].name,
           colour_code(stdout, PLAIN));
    if (layout->has_labels)
        printf(" %c", found->label.letters[side]);
    fputs(": ", stdout);
    print_counted(stdout, layout->elements, "element", "elements");
    fputs(", ", stdout);
    print_counted(stdout, volume->sides[side].store.length, "byte", "bytes");
    if (layout->unreadable > 0) {
        printf(", %s", colour_code(stdout, RED));
        print_counted(stdout, layout->unreadable, "unreadable block", "unreadable blocks");
        fputs(colour_code(stdout, PLAIN), stdout);
    }
    putchar('\n');
}

static void print_segments(const struct layout *layout, uint64_t kept, bool all)
{
    for (size_t i = 0; i < layout->count; i++) {
        const struct segment *segment = &layout->segments[i];
        if (segment->first == kept)
            print_cut_line(kept, layout->elements);
        if (is_shown(layout, i, kept, all))
            print_segment(layout, segment, segment->first < kept, all);
        else
            i += print_left_out(layout, i, kept) - 1;
    }
}

static void print_labels(const struct label *label)
{
    fputs(colour_code(stdout, BOLD), stdout);
    print_bytes(stdout, label->identifier);
    printf("%s  ", colour_code(stdout, PLAIN));
    print_bytes(stdout, label->uuid);
    if (has_two_spellings(label)) {
        fputs("\nUUID     ", stdout);
        print_bytes(stdout, label->data_uuid);
        fputs(" on the data partition's label, spelled differently", stdout);
    }
    printf("\nformat   2.0.%" PRIu64 ", ", label->release);
    print_bytes(stdout, label->time);
    fputs(", by ", stdout);
    print_spelled(stdout, label->creator);
    printf("\nblocks   %s bytes, compression %s\n", grouped(label->block_size),
           label->compression ? "on" : "off");
}

/* Where a text that is refused is looked at. */
static void print_see_why(const struct volume *volume)
{
    fputs("; see klapouzen why ", stdout);
    print_bytes(stdout, bytes_of(volume->folder));
}

/* The indexes that stand and are not sound, where there are any. */
static void print_unsound_indexes(const struct volume *volume, const struct layout layouts[2])
{
    struct unsound unsound = { 0 };
    for (int side = INDEX; side <= DATA; side++)
        count_unsound(&unsound, layouts[side].segments, layouts[side].count);
    size_t standing = unsound.all - unsound.by_refusal[0];
    unsound.by_refusal[0] = 0;
    if (standing == 0)
        return;
    putchar('\n');
    print_counted(stdout, standing, "index is not sound: ", "indexes are not sound: ");
    print_unsound(&unsound);
    print_see_why(volume);
    putchar('\n');
}

static void print_head(const struct volume *volume, const struct assessment *found)
{
    print_bytes(stdout, bytes_of(volume->folder));
    putchar('\n');
    if (found->refusal != 0) {
        print_refusal(stdout, TO_TERMINAL, volume, found->refusal);
        if (found->refusal == KLAPOUZEN_BAD_FORM)
            print_see_why(volume);
        putchar('\n');
        return;
    }
    print_labels(&found->label);
    fputs("verdict  ", stdout);
    print_outcome(stdout, volume, found);
    fputs("\ncut      ", stdout);
    print_cut(stdout, found);
    putchar('\n');
}

struct wish {
    const char *picture;
    bool all;
};

static int show(const struct volume *volume, const void *data)
{
    const struct wish *wish = data;
    struct assessment found;
    struct layout layouts[2];
    assess(volume, &found);
    for (int side = INDEX; side <= DATA; side++)
        layout_read(&layouts[side], volume, &found, side);
    bool drawn = wish->picture == NULL || write_svg(wish->picture, volume, &found, layouts);
    print_head(volume, &found);
    for (int side = INDEX; side <= DATA; side++) {
        uint64_t kept = kept_elements(&found, side);
        print_side_head(volume, &found, &layouts[side], side);
        print_bar(&layouts[side], kept);
        print_segments(&layouts[side], kept, wish->all);
    }
    print_unsound_indexes(volume, layouts);
    for (int side = INDEX; side <= DATA; side++)
        layout_free(&layouts[side]);
    return !drawn ? FAILED : found.refusal != 0 ? NOT_SO : DONE;
}

int run_show(struct words *words)
{
    struct wish wish = { .picture = NULL };
    const struct option options[] = {
        { "svg", &wish.picture, NULL }, { "all", NULL, &wish.all }, { NULL, NULL, NULL },
    };
    int status = take_words(words, options, help, 1, "one folder wanted");
    return status == GO_ON ? on_volume(words->words[0], show, &wish) : status;
}
