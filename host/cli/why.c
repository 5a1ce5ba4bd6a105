/* klapouzen why: what is refused of a cartridge, and where. */
#include <inttypes.h>
#include <stdlib.h>

#include "assessed.h"
#include "chosen.h"
#include "commands.h"
#include "common.h"
#include "finding.h"
#include "words.h"

static const char help[] =
    "usage: klapouzen why [--construct N] [--data] [--json] DIR\n"
    "\n"
    "Says of each label that is refused, and of each index that is not sound, which refusal\n"
    "it is and as much of the reason as is known. Of a text that is not in the XML form that\n"
    "is the first byte that can't stand where it does, or that the text ends too early: its\n"
    "line, with a caret under the place; line and column, from 1, a column being a\n"
    "character; and the byte, from 0, of the text, of the block and of the store. Without\n"
    "labels that agree no index is read.\n"
    "\n"
    "  --construct N  index construct N of the index partition alone, from 0, also where it\n"
    "                 is sound\n"
    "  --data         of the data partition, and not of the index partition; without\n"
    "                 --construct all of that partition's\n"
    "  --json         one object a line, for each label and index that would be told of\n"
    "  --help         this text\n"
    "\n"
    "Exit status: 0 nothing is refused, 1 something is, 2 bad use or a file that can't be\n"
    "read.\n";

struct wish {
    struct choice choice;
    uint64_t construct; /* where one is chosen */
    bool json;
};

static bool is_one(const struct wish *wish)
{
    return wish->choice.construct != NULL;
}

/* Whether more is told than the findings. */
static bool has_summary(const struct wish *wish)
{
    return !wish->json && !is_one(wish);
}

static void tell(const struct finding *finding, bool json)
{
    (json ? print_json_finding : print_finding)(finding);
    /* What is on the index side may be an ANSI labelled tape. */
    if (json && finding->row == NULL && finding->side == INDEX)
        print_json_ansi(finding->volume, finding->refused.number);
    puts(json ? "}" : "");
}

/* ---- Labels ---- */

static bool tell_side_labels(const struct volume *volume, int side, bool json)
{
    struct finding finding = { .volume = volume, .side = side, .refused = labels_refused(&volume->sides[side]) };
    if (finding.refused.number != 0)
        tell(&finding, json);
    return finding.refused.number != 0;
}

/* Those of each side; where neither is refused by itself they disagree. */
static void tell_labels(const struct volume *volume, uint64_t refusal, bool json)
{
    bool index = tell_side_labels(volume, INDEX, json), data = tell_side_labels(volume, DATA, json);
    struct finding both = { .volume = volume, .side = BOTH, .refused.number = refusal };
    if (!index && !data)
        tell(&both, json);
    if (!json)
        puts("no index is read: the labels are refused");
}

static int why_refused(const struct volume *volume, uint64_t refusal, bool json)
{
    struct ansi_tape tape;
    if (json || !is_ansi(volume, refusal, &tape)) {
        tell_labels(volume, refusal, json);
        return NOT_SO;
    }
    ansi_close(&tape);
    print_refusal(stdout, TO_TERMINAL, volume, refusal);
    putchar('\n');
    return NOT_SO;
}

/* ---- Indexes ---- */

/* A side with its constructs and its unreadable blocks. */
struct partition {
    const struct volume *volume;
    const struct label *label;
    int side;
    uint64_t unsound; /* indexes that were told of */
    struct unreadable unreadable;
    struct constructs standing;
};

/* Tells of an index that is not sound, and of one that is chosen; answers whether it is sound. */
static bool tell_index(const struct partition *partition, uint64_t number, const struct wish *wish)
{
    const uint32_t *row = construct_row(&partition->standing, number);
    struct place place = construct_place(partition->volume, partition->label, partition->side, row);
    struct finding finding = {
        .volume = partition->volume, .side = partition->side, .refused = index_refused(partition->label, &place),
        .row = row, .construct = number, .label = partition->label, .unreadable = &partition->unreadable,
    };
    if (finding.refused.number != 0 || is_one(wish))
        tell(&finding, wish->json);
    return finding.refused.number == 0;
}

static int tell_one(struct partition *partition, const struct wish *wish)
{
    if (wish->construct < partition->standing.count)
        return tell_index(partition, wish->construct, wish) ? DONE : NOT_SO;
    complain_construct(partition->volume, partition->side, wish->construct, KLAPOUZEN_MISSING);
    return NOT_SO;
}

/* Every second mark behind the labels begins one. */
static uint64_t count_index_runs(struct bytes list)
{
    uint64_t elements = 0, marks = 0;
    while (list.length > 0) {
        bool is_mark = take_element(&list).kind == MARK;
        marks += is_mark && elements >= LABEL_ELEMENTS;
        elements++;
    }
    return (marks + 1) / 2;
}

/* "index partition: 1 of 3 indexes is not sound; 1 index run does not stand" */
static void print_summary(const struct partition *partition)
{
    const struct side *tape = &partition->volume->sides[partition->side];
    uint64_t count = partition->standing.count, unsound = partition->unsound;
    uint64_t others = count_index_runs(tape->list) - count;
    printf("%s partition: ", tape->name);
    if (count == 0)
        fputs("no index stands", stdout);
    else if (count == 1)
        printf("its index is %ssound", unsound > 0 ? "not " : "");
    else if (unsound == 0)
        printf("all %s indexes are sound", grouped(count));
    else
        printf("%s of %s indexes %s not sound", grouped(unsound), grouped(count), unsound == 1 ? "is" : "are");
    if (others > 0) {
        fputs("; ", stdout);
        print_counted(stdout, others, "index run does not stand", "index runs do not stand");
    }
    putchar('\n');
}

static int tell_all(struct partition *partition, const struct wish *wish)
{
    for (uint64_t number = 0; number < partition->standing.count; number++)
        partition->unsound += !tell_index(partition, number, wish);
    return partition->unsound == 0 ? DONE : NOT_SO;
}

static struct partition *partition_read(const struct volume *volume, const struct label *label, int side)
{
    struct partition *partition = allocate(sizeof *partition);
    partition->volume = volume;
    partition->label = label;
    partition->side = side;
    partition->unsound = 0;
    partition->unreadable = unreadable_read(volume->sides[side].list);
    read_constructs(&volume->sides[side], label->block_size, &partition->standing);
    return partition;
}

static void partition_free(struct partition *partition)
{
    unreadable_free(&partition->unreadable);
    free(partition);
}

/* ---- The command ---- */

static int why_unsound(const struct volume *volume, const struct label *label, const struct wish *wish)
{
    int first = wish->choice.on_data ? DATA : INDEX, last = is_one(wish) ? first : DATA, status = DONE;
    struct partition *partitions[2];
    for (int side = first; side <= last; side++) {
        partitions[side] = partition_read(volume, label, side);
        if ((is_one(wish) ? tell_one : tell_all)(partitions[side], wish) != DONE)
            status = NOT_SO;
    }
    for (int side = first; side <= last; side++) {
        if (has_summary(wish))
            print_summary(partitions[side]);
        partition_free(partitions[side]);
    }
    return status;
}

static int why(const struct volume *volume, const void *data)
{
    const struct wish *wish = data;
    struct assessment found;
    assess(volume, &found);
    if (found.refusal != 0)
        return why_refused(volume, found.refusal, wish->json);
    int status = why_unsound(volume, &found.label, wish);
    if (has_summary(wish)) {
        fputs("verdict: ", stdout);
        print_outcome(stdout, volume, &found);
        putchar('\n');
    }
    return status;
}

int run_why(struct words *words)
{
    struct wish wish = { .json = false };
    const struct option options[] = {
        CHOICE_OPTIONS(wish.choice), { "json", NULL, &wish.json }, { NULL, NULL, NULL },
    };
    int status = take_words(words, options, help, 1, "one folder wanted");
    if (status != GO_ON)
        return status;
    if (is_one(&wish) && !read_number(wish.choice.construct, &wish.construct))
        return bad_use(help, "not a construct number", wish.choice.construct);
    return on_volume(words->words[0], why, &wish);
}
