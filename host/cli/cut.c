/* klapouzen cut: the kept fronts, written to a new folder. */
#include "assess.h"
#include "commands.h"
#include "common.h"
#include "draft.h"
#include "signals.h"
#include "words.h"

static const char help[] =
    "usage: klapouzen cut [--keep-index N] [--keep-data N] DIR OUT\n"
    "\n"
    "Writes the longest consistent fronts of both partitions to a new folder OUT:\n"
    "index.list, index.store, data.list and data.store. Nothing is written where there\n"
    "is no cut, where OUT is there already, or where writing fails or is interrupted.\n"
    "\n"
    "With a number, cuts where it is told and says what that leaves, consistent or not:\n"
    "the first N elements of that side, all if it has no more, and all of a side without\n"
    "a number. Only the lists have to be well formed. What was cut can be cut again: N\n"
    "elements and then M are the smaller of the two, byte for byte.\n"
    "\n"
    "  --keep-index N  how many elements of the index side to keep: the number that\n"
    "                  show gives the first one to be dropped\n"
    "  --keep-data N   the same of the data side\n"
    "  --help          this text\n"
    "\n"
    "Exit status: 0 written, 1 the volume is refused or has no cut, 2 bad use or a file\n"
    "that can't be read or written.\n";

struct wish {
    const char *out;
    bool is_told;     /* where to cut; else the rescue is asked */
    uint64_t keep[2]; /* elements of each side */
};

/* ---- What is left ---- */

static struct side front_of(const struct side *side, uint64_t elements)
{
    uint64_t kept[KLAPOUZEN_KEPT];
    klapouzen_keep(SIDE(side), elements, kept);
    return (struct side){
        .name = side->name,
        .list = part_of(side->list, 0, kept[KLAPOUZEN_KEPT_LIST]),
        .store = part_of(side->store, 0, kept[KLAPOUZEN_KEPT_STORE]),
    };
}

static struct volume fronts_of(const struct volume *volume, const uint64_t keep[2],
                               const char *folder)
{
    return (struct volume){
        .folder = folder,
        .sides = {
            front_of(&volume->sides[INDEX], keep[INDEX]),
            front_of(&volume->sides[DATA], keep[DATA]),
        },
    };
}

static bool write_fronts(const struct volume *left)
{
    struct draft draft;
    if (!draft_begin_folder(&draft, left->folder))
        return false;
    if (draft_add_sides(&draft, left->sides))
        return draft_finish(&draft);
    draft_drop(&draft);
    return false;
}

/* ---- What is said ---- */

static void print_left(const struct volume *left, const uint64_t elements[2])
{
    struct assessment found;
    assess(left, &found);
    print_kept(stdout, found.elements, elements);
    fputs("; ", stdout);
    print_outcome(stdout, left, &found);
}

static void print_done(const struct volume *left, bool is_told, const struct assessment *found)
{
    print_bytes(stdout, bytes_of(left->folder));
    fputs("  ", stdout);
    if (is_told)
        print_left(left, found->elements);
    else
        print_cut_clause(stdout, found);
    putchar('\n');
    fflush(stdout);
}

/* ---- The command ---- */

/* Where the rescue cuts; false, and said why, where it doesn't. */
static bool ask_rescue(const struct volume *volume, struct assessment *found, uint64_t keep[2])
{
    assess(volume, found);
    uint64_t refusal = found->refusal != 0 ? found->refusal : found->has_cut ? 0 : KLAPOUZEN_NO_CUT;
    if (refusal != 0)
        complain_refusal(volume, refusal);
    for (int side = INDEX; side <= DATA; side++)
        keep[side] = kept_elements(found, side);
    return refusal == 0;
}

/* Whether both lists can be cut anywhere; says why not. */
static bool are_lists(const struct volume *volume, struct assessment *found)
{
    assess_lists(volume, found);
    bool malformed = found->malformed[INDEX] || found->malformed[DATA];
    if (malformed)
        complain_list(volume);
    return !malformed;
}

static int cut(const struct volume *volume, const void *given)
{
    struct wish wish = *(const struct wish *)given;
    struct assessment found;
    if (wish.is_told ? !are_lists(volume, &found) : !ask_rescue(volume, &found, wish.keep))
        return NOT_SO;
    const struct volume left = fronts_of(volume, wish.keep, wish.out);
    /* A folder that is there is said to be there, whatever signal comes. */
    hold_signals();
    bool written = write_fronts(&left);
    if (written)
        print_done(&left, wish.is_told, &found);
    release_signals();
    return written ? DONE : FAILED;
}

int run_cut(struct words *words)
{
    const char *keep[2] = { NULL, NULL };
    const struct option options[] = {
        { "keep-index", &keep[INDEX], NULL },
        { "keep-data", &keep[DATA], NULL },
        { NULL, NULL, NULL },
    };
    int status = take_words(words, options, help, 2, "a folder and a new folder wanted");
    if (status != GO_ON)
        return status;
    struct wish wish = {
        .out = words->words[1],
        .is_told = keep[INDEX] != NULL || keep[DATA] != NULL,
        .keep = { UINT64_MAX, UINT64_MAX }, /* all */
    };
    for (int side = INDEX; side <= DATA; side++)
        if (keep[side] != NULL && !read_number(keep[side], &wish.keep[side]))
            return bad_use(help, "not a number of elements", keep[side]);
    return on_volume(words->words[0], cut, &wish);
}
