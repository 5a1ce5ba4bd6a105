/* klapouzen check: a line for each cartridge, and a summary. */
#include "assessed.h"
#include "commands.h"
#include "common.h"
#include "progress.h"
#include "words.h"

static const char help[] =
    "usage: klapouzen check [--json] DIR..\n"
    "\n"
    "Judges each cartridge: its volume identifier and UUID, whether it is consistent,\n"
    "and after which elements its partitions can be cut. A cartridge is a folder with\n"
    "index.list, index.store, data.list and data.store; a missing file counts as empty.\n"
    "The UUID is printed as the index partition's label spells it; labels and indexes that\n"
    "spell it with capitals or without are of one volume all the same. Of a text that is not\n"
    "in the XML form byte, line and column are told; klapouzen why shows the place.\n"
    "An ANSI labelled tape on the index side is refused as no LTFS volume, but named: see\n"
    "klapouzen ansi. Blocks that the drive could not read are counted for each side; a\n"
    "cartridge can be consistent all the same, where nothing that counts is on them.\n"
    "\n"
    "  --json  one object a line, and no summary\n"
    "  --help  this text\n"
    "\n"
    "Exit status: 0 all are consistent, 1 some are not, 2 bad use or a file that\n"
    "can't be read.\n";

/* An ANSI labelled tape is refused too, as no LTFS volume. */
enum outcome { CONSISTENT, CUTTABLE, NO_CUT, REFUSED, LABELLED, UNREADABLE, OUTCOMES };

static enum outcome refused_outcome(const struct volume *volume, uint64_t refusal)
{
    struct ansi_tape tape;
    if (!is_ansi(volume, refusal, &tape))
        return REFUSED;
    ansi_close(&tape);
    return LABELLED;
}

static enum outcome outcome_of(const struct volume *volume, const struct assessment *found)
{
    if (found->refusal != 0)
        return refused_outcome(volume, found->refusal);
    if (is_consistent(found))
        return CONSISTENT;
    return found->has_cut ? CUTTABLE : NO_CUT;
}

/* ---- The command ---- */

static void print_unreadable(const char *folder)
{
    putchar('{');
    print_json_name(stdout, "folder", bytes_of(folder));
    fputs(",\"verdict\":\"unreadable\"}\n", stdout);
}

/* How many cartridges came to each outcome, and how many have unreadable blocks, which is no outcome. */
struct tally {
    int outcomes[OUTCOMES];
    int holed;
};

static enum outcome check_one(const char *folder, bool json, struct tally *tally)
{
    struct volume volume;
    struct assessment found;
    if (!volume_open(&volume, folder)) {
        if (json)
            print_unreadable(folder);
        return UNREADABLE;
    }
    assess(&volume, &found);
    clear_progress();
    (json ? print_assessed_json : print_assessed)(&volume, &found);
    putchar('\n');
    tally->holed += has_unreadable(&found);
    enum outcome outcome = outcome_of(&volume, &found);
    volume_close(&volume);
    return outcome;
}

static void print_summary(const struct tally *tally, int all)
{
    const int *counts = tally->outcomes;
    int labelled = counts[LABELLED];
    printf("%d cartridge%s: %d consistent, %d to cut, %d without a cut, %d refused, %d unreadable",
           all, all == 1 ? "" : "s", counts[CONSISTENT], counts[CUTTABLE], counts[NO_CUT],
           counts[REFUSED] + labelled, counts[UNREADABLE]);
    if (labelled > 0)
        printf("; %d of the refused %s", labelled,
               labelled == 1 ? "is an ANSI labelled tape" : "are ANSI labelled tapes");
    if (tally->holed > 0)
        printf("; %d of all with unreadable blocks", tally->holed);
    putchar('\n');
}

int run_check(struct words *words)
{
    bool json = false;
    const struct option options[] = { { "json", NULL, &json }, { NULL, NULL, NULL } };
    int status = take_options(words, options, help);
    if (status != GO_ON)
        return status;
    if (words->count == 0)
        return bad_use(help, "no folder given", "");
    struct tally tally = { .holed = 0 };
    for (int i = 0; i < words->count; i++) {
        show_progress(i, words->count);
        tally.outcomes[check_one(words->words[i], json, &tally)]++;
    }
    clear_progress();
    if (!json)
        print_summary(&tally, words->count);
    if (tally.outcomes[UNREADABLE] > 0)
        return FAILED;
    return tally.outcomes[CONSISTENT] == words->count ? DONE : NOT_SO;
}
