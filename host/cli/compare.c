/* klapouzen compare: two reads of one tape, where they differ and which one rescues more. */
#include <inttypes.h>
#include <string.h>
#include <strings.h>
#include <sys/stat.h>

#include "assessed.h"
#include "commands.h"
#include "common.h"
#include "reads.h"
#include "words.h"

static const char help[] =
    "usage: klapouzen compare [--json] OLD NEW\n"
    "\n"
    "Compares two reads of one tape, a first one in the folder OLD and a second one in the\n"
    "folder NEW. Says of each side whether both are the same, which one goes on behind the\n"
    "other's last element, or which element differs first, counted from 0, and how. Then\n"
    "whether one is the other continued, and which one rescues more: whose cut keeps more\n"
    "index constructs on the index side. Reads of two volumes are said to be that.\n"
    "\n"
    "NEW is OLD continued where each side of NEW begins with all of that side of OLD. Then\n"
    "every cut of OLD, wherever it stops the two sides, is one of NEW. Elements behind OLD's\n"
    "end are read on, unreadable blocks too; one that OLD could not read and NEW could is a\n"
    "difference. Where neither is the other continued, NEW may have all that OLD's cut keeps\n"
    "nevertheless: no element differs before the cut ends.\n"
    "\n"
    "In both cases a second read never hurts: where OLD can be cut NEW can be, and its cut\n"
    "is the same, or it keeps more index constructs on the index side. Not promised is that\n"
    "it keeps as many elements of the data side or has as high a generation: the later index\n"
    "may point at an earlier one of the data side. Where it is so that is said, and how to\n"
    "make OLD's cut of NEW. Where an element differs before OLD's cut ends, nothing is\n"
    "promised.\n"
    "\n"
    "  --json  one object\n"
    "  --help  this text\n"
    "\n"
    "Exit status: 0 all of OLD is in NEW: both are the same, or NEW is OLD continued; 1 it is\n"
    "not, or a list is malformed; 2 bad use, one folder given twice too, or a file that\n"
    "can't be read.\n";

static const char *const names[] = { [OLD] = "OLD", [NEW] = "NEW" };
static const char *const keys[] = { [OLD] = "old", [NEW] = "new" };

/* The two reads, and what was found of each and of both. */
struct reads {
    const struct volume *volumes[2];
    struct assessment found[2];
    struct comparison sides[2]; /* index, data */
    enum relation relation;
};

/* ---- What is found ---- */

static void compare_reads(struct reads *reads)
{
    const struct assessment *found = reads->found;
    assess(reads->volumes[OLD], &reads->found[OLD]);
    assess(reads->volumes[NEW], &reads->found[NEW]);
    for (int side = INDEX; side <= DATA; side++) {
        if (found[OLD].malformed[side] || found[NEW].malformed[side])
            reads->sides[side] = (struct comparison){ .relation = MALFORMED };
        else
            reads->sides[side] = compare_side(&reads->volumes[OLD]->sides[side], &reads->volumes[NEW]->sides[side]);
    }
    reads->relation = joined(reads->sides[INDEX].relation, reads->sides[DATA].relation);
}

/* Whether the labels of both could be read, so that it is known of which volume they are. */
static bool are_labelled(const struct reads *reads)
{
    return reads->found[OLD].refusal == 0 && reads->found[NEW].refusal == 0;
}

/* Of labelled ones. A UUID is the same in capitals. */
static bool are_one_volume(const struct reads *reads)
{
    const struct label *old = &reads->found[OLD].label, *new = &reads->found[NEW].label;
    return are_same(old->identifier, new->identifier)
        && strncasecmp((const char *)old->uuid.start, (const char *)new->uuid.start, old->uuid.length) == 0;
}

/* How many index constructs the cut keeps on the index side; 0 where there is none. */
static uint64_t rescued(const struct assessment *found)
{
    return found->has_cut ? found->cut[KLAPOUZEN_CUT_INDEX_CONSTRUCT] + 1 : 0;
}

/* Whether the other read has all that the cut of this one keeps: nothing differs before it ends. */
static bool is_cut_in_other(const struct reads *reads, int read)
{
    const struct assessment *found = &reads->found[read];
    bool is_kept = found->has_cut;
    for (int side = INDEX; side <= DATA; side++)
        is_kept = is_kept && kept_elements(found, side) <= reads->sides[side].common;
    return is_kept;
}

enum { NEITHER = -1 };

/* OLD, NEW or NEITHER. */
static int rescues_more(const struct reads *reads)
{
    uint64_t old = rescued(&reads->found[OLD]), new = rescued(&reads->found[NEW]);
    return old == new ? NEITHER : old > new ? OLD : NEW;
}

/* ---- Sides ---- */

static void print_element(const struct element *element)
{
    if (element->kind != BLOCK) {
        fputs(element->kind == MARK ? "a mark" : "an unreadable block", stdout);
        return;
    }
    fputs("a block of ", stdout);
    print_counted(stdout, element->length, "byte", "bytes");
}

static void print_first(const struct comparison *found)
{
    printf("differs first at element %" PRIu64 ": ", found->common);
    if (differs_in_bytes(found)) {
        print_element(&found->first[OLD]);
        printf(" in both, its bytes differ from byte %" PRIu64 " on", found->byte);
        return;
    }
    fputs("OLD has ", stdout);
    print_element(&found->first[OLD]);
    fputs(", NEW has ", stdout);
    print_element(&found->first[NEW]);
}

/* "; 3 of the 74 elements that both have differ: 2 unreadable in OLD alone, 1 in NEW alone" */
static void print_differing(const struct comparison *found)
{
    const uint64_t *alone = found->unreadable_alone;
    printf("; %s of the ", grouped(found->differing));
    print_counted(stdout, found->both, "element", "elements");
    printf(" that both have %s", found->differing == 1 ? "differs" : "differ");
    if (alone[OLD] > 0)
        printf(": %s unreadable in OLD alone", grouped(alone[OLD]));
    if (alone[NEW] > 0)
        printf(alone[OLD] > 0 ? ", %s in NEW alone" : ": %s unreadable in NEW alone", grouped(alone[NEW]));
}

static void print_difference(const struct reads *reads, int side)
{
    uint64_t old = reads->found[OLD].elements[side], new = reads->found[NEW].elements[side];
    print_first(&reads->sides[side]);
    print_differing(&reads->sides[side]);
    if (old == new)
        return;
    fputs("; OLD has ", stdout);
    print_counted(stdout, old, "element", "elements");
    printf(", NEW %s", grouped(new));
}

static void print_going_on(const struct reads *reads, int side, int longer)
{
    uint64_t both = reads->sides[side].both;
    printf("%s goes on: %s's ", names[longer], names[1 - longer]);
    print_counted(stdout, both, "element", "elements");
    printf(", then %s more", grouped(reads->found[longer].elements[side] - both));
}

static void print_malformed(const struct reads *reads, int side)
{
    bool old = reads->found[OLD].malformed[side], new = reads->found[NEW].malformed[side];
    printf("not compared: %s list is malformed or does not fit its store",
           old && new ? "each" : old ? "OLD's" : "NEW's");
}

static void print_side(const struct reads *reads, int side)
{
    fputs(side == INDEX ? "index side: " : "data side:  ", stdout);
    switch (reads->sides[side].relation) {
    case SAME:
        fputs("the same ", stdout);
        print_counted(stdout, reads->sides[side].both, "element", "elements");
        break;
    case NEW_CONTINUES_OLD:
        print_going_on(reads, side, NEW);
        break;
    case OLD_CONTINUES_NEW:
        print_going_on(reads, side, OLD);
        break;
    case DIFFERENT:
        print_difference(reads, side);
        break;
    case MALFORMED:
        print_malformed(reads, side);
    }
    putchar('\n');
}

/* ---- The whole ---- */

/* Of reads of two volumes: that they are, so that none is taken for the other. */
static void print_volumes(const struct reads *reads)
{
    if (!are_labelled(reads) || are_one_volume(reads))
        return;
    fputs(colour_code(stdout, RED), stdout);
    for (int read = OLD; read <= NEW; read++) {
        const struct label *label = &reads->found[read].label;
        printf("%s%s is ", read == OLD ? "two volumes: " : ", ", names[read]);
        print_bytes(stdout, label->identifier);
        putchar(' ');
        print_bytes(stdout, label->uuid);
    }
    printf("%s\n", colour_code(stdout, PLAIN));
}

static const char *kept_text(const struct reads *reads)
{
    bool old = is_cut_in_other(reads, OLD), new = is_cut_in_other(reads, NEW);
    if (old && new)
        return ", but each has all that the other's cut keeps";
    return old ? ", but NEW has all that OLD's cut keeps" : new ? ", but OLD has all that NEW's cut keeps" : "";
}

static void print_relation(const struct reads *reads)
{
    static const char *const texts[] = {
        [SAME] = "OLD and NEW are the same",
        [NEW_CONTINUES_OLD] = "NEW is OLD continued: every cut of OLD is one of NEW",
        [OLD_CONTINUES_NEW] = "OLD is NEW continued: every cut of NEW is one of OLD",
        [DIFFERENT] = "neither is the other continued",
        [MALFORMED] = "neither is known to be the other continued",
    };
    printf("%s%s\n", texts[reads->relation], reads->relation == DIFFERENT ? kept_text(reads) : "");
}

/* ---- The rescue ---- */

static void print_rescued(const struct reads *reads, int more)
{
    uint64_t most = rescued(&reads->found[more]), fewer = rescued(&reads->found[1 - more]);
    if (fewer == 0) {
        printf("only %s can be cut\n", names[more]);
        return;
    }
    printf("%s rescues more: ", names[more]);
    print_counted(stdout, most, "index construct", "index constructs");
    printf(", %s %s\n", names[1 - more], grouped(fewer));
}

static void print_rescued_alike(const struct reads *reads)
{
    uint64_t constructs = rescued(&reads->found[NEW]);
    fputs(constructs == 0 ? "neither can be cut" : "both rescue ", stdout);
    if (constructs > 0)
        print_counted(stdout, constructs, "index construct", "index constructs");
    putchar('\n');
}

/* Begins a clause on a cut; the first one names it. */
static void begin_clause(int read, bool *is_begun)
{
    if (*is_begun)
        fputs("; it ", stdout);
    else
        printf("%sbut %s's cut ", colour_code(stdout, YELLOW), names[read]);
    *is_begun = true;
}

/* Of the cut that rescues more a number that is less is told; where both rescue as many, any that differs. */
static bool is_told(int more, uint64_t number, uint64_t others)
{
    return more == NEITHER ? number != others : number < others;
}

/* "but NEW's cut keeps 26 elements of the data side, OLD's 71; it has generation 2, OLD's 4"; whether there is any. */
static bool print_caution(const struct reads *reads, int more)
{
    int read = more == OLD ? OLD : NEW, other = 1 - read;
    const struct assessment *found = reads->found;
    bool is_begun = false;
    for (int side = INDEX; side <= DATA; side++) {
        uint64_t kept = kept_elements(&found[read], side), others = kept_elements(&found[other], side);
        if (!is_told(more, kept, others))
            continue;
        begin_clause(read, &is_begun);
        fputs("keeps ", stdout);
        print_counted(stdout, kept, "element", "elements");
        printf(" of the %s side, %s's %s", side == INDEX ? "index" : "data", names[other], grouped(others));
    }
    uint64_t generation = found[read].cut[KLAPOUZEN_CUT_GENERATION];
    uint64_t others = found[other].cut[KLAPOUZEN_CUT_GENERATION];
    if (is_told(more, generation, others)) {
        begin_clause(read, &is_begun);
        printf("has generation %" PRIu64 ", %s's %" PRIu64, generation, names[other], others);
    }
    if (is_begun)
        printf("%s\n", colour_code(stdout, PLAIN));
    return is_begun;
}

/* How to make the other's cut of a read that has all that it keeps. */
static void print_way_back(const struct reads *reads, int read)
{
    const struct assessment *other = &reads->found[1 - read];
    printf("klapouzen cut --keep-index %" PRIu64 " --keep-data %" PRIu64 " ", kept_elements(other, INDEX),
           kept_elements(other, DATA));
    print_bytes(stdout, bytes_of(reads->volumes[read]->folder));
    printf(" OUT makes %s's cut of it\n", names[1 - read]);
}

static void print_rescue(const struct reads *reads)
{
    int more = rescues_more(reads);
    if (more == NEITHER)
        print_rescued_alike(reads);
    else
        print_rescued(reads, more);
    bool are_cut = reads->found[OLD].has_cut && reads->found[NEW].has_cut;
    if (are_cut && print_caution(reads, more) && more != NEITHER && is_cut_in_other(reads, 1 - more))
        print_way_back(reads, more);
}

static void print_reads(const struct reads *reads)
{
    for (int read = OLD; read <= NEW; read++) {
        printf("%s  ", names[read]);
        print_assessed(reads->volumes[read], &reads->found[read]);
        putchar('\n');
    }
    print_side(reads, INDEX);
    print_side(reads, DATA);
    print_volumes(reads);
    print_relation(reads);
    print_rescue(reads);
}

/* ---- JSON ---- */

/* The length of a block alone: an unreadable one's is not known. */
static void print_json_element(const char *key, const struct element *element)
{
    static const char *const kinds[] = { [MARK] = "mark", [BLOCK] = "block", [UNREADABLE_BLOCK] = "unreadable" };
    printf(",\"%s\":{\"kind\":\"%s\",\"length\":", key, kinds[element->kind]);
    if (element->kind == BLOCK)
        printf("%" PRIu64 "}", element->length);
    else
        fputs("null}", stdout);
}

static void print_json_difference(const struct comparison *found)
{
    fputs(",\"difference\":", stdout);
    if (found->relation != DIFFERENT) {
        fputs("null", stdout);
        return;
    }
    printf("{\"element\":%" PRIu64, found->common);
    print_json_element(keys[OLD], &found->first[OLD]);
    print_json_element(keys[NEW], &found->first[NEW]);
    if (differs_in_bytes(found))
        printf(",\"byte\":%" PRIu64 "}", found->byte);
    else
        fputs(",\"byte\":null}", stdout);
}

static void print_json_count(const struct comparison *found, const char *key, uint64_t count)
{
    if (found->relation == MALFORMED)
        printf(",\"%s\":null", key);
    else
        printf(",\"%s\":%" PRIu64, key, count);
}

static const char *const relation_keys[] = {
    [SAME] = "same", [NEW_CONTINUES_OLD] = "new_continues_old", [OLD_CONTINUES_NEW] = "old_continues_new",
    [DIFFERENT] = "different", [MALFORMED] = "malformed",
};

static void print_json_side(const char *key, const struct comparison *found)
{
    printf(",\"%s\":{\"relation\":\"%s\"", key, relation_keys[found->relation]);
    print_json_count(found, "common", found->common);
    print_json_difference(found);
    print_json_count(found, "differing", found->differing);
    print_json_count(found, "unreadable_in_old_alone", found->unreadable_alone[OLD]);
    print_json_count(found, "unreadable_in_new_alone", found->unreadable_alone[NEW]);
    putchar('}');
}

static void print_json_kept(const struct reads *reads, int read)
{
    printf(",\"%s_cut_in_%s\":%s", keys[read], keys[1 - read],
           !reads->found[read].has_cut ? "null" : is_cut_in_other(reads, read) ? "true" : "false");
}

static void print_json_whole(const struct reads *reads)
{
    int more = rescues_more(reads);
    bool is_neither = reads->relation == DIFFERENT || reads->relation == MALFORMED;
    printf(",\"relation\":\"%s\"", is_neither ? "neither" : relation_keys[reads->relation]);
    print_json_kept(reads, OLD);
    print_json_kept(reads, NEW);
    printf(",\"same_volume\":%s", !are_labelled(reads) ? "null" : are_one_volume(reads) ? "true" : "false");
    if (more == NEITHER)
        fputs(",\"rescues_more\":null", stdout);
    else
        printf(",\"rescues_more\":\"%s\"", keys[more]);
}

static void print_object(const struct reads *reads)
{
    for (int read = OLD; read <= NEW; read++) {
        printf("%c\"%s\":", read == OLD ? '{' : ',', keys[read]);
        print_assessed_json(reads->volumes[read], &reads->found[read]);
    }
    print_json_side("index", &reads->sides[INDEX]);
    print_json_side("data", &reads->sides[DATA]);
    print_json_whole(reads);
    puts("}");
}

/* ---- The command ---- */

struct wish {
    const char *folder; /* of NEW */
    bool json;
};

/* What is wished with OLD open. */
struct begun {
    const struct wish *wish;
    const struct volume *old;
};

static int compare(const struct volume *new, const void *given)
{
    const struct begun *begun = given;
    struct reads reads = { .volumes = { begun->old, new } };
    compare_reads(&reads);
    (begun->wish->json ? print_object : print_reads)(&reads);
    return reads.relation == SAME || reads.relation == NEW_CONTINUES_OLD ? DONE : NOT_SO;
}

static int open_new(const struct volume *old, const void *given)
{
    const struct wish *wish = given;
    const struct begun begun = { wish, old };
    return on_volume(wish->folder, compare, &begun);
}

/* A read compared with itself says nothing, and a script that drops OLD then drops both. */
static bool is_one_folder(char *const folders[2])
{
    struct stat old, new;
    return stat(folders[OLD], &old) == 0 && stat(folders[NEW], &new) == 0 && old.st_dev == new.st_dev
        && old.st_ino == new.st_ino;
}

int run_compare(struct words *words)
{
    struct wish wish = { .json = false };
    const struct option options[] = { { "json", NULL, &wish.json }, { NULL, NULL, NULL } };
    int status = take_words(words, options, help, 2, "two folders wanted, OLD and NEW");
    if (status != GO_ON)
        return status;
    if (is_one_folder(words->words))
        return bad_use(help, "one folder given twice", words->words[NEW]);
    wish.folder = words->words[NEW];
    return on_volume(words->words[OLD], open_new, &wish);
}
