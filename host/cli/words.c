#include "words.h"

#include <inttypes.h>
#include <stdlib.h>
#include <string.h>
#include <unistd.h>

#include "common.h"
#include "text_place.h"

/* ---- Colour ---- */

bool takes_colour(FILE *out)
{
    const char *terminal = getenv("TERM");
    bool dumb = terminal == NULL || strcmp(terminal, "dumb") == 0;
    return isatty(fileno(out)) && !dumb && getenv("NO_COLOR") == NULL;
}

const char *colour_code(FILE *out, enum colour colour)
{
    static const char *const codes[] = {
        [PLAIN] = "\033[0m",    [BOLD] = "\033[1m",   [DIM] = "\033[2m",
        [RED] = "\033[31m",     [GREEN] = "\033[32m", [YELLOW] = "\033[33m",
        [BLUE] = "\033[34m",    [MAGENTA] = "\033[35m", [CYAN] = "\033[36m",
        [ON_RED] = "\033[37;41m",
    };
    return takes_colour(out) ? codes[colour] : "";
}

/* ---- Refusals and verdicts ---- */

/*
 * Of a list that the library took: the first element that is not as the labels' block, mark, block, mark, and whether
 * it is an unreadable block; LABEL_ELEMENTS where all four are.
 */
static int wrong_label_element(struct bytes list, bool *is_unreadable)
{
    static const enum element_kind wanted[LABEL_ELEMENTS] = { BLOCK, MARK, BLOCK, MARK };
    *is_unreadable = false;
    for (int i = 0; i < LABEL_ELEMENTS; i++) {
        if (list.length == 0)
            return i;
        enum element_kind kind = take_element(&list).kind;
        *is_unreadable = kind == UNREADABLE_BLOCK;
        if (kind != wanted[i])
            return i;
    }
    return LABEL_ELEMENTS;
}

/* The side stands for both: what is refused then, but that the two disagree, is its own. */
struct refused labels_refused(const struct side *side)
{
    uint64_t out[KLAPOUZEN_LABELS];
    uint64_t number = klapouzen_check_labels(SIDE(side), SIDE(side), out);
    return (struct refused){
        .number = number == KLAPOUZEN_DISAGREEMENT ? 0 : number,
        .text = block_of(side, LABEL_ELEMENT),
        .front = out[KLAPOUZEN_LABEL_FRONT],
    };
}

struct refused volume_refused(const struct volume *volume)
{
    uint64_t out[KLAPOUZEN_LABELS];
    uint64_t number = klapouzen_check_labels(VOLUME(volume), out);
    const struct side *side = &volume->sides[out[KLAPOUZEN_LABELS_SIDE]];
    return (struct refused){ number, block_of(side, LABEL_ELEMENT), out[KLAPOUZEN_LABEL_FRONT] };
}

/* "data.list", or "data.list, element 2 is unreadable" where that is why there are no labels; until the next call. */
static const char *list_without_labels(const struct side *side)
{
    static char text[64];
    bool is_unreadable;
    int element = wrong_label_element(side->list, &is_unreadable);
    snprintf(text, sizeof text, "%s.list", side->name);
    if (is_unreadable)
        snprintf(text, sizeof text, "%s.list, element %d is unreadable", side->name, element);
    return text;
}

struct origin origin_on(const struct volume *volume, int side, uint64_t refusal)
{
    const struct side *tape = &volume->sides[side];
    bool index = side == INDEX;
    switch (refusal) {
    case KLAPOUZEN_BAD_LIST:
        return (struct origin){ tape->name, index ? "index.list with index.store" : "data.list with data.store" };
    case KLAPOUZEN_NO_LABELS:
        return (struct origin){ tape->name, list_without_labels(tape) };
    case KLAPOUZEN_BAD_VOL1:
        return (struct origin){ tape->name, index ? "index.store, element 0" : "data.store, element 0" };
    default:
        return (struct origin){ tape->name, index ? "index.store, element 2" : "data.store, element 2" };
    }
}

/* The index side is looked at first, as the library does. */
struct origin origin_of(const struct volume *volume, uint64_t refusal)
{
    if (refusal == KLAPOUZEN_DISAGREEMENT)
        return (struct origin){ "both", "index.store and data.store, the labels" };
    if (refusal == KLAPOUZEN_NO_CUT)
        return (struct origin){ "both", "index.list and data.list" };
    bool index = labels_refused(&volume->sides[INDEX]).number == refusal;
    return origin_on(volume, index ? INDEX : DATA, refusal);
}

void print_origin(FILE *out, struct origin origin)
{
    fprintf(out, "%s side%s: %s", origin.side, strcmp(origin.side, "both") == 0 ? "s" : "", origin.file);
}

bool is_ansi(const struct volume *volume, uint64_t refusal, struct ansi_tape *tape)
{
    if (refusal == KLAPOUZEN_NO_CUT)
        return false;
    ansi_open(tape, &volume->sides[INDEX]);
    if (is_labelled(tape))
        return true;
    ansi_close(tape);
    return false;
}

/* "an ANSI labelled tape, volume BENCH1, with 5 files: see klapouzen ansi DIR" */
static void print_ansi(FILE *out, enum form form, const struct volume *volume,
                       const struct ansi_tape *tape)
{
    struct bytes identifier = ansi_volume(tape).identifier;
    fputs(identifier.length > 0 ? "an ANSI labelled tape, volume " : "an ANSI labelled tape", out);
    print_text(out, form, identifier);
    if (tape->refusal == 0) {
        fputs(", with ", out);
        print_counted(out, tape->files, "file", "files");
    } else {
        fprintf(out, ", refused %" PRIu64 " at element %" PRIu64 " behind ", tape->refusal, tape->place);
        print_counted(out, tape->files, "whole file", "whole files");
    }
    fputs(": see klapouzen ansi ", out);
    print_text(out, form, bytes_of(volume->folder));
}

void print_text_refusal(FILE *out, const struct refused *refused)
{
    fprintf(out, "refused %" PRIu64 ": %s", refused->number, klapouzen_refusal_text(refused->number));
    if (refused->number != KLAPOUZEN_BAD_FORM)
        return;
    fputs(" at ", out);
    print_text_place(out, refused->text, refused->front);
}

void print_refusal(FILE *out, enum form form, const struct volume *volume, uint64_t refusal)
{
    struct ansi_tape tape;
    if (is_ansi(volume, refusal, &tape)) {
        print_ansi(out, form, volume, &tape);
        ansi_close(&tape);
        return;
    }
    fprintf(out, "refused %" PRIu64 ": %s (", refusal, klapouzen_refusal_text(refusal));
    print_origin(out, origin_of(volume, refusal));
    if (refusal == KLAPOUZEN_BAD_FORM) {
        struct refused refused = volume_refused(volume);
        fputs(", ", out);
        print_text_place(out, refused.text, refused.front);
    }
    fputc(')', out);
}

void complain_list(const struct volume *volume)
{
    struct origin origin = origin_of(volume, KLAPOUZEN_BAD_LIST);
    complain("%s: refused %d: %s (%s side: %s)", volume->folder, KLAPOUZEN_BAD_LIST,
             klapouzen_refusal_text(KLAPOUZEN_BAD_LIST), origin.side, origin.file);
}

void complain_refusal(const struct volume *volume, uint64_t refusal)
{
    fflush(stdout);
    fputs("klapouzen: ", stderr);
    print_bytes(stderr, bytes_of(volume->folder));
    fputs(": ", stderr);
    print_refusal(stderr, TO_TERMINAL, volume, refusal);
    fputc('\n', stderr);
}

void complain_construct(const struct volume *volume, int side, uint64_t construct,
                        uint64_t refusal)
{
    const char *name = volume->sides[side].name;
    complain("%s: refused %" PRIu64 ": %s (%s side: %s.store, index construct %" PRIu64 ")",
             volume->folder, refusal, klapouzen_refusal_text(refusal), name, name, construct);
}

/* The end of a sentence on an index: that it is not sound and why, or that it is but. */
static void print_unsound(FILE *out, const struct refused *index, const char *but)
{
    fputs(index->number != 0 ? " is not sound: " : " is sound but ", out);
    if (index->number != 0)
        print_text_refusal(out, index);
    else
        fputs(but, out);
}

void print_break(FILE *out, const uint64_t verdict[KLAPOUZEN_BREAK], const struct refused *index)
{
    uint64_t number = verdict[KLAPOUZEN_BREAK_NUMBER];
    switch (verdict[KLAPOUZEN_BREAK_WHICH]) {
    case 1:
        fputs("the index partition does not end with a whole index", out);
        break;
    case 2:
        fputs("the data partition does not end with a whole index", out);
        break;
    case 3:
        fprintf(out, "index %" PRIu64 " of the data partition", number);
        print_unsound(out, index, "breaks the chain");
        break;
    case 4:
        fprintf(out, "the last index of the index partition, index %" PRIu64 ",", number);
        print_unsound(out, index, "does not follow the data partition's last");
        break;
    default:
        fprintf(out, "file %" PRIu64 " of the last index does not lie on the tape", number);
    }
}

void print_verdict(FILE *out, const uint64_t verdict[KLAPOUZEN_BREAK], const struct refused *index)
{
    if (verdict[KLAPOUZEN_BREAK_WHICH] == 0) {
        fprintf(out, "%sconsistent%s", colour_code(out, GREEN), colour_code(out, PLAIN));
        return;
    }
    fprintf(out, "%sbreak %" PRIu64 "%s: ", colour_code(out, YELLOW),
            verdict[KLAPOUZEN_BREAK_WHICH], colour_code(out, PLAIN));
    print_break(out, verdict, index);
}
