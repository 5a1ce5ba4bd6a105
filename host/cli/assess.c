#include "assess.h"

#include <inttypes.h>
#include <stdlib.h>

#include "common.h"
#include "words.h"

void assess_lists(const struct volume *volume, struct assessment *found)
{
    *found = (struct assessment){ 0 };
    for (int side = INDEX; side <= DATA; side++) {
        const struct side *tape = &volume->sides[side];
        found->malformed[side] = klapouzen_check_list(SIDE(tape), &found->elements[side]) != 0;
        if (!found->malformed[side])
            found->unreadable[side] = count_unreadable(tape->list);
    }
}

/* The breaks that name something. */
enum { IN_DATA_CHAIN = 3, AT_LAST_INDEX = 4, NOT_ON_TAPE = 5 };

static struct refused find_broken_index(const struct volume *volume, const struct assessment *found)
{
    int side = found->verdict[KLAPOUZEN_BREAK_WHICH] == IN_DATA_CHAIN ? DATA : INDEX;
    struct constructs *standing = allocate(sizeof *standing);
    read_constructs(&volume->sides[side], found->label.block_size, standing);
    const uint32_t *row = construct_row(standing, found->verdict[KLAPOUZEN_BREAK_NUMBER]);
    struct place place = construct_place(volume, &found->label, side, row);
    free(standing);
    return index_refused(&found->label, &place);
}

void assess(const struct volume *volume, struct assessment *found)
{
    assess_lists(volume, found);
    found->refusal = read_labels(volume, &found->label);
    if (found->refusal != 0)
        return;
    klapouzen_verdict(VOLUME(volume), found->verdict);
    if (names_index(found))
        found->broken_index = find_broken_index(volume, found);
    found->has_cut = klapouzen_rescue(VOLUME(volume), found->cut) == 0;
}

bool names_index(const struct assessment *found)
{
    uint64_t which = found->verdict[KLAPOUZEN_BREAK_WHICH];
    return which == IN_DATA_CHAIN || which == AT_LAST_INDEX;
}

bool is_consistent(const struct assessment *found)
{
    return found->refusal == 0 && found->verdict[KLAPOUZEN_BREAK_WHICH] == 0;
}

bool has_unreadable(const struct assessment *found)
{
    return found->unreadable[INDEX] > 0 || found->unreadable[DATA] > 0;
}

uint64_t kept_elements(const struct assessment *found, int side)
{
    if (!found->has_cut)
        return found->elements[side];
    return found->cut[side == INDEX ? KLAPOUZEN_CUT_INDEX_KEPT : KLAPOUZEN_CUT_DATA_KEPT];
}

void print_cut_clause(FILE *out, const struct assessment *found)
{
    if (!found->has_cut) {
        fprintf(out, "%sno cut%s leaves a consistent volume", colour_code(out, RED),
                colour_code(out, PLAIN));
        return;
    }
    fputs("cut ", out);
    print_cut(out, found);
}

/* The index partition's last, which is sound where the verdict is break 5. */
static void read_last(const struct volume *volume, const struct label *label, struct contents *contents)
{
    struct constructs *standing = allocate(sizeof *standing);
    uint64_t header[KLAPOUZEN_INDEX];
    read_constructs(&volume->sides[INDEX], label->block_size, standing);
    struct place place = construct_place(volume, label, INDEX, construct_row(standing, standing->count - 1));
    read_index_at(label, &place, header);
    contents_read(contents, label, &place, header);
    free(standing);
}

bool find_broken_file(const struct volume *volume, const struct assessment *found, struct contents *contents,
                      uint64_t *entry)
{
    if (found->refusal != 0 || found->verdict[KLAPOUZEN_BREAK_WHICH] != NOT_ON_TAPE)
        return false;
    read_last(volume, &found->label, contents);
    return find_numbered(contents, found->verdict[KLAPOUZEN_BREAK_NUMBER], entry);
}

static void print_assessed_verdict(FILE *out, const struct volume *volume, const struct assessment *found)
{
    struct contents contents;
    uint64_t entry;
    print_verdict(out, found->verdict, &found->broken_index);
    if (!find_broken_file(volume, found, &contents, &entry))
        return;
    fputs(": ", out);
    print_bytes(out, path_of(&contents, entry));
    contents_free(&contents);
}

void print_outcome(FILE *out, const struct volume *volume, const struct assessment *found)
{
    if (found->refusal == 0) {
        print_assessed_verdict(out, volume, found);
        return;
    }
    fputs(colour_code(out, RED), out);
    print_refusal(out, TO_TERMINAL, volume, found->refusal);
    fputs(colour_code(out, PLAIN), out);
}

void print_kept(FILE *out, const uint64_t kept[2], const uint64_t elements[2])
{
    if (kept[INDEX] == elements[INDEX] && kept[DATA] == elements[DATA])
        fprintf(out, "keeps all %s + %s elements", grouped(kept[INDEX]), grouped(kept[DATA]));
    else
        fprintf(out, "keeps %s + %s of %s + %s elements", grouped(kept[INDEX]), grouped(kept[DATA]),
                grouped(elements[INDEX]), grouped(elements[DATA]));
}

void print_cut(FILE *out, const struct assessment *found)
{
    if (!found->has_cut) {
        fprintf(out, "%snone%s leaves a consistent volume", colour_code(out, RED),
                colour_code(out, PLAIN));
        return;
    }
    const uint64_t kept[] = { kept_elements(found, INDEX), kept_elements(found, DATA) };
    print_kept(out, kept, found->elements);
    fprintf(out, ", generation %" PRIu64, found->cut[KLAPOUZEN_CUT_GENERATION]);
}

void print_unreadable_blocks(FILE *out, const struct assessment *found)
{
    static const char *const sides[] = { " on the index side", " on the data side" };
    bool is_first = true;
    for (int side = INDEX; side <= DATA; side++) {
        if (found->unreadable[side] == 0)
            continue;
        if (is_first)
            print_counted(out, found->unreadable[side], "unreadable block", "unreadable blocks");
        else
            fprintf(out, ", %s", grouped(found->unreadable[side]));
        fputs(sides[side], out);
        is_first = false;
    }
}
