#include "chosen.h"

#include <stdlib.h>

#include "common.h"
#include "words.h"

/* The construct that was asked for, or the one a reader would want. */
static bool wanted_construct(const struct choice *choice, const struct assessment *found,
                             uint64_t standing, uint64_t *number)
{
    if (choice->construct != NULL)
        return read_number(choice->construct, number);
    *number = standing > 0 ? standing - 1 : 0;
    if (found->has_cut)
        *number = found->cut[choice->on_data ? KLAPOUZEN_CUT_DATA_CONSTRUCT
                                             : KLAPOUZEN_CUT_INDEX_CONSTRUCT];
    return true;
}

/* The refusal of the chosen construct's index, or 0 and what it says. */
static uint64_t read_construct(const struct volume *volume, const struct constructs *standing,
                               struct chosen *chosen)
{
    if (chosen->construct >= standing->count)
        return KLAPOUZEN_MISSING;
    const uint32_t *row = construct_row(standing, chosen->construct);
    chosen->place = construct_place(volume, &chosen->label, chosen->side, row);
    return read_index_at(&chosen->label, &chosen->place, chosen->header);
}

int choose_index(const struct volume *volume, const struct choice *choice, struct chosen *chosen)
{
    struct assessment found;
    assess(volume, &found);
    if (found.refusal != 0) {
        complain_refusal(volume, found.refusal);
        return NOT_SO;
    }
    *chosen = (struct chosen){ .label = found.label, .side = choice->on_data ? DATA : INDEX };
    struct constructs *standing = allocate(sizeof *standing);
    read_constructs(&volume->sides[chosen->side], found.label.block_size, standing);
    int status = GO_ON;
    if (!wanted_construct(choice, &found, standing->count, &chosen->construct)) {
        complain("not a construct number: %s", choice->construct);
        status = FAILED;
    } else {
        uint64_t refusal = read_construct(volume, standing, chosen);
        if (refusal != 0) {
            complain_construct(volume, chosen->side, chosen->construct, refusal);
            status = NOT_SO;
        }
    }
    free(standing);
    return status;
}

void read_chosen(const struct chosen *chosen, struct contents *contents)
{
    contents_read(contents, &chosen->label, &chosen->place, chosen->header);
}
