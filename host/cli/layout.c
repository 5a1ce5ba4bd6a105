#include "layout.h"

#include <stdlib.h>

#include "common.h"

/* ---- Segments ---- */

static struct segment *add_segment(struct layout *layout, enum kind kind, uint64_t first)
{
    layout->segments = room_for(layout->segments, layout->count, sizeof *layout->segments);
    struct segment *segment = &layout->segments[layout->count++];
    *segment = (struct segment){ .kind = kind, .first = first };
    return segment;
}

/* The segment that the next element belongs to. */
static struct segment *segment_for(struct layout *layout, struct element element)
{
    uint64_t number = layout->elements;
    struct segment *last = layout->count > 0 ? &layout->segments[layout->count - 1] : NULL;
    if (number < 4)
        return last != NULL ? last : add_segment(layout, LABELS, number);
    if (last->kind == INDEX_RUN && !last->is_closed)
        return last;
    if (element.kind == MARK)
        return add_segment(layout, INDEX_RUN, number);
    return last->kind == DATA_RUN ? last : add_segment(layout, DATA_RUN, number);
}

/*
 * The defect that an element makes in its segment, if it makes one. An unreadable block makes none: only the short
 * block before it does.
 */
static const char *defect_of(const struct segment *segment, struct element element,
                             struct element before, uint64_t block_size)
{
    if (segment->kind == LABELS)
        return NULL;
    if (element.length > block_size)
        return "a block longer than the block size";
    if (segment->kind != INDEX_RUN || segment->elements == 0)
        return NULL;
    if (element.kind == MARK)
        return segment->blocks == 0 ? "an empty index run" : NULL;
    if (before.kind == BLOCK && before.length != block_size)
        return "a short block before the last of an index run";
    return NULL;
}

/* The next element, an unreadable block, to the stretch that it goes on, or to a new one. */
static void add_unreadable(struct layout *layout, struct segment *segment)
{
    size_t count = layout->stretch_count;
    struct stretch *last = segment->stretches > 0 ? &layout->stretches[count - 1] : NULL;
    layout->unreadable++;
    segment->unreadable++;
    if (last != NULL && last->first + last->blocks == layout->elements) {
        last->blocks++;
        return;
    }
    if (segment->stretches++ == 0)
        segment->first_stretch = count;
    layout->stretches = room_for(layout->stretches, count, sizeof *layout->stretches);
    layout->stretches[layout->stretch_count++] = (struct stretch){ layout->elements, 1 };
}

static void add_element(struct layout *layout, struct segment *segment, struct element element)
{
    bool is_mark = element.kind == MARK;
    if (element.kind == UNREADABLE_BLOCK)
        add_unreadable(layout, segment);
    segment->is_closed = segment->kind == INDEX_RUN && is_mark && segment->elements > 0;
    segment->elements++;
    segment->blocks += !is_mark;
    segment->bytes += element.length;
    layout->elements++;
}

static void walk(struct layout *layout, struct bytes list)
{
    struct element before = { .kind = MARK };
    while (list.length > 0) {
        struct element element = take_element(&list);
        struct segment *segment = segment_for(layout, element);
        const char *what = defect_of(segment, element, before, layout->block_size);
        if (what != NULL && layout->defect.what == NULL)
            layout->defect = (struct defect){ what, layout->elements };
        add_element(layout, segment, element);
        before = element;
    }
}

/* ---- What the library says of the constructs ---- */

static void read_segment(struct segment *segment, const struct volume *volume,
                         const struct label *label, int side, const uint32_t *row)
{
    struct place place = construct_place(volume, label, side, row);
    uint64_t number = read_index_at(label, &place, segment->header);
    segment->refused = (struct refused){ number, place.text, segment->header[KLAPOUZEN_INDEX_FRONT] };
}

static void read_standing(struct layout *layout, const struct volume *volume,
                          const struct label *label, int side)
{
    struct constructs *standing = allocate(sizeof *standing);
    read_constructs(&volume->sides[side], label->block_size, standing);
    uint64_t number = 0;
    for (size_t i = 0; i < layout->count && number < standing->count; i++) {
        struct segment *segment = &layout->segments[i];
        const uint32_t *row = construct_row(standing, number);
        if (segment->kind != INDEX_RUN
            || segment->first + 1 != row[KLAPOUZEN_CONSTRUCT_FIRST_BLOCK])
            continue;
        segment->stands = true;
        segment->construct = number++;
        read_segment(segment, volume, label, side, row);
    }
    free(standing);
}

void layout_read(struct layout *layout, const struct volume *volume,
                 const struct assessment *found, int side)
{
    uint64_t count;
    bool has_labels = found->refusal == 0;
    *layout = (struct layout){
        .has_labels = has_labels,
        .block_size = has_labels ? found->label.block_size : KLAPOUZEN_MAX_BLOCK_SIZE,
    };
    if (klapouzen_check_list(SIDE(&volume->sides[side]), &count) != 0)
        return;
    walk(layout, volume->sides[side].list);
    if (layout->has_labels)
        read_standing(layout, volume, &found->label, side);
}

void layout_free(struct layout *layout)
{
    free(layout->segments);
    free(layout->stretches);
}

/* ---- Asking a layout ---- */

enum look look_of(const struct segment *segment)
{
    switch (segment->kind) {
    case DATA_RUN:
        return LOOKS_DATA;
    case LABELS:
        return LOOKS_LABELS;
    default:
        return segment->stands && segment->refused.number == 0 ? LOOKS_INDEX : LOOKS_UNSOUND;
    }
}

uint64_t bytes_on_tape(const struct layout *layout, const struct segment *segment)
{
    return segment->bytes + segment->unreadable * layout->block_size;
}

uint64_t unreadable_between(const struct layout *layout, uint64_t from, uint64_t to)
{
    uint64_t count = 0;
    for (size_t i = 0; i < layout->stretch_count; i++) {
        const struct stretch *stretch = &layout->stretches[i];
        uint64_t end = stretch->first + stretch->blocks;
        uint64_t first = stretch->first > from ? stretch->first : from, last = end < to ? end : to;
        count += first < last ? last - first : 0;
    }
    return count;
}

bool is_within(const struct segment *segment, uint64_t element)
{
    return segment->first <= element && element - segment->first < segment->elements;
}

const struct segment *segment_at(const struct layout *layout, uint64_t first_block)
{
    for (size_t i = 0; i < layout->count; i++)
        if (layout->segments[i].stands && layout->segments[i].first + 1 == first_block)
            return &layout->segments[i];
    return NULL;
}
