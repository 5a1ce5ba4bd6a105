#include "track.h"

#include <stdlib.h>

#include "common.h"

/* In the picture's units: narrower runs are drawn together, in pieces so wide. */
enum { NARROW = 5, PIECE = 8, WIDEST_UNIT = 22 };

/* ---- Widths ---- */

/* Units that a segment takes: a data run's by the number of digits of its bytes, those that were not read too. */
static double weight(const struct layout *layout, const struct segment *segment)
{
    if (segment->kind != DATA_RUN)
        return segment->kind == LABELS ? 2.5 : 3.5;
    double units = 1;
    for (uint64_t bytes = bytes_on_tape(layout, segment); bytes > 0; bytes /= 8)
        units += 0.5;
    return units;
}

static double total_weight(const struct layout *layout)
{
    double total = 0;
    for (size_t i = 0; i < layout->count; i++)
        total += weight(layout, &layout->segments[i]);
    return total;
}

/* A fresh volume isn't stretched over the page. */
double unit_for(const struct layout layouts[2], double width)
{
    double index = total_weight(&layouts[INDEX]), data = total_weight(&layouts[DATA]);
    double most = index > data ? index : data;
    return most * WIDEST_UNIT > width ? width / most : WIDEST_UNIT;
}

/* ---- Runs ---- */

static void add_run(struct track *track, struct drawn run)
{
    track->runs = room_for(track->runs, track->count, sizeof *track->runs);
    track->runs[track->count++] = run;
}

/* What is drawn the same way, so that no border is wanted between. */
static bool is_alike(const struct drawn *one, const struct drawn *other)
{
    return one->is_narrow && other->is_narrow && one->is_kept == other->is_kept
        && one->looks == other->looks;
}

static void join(struct drawn *run, const struct drawn *next)
{
    run->end = next->end;
    run->looks |= next->looks;
    run->width += next->width;
}

/* Narrow runs on one side of the cut, up to the width of a piece. */
static void add_segment(struct track *track, struct drawn run)
{
    struct drawn *last = track->count > 0 ? &track->runs[track->count - 1] : NULL;
    if (last != NULL && last->is_narrow && run.is_narrow && last->is_kept == run.is_kept
        && last->width < PIECE)
        join(last, &run);
    else
        add_run(track, run);
}

static void join_alike(struct track *track)
{
    size_t count = 0;
    for (size_t i = 0; i < track->count; i++) {
        const struct drawn run = track->runs[i];
        if (count > 0 && is_alike(&track->runs[count - 1], &run))
            join(&track->runs[count - 1], &run);
        else
            track->runs[count++] = run;
    }
    track->count = count;
}

void track_read(struct track *track, const struct layout *layout, uint64_t kept, double unit)
{
    *track = (struct track){ .layout = layout };
    for (size_t i = 0; i < layout->count; i++) {
        const struct segment *segment = &layout->segments[i];
        double width = unit * weight(layout, segment);
        add_segment(track, (struct drawn){
            .first = i,
            .end = i + 1,
            .is_narrow = segment->kind != LABELS && width < NARROW,
            .is_kept = segment->first < kept,
            .looks = 1u << look_of(segment),
            .width = width,
        });
    }
    join_alike(track);
}

/* None is so narrow that it can't be seen; where that takes too much room, all give some. */
void track_place(struct track *track, double left, double width)
{
    double total = 0;
    for (size_t i = 0; i < track->count; i++) {
        struct drawn *run = &track->runs[i];
        run->width = run->width > NARROW ? run->width : NARROW;
        total += run->width;
    }
    double scale = total > width ? width / total : 1;
    for (size_t i = 0; i < track->count; i++) {
        track->runs[i].x = left;
        track->runs[i].width *= scale;
        left += track->runs[i].width;
    }
}

void track_free(struct track *track)
{
    free(track->runs);
}

/* ---- Asking a track ---- */

const struct drawn *drawn_with(const struct track *track, size_t segment)
{
    size_t i = 0;
    while (track->runs[i].end <= segment)
        i++;
    return &track->runs[i];
}

const struct segment *only_segment(const struct track *track, const struct drawn *run)
{
    return run->end - run->first == 1 ? &track->layout->segments[run->first] : NULL;
}

bool has_look(const struct drawn *run, enum look look)
{
    return (run->looks >> look & 1) != 0;
}

size_t count_look(const struct track *track, const struct drawn *run, enum look look)
{
    size_t count = 0;
    for (size_t i = run->first; i < run->end; i++)
        count += look_of(&track->layout->segments[i]) == look;
    return count;
}
