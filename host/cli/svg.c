#include "svg.h"

#include <inttypes.h>
#include <string.h>

#include "common.h"
#include "draft.h"
#include "track.h"
#include "words.h"

/* ---- Measures, in the picture's units ---- */

enum {
    WIDTH = 1000,
    HEIGHT = 450,
    MARGIN = 28,
    LEFT = 146,   /* where the tracks begin, right of their names */
    TRACK = 46,   /* a track's height */
    THIN = 2,     /* the least that can be seen of something, and between two things */
    LEGEND = 402, /* its upper row */
    FOLDER = 66   /* columns of a folder's name */
};

static const int track_top[2] = { 160, 280 };

struct picture {
    FILE *out;
    const struct volume *volume;
    const struct assessment *found;
    struct track tracks[2];
};

/* ---- Text ---- */

static void begin_text(FILE *out, double x, double y, const char *class)
{
    fprintf(out, "<text x=\"%.1f\" y=\"%.1f\" class=\"%s\">", x, y, class);
}

static void end_text(FILE *out)
{
    fputs("</text>\n", out);
}

static void put_text(FILE *out, struct bytes text)
{
    print_text(out, TO_XML, text);
}

/* Of a long name the end, which tells deliveries apart. */
static void put_folder(const struct picture *picture)
{
    struct bytes whole = bytes_of(picture->volume->folder), end = last_columns(whole, FOLDER);
    begin_text(picture->out, MARGIN, 38, "title");
    fputs(end.length < whole.length ? "&#8230;" : "", picture->out);
    put_text(picture->out, end);
    end_text(picture->out);
}

static void put_labels(FILE *out, const struct label *label)
{
    begin_text(out, MARGIN, 64, "text");
    fputs("<tspan class=\"name\">", out);
    put_text(out, label->identifier);
    fputs("</tspan> <tspan class=\"note\">", out);
    put_text(out, label->uuid);
    fputs("</tspan>", out);
    end_text(out);
}

static void put_head(const struct picture *picture)
{
    FILE *out = picture->out;
    const struct assessment *found = picture->found;
    put_folder(picture);
    if (found->refusal != 0) {
        begin_text(out, MARGIN, 64, "text");
        print_refusal(out, TO_XML, picture->volume, found->refusal);
        end_text(out);
        return;
    }
    put_labels(out, &found->label);
    begin_text(out, MARGIN, 88, "text");
    print_verdict(out, found->verdict, &found->broken_index);
    end_text(out);
    begin_text(out, MARGIN, 109, "text");
    print_cut_clause(out, found);
    end_text(out);
}

/* ---- Tracks ---- */

static const char *class_of(const struct drawn *run)
{
    if (has_look(run, LOOKS_UNSOUND))
        return "unsound";
    if (has_look(run, LOOKS_INDEX))
        return has_look(run, LOOKS_DATA) ? "mixed" : "index";
    return has_look(run, LOOKS_LABELS) ? "labels" : "data";
}

enum { CAPTION = 48 };

static void caption_of(char text[CAPTION], const struct segment *segment)
{
    if (segment->kind == LABELS)
        snprintf(text, CAPTION, "labels");
    else if (segment->kind == DATA_RUN)
        snprintf(text, CAPTION, "%s block%s", grouped(segment->blocks),
                 segment->blocks == 1 ? "" : "s");
    else if (!segment->stands)
        snprintf(text, CAPTION, segment->is_closed ? "no index" : "open");
    else if (segment->refused.number != 0)
        snprintf(text, CAPTION, "refused %" PRIu64, segment->refused.number);
    else
        snprintf(text, CAPTION, "gen %" PRIu64, segment->header[KLAPOUZEN_INDEX_GENERATION]);
}

static void caption_of_many(char text[CAPTION], const struct track *track, const struct drawn *run)
{
    size_t sound = count_look(track, run, LOOKS_INDEX), not = count_look(track, run, LOOKS_UNSOUND);
    if (not > 0)
        snprintf(text, CAPTION, "%s of %s not sound", grouped(not), grouped(sound + not));
    else
        snprintf(text, CAPTION, "%s index%s", grouped(sound), sound == 1 ? "" : "es");
}

static bool has_room_for(const struct drawn *run, const char *text)
{
    return run->width >= 6.5 * (double)strlen(text) + 6;
}

/* A data run's unreadable blocks rather than all its blocks, which the numbers of its elements tell, where there is room. */
static void caption_in(char text[CAPTION], const struct drawn *run, const struct segment *segment)
{
    snprintf(text, CAPTION, "%s unreadable", grouped(segment->unreadable));
    if (segment->kind != DATA_RUN || segment->unreadable == 0 || !has_room_for(run, text))
        caption_of(text, segment);
}

/* A line in the middle of a run, where it has room. */
static void put_inside(const struct picture *picture, const struct drawn *run, double y,
                       const char *class, const char *text)
{
    if (!has_room_for(run, text))
        return;
    begin_text(picture->out, run->x + run->width / 2, y, class);
    put_text(picture->out, bytes_of(text));
    end_text(picture->out);
}

static void put_captions(const struct picture *picture, int side, const struct drawn *run)
{
    const struct track *track = &picture->tracks[side];
    const struct segment *only = only_segment(track, run), *segments = track->layout->segments;
    uint64_t first = segments[run->first].first;
    uint64_t last = segments[run->end - 1].first + segments[run->end - 1].elements - 1;
    char text[CAPTION];
    if (only != NULL)
        caption_in(text, run, only);
    else
        caption_of_many(text, track, run);
    put_inside(picture, run, track_top[side] + TRACK / 2 - 3, "caption", text);
    snprintf(text, sizeof text, first < last ? "%" PRIu64 "-%" PRIu64 : "%" PRIu64, first, last);
    put_inside(picture, run, track_top[side] + TRACK / 2 + 13, "small", text);
}

static void put_box(FILE *out, double x, double width, int y, const char *class)
{
    double gap = width > 6 ? 1 : 0.25;
    fprintf(out, "<rect x=\"%.1f\" y=\"%d\" width=\"%.1f\" height=\"%d\" rx=\"%d\" class=\"%s\"/>\n",
            x + gap, y, width - 2 * gap, TRACK, width > 12 ? 3 : 1, class);
}

/* The first run that the cut drops; NULL where it drops none. */
static const struct drawn *first_dropped(const struct track *track)
{
    for (size_t i = 0; i < track->count; i++)
        if (!track->runs[i].is_kept)
            return &track->runs[i];
    return NULL;
}

/* Where a number of elements from a drawn run's first one on end in it. */
static double place_in(const struct track *track, const struct drawn *run, double elements)
{
    const struct segment *first = &track->layout->segments[run->first];
    const struct segment *last = &track->layout->segments[run->end - 1];
    return run->x + run->width * elements / (double)(last->first + last->elements - first->first);
}

/* A bar at a track's upper edge, above its captions, which the next unreadable blocks may widen; none without an end. */
struct bar {
    double x, end;
};

enum { BAR = 11, ABOVE = 3 }; /* its height, and what of it is above the track */

static void put_bar(FILE *out, int side, const struct bar *bar)
{
    double width = bar->end - bar->x > THIN ? bar->end - bar->x : THIN;
    if (bar->end > 0)
        fprintf(out, "<rect x=\"%.1f\" y=\"%d\" width=\"%.1f\" height=\"%d\" class=\"unreadable\"/>\n",
                (bar->x + bar->end - width) / 2, track_top[side] - ABOVE, width, BAR);
}

/* A stretch of unreadable blocks, in its segment: as a bar of its own where it can be told from the one before. */
static void put_stretch(const struct picture *picture, int side, size_t segment,
                        const struct stretch *stretch, struct bar *bar)
{
    const struct track *track = &picture->tracks[side];
    const struct drawn *run = drawn_with(track, segment);
    double before = (double)(stretch->first - track->layout->segments[run->first].first);
    double x = place_in(track, run, before), end = place_in(track, run, before + (double)stretch->blocks);
    if (bar->end == 0 || x - bar->end > THIN) {
        put_bar(picture->out, side, bar);
        bar->x = x;
    }
    bar->end = end;
}

static void put_unreadable(const struct picture *picture, int side)
{
    const struct layout *layout = picture->tracks[side].layout;
    struct bar bar = { 0, 0 };
    for (size_t i = 0; i < layout->count; i++) {
        const struct segment *segment = &layout->segments[i];
        for (size_t n = 0; n < segment->stretches; n++)
            put_stretch(picture, side, i, &layout->stretches[segment->first_stretch + n], &bar);
    }
    put_bar(picture->out, side, &bar);
}

/* Runs coloured by what they are, what the cut drops hatched over them, and unreadable blocks over both. */
static void put_runs(const struct picture *picture, int side)
{
    const struct track *track = &picture->tracks[side];
    const struct drawn *dropped = first_dropped(track), *last = &track->runs[track->count - 1];
    for (size_t i = 0; i < track->count; i++)
        put_box(picture->out, track->runs[i].x, track->runs[i].width, track_top[side],
                class_of(&track->runs[i]));
    if (dropped != NULL)
        put_box(picture->out, dropped->x, last->x + last->width - dropped->x, track_top[side],
                "dropped");
    put_unreadable(picture, side);
    for (size_t i = 0; i < track->count; i++)
        put_captions(picture, side, &track->runs[i]);
}

/* A note beside a mark at x: to its right, or to its left where the page would end. */
static void put_note(FILE *out, double x, double y, const char *text)
{
    bool is_left = x + 8 + 7.5 * (double)strlen(text) > WIDTH;
    fprintf(out, "<text x=\"%.1f\" y=\"%.1f\" class=\"cutnote\"%s>%s", is_left ? x - 8 : x + 8, y,
            is_left ? " text-anchor=\"end\"" : "", text);
    end_text(out);
}

static void put_cut(const struct picture *picture, int side)
{
    const struct drawn *dropped = first_dropped(&picture->tracks[side]);
    uint64_t kept = kept_elements(picture->found, side);
    int top = track_top[side];
    char note[96];
    if (dropped == NULL)
        return;
    snprintf(note, sizeof note, "cut: keep %s, drop %s", grouped(kept),
             grouped(picture->found->elements[side] - kept));
    fprintf(picture->out, "<path d=\"M%.1f %d V%d\" class=\"cut\"/>\n", dropped->x, top - 14,
            top + TRACK + 8);
    put_note(picture->out, dropped->x, top - 6, note);
}

/* The middle of an element. */
static double place_of(const struct track *track, uint64_t element)
{
    const struct segment *segments = track->layout->segments;
    size_t i = 0;
    while (!is_within(&segments[i], element))
        i++;
    const struct drawn *run = drawn_with(track, i);
    return place_in(track, run, (double)(element - segments[run->first].first) + 0.5);
}

static void put_defect(const struct picture *picture, int side)
{
    const struct defect *defect = &picture->tracks[side].layout->defect;
    if (defect->what == NULL)
        return;
    double x = place_of(&picture->tracks[side], defect->element);
    int y = track_top[side] + TRACK + 8;
    char note[96];
    snprintf(note, sizeof note, "%s: %s", grouped(defect->element), defect->what);
    fprintf(picture->out, "<circle cx=\"%.1f\" cy=\"%d\" r=\"5\" class=\"defect\"/>\n", x, y);
    put_note(picture->out, x, y + 4, note);
}

static void put_track(const struct picture *picture, int side)
{
    const struct track *track = &picture->tracks[side];
    begin_text(picture->out, MARGIN, track_top[side] + TRACK / 2 - 1, "text");
    fputs(picture->volume->sides[side].name, picture->out);
    if (picture->found->refusal == 0)
        fprintf(picture->out, " %c", picture->found->label.letters[side]);
    end_text(picture->out);
    begin_text(picture->out, MARGIN, track_top[side] + TRACK / 2 + 16, "note");
    print_counted(picture->out, track->layout->elements, "element", "elements");
    end_text(picture->out);
    if (track->layout->unreadable > 0) {
        begin_text(picture->out, MARGIN, track_top[side] + TRACK / 2 + 32, "note");
        fprintf(picture->out, "%s unreadable", grouped(track->layout->unreadable));
        end_text(picture->out);
    }
    if (track->count > 0)
        put_runs(picture, side);
}

/* ---- Back pointers ---- */

static double middle(const struct drawn *run)
{
    return run->x + run->width / 2;
}

static void put_pointer(const struct picture *picture, int side, double from, double to)
{
    int top = track_top[DATA], bottom = top + TRACK;
    if (side == INDEX)
        fprintf(picture->out, "<path d=\"M%.1f %d C%.1f %d %.1f %d %.1f %d\" class=\"pointer\"/>\n",
                from, track_top[INDEX] + TRACK, from, top - 25, to, top - 45, to, top - 1);
    else
        fprintf(picture->out, "<path d=\"M%.1f %d C%.1f %d %.1f %d %.1f %d\" class=\"pointer\"/>\n",
                from, bottom, from, bottom + 34, to, bottom + 34, to, bottom + 1);
}

/* The segment of a run that an arrow can begin or end at; else NULL. */
static const struct segment *arrow_end(const struct track *track, const struct drawn *run)
{
    /* Arrows closer together than this can't be told apart. */
    return run->width > 10 ? only_segment(track, run) : NULL;
}

/* The run that an index points back to; NULL where no arrow can be drawn. */
static const struct drawn *target_of(const struct picture *picture, const struct segment *segment)
{
    const struct track *data = &picture->tracks[DATA];
    if (segment == NULL || !segment->stands || segment->refused.number != 0
        || !segment->header[KLAPOUZEN_INDEX_HAS_BACK]
        || segment->header[KLAPOUZEN_INDEX_BACK_LETTER] != picture->found->label.letters[DATA])
        return NULL;
    const struct segment *target =
        segment_at(data->layout, segment->header[KLAPOUZEN_INDEX_BACK_BLOCK]);
    if (target == NULL)
        return NULL;
    const struct drawn *run = drawn_with(data, (size_t)(target - data->layout->segments));
    return arrow_end(data, run) != NULL ? run : NULL;
}

static void put_pointers(const struct picture *picture, int side)
{
    const struct track *track = &picture->tracks[side];
    for (size_t i = 0; i < track->count; i++) {
        const struct drawn *run = &track->runs[i];
        const struct drawn *target = target_of(picture, arrow_end(track, run));
        if (target != NULL)
            put_pointer(picture, side, middle(run), middle(target));
    }
}

/* ---- The whole ---- */

static const char style[] =
    "<style>\n"
    "text{font-family:system-ui,sans-serif;fill:#24292f;font-size:14px}\n"
    ".title{font-size:20px;font-weight:700}.name{font-weight:700}.note{font-size:13px;fill:#57606a}\n"
    ".caption{font-size:12px;font-weight:600;text-anchor:middle}\n"
    ".small{font-size:10px;fill:#57606a;text-anchor:middle}\n"
    ".caption,.small,.cutnote{paint-order:stroke;stroke:#ffffff;stroke-opacity:.75;stroke-width:3px}\n"
    ".cutnote{font-size:12px;fill:#a40e26;font-weight:600}\n"
    ".labels{fill:#c8d1da}.data{fill:#b6d7f2}.index{fill:#97dba8}.unsound{fill:#f0a92e}.mixed{fill:url(#mixed)}\n"
    ".dropped{fill:url(#hatch);stroke:#57606a;stroke-width:.7;stroke-dasharray:3 3}\n"
    ".cut{stroke:#a40e26;stroke-width:2;stroke-dasharray:5 3;fill:none}\n"
    ".pointer{stroke:#6e7781;stroke-width:1.3;fill:none;marker-end:url(#head)}\n"
    ".defect{fill:#cf222e}.unreadable{fill:#1b1f24}\n"
    "</style>\n";

static const char patterns[] =
    "<defs>\n"
    "<marker id=\"head\" viewBox=\"0 0 8 8\" refX=\"7\" refY=\"4\" markerWidth=\"7\" markerHeight=\"7\" "
    "orient=\"auto\"><path d=\"M0 0L8 4L0 8z\" fill=\"#6e7781\"/></marker>\n"
    "<pattern id=\"mixed\" width=\"6\" height=\"6\" patternUnits=\"userSpaceOnUse\">"
    "<path d=\"M0 0H3V6H0z\" fill=\"#97dba8\"/><path d=\"M3 0H6V6H3z\" fill=\"#b6d7f2\"/></pattern>\n"
    "<pattern id=\"hatch\" width=\"7\" height=\"7\" patternUnits=\"userSpaceOnUse\" "
    "patternTransform=\"rotate(45)\"><path d=\"M0 0H7V7H0z\" fill=\"#ffffff\" fill-opacity=\".45\"/>"
    "<path d=\"M1 0V7\" stroke=\"#57606a\" stroke-opacity=\".7\"/></pattern>\n"
    "</defs>\n";

static void put_legend_entry(FILE *out, double x, int y, const char *class)
{
    if (strcmp(class, "defect") == 0)
        fprintf(out, "<circle cx=\"%.1f\" cy=\"%d\" r=\"5\" class=\"defect\"/>\n", x + 7, y + 7);
    else if (strcmp(class, "cut") == 0)
        fprintf(out, "<path d=\"M%.1f %d V%d\" class=\"cut\"/>\n", x + 7, y - 1, y + 15);
    else if (strcmp(class, "pointer") == 0)
        fprintf(out, "<path d=\"M%.1f %d H%.1f\" class=\"pointer\"/>\n", x, y + 7, x + 15);
    else
        fprintf(out, "<rect x=\"%.1f\" y=\"%d\" width=\"14\" height=\"14\" rx=\"2\" class=\"%s\"/>\n", x, y, class);
}

static void put_legend(FILE *out)
{
    static const struct { const char *class, *text; } entries[] = {
        { "labels", "labels" },     { "data", "data run" },      { "index", "sound index" },
        { "unsound", "not sound" }, { "mixed", "indexes and data, too narrow to tell apart" },
        { "cut", "cut" },           { "dropped", "dropped by it" }, { "pointer", "points back to" },
        { "defect", "first defect" }, { "unreadable", "unreadable block" },
    };
    enum { COLUMNS = 5, COLUMN = 160 };
    for (int i = 0; i < (int)(sizeof entries / sizeof entries[0]); i++) {
        double x = MARGIN + COLUMN * (i % COLUMNS);
        int y = LEGEND + 24 * (i / COLUMNS);
        put_legend_entry(out, x, y, entries[i].class);
        begin_text(out, x + 21, y + 12, "note");
        fputs(entries[i].text, out);
        end_text(out);
    }
}

static void put_picture(const struct picture *picture)
{
    FILE *out = picture->out;
    fprintf(out, "<svg xmlns=\"http://www.w3.org/2000/svg\" viewBox=\"0 0 %d %d\" role=\"img\">\n<title>",
            WIDTH, HEIGHT);
    put_text(out, bytes_of(picture->volume->folder));
    fprintf(out, "</title>\n%s%s<rect width=\"%d\" height=\"%d\" fill=\"#ffffff\"/>\n", style, patterns,
            WIDTH, HEIGHT);
    put_head(picture);
    put_track(picture, INDEX);
    put_track(picture, DATA);
    put_pointers(picture, INDEX);
    put_pointers(picture, DATA);
    for (int side = INDEX; side <= DATA; side++) {
        put_defect(picture, side);
        put_cut(picture, side);
    }
    put_legend(out);
    fputs("</svg>\n", out);
}

bool write_svg(const char *path, const struct volume *volume, const struct assessment *found,
               const struct layout layouts[2])
{
    struct draft draft;
    if (!draft_begin(&draft, path))
        return false;
    struct picture picture = { .out = draft.file, .volume = volume, .found = found };
    double width = WIDTH - LEFT - MARGIN, unit = unit_for(layouts, width);
    for (int side = INDEX; side <= DATA; side++) {
        track_read(&picture.tracks[side], &layouts[side], kept_elements(found, side), unit);
        track_place(&picture.tracks[side], LEFT, width);
    }
    put_picture(&picture);
    track_free(&picture.tracks[INDEX]);
    track_free(&picture.tracks[DATA]);
    return draft_finish(&draft);
}
