#include "text_place.h"

#include <inttypes.h>
#include <sys/ioctl.h>
#include <unistd.h>

#include "words.h"

/* ---- Line and column ---- */

/* Where the line with a byte begins; *line is its number. */
static size_t line_begin(struct bytes text, size_t byte, uint64_t *line)
{
    size_t begin = 0;
    *line = 1;
    for (size_t i = 0; i < byte; i++) {
        if (text.start[i] != '\n')
            continue;
        begin = i + 1;
        ++*line;
    }
    return begin;
}

/* Up to where it is shown. */
static size_t line_end(struct bytes text, size_t byte)
{
    size_t end = byte;
    while (end < text.length && text.start[end] != '\n')
        end++;
    if (end == text.length)
        return end;
    if (end == byte)
        return end + 1;
    return end > byte + 1 && text.start[end - 1] == '\r' ? end - 1 : end;
}

struct text_place text_place(struct bytes text, uint64_t byte)
{
    struct text_place place = { .byte = byte };
    size_t begin = line_begin(text, byte, &place.line), end = line_end(text, byte);
    struct bytes line = part_of(text, begin, end - begin);
    place.character = character_at(line, byte - begin);
    size_t before = (size_t)(place.character.start - line.start);
    place.before = part_of(line, 0, before);
    place.from = part_of(line, before, line.length - before);
    place.column = count_characters(place.before) + 1;
    return place;
}

void print_text_place(FILE *out, struct bytes text, uint64_t byte)
{
    struct text_place place = text_place(text, byte);
    fprintf(out, "byte %" PRIu64 ", line %" PRIu64 ", column %" PRIu64, byte, place.line, place.column);
}

void print_json_text_place(FILE *out, struct bytes text, uint64_t byte)
{
    struct text_place place = text_place(text, byte);
    fprintf(out, "\"front\":%" PRIu64 ",\"line\":%" PRIu64 ",\"column\":%" PRIu64, byte, place.line, place.column);
}

/* ---- The marked line ---- */

/* What is left out, and its columns. */
static const char ellipsis[] = "...";
enum { ELLIPSIS = sizeof ellipsis - 1 };

/* Of a terminal; one narrower than 50, where an escaped character may not fit beside the ellipses, breaks the line. */
static size_t columns_of_line(FILE *out)
{
    struct winsize size;
    bool is_known = isatty(fileno(out)) && ioctl(fileno(out), TIOCGWINSZ, &size) == 0 && size.ws_col > 0;
    size_t columns = is_known ? size.ws_col : 80;
    return columns < 50 ? 50 : columns;
}

/* What is shown of a line: on a side that is cut off, and no longer there, stands an ellipsis. */
struct window {
    struct bytes before, from;
    bool is_cut_before, is_cut_behind;
};

/* Two thirds are for what is before the place, more where little is behind it; the caret needs a column there. */
static struct window window_of(const struct text_place *place, size_t room)
{
    struct window window = { .before = place->before, .from = place->from };
    size_t before = all_columns(place->before), from = all_columns(place->from);
    size_t behind = room / 3;
    from = from > 0 ? from : 1;
    behind = from < behind ? from : behind;
    window.is_cut_before = before > room - behind;
    if (window.is_cut_before)
        window.before = last_columns(place->before, room - behind - ELLIPSIS);
    else
        behind = room - before;
    window.is_cut_behind = from > behind;
    if (window.is_cut_behind)
        window.from = first_columns(place->from, behind - ELLIPSIS);
    return window;
}

static void print_window(FILE *out, const struct window *window)
{
    const char *dim = colour_code(out, DIM), *plain = colour_code(out, PLAIN);
    if (window->is_cut_before)
        fprintf(out, "%s%s%s", dim, ellipsis, plain);
    print_bytes(out, window->before);
    print_bytes(out, window->from);
    if (window->is_cut_behind)
        fprintf(out, "%s%s%s", dim, ellipsis, plain);
    fputc('\n', out);
}

void print_marked_line(FILE *out, const struct text_place *place)
{
    fputs(colour_code(out, DIM), out);
    int number = fprintf(out, "%6" PRIu64, place->line), gutter = number + fprintf(out, " | ");
    fputs(colour_code(out, PLAIN), out);
    struct window window = window_of(place, columns_of_line(out) - (size_t)gutter);
    size_t columns = (window.is_cut_before ? ELLIPSIS : 0) + all_columns(window.before);
    print_window(out, &window);
    fprintf(out, "%s%*s | %s%*s%s^%s\n", colour_code(out, DIM), number, "", colour_code(out, PLAIN), (int)columns, "",
            colour_code(out, RED), colour_code(out, PLAIN));
}
