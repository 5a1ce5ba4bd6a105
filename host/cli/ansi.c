/* klapouzen ansi: the files of an ANSI labelled tape. */
#include <inttypes.h>
#include <stdlib.h>
#include <string.h>

#include "ansi_tape.h"
#include "ansi_words.h"
#include "commands.h"
#include "common.h"
#include "output.h"
#include "signals.h"
#include "words.h"

static const char help[] =
    "usage: klapouzen ansi DIR [--json | --extract FILE [OUT] | --number N [OUT]]\n"
    "\n"
    "Reads a tape with ANSI labels (VOL1, HDR1, HDR2, EOF1, EOF2; version 3 or 4) from\n"
    "index.list and index.store in the folder DIR: its volume identifier and owner, and a\n"
    "line for each file with number, ID, record format (F fixed, D variable, S segmented),\n"
    "block and record length as HDR2 has them, data blocks and bytes on the tape, and the\n"
    "element number of the first of them; on a tape of ULTRIX the path too. Of a tape that\n"
    "is refused: which label is wrong and where, and the files that stand whole before it.\n"
    "\n"
    "  --extract FILE  writes a file's data blocks, one after another, to the new file OUT,\n"
    "                  whole or not at all; to standard output where OUT is not given. FILE\n"
    "                  is an ID or a path that only one file has; where none has it and it is\n"
    "                  a number, the file with that number in the list\n"
    "  --number N      the same of the file with this number, whatever IDs there are\n"
    "  --json          one object\n"
    "  --help          this text\n"
    "\n"
    "Exit status: 0 listed or written, 1 the tape is refused or has no such file, 2 bad\n"
    "use or a file that can't be read or written.\n";

struct wish {
    const char *file, *number, *output; /* the number as given, or NULL */
    bool json;
};

/* ---- The list ---- */

static void print_volume(const struct ansi_tape *tape)
{
    struct ansi_volume volume = ansi_volume(tape);
    if (volume.version == 0)
        return;
    printf("volume %s", colour_code(stdout, BOLD));
    print_bytes(stdout, volume.identifier.length > 0 ? volume.identifier : bytes_of("without identifier"));
    printf("%s, %s", colour_code(stdout, PLAIN), volume.owner.length > 0 ? "owner " : "no owner");
    print_bytes(stdout, volume.owner);
    printf(", version %c", volume.version);
    if (volume.implementation.length > 0) {
        fputs(", by ", stdout);
        print_bytes(stdout, volume.implementation);
    }
    putchar('\n');
}

static void print_path(const struct ansi_path *path)
{
    if (path->length > 0) {
        fputs("  ", stdout);
        print_bytes(stdout, (struct bytes){ path->bytes, path->length });
    } else if (path->missing[0] != '\0') {
        printf("  %s(no path: %s is missing)%s", colour_code(stdout, DIM), path->missing,
               colour_code(stdout, PLAIN));
    }
}

static void print_file(const struct ansi_tape *tape, uint64_t number)
{
    struct ansi_file file = ansi_file(tape, number);
    struct ansi_path path;
    ansi_path(tape, number, &path);
    printf("%s%6" PRIu64 "%s  ", colour_code(stdout, CYAN), number, colour_code(stdout, PLAIN));
    print_padded(stdout, file.id, 17);
    printf("  %-6c  %6s  %6s", file.format, grouped(file.block_length), grouped(file.record_length));
    printf("  %6s  %10s  %7s", grouped(file.blocks), grouped(file.bytes), grouped(file.element));
    print_path(&path);
    putchar('\n');
}

static bool has_paths(const struct ansi_tape *tape)
{
    struct ansi_path path = { .length = 0 };
    for (uint64_t number = 0; path.length == 0 && number < tape->files; number++)
        ansi_path(tape, number, &path);
    return path.length > 0;
}

/* An LTFS volume begins with such a VOL1 too. */
static bool has_ltfs_label(const struct ansi_tape *tape)
{
    uint64_t label[KLAPOUZEN_LABEL];
    return tape->count > 2 && klapouzen_read_label(SLICE(tape->elements[2].block), label) == 0;
}

static void print_refused(const char *folder, const struct ansi_tape *tape)
{
    print_ansi_refusal(stdout, tape, "\n");
    putchar('\n');
    if (has_ltfs_label(tape)) {
        fputs("element 2 is an LTFS label: see klapouzen check ", stdout);
        print_bytes(stdout, bytes_of(folder));
        putchar('\n');
    }
}

/* The files, or of a refused tape why it is and the files before that. */
static void print_list(const char *folder, const struct ansi_tape *tape)
{
    print_volume(tape);
    if (tape->refusal != 0)
        print_refused(folder, tape);
    if (tape->files == 0)
        return;
    print_counted(stdout, tape->files, "file", "files");
    puts(tape->refusal == 0 ? ":" : tape->files == 1 ? " stands whole before it:"
                                                     : " stand whole before it:");
    printf("  file  ID                 format   block  record  blocks       bytes  element%s\n",
           has_paths(tape) ? "  path" : "");
    for (uint64_t number = 0; number < tape->files; number++)
        print_file(tape, number);
}

/* ---- JSON ---- */

static void print_json_refusal(const struct ansi_tape *tape)
{
    if (tape->refusal == 0) {
        fputs(",\"refusal\":null,\"place\":null,\"words\":null", stdout);
        return;
    }
    char *words = tape->refusal == KLAPOUZEN_BAD_LIST ? NULL : ansi_words(tape);
    printf(",\"refusal\":{\"number\":%" PRIu64 ",\"text\":\"%s\"},\"place\":", tape->refusal,
           klapouzen_refusal_text(tape->refusal));
    if (tape->refusal == KLAPOUZEN_BAD_LIST)
        fputs("null", stdout);
    else
        printf("%" PRIu64, tape->place);
    fputs(",\"words\":", stdout);
    if (words == NULL)
        fputs("null", stdout);
    else
        print_json(stdout, bytes_of(words));
    free(words);
}

static void print_json_volume(const struct ansi_tape *tape)
{
    struct ansi_volume volume = ansi_volume(tape);
    if (volume.version == 0) {
        fputs(",\"volume\":null", stdout);
        return;
    }
    printf(",\"volume\":{\"version\":%c,", volume.version);
    print_json_name(stdout, "identifier", volume.identifier);
    putchar(',');
    print_json_name(stdout, "owner", volume.owner);
    putchar(',');
    print_json_name(stdout, "implementation", volume.implementation);
    putchar('}');
}

static void print_json_file(const struct ansi_tape *tape, uint64_t number)
{
    struct ansi_file file = ansi_file(tape, number);
    struct ansi_path path;
    ansi_path(tape, number, &path);
    printf("{\"number\":%" PRIu64 ",", number);
    print_json_name(stdout, "id", file.id);
    printf(",\"format\":\"%c\",\"block_length\":%" PRIu64 ",\"record_length\":%" PRIu64, file.format,
           file.block_length, file.record_length);
    printf(",\"blocks\":%" PRIu64 ",\"bytes\":%" PRIu64 ",\"element\":%" PRIu64, file.blocks, file.bytes,
           file.element);
    if (path.length > 0) {
        putchar(',');
        print_json_name(stdout, "path", (struct bytes){ path.bytes, path.length });
    } else if (path.missing[0] != '\0') {
        printf(",\"path_missing\":\"%s\"", path.missing);
    }
    putchar('}');
}

static void print_object(const char *folder, const struct ansi_tape *tape)
{
    putchar('{');
    print_json_name(stdout, "folder", bytes_of(folder));
    print_json_refusal(tape);
    if (tape->refusal == KLAPOUZEN_BAD_LIST)
        fputs(",\"elements\":null", stdout);
    else
        printf(",\"elements\":%" PRIu64, tape->count);
    print_json_volume(tape);
    fputs(",\"files\":[", stdout);
    for (uint64_t number = 0; number < tape->files; number++) {
        fputs(number > 0 ? "," : "", stdout);
        print_json_file(tape, number);
    }
    fputs("]}\n", stdout);
}

/* ---- Extracting ---- */

static bool is_same(struct bytes text, const char *word)
{
    return text.length == strlen(word) && begins_with(text, word);
}

/* By its ID or its path. */
static bool is_named(const struct ansi_tape *tape, uint64_t number, const char *word)
{
    struct ansi_path path;
    if (is_same(ansi_file(tape, number).id, word))
        return true;
    ansi_path(tape, number, &path);
    return path.length > 0 && is_same((struct bytes){ path.bytes, path.length }, word);
}

enum { CHOICES = 8 };

/* How many files have this name, and the numbers of the first of them. */
static uint64_t find_named(const struct ansi_tape *tape, const char *word, uint64_t numbers[CHOICES])
{
    uint64_t found = 0;
    for (uint64_t number = 0; number < tape->files; number++)
        if (is_named(tape, number, word)) {
            if (found < CHOICES)
                numbers[found] = number;
            found++;
        }
    return found;
}

static void complain_choices(const char *folder, const char *word, const uint64_t numbers[CHOICES],
                             uint64_t found)
{
    char text[CHOICES * 24] = "", *end = text;
    for (uint64_t i = 0; i < found && i < CHOICES; i++)
        end += sprintf(end, "%s%" PRIu64, i == 0 ? "" : ", ", numbers[i]);
    complain("%s: %s: %s files have this name: %s%s; give --number", folder, word, grouped(found), text,
             found > CHOICES ? " .." : "");
}

/* The file that was asked for; false where there is none, which was said. */
static bool find_wished(const char *folder, const struct ansi_tape *tape, const struct wish *wish,
                        uint64_t *number)
{
    const char *word = wish->number != NULL ? wish->number : wish->file, *before = "";
    uint64_t numbers[CHOICES] = { 0 }, found = wish->number != NULL ? 0 : find_named(tape, word, numbers);
    if (found > 1) {
        complain_choices(folder, word, numbers, found);
        return false;
    }
    *number = numbers[0];
    bool is_number = found == 0 && read_number(word, number);
    if (found == 1 || (is_number && *number < tape->files))
        return true;
    if (tape->refusal != 0)
        before = " among those that stand whole before the wrong label";
    complain("%s: %s: no file has this %s%s", folder, word, is_number ? "number" : "name", before);
    return false;
}

struct extraction {
    const struct ansi_tape *tape;
    struct ansi_file file;
};

static int write_blocks(const struct output *output, const void *data)
{
    const struct extraction *this = data;
    bool written = true;
    if (!has_room(output, this->file.bytes))
        return FAILED;
    for (uint64_t i = 0; written && i < this->file.blocks; i++) {
        struct bytes block = this->tape->elements[this->file.element + i].block;
        written = fwrite(block.start, 1, block.length, output->file) == block.length && !is_stopped();
    }
    if (written && fflush(output->file) == 0)
        return DONE;
    complain_output(output);
    return FAILED;
}

static int extract(const char *folder, const struct ansi_tape *tape, const struct wish *wish)
{
    uint64_t number;
    if (tape->refusal != 0 && tape->files == 0) {
        fprintf(stderr, "klapouzen: ");
        print_bytes(stderr, bytes_of(folder));
        fputs(": ", stderr);
        print_ansi_refusal(stderr, tape, "; ");
        fputc('\n', stderr);
        return NOT_SO;
    }
    if (!find_wished(folder, tape, wish, &number))
        return NOT_SO;
    struct extraction extraction = { tape, ansi_file(tape, number) };
    return write_output(wish->output, NULL, write_blocks, &extraction);
}

/* ---- The command ---- */

static int ansi(const struct volume *volume, const void *data)
{
    const struct wish *wish = data;
    struct ansi_tape tape;
    ansi_open(&tape, &volume->sides[INDEX]);
    int status = tape.refusal == 0 ? DONE : NOT_SO;
    if (wish->file != NULL || wish->number != NULL)
        status = extract(volume->folder, &tape, wish);
    else if (wish->json)
        print_object(volume->folder, &tape);
    else
        print_list(volume->folder, &tape);
    ansi_close(&tape);
    return status;
}

/* What is wrong with the options and the words beside them; NULL where nothing is. */
static const char *misuse(const struct wish *wish, int words)
{
    bool extracts = wish->file != NULL || wish->number != NULL;
    if (wish->file != NULL && wish->number != NULL)
        return "--extract or --number wanted, not both";
    if (extracts && wish->json)
        return "--json lists, and --extract and --number do not";
    if (!extracts && words != 1)
        return "one folder wanted";
    if (words < 1 || words > 2)
        return "a folder and a new file wanted";
    return NULL;
}

int run_ansi(struct words *words)
{
    struct wish wish = { .json = false };
    uint64_t number;
    const struct option options[] = {
        { "extract", &wish.file, NULL }, { "number", &wish.number, NULL },
        { "json", NULL, &wish.json },    { NULL, NULL, NULL },
    };
    int status = take_options(words, options, help);
    if (status != GO_ON)
        return status;
    const char *wrong = misuse(&wish, words->count);
    if (wrong != NULL)
        return bad_use(help, wrong, "");
    if (wish.number != NULL && !read_number(wish.number, &number))
        return bad_use(help, "not a file's number", wish.number);
    wish.output = words->count == 2 ? words->words[1] : NULL;
    return on_tape(words->words[0], ansi, &wish);
}
