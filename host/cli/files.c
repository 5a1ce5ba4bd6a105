/* klapouzen files: what an index holds. */
#include <inttypes.h>

#include "chosen.h"
#include "commands.h"
#include "common.h"
#include "words.h"

static const char help[] =
    "usage: klapouzen files [--construct N] [--data] [--directories] [--json] DIR\n"
    "\n"
    "Lists the files of an index: number, length and path, and for each extent its\n"
    "partition, first block, offset there, bytes, and position in the file, and how many\n"
    "unreadable blocks it touches. A path begins below the root directory.\n"
    "\n"
    CHOICE_HELP
    "  --directories  the directories too, with a / behind their paths, empty ones among them\n"
    "  --json         one object a line, a file each, or with --directories a directory\n"
    "  --help         this text\n"
    "\n"
    "Exit status: 0 listed, 1 refused, 2 bad use or a file that can't be read.\n";

/* ---- Unreadable blocks ---- */

/* What is listed: an index with all that it holds, and the unreadable blocks of both sides. */
struct listing {
    const struct chosen *chosen;
    struct contents contents;
    struct unreadable sides[2];
};

/* How many unreadable blocks an extent touches. The sum of offset and count may pass 64 bits. */
static uint32_t unreadable_in(const struct listing *listing, const uint64_t *row)
{
    const struct label *label = &listing->chosen->label;
    const struct unreadable *side = &listing->sides[row[KLAPOUZEN_ROW_LETTER] == label->letters[INDEX] ? INDEX : DATA];
    uint64_t first = row[KLAPOUZEN_ROW_STARTBLOCK], behind = row[KLAPOUZEN_ROW_BYTECOUNT] - 1;
    uint64_t last = first + behind / label->block_size
        + (row[KLAPOUZEN_ROW_BYTEOFFSET] + behind % label->block_size) / label->block_size;
    return unreadable_before(side, last < UINT64_MAX ? last + 1 : last) - unreadable_before(side, first);
}

static uint64_t files_touching(const struct listing *listing)
{
    uint64_t touching = 0;
    for (uint64_t i = 0; i < listing->contents.count; i++) {
        const uint64_t *row = rows_of(&listing->contents, i);
        uint64_t left = entry_of(&listing->contents, i)[KLAPOUZEN_ENTRY_ROWS];
        while (left > 0 && unreadable_in(listing, row) == 0) {
            left--;
            row += KLAPOUZEN_ROW;
        }
        touching += left > 0;
    }
    return touching;
}

/* ---- The list ---- */

static void print_head(const struct listing *listing)
{
    const struct chosen *chosen = listing->chosen;
    const uint64_t *header = chosen->header;
    uint64_t touching = files_touching(listing);
    printf("index %" PRIu64 " of the %s partition, generation %" PRIu64 ", ", chosen->construct,
           chosen->side == INDEX ? "index" : "data", header[KLAPOUZEN_INDEX_GENERATION]);
    print_bytes(stdout, part_of(chosen->place.text, header[KLAPOUZEN_INDEX_TIME],
                                header[KLAPOUZEN_INDEX_TIME_LENGTH]));
    fputs(": ", stdout);
    print_counted(stdout, header[KLAPOUZEN_INDEX_DIRECTORIES], "directory", "directories");
    fputs(", ", stdout);
    print_counted(stdout, header[KLAPOUZEN_INDEX_FILES], "file", "files");
    if (touching > 0) {
        printf(", %s%s of them on unreadable blocks%s", colour_code(stdout, RED), grouped(touching),
               colour_code(stdout, PLAIN));
    }
    putchar('\n');
}

static void print_row(const struct listing *listing, const uint64_t *row)
{
    uint32_t unreadable = unreadable_in(listing, row);
    printf("%s        %c %s+%s, %s bytes at %s%s", colour_code(stdout, DIM),
           (char)row[KLAPOUZEN_ROW_LETTER], grouped(row[KLAPOUZEN_ROW_STARTBLOCK]),
           grouped(row[KLAPOUZEN_ROW_BYTEOFFSET]), grouped(row[KLAPOUZEN_ROW_BYTECOUNT]),
           grouped(row[KLAPOUZEN_ROW_FILEOFFSET]), colour_code(stdout, PLAIN));
    if (unreadable > 0) {
        printf(", %s", colour_code(stdout, RED));
        print_counted(stdout, unreadable, "unreadable block", "unreadable blocks");
        fputs(colour_code(stdout, PLAIN), stdout);
    }
    putchar('\n');
}

/* A directory has neither number nor length; the / behind its path is the root's whole path. */
static void print_entry(const struct listing *listing, uint64_t entry)
{
    const struct contents *contents = &listing->contents;
    const uint64_t *numbers = entry_of(contents, entry), *row = rows_of(contents, entry);
    bool file = is_file(contents, entry);
    if (file)
        printf("%s%6" PRIu64 "%s  %14s  ", colour_code(stdout, CYAN), numbers[KLAPOUZEN_ENTRY_FILE],
               colour_code(stdout, PLAIN), grouped(numbers[KLAPOUZEN_ENTRY_LENGTH]));
    else
        printf("%24s", "");
    print_bytes(stdout, path_of(contents, entry));
    puts(file ? "" : "/");
    for (uint64_t i = 0; i < numbers[KLAPOUZEN_ENTRY_ROWS]; i++)
        print_row(listing, row + KLAPOUZEN_ROW * i);
}

/* ---- JSON ---- */

static void print_json_names(const struct listing *listing, uint64_t entry)
{
    const struct contents *contents = &listing->contents;
    fputs("\"name\":", stdout);
    print_json(stdout, name_of(contents, entry));
    fputs(",\"path\":", stdout);
    print_json(stdout, path_of(contents, entry));
    printf(",\"fileuid\":%" PRIu64, entry_of(contents, entry)[KLAPOUZEN_ENTRY_UID]);
}

static void print_json_rows(const struct listing *listing, uint64_t entry)
{
    const uint64_t *row = rows_of(&listing->contents, entry);
    fputs(",\"extents\":[", stdout);
    for (uint64_t i = 0; i < entry_of(&listing->contents, entry)[KLAPOUZEN_ENTRY_ROWS]; i++, row += KLAPOUZEN_ROW)
        printf("%s{\"partition\":\"%c\",\"startblock\":%" PRIu64 ",\"byteoffset\":%" PRIu64
               ",\"bytecount\":%" PRIu64 ",\"fileoffset\":%" PRIu64 ",\"unreadable_blocks\":%" PRIu32 "}",
               i > 0 ? "," : "", (char)row[KLAPOUZEN_ROW_LETTER], row[KLAPOUZEN_ROW_STARTBLOCK],
               row[KLAPOUZEN_ROW_BYTEOFFSET], row[KLAPOUZEN_ROW_BYTECOUNT], row[KLAPOUZEN_ROW_FILEOFFSET],
               unreadable_in(listing, row));
    putchar(']');
}

static void print_object(const struct listing *listing, uint64_t entry)
{
    const uint64_t *numbers = entry_of(&listing->contents, entry);
    bool file = is_file(&listing->contents, entry);
    if (file)
        printf("{\"file\":%" PRIu64 ",\"length\":%" PRIu64 ",", numbers[KLAPOUZEN_ENTRY_FILE],
               numbers[KLAPOUZEN_ENTRY_LENGTH]);
    else
        fputs("{\"directory\":true,", stdout);
    print_json_names(listing, entry);
    if (file)
        print_json_rows(listing, entry);
    puts("}");
}

/* ---- The command ---- */

struct wish {
    struct choice choice;
    bool directories, json;
};

static void list_entries(const struct listing *listing, const struct wish *wish)
{
    if (!wish->json)
        print_head(listing);
    for (uint64_t i = 0; i < listing->contents.count; i++)
        if (wish->directories || is_file(&listing->contents, i))
            (wish->json ? print_object : print_entry)(listing, i);
}

static int files(const struct volume *volume, const void *data)
{
    const struct wish *wish = data;
    struct chosen chosen;
    int status = choose_index(volume, &wish->choice, &chosen);
    if (status != GO_ON)
        return status;
    struct listing listing = { .chosen = &chosen };
    read_chosen(&chosen, &listing.contents);
    for (int side = INDEX; side <= DATA; side++)
        listing.sides[side] = unreadable_read(volume->sides[side].list);
    list_entries(&listing, wish);
    for (int side = INDEX; side <= DATA; side++)
        unreadable_free(&listing.sides[side]);
    contents_free(&listing.contents);
    return DONE;
}

int run_files(struct words *words)
{
    struct wish wish = { .json = false };
    const struct option options[] = {
        CHOICE_OPTIONS(wish.choice), { "directories", NULL, &wish.directories }, { "json", NULL, &wish.json },
        { NULL, NULL, NULL },
    };
    int status = take_words(words, options, help, 1, "one folder wanted");
    return status == GO_ON ? on_volume(words->words[0], files, &wish) : status;
}
