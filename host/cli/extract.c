/* klapouzen extract: a file's bytes through the byte map. */
#include <errno.h>
#include <inttypes.h>
#include <stdlib.h>
#include <string.h>
#include <unistd.h>

#include "commands.h"
#include "common.h"
#include "output.h"
#include "pieces.h"
#include "signals.h"
#include "words.h"

static const char help[] =
    "usage: klapouzen extract [--construct N] [--data] [--holes] [--output OUT] DIR (FILE | --number N)\n"
    "\n"
    "Writes a file's bytes, zeros where nothing is stored. FILE is the file's path as\n"
    "`klapouzen files` lists it, which may begin with / or ./ too; or where no file has this\n"
    "path the file's name alone, if only one file has it; or where none has it and it is a\n"
    "number, the file with that number in the list.\n"
    "\n"
    "Of a file with bytes on unreadable blocks it says which these are, and writes nothing.\n"
    "\n"
    "  --number N     the file with this number, whatever paths and names there are\n"
    "  --output OUT   to a new file OUT, whole or not at all, and not to standard output\n"
    "  --holes        such a file too, with zeros for these bytes, so that all others are in\n"
    "                 their places; and the new file OUT.gaps, a line for each gap: its\n"
    "                 first byte in the file, how many bytes it has, the partition's letter,\n"
    "                 and the number of the unreadable block. Without --output the list goes\n"
    "                 to standard error. A file without gaps is written as without --holes\n"
    CHOICE_HELP
    "  --help         this text\n"
    "\n"
    "What is not stored takes no space in OUT, nor in a regular file that standard output\n"
    "writes at the end of (`> FILE`, not `>> FILE`); all else is sent zeros. Nothing is\n"
    "written where the stored bytes are more than the space that is free.\n"
    "\n"
    "Exit status: 0 written, 1 refused, no such file, or its bytes are not on the tape,\n"
    "2 bad use or a file that can't be read or written, 3 written with gaps (--holes).\n";

/* What the name of the list of gaps adds to that of the file. */
#define GAPS ".gaps"

struct extraction {
    const struct volume *volume;
    const struct chosen *chosen;
    uint64_t length; /* of the file */
    const struct pieces *pieces;
    const struct output *output;
};

/* ---- Which file ---- */

/* Where a file is looked for: the index, all that it holds, and what was given. */
struct search {
    const struct volume *volume;
    const struct chosen *chosen;
    const struct contents *contents;
    const char *word;
};

/* A path or a name, told of an entry. */
typedef struct bytes told(const struct contents *contents, uint64_t entry);

/* How many files, or directories, have this path or name, and the last of them. */
static uint64_t count_called(const struct search *search, enum entry_kind kind, told *told, struct bytes wanted,
                             uint64_t *entry)
{
    uint64_t found = 0;
    for (uint64_t i = 0; i < search->contents->count; i++)
        if (is_file(search->contents, i) == (kind == REGULAR) && are_same(told(search->contents, i), wanted)) {
            *entry = i;
            found++;
        }
    return found;
}

/* What was given without each / and ./ before it: a path as the library tells it. */
static struct bytes given_path(const char *word)
{
    while (word[0] == '/' || strncmp(word, "./", 2) == 0)
        word += word[0] == '/' ? 1 : 2;
    return bytes_of(word);
}

/* A directory may have a / behind its path. */
static bool is_directory(const struct search *search)
{
    uint64_t entry;
    struct bytes path = given_path(search->word);
    while (path.length > 0 && path.start[path.length - 1] == '/')
        path.length--;
    return count_called(search, DIRECTORY, path_of, path, &entry) > 0;
}

/* The index is named, since in a later one it may be otherwise. */
static bool complain_file(const struct search *search, const char *what, const char *way)
{
    complain("%s: %s: %s in index %" PRIu64 " of the %s partition%s", search->volume->folder, search->word, what,
             search->chosen->construct, search->volume->sides[search->chosen->side].name, way);
    return false;
}

static bool find_number(const struct search *search, uint64_t number, uint64_t *entry)
{
    return find_numbered(search->contents, number, entry) || complain_file(search, "no file has this number", "");
}

/* A name is taken only where no file has it as its path, a number where nothing has it as its name. */
static bool find_file(const struct search *search, uint64_t *entry)
{
    bool is_bare = strchr(search->word, '/') == NULL;
    uint64_t number, found = count_called(search, REGULAR, path_of, given_path(search->word), entry);
    if (found > 1)
        return complain_file(search, "several files have this path", "; give --number");
    if (found == 0 && is_bare)
        found = count_called(search, REGULAR, name_of, bytes_of(search->word), entry);
    if (found > 1)
        return complain_file(search, "several files have this name", "; give the path, or --number");
    if (found == 1)
        return true;
    bool is_number = read_number(search->word, &number);
    if (is_directory(search))
        return complain_file(search, "this is a directory", is_number ? "; --number gives the file" : "");
    if (is_number)
        return find_number(search, number, entry);
    return complain_file(search, is_bare ? "no file has this path or name" : "no file has this path", "");
}

/* ---- Writing ---- */

static bool write_zeros(FILE *out, uint64_t count)
{
    static const uint8_t zeros[65536];
    while (count > 0) {
        size_t length = count < sizeof zeros ? (size_t)count : sizeof zeros;
        if (fwrite(zeros, 1, length, out) != length)
            return false;
        count -= length;
    }
    return true;
}

/* The count is within off_t where gaps are skipped. */
static bool write_gap(const struct output *output, uint64_t count)
{
    if (count == 0)
        return true;
    return output->skips_gaps ? fseeko(output->file, (off_t)count, SEEK_CUR) == 0
                              : write_zeros(output->file, count);
}

static bool write_piece(const struct output *output, const struct piece *piece)
{
    if (is_lost(piece))
        return write_gap(output, piece->length);
    struct bytes stored = piece->stored;
    return fwrite(stored.start, 1, stored.length, output->file) == stored.length && !is_stopped();
}

/* The file ends where the last gap does. */
static bool end_file(const struct output *output)
{
    FILE *file = output->file;
    if (fflush(file) != 0)
        return false;
    return !output->skips_gaps || ftruncate(fileno(file), ftello(file)) == 0;
}

/* The pieces, each behind the zeros before it, and the zeros behind the last. */
static bool write_file(const struct extraction *this)
{
    const struct output *output = this->output;
    uint64_t position = 0;
    for (size_t i = 0; i < this->pieces->count; i++) {
        const struct piece *piece = &this->pieces->all[i];
        if (!write_gap(output, piece->position - position) || !write_piece(output, piece))
            return false;
        position = piece->position + piece->length;
    }
    return write_gap(output, this->length - position) && end_file(output);
}

/* ---- Gaps: what is on unreadable blocks ---- */

/* A line for each: first byte, number of bytes, partition, element. */
static void write_gaps(FILE *out, const struct pieces *pieces)
{
    for (size_t i = 0; i < pieces->count; i++) {
        const struct piece *piece = &pieces->all[i];
        if (is_lost(piece))
            fprintf(out, "%" PRIu64 " %" PRIu64 " %c %" PRIu64 "\n", piece->position, piece->length,
                    piece->letter, piece->block);
    }
}

/* "12,288 of 150,000 bytes of the file could not be read", to be freed. */
static char *lost_words(const struct extraction *this)
{
    return format_text("%s of %s bytes of the file could not be read", grouped(this->pieces->lost),
                       grouped(this->length));
}

static void complain_gap(const struct extraction *this, const struct piece *piece)
{
    bool on_index = piece->letter == this->chosen->label.letters[INDEX];
    const char *side = this->volume->sides[on_index ? INDEX : DATA].name;
    complain("%s: position %" PRIu64 " of the file, %s byte%s: block %" PRIu64
             " is unreadable (%s side: %s.list)",
             this->volume->folder, piece->position, grouped(piece->length),
             piece->length == 1 ? "" : "s", piece->block, side, side);
}

/* Why nothing is written: a line for each gap. */
static int complain_gaps(const struct extraction *this)
{
    for (size_t i = 0; i < this->pieces->count; i++)
        if (is_lost(&this->pieces->all[i]))
            complain_gap(this, &this->pieces->all[i]);
    char *words = lost_words(this);
    complain("%s: %s; --holes writes the others, and zeros for these", this->volume->folder, words);
    free(words);
    return NOT_SO;
}

/* What was written. Of standard output the list of gaps is told here, since it has no file. */
static void report_gaps(const struct extraction *this, const char *path)
{
    char *words = lost_words(this);
    if (path != NULL) {
        complain("%s: %s; %s has zeros for them, and %s" GAPS " lists them", this->volume->folder, words,
                 path, path);
    } else {
        complain("%s: %s; zeros were written for them. Position, bytes, partition, block:",
                 this->volume->folder, words);
        write_gaps(stderr, this->pieces);
    }
    free(words);
}

/* ---- Where it goes ---- */

static bool fits(const struct extraction *this)
{
    const struct output *output = this->output;
    if (output->is_regular && this->length > INT64_MAX) {
        complain("%s: %s", output->path, strerror(EFBIG));
        return false;
    }
    return has_room(output, output->skips_gaps ? this->pieces->stored : this->length);
}

static int write_to(const struct output *output, const void *data)
{
    struct extraction this = *(const struct extraction *)data;
    this.output = output;
    if (!fits(&this))
        return FAILED;
    if (!write_file(&this)) {
        complain_output(output);
        return FAILED;
    }
    if (output->list != NULL)
        write_gaps(output->list, this.pieces);
    return DONE;
}

/* With gaps: the list is in its place before the file is, which so never stands without it. */
static int write_holed(const struct extraction *this, const char *path)
{
    char *list = path != NULL ? format_text("%s" GAPS, path) : NULL;
    /* A file that is there is said to have gaps, whatever signal comes; but standard output may be a full pipe. */
    if (list != NULL)
        hold_signals();
    int status = write_output(path, list, write_to, this);
    if (status == DONE)
        report_gaps(this, path);
    if (list != NULL)
        release_signals();
    free(list);
    return status == DONE ? HOLED : status;
}

/* ---- The command ---- */

struct wish {
    struct choice choice;
    const char *file, *number, *output; /* the number as given, or NULL */
    bool holes;
};

/* The file's entry; false where there is no such file, which was said. */
static bool find_wished(const struct volume *volume, const struct chosen *chosen,
                        const struct contents *contents, const struct wish *wish, uint64_t *entry)
{
    struct search search = { volume, chosen, contents, wish->number != NULL ? wish->number : wish->file };
    uint64_t number;
    if (wish->number == NULL)
        return find_file(&search, entry);
    return read_number(wish->number, &number) && find_number(&search, number, entry);
}

static int write_wished(const struct extraction *extraction, const struct wish *wish)
{
    if (extraction->pieces->gaps == 0)
        return write_output(wish->output, NULL, write_to, extraction);
    return wish->holes ? write_holed(extraction, wish->output) : complain_gaps(extraction);
}

static int extract_from(const struct volume *volume, const struct chosen *chosen, const struct contents *contents,
                        const struct wish *wish)
{
    struct pieces pieces;
    uint64_t entry;
    if (!find_wished(volume, chosen, contents, wish, &entry)
        || !pieces_read(&pieces, volume, chosen, contents, entry))
        return NOT_SO;
    struct extraction extraction = {
        .volume = volume, .chosen = chosen, .length = entry_of(contents, entry)[KLAPOUZEN_ENTRY_LENGTH],
        .pieces = &pieces,
    };
    int status = write_wished(&extraction, wish);
    pieces_free(&pieces);
    return status;
}

static int extract(const struct volume *volume, const void *data)
{
    const struct wish *wish = data;
    struct chosen chosen;
    struct contents contents;
    int status = choose_index(volume, &wish->choice, &chosen);
    if (status != GO_ON)
        return status;
    read_chosen(&chosen, &contents);
    status = extract_from(volume, &chosen, &contents, wish);
    contents_free(&contents);
    return status;
}

int run_extract(struct words *words)
{
    struct wish wish = { .output = NULL };
    uint64_t number;
    const struct option options[] = {
        CHOICE_OPTIONS(wish.choice), { "output", &wish.output, NULL },
        { "number", &wish.number, NULL }, { "holes", NULL, &wish.holes }, { NULL, NULL, NULL },
    };
    int status = take_options(words, options, help);
    if (status != GO_ON)
        return status;
    if (words->count != (wish.number == NULL ? 2 : 1))
        return bad_use(help, "a folder and a file wanted", "");
    if (wish.number != NULL && !read_number(wish.number, &number))
        return bad_use(help, "not a file's number", wish.number);
    wish.file = words->words[1];
    return on_volume(words->words[0], extract, &wish);
}
