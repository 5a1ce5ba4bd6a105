/* klapouzen label: VOL1 and LTFS labels, written to new files. */
#include <errno.h>
#include <inttypes.h>
#include <stdio.h>
#include <string.h>
#include <sys/random.h>
#include <time.h>
#include <unistd.h>

#include "commands.h"
#include "common.h"
#include "draft.h"
#include "signals.h"
#include "volume.h"
#include "words.h"

static const char help[] =
    "usage: klapouzen label --identifier ID --creator TEXT [OPTION..] (--into DIR | VOL1 LABEL)\n"
    "\n"
    "Writes the labels of both partitions, a VOL1 label and an LTFS label, version 2.0.1,\n"
    "of each, to a new folder; or those of one partition to two new files, VOL1 and LABEL.\n"
    "All are written or none is. Prints identifier, UUID and time. Behind a semicolon\n"
    "stands what is taken where an option is not given.\n"
    "\n"
    "  --into DIR         both partitions, to the new folder DIR: index.vol1, index.label,\n"
    "                     data.vol1 and data.label\n"
    "  --fresh            with --into: as a cartridge that has nothing but its labels:\n"
    "                     index.list, index.store, data.list and data.store\n"
    "  --identifier ID    volume identifier, 6 characters\n"
    "  --owner TEXT       owner, up to 14 characters, filled up with spaces; none\n"
    "  --creator TEXT     who writes the label, 1 to 255 bytes\n"
    "  --time TIME        format time as 2026-11-15T20:00:00.000000000Z; now\n"
    "  --uuid UUID        8-4-4-4-12 hex digits; a new random one\n"
    "  --location LETTER  without --into: the label's own partition; the index partition\n"
    "  --index LETTER     the index partition; a\n"
    "  --data LETTER      the data partition; b\n"
    "  --block-size N     4096 to 1048576; 524288\n"
    "  --compression B    true or false; true\n"
    "  --help             this text\n"
    "\n"
    "The two partitions of a volume must have the same UUID and time: two runs with VOL1\n"
    "and LABEL need both given.\n"
    "\n"
    "Exit status: 0 written, 1 a field is refused, 2 bad use or a file that can't be\n"
    "written.\n";

struct fields {
    const char *identifier, *owner, *creator, *time, *uuid;
    const char *location, *index, *data, *block_size, *compression;
};

/* The creator grows at most fivefold by its references. */
enum { LABEL_ROOM = 2048, OWNER = 14 };

/* ---- What a partition begins with ---- */

/* A VOL1 label, a mark, an LTFS label, a mark. */
struct front {
    uint8_t store[KLAPOUZEN_VOL1_LENGTH + LABEL_ROOM];
    uint8_t list[12];
    uint64_t label_length;
};

static struct bytes vol1_of(const struct front *front)
{
    return (struct bytes){ front->store, KLAPOUZEN_VOL1_LENGTH };
}

static struct bytes label_of(const struct front *front)
{
    return (struct bytes){ front->store + KLAPOUZEN_VOL1_LENGTH, front->label_length };
}

static struct side side_of(const struct front *front)
{
    return (struct side){
        .list = { front->list, sizeof front->list },
        .store = { front->store, KLAPOUZEN_VOL1_LENGTH + front->label_length },
    };
}

static uint64_t write_vol1(const struct fields *fields, struct front *front)
{
    char owner[OWNER + 1];
    uint64_t length;
    struct bytes identifier = bytes_of(fields->identifier), given = bytes_of(fields->owner);
    snprintf(owner, sizeof owner, "%-*s", OWNER, fields->owner);
    if (given.length < OWNER)
        given = bytes_of(owner);
    return klapouzen_write_vol1(front->store, KLAPOUZEN_VOL1_LENGTH, SLICE(identifier),
                                SLICE(given), &length);
}

/* A word of one letter; 0, which is none, for any other. */
static uint8_t letter_of(const char *word)
{
    return strlen(word) == 1 ? (uint8_t)word[0] : 0;
}

static uint64_t compression_of(const char *word)
{
    return strcmp(word, "true") == 0 ? 1 : strcmp(word, "false") == 0 ? 0 : 2;
}

static uint64_t write_label(const struct fields *fields, const char *location, struct front *front)
{
    struct bytes creator = bytes_of(fields->creator), time = bytes_of(fields->time);
    struct bytes uuid = bytes_of(fields->uuid);
    uint64_t block_size;
    if (!read_number(fields->block_size, &block_size))
        block_size = 0;
    return klapouzen_write_label(front->store + KLAPOUZEN_VOL1_LENGTH, LABEL_ROOM, SLICE(creator),
                                 SLICE(time), SLICE(uuid), letter_of(location),
                                 letter_of(fields->index), letter_of(fields->data), block_size,
                                 compression_of(fields->compression), &front->label_length);
}

static void write_list(struct front *front)
{
    uint8_t high = (uint8_t)(front->label_length >> 8), low = (uint8_t)front->label_length;
    const uint8_t list[] = { 2, 0, 0, 0, KLAPOUZEN_VOL1_LENGTH, 1, 2, 0, 0, high, low, 1 };
    memcpy(front->list, list, sizeof front->list);
}

static int refused(const char *what, uint64_t refusal)
{
    complain("refused %" PRIu64 ": %s (%s)", refusal, klapouzen_refusal_text(refusal), what);
    return NOT_SO;
}

/* Answers GO_ON, or says what is refused. */
static int make_front(const struct fields *fields, const char *location, struct front *front)
{
    uint64_t refusal = write_vol1(fields, front);
    if (refusal != 0)
        return refused("VOL1: identifier or owner", refusal);
    refusal = write_label(fields, location, front);
    if (refusal != 0)
        return refused("LTFS label: creator, time, UUID, letters, block size or compression", refusal);
    write_list(front);
    return GO_ON;
}

/* ---- Writing ---- */

static bool write_both(char *const paths[2], const struct front *front)
{
    struct draft drafts[2];
    struct bytes vol1 = vol1_of(front), label = label_of(front);
    if (!draft_begin(&drafts[0], paths[0]))
        return false;
    if (!draft_begin(&drafts[1], paths[1])) {
        draft_drop(&drafts[0]);
        return false;
    }
    fwrite(vol1.start, 1, vol1.length, drafts[0].file);
    fwrite(label.start, 1, label.length, drafts[1].file);
    return draft_finish_both(&drafts[0], &drafts[1]);
}

static int write_files(const struct fields *fields, char *const paths[2])
{
    struct front front;
    const char *location = fields->location != NULL ? fields->location : fields->index;
    int status = make_front(fields, location, &front);
    if (status != GO_ON)
        return status;
    return write_both(paths, &front) ? DONE : FAILED;
}

static bool add_blocks(struct draft *draft, const struct front fronts[2])
{
    return draft_add(draft, "index.vol1", vol1_of(&fronts[INDEX]))
        && draft_add(draft, "index.label", label_of(&fronts[INDEX]))
        && draft_add(draft, "data.vol1", vol1_of(&fronts[DATA]))
        && draft_add(draft, "data.label", label_of(&fronts[DATA]));
}

static bool add_cartridge(struct draft *draft, const struct front fronts[2])
{
    return draft_add_sides(draft, (struct side[]){ side_of(&fronts[INDEX]), side_of(&fronts[DATA]) });
}

static int write_folder(const struct fields *fields, const char *path, bool is_fresh)
{
    struct front fronts[2];
    struct draft draft;
    int status = make_front(fields, fields->index, &fronts[INDEX]);
    if (status == GO_ON)
        status = make_front(fields, fields->data, &fronts[DATA]);
    if (status != GO_ON)
        return status;
    if (!draft_begin_folder(&draft, path))
        return FAILED;
    if ((is_fresh ? add_cartridge : add_blocks)(&draft, fronts))
        return draft_finish(&draft) ? DONE : FAILED;
    draft_drop(&draft);
    return FAILED;
}

/* ---- The command ---- */

static const char *now(void)
{
    static char text[40];
    time_t seconds = time(NULL);
    strftime(text, sizeof text, "%Y-%m-%dT%H:%M:%S.000000000Z", gmtime(&seconds));
    return text;
}

/* A random UUID, version 4; NULL where the kernel has no random bytes, which is said. */
static const char *new_uuid(void)
{
    static char text[40];
    uint8_t bytes[16];
    if (getrandom(bytes, sizeof bytes, 0) != sizeof bytes) {
        complain("no random bytes for a UUID: %s", strerror(errno));
        return NULL;
    }
    bytes[6] = (uint8_t)((bytes[6] & 0x0f) | 0x40);
    bytes[8] = (uint8_t)((bytes[8] & 0x3f) | 0x80);
    char *end = text;
    for (int i = 0; i < 16; i++)
        end += sprintf(end, i >= 4 && i <= 10 && i % 2 == 0 ? "-%02x" : "%02x", bytes[i]);
    return text;
}

/* What is wrong with the options and the words beside them; NULL where nothing is. */
static const char *misuse(const struct fields *fields, const char *into, bool is_fresh, int words)
{
    if (fields->identifier == NULL || fields->creator == NULL)
        return "identifier and creator wanted";
    if (into == NULL && is_fresh)
        return "--fresh needs --into";
    if (into != NULL && fields->location != NULL)
        return "--into writes both partitions: no --location";
    if (words != (into == NULL ? 2 : 0))
        return "two new files wanted, or --into alone";
    return NULL;
}

static int write_all(const struct fields *fields, const char *into, bool is_fresh, char **paths)
{
    /* Files that are there are said to be there, whatever signal comes. */
    hold_signals();
    int status = into != NULL ? write_folder(fields, into, is_fresh) : write_files(fields, paths);
    if (status == DONE) {
        printf("%s  %s  %s\n", fields->identifier, fields->uuid, fields->time);
        fflush(stdout);
    }
    release_signals();
    return status;
}

int run_label(struct words *words)
{
    const char *into = NULL;
    bool is_fresh = false;
    struct fields fields = {
        .owner = "", .index = "a", .data = "b", .block_size = "524288", .compression = "true",
    };
    const struct option options[] = {
        { "identifier", &fields.identifier, NULL }, { "owner", &fields.owner, NULL },
        { "creator", &fields.creator, NULL },       { "time", &fields.time, NULL },
        { "uuid", &fields.uuid, NULL },             { "location", &fields.location, NULL },
        { "index", &fields.index, NULL },           { "data", &fields.data, NULL },
        { "block-size", &fields.block_size, NULL }, { "compression", &fields.compression, NULL },
        { "into", &into, NULL },                    { "fresh", NULL, &is_fresh },
        { NULL, NULL, NULL },
    };
    int status = take_options(words, options, help);
    if (status != GO_ON)
        return status;
    const char *wrong = misuse(&fields, into, is_fresh, words->count);
    if (wrong != NULL)
        return bad_use(help, wrong, "");
    if (fields.time == NULL)
        fields.time = now();
    if (fields.uuid == NULL && (fields.uuid = new_uuid()) == NULL)
        return FAILED;
    return write_all(&fields, into, is_fresh, words->words);
}
