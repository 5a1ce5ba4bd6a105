#include "volume.h"

#include <errno.h>
#include <fcntl.h>
#include <stdlib.h>
#include <string.h>
#include <sys/stat.h>
#include <unistd.h>

#include "common.h"

/* ---- Reading files ---- */

/* Reads at most `most` bytes of an open file; false where reading fails. */
static bool read_front(FILE *file, size_t most, struct bytes *bytes)
{
    size_t room = 65536, length = 0;
    uint8_t *start = allocate(room);
    while (length < most) {
        if (length == room)
            start = reallocate(start, room *= 2);
        size_t wanted = room < most ? room - length : most - length;
        size_t got = fread(start + length, 1, wanted, file);
        if (got == 0)
            break;
        length += got;
    }
    bytes->start = start;
    bytes->length = length;
    return !ferror(file);
}

/*
 * Opens a file for reading, without waiting for one that isn't regular. NULL
 * where there is none; where it can't be read says so and sets *readable false.
 */
static FILE *open_regular(const char *path, bool *readable)
{
    struct stat status;
    int descriptor = open(path, O_RDONLY | O_NONBLOCK | O_CLOEXEC);
    bool opened = descriptor >= 0 && fstat(descriptor, &status) == 0;
    *readable = opened ? S_ISREG(status.st_mode) : errno == ENOENT;
    if (!*readable)
        complain("%s: %s", path, opened ? "not a regular file" : strerror(errno));
    if (opened && *readable)
        return fdopen(descriptor, "rb");
    if (descriptor >= 0)
        close(descriptor);
    return NULL;
}

/* A file that isn't there leaves the bytes without a start. */
static bool read_file(const char *path, size_t bound, struct bytes *bytes)
{
    bool readable;
    FILE *file = open_regular(path, &readable);
    if (file == NULL)
        return readable;
    /* One byte past a bound is enough for the library to refuse it. */
    readable = read_front(file, bound + 1, bytes);
    if (!readable)
        complain("%s: %s", path, strerror(errno));
    fclose(file);
    return readable;
}

static bool read_side(const char *folder, struct side *side)
{
    char *list = format_text("%s/%s.list", folder, side->name);
    char *store = format_text("%s/%s.store", folder, side->name);
    bool readable = read_file(list, KLAPOUZEN_MAX_LIST, &side->list)
        && read_file(store, KLAPOUZEN_MAX_STORE, &side->store);
    free(list);
    free(store);
    return readable;
}

static bool is_there(const struct side *side)
{
    return side->list.start != NULL || side->store.start != NULL;
}

static bool is_folder(const char *path)
{
    struct stat status;
    if (stat(path, &status) != 0) {
        complain("%s: %s", path, strerror(errno));
        return false;
    }
    if (!S_ISDIR(status.st_mode)) {
        complain("%s: not a folder", path);
        return false;
    }
    return true;
}

/* The sides from the index side on to the last one wanted. */
static bool open_sides(struct volume *volume, const char *folder, int last)
{
    *volume = (struct volume){
        .folder = folder,
        .sides = { { .name = "index" }, { .name = "data" } },
    };
    bool readable = is_folder(folder), there = false;
    for (int side = INDEX; readable && side <= last; side++) {
        readable = read_side(folder, &volume->sides[side]);
        there = there || is_there(&volume->sides[side]);
    }
    if (readable && !there)
        complain("%s: no cartridge here: no %s", folder,
                 last == INDEX ? "index.list or index.store"
                               : "index.list, index.store, data.list or data.store");
    if (readable && there)
        return true;
    volume_close(volume);
    return false;
}

bool volume_open(struct volume *volume, const char *folder)
{
    return open_sides(volume, folder, DATA);
}

void volume_close(struct volume *volume)
{
    for (int side = INDEX; side <= DATA; side++) {
        free((void *)volume->sides[side].list.start);
        free((void *)volume->sides[side].store.start);
    }
}

static int on_sides(const char *folder, int last,
                    int (*use)(const struct volume *volume, const void *wish), const void *wish)
{
    struct volume volume;
    if (!open_sides(&volume, folder, last))
        return FAILED;
    int status = use(&volume, wish);
    volume_close(&volume);
    return status;
}

int on_volume(const char *folder, int (*use)(const struct volume *volume, const void *wish),
              const void *wish)
{
    return on_sides(folder, DATA, use, wish);
}

int on_tape(const char *folder, int (*use)(const struct volume *volume, const void *wish),
            const void *wish)
{
    return on_sides(folder, INDEX, use, wish);
}

/* ---- Parts ---- */

struct bytes part_of(struct bytes whole, uint64_t offset, uint64_t length)
{
    return (struct bytes){ .start = whole.start + offset, .length = length };
}

struct element take_element(struct bytes *list)
{
    const uint8_t *at = list->start;
    struct element element = { .kind = at[0] };
    if (element.kind == BLOCK)
        element.length = (uint64_t)at[1] << 24 | (uint64_t)at[2] << 16 | (uint64_t)at[3] << 8 | at[4];
    size_t size = element.kind == BLOCK ? 5 : 1;
    *list = part_of(*list, size, list->length - size);
    return element;
}

uint64_t count_unreadable(struct bytes list)
{
    uint64_t count = 0;
    while (list.length > 0)
        count += take_element(&list).kind == UNREADABLE_BLOCK;
    return count;
}

struct unreadable unreadable_read(struct bytes list)
{
    struct unreadable found = { 0, allocate((KLAPOUZEN_MAX_ELEMENTS + 1) * sizeof(uint32_t)) };
    found.before[0] = 0;
    while (list.length > 0) {
        uint64_t at = found.elements++;
        found.before[at + 1] = found.before[at] + (take_element(&list).kind == UNREADABLE_BLOCK);
    }
    return found;
}

void unreadable_free(struct unreadable *unreadable)
{
    free(unreadable->before);
}

uint32_t unreadable_before(const struct unreadable *unreadable, uint64_t element)
{
    return unreadable->before[element < unreadable->elements ? element : unreadable->elements];
}

bool unreadable_at(const struct unreadable *unreadable, uint64_t element)
{
    return element < unreadable->elements && unreadable->before[element + 1] > unreadable->before[element];
}

/* ---- Asking the library ---- */

struct bytes block_of(const struct side *side, uint64_t number)
{
    /* As the index side of a tape that has no other, so that the other side's list can't refuse it. */
    uint64_t out[KLAPOUZEN_BLOCK];
    if (klapouzen_block(SIDE(side), NULL, 0, NULL, 0, 'a', 'b', 'a', number, out) != 0)
        return (struct bytes){ NULL, 0 };
    return part_of(side->store, out[KLAPOUZEN_BLOCK_OFFSET], out[KLAPOUZEN_BLOCK_LENGTH]);
}

static void read_vol1(const struct volume *volume, struct label *label)
{
    uint64_t out[KLAPOUZEN_VOL1];
    struct bytes block = block_of(&volume->sides[INDEX], VOL1_ELEMENT);
    klapouzen_read_vol1(SLICE(block), out);
    label->identifier = part_of(block, out[KLAPOUZEN_VOL1_IDENTIFIER],
                                out[KLAPOUZEN_VOL1_IDENTIFIER_LENGTH]);
    label->owner = part_of(block, out[KLAPOUZEN_VOL1_OWNER], out[KLAPOUZEN_VOL1_OWNER_LENGTH]);
}

/* Of labels that agree. */
static struct bytes read_data_uuid(const struct volume *volume)
{
    uint64_t out[KLAPOUZEN_LABEL];
    struct bytes block = block_of(&volume->sides[DATA], LABEL_ELEMENT);
    klapouzen_read_label(SLICE(block), out);
    return part_of(block, out[KLAPOUZEN_LABEL_UUID], out[KLAPOUZEN_LABEL_UUID_LENGTH]);
}

uint64_t read_labels(const struct volume *volume, struct label *label)
{
    uint64_t out[KLAPOUZEN_LABELS];
    uint64_t refusal = klapouzen_check_labels(VOLUME(volume), out);
    *label = (struct label){ 0 };
    if (refusal != 0)
        return refusal;
    struct bytes store = volume->sides[INDEX].store;
    read_vol1(volume, label);
    label->creator = part_of(store, out[KLAPOUZEN_LABEL_CREATOR],
                             out[KLAPOUZEN_LABEL_CREATOR_LENGTH]);
    label->time = part_of(store, out[KLAPOUZEN_LABEL_TIME], out[KLAPOUZEN_LABEL_TIME_LENGTH]);
    label->uuid = part_of(store, out[KLAPOUZEN_LABEL_UUID], out[KLAPOUZEN_LABEL_UUID_LENGTH]);
    label->data_uuid = read_data_uuid(volume);
    label->block_size = out[KLAPOUZEN_LABEL_BLOCK_SIZE];
    label->release = out[KLAPOUZEN_LABEL_RELEASE];
    label->letters[INDEX] = (uint8_t)out[KLAPOUZEN_LABEL_INDEX_LETTER];
    label->letters[DATA] = (uint8_t)out[KLAPOUZEN_LABEL_DATA_LETTER];
    label->compression = out[KLAPOUZEN_LABEL_COMPRESSION] != 0;
    return 0;
}

bool has_two_spellings(const struct label *label)
{
    return memcmp(label->uuid.start, label->data_uuid.start, label->uuid.length) != 0;
}

uint64_t read_constructs(const struct side *side, uint64_t block_size,
                         struct constructs *constructs)
{
    return klapouzen_constructs(SIDE(side), block_size, constructs->table, &constructs->count);
}

const uint32_t *construct_row(const struct constructs *constructs, uint64_t number)
{
    return constructs->table + KLAPOUZEN_CONSTRUCT * number;
}

struct place construct_place(const struct volume *volume, const struct label *label,
                             int side, const uint32_t *row)
{
    uint32_t begin = row[KLAPOUZEN_CONSTRUCT_BEGIN];
    return (struct place){
        .text = part_of(volume->sides[side].store, begin, row[KLAPOUZEN_CONSTRUCT_END] - begin),
        .letter = label->letters[side],
        .block = row[KLAPOUZEN_CONSTRUCT_FIRST_BLOCK],
    };
}

uint64_t read_index_at(const struct label *label, const struct place *place,
                       uint64_t header[KLAPOUZEN_INDEX])
{
    /* The row of a construct with an unreadable block is told by this alone. */
    if (place->text.length == 0) {
        memset(header, 0, KLAPOUZEN_INDEX * sizeof *header);
        return KLAPOUZEN_UNREADABLE_BLOCK;
    }
    return klapouzen_read_index(INDEX_AT(label, place), header);
}

struct refused index_refused(const struct label *label, const struct place *place)
{
    uint64_t header[KLAPOUZEN_INDEX];
    uint64_t number = read_index_at(label, place, header);
    return (struct refused){ number, place->text, header[KLAPOUZEN_INDEX_FRONT] };
}
