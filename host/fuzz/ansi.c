/* A list and a store as an ANSI labelled tape: its files, where it leaves the layout, and what its fronts owe it. */
#include "lists.h"

#define TAPE(tape) SLICE((tape)->list), SLICE((tape)->store)

/* A file takes four blocks and three marks of the list, or more. */
enum { LEAST = 4 * 5 + 3, BEHIND = 16 };

struct tape {
    struct slice list, store;
};

static void must_all_be(uint8_t byte, const uint8_t *from, const uint8_t *to)
{
    for (; from < to; from++)
        must(*from == byte);
}

/* Into a buffer with this byte all over: a refusal leaves it so, an answer leaves what is past the files. */
static uint64_t read_files(const struct tape *tape, uint8_t *buffer, size_t room, uint8_t byte, uint64_t count[1])
{
    memset(buffer, byte, room + BEHIND);
    uint64_t refusal = answered(__LINE__, klapouzen_ansi(TAPE(tape), buffer, room, fill(count, 1)), count, 1);
    must(count[0] <= room / KLAPOUZEN_ANSI_FILE && count[0] <= KLAPOUZEN_MAX_ANSI_FILES);
    must_all_be(byte, buffer + KLAPOUZEN_ANSI_FILE * count[0], buffer + room + BEHIND);
    return refusal;
}

/* Room for all files that a tape can have. */
static size_t most_room(const struct tape *tape)
{
    return tape->list.length / LEAST * KLAPOUZEN_ANSI_FILE;
}

/* The refusal where there is room enough. */
static uint64_t judge(const struct tape *tape)
{
    uint64_t count[1];
    size_t room = most_room(tape);
    uint8_t *buffer = malloc(room + BEHIND);
    uint64_t refusal = read_files(tape, buffer, room, 0xa5, count);
    must(refusal != KLAPOUZEN_SHORT_OUTPUT);
    free(buffer);
    return refusal;
}

/* ---- Files ---- */

/* Their elements rise and lie on the tape, each behind a mark. */
static void try_elements(const struct tape *tape, const uint8_t *files, uint64_t count, uint64_t elements)
{
    uint64_t before = 0, kept[KLAPOUZEN_KEPT];
    for (uint64_t i = 0; i < count; i++) {
        const uint8_t *file = files + KLAPOUZEN_ANSI_FILE * i;
        struct slice number = { file + KLAPOUZEN_ANSI_ELEMENT, 8 };
        uint64_t element = take_number(&number, 8);
        must(element > before && element < elements);
        must(klapouzen_keep(TAPE(tape), element, kept) == 0 && tape->list.start[kept[KLAPOUZEN_KEPT_LIST] - 1] == 1);
        must(memchr("FDS", file[KLAPOUZEN_ANSI_FORMAT], 3) != NULL);
        for (int at = KLAPOUZEN_ANSI_BLOCK_LENGTH; at < KLAPOUZEN_ANSI_ELEMENT; at++)
            must(file[at] >= '0' && file[at] <= '9');
        before = element;
    }
}

/* Exactly their room is enough, a byte less is refused. */
static void try_rooms(const struct tape *tape, uint8_t *buffer, uint64_t files, size_t given)
{
    uint64_t count[1];
    size_t exact = KLAPOUZEN_ANSI_FILE * files;
    must(read_files(tape, buffer, exact, 0x3c, count) == 0 && count[0] == files);
    must(read_files(tape, buffer, exact - 1, 0x3c, count) == KLAPOUZEN_SHORT_OUTPUT);
    if (given <= most_room(tape))
        must(read_files(tape, buffer, given, 0x3c, count) == (given < exact ? KLAPOUZEN_SHORT_OUTPUT : 0));
}

/* The same answer, whatever the buffer held. */
static uint64_t try_files(const struct tape *tape, uint64_t elements, size_t given)
{
    uint64_t count[1], again[1];
    size_t room = most_room(tape);
    uint8_t *buffer = malloc(room + BEHIND), *other = malloc(room + BEHIND);
    uint64_t refusal = read_files(tape, buffer, room, 0xa5, count);
    must(read_files(tape, other, room, 0x5a, again) == refusal && again[0] == count[0]);
    if (refusal == 0) {
        must(count[0] > 0 && memcmp(buffer, other, KLAPOUZEN_ANSI_FILE * count[0]) == 0);
        try_elements(tape, buffer, count[0], elements);
        try_rooms(tape, other, count[0], given);
    }
    free(buffer);
    free(other);
    return refusal;
}

/* ---- Places ---- */

static struct tape front_of(const struct tape *tape, uint64_t elements)
{
    struct tape front = *tape;
    uint64_t kept[KLAPOUZEN_KEPT];
    must(klapouzen_keep(TAPE(tape), elements, kept) == 0);
    front.list.length = kept[KLAPOUZEN_KEPT_LIST];
    front.store.length = kept[KLAPOUZEN_KEPT_STORE];
    return front;
}

static uint64_t place_of(const struct tape *tape)
{
    uint64_t place[1];
    must(ANSWERED(klapouzen_ansi_place(TAPE(tape), FILLED(place)), place) == 0);
    return place[0];
}

/* The front up to the place is all right as far as it goes; with the next element it is refused as the tape is. */
static void try_place(const struct tape *tape, uint64_t elements, uint64_t refusal)
{
    uint64_t place = place_of(tape);
    struct tape front = front_of(tape, place);
    saw((unsigned)refusal, place);
    must(place <= elements);
    must(refusal != 0 || place == elements);
    must(place < elements || refusal == 0 || refusal == KLAPOUZEN_BAD_ANSI_LABELS);
    must(place_of(&front) == place);
    uint64_t of_front = judge(&front);
    must(of_front == 0 || of_front == KLAPOUZEN_BAD_ANSI_LABELS);
    if (place < elements) {
        front = front_of(tape, place + 1);
        must(place_of(&front) == place && judge(&front) == refusal);
    }
}

/* A tape in the layout without its last mark ends too early. */
static void try_without_last(const struct tape *tape, uint64_t elements)
{
    struct tape front = front_of(tape, elements - 1);
    must(front.store.length == tape->store.length);
    must(judge(&front) == KLAPOUZEN_BAD_ANSI_LABELS && place_of(&front) == elements - 1);
}

/* An unreadable block instead of element n, or behind the last: wrong where it stands, but behind a place that is. */
static void try_lost(const struct tape *tape, uint64_t elements, uint64_t n, uint64_t place, uint64_t refusal)
{
    if (n == elements && elements == KLAPOUZEN_MAX_ELEMENTS)
        return;
    struct own_side side = lose(&tape->list, &tape->store, n);
    struct tape lost = { side.list, side.store };
    must(place_of(&lost) == (n < place ? n : place));
    must(judge(&lost) == (n <= place ? KLAPOUZEN_BAD_ANSI_LABELS : refusal));
    free_side(&side);
}

int LLVMFuzzerTestOneInput(const uint8_t *input, size_t size)
{
    struct slice rest = { input, size };
    uint64_t elements[1], place[1], room = take_number(&rest, 2);
    struct tape tape;
    tape.list = take_slice(&rest);
    tape.store = rest;
    uint64_t list = klapouzen_check_list(TAPE(&tape), FILLED(elements));
    must(ANSWERED(klapouzen_ansi_place(TAPE(&tape), FILLED(place)), place) == list);
    uint64_t refusal = judged(try_files(&tape, elements[0], (size_t)room));
    must((refusal == KLAPOUZEN_BAD_LIST) == (list != 0));
    if (list != 0)
        return 0;
    must(refusal == 0 || (refusal >= KLAPOUZEN_BAD_ANSI_LABELS && refusal <= KLAPOUZEN_WRONG_BLOCK_COUNT));
    try_place(&tape, elements[0], refusal);
    try_lost(&tape, elements[0], room % (elements[0] + 1), place[0], refusal);
    if (refusal == 0)
        try_without_last(&tape, elements[0]);
    return 0;
}
