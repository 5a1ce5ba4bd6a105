#include "finding.h"

#include <inttypes.h>

#include "open_elements.h"
#include "text_place.h"
#include "words.h"

/* ---- Elements ---- */

static bool is_index(const struct finding *finding)
{
    return finding->row != NULL;
}

static const struct side *tape_of(const struct finding *finding)
{
    return &finding->volume->sides[finding->side];
}

static struct origin origin(const struct finding *finding)
{
    uint64_t refusal = finding->refused.number;
    if (finding->side == BOTH)
        return origin_of(finding->volume, refusal);
    return origin_on(finding->volume, finding->side, refusal);
}

/* Of an index. */
static uint64_t first_block(const struct finding *finding)
{
    return finding->row[KLAPOUZEN_CONSTRUCT_FIRST_BLOCK];
}

/* The one before its closing mark, which is the last element that is kept. */
static uint64_t last_block(const struct finding *finding)
{
    return finding->row[KLAPOUZEN_CONSTRUCT_KEPT] - 2;
}

/* Whether it is a text that is refused: of labels not a list or VOL1, of an index not an unreadable block. */
static bool is_text(const struct finding *finding)
{
    uint64_t refusal = finding->refused.number;
    if (is_index(finding))
        return refusal != KLAPOUZEN_UNREADABLE_BLOCK;
    return (refusal >= KLAPOUZEN_BAD_FORM && refusal <= KLAPOUZEN_BAD_VERSION) || refusal == KLAPOUZEN_TOO_LONG;
}

/* The first byte of the text, from the store's beginning. */
static uint64_t begin_of(const struct finding *finding)
{
    return (uint64_t)(finding->refused.text.start - tape_of(finding)->store.start);
}

static void print_head(const struct finding *finding)
{
    fputs(colour_code(stdout, BOLD), stdout);
    if (!is_index(finding)) {
        print_origin(stdout, origin(finding));
    } else {
        uint64_t first = first_block(finding), last = last_block(finding);
        const char *name = tape_of(finding)->name;
        printf("%s side: %s.store, index construct %" PRIu64 ", element%s %" PRIu64, name, name, finding->construct,
               first == last ? "" : "s", first);
        if (first < last)
            printf("-%" PRIu64, last);
    }
    printf("%s\n", colour_code(stdout, PLAIN));
}

/* ---- Where a text goes wrong ---- */

/* The byte behind the front: on which block, and in the store. Where there is none, behind the last block's last. */
struct location {
    uint64_t element, byte, store_byte;
};

static struct location location_of(const struct finding *finding)
{
    uint64_t front = finding->refused.front;
    struct location location = { LABEL_ELEMENT, front, begin_of(finding) + front };
    if (!is_index(finding))
        return location;
    /* All blocks of an index but the last have the block size, or it would not stand. */
    uint64_t block_size = finding->label->block_size, blocks = last_block(finding) - first_block(finding);
    uint64_t before = front / block_size < blocks ? front / block_size : blocks;
    location.element = first_block(finding) + before;
    location.byte = front - before * block_size;
    return location;
}

static bool is_end(const struct refused *refused)
{
    return refused->front == refused->text.length;
}

static struct open_elements open_before(const struct refused *refused)
{
    return open_elements(part_of(refused->text, 0, refused->front));
}

/* Of a long name the front. */
static void print_tag(struct bytes name)
{
    enum { COLUMNS = 40 };
    struct bytes front = first_columns(name, COLUMNS);
    putchar('<');
    print_bytes(stdout, front);
    fputs(front.length < name.length ? "...>" : ">", stdout);
}

/* "found byte 0x26 '&' within <name>"; of a longer character it is "found byte 0xc3 of 'ü'". */
static void print_found(const struct refused *refused, struct bytes character, const struct open_elements *open)
{
    uint8_t byte = refused->text.start[refused->front];
    bool is_long = character.length > 1, is_behind = open->count == 0 && open->names[0].length > 0;
    printf("  found byte 0x%02x", byte);
    if (is_long || (byte >= ' ' && byte < 0x7f)) {
        fputs(is_long ? " of '" : " '", stdout);
        print_bytes(stdout, character);
        putchar('\'');
    }
    if (open->count > 0 || is_behind) {
        fputs(is_behind ? " behind the end of " : " within ", stdout);
        print_tag(open->names[is_behind ? 0 : open->count - 1]);
    }
    putchar('\n');
}

static void print_end(const struct open_elements *open)
{
    fputs("  the text ends there, too early: ", stdout);
    if (open->count == 0) {
        puts("no element is open yet");
        return;
    }
    print_counted(stdout, open->count, "element is open, ", "elements are open, the innermost is ");
    print_tag(open->names[open->count - 1]);
    putchar('\n');
}

static void print_place(const struct finding *finding)
{
    const struct refused *refused = &finding->refused;
    struct text_place place = text_place(refused->text, refused->front);
    struct location location = location_of(finding);
    struct open_elements open = open_before(refused);
    fputs("  ", stdout);
    print_text_place(stdout, refused->text, refused->front);
    fputs(" of a text of ", stdout);
    print_counted(stdout, refused->text.length, "byte", "bytes");
    printf("\n  byte %" PRIu64 " of element %" PRIu64 ", byte %" PRIu64 " of %s.store\n", location.byte,
           location.element, location.store_byte, tape_of(finding)->name);
    if (is_end(refused))
        print_end(&open);
    else
        print_found(refused, place.character, &open);
    print_marked_line(stdout, &place);
}

/* ---- What is known of other refusals ---- */

static void print_vol1_length(const struct finding *finding)
{
    struct bytes block = block_of(tape_of(finding), VOL1_ELEMENT);
    if (block.length != KLAPOUZEN_VOL1_LENGTH)
        printf("  the block has %s bytes, a VOL1 label has %d\n", grouped(block.length), KLAPOUZEN_VOL1_LENGTH);
}

/* The first elements of a list that has no labels. */
static void print_first_elements(const struct finding *finding)
{
    static const char *const kinds[] = { [MARK] = "mark", [BLOCK] = "block", [UNREADABLE_BLOCK] = "unreadable block" };
    struct bytes list = tape_of(finding)->list;
    fputs(list.length > 0 ? "  the list begins with " : "  the list is empty", stdout);
    for (int i = 0; i < LABEL_ELEMENTS && list.length > 0; i++) {
        fputs(kinds[take_element(&list).kind], stdout);
        fputs(list.length == 0 ? ", and ends there" : i + 1 < LABEL_ELEMENTS ? ", " : "", stdout);
    }
    putchar('\n');
}

/* Of an index; where labels disagree nothing is known of one side. */
static void print_volume(const struct finding *finding)
{
    if (!is_index(finding))
        return;
    const struct label *label = finding->label;
    fputs("  the volume's UUID is ", stdout);
    print_bytes(stdout, label->uuid);
    printf(", its partitions are %c and %c;\n  the index has another UUID, or a letter that is neither\n",
           label->letters[INDEX], label->letters[DATA]);
}

static void print_standing(const struct finding *finding)
{
    printf("  it stands at %c %" PRIu64 " and says another place; all else is right\n",
           finding->label->letters[finding->side], first_block(finding));
}

static void print_too_long(const struct finding *finding)
{
    uint64_t length = finding->refused.text.length;
    uint64_t most = is_index(finding) ? KLAPOUZEN_MAX_INDEX : KLAPOUZEN_MAX_LABEL;
    if (length > most)
        printf("  a text of at most %s bytes is read\n", grouped(most));
    else
        printf("  the text is not too long: it has over %s directories and files, or a file with over %s extents\n",
               grouped(KLAPOUZEN_MAX_ENTRIES), grouped(KLAPOUZEN_MAX_ROWS));
}

/* The numbers of an index's unreadable blocks. */
static void print_unreadable_numbers(const struct finding *finding, const char *between)
{
    const char *before = "";
    for (uint64_t element = first_block(finding); element <= last_block(finding); element++) {
        if (!unreadable_at(finding->unreadable, element))
            continue;
        printf("%s%" PRIu64, before, element);
        before = between;
    }
}

static void print_unreadable(const struct finding *finding)
{
    fputs("  unreadable, of ", stdout);
    print_counted(stdout, last_block(finding) - first_block(finding) + 1, "block: ", "blocks: ");
    print_unreadable_numbers(finding, ", ");
    putchar('\n');
}

/* By the order in which the library looks for refusals. */
static const char *what_is_right(uint64_t refusal)
{
    switch (refusal) {
    case KLAPOUZEN_BAD_STRUCTURE:
        return "  the text is in the XML form\n";
    case KLAPOUZEN_BAD_VERSION:
        return "  the text is in the XML form, and its root and attribute are right\n";
    case KLAPOUZEN_BAD_VALUE:
        return "  the text is in the XML form, and all its elements are right\n";
    case KLAPOUZEN_BAD_EXTENTS:
        return "  the text is in the XML form, and all its elements and values are right\n";
    default:
        return "";
    }
}

/* So that it can be looked at. */
static void print_text_location(const struct finding *finding)
{
    fputs("  its text is ", stdout);
    print_counted(stdout, finding->refused.text.length, "byte", "bytes");
    printf(" from byte %" PRIu64 " of %s.store on\n", begin_of(finding), tape_of(finding)->name);
}

static void print_known(const struct finding *finding)
{
    static void (*const printers[KLAPOUZEN_UNREADABLE_BLOCK + 1])(const struct finding *finding) = {
        [KLAPOUZEN_BAD_VOL1] = print_vol1_length, [KLAPOUZEN_BAD_FORM] = print_place,
        [KLAPOUZEN_DISAGREEMENT] = print_volume,  [KLAPOUZEN_NO_LABELS] = print_first_elements,
        [KLAPOUZEN_WRONG_PLACE] = print_standing, [KLAPOUZEN_TOO_LONG] = print_too_long,
        [KLAPOUZEN_UNREADABLE_BLOCK] = print_unreadable,
    };
    uint64_t refusal = finding->refused.number;
    fputs(what_is_right(refusal), stdout);
    if (printers[refusal] != NULL)
        printers[refusal](finding);
    if (is_text(finding) && refusal != KLAPOUZEN_BAD_FORM)
        print_text_location(finding);
}

void print_finding(const struct finding *finding)
{
    uint64_t refusal = finding->refused.number;
    print_head(finding);
    if (refusal == 0) {
        printf("  %ssound%s\n", colour_code(stdout, GREEN), colour_code(stdout, PLAIN));
        return;
    }
    printf("  %srefused %" PRIu64 "%s: %s\n", colour_code(stdout, RED), refusal, colour_code(stdout, PLAIN),
           klapouzen_refusal_text(refusal));
    print_known(finding);
}

/* ---- JSON ---- */

static void print_json_number(const char *key, bool is_known, uint64_t number)
{
    if (is_known)
        printf(",\"%s\":%" PRIu64, key, number);
    else
        printf(",\"%s\":null", key);
}

static void print_json_elements(const struct finding *finding)
{
    if (is_index(finding)) {
        printf(",\"construct\":%" PRIu64 ",\"element\":%" PRIu64 ",\"last_element\":%" PRIu64, finding->construct,
               first_block(finding), last_block(finding));
        return;
    }
    bool is_vol1 = finding->refused.number == KLAPOUZEN_BAD_VOL1, is_known = is_vol1 || is_text(finding);
    uint64_t element = is_vol1 ? VOL1_ELEMENT : LABEL_ELEMENT;
    fputs(",\"construct\":null", stdout);
    print_json_number("element", is_known, element);
    print_json_number("last_element", is_known, element);
}

static void print_json_place(const struct finding *finding)
{
    const struct refused *refused = &finding->refused;
    struct location location = location_of(finding);
    struct open_elements open = open_before(refused);
    fputs(",\"place\":{", stdout);
    print_json_text_place(stdout, refused->text, refused->front);
    printf(",\"element\":%" PRIu64 ",\"byte\":%" PRIu64 ",\"store_byte\":%" PRIu64, location.element, location.byte,
           location.store_byte);
    print_json_number("found", !is_end(refused), is_end(refused) ? 0 : refused->text.start[refused->front]);
    printf(",\"open\":%zu,\"within\":", open.count);
    if (open.count > 0)
        print_json(stdout, open.names[open.count - 1]);
    else
        fputs("null", stdout);
    putchar('}');
}

static void print_json_refusal(const struct finding *finding)
{
    uint64_t refusal = finding->refused.number;
    if (refusal == 0) {
        fputs(",\"refusal\":null", stdout);
        return;
    }
    printf(",\"refusal\":{\"number\":%" PRIu64 ",\"text\":\"%s\"", refusal, klapouzen_refusal_text(refusal));
    if (refusal == KLAPOUZEN_BAD_FORM)
        print_json_place(finding);
    if (refusal == KLAPOUZEN_UNREADABLE_BLOCK) {
        fputs(",\"unreadable\":[", stdout);
        print_unreadable_numbers(finding, ",");
        putchar(']');
    }
    putchar('}');
}

void print_json_finding(const struct finding *finding)
{
    struct origin from = origin(finding);
    putchar('{');
    print_json_name(stdout, "folder", bytes_of(finding->volume->folder));
    printf(",\"side\":\"%s\"", from.side);
    if (is_index(finding))
        printf(",\"file\":\"%s.store\"", from.side);
    else
        printf(",\"file\":\"%s\"", from.file);
    print_json_elements(finding);
    print_json_number("begin", is_text(finding), is_text(finding) ? begin_of(finding) : 0);
    print_json_number("length", is_text(finding), finding->refused.text.length);
    print_json_refusal(finding);
}
