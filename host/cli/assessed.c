#include "assessed.h"

#include <inttypes.h>

#include "text_place.h"
#include "words.h"

void print_assessed(const struct volume *volume, const struct assessment *found)
{
    print_bytes(stdout, bytes_of(volume->folder));
    fputs("  ", stdout);
    if (found->refusal == 0) {
        fputs(colour_code(stdout, BOLD), stdout);
        print_bytes(stdout, found->label.identifier);
        printf("%s  ", colour_code(stdout, PLAIN));
        print_bytes(stdout, found->label.uuid);
        fputs("  ", stdout);
    }
    print_outcome(stdout, volume, found);
    if (found->refusal == 0) {
        fputs("; ", stdout);
        print_cut_clause(stdout, found);
        fputs(has_two_spellings(&found->label) ? "; its labels spell the UUID differently" : "", stdout);
    }
    if (has_unreadable(found)) {
        printf("; %s", colour_code(stdout, RED));
        print_unreadable_blocks(stdout, found);
        fputs(colour_code(stdout, PLAIN), stdout);
    }
}

/* ---- JSON ---- */

/* With 4: where the text goes wrong. */
static void print_json_place(const struct refused *refused)
{
    if (refused->number != KLAPOUZEN_BAD_FORM)
        return;
    fputs(",\"place\":{", stdout);
    print_json_text_place(stdout, refused->text, refused->front);
    putchar('}');
}

static void print_json_refusal(const struct volume *volume, uint64_t refusal)
{
    struct origin origin = origin_of(volume, refusal);
    struct refused refused = volume_refused(volume);
    printf(",\"verdict\":\"refused\",\"refusal\":{\"number\":%" PRIu64 ",\"text\":\"%s\","
           "\"side\":\"%s\",\"file\":\"%s\"",
           refusal, klapouzen_refusal_text(refusal), origin.side, origin.file);
    print_json_place(&refused);
    putchar('}');
}

/* Of an ANSI labelled tape: its identifier, its files, and where it is refused as such. */
void print_json_ansi(const struct volume *volume, uint64_t refusal)
{
    struct ansi_tape tape;
    if (!is_ansi(volume, refusal, &tape))
        return;
    fputs(",\"ansi\":{", stdout);
    print_json_name(stdout, "identifier", ansi_volume(&tape).identifier);
    printf(",\"files\":%" PRIu64 ",\"refusal\":", tape.files);
    if (tape.refusal == 0)
        fputs("null}", stdout);
    else
        printf("{\"number\":%" PRIu64 ",\"text\":\"%s\",\"place\":%" PRIu64 "}}", tape.refusal,
               klapouzen_refusal_text(tape.refusal), tape.place);
    ansi_close(&tape);
}

static void print_json_labels(const struct label *label)
{
    fputs(",\"identifier\":", stdout);
    print_json(stdout, label->identifier);
    fputs(",\"uuid\":", stdout);
    print_json(stdout, label->uuid);
    fputs(",\"data_uuid\":", stdout);
    print_json(stdout, label->data_uuid);
}

/* Of break 3 and 4: why the index is not sound; null where it is. */
static void print_json_broken_index(const struct assessment *found)
{
    const struct refused *index = &found->broken_index;
    if (!names_index(found))
        return;
    if (index->number == 0) {
        fputs(",\"refusal\":null", stdout);
        return;
    }
    printf(",\"refusal\":{\"number\":%" PRIu64 ",\"text\":\"%s\"", index->number,
           klapouzen_refusal_text(index->number));
    print_json_place(index);
    putchar('}');
}

static void print_json_verdict(const struct volume *volume, const struct assessment *found)
{
    struct contents contents;
    uint64_t entry;
    if (is_consistent(found)) {
        fputs(",\"verdict\":\"consistent\"", stdout);
        return;
    }
    printf(",\"verdict\":\"break\",\"break\":{\"which\":%" PRIu64 ",\"number\":%" PRIu64 ",\"text\":\"",
           found->verdict[KLAPOUZEN_BREAK_WHICH], found->verdict[KLAPOUZEN_BREAK_NUMBER]);
    print_break(stdout, found->verdict, &found->broken_index);
    putchar('"');
    print_json_broken_index(found);
    if (find_broken_file(volume, found, &contents, &entry)) {
        fputs(",\"path\":", stdout);
        print_json(stdout, path_of(&contents, entry));
        contents_free(&contents);
    }
    putchar('}');
}

/* A number of each list; null where the list is malformed. */
static void print_json_sides(const struct assessment *found, const char *key, const uint64_t numbers[2])
{
    static const char *const names[] = { "{\"index\":", ",\"data\":" };
    printf(",\"%s\":", key);
    for (int side = INDEX; side <= DATA; side++) {
        fputs(names[side], stdout);
        if (found->malformed[side])
            fputs("null", stdout);
        else
            printf("%" PRIu64, numbers[side]);
    }
    putchar('}');
}

static void print_json_elements(const struct assessment *found)
{
    print_json_sides(found, "elements", found->elements);
    print_json_sides(found, "unreadable_blocks", found->unreadable);
}

static void print_json_cut(const struct assessment *found)
{
    if (!found->has_cut) {
        fputs(",\"cut\":null", stdout);
        return;
    }
    const uint64_t *cut = found->cut;
    uint64_t index = kept_elements(found, INDEX), data = kept_elements(found, DATA);
    printf(",\"cut\":{\"index_construct\":%" PRIu64 ",\"data_construct\":%" PRIu64,
           cut[KLAPOUZEN_CUT_INDEX_CONSTRUCT], cut[KLAPOUZEN_CUT_DATA_CONSTRUCT]);
    printf(",\"index_kept\":%" PRIu64 ",\"index_dropped\":%" PRIu64, index,
           found->elements[INDEX] - index);
    printf(",\"data_kept\":%" PRIu64 ",\"data_dropped\":%" PRIu64, data,
           found->elements[DATA] - data);
    printf(",\"generation\":%" PRIu64 "}", cut[KLAPOUZEN_CUT_GENERATION]);
}

void print_assessed_json(const struct volume *volume, const struct assessment *found)
{
    putchar('{');
    print_json_name(stdout, "folder", bytes_of(volume->folder));
    if (found->refusal != 0) {
        print_json_refusal(volume, found->refusal);
        print_json_ansi(volume, found->refusal);
        print_json_elements(found);
    } else {
        print_json_labels(&found->label);
        print_json_verdict(volume, found);
        print_json_elements(found);
        print_json_cut(found);
    }
    putchar('}');
}
