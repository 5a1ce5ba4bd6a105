/*
 * The form check beside other parsers: peers [CASES]. Every text that it accepts
 * expat and libxml2 accept, and expat with the tree of the reader of elements;
 * every text that it refuses and expat accepts is refused for one of document
 * 01's restrictions, which is named. No text's front goes on behind a byte that
 * either of them refuses. Lawful indexes say the same to other parsers' handlers
 * as to the index reader.
 */
#include <expat.h>
#include <inttypes.h>
#include <libxml/parser.h>
#include <stdio.h>
#include <stdlib.h>
#include <string.h>

#include "collect.h"
#include "klapouzen.h"
#include "trees.h"
#include "vectors.h"

static uint64_t texts, accepted, refused_by_both, trees, failures;

static void fail(const char *what, const uint8_t *text, size_t length)
{
    failures++;
    fprintf(stderr, "%s: %.*s\n", what, length < 2000 ? (int)length : 2000, (const char *)text);
}

/* ---- What expat sees in a text ---- */

enum restriction {
    DECLARATION, COMMENT, CDATA, DOCTYPE, INSTRUCTION, NUMBER_REFERENCE, NESTING, ATTRIBUTES, NAME, MIXED,
    RESTRICTIONS
};

static const char *const restriction_names[RESTRICTIONS] = {
    "another declaration than the 38 bytes", "a comment", "CDATA", "DOCTYPE", "an instruction",
    "a number reference", "nesting past 64", "more than one attribute", "a name outside the form",
    "children beside text",
};

static uint64_t named[RESTRICTIONS];

enum { DEEPEST = 4096 };

struct seen {
    bool restrictions[RESTRICTIONS];
    struct buffer tree, text;
    int depth;
    bool has_child[DEEPEST], has_text[DEEPEST];
};

/* ASCII letter, then letters, digits, `_`, `-`, `.`. */
static bool is_name(const char *name)
{
    static const char letters[] = "ABCDEFGHIJKLMNOPQRSTUVWXYZabcdefghijklmnopqrstuvwxyz";
    static const char more[] = "ABCDEFGHIJKLMNOPQRSTUVWXYZabcdefghijklmnopqrstuvwxyz0123456789_-.";
    return strspn(name, letters) > 0 && strspn(name, more) == strlen(name);
}

static void put_named(struct buffer *tree, char kind, const char *name)
{
    put_byte(tree, (uint8_t)kind, 1);
    put_bytes(tree, name, strlen(name));
}

static void put_attributes(struct seen *seen, const XML_Char **attributes)
{
    for (; attributes[0] != NULL; attributes += 2) {
        if (!is_name(attributes[0]))
            seen->restrictions[NAME] = true;
        put_named(&seen->tree, '@', attributes[0]);
        put(&seen->tree, "=");
        put_counted(&seen->tree, attributes[1], strlen(attributes[1]));
    }
}

static void XMLCALL on_start(void *data, const XML_Char *name, const XML_Char **attributes)
{
    struct seen *seen = data;
    seen->has_child[seen->depth] = true;
    seen->depth++;
    if (seen->depth >= DEEPEST)
        abort();
    seen->has_child[seen->depth] = seen->has_text[seen->depth] = false;
    if (seen->depth > KLAPOUZEN_MAX_NESTING)
        seen->restrictions[NESTING] = true;
    if (attributes[0] != NULL && attributes[2] != NULL)
        seen->restrictions[ATTRIBUTES] = true;
    if (!is_name(name))
        seen->restrictions[NAME] = true;
    put_named(&seen->tree, '(', name);
    put(&seen->tree, "\n");
    put_attributes(seen, attributes);
    seen->text.length = 0;
}

static void XMLCALL on_end(void *data, const XML_Char *name)
{
    struct seen *seen = data;
    (void)name;
    if (seen->has_child[seen->depth] && seen->has_text[seen->depth])
        seen->restrictions[MIXED] = true;
    if (!seen->has_child[seen->depth]) {
        put(&seen->tree, "\"");
        put_counted(&seen->tree, seen->text.bytes, seen->text.length);
    }
    put(&seen->tree, ")\n");
    seen->depth--;
}

static void XMLCALL on_text(void *data, const XML_Char *text, int length)
{
    struct seen *seen = data;
    for (int i = 0; i < length; i++)
        if (strchr(" \t\r\n", text[i]) == NULL)
            seen->has_text[seen->depth] = true;
    put_bytes(&seen->text, text, (size_t)length);
}

static void XMLCALL on_comment(void *data, const XML_Char *text)
{
    (void)text;
    ((struct seen *)data)->restrictions[COMMENT] = true;
}

static void XMLCALL on_cdata(void *data)
{
    ((struct seen *)data)->restrictions[CDATA] = true;
}

static void XMLCALL on_doctype(void *data, const XML_Char *name, const XML_Char *system,
                               const XML_Char *public, int internal)
{
    (void)name, (void)system, (void)public, (void)internal;
    ((struct seen *)data)->restrictions[DOCTYPE] = true;
}

static void XMLCALL on_instruction(void *data, const XML_Char *target, const XML_Char *text)
{
    (void)target, (void)text;
    ((struct seen *)data)->restrictions[INSTRUCTION] = true;
}

static bool see(struct seen *seen, const uint8_t *text, size_t length)
{
    static const char declaration[] = "<?xml version=\"1.0\" encoding=\"UTF-8\"?>";
    XML_Parser parser = XML_ParserCreate(NULL);
    XML_SetUserData(parser, seen);
    XML_SetElementHandler(parser, on_start, on_end);
    XML_SetCharacterDataHandler(parser, on_text);
    XML_SetCommentHandler(parser, on_comment);
    XML_SetStartCdataSectionHandler(parser, on_cdata);
    XML_SetStartDoctypeDeclHandler(parser, on_doctype);
    XML_SetProcessingInstructionHandler(parser, on_instruction);
    bool taken = XML_Parse(parser, (const char *)text, (int)length, 1) == XML_STATUS_OK;
    XML_ParserFree(parser);
    seen->restrictions[DECLARATION] = length < 38 || memcmp(text, declaration, 38) != 0;
    seen->restrictions[NUMBER_REFERENCE] = memmem(text, length, "&#", 2) != NULL;
    return taken;
}

/* ---- Judging a text ---- */

static bool libxml2_accepts(const uint8_t *text, size_t length)
{
    int options = XML_PARSE_NONET | XML_PARSE_NOERROR | XML_PARSE_NOWARNING | XML_PARSE_HUGE;
    xmlDocPtr document = xmlReadMemory((const char *)text, (int)length, NULL, NULL, options);
    xmlFreeDoc(document);
    return document != NULL;
}

static void fail_tree(const uint8_t *text, size_t length)
{
    fail("accepted, but expat has another tree", text, length);
}

static void judge_accepted(const struct seen *seen, bool taken, const uint8_t *text, size_t length)
{
    accepted++;
    if (!taken)
        fail("accepted, but not by expat", text, length);
    else
        tree_wanted(text, length, &seen->tree);
    if (many_trees_wanted())
        trees += compare_trees(fail_tree);
    if (!libxml2_accepts(text, length))
        fail("accepted, but not by libxml2", text, length);
}

static void judge_refused(const struct seen *seen, bool taken, const uint8_t *text, size_t length)
{
    bool is_named = false;
    if (!taken) {
        refused_by_both++;
        return;
    }
    for (int i = 0; i < RESTRICTIONS; i++) {
        named[i] += seen->restrictions[i];
        is_named = is_named || seen->restrictions[i];
    }
    if (!is_named)
        fail("refused, but expat accepts it and no restriction is named", text, length);
}

/* ---- Where a text goes wrong ---- */

/*
 * How many bytes a parser takes before it refuses one, whatever may come behind; all of them where it refuses none. They
 * are given one by one: the place that a parser says is for some errors the byte, for others where its tag begins.
 */
static size_t taken_by_expat(const uint8_t *text, size_t length)
{
    XML_Parser parser = XML_ParserCreate(NULL);
#if XML_MAJOR_VERSION > 2 || XML_MINOR_VERSION >= 6
    XML_SetReparseDeferralEnabled(parser, XML_FALSE);
#endif
    size_t taken = 0;
    while (taken < length && XML_Parse(parser, (const char *)text + taken, 1, 0) == XML_STATUS_OK)
        taken++;
    XML_ParserFree(parser);
    return taken;
}

static size_t taken_by_libxml2(const uint8_t *text, size_t length)
{
    xmlSAXHandler handler = { .initialized = XML_SAX2_MAGIC };
    xmlParserCtxtPtr parser = xmlCreatePushParserCtxt(&handler, NULL, NULL, 0, NULL);
    xmlCtxtUseOptions(parser, XML_PARSE_NONET | XML_PARSE_NOERROR | XML_PARSE_NOWARNING | XML_PARSE_HUGE);
    size_t taken = 0;
    while (taken < length) {
        xmlParseChunk(parser, (const char *)text + taken, 1, 0);
        if (!parser->wellFormed)
            break;
        taken++;
    }
    xmlFreeParserCtxt(parser);
    return taken;
}

/* The other parsers, in how many texts they refused a byte, and in how many it is the one behind the front. */
static struct {
    const char *name, *is_behind;
    size_t (*taken)(const uint8_t *text, size_t length);
    uint64_t places, same;
} refusing[] = {
    { "expat", "the front goes on behind a byte that expat refuses", taken_by_expat, 0, 0 },
    { "libxml2", "the front goes on behind a byte that libxml2 refuses", taken_by_libxml2, 0, 0 },
};

enum { REFUSING = sizeof refusing / sizeof refusing[0] };

/* The form is a part of XML: what begins no text of theirs begins none in the form. */
static void judge_front(const uint8_t *text, size_t length, uint64_t front)
{
    if (front > length)
        fail("the front goes on behind the text", text, length);
    for (int i = 0; i < REFUSING; i++) {
        size_t taken = refusing[i].taken(text, length);
        if (front > taken)
            fail(refusing[i].is_behind, text, length);
        refusing[i].places += taken < length;
        refusing[i].same += taken < length && front == taken;
    }
}

static void judge(const uint8_t *text, size_t length)
{
    struct seen *seen = calloc(1, sizeof *seen);
    bool taken = see(seen, text, length);
    uint64_t front;
    texts++;
    if (klapouzen_check_form(text, length, &front) == 0) {
        judge_accepted(seen, taken, text, length);
    } else {
        judge_refused(seen, taken, text, length);
        judge_front(text, length, front);
    }
    buffer_free(&seen->tree);
    buffer_free(&seen->text);
    free(seen);
}

/* ---- Indexes ---- */

#define GIVEN(text, random) \
    (text)->bytes[0], (text)->lengths[0], (text)->bytes[1], (text)->lengths[1], (uint8_t)(random)[0], \
        (uint8_t)(random)[1], (random)[2], (uint8_t)(random)[3], (random)[4]

/* A name as the index spells it, and as a parser decodes it. */
static bool same_name(const struct random_case *random, const uint64_t *entry, const struct collected *found,
                      const uint64_t *collected)
{
    uint64_t length = entry[KLAPOUZEN_ENTRY_NAME_LENGTH], count;
    uint8_t *name = malloc(length + 1);
    bool same = klapouzen_decode(random->bytes[0] + entry[KLAPOUZEN_ENTRY_NAME], length, name, length, &count) == 0
        && count == collected[KLAPOUZEN_ENTRY_NAME_LENGTH]
        && (count == 0 || memcmp(name, found->names.bytes + collected[KLAPOUZEN_ENTRY_NAME], count) == 0);
    free(name);
    return same;
}

/* All numbers of an entry but where its name is. */
static bool same_entry(const uint64_t *entry, const uint64_t *collected)
{
    for (int i = 0; i < KLAPOUZEN_ENTRY; i++)
        if (i != KLAPOUZEN_ENTRY_NAME && i != KLAPOUZEN_ENTRY_NAME_LENGTH && entry[i] != collected[i])
            return false;
    return true;
}

/* All entries and rows; a collector has them one behind another too. */
static bool same_whole(const struct random_case *random, const struct collected *found)
{
    size_t count = collected_entries(found), rows_size = found->rows.length;
    uint64_t *entries = malloc(count * KLAPOUZEN_ENTRY * sizeof *entries), *rows = malloc(rows_size + 1);
    uint64_t header[KLAPOUZEN_INDEX];
    bool same = klapouzen_read_whole(GIVEN(random, random->numbers), entries, KLAPOUZEN_ENTRY * count, rows,
                                     KLAPOUZEN_ROW * collected_rows(found), header) == 0
        && (rows_size == 0 || memcmp(rows, found->rows.bytes, rows_size) == 0);
    for (size_t i = 0; same && i < count; i++) {
        const uint64_t *entry = entries + KLAPOUZEN_ENTRY * i, *collected = collected_entry(found, i);
        same = same_entry(entry, collected) && same_name(random, entry, found, collected);
    }
    free(entries);
    free(rows);
    return same;
}

static bool same_index(const struct random_case *random, const struct collected *found,
                       const uint64_t header[KLAPOUZEN_INDEX])
{
    return header[KLAPOUZEN_INDEX_GENERATION] == found->generation
        && header[KLAPOUZEN_INDEX_LETTER] == found->place[0]
        && header[KLAPOUZEN_INDEX_BLOCK] == found->place[1]
        && header[KLAPOUZEN_INDEX_HAS_BACK] == found->has_back
        && header[KLAPOUZEN_INDEX_BACK_LETTER] == found->back[0]
        && header[KLAPOUZEN_INDEX_BACK_BLOCK] == found->back[1]
        && header[KLAPOUZEN_INDEX_POLICY_UPDATE] == found->policy_update
        && header[KLAPOUZEN_INDEX_HIGHEST_UID] == found->highest_uid
        && header[KLAPOUZEN_INDEX_DIRECTORIES] == found->directories
        && header[KLAPOUZEN_INDEX_FILES] == found->files
        && header[KLAPOUZEN_INDEX_ROWS] == collected_rows(found) && same_whole(random, found);
}

static uint64_t indexes;

static void judge_index(const struct random_case *random)
{
    static bool (*const parsers[])(struct collector *, const uint8_t *, size_t) = {
        collect_by_expat, collect_by_sax, collect_by_reader,
    };
    uint64_t header[KLAPOUZEN_INDEX];
    if (klapouzen_read_index(GIVEN(random, random->numbers), header) != 0)
        return;
    indexes++;
    for (int i = 0; i < 3; i++) {
        struct collector collector;
        if (!parsers[i](&collector, random->bytes[0], random->lengths[0])
            || !same_index(random, &collector.found, header))
            fail("an index says something else to another parser", random->bytes[0], random->lengths[0]);
        collect_free(&collector);
    }
}

/* ---- Texts ---- */

static void judge_line(const uint8_t *text, size_t length, bool in_form)
{
    uint64_t front;
    if ((klapouzen_check_form(text, length, &front) == 0) != in_form)
        fail("not as the case says", text, length);
    judge(text, length);
}

/* One text for each restriction, which expat accepts. */
static void judge_restrictions(void)
{
    static const char *const bodies[] = {
        "<a><!-- x --></a>", "<a><![CDATA[x]]></a>", "<!DOCTYPE a><a/>", "<a><?x y?></a>", "<a>&#65;</a>",
        "<a b='&#x41;'/>", "<a b='1' c='2'/>", "<_a/>", "<a:b/>", "<a>t<b/></a>", "<a>&amp;<b/></a>",
        "<\xc3\xa9/>", "<a \xc3\xa9='x'/>", "<!-- x --><a/>", "<a/><!-- x -->", "<a/><?x?>",
    };
    static const char *const whole[] = {
        "<a/>", "<?xml version='1.0' encoding='UTF-8'?><a/>", "<?xml version=\"1.0\"?><a/>",
        "<?xml version=\"1.0\" encoding=\"utf-8\"?><a/>", "\xef\xbb\xbf<?xml version=\"1.0\" encoding=\"UTF-8\"?><a/>",
        "<?xml version=\"1.0\" encoding=\"UTF-8\" standalone=\"yes\"?><a/>",
        "<?xml version=\"1.0\" encoding=\"ISO-8859-1\"?><a>\xe9</a>",
    };
    for (size_t i = 0; i < sizeof bodies / sizeof bodies[0]; i++) {
        struct buffer text = { 0 };
        put(&text, "<?xml version=\"1.0\" encoding=\"UTF-8\"?>%s", bodies[i]);
        judge_line(text.bytes, text.length, false);
        buffer_free(&text);
    }
    for (size_t i = 0; i < sizeof whole / sizeof whole[0]; i++)
        judge_line((const uint8_t *)whole[i], strlen(whole[i]), false);
}

static void judge_spelled(const struct random_case *text)
{
    judge_line(text->bytes[0], text->lengths[0], text->numbers[0] == 1);
}

static void judge_text(const struct random_case *text)
{
    judge(text->bytes[0], text->lengths[0]);
}

static void judge_whole_index(const struct random_case *index)
{
    judge(index->bytes[0], index->lengths[0]);
    judge_index(index);
}

static void judge_vectors(void)
{
    each_vector(TEXTS, judge_spelled);
    each_vector(LABELS, judge_text);
    each_vector(INDEXES, judge_whole_index);
}

static void judge_random(uint64_t cases)
{
    for (uint64_t seed = 0; seed < cases; seed++) {
        struct random_case form = random_form(seed), label = random_label(seed), index = random_index(seed);
        judge_text(&form);
        judge_text(&label);
        judge_whole_index(&index);
        random_free(form);
        random_free(label);
        random_free(index);
    }
}

int main(int count, char **words)
{
    judge_vectors();
    judge_restrictions();
    judge_random(count > 1 ? strtoull(words[1], NULL, 10) : 20000);
    trees += compare_trees(fail_tree);
    xmlCleanupParser();
    printf("%" PRIu64 " texts: %" PRIu64 " accepted by all, %" PRIu64 " refused by both; accepted by expat and refused for\n",
           texts, accepted, refused_by_both);
    for (int i = 0; i < RESTRICTIONS; i++) {
        printf("  %-40s %" PRIu64 "\n", restriction_names[i], named[i]);
        if (named[i] == 0)
            failures++;
    }
    for (int i = 0; i < REFUSING; i++) {
        printf("%" PRIu64 " bytes that %s refuses, %" PRIu64 " of them the one behind the front\n", refusing[i].places,
               refusing[i].name, refusing[i].same);
        failures += refusing[i].places == 0 || refusing[i].same == 0;
    }
    printf("%" PRIu64 " trees compared with expat's, %" PRIu64 " indexes with what expat and libxml2 say; %" PRIu64
           " failures\n", trees, indexes, failures);
    return failures > 0;
}
