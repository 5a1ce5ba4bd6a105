/* The form check and the index reader beside expat and libxml2, on the same texts. */
#include <expat.h>
#include <libxml/parser.h>
#include <libxml/xmlreader.h>
#include <stdio.h>
#include <stdlib.h>

#include "bench.h"
#include "clock.h"
#include "collect.h"
#include "klapouzen.h"
#include "shapes.h"

static void need(bool holds, const char *what)
{
    if (!holds) {
        fprintf(stderr, "%s refused the text\n", what);
        exit(1);
    }
}

/* ---- Form only ---- */

void form_by_library(const void *input)
{
    const struct buffer *text = input;
    uint64_t front;
    need(klapouzen_check_form(text->bytes, text->length, &front) == 0, "the form check");
}

static void XMLCALL no_start(void *data, const XML_Char *name, const XML_Char **attributes)
{
    (void)data, (void)name, (void)attributes;
}

static void XMLCALL no_end(void *data, const XML_Char *name)
{
    (void)data, (void)name;
}

static void XMLCALL no_text(void *data, const XML_Char *text, int length)
{
    (void)data, (void)text, (void)length;
}

void form_by_expat(const void *input)
{
    const struct buffer *text = input;
    XML_Parser parser = XML_ParserCreate(NULL);
    XML_SetElementHandler(parser, no_start, no_end);
    XML_SetCharacterDataHandler(parser, no_text);
    need(XML_Parse(parser, (const char *)text->bytes, (int)text->length, 1) == XML_STATUS_OK, "expat");
    XML_ParserFree(parser);
}

static void no_sax_start(void *data, const xmlChar *name, const xmlChar *prefix, const xmlChar *uri,
                         int namespaces, const xmlChar **namespace_list, int attributes, int defaulted,
                         const xmlChar **attribute_list)
{
    (void)data, (void)name, (void)prefix, (void)uri, (void)namespaces, (void)namespace_list;
    (void)attributes, (void)defaulted, (void)attribute_list;
}

static void no_sax_end(void *data, const xmlChar *name, const xmlChar *prefix, const xmlChar *uri)
{
    (void)data, (void)name, (void)prefix, (void)uri;
}

static void no_sax_text(void *data, const xmlChar *text, int length)
{
    (void)data, (void)text, (void)length;
}

static void run_sax(const void *input)
{
    const struct buffer *text = input;
    xmlSAXHandler handler = {
        .initialized = XML_SAX2_MAGIC, .startElementNs = no_sax_start, .endElementNs = no_sax_end,
        .characters = no_sax_text, .ignorableWhitespace = no_sax_text,
    };
    need(xmlSAXUserParseMemory(&handler, NULL, (const char *)text->bytes, (int)text->length) == 0, "SAX");
}

static void run_reader(const void *input)
{
    const struct buffer *text = input;
    xmlTextReaderPtr reader = xmlReaderForMemory((const char *)text->bytes, (int)text->length, NULL, NULL,
                                                 XML_PARSE_NONET | XML_PARSE_HUGE);
    int more = 1;
    while (more == 1)
        more = xmlTextReaderRead(reader);
    need(more == 0, "xmlReader");
    xmlFreeTextReader(reader);
}

/* ---- Whole indexes ---- */

#define GIVEN(text) (text)->bytes, (text)->length, (const uint8_t *)SAMPLE_UUID, 36, 'a', 'b', 4096, 'a', 5

static void run_index(const void *input)
{
    uint64_t header[KLAPOUZEN_INDEX];
    need(klapouzen_read_index(GIVEN((const struct buffer *)input), header) == 0, "the index reader");
}

/* Room for all that a text of the most bytes can hold, so that no header is read before. */
enum { MOST_ROWS = KLAPOUZEN_MAX_INDEX / 128 };

static uint64_t entries[KLAPOUZEN_ENTRY * KLAPOUZEN_MAX_ENTRIES], rows[KLAPOUZEN_ROW * MOST_ROWS];
static uint8_t names[KLAPOUZEN_MAX_INDEX];

/* The names too, since the other parsers hand them out decoded. */
void whole_by_library(const void *input)
{
    const struct buffer *text = input;
    uint64_t header[KLAPOUZEN_INDEX], used = 0, length;
    need(klapouzen_read_whole(GIVEN(text), entries, sizeof entries / sizeof entries[0], rows,
                              sizeof rows / sizeof rows[0], header) == 0, "the reader of whole indexes");
    uint64_t count = header[KLAPOUZEN_INDEX_DIRECTORIES] + header[KLAPOUZEN_INDEX_FILES];
    for (const uint64_t *entry = entries; entry < entries + KLAPOUZEN_ENTRY * count; entry += KLAPOUZEN_ENTRY) {
        need(klapouzen_decode(text->bytes + entry[KLAPOUZEN_ENTRY_NAME], entry[KLAPOUZEN_ENTRY_NAME_LENGTH],
                              names + used, sizeof names - used, &length) == 0, "the decoder");
        used += length;
    }
}

static void collect_with(bool (*parser)(struct collector *, const uint8_t *, size_t), const void *input,
                         const char *name)
{
    const struct buffer *text = input;
    struct collector collector;
    need(parser(&collector, text->bytes, text->length), name);
    collect_free(&collector);
}

static void run_expat_collecting(const void *input)
{
    collect_with(collect_by_expat, input, "expat");
}

static void run_sax_collecting(const void *input)
{
    collect_with(collect_by_sax, input, "SAX");
}

static void run_reader_collecting(const void *input)
{
    collect_with(collect_by_reader, input, "xmlReader");
}

/* ---- Tables ---- */

static struct contestant form[] = {
    { "form check", form_by_library, 0 }, { "expat", form_by_expat, 0 }, { "libxml2 SAX", run_sax, 0 },
    { "libxml2 xmlReader", run_reader, 0 },
};

static struct contestant headers[] = {
    { "index read", run_index, 0 }, { "expat", run_expat_collecting, 0 },
    { "libxml2 SAX", run_sax_collecting, 0 }, { "libxml2 xmlReader", run_reader_collecting, 0 },
};

static struct contestant whole[] = {
    { "whole read", whole_by_library, 0 }, { "expat", run_expat_collecting, 0 },
    { "libxml2 SAX", run_sax_collecting, 0 }, { "libxml2 xmlReader", run_reader_collecting, 0 },
};

enum { CONTESTANTS = 4 };

/* Time and speed of the first, then time and ratio of the others to it. */
static void print_row(const struct shape *shape, size_t size, struct contestant *contestants)
{
    struct buffer made = shape->make(size), *text = &made;
    measure(contestants, CONTESTANTS, text);
    printf("%-9s %8zu", shape->name, text->length);
    for (int i = 0; i < CONTESTANTS; i++) {
        double seconds = contestants[i].seconds;
        if (i == 0)
            printf("  %9.1f us %6.0f MB/s", 1e6 * seconds, 1e-6 * (double)text->length / seconds);
        else
            printf("  %9.1f us %6.2fx", 1e6 * seconds, seconds / contestants[0].seconds);
    }
    putchar('\n');
    buffer_free(text);
}

/* Up to the last of these shapes. */
static void print_table(const char *what, struct contestant *contestants, int last)
{
    static const size_t sizes[] = { 65536, 262144, 1048576 };
    printf("\n%s\n%-9s %8s", what, "text", "bytes");
    for (int i = 0; i < CONTESTANTS; i++)
        printf("  %20s", contestants[i].name);
    putchar('\n');
    for (size_t i = 0; i < sizeof sizes / sizeof sizes[0]; i++)
        for (int shape = FLAT; shape <= INDENTED; shape++)
            print_row(&shapes[shape], sizes[i], contestants);
    for (int shape = NESTED; shape <= last; shape++)
        print_row(&shapes[shape], KLAPOUZEN_MAX_INDEX, contestants);
}

void bench_texts(void)
{
    printf("%s, libxml2 %s\n", XML_ExpatVersion(), LIBXML_DOTTED_VERSION);
    print_table("Form only. The form check: all of document 01's form. The others: well-formedness, with handlers"
                " that do nothing.", form, KANJI);
    print_table("Headers. The index read: form, structure, counts, values, letters, extents, place; header answered."
                "\nThe others as in the next table.", headers, NESTED);
    print_table("Whole indexes, the same handed out by all: header, directories and files with parents, fileuids, decoded"
                " names and\nlengths, rows. The whole read: klapouzen_read_whole, which checks what the index read"
                " checks, and klapouzen_decode for each\nname, to memory that is there. The others: well-formedness; all"
                " of this collected to memory that grows, none of it checked.",
                whole, NESTED);
    xmlCleanupParser();
}
