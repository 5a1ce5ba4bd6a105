/* The collector fed by expat, by libxml2's SAX interface and by its reader. */
#include <expat.h>
#include <libxml/parser.h>
#include <libxml/xmlreader.h>
#include <string.h>

#include "collect.h"

/* ---- expat ---- */

static void XMLCALL expat_start(void *collector, const XML_Char *name, const XML_Char **attributes)
{
    (void)attributes;
    collect_start(collector, name);
}

static void XMLCALL expat_end(void *collector, const XML_Char *name)
{
    (void)name;
    collect_end(collector);
}

static void XMLCALL expat_text(void *collector, const XML_Char *text, int length)
{
    collect_text(collector, text, (size_t)length);
}

bool collect_by_expat(struct collector *collector, const uint8_t *text, size_t length)
{
    XML_Parser parser = XML_ParserCreate(NULL);
    collect_begin(collector);
    XML_SetUserData(parser, collector);
    XML_SetElementHandler(parser, expat_start, expat_end);
    XML_SetCharacterDataHandler(parser, expat_text);
    bool taken = XML_Parse(parser, (const char *)text, (int)length, 1) == XML_STATUS_OK;
    XML_ParserFree(parser);
    return taken;
}

/* ---- libxml2, SAX ---- */

static void sax_start(void *collector, const xmlChar *name, const xmlChar *prefix, const xmlChar *uri,
                      int namespaces, const xmlChar **namespace_list, int attributes, int defaulted,
                      const xmlChar **attribute_list)
{
    (void)prefix, (void)uri, (void)namespaces, (void)namespace_list;
    (void)attributes, (void)defaulted, (void)attribute_list;
    collect_start(collector, (const char *)name);
}

static void sax_end(void *collector, const xmlChar *name, const xmlChar *prefix, const xmlChar *uri)
{
    (void)name, (void)prefix, (void)uri;
    collect_end(collector);
}

static void sax_text(void *collector, const xmlChar *text, int length)
{
    collect_text(collector, (const char *)text, (size_t)length);
}

bool collect_by_sax(struct collector *collector, const uint8_t *text, size_t length)
{
    xmlSAXHandler handler = {
        .initialized = XML_SAX2_MAGIC, .startElementNs = sax_start, .endElementNs = sax_end,
        .characters = sax_text, .ignorableWhitespace = sax_text,
    };
    collect_begin(collector);
    return xmlSAXUserParseMemory(&handler, collector, (const char *)text, (int)length) == 0;
}

/* ---- libxml2, reader ---- */

static void reader_node(xmlTextReaderPtr reader, struct collector *collector)
{
    const char *value;
    switch (xmlTextReaderNodeType(reader)) {
    case XML_READER_TYPE_ELEMENT:
        collect_start(collector, (const char *)xmlTextReaderConstName(reader));
        if (xmlTextReaderIsEmptyElement(reader))
            collect_end(collector);
        break;
    case XML_READER_TYPE_END_ELEMENT:
        collect_end(collector);
        break;
    case XML_READER_TYPE_TEXT:
    case XML_READER_TYPE_WHITESPACE:
    case XML_READER_TYPE_SIGNIFICANT_WHITESPACE:
        value = (const char *)xmlTextReaderConstValue(reader);
        collect_text(collector, value, strlen(value));
        break;
    default:
        break;
    }
}

bool collect_by_reader(struct collector *collector, const uint8_t *text, size_t length)
{
    int options = XML_PARSE_NONET | XML_PARSE_NOERROR | XML_PARSE_NOWARNING | XML_PARSE_HUGE;
    xmlTextReaderPtr reader = xmlReaderForMemory((const char *)text, (int)length, NULL, NULL, options);
    int more;
    collect_begin(collector);
    while ((more = xmlTextReaderRead(reader)) == 1)
        reader_node(reader, collector);
    xmlFreeTextReader(reader);
    return more == 0;
}
