// libxml2 in three ways: SAX, parsing alone; the reader with a streaming pattern for each path; the tree with a compiled XPath for each.
#include "bench.h"
#include <libxml/parser.h>
#include <libxml/pattern.h>
#include <libxml/xmlreader.h>
#include <libxml/xpath.h>

enum { OPTIONS = XML_PARSE_NONET | XML_PARSE_COMPACT | XML_PARSE_NOERROR };

static struct found last;

static void tell(const struct job *job, struct found *found)
{
    (void)job;
    *found = last;
}

// SAX

static xmlParserCtxtPtr sax;

static void start_element(void *data, const xmlChar *name, const xmlChar *prefix, const xmlChar *uri, int namespaces,
    const xmlChar **namespace_list, int attributes, int defaulted, const xmlChar **attribute_list)
{
    (void)data, (void)name, (void)prefix, (void)uri, (void)namespaces, (void)namespace_list, (void)attributes, (void)defaulted;
    (void)attribute_list;
    last.elements++;
}

static void prepare_sax(const struct job *job)
{
    (void)job;
    if (sax)
        return;
    sax = xmlNewParserCtxt();
    *sax->sax = (xmlSAXHandler){.initialized = XML_SAX2_MAGIC, .startElementNs = start_element};
}

static void run_sax(const struct job *job)
{
    last.elements = 0;
    xmlCtxtReadMemory(sax, job->report, (int)job->report_size, NULL, NULL, OPTIONS);
    if (!sax->wellFormed)
        fail("libxml2's SAX refuses %s", job->name);
}

const struct competitor libxml2_parse = {"libxml2 SAX, parsing alone", prepare_sax, run_sax, tell, ELEMENTS};

// The reader

static xmlTextReaderPtr reader;
static xmlPatternPtr patterns[MAX_PATHS];
static xmlStreamCtxtPtr streams[MAX_PATHS];

static void prepare_reader(const struct job *job)
{
    for (size_t i = 0; i < MAX_PATHS; i++) {
        if (streams[i])
            xmlFreeStreamCtxt(streams[i]), xmlFreePattern(patterns[i]);
        streams[i] = NULL;
    }
    for (size_t i = 0; i < job->path_count; i++) {
        patterns[i] = xmlPatterncompile((const xmlChar *)job->paths[i], NULL, XML_PATTERN_XPATH, NULL);
        streams[i] = patterns[i] ? xmlPatternGetStreamCtxt(patterns[i]) : NULL;
        if (!streams[i])
            fail("libxml2 has no stream for %s", job->paths[i]);
    }
    if (!reader)
        reader = xmlReaderForMemory("<a/>", 4, NULL, NULL, OPTIONS);
}

static void push(const struct job *job, const xmlChar *name)
{
    for (size_t i = 0; i < job->path_count; i++)
        if (xmlStreamPush(streams[i], name, NULL) == 1)
            last.matched[i] = 1;
}

static void pop(const struct job *job)
{
    for (size_t i = 0; i < job->path_count; i++)
        xmlStreamPop(streams[i]);
}

static void run_reader(const struct job *job)
{
    int more;
    last = (struct found){0};
    if (xmlReaderNewMemory(reader, job->report, (int)job->report_size, NULL, NULL, OPTIONS))
        fail("libxml2's reader does not start");
    push(job, NULL);
    while ((more = xmlTextReaderRead(reader)) == 1) {
        int type = xmlTextReaderNodeType(reader);
        if (type == XML_READER_TYPE_ELEMENT) {
            last.elements++;
            push(job, xmlTextReaderConstLocalName(reader));
            if (xmlTextReaderIsEmptyElement(reader))
                pop(job);
        } else if (type == XML_READER_TYPE_END_ELEMENT) {
            pop(job);
        }
    }
    pop(job);
    if (more)
        fail("libxml2's reader refuses %s", job->name);
}

const struct competitor libxml2_reader = {"libxml2 reader, patterns", prepare_reader, run_reader, tell, PATHS};

// The tree

static xmlParserCtxtPtr tree;
static xmlXPathContextPtr context;
static xmlXPathCompExprPtr compiled[MAX_PATHS];
static xmlXPathCompExprPtr count_elements;

static void prepare_xpath(const struct job *job)
{
    if (!tree) {
        tree = xmlNewParserCtxt();
        context = xmlXPathNewContext(NULL);
        count_elements = xmlXPathCompile((const xmlChar *)"count(//*)");
    }
    for (size_t i = 0; i < MAX_PATHS; i++) {
        xmlXPathFreeCompExpr(compiled[i]);
        compiled[i] = i < job->path_count ? xmlXPathCompile((const xmlChar *)job->paths[i]) : NULL;
    }
}

static xmlDocPtr read_tree(const struct job *job)
{
    xmlDocPtr doc = xmlCtxtReadMemory(tree, job->report, (int)job->report_size, NULL, NULL, OPTIONS);
    if (!doc)
        fail("libxml2 refuses %s", job->name);
    context->doc = doc;
    context->node = (xmlNodePtr)doc;
    return doc;
}

static void run_xpath(const struct job *job)
{
    xmlDocPtr doc = read_tree(job);
    for (size_t i = 0; i < job->path_count; i++)
        last.matched[i] = xmlXPathCompiledEvalToBoolean(compiled[i], context) == 1;
    xmlFreeDoc(doc);
}

// The elements are counted apart: no path needs them.
static void tell_xpath(const struct job *job, struct found *found)
{
    xmlDocPtr doc = read_tree(job);
    xmlXPathObjectPtr count = xmlXPathCompiledEval(count_elements, context);
    last.elements = (size_t)count->floatval;
    xmlXPathFreeObject(count);
    xmlFreeDoc(doc);
    *found = last;
}

const struct competitor libxml2_xpath = {"libxml2 tree, XPath", prepare_xpath, run_xpath, tell_xpath, PATHS};
