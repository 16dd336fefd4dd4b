// expat: parsing alone; elements are counted.
#include "bench.h"
#include <expat.h>

static XML_Parser parser;
static size_t elements;

static void XMLCALL start(void *data, const XML_Char *name, const XML_Char **attributes)
{
    (void)data, (void)name, (void)attributes;
    elements++;
}

static void XMLCALL end(void *data, const XML_Char *name) { (void)data, (void)name; }

static void prepare(const struct job *job)
{
    (void)job;
    if (!parser)
        parser = XML_ParserCreate(NULL);
}

static void run(const struct job *job)
{
    elements = 0;
    XML_ParserReset(parser, NULL);
    XML_SetElementHandler(parser, start, end);
    if (XML_Parse(parser, job->report, (int)job->report_size, 1) != XML_STATUS_OK)
        fail("expat refuses %s", job->name);
}

static void tell(const struct job *job, struct found *found)
{
    (void)job;
    found->elements = elements;
}

const struct competitor expat_parse = {"expat, parsing alone", prepare, run, tell, ELEMENTS};
