// What the parts of the benchmark share: a case, what is found in its report, and a competitor.
#include <stddef.h>
#include <stdint.h>

enum { MAX_PATHS = 128 };

struct job {
    const char *name;
    char *set, *report;
    size_t set_size, report_size;
    char *paths[MAX_PATHS];
    size_t path_count;
};

struct found {
    size_t elements;
    uint8_t matched[MAX_PATHS];
};

struct competitor {
    const char *name;
    // Once for a case: what can be made before the reports come.
    void (*prepare)(const struct job *);
    // One report.
    void (*run)(const struct job *);
    // What the last run found: elements alone where it only parses, nothing where it reads no report.
    void (*tell)(const struct job *, struct found *);
    enum { NOTHING, ELEMENTS, PATHS } tells;
};

extern const struct competitor ours_file, ours_build, ours_print;
extern const struct competitor expat_parse, libxml2_parse, libxml2_reader, libxml2_xpath;

// Ends the benchmark with a message.
_Noreturn void fail(const char *format, ...) __attribute__((format(printf, 1, 2)));
