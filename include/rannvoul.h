/*
 * Rannvoul for programs in C: sets of folders, reports filed into them, listings and class sheets.
 *
 * Each call returns 0, or the number of a refusal (below); what it finds it puts behind its last pointer. A refusal leaves all as it was,
 * but for a report refused for its own contents or size (rannvoul_file). Any bytes, sizes and numbers are answered.
 *
 * What the caller owes: no pointer is null, even where its size is 0, each buffer has at least the size passed with it, and what a call writes overlaps none of its
 * other arguments. Calls keep nothing between them, so they may run at the same time if none writes what another uses.
 *
 * Stack: rannvoul_file and rannvoul_print take about 54 kB of it, whatever the report holds; the other calls take less than 4 kB.
 *
 * Contracts: crates/exports/src/lib.rt. Build: rt lib, in crates/exports_c, makes out/libexports_c.a; link it as libexports.a (x86-64).
 */
#ifndef RANNVOUL_H
#define RANNVOUL_H

#include <stddef.h>
#include <stdint.h>

#ifdef __cplusplus
extern "C" {
#endif

/* Bytes of the buffers; a longer one is as good. */
#define RANNVOUL_AUTOMATON_SIZE 65536
#define RANNVOUL_RUN_SIZE 65536
#define RANNVOUL_LISTING_SIZE 16406
#define RANNVOUL_SHEET_SIZE 11972

/* Most bytes of a set's text and of a report. */
#define RANNVOUL_MAX_SET_BYTES 16384
#define RANNVOUL_MAX_REPORT 65536

/* The refusals. */
enum {
    RANNVOUL_SHORT_BUFFER = 1,      /* a buffer is below its size */
    RANNVOUL_TOO_LARGE = 2,         /* the set or report is over its limit of bytes */
    RANNVOUL_MALFORMED_SET = 3,     /* the set is not of its form */
    RANNVOUL_OUT_OF_ORDER = 4,      /* a folder's number is not above the one before */
    RANNVOUL_NAME_TOO_LONG = 5,     /* a label or an element's name is over 32 bytes */
    RANNVOUL_PATH_TOO_LONG = 6,     /* a path is over 16 steps */
    RANNVOUL_OVER_CAPACITY = 7,     /* the set has over 128 paths or 1,024 labels */
    RANNVOUL_INVALID_BYTE = 8,      /* a byte that a report may not have */
    RANNVOUL_SYNTAX_ERROR = 9,      /* the report is not a run of declaration, comments, tags and text */
    RANNVOUL_NOT_ONE_ROOT = 10,     /* a tag or text that is not blank outside the root, or the root is missing or not closed */
    RANNVOUL_TOO_DEEP = 11,         /* over 64 nested elements */
    RANNVOUL_MISMATCHED_CLOSE = 12, /* an end tag that is not that of the innermost element */
    RANNVOUL_NOT_FOUND = 13,        /* the set has no such path or folder */
    RANNVOUL_BAD_SHAPE = 14,        /* stored numbers out of range, or not those of this automaton or run */
    RANNVOUL_REPEATED_ATTRIBUTE = 15 /* a tag of the report has two attributes of the same name */
};

/* What a run counts. Start with zeros; filing sets them, and the listing reads them. */
typedef struct {
    size_t opens;  /* elements opened */
    size_t closes; /* elements closed */
    size_t moves;  /* failure moves of the automaton */
} rannvoul_counters;

/* Builds the automaton of a set's text. Refuses with 1, 2, 3, the first in the text of 4, 5 and 6, then 7, and changes nothing then. */
uint8_t rannvoul_build(const uint8_t *text, size_t text_size, uint8_t *automaton, size_t automaton_size);

/*
 * Files a report: the run then says which paths and folders are matched. Whatever the run held is forgotten, so that one buffer serves
 * report after report. Refuses with 1 and 14, which change nothing; then with 2, 8, 9, 15, the first tag or text
 * refused (5, 10, 11, 12), and 10 at the end, after which run and counters are fresh.
 */
uint8_t rannvoul_file(const uint8_t *automaton, size_t automaton_size, uint8_t *run, size_t run_size, const uint8_t *report,
                      size_t report_size, rannvoul_counters *counters);

/*
 * Is the path at a place matched? Places count all paths of the set, in its order, from 0. Puts 1 for yes or 0 for no behind matched.
 * Refuses with 1, 14 and 13.
 */
uint8_t rannvoul_path_matched(const uint8_t *automaton, size_t automaton_size, const uint8_t *run, size_t run_size, size_t place,
                              uint8_t *matched);

/* Is the folder with this number matched, by one of its paths at least? Answers and refuses as rannvoul_path_matched does. */
uint8_t rannvoul_folder_matched(const uint8_t *automaton, size_t automaton_size, const uint8_t *run, size_t run_size, size_t number,
                                uint8_t *matched);

/*
 * Writes the listing of a run to the first bytes of out and its length behind length; no zero byte ends it. The counters are those that
 * filing set. Refuses with 1 and 14, and writes nothing then. RANNVOUL_LISTING_SIZE is enough for every automaton that was built.
 */
uint8_t rannvoul_list(const uint8_t *automaton, size_t automaton_size, const uint8_t *run, size_t run_size,
                      const rannvoul_counters *counters, uint8_t *out, size_t out_size, size_t *length);

/*
 * Writes the class sheet of a run to the first bytes of out and its length behind length; no zero byte ends it. A page has a head line and
 * 40 lines for as many matched paths, each of 72 bytes and a line feed; there are as few pages as can be, one at least. Refuses with 1 and
 * 14, and writes nothing then. RANNVOUL_SHEET_SIZE is enough for every automaton and run.
 */
uint8_t rannvoul_sheet(const uint8_t *automaton, size_t automaton_size, const uint8_t *run, size_t run_size, uint8_t *out, size_t out_size,
                       size_t *length);

/*
 * Builds, files and lists in one call: writes what the filing program prints to the first bytes of out, and its length behind length. If
 * the set or the report is refused, that is the line "(refused N)". Refuses with 1 alone, and changes nothing then. After a refused set
 * automaton and run are as they were; else they are as rannvoul_build and rannvoul_file leave them.
 */
uint8_t rannvoul_print(const uint8_t *text, size_t text_size, const uint8_t *report, size_t report_size, uint8_t *automaton,
                       size_t automaton_size, uint8_t *run, size_t run_size, uint8_t *out, size_t out_size, size_t *length);

#ifdef __cplusplus
}
#endif

#endif
