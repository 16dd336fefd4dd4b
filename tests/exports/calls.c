/* Calls each exported function at the edges of its buffers and refusals. Prints what differs, and a last line with the counts. */
#include <stdio.h>
#include <string.h>

#include "rannvoul.h"

#define SET "(folders\n(folder 3 (//clock/drift) (/lock/*/drift))\n(folder 8 (//*/lock))\n)\n"
#define REPORT "<lock><clock><drift/></clock></lock>"
#define LISTING "(filed\n(folder 3 (//clock/drift) (/lock/*/drift))\n(moves 3 2)\n)\n"
#define BYTES(text) (const uint8_t *)(text), strlen(text)

/* Stands behind a pointer before a call; a refusal leaves it. */
enum { KEPT = 77 };

/* One byte more than each size, to see that it is left alone. */
static uint8_t automaton[RANNVOUL_AUTOMATON_SIZE + 1];
static uint8_t run[RANNVOUL_RUN_SIZE + 1];
static uint8_t out[RANNVOUL_LISTING_SIZE + 1];
static uint8_t strange[RANNVOUL_AUTOMATON_SIZE];
static size_t size_a = RANNVOUL_AUTOMATON_SIZE, size_r = RANNVOUL_RUN_SIZE, size_o = RANNVOUL_LISTING_SIZE;
static size_t size_s = RANNVOUL_SHEET_SIZE;
static int count, wrong;

static void is(const char *what, size_t got, size_t expected)
{
    count++;
    if (got == expected)
        return;
    wrong++;
    printf("exports: %s: %zu, expected %zu\n", what, got, expected);
}

static void builds(void)
{
    memset(automaton, KEPT, sizeof automaton);
    is("build, a byte short", rannvoul_build(BYTES(SET), automaton, size_a - 1), RANNVOUL_SHORT_BUFFER);
    is("build of no set", rannvoul_build(BYTES("(folders"), automaton, size_a), RANNVOUL_MALFORMED_SET);
    is("refused builds change nothing", automaton[0], KEPT);
    is("build", rannvoul_build(BYTES(SET), automaton, size_a), 0);
    is("the byte behind the automaton", automaton[size_a], KEPT);
}

static void files(rannvoul_counters *c)
{
    c->opens = KEPT;
    run[size_r] = KEPT;
    is("file, a byte short", rannvoul_file(automaton, size_a, run, size_r - 1, BYTES(REPORT), c), RANNVOUL_SHORT_BUFFER);
    is("file with a strange automaton", rannvoul_file(strange, size_a, run, size_r, BYTES(REPORT), c), RANNVOUL_BAD_SHAPE);
    is("both leave the counters", c->opens, KEPT);
    is("a torn report", rannvoul_file(automaton, size_a, run, size_r, BYTES("<lock"), c), RANNVOUL_SYNTAX_ERROR);
    is("it leaves counters of zero", c->opens + c->closes + c->moves, 0);
    is("file", rannvoul_file(automaton, size_a, run, size_r, BYTES(REPORT), c), 0);
    is("opens", c->opens, 3);
    is("closes", c->closes, 3);
    is("failure moves", c->moves, 2);
    is("the byte behind the run", run[size_r], KEPT);
}

/* Bytes of 'x' are no set, and text outside the root; one more than the limit is too many. */
static void limits(rannvoul_counters *c)
{
    static uint8_t x[RANNVOUL_MAX_REPORT + 1];
    memset(x, 'x', sizeof x);
    is("a set at its limit", rannvoul_build(x, RANNVOUL_MAX_SET_BYTES, automaton, size_a), RANNVOUL_MALFORMED_SET);
    is("a set over it", rannvoul_build(x, RANNVOUL_MAX_SET_BYTES + 1, automaton, size_a), RANNVOUL_TOO_LARGE);
    is("a report at its limit", rannvoul_file(automaton, size_a, run, size_r, x, RANNVOUL_MAX_REPORT, c), RANNVOUL_NOT_ONE_ROOT);
    is("a report over it", rannvoul_file(automaton, size_a, run, size_r, x, RANNVOUL_MAX_REPORT + 1, c), RANNVOUL_TOO_LARGE);
    is("a repeated attribute", rannvoul_file(automaton, size_a, run, size_r, BYTES("<a b='' b=''/>"), c), RANNVOUL_REPEATED_ATTRIBUTE);
}

static void asked(const char *what, uint8_t refusal, uint8_t matched, uint8_t refusal_expected, uint8_t expected)
{
    is(what, refusal, refusal_expected);
    is(what, matched, expected);
}

static void asks_path(const char *what, size_t size, size_t place, uint8_t refusal, uint8_t expected)
{
    uint8_t matched = KEPT;
    uint8_t refused = rannvoul_path_matched(automaton, size_a, run, size, place, &matched);
    asked(what, refused, matched, refusal, expected);
}

static void asks_folder(const char *what, size_t size, size_t number, uint8_t refusal, uint8_t expected)
{
    uint8_t matched = KEPT;
    uint8_t refused = rannvoul_folder_matched(automaton, size_a, run, size, number, &matched);
    asked(what, refused, matched, refusal, expected);
}

static void asks(void)
{
    asks_path("the first path", size_r, 0, 0, 1);
    asks_path("the second path", size_r, 1, 0, 1);
    asks_path("the third path", size_r, 2, 0, 0);
    asks_path("a path that is not there", size_r, 3, RANNVOUL_NOT_FOUND, KEPT);
    asks_path("a path of a short run", size_r - 1, 0, RANNVOUL_SHORT_BUFFER, KEPT);
    asks_folder("folder 3", size_r, 3, 0, 1);
    asks_folder("folder 8", size_r, 8, 0, 0);
    asks_folder("a folder that is not there", size_r, 4, RANNVOUL_NOT_FOUND, KEPT);
    asks_folder("a folder of a short run", size_r - 1, 3, RANNVOUL_SHORT_BUFFER, KEPT);
}

static void holds(const char *what, size_t length, const char *text)
{
    is(what, length, strlen(text));
    is(what, (size_t)(memcmp(out, text, strlen(text)) != 0), 0);
    is(what, out[strlen(text)], KEPT);
}

static void lists(const rannvoul_counters *c)
{
    rannvoul_counters off = {1, 0, 0};
    size_t length = KEPT;
    memset(out, KEPT, sizeof out);
    is("list, a byte short", rannvoul_list(automaton, size_a, run, size_r, c, out, size_o - 1, &length), RANNVOUL_SHORT_BUFFER);
    is("list with other counters", rannvoul_list(automaton, size_a, run, size_r, &off, out, size_o, &length), RANNVOUL_BAD_SHAPE);
    is("both leave the length", length, KEPT);
    is("both write nothing", out[0], KEPT);
    is("list", rannvoul_list(automaton, size_a, run, size_r, c, out, size_o, &length), 0);
    holds("the listing", length, LISTING);
}

/* The sheet of the example: one page, of two rows. */
static const char *sheet(void)
{
    static const char *const rows[] = {"   3  //clock/drift", "   3  /lock/*/drift"};
    static char text[41 * 73 + 1];
    int end = sprintf(text, "%-68s%4d\n", "FILED", 1);
    for (int i = 0; i < 40; i++)
        end += sprintf(text + end, "%-72s\n", i < 2 ? rows[i] : "");
    return text;
}

/* How many bytes from a place on are not as they were. */
static size_t changed(size_t from)
{
    size_t n = 0;
    for (size_t i = from; i < sizeof out; i++)
        n += out[i] != KEPT;
    return n;
}

static void sheets(void)
{
    size_t length = KEPT;
    memset(out, KEPT, sizeof out);
    is("sheet, a byte short", rannvoul_sheet(automaton, size_a, run, size_r, out, size_s - 1, &length), RANNVOUL_SHORT_BUFFER);
    is("sheet of a short run", rannvoul_sheet(automaton, size_a, run, size_r - 1, out, size_s, &length), RANNVOUL_SHORT_BUFFER);
    is("sheet with a strange automaton", rannvoul_sheet(strange, size_a, run, size_r, out, size_s, &length), RANNVOUL_BAD_SHAPE);
    is("sheet with a strange run", rannvoul_sheet(automaton, size_a, strange, size_r, out, size_s, &length), RANNVOUL_BAD_SHAPE);
    is("all leave the length", length, KEPT);
    is("all write nothing", changed(0), 0);
    is("sheet", rannvoul_sheet(automaton, size_a, run, size_r, out, size_s, &length), 0);
    is("the sheet's length", length, 2993);
    holds("the sheet", length, sheet());
    is("bytes past the sheet", changed(length), 0);
}

static void prints(const char *what, const char *set, const char *report, const char *text)
{
    size_t length = KEPT;
    memset(out, KEPT, sizeof out);
    is(what, rannvoul_print(BYTES(set), BYTES(report), automaton, size_a, run, size_r, out, size_o - 1, &length), RANNVOUL_SHORT_BUFFER);
    is(what, length, KEPT);
    is(what, out[0], KEPT);
    is(what, rannvoul_print(BYTES(set), BYTES(report), automaton, size_a, run, size_r, out, size_o, &length), 0);
    holds(what, length, text);
}

int main(void)
{
    rannvoul_counters counters = {0, 0, 0};
    memset(strange, 255, sizeof strange);
    builds();
    limits(&counters);
    files(&counters);
    asks();
    lists(&counters);
    sheets();
    prints("print", SET, REPORT, LISTING);
    prints("print of no set", "(folders", REPORT, "(refused 3)\n");
    prints("print of a crossed report", SET, "<a></b>", "(refused 12)\n");
    prints("print of a repeated attribute", SET, "<a b='' b=''/>", "(refused 15)\n");
    printf("exported calls: %d, %d differ\n", count, wrong);
    return wrong != 0;
}
