/* Files the report of README.md's example into its set of folders and prints the listing. */
#include <stdio.h>
#include <stdlib.h>

#include "rannvoul.h"

static const uint8_t set[] = "(folders\n"
                             "(folder 3 (//clock/drift) (/lock/*/drift))\n"
                             "(folder 8 (//*/lock))\n"
                             ")\n";
static const uint8_t report[] = "<lock><clock><drift/></clock></lock>";

static uint8_t automaton[RANNVOUL_AUTOMATON_SIZE];
static uint8_t run[RANNVOUL_RUN_SIZE];
static uint8_t listing[RANNVOUL_LISTING_SIZE];

/* Ends the program if a call refused. */
static void accept(const char *call, uint8_t refusal)
{
    if (refusal == 0)
        return;
    fprintf(stderr, "%s: refused %d\n", call, refusal);
    exit(EXIT_FAILURE);
}

int main(void)
{
    rannvoul_counters counters = {0, 0, 0};
    size_t length = 0;

    /* The zero byte that ends a string is no byte of the set or the report. */
    accept("build", rannvoul_build(set, sizeof set - 1, automaton, sizeof automaton));
    accept("file", rannvoul_file(automaton, sizeof automaton, run, sizeof run, report, sizeof report - 1, &counters));
    accept("list", rannvoul_list(automaton, sizeof automaton, run, sizeof run, &counters, listing, sizeof listing, &length));
    return fwrite(listing, 1, length, stdout) == length ? EXIT_SUCCESS : EXIT_FAILURE;
}
