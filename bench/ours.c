// This library: building the automaton of a set; filing a report with one; all from the set's bytes to the listing.
#include "bench.h"
#include "rannvoul.h"
#include <stdio.h>
#include <stdlib.h>
#include <string.h>

static uint8_t automaton[RANNVOUL_AUTOMATON_SIZE], run_bytes[RANNVOUL_RUN_SIZE];
static char listing[RANNVOUL_LISTING_SIZE + 1];
static rannvoul_counters counters;

static void build(const struct job *job)
{
    if (rannvoul_build((const uint8_t *)job->set, job->set_size, automaton, sizeof automaton))
        fail("the set of %s is refused", job->name);
}

static void file(const struct job *job)
{
    counters = (rannvoul_counters){0};
    if (rannvoul_file(automaton, sizeof automaton, run_bytes, sizeof run_bytes, (const uint8_t *)job->report, job->report_size, &counters))
        fail("the report of %s is refused", job->name);
}

static void print(const struct job *job)
{
    size_t length = 0;
    if (rannvoul_print((const uint8_t *)job->set, job->set_size, (const uint8_t *)job->report, job->report_size, automaton, sizeof automaton,
            run_bytes, sizeof run_bytes, (uint8_t *)listing, sizeof listing - 1, &length))
        fail("%s is not printed", job->name);
    listing[length] = 0;
}

static void tell(const struct job *job, struct found *found)
{
    found->elements = counters.opens;
    for (size_t i = 0; i < job->path_count; i++)
        if (rannvoul_path_matched(automaton, sizeof automaton, run_bytes, sizeof run_bytes, i, &found->matched[i]))
            fail("path %zu of %s is not there", i, job->name);
}

// By the listing alone: the paths that it has, and the first number of its line `moves`. Equal paths match alike.
static void tell_printed(const struct job *job, struct found *found)
{
    const char *moves = strstr(listing, "(moves ");
    found->elements = moves ? strtoul(moves + 7, NULL, 10) : 0;
    for (size_t i = 0; i < job->path_count; i++) {
        char path[1024];
        snprintf(path, sizeof path, "(%s)", job->paths[i]);
        found->matched[i] = strstr(listing, path) != NULL;
    }
}

const struct competitor ours_file = {"ours: file", build, file, tell, PATHS};
const struct competitor ours_build = {"ours: build", build, build, tell, NOTHING};
const struct competitor ours_print = {"ours: build, file and list", build, print, tell_printed, PATHS};
