// bench CASE...             holds what the competitors find against each other, then times them: a line for each case and competitor
// bench --once N CASE       runs competitor N on one report inside measured(), for a count of instructions
#include "bench.h"
#include <stdarg.h>
#include <stdio.h>
#include <stdlib.h>
#include <string.h>
#include <time.h>

enum { ROUNDS = 15 };
static const double ROUND_SECONDS = 0.02;

// The first is what the others are compared with.
static const struct competitor *const competitors[] = {
    &ours_file, &ours_build, &ours_print, &expat_parse, &libxml2_parse, &libxml2_reader, &libxml2_xpath};
enum { COUNT = sizeof competitors / sizeof *competitors };

_Noreturn void fail(const char *format, ...)
{
    va_list rest;
    va_start(rest, format);
    fputs("bench: ", stderr);
    vfprintf(stderr, format, rest);
    fputc('\n', stderr);
    exit(1);
}

static char *read_file(const char *folder, const char *name, size_t *size)
{
    char path[4096], *bytes = malloc(1 << 17);
    snprintf(path, sizeof path, "%s/%s", folder, name);
    FILE *file = fopen(path, "rb");
    if (!file || !bytes)
        fail("%s cannot be read", path);
    *size = fread(bytes, 1, (1 << 17) - 1, file);
    bytes[*size] = 0;
    fclose(file);
    return bytes;
}

// A path of a set stands between `(` and `)` and begins with `/`.
static struct job read_job(const char *folder)
{
    struct job job = {.name = strrchr(folder, '/') ? strrchr(folder, '/') + 1 : folder};
    job.set = read_file(folder, "folders.txt", &job.set_size);
    job.report = read_file(folder, "report.xml", &job.report_size);
    for (const char *at = job.set; (at = strstr(at, "(/")) && job.path_count < MAX_PATHS; at++)
        job.paths[job.path_count++] = strndup(at + 1, strcspn(at + 1, ")"));
    return job;
}

// Callgrind counts what is called here; what follows the call keeps it from becoming a jump.
__attribute__((noinline)) void measured(const struct competitor *c, const struct job *job)
{
    c->run(job);
    __asm__ volatile("" ::: "memory");
}

// Every competitor must find what libxml2's XPath finds, on a second report too.
static void check(const struct job *job)
{
    struct found right = {0};
    libxml2_xpath.prepare(job);
    libxml2_xpath.run(job);
    libxml2_xpath.tell(job, &right);
    for (int i = 0; i < COUNT; i++) {
        const struct competitor *c = competitors[i];
        struct found found = {0};
        c->prepare(job);
        c->run(job);
        c->run(job);
        if (c->tells == NOTHING)
            continue;
        c->tell(job, &found);
        if (found.elements != right.elements)
            fail("%s: %s finds %zu elements, libxml2's XPath %zu", job->name, c->name, found.elements, right.elements);
        for (size_t p = 0; c->tells == PATHS && p < job->path_count; p++)
            if (found.matched[p] != right.matched[p])
                fail("%s: %s and libxml2's XPath differ on %s", job->name, c->name, job->paths[p]);
    }
}

// The processor's time, in which other programs do not count.
static double seconds(const struct competitor *c, const struct job *job, long reports)
{
    struct timespec from, to;
    clock_gettime(CLOCK_PROCESS_CPUTIME_ID, &from);
    for (long i = 0; i < reports; i++)
        measured(c, job);
    clock_gettime(CLOCK_PROCESS_CPUTIME_ID, &to);
    return (double)(to.tv_sec - from.tv_sec) + 1e-9 * (double)(to.tv_nsec - from.tv_nsec);
}

static int compare(const void *a, const void *b)
{
    double x = *(const double *)a, y = *(const double *)b;
    return (x > y) - (x < y);
}

static double median(double of[ROUNDS])
{
    qsort(of, ROUNDS, sizeof *of, compare);
    return of[ROUNDS / 2];
}

// The competitors take turns, and each is compared with ours of the same round: a round in which the machine is slow is slow for all.
static void time_job(const struct job *job)
{
    long reports[COUNT];
    double took[COUNT][ROUNDS], ratio[COUNT][ROUNDS];
    for (int i = 0; i < COUNT; i++) {
        competitors[i]->prepare(job);
        reports[i] = 1 + (long)(ROUND_SECONDS / seconds(competitors[i], job, 1));
    }
    for (int round = 0; round < ROUNDS; round++)
        for (int i = 0; i < COUNT; i++) {
            took[i][round] = seconds(competitors[i], job, reports[i]) / (double)reports[i];
            ratio[i][round] = took[i][round] / took[0][round];
        }
    for (int i = 0; i < COUNT; i++) {
        size_t bytes = competitors[i]->tells == NOTHING ? job->set_size : job->report_size;
        printf("%s\t%s\t%.3g\t%.3g\n", job->name, competitors[i]->name, 1e-6 * (double)bytes / median(took[i]), median(ratio[i]));
    }
}

int main(int count, char **words)
{
    if (count == 4 && !strcmp(words[1], "--once")) {
        struct job job = read_job(words[3]);
        const struct competitor *c = competitors[atoi(words[2]) % COUNT];
        c->prepare(&job);
        c->run(&job);
        measured(c, &job);
        return 0;
    }
    for (int i = 1; i < count; i++) {
        struct job job = read_job(words[i]);
        check(&job);
        time_job(&job);
    }
}
