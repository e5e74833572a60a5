/*
 * Times the library's bounds and least counter counts against a plain C loop that works out every
 * step as document 01 writes it and searches upwards. Queries as in tests/c_interface/answers.c
 * come on standard input. Prints times and ratios; equal answers are the only test (else status 1).
 *
 * A time is the least of several runs, but the plain loop's least counts, which take a minute, are
 * worked out once.
 */
#define _POSIX_C_SOURCE 199309L

#include <inttypes.h>
#include <stdio.h>
#include <string.h>
#include <time.h>

#include "row_tracker.h"

enum { REPEATS = 7, MOST_QUERIES = 4096, MAX_COUNTERS = 2048, LONGEST_WINDOW = 8192 };

struct query {
    uint32_t rows, blast_diameter, volume, counters, interval, window, block;
    uint64_t threshold;
};

typedef int64_t answer_function(const struct query *);

static int64_t library_bound(const struct query *q)
{
    return row_tracker_bound(q->rows, q->blast_diameter, q->volume, q->counters, q->interval,
                             q->window, q->block);
}

static int64_t library_least(const struct query *q)
{
    return row_tracker_least_counters(q->rows, q->blast_diameter, q->volume, q->interval,
                                      q->window, q->block, q->threshold);
}

/* The plain loop, for accepted settings. */

static uint64_t disturbers(const struct query *q)
{
    return (uint64_t)q->interval + q->volume + q->block;
}

static uint64_t size(const struct query *q, uint64_t j)
{
    uint64_t picked = j * q->volume + 1;
    uint64_t slots = (uint64_t)q->counters + 1;

    return picked < slots ? picked : slots;
}

static int64_t plain_bound(const struct query *q)
{
    uint64_t total = 0;
    uint64_t j;

    for (j = q->window - 1; j >= 1; j--) {
        total += q->blast_diameter * disturbers(q);
        total = total * size(q, j - 1) / size(q, j);
    }
    return (int64_t)(total + disturbers(q));
}

static int64_t plain_least(const struct query *q)
{
    struct query candidate = *q;

    for (candidate.counters = q->volume; candidate.counters <= MAX_COUNTERS; candidate.counters++)
        if (2 * (uint64_t)plain_bound(&candidate) < q->threshold)
            return candidate.counters;
    return -12;
}

/* Measuring */

struct group {
    const char *title;
    answer_function *library, *plain;
    struct query queries[MOST_QUERIES];
    int count;
};

static double seconds(void)
{
    struct timespec now;

    clock_gettime(CLOCK_MONOTONIC, &now);
    return (double)now.tv_sec + 1e-9 * (double)now.tv_nsec;
}

/* Answers all queries; the pointer is volatile so that no call is saved. */
static double time_of(answer_function *function, const struct group *g, int64_t *answers)
{
    answer_function *volatile called = function;
    double start = seconds();
    int i;

    for (i = 0; i < g->count; i++)
        answers[i] = called(&g->queries[i]);
    return seconds() - start;
}

/* The least time of several runs. */
static double least_time_of(answer_function *function, const struct group *g, int runs,
                            int64_t *answers)
{
    double least = time_of(function, g, answers);

    while (--runs > 0) {
        double time = time_of(function, g, answers);

        if (time < least)
            least = time;
    }
    return least;
}

struct times {
    double library, plain;
};

static void print_times(int count, const char *title, struct times t)
{
    printf("%d %s: library %.3f ms, plain %.1f ms, library/plain = %.6f\n", count, title,
           1e3 * t.library, 1e3 * t.plain, t.library / t.plain);
    fflush(stdout);
}

/* Times a group and prints it; 0 if an answer differs. */
static int compare(const struct group *g, int plain_runs, struct times *t)
{
    static int64_t library_answers[MOST_QUERIES], plain_answers[MOST_QUERIES];
    int i;

    t->library = least_time_of(g->library, g, REPEATS, library_answers);
    t->plain = least_time_of(g->plain, g, plain_runs, plain_answers);

    for (i = 0; i < g->count; i++)
        if (library_answers[i] != plain_answers[i]) {
            printf("%s: query %d differs: library %" PRId64 ", plain %" PRId64 "\n", g->title,
                   i + 1, library_answers[i], plain_answers[i]);
            return 0;
        }
    print_times(g->count, g->title, *t);
    return 1;
}

/* Reading */

/* Puts a query into a group; 0 if it is full. */
static int add(struct group *g, const struct query *q)
{
    if (g->count == MOST_QUERIES)
        return 0;
    g->queries[g->count++] = *q;
    return 1;
}

static int read_query(const char *line, struct query *q)
{
    if (sscanf(line, "bound %" SCNu32 " %" SCNu32 " %" SCNu32 " %" SCNu32 " %" SCNu32 " %" SCNu32
               " %" SCNu32, &q->rows, &q->blast_diameter, &q->volume, &q->counters, &q->interval,
               &q->window, &q->block) == 7)
        return 1;
    return sscanf(line, "least %" SCNu32 " %" SCNu32 " %" SCNu32 " %" SCNu32 " %" SCNu32 " %" SCNu32
                  " %" SCNu64, &q->rows, &q->blast_diameter, &q->volume, &q->interval, &q->window,
                  &q->block, &q->threshold) == 7;
}

static struct group longest = {"bound with the most steps", library_bound, plain_bound,
                               {{65536, 4, 1, MAX_COUNTERS, 4096, LONGEST_WINDOW, 64, 0}}, 1};
static struct group bounds = {"bounds", library_bound, plain_bound, {{0}}, 0};
/* By the answer's size, as in tests/c_interface/sweep.py. */
static struct group least[] = {
    {"least counts up to 64", library_least, plain_least, {{0}}, 0},
    {"least counts up to 1000", library_least, plain_least, {{0}}, 0},
    {"least counts up to 2048", library_least, plain_least, {{0}}, 0},
    {"least counts refused", library_least, plain_least, {{0}}, 0},
};

static struct group *least_group(int64_t answer)
{
    return &least[answer < 0 ? 3 : answer <= 64 ? 0 : answer <= 1000 ? 1 : 2];
}

int main(void)
{
    char line[256];
    struct times t, all = {0, 0};
    int equal, i, count = 0;

    while (fgets(line, sizeof line, stdin) != NULL) {
        struct query q = {0};
        int is_bound = strncmp(line, "bound", 5) == 0;

        if (!read_query(line, &q)
            || !add(is_bound ? &bounds : least_group(library_least(&q)), &q)) {
            fprintf(stderr, "bound: no query, or one too many: %s", line);
            return 2;
        }
    }
    equal = compare(&longest, REPEATS, &t);
    equal &= compare(&bounds, REPEATS, &t);
    for (i = 0; i < 4; i++) {
        equal &= compare(&least[i], 1, &t);
        all.library += t.library;
        all.plain += t.plain;
        count += least[i].count;
    }
    print_times(count, "least counts in all", all);
    return equal ? 0 : 1;
}
