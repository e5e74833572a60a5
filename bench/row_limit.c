/*
 * Times the library's figures of single rows against two of its bounds each. Queries
 * `bound N B V C T n P` as in tests/c_interface/answers.c come on standard input, others are passed
 * over. Prints times and ratios; equal answers are the only test (else status 1).
 *
 * Twice: for the bank's last row at the event whose block holds it, where the figure is made of two
 * bounds, and no other row and event need more steps; and for rows and events spread over bank and
 * window. What the two bounds come to is the figure's own number in the first case.
 */
#define _POSIX_C_SOURCE 199309L

#include <inttypes.h>
#include <stdio.h>
#include <time.h>

#include "row_tracker.h"

enum { REPEATS = 15, MOST_QUERIES = 4096 };

static const uint32_t own_remap[16] = {0, 1, 3, 2, 4, 5, 7, 6, 8, 9, 11, 10, 12, 13, 15, 14};

struct query {
    uint32_t rows, blast_diameter, volume, counters, interval, window, block;
    uint32_t row, events;
};

typedef int64_t answer_function(const struct query *);

static int64_t bound_of(const struct query *q, uint32_t window)
{
    return row_tracker_bound(q->rows, q->blast_diameter, q->volume, q->counters, q->interval,
                             window, q->block);
}

static int64_t row_limit(const struct query *q)
{
    return row_tracker_row_limit(q->rows, q->blast_diameter, q->volume, q->counters, q->interval,
                                 q->window, q->block, own_remap, q->row, q->events, 0, 0, 0);
}

/* The event whose block holds the last logical row, which our own remap puts one before the last. */
static uint32_t last_own_event(const struct query *q)
{
    return (q->rows - 2) / q->block;
}

/* A window of as many events as there are blocks that are not empty is accepted too. */
static int64_t two_bounds(const struct query *q)
{
    uint64_t disturbers = (uint64_t)q->interval + q->volume + q->block;
    int64_t gathered = (int64_t)(disturbers * (q->window - 1 - last_own_event(q)));
    int64_t whole = bound_of(q, q->window);

    return bound_of(q, last_own_event(q) + 1) + (whole < gathered ? whole : gathered);
}

static double seconds(void)
{
    struct timespec now;

    clock_gettime(CLOCK_MONOTONIC, &now);
    return (double)now.tv_sec + 1e-9 * (double)now.tv_nsec;
}

/* The least time of several runs; the pointer is volatile so that no call is saved. */
static double least_time_of(answer_function *function, const struct query *queries, int count,
                            int64_t *answers)
{
    answer_function *volatile called = function;
    double least = 0;
    int run, i;

    for (run = 0; run < REPEATS; run++) {
        double start = seconds(), time;

        for (i = 0; i < count; i++)
            answers[i] = called(&queries[i]);
        time = seconds() - start;
        if (run == 0 || time < least)
            least = time;
    }
    return least;
}

/* Prints the times of both; whether the answers are equal is for the caller to say. */
static void compare(const char *title, const struct query *queries, int count, int64_t *figures,
                    int64_t *sums)
{
    double figure = least_time_of(row_limit, queries, count, figures);
    double bounds = least_time_of(two_bounds, queries, count, sums);

    printf("%d figures of rows, %s: %.3f ms, two bounds each: %.3f ms, figure/bounds = %.2f\n",
           count, title, 1e3 * figure, 1e3 * bounds, figure / bounds);
}

int main(void)
{
    static struct query queries[MOST_QUERIES];
    static int64_t figures[MOST_QUERIES], sums[MOST_QUERIES];
    char line[256];
    int count = 0, i;

    while (count < MOST_QUERIES && fgets(line, sizeof line, stdin) != NULL) {
        struct query *q = &queries[count];

        if (sscanf(line, "bound %" SCNu32 " %" SCNu32 " %" SCNu32 " %" SCNu32 " %" SCNu32
                   " %" SCNu32 " %" SCNu32, &q->rows, &q->blast_diameter, &q->volume,
                   &q->counters, &q->interval, &q->window, &q->block) == 7
            && (q->rows - 1) / q->block == last_own_event(q)) {
            q->row = q->rows - 1;
            q->events = last_own_event(q);
            count++;
        }
    }
    compare("the last at its own event", queries, count, figures, sums);
    for (i = 0; i < count; i++)
        if (figures[i] != sums[i]) {
            printf("query %d differs: figure %" PRId64 ", of two bounds %" PRId64 "\n", i + 1,
                   figures[i], sums[i]);
            return 1;
        }
    for (i = 0; i < count; i++) {
        queries[i].row = (uint32_t)i * 40503u % queries[i].rows;
        queries[i].events = (uint32_t)i * 30011u % queries[i].window;
    }
    compare("rows and events spread", queries, count, figures, sums);
    return 0;
}
