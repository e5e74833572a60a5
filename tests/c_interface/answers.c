/*
 * Answers queries on standard input, one a line, with the linked libraries' number, one a line.
 * Queries: `bound N B V C T n P`, `least N B V T n P THRESHOLD` and
 * `row_limit N B V C T n P ROW EVENTS ACTIVATIONS TRACKED SPILLOVER` and a remap's sixteen numbers.
 */
#include <stdio.h>
#include <stdlib.h>
#include <string.h>

#include "row_tracker.h"

enum { SETTINGS = 7, REMAP = 12, MOST_ARGUMENTS = 28 };

/* Splits a line into its name and its numbers; how many these are, or -1 if there are too many. */
static int read_query(char *line, const char **name, uint64_t *a)
{
    char *word = strtok(line, " \n");
    int count = 0;

    *name = word;
    while (word != NULL && (word = strtok(NULL, " \n")) != NULL) {
        if (count == MOST_ARGUMENTS)
            return -1;
        a[count++] = strtoull(word, NULL, 10);
    }
    return count;
}

static int64_t row_limit(const uint64_t *a)
{
    uint32_t n[MOST_ARGUMENTS];
    int i;

    for (i = 0; i < MOST_ARGUMENTS; i++)
        n[i] = (uint32_t)a[i];
    return row_tracker_row_limit(n[0], n[1], n[2], n[3], n[4], n[5], n[6], n + REMAP, n[7], n[8],
                                 n[9], n[10], n[11]);
}

static int answer(const char *name, const uint64_t *a, int count, int64_t *number)
{
    if (count == SETTINGS && strcmp(name, "bound") == 0)
        *number = row_tracker_bound((uint32_t)a[0], (uint32_t)a[1], (uint32_t)a[2],
                                    (uint32_t)a[3], (uint32_t)a[4], (uint32_t)a[5],
                                    (uint32_t)a[6]);
    else if (count == SETTINGS && strcmp(name, "least") == 0)
        *number = row_tracker_least_counters((uint32_t)a[0], (uint32_t)a[1], (uint32_t)a[2],
                                             (uint32_t)a[3], (uint32_t)a[4], (uint32_t)a[5],
                                             a[6]);
    else if (count == MOST_ARGUMENTS && strcmp(name, "row_limit") == 0)
        *number = row_limit(a);
    else
        return 0;
    return 1;
}

int main(void)
{
    char line[512];
    const char *name;
    uint64_t arguments[MOST_ARGUMENTS];
    int64_t number;
    long lines = 0;

    /* A line at a time, so that after a crash the first missing answer is the culprit's. */
    setvbuf(stdout, NULL, _IOLBF, BUFSIZ);
    while (fgets(line, sizeof line, stdin) != NULL) {
        int count = read_query(line, &name, arguments);

        lines++;
        if (name == NULL || !answer(name, arguments, count, &number)) {
            fprintf(stderr, "answers: line %ld: no query\n", lines);
            return 2;
        }
        printf("%lld\n", (long long)number);
    }
    return 0;
}
