/*
 * Prints the closer figures of some rows of a row refresh tracker, for each event of a window.
 *
 *   row_limit_example [ROWS DIAMETER VOLUME COUNTERS INTERVAL WINDOW BLOCK ROW [EVENTS]]
 *
 * Without arguments: rows 0, 5, 11 and 15 of 16 2 1 2 4 4 4, at each of its 4 events. With
 * EVENTS: the row's figure at that event, without it at each. Rows are logical rows, under the
 * tracker's own remap. Build, from the repository's root:
 *
 *   tools/staticlib rowlimit
 *   cc -std=c99 -Wall -Wextra -Iinclude examples/row_limit.c target/staticlib/librowlimit.a \
 *      -o target/row_limit_example
 *
 * Exit status: 0 if the figures were printed, 1 if the library refused, 2 on bad usage.
 */
#include <errno.h>
#include <stdio.h>
#include <stdlib.h>

#include "row_tracker.h"

enum { SETTINGS = 7, WINDOW = 5 };

/* The remap that is used until another is loaded. */
static const uint32_t own_remap[16] = {0, 1, 3, 2, 4, 5, 7, 6, 8, 9, 11, 10, 12, 13, 15, 14};

/* The figure at the beginning of an interval, when nothing is tracked. */
static int64_t figure(const uint32_t *s, uint32_t row, uint32_t events)
{
    return row_tracker_row_limit(s[0], s[1], s[2], s[3], s[4], s[5], s[6], own_remap, row, events,
                                 0, 0, 0);
}

/* Prints a row's figures at the events from `first` on; 0 if one is refused. */
static int print_row(const uint32_t *s, uint32_t row, uint32_t first, uint32_t last)
{
    uint32_t events;

    printf("row %lu:", (unsigned long)row);
    for (events = first; events <= last; events++) {
        int64_t answer = figure(s, row, events);

        if (answer < 0) {
            printf("\n");
            fprintf(stderr, "refused with %d\n", (int)-answer);
            return 0;
        }
        printf(" %lld", (long long)answer);
    }
    printf("\n");
    return 1;
}

/* Reads a decimal number of 32 bits; 0 if the text is none. */
static int read_number(const char *text, uint32_t *number)
{
    unsigned long long value;
    char *end;

    if (text[0] < '0' || text[0] > '9')
        return 0;
    errno = 0;
    value = strtoull(text, &end, 10);
    *number = (uint32_t)value;
    return errno == 0 && *end == '\0' && value <= UINT32_MAX;
}

int main(int argc, char **argv)
{
    static const uint32_t shown[] = {0, 5, 11, 15};
    uint32_t s[SETTINGS + 2] = {16, 2, 1, 2, 4, 4, 4};
    uint32_t last;
    int i;

    if (argc == 1) {
        for (i = 0; i < 4; i++)
            if (!print_row(s, shown[i], 0, s[WINDOW] - 1))
                return 1;
        return 0;
    }
    for (i = 1; i < argc && i <= SETTINGS + 2; i++)
        if (!read_number(argv[i], &s[i - 1]))
            argc = 0;
    if (argc != SETTINGS + 2 && argc != SETTINGS + 3) {
        fprintf(stderr, "usage: %s [ROWS DIAMETER VOLUME COUNTERS INTERVAL WINDOW BLOCK ROW "
                "[EVENTS]]\n", argv[0]);
        return 2;
    }
    if (argc == SETTINGS + 3)
        return print_row(s, s[SETTINGS], s[SETTINGS + 1], s[SETTINGS + 1]) ? 0 : 1;
    /* A window of no event is refused at event 0. */
    last = s[WINDOW] == 0 ? 0 : s[WINDOW] - 1;
    return print_row(s, s[SETTINGS], 0, last) ? 0 : 1;
}
