/*
 * Prints the bound of a row refresh tracker and the least counter count for a threshold.
 *
 *   bound_example [ROWS DIAMETER VOLUME COUNTERS INTERVAL WINDOW BLOCK [THRESHOLD]]
 *
 * Without arguments: 16 2 1 2 4 4 4, threshold 61. Build, from the repository's root:
 *
 *   tools/staticlib bound
 *   cc -std=c99 -Wall -Wextra -Iinclude examples/bound.c target/staticlib/libbound.a \
 *      -o target/bound_example
 *
 * Exit status: 0 if both numbers were printed, 1 if the library refused, 2 on bad usage.
 */
#include <errno.h>
#include <stdio.h>
#include <stdlib.h>

#include "row_tracker.h"

enum { SETTINGS = 7 };

/* What a refusal says. Both functions give -k for refusal k. */
static const char *refusal_text(int64_t answer)
{
    switch (-answer) {
    case 1: return "rows: a multiple of 16 from 16 to 262144 is allowed";
    case 2: return "blast diameter: 2 or 4 is allowed";
    case 3: return "volume: 1 to 16 is allowed";
    case 4: return "counters: volume to 2048 is allowed";
    case 5: return "interval: 1 to 4096 is allowed";
    case 6: return "window: 1 to 8192 is allowed";
    case 7: return "block: 1 to 64 is allowed, with block x window at least rows";
    case 12: return "threshold: no counter count up to 2048 meets it";
    default: return "unknown refusal";
    }
}

static int refused(int64_t answer)
{
    fprintf(stderr, "refused with %d: %s\n", (int)-answer, refusal_text(answer));
    return 1;
}

static int bad_usage(const char *program)
{
    fprintf(stderr,
            "usage: %s [ROWS DIAMETER VOLUME COUNTERS INTERVAL WINDOW BLOCK [THRESHOLD]]\n",
            program);
    return 2;
}

/* Reads a decimal number of at most `max`; 0 if the text is none. */
static int read_number(const char *text, uint64_t max, uint64_t *number)
{
    char *end;

    if (text[0] < '0' || text[0] > '9')
        return 0;
    errno = 0;
    *number = strtoull(text, &end, 10);
    return errno == 0 && *end == '\0' && *number <= max;
}

int main(int argc, char **argv)
{
    uint32_t s[SETTINGS] = {16, 2, 1, 2, 4, 4, 4};
    uint64_t threshold = 61;
    uint64_t number;
    int64_t bound, counters;
    int i;

    if (argc != 1 && argc != 1 + SETTINGS && argc != 2 + SETTINGS)
        return bad_usage(argv[0]);
    for (i = 0; i < SETTINGS && i + 1 < argc; i++) {
        if (!read_number(argv[i + 1], UINT32_MAX, &number))
            return bad_usage(argv[0]);
        s[i] = (uint32_t)number;
    }
    if (argc == 2 + SETTINGS && !read_number(argv[1 + SETTINGS], UINT64_MAX, &threshold))
        return bad_usage(argv[0]);

    /* A negative answer is a refusal. */
    bound = row_tracker_bound(s[0], s[1], s[2], s[3], s[4], s[5], s[6]);
    if (bound < 0)
        return refused(bound);
    printf("bound H: %lld\n", (long long)bound);
    printf("2 x H:   %lld\n", (long long)(2 * bound));

    /* The same settings without the counters, s[3]: this is what is looked for. */
    counters = row_tracker_least_counters(s[0], s[1], s[2], s[4], s[5], s[6], threshold);
    if (counters < 0)
        return refused(counters);
    printf("least counter count for threshold %llu: %lld\n", (unsigned long long)threshold,
           (long long)counters);
    return 0;
}
