/*
 * The bound on a row's disturbance and the least counter count of a row refresh tracker, and
 * the closer figure of a single row, for C and C++. Link with the static library `bound`, and
 * for the row's figure with `rowlimit`; neither needs the other or any other library.
 *
 * Settings, in this order:
 *
 *   refusal  setting         meaning                                  allowed
 *   1        rows            rows in the bank                         multiple of 16, 16 to 262144
 *   2        blast_diameter  rows disturbed by one activation,        2 or 4
 *                            half of them on each side
 *   3        volume          rows picked at a refresh event           1 to 16
 *   4        counters        counters of the tracker                  volume to 2048
 *   5        interval        activations between two events           1 to 4096
 *   6        window          events in a window                       1 to 8192
 *   7        block           rows regularly refreshed at each event   1 to 64, and block x window
 *                                                                     must be at least rows
 *
 * They are tested in this order, and refusal k of the first that is not allowed comes back
 * as -k. Every value of every number may be passed. The functions keep no state and write no
 * memory of the caller, and the only memory that they read are the sixteen numbers of a remap,
 * so that several threads may call them at once; they always return, and fail in no way other
 * than the refusals named here.
 */
#ifndef ROW_TRACKER_H
#define ROW_TRACKER_H

#include <stdint.h>

#ifdef __cplusplus
extern "C" {
#endif

/*
 * The bound H: the limit on how often a row is disturbed after it was last refreshed or
 * activated, while the first window lasts. 2 x H is the limit at any time.
 *
 * Let disturbers be interval + volume + block, and size(j) the smaller of j x volume + 1 and
 * counters + 1. Start with total 0. For j from window - 1 down to 1: add blast_diameter x
 * disturbers, then replace the total by total x size(j - 1) / size(j), rounded down. At the
 * end add disturbers. That is H.
 *
 * Returns H, which is above 0, or
 *   -1 to -7  the setting of that number is not allowed.
 */
int64_t row_tracker_bound(uint32_t rows, uint32_t blast_diameter, uint32_t volume,
                          uint32_t counters, uint32_t interval, uint32_t window,
                          uint32_t block);

/*
 * The least counter count for a threshold: the smallest `counters`, from volume to 2048, for
 * which 2 x H is below the threshold. Any 64-bit threshold is allowed.
 *
 * Returns that count, or
 *   -1, -2, -3, -5, -6, -7  the setting of that number is not allowed
 *                           (4 does not occur, since counters is not given),
 *   -12                     no counter count up to 2048 meets the threshold.
 */
int64_t row_tracker_least_counters(uint32_t rows, uint32_t blast_diameter, uint32_t volume,
                                   uint32_t interval, uint32_t window, uint32_t block,
                                   uint64_t threshold);

/*
 * The closer figure of a row: the limit on how often the row is disturbed after it was last
 * refreshed or activated, by where the tracker stands, whichever window it is in. It is never
 * above 2 x H, and well below it for rows whose regular block comes late in a window.
 *
 * `remap` points to sixteen numbers: number r takes the place of the logical row's remainder r
 * by 16, which gives the physical row. `row` is the logical row. The position: `events` so far
 * in this window, `activations` since the last event, counted by their units, `tracked` rows,
 * and `spillover`. Only `events` bears on the figure; the others are tested.
 *
 * Let H(i) be H with i in place of window, and own the physical row divided by block, rounded
 * down: the event whose block holds the row. If events is above own, the figure is
 * H(events + 1), else H(events + 1) plus the smaller of H(window) and
 * disturbers x (window - 1 - own).
 *
 * Returns the figure, which is above 0, or
 *   -1 to -7  the setting of that number is not allowed,
 *   -9        row is not below rows,
 *   -14       in the remap one of 0 to 15 is missing,
 *   -21       events is not below window, activations is above interval, tracked above
 *             counters, or spillover above 2000000000.
 */
int64_t row_tracker_row_limit(uint32_t rows, uint32_t blast_diameter, uint32_t volume,
                              uint32_t counters, uint32_t interval, uint32_t window,
                              uint32_t block, const uint32_t remap[16], uint32_t row,
                              uint32_t events, uint32_t activations, uint32_t tracked,
                              uint32_t spillover);

#ifdef __cplusplus
}
#endif

#endif
