/* Foil Router: the longest track between two cells of a rectangular panel.
 *
 * A panel has m columns and n rows, each from 1 to 128, and a pitch in micrometres, from 1,000 to 10,000. A
 * cell is (x, y), x from 1 to m and y from 1 to n; (1, 1) is the upper left, and y grows downward. A track
 * is a list of cells from the entry to the exit, each a neighbour of the one before, none twice. Entry and
 * exit may be one cell, which is then the only track. A cell list is bytes: x then y for each cell. A call
 * takes an order as seven numbers: the panel's three, then entry and exit; on an order's line the pitch
 * stands last. No answer and no byte that is written depends on a pitch within its range.
 *
 * There are three calls for every such panel, foil_bound, foil_draw and foil_judge, and three of the same
 * parameters for the bench cutter, foil_bench_bound, foil_bench_draw and foil_bench_judge, whose bed takes
 * 32 cells a side.
 *
 * Link with libhost.a, the archive that `rt lib` in crates/host writes to crates/host/out. The calls keep
 * no state, call nothing but memcpy and memset, and may be made from several threads at once on different buffers.
 * Any numbers may be passed: what is wrong is refused, and nothing is written outside the buffers.
 *
 * A buffer is a pointer and its length in bytes. Where the length is 0 the pointer may be null; it is
 * not looked at. Otherwise it must point at that many bytes, which no other thread changes meanwhile,
 * and the two buffers of foil_judge or foil_bench_judge must not overlap.
 */
#ifndef FOIL_H
#define FOIL_H

#include <stddef.h>
#include <stdint.h>

#ifdef __cplusplus
extern "C" {
#endif

/* Why a call refuses. The first that holds, in the order given at each call, is the one. Two are withdrawn and
 * stay free: 4 was for equal terminals, which are accepted now, and 10 for a list with more cells than the
 * panel, which could not come: such a list meets 7, 8 or 9 before. 12 to 17 and 20 to 23 are given by calls that C
 * does not have. */
enum foil_refusal {
    FOIL_OK = 0,                /* nothing is refused */
    FOIL_SIDE = 1,              /* a side is 0 or above 128 */
    FOIL_ENTRY_OFF = 2,         /* the entry is off the panel */
    FOIL_EXIT_OFF = 3,          /* the exit is off the panel */
    FOIL_SHORT_BUFFER = 5,      /* the buffer, or the scratch, is too short */
    FOIL_LIST_LENGTH = 6,       /* the list is empty or has an odd number of bytes */
    FOIL_CELL_OFF = 7,          /* some cell of the list is off the panel */
    FOIL_NOT_NEIGHBOURS = 8,    /* some two successive cells are not neighbours */
    FOIL_REPEATED = 9,          /* some cell stands twice */
    FOIL_WRONG_ENDS = 11,       /* the first cell is not the entry, or the last not the exit */
    FOIL_PITCH = 18,            /* the pitch is below 1,000 or above 10,000; looked at right after 1 */
    FOIL_BENCH_SIDE = 19        /* a side is from 33 to 128; bench calls only, looked at right after 18 */
};

/* The largest panel: sides, cells, and bytes of a cell list with every cell. */
#define FOIL_MAX_SIDE 128u
#define FOIL_MAX_CELLS (FOIL_MAX_SIDE * FOIL_MAX_SIDE)
#define FOIL_MAX_BYTES (2u * FOIL_MAX_CELLS)

/* The largest side that the bench cutter's bed takes. */
#define FOIL_BENCH_MAX_SIDE 32u

/* The range of the pitch, in micrometres. */
#define FOIL_MIN_PITCH 1000u
#define FOIL_MAX_PITCH 10000u

/* A call's answer is one number: refusal * 2^32 + class * 2^24 + count. Where a call refuses, class and
 * count are 0. These three take it apart. */
static inline uint32_t foil_refusal_in(uint64_t answer) { return (uint32_t)(answer >> 32); }
static inline uint32_t foil_class_in(uint64_t answer) { return (uint32_t)(answer >> 24) & 0xFFu; }
static inline uint32_t foil_count_in(uint64_t answer) { return (uint32_t)answer & 0xFFFFFFu; }

/* Bound: the class of the order, 1 to 6, and the number of cells of a longest track. Equal terminals are
 * class 6 with 1 cell, and nothing else is.
 * Refused, in order: 1, 18, 2, 3. */
uint64_t foil_bound(uint32_t m, uint32_t n, uint32_t pitch,
                    uint32_t entry_x, uint32_t entry_y, uint32_t exit_x, uint32_t exit_y);

/* Draw: writes a longest track from entry to exit at the front of the buffer and gives its number of
 * cells, the count of foil_bound. It takes 2 bytes for each cell; FOIL_MAX_BYTES are always enough. For
 * equal terminals it writes that cell. For the same sides and terminals it is always the same track.
 * Where both sides are 3 or more and the terminals differ, the class of foil_bound says how many cells of
 * which colour the track leaves uncovered (a cell is white if x + y is even, else black): class 3 leaves
 * none; class 4 leaves one cell, of the colour opposite to the terminals where m * n is even, white where
 * it is odd; class 5 leaves two white cells where m * n is odd, and one of each colour where it is even.
 * Refused, in order: 1, 18, 2, 3; 5, the buffer is shorter than 2 bytes for each cell of the count.
 * After: the bytes behind the track are as before; a refusal changes no byte. The class is 0. */
uint64_t foil_draw(uint32_t m, uint32_t n, uint32_t pitch,
                   uint32_t entry_x, uint32_t entry_y, uint32_t exit_x, uint32_t exit_y,
                   uint8_t *buffer, size_t buffer_len);

/* Judge: whether a list is a track from entry to exit, and its number of cells. It need not be longest.
 * For equal terminals the list of that one cell is accepted, and no other.
 * Refused, in order: 1, 18, 2, 3; 6; 5, the scratch is shorter than m * n bytes (FOIL_MAX_CELLS are
 * always enough); 7, 8, 9, 11, each over the whole list before the next.
 * After: the list is as before. A refusal of 1, 18, 2, 3, 6 or 5 leaves the scratch as before;
 * otherwise, accepted or refused, its first m * n bytes are 0 and the rest as before. The class is 0. */
uint64_t foil_judge(uint32_t m, uint32_t n, uint32_t pitch,
                    uint32_t entry_x, uint32_t entry_y, uint32_t exit_x, uint32_t exit_y,
                    const uint8_t *list, size_t list_len, uint8_t *scratch, size_t scratch_len);

/* The bench cutter's calls. Where both sides are at most FOIL_BENCH_MAX_SIDE, equal numbers and equal buffers
 * get the answer of the call above and are left with the same bytes; so what foil_bench_draw writes is a
 * longest track, the one that foil_draw writes, and leaves the same cells uncovered. Otherwise: a side of 0
 * or above 128 is 1, whatever the other side is, and with both good a pitch outside its range is 18, as
 * above; then a side above FOIL_BENCH_MAX_SIDE is 19, which no call above gives, whatever is wrong besides. */

/* Bound for the bench.
 * Refused, in order: 1, 18, 19, 2, 3. */
uint64_t foil_bench_bound(uint32_t m, uint32_t n, uint32_t pitch,
                          uint32_t entry_x, uint32_t entry_y, uint32_t exit_x, uint32_t exit_y);

/* Draw for the bench.
 * Refused, in order: 1, 18, 19, 2, 3; 5, the buffer is shorter than 2 bytes for each cell of the count.
 * After: the bytes behind the track are as before; a refusal changes no byte. The class is 0. */
uint64_t foil_bench_draw(uint32_t m, uint32_t n, uint32_t pitch,
                         uint32_t entry_x, uint32_t entry_y, uint32_t exit_x, uint32_t exit_y,
                         uint8_t *buffer, size_t buffer_len);

/* Judge for the bench.
 * Refused, in order: 1, 18, 19, 2, 3; 6; 5, the scratch is shorter than m * n bytes; 7, 8, 9, 11, each over the
 * whole list before the next.
 * After: the list is as before. A refusal of 1, 18, 19, 2, 3, 6 or 5 leaves the scratch as before; otherwise,
 * accepted or refused, its first m * n bytes are 0 and the rest as before. The class is 0. */
uint64_t foil_bench_judge(uint32_t m, uint32_t n, uint32_t pitch,
                          uint32_t entry_x, uint32_t entry_y, uint32_t exit_x, uint32_t exit_y,
                          const uint8_t *list, size_t list_len, uint8_t *scratch, size_t scratch_len);

#ifdef __cplusplus
}
#endif

#endif
