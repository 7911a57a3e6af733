/* Tests the calls from C: the table of orders, the cases that are only run, equal terminals, hostile
 * numbers, pitches, sides around the bench cutter's 32, and the colours of the cells that a track leaves.
 *
 * `bound`, `draw` and `judge` make the large call and the bench cutter's on equal buffers, and compare the two;
 * they give the large one's answer. So every case is one for the bench too.
 *
 * The archive is not compiled with the sanitizers, so they see the code of this file only. What the calls
 * do is seen by fences: every buffer that a call gets stands against a page that may be neither read nor
 * written, and a byte too far, read or written, stops the test. A buffer touches one fence at a time, so
 * each call with a buffer is made twice, with the first byte right behind the front fence and with the
 * last byte right before the rear one; both must give the same answer and the same content. The bytes
 * between the fences that are not the buffer hold canaries, which are looked at after the call. Judge's
 * list may only be read. An empty buffer points into the fence, and is null in a third call. */

#define _DEFAULT_SOURCE /* MAP_ANONYMOUS */

#include "foil.h"

#include <stdio.h>
#include <stdlib.h>
#include <string.h>
#include <sys/mman.h>
#include <unistd.h>

enum { CANARY = 0xC5, OLD = 0x3A };

static unsigned long checks, faults;

static void expect(int ok, const char *what, unsigned line)
{
    checks++;
    if (!ok) {
        faults++;
        fprintf(stderr, "test.c:%u: %s\n", line, what);
    }
}
#define EXPECT(what) expect((what), #what, __LINE__)

struct order {
    uint32_t m, n, pitch, sx, sy, tx, ty;
};
#define SEVEN(o) (o).m, (o).n, (o).pitch, (o).sx, (o).sy, (o).tx, (o).ty

enum { USUAL = 4000 };

/* The ends of the pitch's range and of the type, the numbers just outside the range, and the usual pitch. */
static const uint32_t pitches[] = {0, 999, 1000, USUAL, 10000, 10001, 0xFFFFFFFF};
enum { PITCHES = sizeof pitches / sizeof *pitches };

static int good_pitch(uint32_t pitch)
{
    return pitch >= FOIL_MIN_PITCH && pitch <= FOIL_MAX_PITCH;
}

/* What is refused at a pitch where `refusal` is refused at the usual one: 18 stands right after 1. */
static uint32_t refusal_at(uint32_t pitch, uint32_t refusal)
{
    return good_pitch(pitch) || refusal == FOIL_SIDE ? refusal : FOIL_PITCH;
}

static uint64_t answer(uint32_t refusal, uint32_t class, uint32_t count)
{
    return (uint64_t)refusal << 32 | (uint64_t)class << 24 | count;
}

/* What a bench call answers where the large one gives `large`: 19 where a side is too long for the bed, unless it is
 * 1 or 18, which stand before 19; otherwise the same. */
static uint64_t on_bench(struct order o, uint64_t large)
{
    uint32_t refusal = foil_refusal_in(large);
    int fits = o.m <= FOIL_BENCH_MAX_SIDE && o.n <= FOIL_BENCH_MAX_SIDE;
    return fits || refusal == FOIL_SIDE || refusal == FOIL_PITCH ? large : answer(FOIL_BENCH_SIDE, 0, 0);
}

/* The calls for every panel, and those for the bench. */
enum calls { LARGE, BENCH };

/* Bytes that are open, between two fences; CANARY wherever no buffer stands. */
struct region {
    uint8_t *open;
    size_t size;
};

static struct region for_draw, for_list, for_scratch;

/* Where in its region a buffer stands. NOWHERE: as FRONT, but null if it has no bytes. */
enum side { FRONT, REAR, NOWHERE, SIDES };

/* A region with room for the largest buffer here: every cell of the largest panel, and some bytes more. */
static struct region fenced(void)
{
    size_t page = (size_t)sysconf(_SC_PAGESIZE);
    size_t size = (FOIL_MAX_BYTES / page + 2) * page;
    uint8_t *whole = mmap(NULL, size + 2 * page, PROT_NONE, MAP_PRIVATE | MAP_ANONYMOUS, -1, 0);
    if (whole == MAP_FAILED || mprotect(whole + page, size, PROT_READ | PROT_WRITE) != 0) {
        perror("test.c: fences");
        exit(1);
    }
    memset(whole + page, CANARY, size);
    return (struct region){whole + page, size};
}

static int all(const uint8_t *at, size_t size, uint8_t byte)
{
    return size == 0 || (at[0] == byte && memcmp(at, at + 1, size - 1) == 0);
}

/* A buffer of `size` bytes against a fence; of no bytes: in the fence itself, or null. */
static uint8_t *place(struct region r, enum side side, size_t size)
{
    if (size > r.size)
        abort();
    if (side == REAR)
        return r.open + r.size - size;
    if (size > 0)
        return r.open;
    return side == FRONT ? r.open - 1 : NULL;
}

/* The sides to try: null too where a buffer may be that. */
static enum side sides(int some_empty)
{
    return some_empty ? SIDES : NOWHERE;
}

/* Whether the canaries beside a buffer live; the buffer is taken away, and canaries stand everywhere again. */
static int lift(struct region r, enum side side, size_t size)
{
    uint8_t *rest = side == REAR ? r.open : r.open + size;
    int ok = all(rest, r.size - size, CANARY);
    if (!ok)
        memset(rest, CANARY, r.size - size);
    memset(side == REAR ? r.open + r.size - size : r.open, CANARY, size);
    return ok;
}

static void protect(struct region r, int protection)
{
    if (mprotect(r.open, r.size, protection) != 0)
        abort();
}

static uint64_t bound(struct order o)
{
    uint64_t large = foil_bound(SEVEN(o));
    EXPECT(foil_bench_bound(SEVEN(o)) == on_bench(o, large));
    return large;
}

/* Draws into a buffer of `room` bytes, at both fences, and looks at what is left of it, which `left` keeps. */
static uint64_t draw_by(enum calls calls, struct order o, size_t room, uint8_t *left)
{
    uint64_t first = 0;
    for (enum side side = FRONT; side < sides(room == 0); side++) {
        uint8_t *at = place(for_draw, side, room);
        if (room > 0)
            memset(at, OLD, room);
        uint64_t got = (calls == BENCH ? foil_bench_draw : foil_draw)(SEVEN(o), at, room);
        if (side == FRONT) {
            first = got;
            if (room > 0)
                memcpy(left, at, room);
        }
        EXPECT(got == first);
        EXPECT(room == 0 || memcmp(left, at, room) == 0);
        size_t used = 2 * (size_t)foil_count_in(got);
        EXPECT(used <= room && all(left + used, room - used, OLD));
        EXPECT(lift(for_draw, side, room));
    }
    return first;
}

/* What the last `draw` left in its buffer. */
static uint8_t drawn[2 * FOIL_MAX_BYTES];

static uint64_t draw(struct order o, size_t room)
{
    static uint8_t bench_drawn[sizeof drawn];
    uint64_t large = draw_by(LARGE, o, room, drawn), bench = draw_by(BENCH, o, room, bench_drawn);
    EXPECT(bench == on_bench(o, large));
    EXPECT(bench != large || memcmp(bench_drawn, drawn, room) == 0);
    return large;
}

/* Whether Judge came to look at the cells, and cleared its scratch for them: all that stands before 7 is passed. */
static int cells_looked_at(uint32_t refusal)
{
    return refusal == FOIL_OK || (refusal >= FOIL_CELL_OFF && refusal <= FOIL_WRONG_ENDS);
}

/* Judges a list, with scratch of `room` bytes at a fence, and looks at what is left of that. */
static uint64_t judge_by(enum calls calls, struct order o, const uint8_t *list, size_t size, enum side side, size_t room)
{
    uint8_t *scratch = place(for_scratch, side, room);
    if (room > 0)
        memset(scratch, OLD, room);
    uint64_t got = (calls == BENCH ? foil_bench_judge : foil_judge)(SEVEN(o), list, size, scratch, room);
    size_t cleared = cells_looked_at(foil_refusal_in(got)) ? (size_t)o.m * o.n : 0;
    EXPECT(cleared <= room);
    if (cleared <= room && room > 0)
        EXPECT(all(scratch, cleared, 0) && all(scratch + cleared, room - cleared, OLD));
    EXPECT(lift(for_scratch, side, room));
    return got;
}

/* Judges a list with scratch of `room` bytes, at both fences. What is left of the scratch follows from the answer, so
 * equal answers leave equal bytes. */
static uint64_t judge(struct order o, const uint8_t *list, size_t size, size_t room)
{
    uint64_t first = 0;
    for (enum side side = FRONT; side < sides(size == 0 || room == 0); side++) {
        uint8_t *bytes = place(for_list, side, size);
        if (size > 0)
            memcpy(bytes, list, size);
        protect(for_list, PROT_READ);
        uint64_t large = judge_by(LARGE, o, bytes, size, side, room);
        EXPECT(judge_by(BENCH, o, bytes, size, side, room) == on_bench(o, large));
        protect(for_list, PROT_READ | PROT_WRITE);
        if (side == FRONT)
            first = large;
        EXPECT(large == first);
        EXPECT(size == 0 || memcmp(bytes, list, size) == 0);
        EXPECT(lift(for_list, side, size));
    }
    return first;
}

/* An order that every large call refuses alike, whatever 5 and 6 would say of its buffers. */
static void bad(struct order o, uint32_t refusal)
{
    static const uint8_t list[] = {1, 1, 2, 1};
    uint64_t refused = answer(refusal, 0, 0);
    EXPECT(bound(o) == refused);
    EXPECT(draw(o, 64) == refused);
    EXPECT(draw(o, 0) == refused);
    EXPECT(judge(o, list, sizeof list, 64) == refused);
    EXPECT(judge(o, list, sizeof list, 0) == refused);
    EXPECT(judge(o, list, sizeof list - 1, 64) == refused);
    EXPECT(judge(o, list, 0, 64) == refused);
    EXPECT(judge(o, list, 0, 0) == refused);
}

/* An order that is refused so at the usual pitch, at every pitch. */
static void bad_at_every_pitch(struct order o, uint32_t refusal)
{
    for (size_t i = 0; i < PITCHES; i++) {
        o.pitch = pitches[i];
        bad(o, refusal_at(o.pitch, refusal));
    }
}

/* An order that is not refused at the usual pitch: at every other the same answers and the same whole buffer, or 18. */
static void good_at_every_pitch(struct order o, uint32_t class, uint32_t count)
{
    static uint8_t usual[sizeof drawn];
    size_t enough = 2 * (size_t)count, room = enough + 33, area = (size_t)o.m * o.n;
    draw(o, room);
    memcpy(usual, drawn, room);
    for (size_t i = 0; i < PITCHES; i++) {
        o.pitch = pitches[i];
        int ok = good_pitch(o.pitch);
        uint64_t expected = ok ? answer(0, 0, count) : answer(FOIL_PITCH, 0, 0);
        EXPECT(bound(o) == (ok ? answer(0, class, count) : expected));
        EXPECT(draw(o, room) == expected);
        EXPECT(!ok || memcmp(drawn, usual, room) == 0);
        EXPECT(judge(o, usual, enough, area) == expected);
    }
}

/* How many cells of each colour the last track leaves uncovered: white, black. */
static void count_left(struct order o, uint32_t count, uint32_t left[2])
{
    static uint8_t covered[256][256];
    memset(covered, 0, sizeof covered);
    for (size_t i = 0; i < count; i++)
        covered[drawn[2 * i]][drawn[2 * i + 1]] = 1;
    left[0] = left[1] = 0;
    for (uint32_t x = 1; x <= o.m; x++)
        for (uint32_t y = 1; y <= o.n; y++)
            left[(x + y) % 2] += !covered[x][y];
}

/* How often each line was met: classes 3, 4 and 5, m * n being even and odd. */
static unsigned long lines_met[3][2];

/* What the last track leaves, where both sides are 3 or more and the terminals differ. */
static void cold(struct order o, uint32_t class, uint32_t count)
{
    if (o.m < 3 || o.n < 3 || (o.sx == o.tx && o.sy == o.ty))
        return;
    EXPECT(class >= 3 && class <= 5);
    if (class < 3 || class > 5)
        return;
    uint32_t left[2], odd = o.m * o.n % 2, at_entry = (o.sx + o.sy) % 2, at_exit = (o.tx + o.ty) % 2;
    count_left(o, count, left);
    lines_met[class - 3][odd]++;
    if (class == 3)
        EXPECT(left[0] == 0 && left[1] == 0);
    if (class == 4 && odd)
        EXPECT(left[0] == 1 && left[1] == 0);
    if (class == 4 && !odd)
        EXPECT(at_entry == at_exit && left[at_entry] == 0 && left[1 - at_entry] == 1);
    if (class == 5 && odd)
        EXPECT(left[0] == 2 && left[1] == 0);
    if (class == 5 && !odd)
        EXPECT(left[0] == 1 && left[1] == 1);
}

/* An order that no large call refuses: the three agree with class and count. */
static void good(struct order o, uint32_t class, uint32_t count)
{
    size_t enough = 2 * (size_t)count, area = (size_t)o.m * o.n;
    EXPECT(bound(o) == answer(0, class, count));
    EXPECT(draw(o, enough + 33) == answer(0, 0, count));
    EXPECT(draw(o, enough - 1) == answer(FOIL_SHORT_BUFFER, 0, 0));
    EXPECT(draw(o, 0) == answer(FOIL_SHORT_BUFFER, 0, 0));
    EXPECT(draw(o, enough) == answer(0, 0, count));
    cold(o, class, count);

    EXPECT(judge(o, drawn, enough, area) == answer(0, 0, count));
    EXPECT(judge(o, drawn, enough, area + 17) == answer(0, 0, count));
    EXPECT(judge(o, drawn, enough, area - 1) == answer(FOIL_SHORT_BUFFER, 0, 0));
    EXPECT(judge(o, drawn, enough - 1, area) == answer(FOIL_LIST_LENGTH, 0, 0));
    EXPECT(judge(o, drawn, enough - 2, area) == answer(count > 1 ? FOIL_WRONG_ENDS : FOIL_LIST_LENGTH, 0, 0));
    EXPECT(judge(o, drawn, 0, 0) == answer(FOIL_LIST_LENGTH, 0, 0));
    EXPECT(judge(o, drawn, 0, area) == answer(FOIL_LIST_LENGTH, 0, 0));
    EXPECT(judge(o, drawn, enough, 0) == answer(FOIL_SHORT_BUFFER, 0, 0));
    drawn[enough - 1] = 0;
    EXPECT(judge(o, drawn, enough, area) == answer(FOIL_CELL_OFF, 0, 0));
    good_at_every_pitch(o, class, count);
}

/* An order with equal terminals: the track is that cell, told without Judge. */
static void spot(uint32_t m, uint32_t n, uint32_t x, uint32_t y)
{
    struct order o = {m, n, USUAL, x, y, x, y};
    good(o, 6, 1);
    EXPECT(draw(o, 2) == answer(0, 0, 1) && drawn[0] == x && drawn[1] == y);
}

/* An order between two cells of a panel: what is drawn is judged good with the bound's count, and equal
 * terminals and no others are of class 6. */
static void pair(struct order o)
{
    if (o.sx == o.tx && o.sy == o.ty) {
        spot(o.m, o.n, o.sx, o.sy);
        return;
    }
    uint64_t given = bound(o);
    EXPECT(foil_class_in(given) >= 1 && foil_class_in(given) <= 5);
    good(o, foil_class_in(given), foil_count_in(given));
}

static void table(void)
{
    good((struct order){5, 1, USUAL, 5, 1, 1, 1}, 3, 5);
    good((struct order){5, 1, USUAL, 2, 1, 4, 1}, 1, 3);
    good((struct order){6, 2, USUAL, 2, 1, 2, 2}, 2, 10);
    good((struct order){6, 2, USUAL, 3, 1, 4, 2}, 2, 7);
    good((struct order){6, 2, USUAL, 3, 1, 4, 1}, 3, 12);
    good((struct order){4, 3, USUAL, 2, 1, 3, 1}, 3, 12);
    good((struct order){4, 3, USUAL, 2, 2, 3, 2}, 3, 12);
    good((struct order){4, 3, USUAL, 1, 2, 2, 2}, 5, 10);
    good((struct order){3, 4, USUAL, 2, 1, 2, 4}, 5, 10);
    good((struct order){3, 3, USUAL, 2, 2, 1, 2}, 4, 8);
    good((struct order){3, 3, USUAL, 1, 2, 3, 2}, 5, 7);
    good((struct order){128, 128, USUAL, 1, 1, 128, 128}, 4, 16383);
    good((struct order){128, 128, USUAL, 1, 1, 1, 128}, 3, 16384);
    good((struct order){2, 2, USUAL, 1, 1, 2, 1}, 3, 4);
    good((struct order){2, 2, USUAL, 1, 1, 1, 2}, 2, 4);
}

/* Equal terminals where different ones near by are of class 1, 2, 3, 4 and 5, and in the corners of the
 * largest panel. */
static void spots(void)
{
    spot(5, 1, 3, 1);
    spot(1, 5, 1, 3);
    spot(5, 1, 1, 1);
    spot(6, 2, 3, 2);
    spot(2, 6, 2, 3);
    spot(4, 3, 1, 2);
    spot(3, 3, 2, 2);
    spot(3, 3, 2, 1);
    spot(7, 5, 1, 1);
    spot(7, 5, 7, 5);
    spot(128, 1, 128, 1);
    spot(1, 128, 1, 128);
    spot(128, 128, 1, 1);
    spot(128, 128, 1, 128);
    spot(128, 128, 128, 1);
    spot(128, 128, 128, 128);
}

static void run_only(void)
{
    bad((struct order){129, 1, USUAL, 1, 1, 2, 1}, FOIL_SIDE);
    bad((struct order){1, 129, USUAL, 1, 1, 1, 2}, FOIL_SIDE);
    bad((struct order){1, 1, USUAL, 1, 1, 2, 1}, FOIL_EXIT_OFF);
    spot(1, 1, 1, 1);
    struct order large = {128, 128, USUAL, 1, 1, 1, 128};
    EXPECT(draw(large, 32768) == answer(0, 0, 16384));
    EXPECT(draw(large, 32767) == answer(FOIL_SHORT_BUFFER, 0, 0));
}

/* Each number of an order in turn is one from the ends of the range, or just outside its own; the low half of 69536
 * is the usual pitch. */
static void hostile(void)
{
    static const uint32_t numbers[] = {0, 129, 255, 256, 257, 999, 10001, 65535, 65536, 69536, 0x7FFFFFFF, 0x80000000, 0xFFFFFFFE, 0xFFFFFFFF};
    for (size_t i = 0; i < sizeof numbers / sizeof *numbers; i++) {
        uint32_t k = numbers[i];
        bad((struct order){k, 5, USUAL, 1, 1, 2, 2}, FOIL_SIDE);
        bad((struct order){7, k, USUAL, 1, 1, 2, 2}, FOIL_SIDE);
        bad((struct order){7, 5, k, 1, 1, 2, 2}, FOIL_PITCH);
        bad((struct order){7, 5, USUAL, k, 1, 2, 2}, FOIL_ENTRY_OFF);
        bad((struct order){7, 5, USUAL, 1, k, 2, 2}, FOIL_ENTRY_OFF);
        bad((struct order){7, 5, USUAL, 1, 1, k, 2}, FOIL_EXIT_OFF);
        bad((struct order){7, 5, USUAL, 1, 1, 2, k}, FOIL_EXIT_OFF);
        bad((struct order){k, k, k, k, k, k, k}, FOIL_SIDE);
        bad((struct order){128, 128, k, k, k, k, k}, FOIL_PITCH);
        bad((struct order){128, 128, USUAL, k, k, k, k}, FOIL_ENTRY_OFF);
    }
    bad((struct order){128, 128, USUAL, 128, 129, 128, 129}, FOIL_ENTRY_OFF);
}

/* Each fault of an order, and several at once, beside every pitch; with equal terminals too. */
static void faults_at_every_pitch(void)
{
    static const struct {
        uint32_t refusal;
        struct order order;
    } cases[] = {
        {FOIL_SIDE, {0, 5, USUAL, 1, 1, 2, 2}},
        {FOIL_SIDE, {7, 0, USUAL, 1, 1, 2, 2}},
        {FOIL_SIDE, {129, 5, USUAL, 1, 1, 2, 2}},
        {FOIL_SIDE, {7, 129, USUAL, 1, 1, 2, 2}},
        {FOIL_SIDE, {0, 0, USUAL, 0, 0, 0, 0}},
        {FOIL_SIDE, {129, 5, USUAL, 1, 1, 1, 1}},
        {FOIL_ENTRY_OFF, {7, 5, USUAL, 0, 1, 2, 2}},
        {FOIL_ENTRY_OFF, {7, 5, USUAL, 1, 6, 2, 2}},
        {FOIL_ENTRY_OFF, {7, 5, USUAL, 8, 1, 8, 1}},
        {FOIL_ENTRY_OFF, {7, 5, USUAL, 1, 0, 1, 0}},
        {FOIL_EXIT_OFF, {7, 5, USUAL, 1, 1, 8, 2}},
        {FOIL_EXIT_OFF, {7, 5, USUAL, 1, 1, 2, 0}},
    };
    for (size_t i = 0; i < sizeof cases / sizeof *cases; i++)
        bad_at_every_pitch(cases[i].order, cases[i].refusal);
}

/* A list, and what Judge says of it at the usual pitch. */
struct judged {
    uint32_t refusal, count;
    size_t size;
    uint8_t bytes[16];
};

/* Judges lists for one order, at every pitch. */
static void judge_lists(struct order o, const struct judged *cases, size_t size)
{
    size_t area = (size_t)o.m * o.n;
    for (size_t i = 0; i < size; i++)
        for (size_t j = 0; j < PITCHES; j++) {
            o.pitch = pitches[j];
            uint64_t expected = answer(refusal_at(o.pitch, cases[i].refusal), 0, good_pitch(o.pitch) ? cases[i].count : 0);
            EXPECT(judge(o, cases[i].bytes, cases[i].size, area) == expected);
            EXPECT(judge(o, cases[i].bytes, cases[i].size, area + 3) == expected);
        }
}

/* One list for each refusal of the cells, two faults at once in both orders, and behind all six cells a repeat, a
 * cell off the panel, and both; on wider panels too, where 19 stands before each. */
static void lists(void)
{
    static const struct judged cases[] = {
        {FOIL_OK, 6, 12, {1, 1, 2, 1, 3, 1, 3, 2, 2, 2, 1, 2}},
        {FOIL_OK, 2, 4, {1, 1, 1, 2}},
        {FOIL_OK, 4, 8, {1, 1, 2, 1, 2, 2, 1, 2}},
        {FOIL_LIST_LENGTH, 0, 3, {1, 1, 1}},
        {FOIL_CELL_OFF, 0, 6, {1, 1, 0, 1, 1, 2}},
        {FOIL_CELL_OFF, 0, 6, {1, 1, 1, 3, 1, 2}},
        {FOIL_CELL_OFF, 0, 8, {1, 1, 3, 2, 255, 255, 1, 2}},
        {FOIL_NOT_NEIGHBOURS, 0, 6, {1, 1, 2, 2, 1, 2}},
        {FOIL_NOT_NEIGHBOURS, 0, 4, {1, 1, 1, 1}},
        {FOIL_NOT_NEIGHBOURS, 0, 10, {1, 1, 2, 1, 1, 1, 3, 1, 1, 2}},
        {FOIL_REPEATED, 0, 8, {1, 1, 2, 1, 1, 1, 1, 2}},
        {FOIL_REPEATED, 0, 14, {1, 1, 2, 1, 3, 1, 3, 2, 2, 2, 1, 2, 1, 1}},
        {FOIL_REPEATED, 0, 16, {1, 1, 2, 1, 3, 1, 3, 2, 2, 2, 1, 2, 1, 1, 1, 2}},
        {FOIL_CELL_OFF, 0, 14, {1, 1, 2, 1, 3, 1, 3, 2, 2, 2, 1, 2, 1, 3}},
        {FOIL_CELL_OFF, 0, 16, {1, 1, 2, 1, 3, 1, 3, 2, 2, 2, 1, 2, 1, 1, 1, 0}},
        {FOIL_CELL_OFF, 0, 16, {1, 1, 2, 1, 3, 1, 3, 2, 2, 2, 1, 2, 1, 3, 1, 2}},
        {FOIL_WRONG_ENDS, 0, 4, {1, 2, 1, 1}},
        {FOIL_WRONG_ENDS, 0, 4, {1, 1, 2, 1}},
        {FOIL_WRONG_ENDS, 0, 2, {1, 1}},
    };
    static const uint32_t widths[] = {3, 32, 33, 128};
    for (size_t i = 0; i < sizeof widths / sizeof *widths; i++)
        judge_lists((struct order){widths[i], 2, USUAL, 1, 1, 1, 2}, cases, sizeof cases / sizeof *cases);
}

/* Lists for equal terminals, (2,1): the one cell alone is accepted, and a list back to it is no track. */
static void spot_lists(void)
{
    static const struct judged cases[] = {
        {FOIL_OK, 1, 2, {2, 1}},
        {FOIL_LIST_LENGTH, 0, 0, {0}},
        {FOIL_LIST_LENGTH, 0, 1, {2}},
        {FOIL_LIST_LENGTH, 0, 3, {2, 1, 2}},
        {FOIL_CELL_OFF, 0, 2, {2, 0}},
        {FOIL_CELL_OFF, 0, 2, {4, 1}},
        {FOIL_CELL_OFF, 0, 6, {2, 1, 2, 0, 2, 1}},
        {FOIL_CELL_OFF, 0, 6, {2, 1, 2, 1, 2, 3}},
        {FOIL_NOT_NEIGHBOURS, 0, 4, {2, 1, 2, 1}},
        {FOIL_NOT_NEIGHBOURS, 0, 4, {1, 1, 1, 1}},
        {FOIL_NOT_NEIGHBOURS, 0, 6, {2, 1, 1, 2, 2, 1}},
        {FOIL_REPEATED, 0, 6, {2, 1, 3, 1, 2, 1}},
        {FOIL_REPEATED, 0, 10, {2, 1, 3, 1, 3, 2, 2, 2, 2, 1}},
        {FOIL_REPEATED, 0, 14, {2, 1, 1, 1, 1, 2, 2, 2, 3, 2, 3, 1, 2, 1}},
        {FOIL_WRONG_ENDS, 0, 2, {1, 2}},
        {FOIL_WRONG_ENDS, 0, 2, {2, 2}},
        {FOIL_WRONG_ENDS, 0, 2, {3, 1}},
        {FOIL_WRONG_ENDS, 0, 4, {2, 1, 3, 1}},
        {FOIL_WRONG_ENDS, 0, 4, {3, 1, 2, 1}},
        {FOIL_WRONG_ENDS, 0, 6, {1, 1, 2, 1, 3, 1}},
        {FOIL_WRONG_ENDS, 0, 12, {2, 1, 1, 1, 1, 2, 2, 2, 3, 2, 3, 1}},
    };
    judge_lists((struct order){3, 2, USUAL, 2, 1, 2, 1}, cases, sizeof cases / sizeof *cases);
}

/* Every pair on panels up to 5 by 5. */
static void pairs(void)
{
    for (uint32_t m = 1; m <= 5; m++)
        for (uint32_t n = 1; n <= 5; n++)
            for (uint32_t s = 0; s < m * n; s++)
                for (uint32_t t = 0; t < m * n; t++)
                    pair((struct order){m, n, USUAL, s % m + 1, s / m + 1, t % m + 1, t / m + 1});
}

/* Panels with sides at the ends of what the bench takes and of what the large calls take: corner to corner, one
 * cell, and each terminal off the panel, at every pitch. */
static void sides_of_both(void)
{
    static const uint32_t lengths[] = {0, 1, 2, 3, 31, 32, 33, 128, 129};
    enum { LENGTHS = sizeof lengths / sizeof *lengths };
    for (size_t i = 0; i < LENGTHS * LENGTHS; i++) {
        uint32_t m = lengths[i % LENGTHS], n = lengths[i / LENGTHS];
        struct order across = {m, n, USUAL, 1, 1, m, n};
        if (m == 0 || m == 129 || n == 0 || n == 129) {
            bad_at_every_pitch(across, FOIL_SIDE);
            continue;
        }
        pair(across);
        pair((struct order){m, n, USUAL, m, 1, m, 1});
        bad_at_every_pitch((struct order){m, n, USUAL, m + 1, n, 1, 1}, FOIL_ENTRY_OFF);
        bad_at_every_pitch((struct order){m, n, USUAL, 1, n, 1, n + 1}, FOIL_EXIT_OFF);
    }
}

/* What the large calls and the bench refuse an order by, each told by itself: 19 stands right after 1 and 18, and
 * only a side from 33 to 128 is refused so. */
static void refusals_of_both(void)
{
    static const struct {
        uint32_t large, bench;
        struct order order;
    } cases[] = {
        {0, 0, {32, 32, USUAL, 1, 1, 32, 32}},
        {0, 0, {1, 32, USUAL, 1, 1, 1, 1}},
        {0, 19, {33, 32, USUAL, 1, 1, 32, 32}},
        {0, 19, {32, 33, USUAL, 1, 1, 32, 32}},
        {0, 19, {33, 1, USUAL, 2, 1, 2, 1}},
        {0, 19, {1, 128, USUAL, 1, 2, 1, 1}},
        {0, 19, {128, 128, USUAL, 1, 1, 2, 1}},
        {1, 1, {33, 0, USUAL, 1, 1, 2, 1}},
        {1, 1, {0, 33, USUAL, 1, 1, 2, 1}},
        {1, 1, {33, 129, USUAL, 1, 1, 2, 1}},
        {1, 1, {129, 33, USUAL, 1, 1, 2, 1}},
        {1, 1, {129, 33, 0, 1, 1, 2, 1}},
        {1, 1, {256, 32, USUAL, 1, 1, 2, 1}},
        {1, 1, {32, 0xFFFFFFFF, USUAL, 1, 1, 2, 1}},
        {18, 18, {32, 32, 999, 1, 1, 2, 1}},
        {18, 18, {33, 32, 999, 1, 1, 2, 1}},
        {18, 18, {32, 33, 10001, 1, 1, 2, 1}},
        {18, 18, {128, 128, 0, 129, 1, 0, 1}},
        {2, 19, {33, 32, USUAL, 34, 1, 2, 1}},
        {2, 19, {32, 33, USUAL, 0, 1, 0, 1}},
        {3, 19, {33, 32, USUAL, 1, 1, 2, 33}},
        {3, 19, {128, 3, USUAL, 1, 1, 129, 1}},
        {2, 2, {32, 32, USUAL, 33, 1, 33, 1}},
        {3, 3, {32, 32, USUAL, 1, 1, 1, 33}},
    };
    for (size_t i = 0; i < sizeof cases / sizeof *cases; i++) {
        struct order o = cases[i].order;
        EXPECT(foil_refusal_in(foil_bench_bound(SEVEN(o))) == cases[i].bench);
        if (cases[i].large == FOIL_OK)
            pair(o);
        else
            bad(o, cases[i].large);
    }
}

int main(void)
{
    for_draw = fenced();
    for_list = fenced();
    for_scratch = fenced();
    table();
    spots();
    run_only();
    hostile();
    faults_at_every_pitch();
    lists();
    spot_lists();
    pairs();
    sides_of_both();
    refusals_of_both();
    for (int i = 0; i < 6; i++)
        EXPECT(lines_met[i / 2][i % 2] > 0);
    printf("%lu checks, %lu faults\n", checks, faults);
    return faults != 0;
}
