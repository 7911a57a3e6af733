/* An example order desk: reads orders from standard input, one a line as seven numbers with a blank between
 * (m n entry_x entry_y exit_x exit_y pitch), draws each, judges what was drawn, and prints a data-sheet line. */

#include "foil.h"

#include <inttypes.h>
#include <stdio.h>

static const char *const class_names[] = {"", "F1", "F2*", "C0", "C1", "C2", "spot"};

static uint8_t track[FOIL_MAX_BYTES];
static uint8_t scratch[FOIL_MAX_CELLS];

/* An order's numbers as the calls take them: the pitch is the panel's. On paper it stands last. */
struct order {
    uint32_t m, n, pitch, sx, sy, tx, ty;
};

/* Whether a line is an order, which is then in `o`. The line feed stands right behind the pitch, so that a line of
 * six numbers does not take its pitch from the next. */
static int order_in(const char *line, struct order *o)
{
    char end;
    int read = sscanf(line, "%" SCNu32 " %" SCNu32 " %" SCNu32 " %" SCNu32 " %" SCNu32 " %" SCNu32 " %" SCNu32 "%c",
                      &o->m, &o->n, &o->sx, &o->sy, &o->tx, &o->ty, &o->pitch, &end);
    return read == 8 && end == '\n';
}

/* The squares of a list of cells in hundredths: 100 for each cell, less 44 for each corner, which is a cell where the
 * cells before and after it differ in both x and y. */
static uint32_t squares_of(const uint8_t *list, uint32_t cells)
{
    uint32_t squares = 100 * cells;
    for (uint32_t k = 2; k < cells; k++) {
        const uint8_t *before = list + 2 * (k - 2), *after = list + 2 * k;
        if (before[0] != after[0] && before[1] != after[1])
            squares -= 44;
    }
    return squares;
}

/* Prints the sheet of an order; the pitch, which the desk's buyers know in millimetres, in these. */
static void sheet(struct order o)
{
    printf("%" PRIu32 " by %" PRIu32 ", pitch %" PRIu32 ".%03" PRIu32 " mm, (%" PRIu32 ",%" PRIu32 ") to (%" PRIu32 ",%" PRIu32 "): ",
           o.m, o.n, o.pitch / 1000, o.pitch % 1000, o.sx, o.sy, o.tx, o.ty);
    uint64_t bound = foil_bound(o.m, o.n, o.pitch, o.sx, o.sy, o.tx, o.ty);
    uint64_t drawn = foil_draw(o.m, o.n, o.pitch, o.sx, o.sy, o.tx, o.ty, track, sizeof track);
    if (foil_refusal_in(drawn) != FOIL_OK) {
        printf("refused %" PRIu32 "\n", foil_refusal_in(drawn));
        return;
    }
    uint32_t cells = foil_count_in(drawn);
    uint64_t judged = foil_judge(o.m, o.n, o.pitch, o.sx, o.sy, o.tx, o.ty, track, 2 * (size_t)cells, scratch, sizeof scratch);
    uint32_t squares = squares_of(track, cells);
    printf("class %" PRIu32 " (%s), %" PRIu32 " cells, %" PRIu32 " steps, %" PRIu32 ".%02" PRIu32 " squares, judged %s\n",
           foil_class_in(bound), class_names[foil_class_in(bound)], cells, cells - 1, squares / 100, squares % 100,
           judged == drawn && cells == foil_count_in(bound) ? "good" : "bad");
}

int main(void)
{
    char line[128]; /* the longest order has 77 bytes, its line feed among them */
    struct order o;
    while (fgets(line, sizeof line, stdin) != NULL) {
        if (!order_in(line, &o)) {
            fputs("an order is a line of seven numbers: m n entry_x entry_y exit_x exit_y pitch\n", stderr);
            return 1;
        }
        sheet(o);
    }
    return 0;
}
