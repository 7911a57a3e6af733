/* What a C programmer would write by hand for a known track: a counted loop for each straight line.
   It plans nothing, so it is a lower bound for a router in C. It stands in a file of its own so that
   the compiler knows no line's numbers beforehand. */

#include <stddef.h>
#include <stdint.h>

struct line {
    uint8_t x, y;       /* the first cell */
    int8_t dx, dy;      /* one step */
    uint16_t cells;
};

static void row_right(uint8_t *out, uint8_t x, uint8_t y, size_t n)
{
    for (size_t i = 0; i < n; i++) {
        out[2 * i] = (uint8_t)(x + i);
        out[2 * i + 1] = y;
    }
}

static void row_left(uint8_t *out, uint8_t x, uint8_t y, size_t n)
{
    for (size_t i = 0; i < n; i++) {
        out[2 * i] = (uint8_t)(x - i);
        out[2 * i + 1] = y;
    }
}

static void column_down(uint8_t *out, uint8_t x, uint8_t y, size_t n)
{
    for (size_t i = 0; i < n; i++) {
        out[2 * i] = x;
        out[2 * i + 1] = (uint8_t)(y + i);
    }
}

static void column_up(uint8_t *out, uint8_t x, uint8_t y, size_t n)
{
    for (size_t i = 0; i < n; i++) {
        out[2 * i] = x;
        out[2 * i + 1] = (uint8_t)(y - i);
    }
}

void loops_draw(const struct line *lines, size_t count, uint8_t *out)
{
    for (size_t k = 0; k < count; k++) {
        const struct line *l = &lines[k];
        if (l->dx > 0)
            row_right(out, l->x, l->y, l->cells);
        else if (l->dx < 0)
            row_left(out, l->x, l->y, l->cells);
        else if (l->dy > 0)
            column_down(out, l->x, l->y, l->cells);
        else
            column_up(out, l->x, l->y, l->cells);
        out += 2 * (size_t)l->cells;
    }
}
