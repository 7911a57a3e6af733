/* Judge as a C programmer would write it by hand: one pass over the list, each cell marked in the
   scratch as it is met. JUDGE names the function, so that each compiler gives one of its own. */

#include <stddef.h>
#include <stdint.h>
#include <string.h>

static uint64_t refuse(uint64_t number)
{
    return number << 32;
}

static int on_panel(uint32_t m, uint32_t n, uint32_t x, uint32_t y)
{
    return x - 1 < m && y - 1 < n;
}

/* The refusals of the cells, then their number. Only a cell off the panel ends the pass. */
static uint64_t walk(uint32_t m, uint32_t n, uint32_t sx, uint32_t sy, uint32_t tx, uint32_t ty,
                     const uint8_t *list, size_t len, uint8_t *marks)
{
    uint32_t last_x = 0, last_y = 0;
    int jump = 0;
    uint8_t twice = 0;

    for (size_t i = 0; i < len; i += 2) {
        uint32_t x = list[i], y = list[i + 1];
        uint8_t *mark;
        int32_t dx, dy;

        if (x < 1 || m < x || y < 1 || n < y)
            return refuse(7);
        mark = &marks[(size_t)(y - 1) * m + (x - 1)];
        twice |= *mark;
        *mark = 1;
        dx = (int32_t)(x - last_x);
        dy = (int32_t)(y - last_y);
        if (dx * dx + dy * dy != 1 && i != 0)
            jump = 1;
        last_x = x;
        last_y = y;
    }
    if (jump)
        return refuse(8);
    if (twice)
        return refuse(9);
    if (list[0] != sx || list[1] != sy || last_x != tx || last_y != ty)
        return refuse(11);
    return len / 2;
}

uint64_t JUDGE(uint32_t m, uint32_t n, uint32_t pitch, uint32_t sx, uint32_t sy, uint32_t tx, uint32_t ty,
               const uint8_t *list, size_t len, uint8_t *scratch, size_t room)
{
    uint64_t answer;

    if (m < 1 || m > 128 || n < 1 || n > 128)
        return refuse(1);
    if (pitch < 1000 || pitch > 10000)
        return refuse(18);
    if (!on_panel(m, n, sx, sy))
        return refuse(2);
    if (!on_panel(m, n, tx, ty))
        return refuse(3);
    if (len == 0 || len % 2 != 0)
        return refuse(6);
    if (room < (size_t)m * n)
        return refuse(5);
    memset(scratch, 0, (size_t)m * n);
    answer = walk(m, n, sx, sy, tx, ty, list, len, scratch);
    memset(scratch, 0, (size_t)m * n);
    return answer;
}
