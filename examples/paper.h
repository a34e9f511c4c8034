/* paper.h: pictures of paper, made up, in place of the camera on the carriage. A sheet has a ground of faint clouds and fibres on it, lighter and
 * darker, each a short line that bends a little. A picture shows the sheet from where it lies, with sensor noise of its own: a
 * standard deviation of 2 grey levels. */
#include <stdint.h>

enum { PAPER_WIDTH = 640, PAPER_HEIGHT = 480, PAPER_REACH = 64 };

/* A number below n, always the same ones in the same order. */
static int paper_random(uint32_t n)
{
    static uint64_t state = 88172645463325252u;
    state ^= state << 13;
    state ^= state >> 7;
    state ^= state << 17;
    return (int)((state >> 32) % n);
}

enum { PAPER_ROWS = PAPER_HEIGHT + 2 * PAPER_REACH, PAPER_COLUMNS = PAPER_WIDTH + 2 * PAPER_REACH };

/* The sheet, made at the first call: its grey levels row by row. */
static const int *paper_sheet(void)
{
    static int sheet[PAPER_ROWS * PAPER_COLUMNS], cloud[PAPER_ROWS / 8 + 2][PAPER_COLUMNS / 8 + 2], made;
    if (made++)
        return sheet;
    for (int r = 0; r < PAPER_ROWS / 8 + 2; r++)
        for (int c = 0; c < PAPER_COLUMNS / 8 + 2; c++)
            cloud[r][c] = 150 + paper_random(41);
    for (int r = 0; r < PAPER_ROWS; r++)
        for (int c = 0; c < PAPER_COLUMNS; c++) {
            int i = r / 8, j = c / 8, down = r % 8, right = c % 8;
            int above = cloud[i][j] * (8 - right) + cloud[i][j + 1] * right, below = cloud[i + 1][j] * (8 - right) + cloud[i + 1][j + 1] * right;
            sheet[r * PAPER_COLUMNS + c] = (above * (8 - down) + below * down) / 64;
        }
    for (int fibre = 0; fibre < PAPER_ROWS * PAPER_COLUMNS / 150; fibre++) {
        int r = paper_random(PAPER_ROWS) * 16, c = paper_random(PAPER_COLUMNS) * 16, last = -1;
        int down = paper_random(33) - 16, right = paper_random(33) - 16, shade = paper_random(2) ? 24 : -24;
        for (int step = 0; step < 40; step++, r += down, c += right) {
            down += paper_random(3) - 1;
            right += paper_random(3) - 1;
            int at = r / 16 * PAPER_COLUMNS + c / 16;
            if (r >= 0 && r / 16 < PAPER_ROWS && c >= 0 && c / 16 < PAPER_COLUMNS && at != last)
                sheet[last = at] += shade;
        }
    }
    return sheet;
}

/* The sheet's picture, where it lies so far down and right of where it lay at first: -PAPER_REACH to PAPER_REACH. */
static void paper_photograph(uint8_t picture[PAPER_WIDTH * PAPER_HEIGHT], int down, int right)
{
    const int *corner = paper_sheet() + (PAPER_REACH - down) * PAPER_COLUMNS + PAPER_REACH - right;
    for (int r = 0; r < PAPER_HEIGHT; r++)
        for (int c = 0; c < PAPER_WIDTH; c++) {
            int grey = corner[r * PAPER_COLUMNS + c];
            for (int i = 0; i < 6; i++)
                grey += paper_random(3) - 1;
            picture[r * PAPER_WIDTH + c] = (uint8_t)(grey < 0 ? 0 : grey > 255 ? 255 : grey);
        }
}
