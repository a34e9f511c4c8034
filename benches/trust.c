/* How many blocks have the reading, by block size and travel: made-up paper (examples/paper.h) read by search 2 with w 16, where the paper travelled
 * within the window, just beyond it and far beyond it. The paper is seen everywhere, or only in one half or one quarter of patches of 64 pels. The
 * other patches are blank: of one grey, so that they do not vote, or with the sensor's noise, so that many do. Each reading stands with its votes as
 * a share of the voters and of all blocks. Within the window every reading must be right. With the word `check` it looks at that alone. */
#include "gauge.h"
#include "paper.h"
#include <stdbool.h>
#include <stdio.h>
#include <string.h>

enum { WIDTH = PAPER_WIDTH, HEIGHT = PAPER_HEIGHT, W = 16, PATCH = 64, BLANK = 230 };

static uint8_t older[WIDTH * HEIGHT], newer[WIDTH * HEIGHT];
static int32_t list[GAUGE_LIST_LENGTH(WIDTH, HEIGHT, 4)];
static uint32_t table[GAUGE_TABLE_LENGTH(WIDTH, HEIGHT)];

/* What of the paper is seen: so many patches in four, and whether the others have noise. */
struct view {
    const char *name;
    int quarters;
    bool noise;
};

static const struct view views[] = {{"paper everywhere", 4, false},
                                    {"one half blank", 2, false},
                                    {"three quarters blank", 1, false},
                                    {"one half blank, noise", 2, true}};

/* The view of paper that lies so far down and right. The patches lie with it. */
static void photograph(uint8_t *picture, int down, int right, struct view v)
{
    paper_photograph(picture, down, right);
    for (int r = 0; r < HEIGHT; r++)
        for (int c = 0; c < WIDTH; c++) {
            int i = (r - down + 4 * PATCH) / PATCH, j = (c - right + 4 * PATCH) / PATCH, grey = BLANK;
            if ((i + 2 * j) % 4 < v.quarters)
                continue;
            for (int k = 0; v.noise && k < 6; k++)
                grey += paper_random(3) - 1;
            picture[r * WIDTH + c] = (uint8_t)grey;
        }
}

static bool within(int part)
{
    return -W <= part && part <= W;
}

static double share(size_t part, size_t whole)
{
    return whole ? 100.0 * (double)part / (double)whole : 0;
}

/* A line: the readings by each N. When checking nothing is printed but a wrong one. */
static int line(int down, int right, struct view v, bool checking)
{
    photograph(older, 0, 0, v);
    photograph(newer, down, right, v);
    if (!checking)
        printf("(%3d,%3d)          ", down, right);
    for (size_t n = 4; n <= 32; n *= 2) {
        gauge_request request = {WIDTH, HEIGHT, n, 2, W, 0, 1};
        gauge_field_answer f =
            gauge_field(older, sizeof older, newer, sizeof newer, request, list, sizeof list / sizeof *list, table, sizeof table / sizeof *table);
        if (f.refusal != GAUGE_ACCEPTED || (within(down) && within(right) && (f.dy != -down || f.dx != -right))) {
            printf("%s, (%d,%d) with N %zu: refusal %u, reading (%d,%d)\n", v.name, down, right, n, (unsigned)f.refusal, f.dy, f.dx);
            return 1;
        }
        if (!checking)
            printf("   (%3d,%3d) %3.0f %% %3.0f %%", -f.dy, -f.dx, share(f.votes, f.voters), share(f.votes, (WIDTH / n) * (HEIGHT / n)));
    }
    if (!checking)
        printf("\n");
    return 0;
}

int main(int argc, char **argv)
{
    static const int travels[][2] = {{0, 0}, {5, -3}, {15, 15}, {17, 0}, {-17, -17}, {18, 0}, {20, 0}, {30, 30}, {-50, 40}};
    bool checking = argc > 1 && strcmp(argv[1], "check") == 0;
    if (!checking)
        printf("The reading as a travel, and its votes as a share of the voters and of all blocks: made-up paper, search 2, w 16\n");
    for (size_t k = 0; k < sizeof views / sizeof *views; k++) {
        if (!checking)
            printf("%-21s              N 4                     N 8                    N 16                    N 32\n", views[k].name);
        for (size_t i = 0; i < sizeof travels / sizeof *travels; i++) {
            int down = travels[i][0], right = travels[i][1];
            if (checking && !(within(down) && within(right)))
                continue;
            if (line(down, right, views[k], checking))
                return 1;
        }
    }
    if (checking)
        printf("benches/trust: readings within the window are right\n");
    return 0;
}
