/* What the track takes of a step: steps on a 64 x 64 pair of made-up paper (examples/paper.h) beside field calls on the same pair, by turns, with each
 * search and N. The cross of the last line has T 261,120 and ends at each block's first probe: no step does less. The track is full, 64 travels are
 * held, so that each step looks at all of them and pushes one out. Prints the time of a step in multiples of the field call's, the best turn of each in
 * processor time: 1.02 is 2 % more. Each step must answer as the field call does, and the track must hold the travels of the last 64. With the word
 * `check` it looks at that alone. */
#include "common.h"
#include "gauge.h"
#include "paper.h"
#include <stdbool.h>
#include <stdio.h>
#include <string.h>

enum { SIDE = 64, CALLS = 20 };

static uint8_t older[SIDE * SIDE], newer[SIDE * SIDE];
static int32_t list[GAUGE_LIST_LENGTH(SIDE, SIDE, 4)];
static uint32_t table[GAUGE_TABLE_LENGTH(SIDE, SIDE)];

static const struct {
    const char *name;
    uint32_t search, w, t;
} searches[] = {{"full", 1, 16, 0}, {"pruned", 2, 16, 0}, {"four-step", 3, 7, 0}, {"cross", 4, 16, 0}, {"cross, one probe", 4, 2, 261120}};

/* The picture of paper that lies so far down and right, its top left corner. */
static void photograph(uint8_t *picture, int down, int right)
{
    static uint8_t whole[PAPER_WIDTH * PAPER_HEIGHT];
    paper_photograph(whole, down, right);
    for (int r = 0; r < SIDE; r++)
        memcpy(picture + r * SIDE, whole + r * PAPER_WIDTH, SIDE);
}

static gauge_field_answer field(gauge_request q)
{
    return gauge_field(older, sizeof older, newer, sizeof newer, q, list, sizeof list / sizeof *list, table, sizeof table / sizeof *table);
}

static gauge_stepped step(gauge_track t, gauge_request q)
{
    return gauge_step(t, older, sizeof older, newer, sizeof newer, q, list, sizeof list / sizeof *list, table, sizeof table / sizeof *table);
}

/* A homed track after 64 steps and more. */
static gauge_track full_track(gauge_request q)
{
    gauge_track t = gauge_home(gauge_track_new(), 0, 0).track;
    for (int i = 0; i < 70; i++)
        t = step(t, q).track;
    return t;
}

/* That a step from a full track answers as the field call, and holds 64 travels like its own. */
static bool right(gauge_request q)
{
    gauge_field_answer f = field(q);
    gauge_stepped s = step(full_track(q), q);
    bool holds = s.track.held == 64 && s.track.sum_dy == -64 * f.dy && s.track.sum_dx == -64 * f.dx;
    for (int k = 0; k < 64; k++)
        holds = holds && s.track.travel_dy[k] == -f.dy && s.track.travel_dx[k] == -f.dx;
    return f.refusal == 0 && f.voters > 0 && memcmp(&f, &s.answer, sizeof f) == 0 && holds;
}

/* The time of a step in multiples of the field call's. */
static double ratio(gauge_request q, int turns)
{
    double fields = 1e9, steps = 1e9;
    gauge_track full = full_track(q);
    for (int turn = 0; turn < turns; turn++) {
        double begun = now();
        for (int i = 0; i < CALLS; i++)
            field(q);
        double between = now();
        gauge_track t = full;
        for (int i = 0; i < CALLS; i++)
            t = step(t, q).track;
        double ended = now();
        fields = between - begun < fields ? between - begun : fields;
        steps = ended - between < steps ? ended - between : steps;
    }
    return steps / fields;
}

int main(int argc, char **argv)
{
    bool checking = argc > 1 && strcmp(argv[1], "check") == 0;
    int wrong = 0;
    photograph(older, 0, 0);
    photograph(newer, 3, -4);
    if (!checking)
        printf("\na step's time to the field call's, 64 x 64\n%-18s%8s%8s%8s%8s\n", "", "N 4", "N 8", "N 16", "N 32");
    for (size_t i = 0; i < sizeof searches / sizeof *searches; i++) {
        if (!checking)
            printf("%-18s", searches[i].name);
        for (size_t n = 4; n <= 32; n *= 2) {
            gauge_request q = {SIDE, SIDE, n, searches[i].search, searches[i].w, searches[i].t, 1};
            if (!right(q)) {
                wrong = 1;
                fprintf(stderr, "benches/track: %s with N %zu: a step is not the field call's\n", searches[i].name, n);
            }
            if (!checking)
                printf("%8.3f", ratio(q, 400));
        }
        if (!checking)
            printf("\n");
    }
    if (checking && !wrong)
        printf("benches/track: steps are the field call's\n");
    return wrong;
}
