/* include/gauge.h and include/gauge_text.c as C sees them: the layout of every struct against what the archive hands over, for every call
 * one that is accepted and one that is refused, in numbers that are all different, and what lent memory holds after each; the two
 * measures, and where the refusal of any other stands among the refusals; the ceiling around the sum at every row's end; the values between pels,
 * which neighbours half a pel away count and which of equals wins; which blocks vote, and what a pair without a voter answers; blocks of 32, and logs
 * with every command; the last travels of a track, and which tracks built by hand are turned away for theirs; the refusals by name and by text, and
 * the lengths that the macros give. The rules behind the numbers are tested by tests/rival.
 *
 * What differs is printed as FILE:LINE: CALL: MEMBER: got THIS, wanted THAT. */
#include <stdio.h>
#include <string.h>

#include "gauge.h"

/* ---- what is held against what */

static int checks, failures;
static const char *call; /* the call that is looked at */

/* One of several calls alike. */
static void call_of(const char *name, uint32_t number)
{
    static char text[50];
    snprintf(text, sizeof text, "%s, %u", name, (unsigned)number);
    call = text;
}

/* Counts a check; where it fails, begins the line that says so. */
static bool differs(int line, int64_t got, int64_t wanted)
{
    checks++;
    if (got == wanted)
        return false;
    failures++;
    printf("%s:%d: %s: ", __FILE__, line, call);
    return true;
}

static void same(int line, const char *member, int64_t got, int64_t wanted)
{
    if (differs(line, got, wanted))
        printf("%s: got %lld, wanted %lld\n", member, (long long)got, (long long)wanted);
}

static void same_place(int line, const char *array, size_t place, int64_t got, int64_t wanted)
{
    if (differs(line, got, wanted))
        printf("%s[%zu]: got %lld, wanted %lld\n", array, place, (long long)got, (long long)wanted);
}

/* A member, or any number, by the words in which it stands here. */
#define SAME(got, wanted) same(__LINE__, #got, (int64_t)(got), (int64_t)(wanted))

/* The places from..to of an array against an expression of the place i. The first that differs is printed. */
#define EACH(array, from, to, wanted) EACH_AT(__LINE__, array, from, to, wanted)
#define EACH_AT(line, array, from, to, wanted)                             \
    do {                                                                   \
        size_t i = (from);                                                 \
        while (i + 1 < (to) && (int64_t)array[i] == (int64_t)(wanted))     \
            i++;                                                           \
        same_place(line, #array, i, (int64_t)array[i], (int64_t)(wanted)); \
    } while (0)

/* Structs, member by member. */
#define SAME_HEAD(got, width_, height_, n_, w_, search_, measure_) \
    (SAME(got.width, width_), SAME(got.height, height_), SAME(got.n, n_), SAME(got.w, w_), SAME(got.search, search_), SAME(got.measure, measure_))

#define SAME_COUNTS(got, at32, at16, at8, at4, at2, at1, dropped_)                                                                       \
    (SAME(got.counts[0], at32), SAME(got.counts[1], at16), SAME(got.counts[2], at8), SAME(got.counts[3], at4), SAME(got.counts[4], at2), \
     SAME(got.counts[5], at1), SAME(got.dropped, dropped_))

#define SAME_MEASURED(got, refusal_, distortion_, over_, rows_) \
    (SAME(got.refusal, refusal_), SAME(got.distortion, distortion_), SAME(got.over, over_), SAME(got.rows, rows_))

#define SAME_FOUND(got, refusal_, dy_, dx_, distortion_) \
    (SAME(got.refusal, refusal_), SAME(got.dy, dy_), SAME(got.dx, dx_), SAME(got.distortion, distortion_))

/* gauge_half, but for what the search has found */
#define SAME_HALF(got, half_dy_, half_dx_, half_distortion_) \
    (SAME(got.half_dy, half_dy_), SAME(got.half_dx, half_dx_), SAME(got.half_distortion, half_distortion_))

#define SAME_READING(got, refusal_, dy_, dx_, votes_, voters_) \
    (SAME(got.refusal, refusal_), SAME(got.dy, dy_), SAME(got.dx, dx_), SAME(got.votes, votes_), SAME(got.voters, voters_))

/* gauge_row, gauge_written */
#define SAME_PART(got, refusal_, place_, length_) (SAME(got.refusal, refusal_), SAME(got.place, place_), SAME(got.length, length_))

/* gauge_walked, but for its head and the next cursor */
#define SAME_WALKED(got, refusal_, place_, command_, dy_, dx_, distortion_, blocks_)                                          \
    (SAME(got.refusal, refusal_), SAME(got.place, place_), SAME(got.command, command_), SAME(got.dy, dy_), SAME(got.dx, dx_), \
     SAME(got.distortion, distortion_), SAME(got.blocks, blocks_))

/* A track, member by member, and every place of its travels. */
static void same_track(int line, gauge_track track, gauge_track wanted)
{
    same(line, "track.homed", track.homed, wanted.homed);
    same(line, "track.y", track.y, wanted.y);
    same(line, "track.x", track.x, wanted.x);
    same(line, "track.steps", track.steps, wanted.steps);
    same(line, "track.held", track.held, wanted.held);
    EACH_AT(line, track.travel_dy, 0, GAUGE_HELD_MOST, wanted.travel_dy[i]);
    EACH_AT(line, track.travel_dx, 0, GAUGE_HELD_MOST, wanted.travel_dx[i]);
    same(line, "track.sum_dy", track.sum_dy, wanted.sum_dy);
    same(line, "track.sum_dx", track.sum_dx, wanted.sum_dx);
}

#define SAME_TRACK(got, wanted) same_track(__LINE__, got, wanted)

/* ---- the layout: every member's type and offset, and every struct's size */

#define HAS(type, member, of, at) \
    _Static_assert(offsetof(type, member) == at && _Generic(((type *)0)->member, of: 1, default: 0), #type "." #member)
#define SIZE(type, bytes) _Static_assert(sizeof(type) == bytes, #type)

HAS(gauge_measured, refusal, uint32_t, 0);
HAS(gauge_measured, distortion, uint32_t, 4);
HAS(gauge_measured, over, uint32_t, 8);
HAS(gauge_measured, rows, uint32_t, 12);
SIZE(gauge_measured, 16);

HAS(gauge_row, refusal, uint32_t, 0);
HAS(gauge_row, place, size_t, 8);
HAS(gauge_row, length, size_t, 16);
SIZE(gauge_row, 24);

HAS(gauge_request, width, size_t, 0);
HAS(gauge_request, height, size_t, 8);
HAS(gauge_request, n, size_t, 16);
HAS(gauge_request, search, uint32_t, 24);
HAS(gauge_request, w, size_t, 32);
HAS(gauge_request, t, uint32_t, 40);
HAS(gauge_request, measure, uint32_t, 44);
SIZE(gauge_request, 48);

HAS(gauge_found, refusal, uint32_t, 0);
HAS(gauge_found, dy, int32_t, 4);
HAS(gauge_found, dx, int32_t, 8);
HAS(gauge_found, distortion, uint32_t, 12);
HAS(gauge_found, counts, uint32_t *, 16);
HAS(gauge_found, dropped, uint32_t, 40);
SIZE(gauge_found, 44);

HAS(gauge_half, found, gauge_found, 0);
HAS(gauge_half, half_dy, int32_t, 44);
HAS(gauge_half, half_dx, int32_t, 48);
HAS(gauge_half, half_distortion, uint32_t, 52);
SIZE(gauge_half, 56);

HAS(gauge_field_answer, refusal, uint32_t, 0);
HAS(gauge_field_answer, dy, int32_t, 4);
HAS(gauge_field_answer, dx, int32_t, 8);
HAS(gauge_field_answer, votes, uint32_t, 12);
HAS(gauge_field_answer, voters, uint32_t, 16);
HAS(gauge_field_answer, counts, uint32_t *, 20);
HAS(gauge_field_answer, dropped, uint32_t, 44);
SIZE(gauge_field_answer, 48);

HAS(gauge_track, homed, bool, 0);
HAS(gauge_track, y, int32_t, 4);
HAS(gauge_track, x, int32_t, 8);
HAS(gauge_track, steps, uint32_t, 12);
HAS(gauge_track, held, uint32_t, 16);
HAS(gauge_track, travel_dy, int32_t *, 20);
HAS(gauge_track, travel_dx, int32_t *, 276);
HAS(gauge_track, sum_dy, int32_t, 532);
HAS(gauge_track, sum_dx, int32_t, 536);
SIZE(gauge_track, 540);

HAS(gauge_homed, refusal, uint32_t, 0);
HAS(gauge_homed, track, gauge_track, 4);
SIZE(gauge_homed, 544);

HAS(gauge_stepped, answer, gauge_field_answer, 0);
HAS(gauge_stepped, track, gauge_track, 48);
SIZE(gauge_stepped, 588);

HAS(gauge_head, width, size_t, 0);
HAS(gauge_head, height, size_t, 8);
HAS(gauge_head, n, size_t, 16);
HAS(gauge_head, w, size_t, 24);
HAS(gauge_head, search, uint32_t, 32);
HAS(gauge_head, measure, uint32_t, 36);
SIZE(gauge_head, 40);

HAS(gauge_written, refusal, uint32_t, 0);
HAS(gauge_written, place, size_t, 8);
HAS(gauge_written, length, size_t, 16);
SIZE(gauge_written, 24);

HAS(gauge_log_read, refusal, uint32_t, 0);
HAS(gauge_log_read, place, size_t, 8);
HAS(gauge_log_read, head, gauge_head, 16);
SIZE(gauge_log_read, 56);

HAS(gauge_cursor, at, size_t, 0);
HAS(gauge_cursor, phase, uint32_t, 8);
HAS(gauge_cursor, head, gauge_head, 16);
HAS(gauge_cursor, blocks, size_t, 56);
SIZE(gauge_cursor, 64);

HAS(gauge_walked, refusal, uint32_t, 0);
HAS(gauge_walked, place, size_t, 8);
HAS(gauge_walked, command, uint32_t, 16);
HAS(gauge_walked, head, gauge_head, 24);
HAS(gauge_walked, dy, int32_t, 64);
HAS(gauge_walked, dx, int32_t, 68);
HAS(gauge_walked, distortion, uint32_t, 72);
HAS(gauge_walked, blocks, size_t, 80);
HAS(gauge_walked, next, gauge_cursor, 88);
SIZE(gauge_walked, 152);

/* ---- the pictures, and memory to lend */

/* Six blocks and pels left over. Four of the blocks lay (2,-5) away, which for the two at the left is outside the older frame; and all pels
 * have changed a little. */
enum { WIDTH = 57, HEIGHT = 37, N = 16, W = 9, PELS = WIDTH * HEIGHT };
static uint8_t older[PELS], newer[PELS];

static int fibres(int r, int c)
{
    return 2 * c + r * c % 23 + (r * r + c) % 19;
}

static void take_pictures(void)
{
    for (int r = 0; r < HEIGHT; r++)
        for (int c = 0; c < WIDTH; c++) {
            older[r * WIDTH + c] = (uint8_t)fibres(r, c + 5);
            newer[r * WIDTH + c] = (uint8_t)(fibres(r + 2, c) + (r * r + c) % 13);
        }
}

/* Search 2 by absolute and by squares. By squares the first block has another vector. */
static const gauge_request pruned = {WIDTH, HEIGHT, N, 2, W, 0, 1}, squares = {WIDTH, HEIGHT, N, 2, W, 0, 2};
static const int32_t field_list[] = {0, 0, 2679, 2, -5, 1481, 2, -5, 1599, -7, 0, 2809, 2, -5, 1473, 2, -5, 1578};
static const int32_t squares_list[] = {9, 0, 43232, 2, -5, 11969, 2, -5, 13357, -7, 0, 47581, 2, -5, 11971, 2, -5, 13090};

/* A few places more than are needed, and what they hold before a call. */
enum { LIST = 18, TABLE = 58 * 38, LOG = 43, MORE = 5 };
static const int32_t NUMBER = -77777777;
static const uint32_t SUM = 3141592653u;
static const uint8_t BYTE = 0xA5;
static int32_t list[LIST + MORE];
static uint32_t table[TABLE + MORE];
static uint8_t buffer[200];

static void lend(void)
{
    for (size_t i = 0; i < LIST + MORE; i++)
        list[i] = NUMBER;
    for (size_t i = 0; i < TABLE + MORE; i++)
        table[i] = SUM;
    memset(buffer, BYTE, sizeof buffer);
}

/* The sum of the older pels in rows before r and columns before c, where this is place i. */
static uint32_t sum_at(size_t i)
{
    uint32_t sum = 0;
    for (size_t r = 0; r < i / (WIDTH + 1); r++)
        for (size_t c = 0; c < i % (WIDTH + 1); c++)
            sum += older[r * WIDTH + c];
    return sum;
}

/* What a field leaves: list and table filled, and the places behind them kept. */
#define FIELD_LENT(numbers)                    \
    do {                                       \
        EACH(list, 0, LIST, numbers[i]);       \
        EACH(list, LIST, LIST + MORE, NUMBER); \
        EACH(table, 0, TABLE, sum_at(i));      \
        EACH(table, TABLE, TABLE + MORE, SUM); \
    } while (0)

#define ALL_KEPT()                            \
    do {                                      \
        EACH(list, 0, LIST + MORE, NUMBER);   \
        EACH(table, 0, TABLE + MORE, SUM);    \
        EACH(buffer, 0, sizeof buffer, BYTE); \
    } while (0)

/* ---- one block */

/* Ceilings at the ends of their range, and one that a sign would make negative. */
static const uint32_t far_ceilings[] = {0, 1, 1u << 31, UINT32_MAX};
enum { FAR_CEILINGS = sizeof far_ceilings / sizeof *far_ceilings };

/* Measuring that is refused so, whatever the ceiling: zeros behind the number. */
#define MEASURING_REFUSED(refusal_, ...)                                          \
    do {                                                                          \
        for (size_t k = 0; k < FAR_CEILINGS; k++) {                               \
            gauge_measured refused = gauge_measure(__VA_ARGS__, far_ceilings[k]); \
            SAME_MEASURED(refused, refusal_, 0, 0, 0);                            \
        }                                                                         \
    } while (0)

static void measuring(void)
{
    call = "gauge_measure";
    gauge_measured measured = gauge_measure(older, PELS, newer, PELS, WIDTH, HEIGHT, N, 3, 20, 4, -6, 1, UINT32_MAX);
    SAME_MEASURED(measured, GAUGE_ACCEPTED, 3124, 0, N);
    measured = gauge_measure(older, PELS, newer, PELS, WIDTH, HEIGHT, N, 3, 20, 4, -6, 2, UINT32_MAX);
    SAME_MEASURED(measured, GAUGE_ACCEPTED, 59092, 0, N);

    /* The first five rows have 1,003; by squares the first eight have 30,395. */
    measured = gauge_measure(older, PELS, newer, PELS, WIDTH, HEIGHT, N, 3, 20, 4, -6, 1, 1002);
    SAME_MEASURED(measured, GAUGE_ACCEPTED, 0, 1, 5);
    measured = gauge_measure(older, PELS, newer, PELS, WIDTH, HEIGHT, N, 3, 20, 4, -6, 2, 30395);
    SAME_MEASURED(measured, GAUGE_ACCEPTED, 0, 1, 9);
    MEASURING_REFUSED(GAUGE_NO_CANDIDATE, older, PELS, newer, PELS, WIDTH, HEIGHT, N, 3, 20, -4, 6, 1);
}

static void row_view(void)
{
    call = "gauge_row_view";
    gauge_row row = gauge_row_view(older, PELS, newer, PELS, WIDTH, HEIGHT, N, 1, 36, 41);
    SAME_PART(row, GAUGE_ACCEPTED, 36 * WIDTH + 41, N);
    row = gauge_row_view(older, PELS, newer, PELS, WIDTH, HEIGHT, N, 1, 36, 42);
    SAME_PART(row, GAUGE_BAD_PLACE, 0, 0);
    row = gauge_row_view(older, PELS, newer, PELS, WIDTH, HEIGHT, N, 2, 36, 41);
    SAME_PART(row, GAUGE_BAD_SIDE, 0, 0);
}

static void searching(void)
{
    call = "gauge_search_block";
    gauge_found found = gauge_search_block(older, PELS, newer, PELS, pruned, 3, 20);
    SAME_FOUND(found, GAUGE_ACCEPTED, 2, -5, 1600);
    SAME_COUNTS(found, 0, 247, 139, 133, 132, 122, 125);

    found = gauge_search_block(older, PELS, newer, PELS, squares, 3, 20);
    SAME_FOUND(found, GAUGE_ACCEPTED, 2, -5, 13460);
    SAME_COUNTS(found, 0, 247, 177, 162, 150, 133, 114);

    /* The threshold: (0,0) has 2,772, by squares 49,976, and ends the search at once. */
    gauge_request cross = {WIDTH, HEIGHT, N, 4, 8, 2773, 1};
    found = gauge_search_block(older, PELS, newer, PELS, cross, 3, 20);
    SAME_FOUND(found, GAUGE_ACCEPTED, 0, 0, 2772);
    SAME_COUNTS(found, 0, 0, 0, 0, 0, 1, 0);
    cross = (gauge_request){WIDTH, HEIGHT, N, 4, 8, 49977, 2};
    found = gauge_search_block(older, PELS, newer, PELS, cross, 3, 20);
    SAME_FOUND(found, GAUGE_ACCEPTED, 0, 0, 49976);
    SAME_COUNTS(found, 0, 0, 0, 0, 0, 1, 0);

    found = gauge_search_block(older, PELS, newer, PELS, pruned, 3, 42);
    SAME_FOUND(found, GAUGE_BAD_PLACE, 0, 0, 0);
    SAME_COUNTS(found, 0, 0, 0, 0, 0, 0, 0);
}

static void searching_half(void)
{
    call = "gauge_search_half";
    gauge_half half = gauge_search_half(older, PELS, newer, PELS, pruned, 3, 20);
    SAME_FOUND(half.found, GAUGE_ACCEPTED, 2, -5, 1600);
    SAME_COUNTS(half.found, 0, 247, 139, 133, 132, 122, 125);
    SAME_HALF(half, 4, -10, 1600);

    /* A search that the threshold ends. */
    gauge_request cross = {WIDTH, HEIGHT, N, 4, 8, 2773, 1};
    half = gauge_search_half(older, PELS, newer, PELS, cross, 3, 20);
    SAME_FOUND(half.found, GAUGE_ACCEPTED, 0, 0, 2772);
    SAME_COUNTS(half.found, 0, 0, 0, 0, 0, 1, 0);
    SAME_HALF(half, -1, -1, 2320);

    static const struct {
        uint32_t n, measure, row, column;
        int32_t dy, dx, distortion, half_dy, half_dx, half_distortion;
    } wanted[] = {
        {4, 1, 0, 45, 8, 1, 97, 17, 1, 79},         {4, 2, 0, 5, 1, -1, 683, 2, -3, 489},      {8, 1, 3, 0, 9, 0, 606, 19, 0, 549},
        {8, 2, 9, 0, 7, 0, 9953, 15, 0, 7343},      {16, 1, 12, 35, 2, -5, 1604, 4, -9, 1591}, {16, 1, 15, 0, -7, 0, 2811, -13, 1, 2558},
        {16, 1, 21, 20, 0, -1, 2476, -1, -3, 2189}, {16, 2, 0, 0, 9, 0, 43232, 17, 0, 36121},
    };
    for (size_t i = 0; i < sizeof wanted / sizeof *wanted; i++)
        for (uint32_t search = 1; search <= 2; search++) {
            call_of("gauge_search_half, block", (uint32_t)i);
            gauge_request request = {WIDTH, HEIGHT, wanted[i].n, search, W, 0, wanted[i].measure};
            half = gauge_search_half(older, PELS, newer, PELS, request, wanted[i].row, wanted[i].column);
            SAME_FOUND(half.found, GAUGE_ACCEPTED, wanted[i].dy, wanted[i].dx, wanted[i].distortion);
            SAME_HALF(half, wanted[i].half_dy, wanted[i].half_dx, wanted[i].half_distortion);
        }

    call = "gauge_search_half";
    half = gauge_search_half(older, PELS, newer, PELS, pruned, 3, 42);
    SAME_FOUND(half.found, GAUGE_BAD_PLACE, 0, 0, 0);
    SAME_COUNTS(half.found, 0, 0, 0, 0, 0, 0, 0);
    SAME_HALF(half, 0, 0, 0);
}

/* ---- fields and the track */

static void fields(void)
{
    call = "gauge_field";
    lend();
    gauge_field_answer answer = gauge_field(older, PELS, newer, PELS, pruned, list, LIST + MORE, table, TABLE + MORE);
    SAME_READING(answer, GAUGE_ACCEPTED, 2, -5, 4, 6);
    SAME_COUNTS(answer, 0, 1200, 626, 601, 571, 452, 748);
    FIELD_LENT(field_list);

    lend();
    answer = gauge_field(older, PELS, newer, PELS, squares, list, LIST + MORE, table, TABLE + MORE);
    SAME_READING(answer, GAUGE_ACCEPTED, 2, -5, 4, 6);
    SAME_COUNTS(answer, 0, 1200, 806, 767, 692, 518, 682);
    FIELD_LENT(squares_list);

    /* Search 1 leaves the table alone. */
    lend();
    gauge_request full = {WIDTH, HEIGHT, N, 1, W, 0, 1};
    answer = gauge_field(older, PELS, newer, PELS, full, list, LIST, table, 0);
    SAME_READING(answer, GAUGE_ACCEPTED, 2, -5, 4, 6);
    SAME_COUNTS(answer, 0, 0, 0, 0, 0, 1200, 0);
    EACH(list, 0, LIST, field_list[i]);
    EACH(list, LIST, LIST + MORE, NUMBER);
    EACH(table, 0, TABLE + MORE, SUM);

    lend();
    answer = gauge_field(older, PELS, newer, PELS, pruned, list, LIST, table, TABLE - 1);
    SAME_READING(answer, GAUGE_SHORT_TABLE, 0, 0, 0, 0);
    SAME_COUNTS(answer, 0, 0, 0, 0, 0, 0, 0);
    ALL_KEPT();
    answer = gauge_field(older, PELS, newer, PELS, pruned, list, LIST - 1, table, TABLE);
    SAME_READING(answer, GAUGE_SHORT_LIST, 0, 0, 0, 0);
    SAME_COUNTS(answer, 0, 0, 0, 0, 0, 0, 0);
    ALL_KEPT();
}

typedef struct {
    int32_t dy, dx;
} travel;

/* The track with these travels in its first places, and their sums. The other places are kept. */
static gauge_track holding(gauge_track track, const travel *travels, uint32_t held)
{
    track.held = held;
    track.sum_dy = track.sum_dx = 0;
    for (uint32_t i = 0; i < held; i++) {
        track.sum_dy += track.travel_dy[i] = travels[i].dy;
        track.sum_dx += track.travel_dx[i] = travels[i].dx;
    }
    return track;
}

/* A track that holds no travels, but has a stray number in every place, another in each. */
static gauge_track stray_track(bool is_homed, int32_t y, int32_t x, uint32_t steps)
{
    gauge_track track = {.homed = is_homed, .y = y, .x = x, .steps = steps};
    for (int32_t i = 0; i < GAUGE_HELD_MOST; i++) {
        track.travel_dy[i] = 1000000 + i;
        track.travel_dx[i] = -2000000 - i;
    }
    return track;
}

/* A track that holds two travels. */
static gauge_track stands(bool is_homed, int32_t y, int32_t x, uint32_t steps)
{
    return holding(stray_track(is_homed, y, x, steps), (const travel[]){{3, -4}, {-16, 16}}, 2);
}

/* A track after a step by this travel, which comes behind those held; where they are 64 the oldest goes out. */
static gauge_track led(gauge_track track, travel by)
{
    travel all[GAUGE_HELD_MOST + 1];
    for (uint32_t i = 0; i < track.held; i++)
        all[i] = (travel){track.travel_dy[i], track.travel_dx[i]};
    all[track.held] = by;
    track.y += by.dy;
    track.x += by.dx;
    track.steps++;
    return track.held < GAUGE_HELD_MOST ? holding(track, all, track.held + 1) : holding(track, all + 1, GAUGE_HELD_MOST);
}

static void homing(void)
{
    call = "gauge_track_new";
    gauge_track wanted = {0};
    SAME_TRACK(gauge_track_new(), wanted);

    /* Homing empties all places and sums, whatever they held, and where it leads to the old place too. */
    call = "gauge_home";
    wanted = (gauge_track){.homed = true, .y = 345, .x = -678};
    static const uint32_t numbers[] = {0, 1, 2, 63, 64, 65, 256, 1u << 31, UINT32_MAX};
    for (size_t i = 0; i < sizeof numbers / sizeof *numbers; i++)
        for (int is_homed = 0; is_homed <= 1; is_homed++) {
            gauge_track track = stands(is_homed, 11, 12, 13);
            track.held = numbers[i];
            gauge_homed homed = gauge_home(track, 345, -678);
            SAME(homed.refusal, GAUGE_ACCEPTED);
            SAME_TRACK(homed.track, wanted);
            gauge_track there = stands(is_homed, 345, -678, 0);
            there.held = numbers[i];
            homed = gauge_home(there, 345, -678);
            SAME(homed.refusal, GAUGE_ACCEPTED);
            SAME_TRACK(homed.track, wanted);
            homed = gauge_home(track, 345, -1000001);
            SAME(homed.refusal, GAUGE_BAD_HOME);
            SAME_TRACK(homed.track, track);
            homed = gauge_home(track, 1000001, 0);
            SAME(homed.refusal, GAUGE_BAD_HOME);
            SAME_TRACK(homed.track, track);
        }
}

static gauge_stepped step(gauge_request request, gauge_track track)
{
    lend();
    return gauge_step(track, older, PELS, newer, PELS, request, list, LIST + MORE, table, TABLE + MORE);
}

/* A step that is refused so: zeros, and the old track. */
static void step_refused(gauge_request request, gauge_track track, uint32_t refusal)
{
    gauge_stepped stepped = step(request, track);
    SAME_READING(stepped.answer, refusal, 0, 0, 0, 0);
    SAME_COUNTS(stepped.answer, 0, 0, 0, 0, 0, 0, 0);
    SAME_TRACK(stepped.track, track);
}

static void stepping(void)
{
    call = "gauge_step";
    gauge_stepped stepped = step(pruned, stands(true, 100, 200, 7));
    SAME_READING(stepped.answer, GAUGE_ACCEPTED, 2, -5, 4, 6);
    SAME_COUNTS(stepped.answer, 0, 1200, 626, 601, 571, 452, 748);
    SAME_TRACK(stepped.track, led(stands(true, 100, 200, 7), (travel){-2, 5}));
    FIELD_LENT(field_list);
    stepped = step(squares, stands(true, 300, 400, 17));
    SAME_READING(stepped.answer, GAUGE_ACCEPTED, 2, -5, 4, 6);
    SAME_COUNTS(stepped.answer, 0, 1200, 806, 767, 692, 518, 682);
    SAME_TRACK(stepped.track, led(stands(true, 300, 400, 17), (travel){-2, 5}));
    FIELD_LENT(squares_list);

    step_refused(pruned, stands(false, 11, 12, 13), GAUGE_NOT_HOMED);
    ALL_KEPT();
    step_refused(pruned, stands(true, 21, -22, 1000000), GAUGE_STEPS_OVER);
    ALL_KEPT();

    /* Out of range: the old track, but list and table as after an accepted step. */
    step_refused(pruned, stands(true, -999999, 32, 33), GAUGE_OUT_OF_RANGE);
    FIELD_LENT(field_list);
    step_refused(squares, stands(true, -999998, 999996, 34), GAUGE_OUT_OF_RANGE);
    FIELD_LENT(squares_list);
}

/* ---- blocks of 32 */

/* Six of them and pels left over, moved as above, but the first has not changed and the last is turned into its negative: by absolute it alone has a
 * distortion above 65,535, by squares the fourth has one too. */
enum { LARGE_WIDTH = 109, LARGE_HEIGHT = 71, LARGE_N = 32, LARGE_PELS = LARGE_WIDTH * LARGE_HEIGHT, LARGE_TABLE = 110 * 72 };
static uint8_t large_older[LARGE_PELS], large_newer[LARGE_PELS];
static uint32_t large_table[LARGE_TABLE + MORE];

static void take_large_pictures(void)
{
    for (int r = 0; r < LARGE_HEIGHT; r++)
        for (int c = 0; c < LARGE_WIDTH; c++) {
            const int at = r * LARGE_WIDTH + c, block = r / 32 * 3 + c / 32;
            large_older[at] = (uint8_t)fibres(r, c + 5);
            const uint8_t pel = (uint8_t)(fibres(r + 2, c) + (r * r + c) % 13);
            const bool on_grid = r < 64 && c < 96;
            large_newer[at] = on_grid && block == 0 ? large_older[at] : on_grid && block == 5 ? 255 - pel : pel;
        }
}

/* By absolute and by squares. */
static const int32_t large_lists[2][LIST] = {{0, 0, 0, 2, -5, 6317, 2, -5, 6000, 0, 0, 10893, 2, -5, 6275, 6, -9, 102341},
                                             {0, 0, 0, 2, -5, 53099, 2, -5, 49820, -7, 0, 181912, 2, -5, 52487, 6, -9, 11779575}};

static gauge_request large_request(uint32_t search, size_t w, uint32_t measure)
{
    return (gauge_request){LARGE_WIDTH, LARGE_HEIGHT, LARGE_N, search, w, 0, measure};
}

static void lend_large(void)
{
    lend();
    for (size_t i = 0; i < LARGE_TABLE + MORE; i++)
        large_table[i] = SUM;
}

static void large_block(void)
{
    call = "gauge_measure, N 32";
    gauge_measured measured =
        gauge_measure(large_older, LARGE_PELS, large_newer, LARGE_PELS, LARGE_WIDTH, LARGE_HEIGHT, LARGE_N, 3, 40, 4, -6, 1, UINT32_MAX);
    SAME_MEASURED(measured, GAUGE_ACCEPTED, 13867, 0, LARGE_N);
    measured = gauge_measure(large_older, LARGE_PELS, large_newer, LARGE_PELS, LARGE_WIDTH, LARGE_HEIGHT, LARGE_N, 3, 40, 4, -6, 2, UINT32_MAX);
    SAME_MEASURED(measured, GAUGE_ACCEPTED, 323813, 0, LARGE_N);
    measured = gauge_measure(large_older, LARGE_PELS, large_newer, LARGE_PELS, LARGE_WIDTH, LARGE_HEIGHT, LARGE_N, 3, 40, 4, -6, 2, 323812);
    SAME_MEASURED(measured, GAUGE_ACCEPTED, 0, 1, LARGE_N);
    MEASURING_REFUSED(GAUGE_NO_CANDIDATE, large_older, LARGE_PELS, large_newer, LARGE_PELS, LARGE_WIDTH, LARGE_HEIGHT, LARGE_N, 3, 40, -4, 6, 1);

    call = "gauge_row_view, N 32";
    gauge_row row = gauge_row_view(large_older, LARGE_PELS, large_newer, LARGE_PELS, LARGE_WIDTH, LARGE_HEIGHT, LARGE_N, 1, 70, 77);
    SAME_PART(row, GAUGE_ACCEPTED, 70 * LARGE_WIDTH + 77, LARGE_N);
    row = gauge_row_view(large_older, LARGE_PELS, large_newer, LARGE_PELS, LARGE_WIDTH, LARGE_HEIGHT, LARGE_N, 0, 70, 78);
    SAME_PART(row, GAUGE_BAD_PLACE, 0, 0);

    call = "gauge_search_block, N 32";
    gauge_found found = gauge_search_block(large_older, LARGE_PELS, large_newer, LARGE_PELS, large_request(1, W, 1), 3, 40);
    SAME_FOUND(found, GAUGE_ACCEPTED, 2, -5, 7265);
    SAME_COUNTS(found, 0, 0, 0, 0, 0, 247, 0);
    found = gauge_search_block(large_older, LARGE_PELS, large_newer, LARGE_PELS, large_request(2, W, 1), 3, 40);
    SAME_FOUND(found, GAUGE_ACCEPTED, 2, -5, 7265);
    SAME_COUNTS(found, 247, 169, 169, 155, 128, 107, 140);
    found = gauge_search_block(large_older, LARGE_PELS, large_newer, LARGE_PELS, large_request(2, W, 2), 3, 40);
    SAME_FOUND(found, GAUGE_ACCEPTED, 2, -5, 142839);
    SAME_COUNTS(found, 247, 208, 195, 194, 168, 20, 227);
    found = gauge_search_block(large_older, LARGE_PELS, large_newer, LARGE_PELS, large_request(3, 7, 1), 3, 40);
    SAME_FOUND(found, GAUGE_ACCEPTED, 2, -5, 7265);
    SAME_COUNTS(found, 0, 0, 0, 0, 0, 25, 0);
    found = gauge_search_block(large_older, LARGE_PELS, large_newer, LARGE_PELS, large_request(4, 8, 2), 3, 40);
    SAME_FOUND(found, GAUGE_ACCEPTED, 2, -3, 248242);
    SAME_COUNTS(found, 0, 0, 0, 0, 0, 15, 0);
    found = gauge_search_block(large_older, LARGE_PELS, large_newer, LARGE_PELS, large_request(2, W, 1), 40, 3);
    SAME_FOUND(found, GAUGE_BAD_PLACE, 0, 0, 0);
    SAME_COUNTS(found, 0, 0, 0, 0, 0, 0, 0);

    call = "gauge_search_half, N 32";
    gauge_half half = gauge_search_half(large_older, LARGE_PELS, large_newer, LARGE_PELS, large_request(2, W, 1), 39, 66);
    SAME_FOUND(half.found, GAUGE_ACCEPTED, -9, -9, 82208);
    SAME_HALF(half, -19, -19, 81487);
    half = gauge_search_half(large_older, LARGE_PELS, large_newer, LARGE_PELS, large_request(2, W, 2), 26, 44);
    SAME_FOUND(half.found, GAUGE_ACCEPTED, 9, -9, 1492331);
    SAME_HALF(half, 17, -19, 1426347);

    /* 4, 8, 16 and 32 alone. */
    for (size_t n = 0; n <= 71; n++) {
        call_of("N", (uint32_t)n);
        gauge_request request = {LARGE_WIDTH, LARGE_HEIGHT, n, 1, 0, 0, 1};
        const bool taken = n == 4 || n == 8 || n == 16 || n == 32;
        SAME(gauge_search_block(large_older, LARGE_PELS, large_newer, LARGE_PELS, request, 0, 0).refusal, taken ? GAUGE_ACCEPTED : GAUGE_BAD_N);
    }
}

static void large_field(void)
{
    for (uint32_t measure = 1; measure <= 2; measure++) {
        const int32_t *const numbers = large_lists[measure - 1];
        const gauge_request request = large_request(2, W, measure);
        call_of("gauge_field, N 32, measure", measure);
        lend_large();
        gauge_field_answer answer =
            gauge_field(large_older, LARGE_PELS, large_newer, LARGE_PELS, request, list, LIST + MORE, large_table, LARGE_TABLE + MORE);
        SAME_READING(answer, GAUGE_ACCEPTED, 2, -5, 3, 6);
        if (measure == 1)
            SAME_COUNTS(answer, 1296, 644, 436, 427, 426, 372, 924);
        else
            SAME_COUNTS(answer, 1296, 784, 601, 556, 520, 329, 967);
        EACH(list, 0, LIST, numbers[i]);
        EACH(list, LIST, LIST + MORE, NUMBER);
        EACH(large_table, LARGE_TABLE, LARGE_TABLE + MORE, SUM);

        call_of("gauge_step, N 32, measure", measure);
        lend_large();
        const gauge_track track = stands(true, 100, 200, 7);
        gauge_stepped stepped =
            gauge_step(track, large_older, LARGE_PELS, large_newer, LARGE_PELS, request, list, LIST + MORE, large_table, LARGE_TABLE + MORE);
        SAME_READING(stepped.answer, GAUGE_ACCEPTED, 2, -5, 3, 6);
        SAME(memcmp(&stepped.answer, &answer, sizeof answer), 0);
        SAME_TRACK(stepped.track, led(track, (travel){-2, 5}));
        EACH(list, 0, LIST, numbers[i]);
        EACH(list, LIST, LIST + MORE, NUMBER);

        call_of("gauge_field, N 32, a list and a table one short, measure", measure);
        lend_large();
        answer = gauge_field(large_older, LARGE_PELS, large_newer, LARGE_PELS, request, list, LIST - 1, large_table, LARGE_TABLE);
        SAME_READING(answer, GAUGE_SHORT_LIST, 0, 0, 0, 0);
        SAME_COUNTS(answer, 0, 0, 0, 0, 0, 0, 0);
        answer = gauge_field(large_older, LARGE_PELS, large_newer, LARGE_PELS, request, list, LIST, large_table, LARGE_TABLE - 1);
        SAME_READING(answer, GAUGE_SHORT_TABLE, 0, 0, 0, 0);
        EACH(large_table, 0, LARGE_TABLE + MORE, SUM);
        ALL_KEPT();

        /* Search 1 has the same list, and leaves the table alone. */
        answer = gauge_field(large_older, LARGE_PELS, large_newer, LARGE_PELS, large_request(1, W, measure), list, LIST, large_table, LARGE_TABLE);
        SAME_READING(answer, GAUGE_ACCEPTED, 2, -5, 3, 6);
        SAME_COUNTS(answer, 0, 0, 0, 0, 0, 1296, 0);
        EACH(list, 0, LIST, numbers[i]);
        EACH(large_table, 0, LARGE_TABLE + MORE, SUM);
    }
}

/* ---- who votes */

/* A small pair, searched by N 4 and the least w that the search takes above 0. More is lent than it needs. */
enum { SMALL_LIST = 12, SMALL_TABLE = 81 };
typedef struct {
    size_t width, height;
    uint8_t older[64], newer[64];
} small_pair;

/* The worked pair B, whose one block has (0,1), and one like it with a tenth of its contrast: 3 in its block, so that it does not vote, and far more
 * in the column that no block has. */
static small_pair pair_b = {.width = 5, .height = 4}, faint = {.width = 5, .height = 4};
static const int32_t of_b[] = {0, 1, 0};

static void take_small_pictures(void)
{
    for (size_t i = 0; i < 20; i++) {
        const uint8_t column = (uint8_t)(i % 5);
        pair_b.older[i] = 10 * column;
        faint.older[i] = column;
        pair_b.newer[i] = column == 4 ? 99 : 10 * (column + 1);
        faint.newer[i] = column == 4 ? 99 : column + 1;
    }
}

static gauge_request small_request(const small_pair *pair, uint32_t search, uint32_t measure)
{
    return (gauge_request){pair->width, pair->height, 4, search, search == 3 ? 7 : search == 4 ? 2 : 1, 0, measure};
}

static gauge_field_answer small_field(const small_pair *pair, uint32_t search, uint32_t measure)
{
    const size_t pels = pair->width * pair->height;
    lend();
    return gauge_field(pair->older, pels, pair->newer, pels, small_request(pair, search, measure), list, SMALL_LIST, table, SMALL_TABLE);
}

static gauge_stepped small_step(const small_pair *pair, uint32_t search, uint32_t measure, gauge_track track)
{
    const size_t pels = pair->width * pair->height;
    lend();
    return gauge_step(track, pair->older, pels, pair->newer, pels, small_request(pair, search, measure), list, SMALL_LIST, table, SMALL_TABLE);
}

/* One that is refused so: zeros, and the old track. */
static void small_step_refused(const small_pair *pair, uint32_t search, uint32_t measure, gauge_track track, uint32_t refusal)
{
    gauge_stepped stepped = small_step(pair, search, measure, track);
    SAME_READING(stepped.answer, refusal, 0, 0, 0, 0);
    SAME_COUNTS(stepped.answer, 0, 0, 0, 0, 0, 0, 0);
    SAME_TRACK(stepped.track, track);
}

/* What a small field leaves: so many numbers in the list, and by search 2 the sums of the older frame. */
static void small_lent(const small_pair *pair, uint32_t search, const int32_t *numbers, size_t count)
{
    EACH(list, 0, count, numbers[i]);
    EACH(list, count, LIST + MORE, NUMBER);
    const size_t across = pair->width + 1, sums = search == 2 ? across * (pair->height + 1) : 0;
    for (size_t i = 0; i < sums; i++) {
        uint32_t sum = 0;
        for (size_t r = 0; r < i / across; r++)
            for (size_t c = 0; c < i % across; c++)
                sum += pair->older[r * pair->width + c];
        same_place(__LINE__, "table", i, table[i], sum);
    }
    EACH(table, sums, TABLE + MORE, SUM);
}

/* A pair without a voter, whose field has this list. A field reads (0,0) with no vote of no voter; a step is refused by 52, with list and table
 * filled and the old track, at any place, the range's end and beyond it too; but 31 and 32 come first and leave all as it was. */
static void none_votes(const small_pair *pair, uint32_t search, uint32_t measure, const int32_t *numbers, size_t count)
{
    const gauge_track tracks[] = {
        stands(true, 10, 20, 7),     stands(true, 0, -1000000, 0),       stands(true, 1000000, 1000000, 999999),
        stands(true, 1000001, 0, 0), stands(true, 3, INT32_MIN, 999999), stands(true, -1000000, -1000000, 1),
    };
    gauge_field_answer answer = small_field(pair, search, measure);
    SAME_READING(answer, GAUGE_ACCEPTED, 0, 0, 0, 0);
    small_lent(pair, search, numbers, count);
    for (size_t i = 0; i < sizeof tracks / sizeof *tracks; i++) {
        small_step_refused(pair, search, measure, tracks[i], GAUGE_NO_VOTER);
        small_lent(pair, search, numbers, count);
    }
    small_step_refused(pair, search, measure, stands(false, 11, 12, 13), GAUGE_NOT_HOMED);
    ALL_KEPT();
    small_step_refused(pair, search, measure, stands(true, 1000001, -22, 1000000), GAUGE_STEPS_OVER);
    ALL_KEPT();
}

/* The worked pairs A and C, and the faint one. */
static void no_voters(void)
{
    static small_pair a = {.width = 4, .height = 4}, c = {.width = 8, .height = 8};
    static const int32_t of_a[] = {0, 0, 32}, of_a_squares[] = {0, 0, 64}, of_c[12] = {0};
    memset(a.older, 12, 16);
    memset(a.newer, 10, 16);
    memset(c.older, 7, 64);
    memset(c.newer, 7, 64);
    for (uint32_t search = 1; search <= 4; search++)
        for (uint32_t measure = 1; measure <= 2; measure++) {
            call_of("pair A, search", search);
            none_votes(&a, search, measure, measure == 1 ? of_a : of_a_squares, 3);
            call_of("pair C, search", search);
            none_votes(&c, search, measure, of_c, 12);
            call_of("a faint pair, search", search);
            none_votes(&faint, search, measure, of_b, 3);
        }
    call = "counts of a field without a voter";
    gauge_field_answer answer = small_field(&a, 2, 1);
    SAME_COUNTS(answer, 0, 0, 0, 1, 1, 1, 0);
    answer = small_field(&c, 2, 1);
    SAME_COUNTS(answer, 0, 0, 0, 16, 16, 16, 0);
    answer = small_field(&faint, 2, 1);
    SAME_COUNTS(answer, 0, 0, 0, 2, 2, 1, 1);
}

/* Two blank blocks and B's one: the two have (0,0) and no vote. */
static void blank_blocks(void)
{
    static small_pair pair = {.width = 13, .height = 4};
    static const int32_t numbers[] = {0, 0, 0, 0, 0, 0, 0, 1, 0};
    for (size_t i = 0; i < 52; i++) {
        const size_t column = i % 13;
        pair.older[i] = (uint8_t)(column < 8 ? 50 : 10 * (column - 8));
        pair.newer[i] = (uint8_t)(column < 8 ? 50 : column == 12 ? 99 : 10 * (column - 7));
    }
    call = "two blank blocks of three";
    for (uint32_t measure = 1; measure <= 2; measure++) {
        gauge_field_answer answer = small_field(&pair, 2, measure);
        SAME_READING(answer, GAUGE_ACCEPTED, 0, 1, 1, 1);
        small_lent(&pair, 2, numbers, 9);
        gauge_stepped stepped = small_step(&pair, 2, measure, stands(true, 10, 20, 0));
        SAME_READING(stepped.answer, GAUGE_ACCEPTED, 0, 1, 1, 1);
        SAME_TRACK(stepped.track, led(stands(true, 10, 20, 0), (travel){0, -1}));
        small_lent(&pair, 2, numbers, 9);
        small_step_refused(&pair, 2, measure, stands(true, 10, -1000000, 0), GAUGE_OUT_OF_RANGE);
        small_lent(&pair, 2, numbers, 9);
    }
}

/* One pel of a block that is off by 1 to 255, lighter or darker, wherever it stands: from 8 on the block votes. The older frame's pels do not
 * matter. */
static void one_pel_votes(void)
{
    static small_pair pair = {.width = 4, .height = 4};
    for (uint32_t off = 0; off <= 255; off++)
        for (size_t at = 0; at < 16; at++) {
            call_of("one newer pel off by", off);
            memset(pair.older, at % 2 ? 0 : 200, 8);
            memset(pair.newer, (int)(255 - off), 16);
            pair.newer[at] = 255;
            gauge_field_answer answer = small_field(&pair, 1, 1);
            SAME_READING(answer, GAUGE_ACCEPTED, 0, 0, off >= 8, off >= 8);
            memset(pair.newer, (int)off, 16);
            pair.newer[at] = 0;
            answer = small_field(&pair, 2, 2);
            SAME_READING(answer, GAUGE_ACCEPTED, 0, 0, off >= 8, off >= 8);
        }
}

/* ---- the last travels of a track */

/* The i-th of many: all sizes from -16 to 16 come, none is (0,0), and no two numbers of them up to 64 have the same sums. */
static travel nth(uint32_t i)
{
    const int32_t k = (int32_t)i;
    return (travel){5 * k % 33 - 16, 16 - (5 * k + 5 * k * k / 32) % 33};
}

/* A homed track that holds the first of them; or as many of (0,0). */
static gauge_track holds(uint32_t held, bool is_still)
{
    travel all[GAUGE_HELD_MOST];
    for (uint32_t i = 0; i < held; i++)
        all[i] = is_still ? (travel){0, 0} : nth(i);
    return holding(stray_track(true, 30, -40, 7), all, held);
}

/* A step of pictures that are blank but for one block, which travels so far, each part -16 to 16. */
static gauge_stepped travelled(gauge_track track, travel by, uint32_t search, uint32_t measure)
{
    enum { SIDE = 20, ALL = SIDE * SIDE };
    static uint8_t was[ALL], is[ALL];
    static int32_t numbers[GAUGE_LIST_LENGTH(SIDE, SIDE, 4)];
    memset(was, 128, sizeof was);
    memset(is, 128, sizeof is);
    const int row = by.dy > 0 ? 16 : 0, column = by.dx > 0 ? 16 : 0;
    for (int r = row; r < row + 4; r++)
        for (int c = column; c < column + 4; c++)
            is[r * SIDE + c] = was[(r - by.dy) * SIDE + c - by.dx] = (uint8_t)fibres(r, c);
    const gauge_request request = {SIDE, SIDE, 4, search, 16, 0, measure};
    return gauge_step(track, was, ALL, is, ALL, request, numbers, sizeof numbers / sizeof *numbers, table, TABLE);
}

/* Calls that are refused, each by another rule, of a homed track inside the range that has nothing wrong: all hand it back. */
static void handed_back(gauge_track track)
{
    static const struct {
        gauge_request request;
        size_t list_length, table_length;
        uint32_t refusal;
    } bad[] = {
        {{3, 4, 4, 2, 1, 0, 1}, 3, 30, GAUGE_BAD_SIZE},      {{5, 5, 4, 2, 1, 0, 1}, 3, 30, GAUGE_BAD_FRAME},
        {{5, 4, 5, 2, 1, 0, 1}, 3, 30, GAUGE_BAD_N},         {{5, 4, 4, 5, 1, 0, 1}, 3, 30, GAUGE_BAD_SEARCH},
        {{5, 4, 4, 2, 1, 0, 3}, 3, 30, GAUGE_BAD_MEASURE},   {{5, 4, 4, 2, 17, 0, 1}, 3, 30, GAUGE_BAD_WINDOW},
        {{5, 4, 4, 2, 1, 1, 1}, 3, 30, GAUGE_BAD_THRESHOLD}, {{5, 4, 4, 2, 1, 0, 1}, 3, 29, GAUGE_SHORT_TABLE},
        {{5, 4, 4, 2, 1, 0, 1}, 2, 30, GAUGE_SHORT_LIST},
    };
    lend();
    for (size_t i = 0; i < sizeof bad / sizeof *bad; i++) {
        gauge_stepped stepped =
            gauge_step(track, pair_b.older, 20, pair_b.newer, 20, bad[i].request, list, bad[i].list_length, table, bad[i].table_length);
        SAME_READING(stepped.answer, bad[i].refusal, 0, 0, 0, 0);
        SAME_TRACK(stepped.track, track);
    }
    ALL_KEPT();
    gauge_homed homed = gauge_home(track, 0, 1000001);
    SAME(homed.refusal, GAUGE_BAD_HOME);
    SAME_TRACK(homed.track, track);
    small_step_refused(&faint, 2, 1, track, GAUGE_NO_VOTER);
    gauge_track other = track;
    other.homed = false;
    small_step_refused(&pair_b, 2, 1, other, GAUGE_NOT_HOMED);
    other = track;
    other.steps = 1000000;
    small_step_refused(&pair_b, 2, 1, other, GAUGE_STEPS_OVER);
    other = track;
    other.sum_dy++;
    small_step_refused(&pair_b, 2, 1, other, GAUGE_STEPS_OVER);
    other = track;
    other.x = -1000000;
    small_step_refused(&pair_b, 2, 1, other, GAUGE_OUT_OF_RANGE);
}

/* A walk that pushes out all 64 travels and more, some of which are (0,0), with refused calls on its way. */
static void last_travels(void)
{
    enum { WALK = 140 };
    travel all[WALK];
    gauge_track track = gauge_home(holds(64, false), 1000, -2000).track, wanted = {.homed = true, .y = 1000, .x = -2000};
    call = "gauge_home, 64 travels";
    SAME_TRACK(track, wanted);
    for (uint32_t i = 0; i < WALK; i++) {
        call_of("gauge_step, travel", i);
        all[i] = i % 9 == 4 ? (travel){0, 0} : nth(i);
        gauge_stepped stepped = travelled(track, all[i], 1 + i % 2, 1 + i / 2 % 2);
        SAME_READING(stepped.answer, GAUGE_ACCEPTED, -all[i].dy, -all[i].dx, 1, 1);
        track = stepped.track;
        wanted.y += all[i].dy;
        wanted.x += all[i].dx;
        wanted.steps++;
        const uint32_t held = i < 64 ? i + 1 : 64;
        wanted = holding(wanted, all + i + 1 - held, held);
        SAME_TRACK(track, wanted);
        handed_back(track);
    }
    call = "gauge_home, 64 travels";
    gauge_homed homed = gauge_home(track, -3, 4);
    SAME(homed.refusal, GAUGE_ACCEPTED);
    SAME_TRACK(homed.track, ((gauge_track){.homed = true, .y = -3, .x = 4}));

    /* The largest sums, and travels that leave them or lower them. */
    for (int32_t part = -16; part <= 16; part += 32)
        for (int32_t next = -16; next <= 16; next += 16) {
            call = "64 equal travels, then another";
            for (size_t i = 0; i < GAUGE_HELD_MOST; i++)
                all[i] = (travel){part, -part};
            gauge_track full = holding(stands(true, 0, 0, 0), all, GAUGE_HELD_MOST);
            SAME(full.sum_dy, 64 * part);
            gauge_stepped stepped = travelled(full, (travel){next, part}, 2, 1);
            SAME_READING(stepped.answer, GAUGE_ACCEPTED, -next, -part, 1, 1);
            SAME(stepped.track.sum_dy, 63 * part + next);
            SAME(stepped.track.sum_dx, 63 * -part + part);
            SAME_TRACK(stepped.track, led(full, (travel){next, part}));
        }
}

/* A homed track inside the range: a step of B by each search and measure is accepted, or by 32 refused for what the track holds, and then list and
 * table are as they were, whatever the steps are. 31 and 10 come before 32, 52 and 33 behind it. All refused steps hand the track back. */
static void asked(gauge_track track, uint32_t refusal)
{
    static const uint32_t steps[] = {0, 1, 64, 999999};
    gauge_track not_homed = track, all_steps = track, at_end = track;
    not_homed.homed = false;
    all_steps.steps = 1000000;
    at_end.x = -1000000;
    for (uint32_t search = 1; search <= 4; search++)
        for (uint32_t measure = 1; measure <= 2; measure++) {
            if (refusal == GAUGE_ACCEPTED) {
                track.steps = steps[(search + measure) % 4];
                gauge_stepped stepped = small_step(&pair_b, search, measure, track);
                SAME_READING(stepped.answer, GAUGE_ACCEPTED, 0, 1, 1, 1);
                SAME_TRACK(stepped.track, led(track, (travel){0, -1}));
                small_lent(&pair_b, search, of_b, 3);
                small_step_refused(&faint, search, measure, track, GAUGE_NO_VOTER);
                small_lent(&faint, search, of_b, 3);
                small_step_refused(&pair_b, search, measure, at_end, GAUGE_OUT_OF_RANGE);
                small_lent(&pair_b, search, of_b, 3);
            } else {
                for (size_t i = 0; i < 4; i++) {
                    track.steps = steps[i];
                    small_step_refused(&pair_b, search, measure, track, refusal);
                    ALL_KEPT();
                }
                small_step_refused(&faint, search, measure, track, refusal);
                ALL_KEPT();
                small_step_refused(&pair_b, search, measure, at_end, refusal);
                ALL_KEPT();
            }
            small_step_refused(&pair_b, search, measure, not_homed, GAUGE_NOT_HOMED);
            ALL_KEPT();
            small_step_refused(&pair_b, search, measure, all_steps, GAUGE_STEPS_OVER);
            ALL_KEPT();
            gauge_stepped stepped =
                gauge_step(track, pair_b.older, 20, pair_b.newer, 20, small_request(&pair_b, search, measure), list, 2, table, SMALL_TABLE);
            SAME_READING(stepped.answer, GAUGE_SHORT_LIST, 0, 0, 0, 0);
            SAME_TRACK(stepped.track, track);
            ALL_KEPT();
        }
}

static void every_number_held(void)
{
    for (uint32_t held = 0; held <= GAUGE_HELD_MOST; held++) {
        call_of("a step, travels held before it", held);
        asked(holds(held, false), GAUGE_ACCEPTED);
    }
}

/* So many travels, or as many of (0,0), are tried in tracks built by hand. */
static const uint32_t tried[] = {0, 1, 2, 33, 63, 64};
enum { TRIED = 2 * sizeof tried / sizeof *tried };

static gauge_track by_hand(size_t k)
{
    return holds(tried[k / 2], k % 2);
}

/* What is tried in one of them: a number and its place. */
static void call_by_hand(const char *what, size_t k, int64_t number, size_t place)
{
    static char text[100];
    snprintf(text, sizeof text, "%u travels%s, %s %lld, place %zu", (unsigned)tried[k / 2], k % 2 ? " of (0,0)" : "", what, (long long)number, place);
    call = text;
}

/* Another part in one place, and the sum that follows, as far as 32 bits hold it. */
static gauge_track with_part(gauge_track track, bool is_dx, size_t place, int32_t part)
{
    int32_t *const parts = is_dx ? track.travel_dx : track.travel_dy, *const sum = is_dx ? &track.sum_dx : &track.sum_dy;
    *sum = (int32_t)((uint32_t)*sum + (uint32_t)part - (uint32_t)parts[place]);
    parts[place] = part;
    return track;
}

/* A held part outside -16 to 16 is refused though the sum is true; behind those held it is no fault, unless the sum counts it. */
static void parts_by_hand(void)
{
    static const int32_t parts[] = {
        16, -16, 17, -17, 127, 128, 240, 256, -256, 272, 65536, 65552, INT32_MIN, INT32_MIN + 16, INT32_MAX, INT32_MAX - 15,
    };
    for (size_t k = 0; k < TRIED; k++)
        for (size_t i = 0; i < sizeof parts / sizeof *parts; i++)
            for (int is_dx = 0; is_dx <= 1; is_dx++) {
                const uint32_t refusal = parts[i] >= -16 && parts[i] <= 16 ? GAUGE_ACCEPTED : GAUGE_STEPS_OVER;
                const size_t held = tried[k / 2], places[] = {0, held / 2, held - 1};
                for (size_t j = 0; held > 0 && j < 3; j++) {
                    call_by_hand("a held part of", k, parts[i], places[j]);
                    asked(with_part(by_hand(k), is_dx, places[j], parts[i]), refusal);
                }
                if (held < GAUGE_HELD_MOST) {
                    call_by_hand("behind them a part of", k, parts[i], held);
                    gauge_track track = by_hand(k);
                    (is_dx ? track.travel_dx : track.travel_dy)[held] = parts[i];
                    asked(track, GAUGE_ACCEPTED);
                    (is_dx ? track.travel_dx : track.travel_dy)[held] = 0;
                    asked(with_part(track, is_dx, held, parts[i]), GAUGE_STEPS_OVER);
                }
            }

    /* In each place; and two that make up for each other, or whose sum has more than 32 bits. */
    for (size_t place = 0; place < GAUGE_HELD_MOST; place++) {
        call_of("a part of 17 or -17, place", (uint32_t)place);
        asked(with_part(holds(64, false), place % 2, place, 17), GAUGE_STEPS_OVER);
        asked(with_part(holds(64, false), place % 2 == 0, place, -17), GAUGE_STEPS_OVER);
        asked(with_part(with_part(holds(64, true), 0, place, 17), 0, 63 - place, -17), GAUGE_STEPS_OVER);
        asked(with_part(with_part(holds(64, true), 1, place, INT32_MIN), 1, 63 - place, INT32_MIN), GAUGE_STEPS_OVER);
    }
}

/* A sum that is false, all else being right. */
static void sums_by_hand(void)
{
    static const int32_t offs[] = {1, -1, 16, 255, 256, -256, 65535, 65536, -65536, 1 << 24, INT32_MIN, INT32_MAX};
    for (size_t k = 0; k < TRIED; k++) {
        const gauge_track track = by_hand(k);
        for (size_t i = 0; i < sizeof offs / sizeof *offs; i++)
            for (int which = 1; which <= 3; which++) {
                call_by_hand("a sum off by", k, offs[i], (size_t)which);
                gauge_track other = track;
                if (which & 1)
                    other.sum_dy = (int32_t)((uint32_t)other.sum_dy + (uint32_t)offs[i]);
                if (which & 2)
                    other.sum_dx = (int32_t)((uint32_t)other.sum_dx - (uint32_t)offs[i]);
                asked(other, GAUGE_STEPS_OVER);
            }
    }

    /* Exchanged; of one travel less; of one more, where the next place has one too. */
    for (uint32_t held = 1; held <= GAUGE_HELD_MOST; held++) {
        call_of("sums exchanged, or of one less or more of", held);
        gauge_track track = holds(held, false);
        const int32_t sum_dy = track.sum_dy, sum_dx = track.sum_dx;
        track.sum_dy = sum_dx;
        track.sum_dx = sum_dy;
        asked(track, sum_dy == sum_dx ? GAUGE_ACCEPTED : GAUGE_STEPS_OVER);
        track.sum_dy = sum_dy;
        track.sum_dx = sum_dx;
        track.held = held - 1;
        asked(track, GAUGE_STEPS_OVER);
        gauge_track full = holds(64, false);
        full.held = held;
        full.sum_dy = sum_dy - nth(held - 1).dy;
        full.sum_dx = sum_dx - nth(held - 1).dx;
        asked(full, GAUGE_STEPS_OVER);
    }
}

/* More than 64, with the sums of those that a number cut short would stand for. */
static void numbers_by_hand(void)
{
    static const uint32_t numbers[] = {
        65, 66, 127, 128, 255, 256, 257, 258, 289, 319, 320, 65535, 65536, 65537, 65600, 1u << 31, (1u << 31) + 1, UINT32_MAX - 63, UINT32_MAX,
    };
    for (size_t k = 0; k < TRIED; k++)
        for (size_t i = 0; i < sizeof numbers / sizeof *numbers; i++) {
            call_by_hand("held", k, numbers[i], 0);
            gauge_track track = by_hand(k);
            track.held = numbers[i];
            asked(track, GAUGE_STEPS_OVER);
            memset(track.travel_dy, 0, sizeof track.travel_dy);
            memset(track.travel_dx, 0, sizeof track.travel_dx);
            track.sum_dy = track.sum_dx = 0;
            asked(track, GAUGE_STEPS_OVER);
        }
}

/* ---- the measure */

/* Numbers that are none. Some have 1 or 2 in their last byte or two. */
static const uint32_t no_measures[] = {0, 3, 7, 255, 256, 257, 258, 65537, 65538, 1u << 31, UINT32_MAX};
enum { NO_MEASURES = sizeof no_measures / sizeof *no_measures };

/* All 0 against all 255, 255 a pel and by squares 65,025: measured up to just that ceiling and over one less, in the last row; searched and in
 * a field's list. */
static void largest_distortions(void)
{
    enum { SIDE = 32, ALL = SIDE * SIDE };
    static uint8_t dark[ALL], light[ALL];
    static int32_t numbers[GAUGE_LIST_LENGTH(SIDE, SIDE, 4)];
    memset(light, 255, sizeof light);
    for (size_t n = 4; n <= 32; n *= 2) {
        call_of("0 against 255, N", (uint32_t)n);
        for (uint32_t measure = 1; measure <= 2; measure++) {
            const size_t most = (measure == 1 ? 255 : 65025) * n * n;
            gauge_measured measured = gauge_measure(dark, ALL, light, ALL, SIDE, SIDE, n, 0, 0, 0, 0, measure, (uint32_t)most);
            SAME_MEASURED(measured, GAUGE_ACCEPTED, most, 0, n);
            measured = gauge_measure(light, ALL, dark, ALL, SIDE, SIDE, n, 0, 0, 0, 0, measure, (uint32_t)most);
            SAME_MEASURED(measured, GAUGE_ACCEPTED, most, 0, n);
            measured = gauge_measure(light, ALL, dark, ALL, SIDE, SIDE, n, 0, 0, 0, 0, measure, (uint32_t)most - 1);
            SAME_MEASURED(measured, GAUGE_ACCEPTED, 0, 1, n);
            for (uint32_t search = 1; search <= 4; search++) {
                gauge_request request = {SIDE, SIDE, n, search, search == 3 ? 7 : 16, 0, measure};
                gauge_found found = gauge_search_block(dark, ALL, light, ALL, request, 0, 0);
                SAME_FOUND(found, GAUGE_ACCEPTED, 0, 0, most);
                gauge_half half = gauge_search_half(dark, ALL, light, ALL, request, 0, 0);
                SAME_FOUND(half.found, GAUGE_ACCEPTED, 0, 0, most);
                SAME_HALF(half, 0, 0, most);
                const size_t blocks = (SIDE / n) * (SIDE / n);
                memset(numbers, 255, sizeof numbers);
                gauge_field_answer answer = gauge_field(light, ALL, dark, ALL, request, numbers, 3 * blocks, table, TABLE);
                SAME_READING(answer, GAUGE_ACCEPTED, 0, 0, 0, 0);
                EACH(numbers, 0, 3 * blocks, i % 3 == 2 ? most : 0);
            }
        }
    }
}

/* One pel that differs by 1 to 255, and the square of that: up to just that ceiling, and over one less in the pel's row, wherever it stands. */
static void one_pel(void)
{
    static uint8_t dark[4 * 4], light[4 * 4];
    for (uint32_t grey = 1; grey <= 255; grey++)
        for (uint32_t measure = 1; measure <= 2; measure++) {
            call_of("one pel off by", grey);
            const size_t at = (grey + 5 * measure) % 16;
            const uint32_t all = measure == 1 ? grey : grey * grey;
            memset(light, 0, sizeof light);
            light[at] = (uint8_t)grey;
            gauge_measured measured = gauge_measure(dark, 16, light, 16, 4, 4, 4, 0, 0, 0, 0, measure, all);
            SAME_MEASURED(measured, GAUGE_ACCEPTED, all, 0, 4);
            measured = gauge_measure(light, 16, dark, 16, 4, 4, 4, 0, 0, 0, 0, measure, all);
            SAME_MEASURED(measured, GAUGE_ACCEPTED, all, 0, 4);
            measured = gauge_measure(dark, 16, light, 16, 4, 4, 4, 0, 0, 0, 0, measure, all - 1);
            SAME_MEASURED(measured, GAUGE_ACCEPTED, 0, 1, at / 4 + 1);
        }
}

/* ---- the ceiling */

/* A block of a pair, and the vector by which it is measured. */
typedef struct {
    const uint8_t *older, *newer;
    int width, height, n, row, column, dy, dx;
} one_block;

/* One ceiling against the sums at the ends of the block's rows. */
static void by_ceiling(const one_block *b, uint32_t measure, const uint32_t *sums, uint32_t ceiling)
{
    int rows = 1;
    while (rows < b->n && sums[rows - 1] <= ceiling)
        rows++;
    const bool over = sums[rows - 1] > ceiling;
    const int pels = b->width * b->height;
    gauge_measured measured =
        gauge_measure(b->older, pels, b->newer, pels, b->width, b->height, b->n, b->row, b->column, b->dy, b->dx, measure, ceiling);
    SAME_MEASURED(measured, GAUGE_ACCEPTED, over ? 0 : sums[rows - 1], over, rows);
}

/* Ceilings around the sum at the end of every row, and far ones. */
static void by_every_row(const one_block *b, uint32_t measure)
{
    uint32_t sums[32], sum = 0;
    for (int r = 0; r < b->n; r++) {
        for (int c = 0; c < b->n; c++) {
            const int was = b->older[(b->row + r + b->dy) * b->width + b->column + c + b->dx];
            const int off = b->newer[(b->row + r) * b->width + b->column + c] - was;
            sum += (uint32_t)(measure == 2 ? off * off : off < 0 ? -off : off);
        }
        sums[r] = sum;
    }
    for (int r = 0; r < b->n; r++) {
        call_of("a ceiling around the sum up to row", (uint32_t)r + 1);
        if (sums[r] > 0)
            by_ceiling(b, measure, sums, sums[r] - 1);
        by_ceiling(b, measure, sums, sums[r]);
        by_ceiling(b, measure, sums, sums[r] + 1);
    }
    for (size_t k = 0; k < FAR_CEILINGS; k++) {
        call_of("ceiling", far_ceilings[k]);
        by_ceiling(b, measure, sums, far_ceilings[k]);
    }
}

static void ceilings(void)
{
    const one_block blocks[] = {
        {older, newer, WIDTH, HEIGHT, 4, 3, 20, 4, -6},
        {older, newer, WIDTH, HEIGHT, 8, 29, 49, -16, 0},
        {older, newer, WIDTH, HEIGHT, N, 3, 20, 4, -6},
        {large_older, large_newer, LARGE_WIDTH, LARGE_HEIGHT, LARGE_N, 3, 40, 4, -6},
        {large_older, large_newer, LARGE_WIDTH, LARGE_HEIGHT, LARGE_N, 32, 64, 6, -9},
        {large_older, large_newer, LARGE_WIDTH, LARGE_HEIGHT, LARGE_N, 0, 0, 0, 0},
    };
    for (size_t i = 0; i < sizeof blocks / sizeof *blocks; i++)
        for (uint32_t measure = 1; measure <= 2; measure++)
            by_every_row(&blocks[i], measure);

    /* The worked pair A has 8 a row, by squares 16. Blocks that are alike are over no ceiling. */
    static uint8_t tens[16], twelves[16];
    memset(tens, 10, sizeof tens);
    memset(twelves, 12, sizeof twelves);
    static const struct {
        uint32_t ceiling, distortion, over, rows;
    } wanted[] = {
        {0, 0, 1, 1},  {7, 0, 1, 1},  {8, 0, 1, 2},  {15, 0, 1, 2},  {16, 0, 1, 3},
        {23, 0, 1, 3}, {24, 0, 1, 4}, {31, 0, 1, 4}, {32, 32, 0, 4}, {33, 32, 0, 4},
    };
    for (size_t i = 0; i < sizeof wanted / sizeof *wanted; i++) {
        call_of("pair A, ceiling", wanted[i].ceiling);
        gauge_measured measured = gauge_measure(twelves, 16, tens, 16, 4, 4, 4, 0, 0, 0, 0, 1, wanted[i].ceiling);
        SAME_MEASURED(measured, GAUGE_ACCEPTED, wanted[i].distortion, wanted[i].over, wanted[i].rows);
        measured = gauge_measure(tens, 16, twelves, 16, 4, 4, 4, 0, 0, 0, 0, 2, 2 * wanted[i].ceiling);
        SAME_MEASURED(measured, GAUGE_ACCEPTED, 2 * wanted[i].distortion, wanted[i].over, wanted[i].rows);
        measured = gauge_measure(tens, 16, tens, 16, 4, 4, 4, 0, 0, 0, 0, 1, wanted[i].ceiling);
        SAME_MEASURED(measured, GAUGE_ACCEPTED, 0, 0, 4);
    }
}

/* The search to half a pel, refused so, with zeros behind the number. */
#define HALF_REFUSED(refusal_, ...)                          \
    do {                                                     \
        gauge_half refused = gauge_search_half(__VA_ARGS__); \
        SAME_FOUND(refused.found, refusal_, 0, 0, 0);        \
        SAME_COUNTS(refused.found, 0, 0, 0, 0, 0, 0, 0);     \
        SAME_HALF(refused, 0, 0, 0);                         \
    } while (0)

/* A request that a search, to half a pel too, a field and a step refuse alike, and before the place, the lengths of list and table and the track,
 * which are bad too. */
static void all_refuse(gauge_request request, uint32_t refusal)
{
    gauge_found found = gauge_search_block(older, PELS, newer, PELS, request, 3, 42);
    SAME_FOUND(found, refusal, 0, 0, 0);
    SAME_COUNTS(found, 0, 0, 0, 0, 0, 0, 0);
    HALF_REFUSED(refusal, older, PELS, newer, PELS, request, 3, 42);
    lend();
    gauge_field_answer answer = gauge_field(older, PELS, newer, PELS, request, list, LIST - 1, table, TABLE - 1);
    SAME_READING(answer, refusal, 0, 0, 0, 0);
    SAME_COUNTS(answer, 0, 0, 0, 0, 0, 0, 0);
    ALL_KEPT();
    step_refused(request, stands(false, 41, -42, 43), refusal);
    ALL_KEPT();
}

static void measures_refused(void)
{
    for (size_t i = 0; i < NO_MEASURES; i++) {
        const uint32_t measure = no_measures[i];
        call_of("refusal 51, measure", measure);
        /* Before w and T, whatever the search. */
        all_refuse((gauge_request){WIDTH, HEIGHT, N, 2, W, 0, measure}, GAUGE_BAD_MEASURE);
        all_refuse((gauge_request){WIDTH, HEIGHT, N, 1, 17, 0, measure}, GAUGE_BAD_MEASURE);
        all_refuse((gauge_request){WIDTH, HEIGHT, N, 3, 7, 1, measure}, GAUGE_BAD_MEASURE);
        all_refuse((gauge_request){WIDTH, HEIGHT, N, 4, 8, UINT32_MAX, measure}, GAUGE_BAD_MEASURE);
        /* After sizes, frames, N and search. */
        all_refuse((gauge_request){3, HEIGHT, N, 2, W, 0, measure}, GAUGE_BAD_SIZE);
        all_refuse((gauge_request){WIDTH, HEIGHT + 1, N, 2, W, 0, measure}, GAUGE_BAD_FRAME);
        all_refuse((gauge_request){WIDTH, HEIGHT, 5, 2, W, 0, measure}, GAUGE_BAD_N);
        all_refuse((gauge_request){WIDTH, HEIGHT, N, 0, W, 0, measure}, GAUGE_BAD_SEARCH);

        /* Measuring: after N, before place and vector. */
        MEASURING_REFUSED(GAUGE_BAD_MEASURE, older, PELS, newer, PELS, WIDTH, HEIGHT, N, 3, 20, 4, -6, measure);
        MEASURING_REFUSED(GAUGE_BAD_MEASURE, older, PELS, newer, PELS, WIDTH, HEIGHT, N, 3, 20, -4, 6, measure);
        MEASURING_REFUSED(GAUGE_BAD_MEASURE, older, PELS, newer, PELS, WIDTH, HEIGHT, N, 3, 42, 4, -6, measure);
        MEASURING_REFUSED(GAUGE_BAD_N, older, PELS, newer, PELS, WIDTH, HEIGHT, 5, 3, 20, 4, -6, measure);
        MEASURING_REFUSED(GAUGE_BAD_FRAME, older, PELS, newer, PELS - 1, WIDTH, HEIGHT, N, 3, 20, 4, -6, measure);
        MEASURING_REFUSED(GAUGE_BAD_SIZE, older, PELS, newer, PELS, 3, HEIGHT, N, 3, 20, 4, -6, measure);
    }
    call = "refusals by squares";
    all_refuse((gauge_request){WIDTH, HEIGHT, N, 2, 17, 0, 2}, GAUGE_BAD_WINDOW);
    all_refuse((gauge_request){WIDTH, HEIGHT, N, 2, W, 1, 2}, GAUGE_BAD_THRESHOLD);
    MEASURING_REFUSED(GAUGE_BAD_PLACE, older, PELS, newer, PELS, WIDTH, HEIGHT, N, 3, 42, 4, -6, 2);
    MEASURING_REFUSED(GAUGE_NO_CANDIDATE, older, PELS, newer, PELS, WIDTH, HEIGHT, N, 3, 20, -4, 6, 2);
}

/* The threshold's limit goes by the measure alone. */
static void thresholds(void)
{
    static const struct {
        uint32_t measure, t, refusal;
    } limits[] = {
        {1, 261120, GAUGE_ACCEPTED},   {1, 261121, GAUGE_BAD_THRESHOLD},   {1, 66585600, GAUGE_BAD_THRESHOLD},   {2, 261121, GAUGE_ACCEPTED},
        {2, 66585600, GAUGE_ACCEPTED}, {2, 66585601, GAUGE_BAD_THRESHOLD}, {2, 4294901760, GAUGE_BAD_THRESHOLD}, {2, UINT32_MAX, GAUGE_BAD_THRESHOLD},
    };
    for (size_t n = 4; n <= 32; n *= 2)
        for (size_t i = 0; i < sizeof limits / sizeof *limits; i++) {
            call_of("the threshold", limits[i].t);
            gauge_request cross = {WIDTH, HEIGHT, n, 4, 8, limits[i].t, limits[i].measure};
            SAME(gauge_search_block(older, PELS, newer, PELS, cross, 3, 20).refusal, limits[i].refusal);
        }
}

/* ---- half a pel */

/* Pairs in which four numbers are repeated all over the older frame, two to a row, and one over the newer; and both frames may have a slope, 2 a row
 * or a column. Blocks of 4 by window 0, so that (0,0) is found: its distortion by absolute and by squares, the winner in half pels and its
 * distortions. A larger N has a frame larger by as much, and distortions larger by the pels. */
static const struct {
    const char *what;
    uint8_t older[4], newer, down, right;
    uint8_t width, height, row, column;
    uint32_t found[2];
    int8_t half_dy, half_dx;
    uint32_t half[2];
} repeated[] = {
    /* 1 more or less is half a pel along a slope of 2. At the border nothing is beyond, and a frame 4 high has no row above or below. */
    {"right", {0, 0, 0, 0}, 1, 0, 2, 5, 4, 0, 0, {16, 16}, 0, 1, {0, 0}},
    {"right, at the border", {0, 0, 0, 0}, 1, 0, 2, 5, 4, 0, 1, {16, 16}, 0, 0, {16, 16}},
    {"left", {1, 1, 1, 1}, 0, 0, 2, 5, 4, 0, 1, {16, 16}, 0, -1, {0, 0}},
    {"left, at the border", {1, 1, 1, 1}, 0, 0, 2, 5, 4, 0, 0, {16, 16}, 0, 0, {16, 16}},
    {"down", {0, 0, 0, 0}, 1, 2, 0, 4, 5, 0, 0, {16, 16}, 1, 0, {0, 0}},
    {"down, at the border", {0, 0, 0, 0}, 1, 2, 0, 4, 5, 1, 0, {16, 16}, 0, 0, {16, 16}},
    {"up", {1, 1, 1, 1}, 0, 2, 0, 4, 5, 1, 0, {16, 16}, -1, 0, {0, 0}},
    {"up, at the border", {1, 1, 1, 1}, 0, 2, 0, 4, 5, 0, 0, {16, 16}, 0, 0, {16, 16}},

    /* (a + b + 1) / 2: of 0 and 1 it is 1. */
    {"0 and 1 make 1", {0, 1, 0, 1}, 1, 0, 0, 5, 4, 0, 0, {8, 8}, 0, 1, {0, 0}},
    {"0 and 1 do not make 0", {0, 1, 0, 1}, 0, 0, 0, 5, 4, 0, 0, {8, 8}, 0, 0, {8, 8}},
    {"254 and 255 make 255", {254, 254, 255, 255}, 255, 0, 0, 4, 5, 0, 0, {8, 8}, 1, 0, {0, 0}},

    /* (a + b + c + d + 2) / 4, rounded down where the four make 1, rounded up where they make 10. */
    {"0, 0, 0 and 1 make 0", {1, 0, 0, 0}, 0, 0, 0, 5, 5, 0, 0, {4, 4}, 1, 1, {0, 0}},
    {"three of 255 and 253 make 255", {253, 255, 255, 255}, 255, 0, 0, 5, 5, 0, 0, {8, 16}, 1, 1, {0, 0}},
    {"0, 3, 2 and 5 make 3", {0, 1, 0, 1}, 3, 2, 2, 5, 5, 0, 0, {40, 104}, 1, 1, {0, 0}},

    /* Ties. Between any pels of a chequered frame there is 5: the first neighbour that counts. */
    {"chequered", {0, 10, 10, 0}, 5, 0, 0, 6, 6, 1, 1, {80, 400}, -1, 0, {0, 0}},
    {"chequered, at the top", {0, 10, 10, 0}, 5, 0, 0, 6, 6, 0, 1, {80, 400}, 0, -1, {0, 0}},
    {"chequered, top left", {0, 10, 10, 0}, 5, 0, 0, 6, 6, 0, 0, {80, 400}, 0, 1, {0, 0}},
    {"chequered, as wide as a block", {0, 10, 10, 0}, 5, 0, 0, 4, 6, 0, 0, {80, 400}, 1, 0, {0, 0}},
    {"chequered, at the bottom", {0, 10, 10, 0}, 5, 0, 0, 4, 6, 2, 0, {80, 400}, -1, 0, {0, 0}},
    {"chequered, no larger than a block", {0, 10, 10, 0}, 5, 0, 0, 4, 4, 0, 0, {80, 400}, 0, 0, {80, 400}},
    /* Between four there is 2, between two 4 or 0: the first diagonal one that counts, else the first of the others. */
    {"dotted", {8, 0, 0, 0}, 2, 0, 0, 6, 6, 1, 1, {48, 192}, -1, -1, {0, 0}},
    {"dotted, at the left", {8, 0, 0, 0}, 2, 0, 0, 6, 6, 2, 0, {48, 192}, -1, 1, {0, 0}},
    {"dotted, at the top", {8, 0, 0, 0}, 2, 0, 0, 6, 6, 0, 2, {48, 192}, 1, -1, {0, 0}},
    {"dotted, top left", {8, 0, 0, 0}, 2, 0, 0, 6, 6, 0, 0, {48, 192}, 1, 1, {0, 0}},
    {"dotted, bottom right", {8, 0, 0, 0}, 2, 0, 0, 6, 6, 2, 2, {48, 192}, -1, -1, {0, 0}},
    {"dotted, as high as a block", {8, 0, 0, 0}, 2, 0, 0, 6, 4, 0, 1, {48, 192}, 0, -1, {32, 64}},
    /* All nine alike: the one found. */
    {"flat", {7, 7, 7, 7}, 9, 0, 0, 6, 6, 1, 1, {32, 64}, 0, 0, {32, 64}},
    {"0 against 254", {0, 0, 0, 0}, 254, 0, 0, 6, 6, 1, 1, {4064, 1032256}, 0, 0, {4064, 1032256}},
};

static void half_pels(void)
{
    enum { MOST = 34 * 34 };
    static uint8_t was[MOST], is[MOST];
    for (size_t i = 0; i < sizeof repeated / sizeof *repeated; i++)
        for (uint32_t n = 4; n <= 32; n *= 2) {
            static char text[100];
            snprintf(text, sizeof text, "gauge_search_half, %s, N %u", repeated[i].what, (unsigned)n);
            call = text;
            const size_t width = repeated[i].width + n - 4, height = repeated[i].height + n - 4, pels = width * height;
            for (size_t r = 0; r < height; r++)
                for (size_t c = 0; c < width; c++) {
                    const size_t slope = repeated[i].down * r + repeated[i].right * c;
                    was[r * width + c] = (uint8_t)(slope + repeated[i].older[r % 2 * 2 + c % 2]);
                    is[r * width + c] = (uint8_t)(slope + repeated[i].newer);
                }
            for (uint32_t measure = 1; measure <= 2; measure++) {
                /* By window 0; and by cross, which the largest threshold ends. */
                const gauge_request requests[] = {
                    {width, height, n, 1, 0, 0, measure},
                    {width, height, n, 2, 0, 0, measure},
                    {width, height, n, 4, 2, measure == 1 ? 261120 : 66585600, measure},
                };
                for (size_t k = 0; k < 3; k++) {
                    gauge_half half = gauge_search_half(was, pels, is, pels, requests[k], repeated[i].row, repeated[i].column);
                    SAME_FOUND(half.found, GAUGE_ACCEPTED, 0, 0, repeated[i].found[measure - 1] * (n * n / 16));
                    SAME(half.found.counts[5], 1);
                    SAME_HALF(half, repeated[i].half_dy, repeated[i].half_dx, repeated[i].half[measure - 1] * (n * n / 16));
                }
            }
        }
}

/* The older frame has 0 10 0 10 0 in five columns or rows at one end and 200 in all others, the newer 5 everywhere. The block at the other end has
 * four of the five by a vector of 16 or -16, and 5 between them half a pel on, beyond the window; if the frame is cut off before the fifth it has
 * not. */
static void half_beyond_window(void)
{
    static uint8_t was[4 * 21], fives[4 * 21];
    memset(fives, 5, sizeof fives);
    for (int way = 0; way < 8; way++) {
        const bool is_down = way & 1, is_back = way & 2, is_cut = way & 4;
        call_of("gauge_search_half, beyond window 16, way", (uint32_t)way);
        const int along = is_cut ? 20 : 21, pels = 4 * along, width = is_down ? 4 : along;
        const int first = is_back ? along - 21 : 16, place = is_back ? along - 4 : 0;
        for (int i = 0; i < pels; i++) {
            const int k = (is_down ? i / width : i % width) - first;
            was[i] = (uint8_t)(k >= 0 && k < 5 ? k % 2 * 10 : 200);
        }
        const int part = is_back ? -16 : 16, half_part = is_cut ? 2 * part : is_back ? -33 : 33;
        for (uint32_t search = 1; search <= 2; search++)
            for (uint32_t measure = 1; measure <= 2; measure++) {
                gauge_request request = {width, pels / width, 4, search, 16, 0, measure};
                gauge_half half = gauge_search_half(was, pels, fives, pels, request, is_down ? place : 0, is_down ? 0 : place);
                const int distortion = measure == 1 ? 80 : 400;
                SAME_FOUND(half.found, GAUGE_ACCEPTED, is_down ? part : 0, is_down ? 0 : part, distortion);
                SAME_HALF(half, is_down ? half_part : 0, is_down ? 0 : half_part, is_cut ? distortion : 0);
            }
    }
}

static void half_refused(void)
{
    call = "gauge_search_half, frames";
    HALF_REFUSED(GAUGE_BAD_FRAME, older, PELS - 1, newer, PELS, pruned, 3, 20);
    HALF_REFUSED(GAUGE_BAD_FRAME, older, PELS, newer, PELS - 1, pruned, 3, 20);
    call = "gauge_search_half, places";
    HALF_REFUSED(GAUGE_BAD_PLACE, older, PELS, newer, PELS, squares, 22, 20);
    HALF_REFUSED(GAUGE_BAD_PLACE, older, PELS, newer, PELS, squares, 21, 42);
    HALF_REFUSED(GAUGE_BAD_PLACE, older, PELS, newer, PELS, pruned, SIZE_MAX, SIZE_MAX - 15);
}

/* ---- logs: the field above */

static const gauge_head head = {WIDTH, HEIGHT, N, W, 2, 1};
static const uint8_t field_log[LOG] = {
    1, 0,   57, 0,  37,  16, 9, 2,                             /* head, at 0 */
    2, 0,   0,  10, 119, 2,  2, 251, 5, 201, 2, 2, 251, 6, 63, /* blocks, at 8, 13, 18 */
    2, 249, 0,  10, 249, 2,  2, 251, 5, 193, 2, 2, 251, 6, 42, /* at 23, 28, 33 */
    4, 0,   0,  0,  6,                                         /* end, at 38 */
};
static const char field_text[] = "57 37 16 9 2\n0 0 2679\n2 -5 1481\n2 -5 1599\n-7 0 2809\n2 -5 1473\n2 -5 1578\nend 6\n";

/* The same with another number of blocks in its end. */
static uint8_t wrong_log[LOG];
static const char wrong_text[] = "57 37 16 9 2\n0 0 2679\n2 -5 1481\n2 -5 1599\n-7 0 2809\n2 -5 1473\n2 -5 1578\nrefused 17 at 38\n";

static void writing(void)
{
    call = "gauge_write_log";
    lend();
    gauge_written written = gauge_write_log(head, field_list, LIST, buffer, sizeof buffer);
    SAME_PART(written, GAUGE_ACCEPTED, 0, LOG);
    EACH(buffer, 0, LOG, field_log[i]);
    EACH(buffer, LOG, sizeof buffer, BYTE);

    lend();
    written = gauge_write_log(head, field_list, LIST, buffer, LOG - 1);
    SAME_PART(written, GAUGE_SHORT_BUFFER, 0, 0);
    ALL_KEPT();

    /* The last block but one cannot have dy 6. */
    int32_t spoilt[LIST];
    memcpy(spoilt, field_list, sizeof spoilt);
    spoilt[3 * 4] = 6;
    written = gauge_write_log(head, spoilt, LIST, buffer, sizeof buffer);
    SAME_PART(written, GAUGE_LOG_BLOCK, 4, 0);
    ALL_KEPT();

    /* What is no measure is refused after the search, before w, list, blocks and buffer. */
    for (size_t i = 0; i < NO_MEASURES; i++) {
        const uint32_t measure = no_measures[i];
        call_of("gauge_write_log, measure", measure);
        written = gauge_write_log((gauge_head){WIDTH, HEIGHT, N, W, 2, measure}, field_list, LIST, buffer, sizeof buffer);
        SAME_PART(written, GAUGE_BAD_MEASURE, 0, 0);
        written = gauge_write_log((gauge_head){WIDTH, HEIGHT, N, 17, 2, measure}, spoilt, LIST - 1, buffer, LOG - 1);
        SAME_PART(written, GAUGE_BAD_MEASURE, 0, 0);
        written = gauge_write_log((gauge_head){WIDTH, HEIGHT, N, 17, 5, measure}, spoilt, LIST - 1, buffer, LOG - 1);
        SAME_PART(written, GAUGE_BAD_SEARCH, 0, 0);
        written = gauge_write_log((gauge_head){WIDTH, HEIGHT, 5, W, 2, measure}, field_list, LIST, buffer, sizeof buffer);
        SAME_PART(written, GAUGE_BAD_N, 0, 0);
        written = gauge_write_log((gauge_head){3, HEIGHT, N, W, 2, measure}, field_list, LIST, buffer, sizeof buffer);
        SAME_PART(written, GAUGE_BAD_SIZE, 0, 0);
        ALL_KEPT();
    }
}

static void reading(void)
{
    call = "gauge_read_log";
    lend();
    gauge_log_read read = gauge_read_log(field_log, LOG, list, LIST + MORE);
    SAME(read.refusal, GAUGE_ACCEPTED);
    SAME(read.place, 0);
    SAME_HEAD(read.head, WIDTH, HEIGHT, N, W, 2, 1);
    EACH(list, 0, LIST, field_list[i]);
    EACH(list, LIST, LIST + MORE, NUMBER);

    lend();
    read = gauge_read_log(wrong_log, LOG, list, LIST + MORE);
    SAME(read.refusal, GAUGE_LOG_END);
    SAME(read.place, 38);
    SAME_HEAD(read.head, 0, 0, 0, 0, 0, 0);
    ALL_KEPT();
    read = gauge_read_log(field_log, LOG, list, LIST - 1);
    SAME(read.refusal, GAUGE_SHORT_LIST);
    SAME(read.place, 8);
    SAME_HEAD(read.head, 0, 0, 0, 0, 0, 0);
    ALL_KEPT();
}

static void printing(void)
{
    call = "gauge_print_log";
    const size_t length = sizeof field_text - 1;
    lend();
    SAME(gauge_print_log(field_log, LOG, buffer, sizeof buffer), length);
    EACH(buffer, 0, length, field_text[i]);
    EACH(buffer, length, sizeof buffer, BYTE);

    /* Into a buffer that is too short, and into none. */
    lend();
    SAME(gauge_print_log(field_log, LOG, buffer, 30), length);
    EACH(buffer, 0, 30, field_text[i]);
    EACH(buffer, 30, sizeof buffer, BYTE);
    lend();
    SAME(gauge_print_log(field_log, LOG, buffer, 0), length);
    ALL_KEPT();

    SAME(gauge_print_log(wrong_log, LOG, buffer, sizeof buffer), sizeof wrong_text - 1);
    EACH(buffer, 0, sizeof wrong_text - 1, wrong_text[i]);
    EACH(buffer, sizeof wrong_text - 1, sizeof buffer, BYTE);
}

/* A cursor among the field's blocks, and one that has a place alone. */
#define SAME_AMONG_BY(got, at_, blocks_, measure_) \
    (SAME(got.at, at_), SAME(got.phase, 1), SAME_HEAD(got.head, WIDTH, HEIGHT, N, W, 2, measure_), SAME(got.blocks, blocks_))
#define SAME_AMONG(got, at_, blocks_) SAME_AMONG_BY(got, at_, blocks_, 1)
#define SAME_PLACE(got, at_, phase_) (SAME(got.at, at_), SAME(got.phase, phase_), SAME_HEAD(got.head, 0, 0, 0, 0, 0, 0), SAME(got.blocks, 0))

static void walking(void)
{
    call = "gauge_walk";
    gauge_walked walked = gauge_walk(field_log, LOG, (gauge_cursor){0});
    SAME_WALKED(walked, GAUGE_ACCEPTED, 0, 1, 0, 0, 0, 0);
    SAME_HEAD(walked.head, WIDTH, HEIGHT, N, W, 2, 1);
    SAME_AMONG(walked.next, 8, 0);

    for (uint32_t k = 0; k < 6; k++) {
        call_of("gauge_walk, block", k);
        walked = gauge_walk(field_log, LOG, walked.next);
        SAME_WALKED(walked, GAUGE_ACCEPTED, 0, 2, field_list[3 * k], field_list[3 * k + 1], field_list[3 * k + 2], 0);
        SAME_HEAD(walked.head, 0, 0, 0, 0, 0, 0);
        SAME_AMONG(walked.next, 13 + 5 * k, k + 1);
    }

    call = "gauge_walk";
    gauge_walked refused = gauge_walk(wrong_log, LOG, walked.next);
    SAME_WALKED(refused, GAUGE_LOG_END, 38, 0, 0, 0, 0, 0);
    SAME_HEAD(refused.head, 0, 0, 0, 0, 0, 0);
    SAME_PLACE(refused.next, 38, 3);

    walked = gauge_walk(field_log, LOG, walked.next);
    SAME_WALKED(walked, GAUGE_ACCEPTED, 0, 4, 0, 0, 0, 6);
    SAME_HEAD(walked.head, 0, 0, 0, 0, 0, 0);
    SAME_PLACE(walked.next, LOG, 2);

    walked = gauge_walk(field_log, LOG, walked.next);
    SAME_WALKED(walked, GAUGE_WALK_OVER, 0, 0, 0, 0, 0, 0);
    SAME_HEAD(walked.head, 0, 0, 0, 0, 0, 0);
    SAME_PLACE(walked.next, LOG, 3);

    /* A cursor built by hand: the fifth block of another log, a still one. */
    static const uint8_t other_log[] = {9, 9, 9, 3};
    walked = gauge_walk(other_log, 4, (gauge_cursor){3, 1, {WIDTH, HEIGHT, N, W, 2, 1}, 4});
    SAME_WALKED(walked, GAUGE_ACCEPTED, 0, 3, 0, 0, 0, 0);
    SAME_HEAD(walked.head, 0, 0, 0, 0, 0, 0);
    SAME_AMONG(walked.next, 4, 5);

    /* A cursor of measure 2 goes on with it; one of a number that is none is 34 among the blocks, and only there. */
    call = "gauge_walk, a cursor of measure 2";
    walked = gauge_walk(field_log, LOG, (gauge_cursor){13, 1, {WIDTH, HEIGHT, N, W, 2, 2}, 1});
    SAME_WALKED(walked, GAUGE_ACCEPTED, 0, 2, 2, -5, 1481, 0);
    SAME_HEAD(walked.head, 0, 0, 0, 0, 0, 0);
    SAME_AMONG_BY(walked.next, 18, 2, 2);
    for (size_t i = 0; i < NO_MEASURES; i++) {
        const uint32_t measure = no_measures[i];
        call_of("gauge_walk, a cursor of measure", measure);
        walked = gauge_walk(field_log, LOG, (gauge_cursor){13, 1, {WIDTH, HEIGHT, N, W, 2, measure}, 1});
        SAME_WALKED(walked, GAUGE_WALK_OVER, 0, 0, 0, 0, 0, 0);
        SAME_HEAD(walked.head, 0, 0, 0, 0, 0, 0);
        SAME_PLACE(walked.next, 13, 3);
        walked = gauge_walk(field_log, LOG, (gauge_cursor){0, 0, {0, 0, 0, 0, 0, measure}, 0});
        SAME_WALKED(walked, GAUGE_ACCEPTED, 0, 1, 0, 0, 0, 0);
        SAME_HEAD(walked.head, WIDTH, HEIGHT, N, W, 2, 1);
        SAME_AMONG(walked.next, 8, 0);
        walked = gauge_walk(field_log, LOG, (gauge_cursor){LOG, 2, {0, 0, 0, 0, 0, measure}, 0});
        SAME_WALKED(walked, GAUGE_WALK_OVER, 0, 0, 0, 0, 0, 0);
        SAME_PLACE(walked.next, LOG, 3);
    }
}

/* ---- logs with every command: the fields of blocks of 32 */

static const uint8_t large_log[] = {
    1, 0, 109, 0,   71,  32,  9,   1,                  /* head, at 0 */
    3, 2, 2,   251, 24,  173, 2,   2,   251, 23,  112, /* still block at 8, blocks at 9, 14 */
    2, 0, 0,   42,  141, 2,   2,   251, 24,  131,      /* at 19, 24 */
    5, 6, 247, 0,   1,   143, 197,                     /* block of four bytes' distortion, at 29 */
    4, 0, 0,   0,   6,                                 /* end, at 36 */
};
static const uint8_t squares_log[] = {
    6, 0,   109, 0,   71,  32,  9,   1, 2,             /* head with its measure, at 0 */
    3, 2,   2,   251, 207, 107, 2,   2, 251, 194, 156, /* still block at 9, blocks at 10, 15 */
    5, 249, 0,   0,   2,   198, 152,                   /* block of four bytes' distortion, at 20 */
    2, 2,   251, 205, 7,                               /* at 27 */
    5, 6,   247, 0,   179, 189, 247,                   /* at 32 */
    4, 0,   0,   0,   6,                               /* end, at 39 */
};
static const char large_text[] = "109 71 32 9 1\n0 0 0\n2 -5 6317\n2 -5 6000\n0 0 10893\n2 -5 6275\n6 -9 102341\nend 6\n";
static const char squares_text[] = "109 71 32 9 1 2\n0 0 0\n2 -5 53099\n2 -5 49820\n-7 0 181912\n2 -5 52487\n6 -9 11779575\nend 6\n";

/* By absolute and by squares: the log, its text, its commands and where each ends. */
static const struct {
    const uint8_t *log;
    size_t length;
    const char *text;
    uint32_t commands[8];
    size_t ends[8];
} large_logs[2] = {
    {large_log, sizeof large_log, large_text, {1, 3, 2, 2, 2, 2, 5, 4}, {8, 9, 14, 19, 24, 29, 36, 41}},
    {squares_log, sizeof squares_log, squares_text, {6, 3, 2, 2, 5, 2, 5, 4}, {9, 10, 15, 20, 27, 32, 39, 44}},
};

static void every_command(void)
{
    for (uint32_t measure = 1; measure <= 2; measure++) {
        const int32_t *const numbers = large_lists[measure - 1];
        const gauge_head large_head = {LARGE_WIDTH, LARGE_HEIGHT, LARGE_N, W, 1, measure};
        const uint8_t *const log = large_logs[measure - 1].log;
        const size_t length = large_logs[measure - 1].length;

        call_of("gauge_write_log, N 32, measure", measure);
        lend();
        gauge_written written = gauge_write_log(large_head, numbers, LIST, buffer, sizeof buffer);
        SAME_PART(written, GAUGE_ACCEPTED, 0, length);
        EACH(buffer, 0, length, log[i]);
        EACH(buffer, length, sizeof buffer, BYTE);
        lend();
        written = gauge_write_log(large_head, numbers, LIST, buffer, length - 1);
        SAME_PART(written, GAUGE_SHORT_BUFFER, 0, 0);
        ALL_KEPT();

        call_of("gauge_read_log, N 32, measure", measure);
        gauge_log_read read = gauge_read_log(log, length, list, LIST + MORE);
        SAME(read.refusal, GAUGE_ACCEPTED);
        SAME(read.place, 0);
        SAME_HEAD(read.head, LARGE_WIDTH, LARGE_HEIGHT, LARGE_N, W, 1, measure);
        EACH(list, 0, LIST, numbers[i]);
        EACH(list, LIST, LIST + MORE, NUMBER);
        lend();
        read = gauge_read_log(log, length, list, LIST - 1);
        SAME(read.refusal, GAUGE_SHORT_LIST);
        SAME(read.place, measure == 1 ? 8 : 9);
        SAME_HEAD(read.head, 0, 0, 0, 0, 0, 0);
        ALL_KEPT();

        call_of("gauge_print_log, N 32, measure", measure);
        const char *const text = large_logs[measure - 1].text;
        SAME(gauge_print_log(log, length, buffer, sizeof buffer), strlen(text));
        EACH(buffer, 0, strlen(text), text[i]);
        EACH(buffer, strlen(text), sizeof buffer, BYTE);

        gauge_cursor cursor = {0};
        for (uint32_t k = 0; k < 8; k++) {
            call_of("gauge_walk, command", k);
            gauge_walked walked = gauge_walk(log, length, cursor);
            const uint32_t command = large_logs[measure - 1].commands[k];
            const bool is_head = k == 0, is_end = k == 7;
            const int32_t *const block = numbers + 3 * (is_head || is_end ? 0 : k - 1);
            SAME_WALKED(walked, GAUGE_ACCEPTED, 0, command, block[0], block[1], block[2], is_end ? 6 : 0);
            if (is_head)
                SAME_HEAD(walked.head, LARGE_WIDTH, LARGE_HEIGHT, LARGE_N, W, 1, measure);
            else
                SAME_HEAD(walked.head, 0, 0, 0, 0, 0, 0);
            cursor = walked.next;
            SAME(cursor.at, large_logs[measure - 1].ends[k]);
            SAME(cursor.phase, is_end ? 2 : 1);
            SAME(cursor.blocks, is_end ? 0 : k);
            if (is_end)
                SAME_HEAD(cursor.head, 0, 0, 0, 0, 0, 0);
            else
                SAME_HEAD(cursor.head, LARGE_WIDTH, LARGE_HEIGHT, LARGE_N, W, 1, measure);
        }
        SAME(gauge_walk(log, length, cursor).refusal, GAUGE_WALK_OVER);
    }

    /* A list that squares may have, but absolute differences may not: the last block. */
    call = "gauge_write_log, a distortion by N and measure";
    lend();
    gauge_written written = gauge_write_log((gauge_head){LARGE_WIDTH, LARGE_HEIGHT, LARGE_N, W, 1, 1}, large_lists[1], LIST, buffer, sizeof buffer);
    SAME_PART(written, GAUGE_LOG_BLOCK, 5, 0);
    ALL_KEPT();
}

/* A log that is refused so: by reading, which leaves the list alone, by a walk, and in the last line of its text. */
static void log_refused(const uint8_t *log, size_t length, uint32_t refusal, size_t place)
{
    lend();
    gauge_log_read read = gauge_read_log(log, length, list, LIST);
    SAME(read.refusal, refusal);
    SAME(read.place, place);
    SAME_HEAD(read.head, 0, 0, 0, 0, 0, 0);
    ALL_KEPT();
    gauge_walked walked = gauge_walk(log, length, (gauge_cursor){0});
    for (int k = 0; k < 8 && walked.refusal == GAUGE_ACCEPTED; k++)
        walked = gauge_walk(log, length, walked.next);
    SAME_WALKED(walked, refusal, place, 0, 0, 0, 0, 0);
    SAME_PLACE(walked.next, place, 3);
    char line[50];
    const size_t size = (size_t)snprintf(line, sizeof line, "refused %u at %zu\n", (unsigned)refusal, place);
    const size_t all = gauge_print_log(log, length, buffer, sizeof buffer);
    SAME(all >= size && memcmp(buffer + all - size, line, size) == 0, true);
}

/* The log by squares with these bytes from a place on. */
static void changed_refused(size_t at, const uint8_t *bytes, size_t count, uint32_t refusal, size_t place)
{
    uint8_t log[sizeof squares_log];
    memcpy(log, squares_log, sizeof log);
    memcpy(log + at, bytes, count);
    log_refused(log, sizeof log, refusal, place);
}

static void commands_5_and_6_refused(void)
{
    /* Cut off at each byte: at the command that is not complete. */
    for (size_t length = 0; length < sizeof squares_log; length++) {
        call_of("a log cut off at", (uint32_t)length);
        size_t place = 0;
        for (size_t k = 0; k < 8; k++)
            if (large_logs[1].ends[k] <= length)
                place = large_logs[1].ends[k];
        log_refused(squares_log, length, GAUGE_LOG_CUT, place);
    }
    for (uint32_t measure = 0; measure <= 255; measure++)
        if (measure != 2) {
            call_of("command 6 with measure", measure);
            changed_refused(8, (uint8_t[]){(uint8_t)measure}, 1, GAUGE_LOG_HEAD, 0);
        }
    for (uint32_t command = 0; command <= 255; command++) {
        call_of("command", command);
        const uint8_t byte = (uint8_t)command;
        if (command != 1 && command != 6)
            changed_refused(0, &byte, 1, GAUGE_LOG_COMMAND, 0);
        if (command != 2 && command != 3 && command != 5)
            changed_refused(20, &byte, 1, GAUGE_LOG_COMMAND, 20);
        if (command != 4)
            changed_refused(39, &byte, 1, GAUGE_LOG_COMMAND, 39);
    }
    call = "command 5, a distortion of 0, 65,535 and 65,025 x 32 x 32 + 1, and one that a sign would make negative";
    changed_refused(23, (uint8_t[]){0, 0, 0, 0}, 4, GAUGE_LOG_BLOCK, 20);
    changed_refused(23, (uint8_t[]){0, 0, 255, 255}, 4, GAUGE_LOG_BLOCK, 20);
    changed_refused(23, (uint8_t[]){3, 248, 4, 1}, 4, GAUGE_LOG_BLOCK, 20);
    changed_refused(23, (uint8_t[]){128, 0, 0, 0}, 4, GAUGE_LOG_BLOCK, 20);
    call = "command 5, (0,0) with distortion 0, and a vector";
    changed_refused(21, (uint8_t[]){0, 0, 0, 0, 0, 0}, 6, GAUGE_LOG_BLOCK, 20);
    changed_refused(21, (uint8_t[]){10}, 1, GAUGE_LOG_BLOCK, 20);

    call = "command 5, just above 65,535 and just the largest, read and written back";
    static const uint8_t ends[2][4] = {{0, 1, 0, 0}, {3, 248, 4, 0}};
    for (size_t k = 0; k < 2; k++) {
        uint8_t log[sizeof squares_log];
        memcpy(log, squares_log, sizeof log);
        memcpy(log + 23, ends[k], 4);
        lend();
        gauge_log_read read = gauge_read_log(log, sizeof log, list, LIST);
        SAME(read.refusal, GAUGE_ACCEPTED);
        SAME(list[11], k == 0 ? 65536 : 66585600);
        SAME(gauge_write_log(read.head, list, LIST, buffer, sizeof log).length, sizeof log);
        EACH(buffer, 0, sizeof log, log[i]);
    }

    /* A head of command 6 in the place of one of command 1 has the still block's byte for its measure; the other way round the measure, 2, begins a
     * block of five bytes. */
    call = "the other head";
    uint8_t log[sizeof squares_log];
    memcpy(log, large_log, sizeof large_log);
    log[0] = 6;
    log_refused(log, sizeof large_log, GAUGE_LOG_HEAD, 0);
    memcpy(log, squares_log, sizeof log);
    log[0] = 1;
    log_refused(log, sizeof log, GAUGE_LOG_COMMAND, 13);
}

/* ---- what the header has besides calls */

static void lengths(void)
{
    call = "the macros";
    SAME(GAUGE_LIST_LENGTH(WIDTH, HEIGHT, N), LIST);
    SAME(GAUGE_LIST_LENGTH(50 + 7, 30 + 7, 8 + 8), LIST);
    SAME(GAUGE_LIST_LENGTH(1024, 1024, 4), 196608);
    SAME(GAUGE_LIST_LENGTH(1024, 1024, 32), 3072);
    SAME(GAUGE_TABLE_LENGTH(WIDTH, HEIGHT), TABLE);
    SAME(GAUGE_TABLE_LENGTH(50 + 7, 30 + 7), TABLE);
    SAME(GAUGE_TABLE_LENGTH(1024, 1024), 1050625);
    SAME(GAUGE_LOG_MOST(WIDTH, HEIGHT, N), 56);
    SAME(GAUGE_LOG_MOST(50 + 7, 30 + 7, 8 + 8), 56);
    SAME(GAUGE_LOG_MOST(1024, 1024, 4), 458766);
    SAME(GAUGE_LOG_MOST(1024, 1024, 32), 7182);
    SAME(GAUGE_TEXT_MOST, 393236);
    SAME(GAUGE_HELD_MOST, 64);
}

static const struct {
    enum gauge_refusal refusal;
    uint32_t number;
} refusals[] = {
    {GAUGE_ACCEPTED, 0},      {GAUGE_BAD_SIZE, 1},      {GAUGE_BAD_FRAME, 2},   {GAUGE_BAD_N, 3},          {GAUGE_BAD_SEARCH, 4},
    {GAUGE_BAD_WINDOW, 5},    {GAUGE_BAD_THRESHOLD, 6}, {GAUGE_BAD_PLACE, 7},   {GAUGE_NO_CANDIDATE, 8},   {GAUGE_SHORT_TABLE, 9},
    {GAUGE_SHORT_LIST, 10},   {GAUGE_BAD_HOME, 11},     {GAUGE_BAD_SIDE, 12},   {GAUGE_LOG_CUT, 13},       {GAUGE_LOG_COMMAND, 14},
    {GAUGE_LOG_HEAD, 15},     {GAUGE_LOG_BLOCK, 16},    {GAUGE_LOG_END, 17},    {GAUGE_LOG_AFTER_END, 18}, {GAUGE_SHORT_BUFFER, 19},
    {GAUGE_LOG_TOO_LONG, 20}, {GAUGE_NOT_HOMED, 31},    {GAUGE_STEPS_OVER, 32}, {GAUGE_OUT_OF_RANGE, 33},  {GAUGE_WALK_OVER, 34},
    {GAUGE_BAD_MEASURE, 51},  {GAUGE_NO_VOTER, 52},
};
enum { REFUSALS = sizeof refusals / sizeof *refusals };

/* Every number has a text; every refusal one of its own; all other numbers the same one. */
static void texts(void)
{
    call = "gauge_refusal_text";
    const char *unknown = gauge_refusal_text(UINT32_MAX);
    SAME(unknown != NULL && *unknown != 0, true);
    SAME(strcmp(gauge_refusal_text(0), "accepted"), 0);
    SAME(REFUSALS, 27);
    for (size_t i = 0; i < REFUSALS; i++) {
        call_of("gauge_refusal_text", refusals[i].number);
        SAME(refusals[i].refusal, refusals[i].number);
        const char *text = gauge_refusal_text(refusals[i].number);
        SAME(text != NULL && *text != 0, true);
        SAME(strcmp(text, unknown) == 0, false);
        for (size_t j = 0; j < i; j++)
            SAME(strcmp(text, gauge_refusal_text(refusals[j].number)) == 0, false);
    }
    static const uint32_t others[] = {21, 22, 25, 30, 35, 36, 50, 53, 255, 256, 257, 307, 308, 65536, 1u << 31};
    for (size_t i = 0; i < sizeof others / sizeof *others; i++) {
        call_of("gauge_refusal_text", others[i]);
        SAME(strcmp(gauge_refusal_text(others[i]), unknown), 0);
    }
}

int main(void)
{
    take_pictures();
    take_large_pictures();
    take_small_pictures();
    memcpy(wrong_log, field_log, LOG);
    wrong_log[LOG - 1] = 5;
    measuring();
    row_view();
    searching();
    searching_half();
    fields();
    homing();
    stepping();
    large_block();
    large_field();
    no_voters();
    blank_blocks();
    one_pel_votes();
    last_travels();
    every_number_held();
    parts_by_hand();
    sums_by_hand();
    numbers_by_hand();
    largest_distortions();
    one_pel();
    ceilings();
    measures_refused();
    thresholds();
    half_pels();
    half_beyond_window();
    half_refused();
    writing();
    reading();
    printing();
    walking();
    every_command();
    commands_5_and_6_refused();
    lengths();
    texts();
    printf("gauge.h: %d checks, %d failed\n", checks, failures);
    return failures != 0;
}
