/* Fields of vectors, N 16, then N 32, then N 8, by all four searches: full, pruned and cross with w 16, four-step with w 7, T 0; and the pruned
 * search of the same blocks one by one, to whole pels and to half a pel: `half pel to whole` is the time of the latter in multiples of the former's,
 * so 1.25 is a quarter more. Another field by cross has T 261,120 and so ends at each block's first probe: what it takes of the pruned field's time
 * is one distortion, the voters' pass and the storing of a block together, and more than the pass alone. Beside the gauge run two full searches in C
 * over the same grid: plain scalar code that leaves a candidate as soon as it cannot win, and SSE2 (psadbw). All these are by absolute; a second
 * table has full and pruned by squares beside SSE2 code for squares (pmaddwd): one search that measures every candidate to its last row, as the one
 * by psadbw does, and one that looks after every fourth row whether the candidate can still win. All take turns, plain C, mostly by far the slowest,
 * every fourth time; the best of the turns counts, in processor time. Prints speeds as multiples of plain C's with the same N, by absolute, in both
 * tables: the larger, the faster. By each measure the C searches, search 1 and search 2 must agree on every block, the half pels must be those that C
 * finds around the whole ones, and each field's reading must be what C makes of its list. With the word `check` it looks at that alone, in small
 * pictures, and prints no speed.
 *
 * Paper is made here: smoothed noise with fibres. The newer picture is the older one moved by a known vector, and each has sensor noise of its own:
 * noise of 2 grey levels is noise whose standard deviation is 2. Noise raises the least distortion, so search 2's coarse tests drop fewer candidates,
 * the fewer the less contrast the paper has. So fibres and plain paper stand here with noise of 2 and of 5 grey levels, nearly normal: noisy fibres
 * have 5. The rows that name no noise have even noise of -3 .. 3, that is of 2 grey levels too.
 *
 * `basic ops` is the yardstick of Mohammad Gharavi-Alkhansari, "A fast motion estimation algorithm equivalent to exhaustive search", Table 2. A
 * basic operation is one term of a distance's sum, so a test at m takes (N / m)^2 of them and a final measurement N^2; the making of the sums and
 * measurements only for E are not counted. The exhaustive search takes N^2 for each candidate. So that paper's 0.0275, of a video sequence with
 * p = 2, is (11,441,196 + 4 x 3,912,397 + 16 x 920,769 + 64 x 239,933 + 256 x 91,246) / (256 x 11,441,196). */
#include "common.h"
#include "gauge.h"
#include <emmintrin.h>
#include <stdbool.h>
#include <stdio.h>
#include <stdlib.h>
#include <string.h>

enum { W = 16, SIDE = 1024, MARGIN = 32, SHEET = SIDE + 2 * MARGIN, BLOCKS = (SIDE / 8) * (SIDE / 8) };

/* ---- paper */

static int clip(int a)
{
    return a < 0 ? 0 : a > 255 ? 255 : a;
}

/* A kind of paper: the grey of the ground, its contrast in 1/16, the number of fibres and how much they darken or lighten it. The ground's standard
 * deviation is 14 grey levels at contrast 16. Plain paper has 11, and few, faint fibres: it was made so that search 2 took about as long beside
 * search 1 as it was seen to take on real papers, 1.2 times search 1's time with noise of 2 grey levels and 2.3 times with noise of 5, when search 1
 * measured every block to its end. */
struct paper {
    int ground, contrast, fibres, shade;
};

static const struct paper FIBRES = {128, 16, 7700, 60}, TRACING = {210, 2, 400, 8}, PLAIN_PAPER = {200, 13, 400, 12};

/* A kind of sensor noise: the sum of so many random numbers, each of -most .. most. Its standard deviation is the root of
 * terms x most x (most + 1) / 3: that is 2 of one number of -3 .. 3, and 2 and 4.9 of six, which are nearly normal. */
struct noise {
    int terms, most;
};

static const struct noise EVEN_2 = {1, 3}, NOISE_2 = {6, 1}, NOISE_5 = {6, 3};

/* A sheet larger than any picture: noise smoothed three times, then fibres, each a line of one to two pels that bends a little. */
static void make_sheet(struct paper p, int *sheet)
{
    static int noise[SHEET * SHEET];
    for (int i = 0; i < SHEET * SHEET; i++)
        sheet[i] = random_below(256);
    for (int pass = 0; pass < 3; pass++) {
        memcpy(noise, sheet, sizeof noise);
        for (int y = 1; y + 1 < SHEET; y++)
            for (int x = 1; x + 1 < SHEET; x++) {
                int sum = 0;
                for (int i = -1; i <= 1; i++)
                    for (int j = -1; j <= 1; j++)
                        sum += noise[(y + i) * SHEET + x + j];
                sheet[y * SHEET + x] = sum / 9;
            }
    }
    for (int i = 0; i < SHEET * SHEET; i++)
        sheet[i] = p.ground + (sheet[i] - 128) * p.contrast / 16;
    for (int fibre = 0; fibre < p.fibres; fibre++) {
        int y = random_below(SHEET) * 16, x = random_below(SHEET) * 16;
        int dy = random_below(33) - 16, dx = random_below(33) - 16, shade = random_below(2) ? p.shade : -p.shade;
        for (int step = 0; step < 40; step++, y += dy, x += dx) {
            dy += random_below(3) - 1;
            dx += random_below(3) - 1;
            int r = y / 16, c = x / 16;
            if (r > 0 && r + 1 < SHEET && c > 0 && c + 1 < SHEET) {
                sheet[r * SHEET + c] += shade;
                sheet[r * SHEET + c + 1] += shade / 2;
            }
        }
    }
}

static int sensor_noise(struct noise n)
{
    int sum = 0;
    for (int i = 0; i < n.terms; i++)
        sum += random_below((uint32_t)(2 * n.most + 1)) - n.most;
    return sum;
}

/* The sheet seen from (top, left), with sensor noise; columns from `blank` on are white. */
static void photograph(const int *sheet, struct noise n, int top, int left, int width, int height, int blank, uint8_t *frame)
{
    for (int y = 0; y < height; y++)
        for (int x = 0; x < width; x++) {
            int noise = sensor_noise(n);
            frame[y * width + x] = (uint8_t)(x < blank ? clip(sheet[(top + y) * SHEET + left + x] + noise) : 255);
        }
}

/* ---- full searches in C */

struct best {
    int32_t dy, dx, distortion;
};

static int before(int dy, int dx, const struct best *b)
{
    int s = abs(dy) + abs(dx), t = abs(b->dy) + abs(b->dx);
    return s != t ? s < t : dy != b->dy ? dy < b->dy : dx < b->dx;
}

/* Distortions of blocks of N 8, 16 or 32. Each is inlined where N is written out. */
#define DISTORTION __attribute__((always_inline)) static inline int

/* A row by parts of 16 pels, or 8 where N is 8: with 32 in one loop the compiler would make vector code of it. */
DISTORTION plain_distortion(const uint8_t *a, const uint8_t *b, int width, int n, int limit)
{
    const int part = n < 16 ? n : 16;
    int sum = 0;
    for (int i = 0; i < n; i++, a += width, b += width) {
        for (int j = 0; j < n; j += part)
            for (int k = j; k < j + part; k++)
                sum += abs(a[k] - b[k]);
        if (sum > limit)
            break;
    }
    return sum;
}

/* 16 pels of a row, or 8 with zeros behind them where N is 8. */
static __m128i load(const uint8_t *a, int n)
{
    return n == 8 ? _mm_loadl_epi64((const void *)a) : _mm_loadu_si128((const void *)a);
}

DISTORTION sse2_distortion(const uint8_t *a, const uint8_t *b, int width, int n, int limit)
{
    (void)limit;
    __m128i sum = _mm_setzero_si128();
    for (int i = 0; i < n; i++, a += width, b += width)
        for (int j = 0; j < n; j += 16)
            sum = _mm_add_epi64(sum, _mm_sad_epu8(load(a + j, n), load(b + j, n)));
    return _mm_cvtsi128_si32(sum) + (n == 8 ? 0 : _mm_cvtsi128_si32(_mm_srli_si128(sum, 8)));
}

/* The squared differences of as many pels, in four sums. */
static __m128i squares(const uint8_t *a, const uint8_t *b, int n)
{
    const __m128i zero = _mm_setzero_si128(), p = load(a, n), q = load(b, n);
    __m128i left = _mm_sub_epi16(_mm_unpacklo_epi8(p, zero), _mm_unpacklo_epi8(q, zero));
    if (n == 8)
        return _mm_madd_epi16(left, left);
    __m128i right = _mm_sub_epi16(_mm_unpackhi_epi8(p, zero), _mm_unpackhi_epi8(q, zero));
    return _mm_add_epi32(_mm_madd_epi16(left, left), _mm_madd_epi16(right, right));
}

static int sum_of_four(__m128i sums)
{
    sums = _mm_add_epi32(sums, _mm_srli_si128(sums, 8));
    return _mm_cvtsi128_si32(_mm_add_epi32(sums, _mm_srli_si128(sums, 4)));
}

DISTORTION pmaddwd_distortion(const uint8_t *a, const uint8_t *b, int width, int n, int limit)
{
    (void)limit;
    __m128i sums = _mm_setzero_si128();
    for (int i = 0; i < n; i++, a += width, b += width)
        for (int j = 0; j < n; j += 16)
            sums = _mm_add_epi32(sums, squares(a + j, b + j, n));
    return sum_of_four(sums);
}

DISTORTION stopping_distortion(const uint8_t *a, const uint8_t *b, int width, int n, int limit)
{
    __m128i sums = _mm_setzero_si128();
    int sum = 0;
    for (int i = 0; i < n && sum <= limit; i += 4) {
        for (int row = 0; row < 4; row++, a += width, b += width)
            for (int j = 0; j < n; j += 16)
                sums = _mm_add_epi32(sums, squares(a + j, b + j, n));
        sum = sum_of_four(sums);
    }
    return sum;
}

#define FULL_SEARCH(name, distortion_of, n)                                                                                        \
    __attribute__((noipa)) static struct best name(const uint8_t *o, const uint8_t *a, int width, int height, int w, int y, int x) \
    {                                                                                                                              \
        o += y * width + x;                                                                                                        \
        a += y * width + x;                                                                                                        \
        struct best b = {0, 0, distortion_of(a, o, width, n, INT32_MAX)};                                                          \
        int top = y < w ? -y : -w, bottom = height - n - y < w ? height - n - y : w;                                               \
        int left = x < w ? -x : -w, right = width - n - x < w ? width - n - x : w;                                                 \
        for (int dy = top; dy <= bottom; dy++)                                                                                     \
            for (int dx = left; dx <= right; dx++) {                                                                               \
                int d = distortion_of(a, o + dy * width + dx, width, n, b.distortion);                                             \
                if (d < b.distortion || (d == b.distortion && before(dy, dx, &b)))                                                 \
                    b = (struct best){dy, dx, d};                                                                                  \
            }                                                                                                                      \
        return b;                                                                                                                  \
    }

FULL_SEARCH(plain_8, plain_distortion, 8)
FULL_SEARCH(plain_16, plain_distortion, 16)
FULL_SEARCH(plain_32, plain_distortion, 32)
FULL_SEARCH(sse2_8, sse2_distortion, 8)
FULL_SEARCH(sse2_16, sse2_distortion, 16)
FULL_SEARCH(sse2_32, sse2_distortion, 32)
FULL_SEARCH(pmaddwd_8, pmaddwd_distortion, 8)
FULL_SEARCH(pmaddwd_16, pmaddwd_distortion, 16)
FULL_SEARCH(pmaddwd_32, pmaddwd_distortion, 32)
FULL_SEARCH(stopping_8, stopping_distortion, 8)
FULL_SEARCH(stopping_16, stopping_distortion, 16)
FULL_SEARCH(stopping_32, stopping_distortion, 32)

/* ---- the turns */

enum { PLAIN, SSE2, PMADDWD, STOPPING, SINGLE, HALF, FULL, PRUNED, FOUR_STEP, CROSS, FIRST_PROBE, FULL_SQUARES, PRUNED_SQUARES, RUNS };

/* Search, w, T and measure of the fields, from FULL on. */
static const struct {
    uint32_t search;
    size_t w;
    uint32_t t, measure;
} fields[] = {{1, W, 0, 1}, {2, W, 0, 1}, {3, 7, 0, 1}, {4, W, 0, 1}, {4, W, 261120, 1}, {1, W, 0, 2}, {2, W, 0, 2}};

static bool checking;
static int width, height, n;
static uint8_t older[SIDE * SIDE], newer[SIDE * SIDE];
static struct best list[RUNS][BLOCKS], halves[BLOCKS];
static uint32_t table[(SIDE + 1) * (SIDE + 1)];
static gauge_field_answer answer[RUNS];

/* A search of one block, in C or search 2: what it finds in whole pels, and with HALF in half pels too. */
static struct best search_block(int r, int y, int x, struct best *half)
{
    static struct best (*const searches[][3])(const uint8_t *, const uint8_t *, int, int, int, int, int) = {
        [PLAIN] = {plain_8, plain_16, plain_32},
        [SSE2] = {sse2_8, sse2_16, sse2_32},
        [PMADDWD] = {pmaddwd_8, pmaddwd_16, pmaddwd_32},
        [STOPPING] = {stopping_8, stopping_16, stopping_32}};
    if (r < SINGLE)
        return searches[r][n / 16](older, newer, width, height, W, y, x);
    gauge_request request = {(size_t)width, (size_t)height, (size_t)n, 2, W, 0, 1};
    size_t length = (size_t)(width * height);
    gauge_found f;
    if (r == HALF) {
        gauge_half h = gauge_search_half(older, length, newer, length, request, (size_t)y, (size_t)x);
        *half = (struct best){h.half_dy, h.half_dx, (int32_t)h.half_distortion};
        f = h.found;
    } else
        f = gauge_search_block(older, length, newer, length, request, (size_t)y, (size_t)x);
    return (struct best){f.dy, f.dx, (int32_t)f.distortion};
}

/* The searches of single blocks go over the grid here, those of fields by themselves. */
static void run(int r)
{
    if (r < FULL) {
        int k = 0;
        for (int y = 0; y + n <= height; y += n)
            for (int x = 0; x + n <= width; x += n, k++)
                list[r][k] = search_block(r, y, x, &halves[k]);
        return;
    }
    int f = r - FULL;
    gauge_request request = {(size_t)width, (size_t)height, (size_t)n, fields[f].search, fields[f].w, fields[f].t, fields[f].measure};
    size_t length = (size_t)(width * height);
    answer[r] = gauge_field(older, length, newer, length, request, &list[r][0].dy, 3 * BLOCKS, table, sizeof table / sizeof table[0]);
}

/* The basic operations of a run of search 2, as a part of the exhaustive search's. */
static double basic_operations(int r)
{
    double sum = 0;
    for (int i = 0, m = 32; i < 6; i++, m /= 2)
        sum += (double)((n / m) * (n / m)) * answer[r].counts[i];
    return sum / (n * n * (double)answer[FULL].counts[5]);
}

/* Whether a run has the list of another. */
static bool agree(int r, int other)
{
    return memcmp(list[r], list[other], (size_t)((width / n) * (height / n)) * sizeof list[r][0]) == 0;
}

/* The older frame's value at a row and a column in half pels, of four pels: between two of them each stands twice, at one it stands four times. */
static int between(int half_row, int half_column)
{
    const uint8_t *above = older + half_row / 2 * width + half_column / 2, *below = above + half_row % 2 * width;
    int right = half_column % 2;
    return (above[0] + above[right] + below[0] + below[right] + 2) / 4;
}

/* Whether the half pels of a run are those that C finds around its whole ones: the least distortion, equals by the order of offsets. */
static bool are_least_halves(int r)
{
    static const int offsets[8][2] = {{-1, 0}, {0, -1}, {0, 1}, {1, 0}, {-1, -1}, {-1, 1}, {1, -1}, {1, 1}};
    int k = 0;
    for (int y = 0; y + n <= height; y += n)
        for (int x = 0; x + n <= width; x += n, k++) {
            struct best centre = {2 * list[r][k].dy, 2 * list[r][k].dx, list[r][k].distortion}, b = centre;
            for (int o = 0; o < 8; o++) {
                int dy = centre.dy + offsets[o][0], dx = centre.dx + offsets[o][1], top = 2 * y + dy, left = 2 * x + dx, sum = 0;
                if (top < 0 || left < 0 || top > 2 * (height - n) || left > 2 * (width - n))
                    continue;
                for (int i = 0; i < n; i++)
                    for (int j = 0; j < n; j++)
                        sum += abs(newer[(y + i) * width + x + j] - between(top + 2 * i, left + 2 * j));
                if (sum < b.distortion)
                    b = (struct best){dy, dx, sum};
            }
            if (memcmp(&b, &halves[k], sizeof b) != 0)
                return false;
        }
    return true;
}

/* Whether the largest newer pel of a block exceeds its smallest by 8 or more. */
static bool is_voter(int y, int x)
{
    int least = 255, most = 0;
    for (int i = 0; i < n; i++)
        for (int j = 0; j < n; j++) {
            int pel = newer[(y + i) * width + x + j];
            least = pel < least ? pel : least;
            most = pel > most ? pel : most;
        }
    return most - least >= 8;
}

/* Whether a field's reading is the vector that most voters of its list have, equals by the order of vectors, with its votes and the voters. */
static bool reads_its_list(int r)
{
    static uint32_t having[2 * W + 1][2 * W + 1];
    memset(having, 0, sizeof having);
    struct best reading = {0, 0, 0};
    uint32_t votes = 0, voters = 0;
    int k = 0;
    for (int y = 0; y + n <= height; y += n)
        for (int x = 0; x + n <= width; x += n, k++)
            if (is_voter(y, x)) {
                voters++;
                having[list[r][k].dy + W][list[r][k].dx + W]++;
            }
    for (int dy = -W; dy <= W; dy++)
        for (int dx = -W; dx <= W; dx++) {
            uint32_t these = having[dy + W][dx + W];
            if (these > votes || (these > 0 && these == votes && before(dy, dx, &reading))) {
                reading = (struct best){dy, dx, 0};
                votes = these;
            }
        }
    return answer[r].dy == reading.dy && answer[r].dx == reading.dx && answer[r].votes == votes && answer[r].voters == voters;
}

/* The lines of the second table, until the first is done. */
static struct {
    const char *name;
    double seconds[RUNS], operations;
} lines[16];
static int line_count;

/* A pair in which the paper has moved by (dy, dx): one line of each table, or none when checking. */
static int pair(const char *name, const int *sheet, struct noise noise, int dy, int dx, int blank, int turns)
{
    double *seconds = lines[line_count].seconds;
    photograph(sheet, noise, MARGIN, MARGIN, width, height, blank, older);
    photograph(sheet, noise, MARGIN - dy, MARGIN - dx, width, height, blank, newer);
    for (int turn = 0; turn < turns; turn++)
        for (int r = turn % 4 == 0 ? PLAIN : SSE2; r < RUNS; r++) {
            double begun = now();
            run(r);
            double taken = now() - begun;
            if (turn == 0 || taken < seconds[r])
                seconds[r] = taken;
        }
    for (int r = FULL; r < RUNS; r++) {
        if (answer[r].refusal != 0) {
            printf("%s: a field is refused by %u\n", name, (unsigned)answer[r].refusal);
            return 1;
        }
        if (!reads_its_list(r)) {
            printf("%s: the reading is not that of the voters\n", name);
            return 1;
        }
    }
    if (!agree(SSE2, PLAIN) || !agree(SINGLE, PLAIN) || !agree(HALF, PLAIN) || !agree(FULL, PLAIN) || !agree(PRUNED, PLAIN)) {
        printf("%s: the searches differ\n", name);
        return 1;
    }
    if (!agree(STOPPING, PMADDWD) || !agree(FULL_SQUARES, PMADDWD) || !agree(PRUNED_SQUARES, PMADDWD)) {
        printf("%s: the searches by squares differ\n", name);
        return 1;
    }
    if (!are_least_halves(HALF)) {
        printf("%s: the half pels differ\n", name);
        return 1;
    }
    if (checking)
        return 0;
    lines[line_count].name = name;
    lines[line_count++].operations = basic_operations(PRUNED_SQUARES);
    printf("%-27s %6.1f %6.1f %6.1f %6.1f %6.0f %6.0f %8.2f %8.2f %9.4f %9.2f %9.2f\n", name, seconds[PLAIN] / seconds[SSE2],
           seconds[PLAIN] / seconds[FULL], seconds[PLAIN] / seconds[PRUNED], seconds[PLAIN] / seconds[SINGLE], seconds[PLAIN] / seconds[FOUR_STEP],
           seconds[PLAIN] / seconds[CROSS], seconds[SSE2] / seconds[FULL], seconds[FULL] / seconds[PRUNED], basic_operations(PRUNED),
           100 * seconds[FIRST_PROBE] / seconds[PRUNED], seconds[HALF] / seconds[SINGLE]);
    return 0;
}

static void squares_table(void)
{
    printf("\n%4d x %-4d by squares      pmaddwd  C that      1      2     1 to     1 to     2 to     basic\n", width, height);
    printf("N %-2d                              C   stops   full pruned  pmaddwd    stops        1       ops\n", n);
    for (int i = 0; i < line_count; i++) {
        const double *seconds = lines[i].seconds;
        printf("%-27s %7.1f %7.1f %6.1f %6.1f %8.2f %8.2f %8.2f %9.4f\n", lines[i].name, seconds[PLAIN] / seconds[PMADDWD],
               seconds[PLAIN] / seconds[STOPPING], seconds[PLAIN] / seconds[FULL_SQUARES], seconds[PLAIN] / seconds[PRUNED_SQUARES],
               seconds[PMADDWD] / seconds[FULL_SQUARES], seconds[STOPPING] / seconds[FULL_SQUARES], seconds[FULL_SQUARES] / seconds[PRUNED_SQUARES],
               lines[i].operations);
    }
    line_count = 0;
}

/* All papers in pictures of one size, by one N. Plain paper is made last, so that the five pictures before it do not hang on it. */
static int papers(int w, int h, int block_size, int turns)
{
    static int fibres[SHEET * SHEET], tracing[SHEET * SHEET], plain_paper[SHEET * SHEET];
    static bool made;
    if (!made) {
        make_sheet(FIBRES, fibres);
        make_sheet(TRACING, tracing);
    }
    width = w;
    height = h;
    n = block_size;
    if (!checking) {
        printf("\n%4d x %-4d                 psadbw      1      2  2 one      3      4     1 to     2 to     basic   1 probe  half pel\n", width,
               height);
        printf("N %-2d                             C   full pruned by one 4-step  cross   psadbw        1       ops   to 2, %%  to whole\n", n);
    }
    if (pair("moved fibres (3,-4)", fibres, EVEN_2, 3, -4, width, turns) || pair("moved fibres (9,-11)", fibres, EVEN_2, 9, -11, width, turns) ||
        pair("still fibres", fibres, EVEN_2, 0, 0, width, turns) || pair("tracing paper (3,-4)", tracing, EVEN_2, 3, -4, width, turns) ||
        pair("half blank (3,-4)", fibres, EVEN_2, 3, -4, width / 2, turns))
        return 1;
    if (!made)
        make_sheet(PLAIN_PAPER, plain_paper);
    made = true;
    if (pair("noisy fibres (3,-4)", fibres, NOISE_5, 3, -4, width, turns) ||
        pair("fibres, noise 2 (3,-4)", fibres, NOISE_2, 3, -4, width, turns) ||
        pair("plain paper, noise 2 (3,-4)", plain_paper, NOISE_2, 3, -4, width, turns) ||
        pair("plain paper, noise 5 (3,-4)", plain_paper, NOISE_5, 3, -4, width, turns))
        return 1;
    if (!checking)
        squares_table();
    return 0;
}

int main(int argc, char **argv)
{
    checking = argc > 1 && strcmp(argv[1], "check") == 0;
    if (checking) {
        if (papers(168, 130, 16, 1) || papers(168, 130, 32, 1) || papers(168, 130, 8, 1))
            return 1;
        printf("benches/field: the searches agree\n");
        return 0;
    }
    printf("Speed of fields, plain C full search by absolute = 1; basic operations of search 2, exhaustive search = 1\n");
    printf("(0.0275 in Gharavi-Alkhansari's paper, for a video)\n");
    return papers(640, 480, 16, 21) || papers(1024, 1024, 16, 9) || papers(640, 480, 32, 13) || papers(640, 480, 8, 13);
}
