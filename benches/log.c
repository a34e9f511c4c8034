/* Logs of 65,536 bytes, walked and printed: gauge_print_log against plain C for the same rules and the same text, one pass over the bytes. The two
 * take turns; of the turns' ratios of processor time the median counts. Prints it as time, plain C = 1: the smaller, the faster. The texts must be
 * the same. With the word `check` it compares the texts alone and prints no time.
 *
 * Logs are made here, of a frame so large that the bytes end before its blocks do, so each ends in refusal 13: mixed as moved fibres with blank paper
 * between them would give them, of still blocks alone, of blocks alone, and by squares of blocks with four bytes of distortion alone. */
#include "common.h"
#include "gauge.h"
#include <stdbool.h>
#include <stdio.h>
#include <stdlib.h>
#include <string.h>

enum { SIDE = 1024, N = 4, W = 16, LENGTH = 65536, TURNS = 31, REPEATS = 6 };

/* ---- logs */

static int within(int value, int least, int most)
{
    return value < least ? least : value > most ? most : value;
}

/* Part of a block's vector, at pel row or column `place`: mostly `moved`, sometimes one off, seldom any; always inside the frame. */
static int part(int moved, int place)
{
    int chance = random_below(100), value = chance < 85 ? moved : chance < 95 ? moved + random_below(3) - 1 : random_below(2 * W + 1) - W;
    return within(within(value, -W, W), -place, SIDE - N - place);
}

/* A log of which so many of a hundred blocks are still; by squares the others have distortions above 65,535. */
static void make_log(int still, bool squares, uint8_t *log)
{
    const uint8_t head[9] = {squares ? 6 : 1, SIDE / 256, SIDE % 256, SIDE / 256, SIDE % 256, N, W, 2, 2};
    uint8_t bytes[LENGTH + 7];
    size_t at = squares ? 9 : 8;
    memcpy(bytes, head, at);
    for (int k = 0; at < LENGTH; k++) {
        int y = k / (SIDE / N) * N, x = k % (SIDE / N) * N, dy = part(3, y), dx = part(-4, x);
        int distortion = 1 + random_below(10) + random_below(20) * random_below(20) * (random_below(10) == 0);
        if (random_below(100) < still)
            bytes[at++] = 3;
        else {
            bytes[at++] = squares ? 5 : 2;
            bytes[at++] = (uint8_t)dy;
            bytes[at++] = (uint8_t)dx;
            if (squares) {
                bytes[at++] = 0;
                bytes[at++] = (uint8_t)(1 + random_below(14));
            }
            bytes[at++] = (uint8_t)(distortion / 256);
            bytes[at++] = (uint8_t)(distortion % 256);
        }
    }
    memcpy(log, bytes, LENGTH);
}

/* ---- printing in C */

/* No line is longer. */
enum { LINE = 40 };

static uint8_t *put_number(uint8_t *to, uint32_t value)
{
    uint8_t digits[10];
    int size = 0;
    do
        digits[size++] = (uint8_t)('0' + value % 10);
    while ((value /= 10) != 0);
    while (size > 0)
        *to++ = digits[--size];
    return to;
}

static uint8_t *put_signed(uint8_t *to, int value)
{
    if (value >= 0)
        return put_number(to, (uint32_t)value);
    *to++ = '-';
    return put_number(to, (uint32_t)-value);
}

static uint8_t *put_word(uint8_t *to, const char *word)
{
    size_t length = strlen(word);
    memcpy(to, word, length);
    return to + length;
}

/* A log on the way: the place, how far it is, the head's numbers, and the next block's number, row and column. */
struct walk {
    const uint8_t *log;
    size_t length, at;
    enum { BEFORE, AMONG, AFTER } phase;
    int width, height, n, w;
    uint32_t most, grid, blocks;
    int y, x;
};

static bool window_taken(int search, int w)
{
    switch (search) {
    case 1:
    case 2:
        return w <= 16;
    case 3:
        return w == 7;
    case 4:
        return w == 2 || w == 4 || w == 8 || w == 16;
    default:
        return false;
    }
}

/* The commands that are due, each of a length that is there. They put a line, or answer with a refusal. A head of command 6 has a measure. */
static int put_head(struct walk *s, const uint8_t *p, bool has_measure, uint8_t **to)
{
    s->width = p[1] << 8 | p[2];
    s->height = p[3] << 8 | p[4];
    s->n = p[5];
    s->w = p[6];
    if (s->width < 4 || s->width > 1024 || s->height < 4 || s->height > 1024 || (s->n != 4 && s->n != 8 && s->n != 16 && s->n != 32) ||
        s->n > s->width || s->n > s->height || !window_taken(p[7], s->w) || (has_measure && p[8] != 2))
        return 15;
    s->grid = (uint32_t)((s->width / s->n) * (s->height / s->n));
    s->most = (uint32_t)((has_measure ? 65025 : 255) * s->n * s->n);
    s->phase = AMONG;
    s->at += has_measure ? 9 : 8;
    const int numbers[6] = {s->width, s->height, s->n, s->w, p[7], 2}, last = has_measure ? 5 : 4;
    for (int i = 0; i <= last; i++) {
        *to = put_number(*to, (uint32_t)numbers[i]);
        *(*to)++ = i < last ? ' ' : '\n';
    }
    return 0;
}

static void next_block(struct walk *s)
{
    s->blocks++;
    s->x += s->n;
    if (s->x + s->n > s->width) {
        s->x = 0;
        s->y += s->n;
    }
}

static uint32_t four_bytes(const uint8_t *p)
{
    return (uint32_t)p[0] << 24 | (uint32_t)p[1] << 16 | (uint32_t)p[2] << 8 | p[3];
}

/* A block of command 5 has four bytes of distortion. Either command has code of its own. */
__attribute__((always_inline)) static inline int put_block(struct walk *s, const uint8_t *p, bool has_four, uint8_t **to)
{
    int dy = (int8_t)p[1], dx = (int8_t)p[2], top = s->y + dy, left = s->x + dx;
    uint32_t distortion = has_four ? four_bytes(p + 3) : (uint32_t)(p[3] << 8 | p[4]);
    if (abs(dy) > s->w || abs(dx) > s->w || top < 0 || top + s->n > s->height || left < 0 || left + s->n > s->width || distortion > s->most ||
        (has_four ? distortion <= 65535 : dy == 0 && dx == 0 && distortion == 0))
        return 16;
    next_block(s);
    s->at += has_four ? 7 : 5;
    *to = put_signed(*to, dy);
    *(*to)++ = ' ';
    *to = put_signed(*to, dx);
    *(*to)++ = ' ';
    *to = put_number(*to, distortion);
    *(*to)++ = '\n';
    return 0;
}

static int put_end(struct walk *s, const uint8_t *p, uint8_t **to)
{
    if (four_bytes(p + 1) != s->grid)
        return 17;
    s->phase = AFTER;
    s->at += 5;
    *to = put_word(*to, "end ");
    *to = put_number(*to, s->grid);
    *(*to)++ = '\n';
    return 0;
}

static int put_command(struct walk *s, uint8_t **to)
{
    const uint8_t *p = s->log + s->at;
    size_t left = s->length - s->at;
    if (s->phase == AFTER)
        return left > 0 ? 18 : 34;
    if (left == 0)
        return 13;
    switch (p[0]) {
    case 1:
        return s->phase != BEFORE ? 14 : left < 8 ? 13 : put_head(s, p, false, to);
    case 2:
        return s->phase != AMONG || s->blocks == s->grid ? 14 : left < 5 ? 13 : put_block(s, p, false, to);
    case 3:
        if (s->phase != AMONG || s->blocks == s->grid)
            return 14;
        next_block(s);
        s->at++;
        *to = put_word(*to, "0 0 0\n");
        return 0;
    case 4:
        return s->phase != AMONG || s->blocks < s->grid ? 14 : left < 5 ? 13 : put_end(s, p, to);
    case 5:
        return s->phase != AMONG || s->blocks == s->grid ? 14 : left < 7 ? 13 : put_block(s, p, true, to);
    case 6:
        return s->phase != BEFORE ? 14 : left < 9 ? 13 : put_head(s, p, true, to);
    default:
        return 14;
    }
}

/* The text of a log: as much of it as fits into the buffer, and the length of all of it. */
__attribute__((noipa)) static size_t plain_print(const uint8_t *log, size_t log_length, uint8_t *buffer, size_t buffer_length)
{
    struct walk s = {.log = log, .length = log_length};
    size_t written = 0;
    int refusal = 0;
    while (refusal == 0) {
        /* A line goes straight into the buffer where any line fits. */
        uint8_t spare[LINE], *line = written + LINE <= buffer_length ? buffer + written : spare, *to = line;
        if (log_length > 65536) {
            refusal = 20;
            s.at = 65536;
        } else
            refusal = put_command(&s, &to);
        if (refusal == 34)
            break;
        if (refusal != 0) {
            to = put_word(to, "refused ");
            to = put_number(to, (uint32_t)refusal);
            to = put_word(to, " at ");
            to = put_number(to, (uint32_t)s.at);
            *to++ = '\n';
        }
        size_t length = (size_t)(to - line);
        if (line == spare && written < buffer_length)
            memcpy(buffer + written, line, length < buffer_length - written ? length : buffer_length - written);
        written += length;
    }
    return written;
}

/* ---- the turns */

static uint8_t made[LENGTH], plain_text[GAUGE_TEXT_MOST], text[GAUGE_TEXT_MOST];

static int ascending(const void *a, const void *b)
{
    const double *x = a, *y = b;
    return (*x > *y) - (*x < *y);
}

/* One kind of log: one line of the table, or none when checking. */
static int kind(const char *name, int still, bool squares, int turns)
{
    double ratios[TURNS];
    size_t plain_length = 0, length = 0;
    make_log(still, squares, made);
    for (int turn = 0; turn < turns; turn++) {
        double begun = now();
        for (int i = 0; i < REPEATS; i++)
            plain_length = plain_print(made, LENGTH, plain_text, sizeof plain_text);
        double between = now();
        for (int i = 0; i < REPEATS; i++)
            length = gauge_print_log(made, LENGTH, text, sizeof text);
        ratios[turn] = (now() - between) / (between - begun);
    }
    if (length != plain_length || length > sizeof text || memcmp(text, plain_text, length) != 0) {
        printf("%s: the texts differ\n", name);
        return 1;
    }
    qsort(ratios, (size_t)turns, sizeof ratios[0], ascending);
    if (turns == TURNS)
        printf("%-14s %6.2f\n", name, ratios[turns / 2]);
    return 0;
}

int main(int argc, char **argv)
{
    bool checking = argc > 1 && strcmp(argv[1], "check") == 0;
    int turns = checking ? 1 : TURNS;
    if (!checking)
        printf("Time of printing logs of 65,536 bytes, plain C = 1\n");
    if (kind("mixed", 50, false, turns) || kind("still blocks", 100, false, turns) || kind("blocks", 0, false, turns) ||
        kind("long blocks", 0, true, turns))
        return 1;
    if (checking)
        printf("benches/log: the texts agree\n");
    return 0;
}
