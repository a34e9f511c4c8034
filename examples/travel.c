/* What a technician wants to know of two pictures: how far the paper travelled, and whether that can be trusted.
 *
 * travel OLDER.pgm NEWER.pgm reads a pair of grey pictures (binary PGM, 255 the lightest). It ends with status 0 where the travel can be trusted,
 * 1 where it cannot, 2 where the words or pictures will not do. With no words it makes its own pictures: a track is homed and stepped
 * through travelling paper that travels beyond the search window at last, through paper with a blank half, and through blank pictures; then the first
 * pair is read by each of the four searches, and by pruned once more with squares for its measure. */
#include <ctype.h>
#include <stdio.h>
#include <stdlib.h>
#include <string.h>

#include "gauge.h"
#include "paper.h"

enum { MOST = 1024, N = 16, W = 16 };

static size_t width = PAPER_WIDTH, height = PAPER_HEIGHT;
static uint8_t older[MOST * MOST], newer[MOST * MOST];
static int32_t list[GAUGE_LIST_LENGTH(MOST, MOST, N)];
static uint32_t table[GAUGE_TABLE_LENGTH(MOST, MOST)];

/* The measures. All is read by absolute where nothing else is said. */
enum { ABSOLUTE = 1, SQUARES = 2 };

static gauge_field_answer field(uint32_t search, size_t w, uint32_t measure)
{
    gauge_request request = {width, height, N, search, w, 0, measure};
    return gauge_field(older, width * height, newer, width * height, request, list, sizeof list / sizeof *list, table,
                       sizeof table / sizeof *table);
}

/* Whether no block of a picture would vote: a field of the picture with itself says how many do. */
static bool blank(const uint8_t *picture)
{
    gauge_request request = {width, height, N, 1, 0, 0, ABSOLUTE};
    return gauge_field(picture, width * height, picture, width * height, request, list, sizeof list / sizeof *list, table, 0).voters == 0;
}

/* The votes in per cent of all blocks, voters or not. */
static unsigned share(gauge_field_answer f)
{
    return (unsigned)(100 * (size_t)f.votes / ((width / N) * (height / N)));
}

/* Why a reading is not to be trusted, or null. */
static const char *doubt(gauge_field_answer f)
{
    if (f.voters == 0 || blank(older))
        return "a picture is blank, so no travel can be seen";
    if (share(f) < 25)
        return "less than a quarter of the blocks agree";
    if (abs(f.dy) == W || abs(f.dx) == W)
        return "the vector lies on the window's edge: the paper may have travelled further";
    return NULL;
}

/* The travel in words, the share of the blocks that have it, and a warning where it is not to be trusted. */
static bool report(gauge_field_answer f)
{
    int down = -f.dy, right = -f.dx;
    printf("the paper %s", down == 0 && right == 0 ? "stood still" : "travelled");
    if (down != 0)
        printf(" %d %s", abs(down), down < 0 ? "up" : "down");
    if (right != 0)
        printf("%s %d %s", down != 0 ? " and" : "", abs(right), right < 0 ? "left" : "right");
    printf(", by %u %% of the blocks\n", share(f));
    const char *why = doubt(f);
    if (why)
        printf("    WARNING: %s\n", why);
    return !why;
}

static int refused(uint32_t refusal)
{
    printf("refused %u: %s\n", (unsigned)refusal, gauge_refusal_text(refusal));
    return 2;
}

/* ---- a pair of pictures from files */

/* The next number of a PGM's head, with the white byte behind it; before it stand white bytes and comments. 0 if there is none. */
static unsigned next_number(FILE *file)
{
    int c = fgetc(file);
    for (bool comment = false; isspace(c) || c == '#' || (comment && c != EOF); c = fgetc(file))
        comment = c == '#' || (comment && c != '\n');
    unsigned number = 0;
    for (; isdigit(c) && number <= 65535; c = fgetc(file))
        number = 10 * number + (unsigned)(c - '0');
    return isspace(c) ? number : 0;
}

/* Reads a picture, and sets width and height. Answers with what is wrong, or null. */
static const char *read_open(FILE *file, uint8_t *picture)
{
    if (fgetc(file) != 'P' || fgetc(file) != '5')
        return "is no binary PGM (P5)";
    width = next_number(file);
    height = next_number(file);
    if (width < N || width > MOST || height < N || height > MOST)
        return "is not 16 to 1,024 pels wide and high";
    if (next_number(file) != 255)
        return "does not have one byte a pel with 255 for the lightest";
    if (fread(picture, 1, width * height, file) != width * height)
        return "is cut short";
    return NULL;
}

static bool read_picture(const char *name, uint8_t *picture)
{
    FILE *file = fopen(name, "rb");
    const char *wrong = file ? read_open(file, picture) : "cannot be opened";
    if (file)
        fclose(file);
    if (wrong)
        printf("%s %s\n", name, wrong);
    return !wrong;
}

static int from_files(char **names)
{
    if (!read_picture(names[0], older))
        return 2;
    size_t first_width = width, first_height = height;
    if (!read_picture(names[1], newer))
        return 2;
    if (width != first_width || height != first_height) {
        printf("the pictures differ in size: %zu x %zu and %zu x %zu\n", first_width, first_height, width, height);
        return 2;
    }
    gauge_field_answer f = field(2, W, ABSOLUTE);
    if (f.refusal != GAUGE_ACCEPTED)
        return refused(f.refusal);
    return report(f) ? 0 : 1;
}

/* ---- made-up pictures */

/* The newer picture becomes the older one, and paper that lies so far down and right the newer. */
static void next_picture(int down, int right)
{
    memcpy(older, newer, sizeof older);
    paper_photograph(newer, down, right);
}

static gauge_track homed(gauge_track track, int32_t y, int32_t x)
{
    track = gauge_home(track, y, x).track;
    printf("homed at (%d,%d)\n", track.y, track.x);
    return track;
}

/* A step is taken over only where it can be trusted: the old track is still at hand. A picture in which no block votes is refused by 52. */
static int step(gauge_track *track)
{
    gauge_request request = {width, height, N, 2, W, 0, ABSOLUTE};
    gauge_stepped s = gauge_step(*track, older, width * height, newer, width * height, request, list, sizeof list / sizeof *list, table,
                                 sizeof table / sizeof *table);
    if (s.answer.refusal != GAUGE_ACCEPTED) {
        int status = refused(s.answer.refusal);
        if (s.answer.refusal != GAUGE_NO_VOTER)
            return status;
    } else if (report(s.answer)) {
        *track = s.track;
        printf("    it stands at (%d,%d)\n", track->y, track->x);
        return 0;
    }
    printf("    the track is left at (%d,%d): home it again\n", track->y, track->x);
    return 0;
}

/* White in place of the paper. Its blocks have no vote. */
static void cover_left_half(uint8_t *picture)
{
    for (size_t r = 0; r < height; r++)
        memset(picture + r * width, 255, width / 2);
}

static void by_each_search(void)
{
    static const struct {
        const char *name;
        uint32_t search;
        size_t w;
        uint32_t measure;
    } searches[] = {{"full", 1, W, ABSOLUTE},
                    {"pruned", 2, W, ABSOLUTE},
                    {"four-step", 3, 7, ABSOLUTE},
                    {"cross", 4, W, ABSOLUTE},
                    {"pruned, squares", 2, W, SQUARES}};
    printf("\nThe first pair by each search         ---- candidates tested at m = 16, 8, 4, 2 ---    measured    dropped\n");
    for (size_t i = 0; i < sizeof searches / sizeof *searches; i++) {
        gauge_field_answer f = field(searches[i].search, searches[i].w, searches[i].measure);
        printf("%-15s vector (%2d,%2d) %3u %% %10u %10u %10u %10u %11u %10u\n", searches[i].name, f.dy, f.dx, share(f), f.counts[1], f.counts[2],
               f.counts[3], f.counts[4], f.counts[5], f.dropped);
    }
}

int main(int argc, char **argv)
{
    if (argc == 3)
        return from_files(argv + 1);
    if (argc != 1) {
        printf("travel [OLDER.pgm NEWER.pgm]\n");
        return 2;
    }
    static const int lies[][2] = {{0, 0}, {5, -3}, {5, 1}, {-9, 0}, {-9, 0}, {8, 0}};
    gauge_track track = homed(gauge_track_new(), 100, 200);
    paper_photograph(newer, lies[0][0], lies[0][1]);
    for (size_t i = 1; i < sizeof lies / sizeof *lies; i++) {
        next_picture(lies[i][0], lies[i][1]);
        if (step(&track))
            return 1;
    }
    track = homed(track, 300, 400);
    paper_photograph(older, 0, 0);
    paper_photograph(newer, 5, -3);
    cover_left_half(older);
    cover_left_half(newer);
    if (step(&track))
        return 1;
    memset(older, 255, sizeof older);
    memset(newer, 255, sizeof newer);
    if (step(&track))
        return 1;
    paper_photograph(older, 0, 0);
    paper_photograph(newer, 5, -3);
    by_each_search();
    return 0;
}
