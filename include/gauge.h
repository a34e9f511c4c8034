/* gauge.h: the paper-travel gauge, from C. docs/REFERENCE.md has its rules in full.
 *
 * Two grey pictures of the paper, an older and a newer one, are compared block by block. A picture (frame) is width x height
 * bytes, row by row, top row first. A block is N x N pels and stands at the row and column of its top left pel. A vector
 * (dy, dx) compares the newer frame's block at (row, column) with the older frame's block at (row + dy, column + dx): + is down
 * and right. The paper travelled the other way, by (-dy, -dx). How far the two blocks differ is the vector's distortion, by one of two
 * measures: 1 absolute, the sum of absolute pel differences, at most 255 x N x N; 2 squares, the sum of squared pel differences, at most
 * 65,025 x N x N.
 *
 * Every call takes any numbers and any bytes whatever. It keeps no pointer and holds no state, so it may be called from several threads.
 * A frame is lent as a pointer and its length in bytes, and only read; a list and a table are lent as a pointer and their length in
 * numbers, and filled; a log and a buffer as a pointer and their length in bytes. A pointer must lead to as much memory as is said, must
 * not be null, not even where the length is 0, and memory that is filled shares no byte with any other that is lent; the two frames may be the
 * same memory. A call by search 2 needs up to 120 kB of stack, one by another search up to 25 kB, any other less than 2 kB; nothing is taken from
 * the heap.
 *
 * An answer is a struct by value whose first number is `refusal` (in gauge_half: found.refusal, in gauge_stepped: answer.refusal): 0 where
 * the call is accepted, else the number of the first rule that the input, the track or the cursor breaks, in the order given at the call as
 * "Tests ..". gauge_track_new and gauge_print_log refuse nothing and have none. In a refused answer everything else is 0, but for
 *   - the track of gauge_homed and gauge_stepped, which is handed back as it was;
 *   - the place of the refusal, in gauge_written, gauge_log_read and gauge_walked;
 *   - `next` of gauge_walked, which keeps the cursor's `at` and has phase 3.
 * Memory that is lent to a refused call keeps what it held, but for refusals 33 and 52 of a step.
 *
 * Link with libgauge.a (`rt lib` in crates/gauge/ writes it to crates/gauge/out/), and with gauge_text.c beside this file for
 * gauge_refusal_text.
 */
#ifndef GAUGE_H
#define GAUGE_H

#include <stdbool.h>
#include <stddef.h>
#include <stdint.h>

#ifdef __cplusplus
extern "C" {
#endif

/* The refusals. */
enum gauge_refusal {
    GAUGE_ACCEPTED = 0,
    GAUGE_BAD_SIZE = 1,       /* width or height not 4 to 1,024 */
    GAUGE_BAD_FRAME = 2,      /* a frame whose length is not width x height */
    GAUGE_BAD_N = 3,          /* N not 4, 8, 16 or 32, or larger than width or height */
    GAUGE_BAD_SEARCH = 4,     /* the search not 1 to 4 */
    GAUGE_BAD_WINDOW = 5,     /* a window w that the search does not take */
    GAUGE_BAD_THRESHOLD = 6,  /* a threshold t over 261,120, by squares over 66,585,600, or not 0 with search 1, 2 or 3 */
    GAUGE_BAD_PLACE = 7,      /* the block not wholly inside the newer frame; for a row view, the N pels not inside one row */
    GAUGE_NO_CANDIDATE = 8,   /* the vector no candidate of window 16: a part over 16 in size, or the older block not inside its frame */
    GAUGE_SHORT_TABLE = 9,    /* search 2: a table shorter than GAUGE_TABLE_LENGTH */
    GAUGE_SHORT_LIST = 10,    /* a list shorter than GAUGE_LIST_LENGTH */
    GAUGE_BAD_HOME = 11,      /* a homing place outside -1,000,000 to 1,000,000 */
    GAUGE_BAD_SIDE = 12,      /* side neither 0 nor 1 */
    GAUGE_LOG_CUT = 13,       /* log: the bytes end before the command is complete */
    GAUGE_LOG_COMMAND = 14,   /* log: a command that is unknown or not due */
    GAUGE_LOG_HEAD = 15,      /* log: a head that 1, 3, 4 or 5 would turn away, or command 6 with another measure than 2 */
    GAUGE_LOG_BLOCK = 16,     /* log: a vector that is no candidate, a distortion below 0 or over the largest by N and measure, a still block as
                               * command 2, or a distortion of 65,535 or less as command 5 */
    GAUGE_LOG_END = 17,       /* log: an end with another number of blocks */
    GAUGE_LOG_AFTER_END = 18, /* log: bytes after the end */
    GAUGE_SHORT_BUFFER = 19,  /* writing a log: a buffer shorter than the log */
    GAUGE_LOG_TOO_LONG = 20,  /* printing a log: more than 65,536 bytes; in the printed text alone, never in an answer */
    GAUGE_NOT_HOMED = 31,     /* a step of a track that is not homed */
    GAUGE_STEPS_OVER = 32,    /* a step of a track that has 1,000,000 steps or more; or that holds more than 64 travels, a part outside -16 to 16, or
                               * a sum that is not that of the parts held */
    GAUGE_OUT_OF_RANGE = 33,  /* a step that would lead outside -1,000,000 to 1,000,000 */
    GAUGE_WALK_OVER = 34,     /* walking a log: a walk that is over, or a cursor that no walk of this log can have */
    GAUGE_BAD_MEASURE = 51,   /* the measure neither 1 nor 2 */
    GAUGE_NO_VOTER = 52       /* a step of a pair in which no block votes: see gauge_field_answer */
};

/* What a refusal means, in words; of any number, never null. In gauge_text.c. */
const char *gauge_refusal_text(uint32_t refusal);

/* How many numbers a field's list and table must have room for. n is not 0. */
#define GAUGE_LIST_LENGTH(width, height, n) ((size_t)3 * ((size_t)(height) / (n)) * ((size_t)(width) / (n)))
#define GAUGE_TABLE_LENGTH(width, height) (((size_t)(width) + 1) * ((size_t)(height) + 1))

/* What measuring one vector answers. A refused call has zeros behind the number. */
typedef struct {
    uint32_t refusal;
    uint32_t distortion; /* by the measure asked for, at most 255 x N x N, by squares 65,025 x N x N; 0 where it is over the ceiling */
    uint32_t over;       /* 1 where it is over the ceiling, else 0 */
    uint32_t rows;       /* the first row, counted from 1, at whose end the sum is over the ceiling, else N */
} gauge_measured;

/* Measures one vector (dy, dx) at the newer block that stands at (row, column), by measure 1 absolute or 2 squares, as far as a ceiling. Any
 * ceiling is taken: a distortion equal to it is not over. UINT32_MAX, or the largest distortion, gives every distortion. Tests 1 2 3 51 7 8. */
gauge_measured gauge_measure(const uint8_t *older, size_t older_length, const uint8_t *newer, size_t newer_length, size_t width,
                             size_t height, size_t n, size_t row, size_t column, int32_t dy, int32_t dx, uint32_t measure, uint32_t ceiling);

/* Where a row view stands in its frame. */
typedef struct {
    uint32_t refusal;
    size_t place;  /* the part begins at older + place (side 0) or newer + place (side 1) */
    size_t length; /* and has this many pels: N, or 0 where refused */
} gauge_row;

/* Looks up the N pels of one row from `column` on, in the older frame (side 0) or the newer one (side 1). Tests 1 2 3 12 7. */
gauge_row gauge_row_view(const uint8_t *older, size_t older_length, const uint8_t *newer, size_t newer_length, size_t width,
                         size_t height, size_t n, uint32_t side, size_t row, size_t column);

/* A request for a search. */
typedef struct {
    size_t width, height;
    size_t n;         /* the block size N: 4, 8, 16 or 32 */
    uint32_t search;  /* 1 full, 2 pruned, 3 four-step, 4 cross */
    size_t w;         /* the search window: full and pruned 0 to 16, four-step 7, cross 2, 4, 8 or 16 */
    uint32_t t;       /* the threshold of cross: a distortion of (0,0) below it ends the search. 0 to 261,120, by squares 0 to 66,585,600,
                       * whatever N is; 0 with the others */
    uint32_t measure; /* 1 absolute, 2 squares */
} gauge_request;

/* What a search of one block answers. */
typedef struct {
    uint32_t refusal;
    int32_t dy, dx;      /* the vector found */
    uint32_t distortion; /* and its distortion, by the measure asked for */
    uint32_t counts[6];  /* pruned: how many candidates were tested at m = 32, 16, 8, 4, 2, 1; others: 0, and at m = 1 how many were measured */
    uint32_t dropped;    /* pruned: how many candidates were dropped */
} gauge_found;

/* Searches the block that stands at (row, column), on the grid or off it. Tests 1 2 3 4 51 5 6 7. */
gauge_found gauge_search_block(const uint8_t *older, size_t older_length, const uint8_t *newer, size_t newer_length,
                               gauge_request request, size_t row, size_t column);

/* What a search of one block to half a pel answers. */
typedef struct {
    gauge_found found;        /* the search's own answer: gauge_search_block's to the same inputs, whether accepted or refused */
    int32_t half_dy, half_dx; /* the vector in half pels, each part -33 to 33: the found one's twice, or 1 more or less; 0 where refused */
    uint32_t half_distortion; /* and its distortion, by the measure asked for, never above the found one's; 0 where refused */
} gauge_half;

/* Searches the block as gauge_search_block does, by any of the four searches, then tries the eight half-pel neighbours of the vector found, by the
 * same measure. The older frame's value between two pels is (a + b + 1) / 2, between four (a + b + c + d + 2) / 4, rounded down. A neighbour counts
 * if all pels that it needs are inside the older frame, N + 1 rows where its half_dy is odd and N + 1 columns where its half_dx is; the window does
 * not matter. The least distortion wins; of equals the found vector, then the neighbour whose offset from it, in half pels, comes first in (-1,0),
 * (0,-1), (0,1), (1,0), (-1,-1), (-1,1), (1,-1), (1,1). The neighbours are not counted in `found`. Tests 1 2 3 4 51 5 6 7. */
gauge_half gauge_search_half(const uint8_t *older, size_t older_length, const uint8_t *newer, size_t newer_length,
                             gauge_request request, size_t row, size_t column);

/* What the field of a pair answers. A block votes if its largest newer pel exceeds its smallest by 8 or more: all vectors look alike to a blank
 * one. Where no block votes, a field is accepted all the same: its reading is (0,0), with 0 votes of 0 voters; a step is refused by 52. */
typedef struct {
    uint32_t refusal;
    int32_t dy, dx;     /* the reading: the vector of most voters; the paper travelled by (-dy, -dx) */
    uint32_t votes;     /* how many voters have it */
    uint32_t voters;    /* how many blocks vote */
    uint32_t counts[6]; /* the counts of all blocks, voters or not, summed */
    uint32_t dropped;   /* and the numbers dropped, summed */
} gauge_field_answer;

/* Searches every block of the grid: (height / N) x (width / N) blocks, row by row. Fills the list with three numbers a block, voter or not: dy,
 * dx, distortion. Search 2 also fills the table with sums of older pels: place r x (width + 1) + c has the sum of the pels in rows
 * before r and columns before c; the other searches leave it as it is, and it may have any length, 0 too. Numbers past the used part keep
 * what they held, as all do where the call is refused. Tests 1 2 3 4 51 5 6 9 10. */
gauge_field_answer gauge_field(const uint8_t *older, size_t older_length, const uint8_t *newer, size_t newer_length,
                               gauge_request request, int32_t *list, size_t list_length, uint32_t *table, size_t table_length);

/* How many travels a track holds at most. */
#define GAUGE_HELD_MOST 64

/* Where the paper stands, and its last travels: those since it was homed, of more than 64 the last 64. They stand oldest first, in places 0 to
 * held - 1; no call looks at the places behind them, and a step keeps what these hold but for the one that it writes. A track is a plain value: a
 * call takes the old one and hands the new one back. One built by hand is taken too: homing looks at nothing in it, and a step refuses by 32 what no
 * track can hold. */
typedef struct {
    bool homed;     /* true or false: any other byte in its place is no bool of C, and nothing is said of a call that gets it */
    int32_t y, x;   /* the place: y down, x to the right */
    uint32_t steps; /* steps since it was homed */
    uint32_t held;  /* how many travels it holds */
    int32_t travel_dy[GAUGE_HELD_MOST], travel_dx[GAUGE_HELD_MOST]; /* what each of them added to y and to x, -16 to 16 */
    int32_t sum_dy, sum_dx;                                         /* the sums of what is held */
} gauge_track;

/* A new track: not homed, at (0,0), no steps, no travels; all places and sums are 0. */
gauge_track gauge_track_new(void);

/* What homing answers: the track, the old one where refused. */
typedef struct {
    uint32_t refusal;
    gauge_track track;
} gauge_homed;

/* Homes at (y, x): homed, that place, no steps, no travels; all places and sums are 0, whatever the old track held. Tests 11. */
gauge_homed gauge_home(gauge_track track, int32_t y, int32_t x);

/* What a step answers: all that the field call answers, and the track, the old one where refused. */
typedef struct {
    gauge_field_answer answer;
    gauge_track track;
} gauge_stepped;

/* Adds the travel of a pair to the place, and 1 to the steps. The travel comes behind those held, and the sums go up by it; where 64 are held the
 * oldest goes out, the others move forward by a place, and the sums go down by what went out. Lent memory is as the field call leaves it, also where 52
 * or 33 refuses; any other refusal leaves it as it was. Tests 1 2 3 4 51 5 6 9 10 31 32 52 33. */
gauge_stepped gauge_step(gauge_track track, const uint8_t *older, size_t older_length, const uint8_t *newer, size_t newer_length,
                         gauge_request request, int32_t *list, size_t list_length, uint32_t *table, size_t table_length);

/* ---- logs: a field, kept as bytes
 *
 * A log is one head, a command for each grid block, row by row, and one end. A command is a byte and its operands, numbers of one,
 * two or four bytes, highest byte first:
 *
 *     1 head         width (2 bytes), height (2), N (1), w (1), search (1); measure 1  8 bytes in all
 *     2 block        dy (1), dx (1), in two's complement: 255 is -1; distortion (2)    5
 *     3 still block  none: the vector (0,0) with distortion 0                          1
 *     4 end          the number of blocks (4)                                          5
 *     5 block        dy (1), dx (1), distortion (4), which is above 65,535             7
 *     6 head         as 1, then the measure (1), which is 2                            9
 *
 * So the field of a pair 5 wide and 4 high, N 4, w 1, search 2, measure 1, whose one block has (0,1) and distortion 0, is
 * 01 00 05 00 04 04 01 02 | 02 00 01 00 00 | 04 00 00 00 01. Each field has one log alone: (0,0) with distortion 0 is always command 3, any
 * other block command 2 where its distortion fits two bytes, else 5; the head is command 1 by absolute and 6 by squares.
 *
 * Commands are judged from the first on: 14 where the byte is none of these or another command is due, then 13 where the bytes end,
 * then 15, 16 or 17 by the operands. A refusal's place is the offset of its command: the log's length where no byte is left, the first
 * extra byte for 18. */

/* A head's numbers. */
typedef struct {
    size_t width, height, n, w;
    uint32_t search;
    uint32_t measure; /* 1 absolute, 2 squares. Writing goes by it; reading and walking hand out 1 after command 1, 2 after command 6 */
} gauge_head;

/* What writing a log answers. */
typedef struct {
    uint32_t refusal;
    size_t place;  /* refusal 16: the block's number, from 0 */
    size_t length; /* the log's length in bytes */
} gauge_written;

/* The longest log of a field of this size and N by either measure, in bytes: a buffer of this length is never too short. n is not 0. */
#define GAUGE_LOG_MOST(width, height, n) (9 + 7 * ((size_t)(height) / (n)) * ((size_t)(width) / (n)) + 5)

/* Writes the log of a field into a buffer: head numbers, and a list of three numbers a block as the field call fills it. The buffer past the
 * log keeps what it held, as all of it does where the call is refused. Tests 1 3 4 51 5 10 16 19. */
gauge_written gauge_write_log(gauge_head head, const int32_t *list, size_t list_length, uint8_t *buffer, size_t buffer_length);

/* What reading a log answers. */
typedef struct {
    uint32_t refusal;
    size_t place; /* of a refusal; for refusal 10 where the head ends: 8 after command 1, 9 after command 6 */
    gauge_head head;
} gauge_log_read;

/* Reads a whole log into a list, three numbers a block. Nothing is stored before the whole log is accepted; the list past the field keeps what
 * it held. Tests, command by command, 14 13 15 16 17, 10 right after the head, and 18. How long the list must be stands in the log's
 * head, so walk the head first: where gauge_walk from a cursor of all zeros is accepted, its `head` has width, height and n for
 * GAUGE_LIST_LENGTH. */
gauge_log_read gauge_read_log(const uint8_t *log, size_t log_length, int32_t *list, size_t list_length);

/* Prints a log as text, a line a command until a refusal: `5 4 4 1 2` for a head (width, height, N, w, search), `5 4 4 1 2 2` for one that is command
 * 6 (the measure behind them), `0 1 0` for a block (dy, dx, distortion), `end 1` for the end (blocks), `refused 14 at 8` for a refusal and its
 * place; 34, the end of the walk, has no line. For more than 65,536 bytes the one line `refused 20 at 65536`, though the log may be read and walked:
 * fields of up to 9,360 blocks never have a log as long. Each line ends in a newline. Puts as much of the text into the buffer as fits, with no zero
 * byte after it, leaves the rest of the buffer as it was, and answers with the length of the whole text, at most GAUGE_TEXT_MOST. */
#define GAUGE_TEXT_MOST 393236
size_t gauge_print_log(const uint8_t *log, size_t log_length, uint8_t *buffer, size_t buffer_length);

/* Where a walk along a log stands. All zeros: at its start. */
typedef struct {
    size_t at;       /* the offset of the next command */
    uint32_t phase;  /* 0 before the head, 1 among the blocks, 2 after the end, any other number after a refusal */
    gauge_head head; /* among the blocks: the head's numbers. In any other phase none is looked at, and all are 0 in `next` */
    size_t blocks;   /* among the blocks: how many were read. In any other phase likewise */
} gauge_cursor;

/* What one call of a walk answers. */
typedef struct {
    uint32_t refusal;
    size_t place;        /* a refusal's place */
    uint32_t command;    /* 1 or 6 head, 2 or 5 block, 3 still block, 4 end; 0 where refused */
    gauge_head head;     /* of a head; what a command does not have, here and in the numbers below, is 0 */
    int32_t dy, dx;      /* of a block */
    uint32_t distortion; /* of a block */
    size_t blocks;       /* of an end */
    gauge_cursor next;   /* where the walk then stands; after a refusal `at` as it was, phase 3, the rest 0 */
} gauge_walked;

/* Hands out the command at a cursor, and the cursor to go on with. A log is accepted if the first refusal of a walk from its start is 34. Tests
 * 34 (phase 3 or more, `at` past the log, among the blocks a head that 15 would turn away, a measure neither 1 nor 2, or more blocks than the grid
 * has), then 14 13 15 16 17; after the end 18, or 34 where no byte is left. The place of 34 is 0. */
gauge_walked gauge_walk(const uint8_t *log, size_t log_length, gauge_cursor cursor);

#ifdef __cplusplus
}
#endif

#endif
