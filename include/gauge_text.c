/* What the gauge's refusals mean, in words: gauge_refusal_text of gauge.h. Compile it with the program that links libgauge.a. */
#include "gauge.h"

const char *gauge_refusal_text(uint32_t refusal)
{
    switch (refusal) {
    case GAUGE_ACCEPTED:
        return "accepted";
    case GAUGE_BAD_SIZE:
        return "width or height is not 4 to 1,024";
    case GAUGE_BAD_FRAME:
        return "a frame's length is not width x height";
    case GAUGE_BAD_N:
        return "the block size N is not 4, 8, 16 or 32, or is larger than width or height";
    case GAUGE_BAD_SEARCH:
        return "the search is not 1 to 4";
    case GAUGE_BAD_WINDOW:
        return "the search does not take this window w";
    case GAUGE_BAD_THRESHOLD:
        return "the threshold is over 261,120 (66,585,600 by squares), or not 0 with a search other than cross";
    case GAUGE_BAD_PLACE:
        return "the block or the row's part is not wholly inside its frame";
    case GAUGE_NO_CANDIDATE:
        return "the vector is no candidate of window 16";
    case GAUGE_SHORT_TABLE:
        return "the table is shorter than (width + 1) x (height + 1) numbers";
    case GAUGE_SHORT_LIST:
        return "the list is shorter than three numbers a block";
    case GAUGE_BAD_HOME:
        return "the homing place is outside -1,000,000 to 1,000,000";
    case GAUGE_BAD_SIDE:
        return "the side is neither 0 (older) nor 1 (newer)";
    case GAUGE_LOG_CUT:
        return "the log ends before its command is complete";
    case GAUGE_LOG_COMMAND:
        return "the log has a command that is unknown or not due";
    case GAUGE_LOG_HEAD:
        return "the log's head has a size, N, search, window or measure that is not allowed";
    case GAUGE_LOG_BLOCK:
        return "a block has a vector or distortion that it cannot have, is (0,0) with distortion 0 as command 2, or has 65,535 or less as command 5";
    case GAUGE_LOG_END:
        return "the log's end has another number of blocks";
    case GAUGE_LOG_AFTER_END:
        return "bytes follow the log's end";
    case GAUGE_SHORT_BUFFER:
        return "the buffer is shorter than the log";
    case GAUGE_LOG_TOO_LONG:
        return "the log has more than 65,536 bytes";
    case GAUGE_NOT_HOMED:
        return "the track is not homed";
    case GAUGE_STEPS_OVER:
        return "the track has made 1,000,000 steps or more, or holds travels or sums that cannot be: home it";
    case GAUGE_OUT_OF_RANGE:
        return "the step would lead outside -1,000,000 to 1,000,000";
    case GAUGE_WALK_OVER:
        return "the walk along the log is over, or its cursor belongs to no walk of this log";
    case GAUGE_BAD_MEASURE:
        return "the measure is neither 1 (absolute) nor 2 (squares)";
    case GAUGE_NO_VOTER:
        return "no block votes: in none do the newer pels differ by 8 grey levels or more";
    default:
        return "no refusal has this number";
    }
}
