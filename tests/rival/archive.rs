//! The archive under test, as include/gauge.h declares it, with its answers turned into the forms that the rival uses.

use crate::question::{
    Answer, Cursor, FieldAnswer, FieldRequest, Half, Head, Lent, LogRead, Measured, Measuring,
    Pair, Request, Track, Viewed, Viewing, Walked, Written,
};

#[repr(C)]
struct GaugeMeasured {
    refusal: u32,
    distortion: u32,
    over: u32,
    rows: u32,
}

#[repr(C)]
struct GaugeRow {
    refusal: u32,
    place: usize,
    length: usize,
}

#[repr(C)]
struct GaugeRequest {
    width: usize,
    height: usize,
    n: usize,
    search: u32,
    w: usize,
    t: u32,
    measure: u32,
}

#[repr(C)]
struct GaugeFound {
    refusal: u32,
    dy: i32,
    dx: i32,
    distortion: u32,
    counts: [u32; 6],
    dropped: u32,
}

#[repr(C)]
struct GaugeHalf {
    found: GaugeFound,
    half_dy: i32,
    half_dx: i32,
    half_distortion: u32,
}

#[repr(C)]
struct GaugeFieldAnswer {
    refusal: u32,
    dy: i32,
    dx: i32,
    votes: u32,
    voters: u32,
    counts: [u32; 6],
    dropped: u32,
}

#[repr(C)]
struct GaugeHomed {
    refusal: u32,
    track: Track,
}

#[repr(C)]
struct GaugeStepped {
    answer: GaugeFieldAnswer,
    track: Track,
}

#[repr(C)]
struct GaugeWritten {
    refusal: u32,
    place: usize,
    length: usize,
}

#[repr(C)]
struct GaugeLogRead {
    refusal: u32,
    place: usize,
    head: Head,
}

#[repr(C)]
struct GaugeWalked {
    refusal: u32,
    place: usize,
    command: u32,
    head: Head,
    dy: i32,
    dx: i32,
    distortion: u32,
    blocks: usize,
    next: Cursor,
}

extern "C" {
    fn gauge_measure(
        older: *const u8,
        older_length: usize,
        newer: *const u8,
        newer_length: usize,
        width: usize,
        height: usize,
        n: usize,
        row: usize,
        column: usize,
        dy: i32,
        dx: i32,
        measure: u32,
        ceiling: u32,
    ) -> GaugeMeasured;

    fn gauge_row_view(
        older: *const u8,
        older_length: usize,
        newer: *const u8,
        newer_length: usize,
        width: usize,
        height: usize,
        n: usize,
        side: u32,
        row: usize,
        column: usize,
    ) -> GaugeRow;

    fn gauge_search_block(
        older: *const u8,
        older_length: usize,
        newer: *const u8,
        newer_length: usize,
        request: GaugeRequest,
        row: usize,
        column: usize,
    ) -> GaugeFound;

    fn gauge_search_half(
        older: *const u8,
        older_length: usize,
        newer: *const u8,
        newer_length: usize,
        request: GaugeRequest,
        row: usize,
        column: usize,
    ) -> GaugeHalf;

    fn gauge_field(
        older: *const u8,
        older_length: usize,
        newer: *const u8,
        newer_length: usize,
        request: GaugeRequest,
        list: *mut i32,
        list_length: usize,
        table: *mut u32,
        table_length: usize,
    ) -> GaugeFieldAnswer;

    fn gauge_track_new() -> Track;

    fn gauge_home(track: Track, y: i32, x: i32) -> GaugeHomed;

    fn gauge_step(
        track: Track,
        older: *const u8,
        older_length: usize,
        newer: *const u8,
        newer_length: usize,
        request: GaugeRequest,
        list: *mut i32,
        list_length: usize,
        table: *mut u32,
        table_length: usize,
    ) -> GaugeStepped;

    fn gauge_write_log(
        head: Head,
        list: *const i32,
        list_length: usize,
        buffer: *mut u8,
        buffer_length: usize,
    ) -> GaugeWritten;

    fn gauge_read_log(
        log: *const u8,
        log_length: usize,
        list: *mut i32,
        list_length: usize,
    ) -> GaugeLogRead;

    fn gauge_print_log(
        log: *const u8,
        log_length: usize,
        buffer: *mut u8,
        buffer_length: usize,
    ) -> usize;

    fn gauge_walk(log: *const u8, log_length: usize, cursor: Cursor) -> GaugeWalked;
}

/// A place or length of an answer. One that i64 cannot hold stays wrong: it becomes -1.
fn plain(value: usize) -> i64 {
    i64::try_from(value).unwrap_or(-1)
}

/// A request as the header has it.
fn gauge_request(pair: &Pair, request: &FieldRequest) -> GaugeRequest {
    GaugeRequest {
        width: pair.width,
        height: pair.height,
        n: request.n,
        search: request.search,
        w: request.w,
        t: request.t,
        measure: request.measure,
    }
}

fn answer(found: GaugeFound) -> Answer {
    Answer {
        refusal: found.refusal as i64,
        dy: found.dy as i64,
        dx: found.dx as i64,
        distortion: found.distortion as i64,
        counts: found.counts.map(|count| count as i64),
        dropped: found.dropped as i64,
    }
}

/// A call that takes a single-block search's inputs.
type BlockCall<T> = unsafe extern "C" fn(
    older: *const u8,
    older_length: usize,
    newer: *const u8,
    newer_length: usize,
    request: GaugeRequest,
    row: usize,
    column: usize,
) -> T;

/// What such a call answers.
fn of_block<T>(call: BlockCall<T>, pair: &Pair, request: &Request) -> T {
    let question = gauge_request(pair, &request.of_field());
    // The pointers are never null and each stands with its slice's own length, which is all that the header asks.
    unsafe {
        call(
            pair.older.as_ptr(),
            pair.older.len(),
            pair.newer.as_ptr(),
            pair.newer.len(),
            question,
            request.row,
            request.column,
        )
    }
}

/// The single-block search.
pub fn search_block(pair: &Pair, request: &Request) -> Answer {
    answer(of_block(gauge_search_block, pair, request))
}

/// The search to half a pel.
pub fn search_half(pair: &Pair, request: &Request) -> Half {
    let half = of_block(gauge_search_half, pair, request);
    Half {
        found: answer(half.found),
        half_dy: half.half_dy as i64,
        half_dx: half.half_dx as i64,
        half_distortion: half.half_distortion as i64,
    }
}

/// The measuring call.
pub fn measure(pair: &Pair, question: &Measuring) -> Measured {
    // As above.
    let measured = unsafe {
        gauge_measure(
            pair.older.as_ptr(),
            pair.older.len(),
            pair.newer.as_ptr(),
            pair.newer.len(),
            pair.width,
            pair.height,
            question.n,
            question.row,
            question.column,
            question.dy,
            question.dx,
            question.measure,
            question.ceiling,
        )
    };
    Measured {
        refusal: measured.refusal as i64,
        distortion: measured.distortion as i64,
        over: measured.over as i64,
        rows: measured.rows as i64,
    }
}

/// The row view.
pub fn row_view(pair: &Pair, question: &Viewing) -> Viewed {
    // As above.
    let row = unsafe {
        gauge_row_view(
            pair.older.as_ptr(),
            pair.older.len(),
            pair.newer.as_ptr(),
            pair.newer.len(),
            pair.width,
            pair.height,
            question.n,
            question.side,
            question.row,
            question.column,
        )
    };
    Viewed {
        refusal: row.refusal as i64,
        place: plain(row.place),
        length: plain(row.length),
    }
}

fn field_answer(answer: GaugeFieldAnswer) -> FieldAnswer {
    FieldAnswer {
        refusal: answer.refusal as i64,
        dy: answer.dy as i64,
        dx: answer.dx as i64,
        votes: answer.votes as i64,
        voters: answer.voters as i64,
        counts: answer.counts.map(|count| count as i64),
        dropped: answer.dropped as i64,
    }
}

/// The field call. It is lent the first places of list and table alone.
pub fn field(pair: &Pair, request: &FieldRequest, lent: &mut Lent) -> FieldAnswer {
    // As above; list and table are exclusive, and at least as long as what is lent of them.
    assert!(lent.list_length <= lent.list.len() && lent.table_length <= lent.table.len());
    let answer = unsafe {
        gauge_field(
            pair.older.as_ptr(),
            pair.older.len(),
            pair.newer.as_ptr(),
            pair.newer.len(),
            gauge_request(pair, request),
            lent.list.as_mut_ptr(),
            lent.list_length,
            lent.table.as_mut_ptr(),
            lent.table_length,
        )
    };
    field_answer(answer)
}

/// A new track.
pub fn new_track() -> Track {
    // It takes nothing.
    unsafe { gauge_track_new() }
}

/// Home: the refusal and the track.
pub fn home(track: Track, y: i32, x: i32) -> (i64, Track) {
    // It takes plain values.
    let homed = unsafe { gauge_home(track, y, x) };
    (homed.refusal as i64, homed.track)
}

/// Step: the answer and the track.
pub fn step(
    track: Track,
    pair: &Pair,
    request: &FieldRequest,
    lent: &mut Lent,
) -> (FieldAnswer, Track) {
    // As the field call.
    assert!(lent.list_length <= lent.list.len() && lent.table_length <= lent.table.len());
    let stepped = unsafe {
        gauge_step(
            track,
            pair.older.as_ptr(),
            pair.older.len(),
            pair.newer.as_ptr(),
            pair.newer.len(),
            gauge_request(pair, request),
            lent.list.as_mut_ptr(),
            lent.list_length,
            lent.table.as_mut_ptr(),
            lent.table_length,
        )
    };
    (field_answer(stepped.answer), stepped.track)
}

/// Writing a log. It is lent the first places of the buffer alone.
pub fn write_log(head: &Head, list: &[i32], buffer: &mut [u8], buffer_length: usize) -> Written {
    // As above; the buffer is exclusive.
    assert!(buffer_length <= buffer.len());
    let written = unsafe {
        gauge_write_log(
            *head,
            list.as_ptr(),
            list.len(),
            buffer.as_mut_ptr(),
            buffer_length,
        )
    };
    Written {
        refusal: written.refusal as i64,
        place: plain(written.place),
        length: plain(written.length),
    }
}

/// Reading a whole log. It is lent the first places of the list alone.
pub fn read_log(log: &[u8], list: &mut [i32], list_length: usize) -> LogRead {
    // As above; the list is exclusive.
    assert!(list_length <= list.len());
    let read = unsafe { gauge_read_log(log.as_ptr(), log.len(), list.as_mut_ptr(), list_length) };
    LogRead {
        refusal: read.refusal as i64,
        place: plain(read.place),
        head: read.head,
    }
}

/// Printing a log: the length of the whole text. It is lent the first places of the buffer alone.
pub fn print_log(log: &[u8], buffer: &mut [u8], buffer_length: usize) -> i64 {
    // As above; the buffer is exclusive.
    assert!(buffer_length <= buffer.len());
    let length =
        unsafe { gauge_print_log(log.as_ptr(), log.len(), buffer.as_mut_ptr(), buffer_length) };
    plain(length)
}

/// One call of a walk.
pub fn walk(log: &[u8], cursor: Cursor) -> Walked {
    // As above.
    let walked = unsafe { gauge_walk(log.as_ptr(), log.len(), cursor) };
    Walked {
        refusal: walked.refusal as i64,
        place: plain(walked.place),
        command: walked.command as i64,
        head: walked.head,
        dy: walked.dy as i64,
        dx: walked.dx as i64,
        distortion: walked.distortion as i64,
        blocks: plain(walked.blocks),
        next: walked.next,
    }
}
