//! The rival's log: the section "Log" of docs/REFERENCE.md and its refusals, written down as directly as they read. The walker judges one
//! command; the reader and the printer go along with it from the start; the writer puts a log's bytes together.

use crate::question::{Cursor, Head, LogRead, Walked, Written};
use crate::rival::{
    is_refused_measure, is_refused_n, is_refused_search, is_refused_size, is_refused_window, plain,
};

/// The number of the first of 1 3 4 51 5 that applies to a head that is to be written, or 0: "51 no longer turns away a log for measure 2".
pub fn refused_head(head: &Head) -> i64 {
    let (width, height, n) = (plain(head.width), plain(head.height), plain(head.n));
    if is_refused_size(width, height) {
        return 1;
    }
    if is_refused_n(width, height, n) {
        return 3;
    }
    if is_refused_search(head.search as i64) {
        return 4;
    }
    if is_refused_measure(head.measure) {
        return 51;
    }
    if is_refused_window(head.search as i64, plain(head.w)) {
        return 5;
    }
    0
}

/// "The grid has (height / N, rounded down) × (width / N, rounded down) blocks", for a head that is not refused.
pub fn blocks_of(head: &Head) -> usize {
    (head.height / head.n) * (head.width / head.n)
}

/// "16's largest distortion follows N and measure": "at most 255 × N²", with squares "65,025 × N²".
pub fn largest_distortion(head: &Head) -> i64 {
    let largest_of_pel = match head.measure {
        1 => 255,
        _ => 65_025,
    };
    largest_of_pel * plain(head.n) * plain(head.n)
}

/// What a block can be turned away for: "16 block vector no candidate, distortion below 0 or over 255 × N², or a still block as
/// command 2"; command 5 "with 65,535 or less".
#[derive(Clone, Copy, PartialEq, Eq, Debug)]
pub enum Fault {
    /// A part outside -w..w.
    DyFar,
    DxFar,
    /// The older block not wholly inside its frame, on this side.
    Above,
    Below,
    Left,
    Right,
    /// The distortion.
    Negative,
    Over,
    /// Only in a log.
    StillAsBlock,
    SmallAsLong,
}

pub const FAULTS: [Fault; 10] = [
    Fault::DyFar,
    Fault::DxFar,
    Fault::Above,
    Fault::Below,
    Fault::Left,
    Fault::Right,
    Fault::Negative,
    Fault::Over,
    Fault::StillAsBlock,
    Fault::SmallAsLong,
];

/// All faults of dy, dx and distortion at the grid's block k, of a list or in this command of a log.
pub fn faults(
    head: &Head,
    k: usize,
    [dy, dx, distortion]: [i64; 3],
    command: Option<u8>,
) -> Vec<Fault> {
    let (n, w) = (plain(head.n), plain(head.w));
    let across = head.width / head.n;
    let (top, left) = (plain(k / across) * n + dy, plain(k % across) * n + dx);
    let rules = [
        (Fault::DyFar, dy < -w || dy > w),
        (Fault::DxFar, dx < -w || dx > w),
        (Fault::Above, top < 0),
        (Fault::Below, top + n > plain(head.height)),
        (Fault::Left, left < 0),
        (Fault::Right, left + n > plain(head.width)),
        (Fault::Negative, distortion < 0),
        (Fault::Over, distortion > largest_distortion(head)),
        (
            Fault::StillAsBlock,
            command == Some(2) && (dy, dx, distortion) == (0, 0, 0),
        ),
        (
            Fault::SmallAsLong,
            command == Some(5) && distortion <= 65_535,
        ),
    ];
    let broken = rules.into_iter().filter(|(_, broken)| *broken);
    broken.map(|(fault, _)| fault).collect()
}

/// "Operands of fixed width, highest byte first."
fn number(bytes: &[u8]) -> i64 {
    bytes.iter().fold(0, |sum, &byte| sum * 256 + byte as i64)
}

/// A two's-complement byte.
fn signed(byte: u8) -> i64 {
    let value = byte as i64;
    if value > 127 {
        value - 256
    } else {
        value
    }
}

/// How many bytes a command has, the command byte among them.
pub fn size_of(command: u8) -> usize {
    match command {
        1 => 8,
        2 => 5,
        3 => 1,
        4 => 5,
        5 => 7,
        _ => 9,
    }
}

/// "Block: dy, dx as two's-complement bytes, distortion 2 bytes", behind the command byte; "log command 5 is a block with a four-byte
/// distortion".
pub fn block_values(command: &[u8]) -> [i64; 3] {
    [
        signed(command[1]),
        signed(command[2]),
        number(&command[3..size_of(command[0])]),
    ]
}

/// "Head: width and height (2 bytes each), N, w, search (1 each)", behind the command byte; "command 6 is a head with the measure as an
/// eighth operand byte"; "1 after command 1".
fn head_values(command: &[u8]) -> Head {
    Head {
        width: number(&command[1..3]) as usize,
        height: number(&command[3..5]) as usize,
        n: number(&command[5..6]) as usize,
        w: number(&command[6..7]) as usize,
        search: number(&command[7..8]) as u32,
        measure: if command[0] == 6 {
            command[8] as u32
        } else {
            1
        },
    }
}

/// "A walker over a lent log hands out one command a call."
pub fn walk(log: &[u8], cursor: Cursor) -> Walked {
    let (at, length) = (plain(cursor.at), plain(log.len()));
    let (head, blocks) = (cursor.head, cursor.blocks);
    // After any refusal the walk is over, and the cursor keeps its place.
    let refused = |refusal, place| Walked {
        refusal,
        place,
        next: Cursor {
            at: cursor.at,
            phase: 3,
            ..Cursor::default()
        },
        ..Walked::default()
    };

    // "34 walker called after a refusal [...] or one built by hand whose place is past the log".
    if cursor.phase > 2 || at > length {
        return refused(34, 0);
    }
    // "The call after the end command answers 18 if bytes follow it, else 34."
    if cursor.phase == 2 {
        return if at < length {
            refused(18, at)
        } else {
            refused(34, 0)
        };
    }
    // "Whose head numbers (once a head is read) 15 would turn away, or whose blocks exceed the grid." No head has another measure than 1
    // and 2.
    let head_read = cursor.phase == 1;
    if head_read && (refused_head(&head) != 0 || blocks > blocks_of(&head)) {
        return refused(34, 0);
    }

    // "Due are: a head first and only there, then blocks until the grid is full, then the end."
    let due: &[u8] = if !head_read {
        &[1, 6]
    } else if blocks < blocks_of(&head) {
        &[2, 3, 5]
    } else {
        &[4]
    };

    // "14 command unknown or not due; 13 bytes end before the command is complete"; "at one command 14, then 13, then the rest.
    // The place is the command's offset (the log's length if none begins [...])."
    let rest = &log[cursor.at..];
    let command = match rest.first() {
        Some(&command) => command,
        None => return refused(13, length),
    };
    if !due.contains(&command) {
        return refused(14, at);
    }
    let size = size_of(command);
    let bytes = match rest.get(..size) {
        Some(bytes) => bytes,
        None => return refused(13, at),
    };

    let mut handed_out = Walked {
        command: command as i64,
        next: Cursor {
            at: cursor.at + size,
            ..cursor
        },
        ..Walked::default()
    };
    match command {
        1 | 6 => {
            handed_out.head = head_values(bytes);
            handed_out.next.phase = 1;
            handed_out.next.head = handed_out.head;
            handed_out.next.blocks = 0;
            // "15 head that 1, 3, 4 or 5 would turn away"; command 6 "is written for measure 2 only and carrying any other is turned away by
            // 15".
            let measure = if command == 6 { 2 } else { 1 };
            if refused_head(&handed_out.head) != 0 || handed_out.head.measure != measure {
                return refused(15, at);
            }
        }
        2 | 5 => {
            let values = block_values(bytes);
            [handed_out.dy, handed_out.dx, handed_out.distortion] = values;
            handed_out.next.blocks += 1;
            if !faults(&head, blocks, values, Some(command)).is_empty() {
                return refused(16, at);
            }
        }
        3 => handed_out.next.blocks += 1,
        _ => {
            handed_out.blocks = number(&bytes[1..]);
            // Behind the end a cursor has a place alone.
            handed_out.next = Cursor {
                at: handed_out.next.at,
                phase: 2,
                ..Cursor::default()
            };
            if handed_out.blocks != plain(blocks) {
                return refused(17, at);
            }
        }
    }
    handed_out
}

/// "Another call reads a whole log into a list and answers with the head's numbers."
pub fn read_log(log: &[u8], list: &mut [i32]) -> LogRead {
    let refused = |refusal, place| LogRead {
        refusal,
        place,
        ..LogRead::default()
    };
    let (mut head, mut values) = (Head::default(), Vec::new());
    let mut walked = walk(log, Cursor::default());
    while walked.refusal == 0 {
        if walked.command == 1 || walked.command == 6 {
            head = walked.head;
            // "10 list shorter than three a block; log reading tests it right after an accepted head, with place 8"; after command 6 "10
            // has place 9".
            if list.len() < 3 * blocks_of(&head) {
                return refused(10, if walked.command == 6 { 9 } else { 8 });
            }
        }
        if [2, 3, 5].contains(&walked.command) {
            values.extend([walked.dy, walked.dx, walked.distortion].map(|value| value as i32));
        }
        walked = walk(log, walked.next);
    }
    // Behind the end with no byte left.
    if walked.refusal != 34 {
        return refused(walked.refusal, walked.place);
    }
    list[..values.len()].copy_from_slice(&values);
    LogRead {
        head,
        ..LogRead::default()
    }
}

/// "A log is one head, all grid blocks in order, one end", of numbers that no refusal applies to.
pub fn bytes_of(head: &Head, list: &[i32]) -> Vec<u8> {
    let blocks = blocks_of(head);
    // Command 6 "is written for measure 2 only".
    let mut log = vec![if head.measure == 2 { 6 } else { 1 }];
    log.extend((head.width as u16).to_be_bytes());
    log.extend((head.height as u16).to_be_bytes());
    log.extend([head.n as u8, head.w as u8, head.search as u8]);
    if head.measure == 2 {
        log.push(2);
    }
    for entry in list.chunks(3).take(blocks) {
        // "Still block: no operand, for (0,0) with distortion 0, which a block command may not carry."
        // Command 5 is "used just for distortions above 65,535".
        let (dy, dx) = (entry[0] as i8 as u8, entry[1] as i8 as u8);
        if entry == [0, 0, 0] {
            log.push(3);
        } else if entry[2] > 65_535 {
            log.extend([5, dy, dx]);
            log.extend((entry[2] as u32).to_be_bytes());
        } else {
            log.extend([2, dy, dx]);
            log.extend((entry[2] as u16).to_be_bytes());
        }
    }
    log.push(4);
    log.extend((blocks as u32).to_be_bytes());
    log
}

/// "Writing tests 1, 3, 4, 5, 10, then 16 with the block's number, from 0, as place, then 19: buffer shorter than the log", and 51
/// after 4. "Writing answers with the log's length."
pub fn write_log(head: &Head, list: &[i32], buffer: &mut [u8]) -> Written {
    let refused = |refusal, place| Written {
        refusal,
        place,
        length: 0,
    };
    let first = refused_head(head);
    if first != 0 {
        return refused(first, 0);
    }
    let blocks = blocks_of(head);
    if list.len() < 3 * blocks {
        return refused(10, 0);
    }
    for (k, entry) in list.chunks(3).take(blocks).enumerate() {
        let values = [entry[0] as i64, entry[1] as i64, entry[2] as i64];
        if !faults(head, k, values, None).is_empty() {
            return refused(16, plain(k));
        }
    }
    let log = bytes_of(head, list);
    if buffer.len() < log.len() {
        return refused(19, 0);
    }
    buffer[..log.len()].copy_from_slice(&log);
    Written {
        length: plain(log.len()),
        ..Written::default()
    }
}

/// "The program [...] prints a line per command until a refusal, 34 itself unprinted."
pub fn print_log(log: &[u8]) -> String {
    // "20 program only: more than 65,536 bytes, place 65536, printed alone".
    if log.len() > 65_536 {
        return "refused 20 at 65536\n".to_string();
    }
    let mut text = String::new();
    let mut walked = walk(log, Cursor::default());
    while walked.refusal == 0 {
        let Head {
            width,
            height,
            n,
            w,
            search,
            measure,
        } = walked.head;
        text += &match walked.command {
            1 => format!("{width} {height} {n} {w} {search}\n"),
            // "Its printed line ends with the measure."
            6 => format!("{width} {height} {n} {w} {search} {measure}\n"),
            4 => format!("end {}\n", walked.blocks),
            _ => format!("{} {} {}\n", walked.dy, walked.dx, walked.distortion),
        };
        walked = walk(log, walked.next);
    }
    if walked.refusal != 34 {
        text += &format!("refused {} at {}\n", walked.refusal, walked.place);
    }
    text
}
