//! The program: started anew for every case, as a user starts it. For the bytes that it is fed it must write what the archive's
//! printing call puts for them, to the last byte, and end by itself: for whole and damaged logs, for as many bytes as it takes and
//! more, for input that comes byte by byte or fails, and for output that nobody reads.
//!
//! A program that reads too little (18 bytes, as the stored sample has, or what the first read gives) fails "whole and damaged
//! logs" and "input that dribbles"; one that does not know 20 fails "65,536 bytes and more".

use crate::archive;
use crate::group::Group;
use crate::log_calls::TEXT_MOST;
use crate::longest_logs::{logs_of_65536, still_log};
use crate::made_up_logs::{damaged_log, good_log};
use crate::pictures::Chance;
use std::fs::{File, OpenOptions};
use std::io::{Read, Write};
use std::os::unix::io::OwnedFd;
use std::os::unix::net::UnixStream;
use std::process::{Child, ChildStdin, Command, Stdio};
use std::thread;
use std::time::{Duration, Instant};

/// A program that has not ended by then hangs.
const LONGEST: Duration = Duration::from_secs(10);

/// What the archive prints for these bytes.
fn text_of(log: &[u8]) -> Vec<u8> {
    let mut text = vec![0; TEXT_MOST as usize];
    let lent = text.len();
    let length = archive::print_log(log, &mut text, lent);
    text.truncate(length as usize);
    text
}

/// How a started program ended.
#[derive(Clone, Copy, PartialEq, Eq, Debug)]
enum End {
    /// With status 0.
    Done,
    /// With another, or by a signal.
    Other,
    /// Not at all.
    Hangs,
}

/// Waits for the program, and no longer than it may take.
fn end_of(child: &mut Child) -> End {
    let begun = Instant::now();
    while begun.elapsed() < LONGEST {
        match child.try_wait().expect("the program can be waited for") {
            Some(status) if status.success() => return End::Done,
            Some(_) => return End::Other,
            None => thread::sleep(Duration::from_micros(100)),
        }
    }
    child.kill().expect("the program can be ended");
    child.wait().expect("the program can be waited for");
    End::Hangs
}

/// Feeds the pieces one after the other, with a pause before each, and closes the input. The program may stop reading before.
fn feed(input: Option<ChildStdin>, pieces: Vec<Vec<u8>>, pause: Duration) {
    let mut input = match input {
        Some(input) => input,
        None => return,
    };
    for piece in pieces {
        if !pause.is_zero() {
            thread::sleep(pause);
        }
        if input.write_all(&piece).is_err() {
            return;
        }
    }
}

/// One run: all that the program wrote, and how it ended. Where its input is no pipe there is nothing to feed.
fn run(command: &mut Command, pieces: Vec<Vec<u8>>, pause: Duration) -> (Vec<u8>, End) {
    let mut child = command
        .stdout(Stdio::piped())
        .spawn()
        .expect("the program starts");
    let input = child.stdin.take();
    let mut output = child.stdout.take().expect("the output is a pipe");
    let feeder = thread::spawn(move || feed(input, pieces, pause));
    let reader = thread::spawn(move || {
        let mut text = Vec::new();
        output.read_to_end(&mut text).map(|_| text)
    });
    let end = end_of(&mut child);
    feeder.join().expect("the input is fed");
    let text = reader.join().expect("the output is read");
    (text.expect("the output is read"), end)
}

/// A text in a form that is short to print.
fn shown(text: &[u8]) -> String {
    let words = String::from_utf8_lossy(text);
    let last = words.lines().last().unwrap_or("");
    format!("{} bytes, the last line {last:?}", text.len())
}

/// The program and the cases of one group.
struct Cases<'a> {
    program: &'a str,
    group: Group,
}

impl Cases<'_> {
    fn new<'a>(program: &'a str, what: &str) -> Cases<'a> {
        Cases {
            program,
            group: Group::new(format!("the program, {what}")),
        }
    }

    /// One case: the text and the end of a run against the archive's text for these bytes.
    fn agrees(&mut self, what: &str, log: &[u8], (text, end): (Vec<u8>, End)) {
        let wanted = text_of(log);
        let inputs = format!("{what}, {} bytes", log.len());
        let both = (&shown(&text), end);
        let good = text == wanted && end == End::Done;
        self.group
            .holds(inputs, good, &both, &(shown(&wanted), End::Done));
    }

    /// A log through a pipe, in pieces of these lengths in turn, with a pause before each.
    fn piped(&mut self, what: &str, log: &[u8], lengths: &[usize], pause: u64) {
        let (mut pieces, mut rest) = (Vec::new(), log);
        for &length in lengths.iter().cycle() {
            if rest.is_empty() {
                break;
            }
            let (piece, behind) = rest.split_at(length.min(rest.len()));
            pieces.push(piece.to_vec());
            rest = behind;
        }
        let mut command = Command::new(self.program);
        let ran = run(
            command.stdin(Stdio::piped()),
            pieces,
            Duration::from_micros(pause),
        );
        self.agrees(what, log, ran);
    }

    /// A log at once.
    fn at_once(&mut self, what: &str, log: &[u8]) {
        self.piped(what, log, &[usize::MAX], 0);
    }

    /// An input that is no pipe, of which these bytes can be read.
    fn lent(&mut self, what: &str, input: impl Into<Stdio>, log: &[u8]) {
        let mut command = Command::new(self.program);
        let ran = run(command.stdin(input), vec![], Duration::ZERO);
        self.agrees(what, log, ran);
    }

    /// The program as a shell starts it, with these words behind its name.
    fn shell(&self, before: &str, after: &str) -> Command {
        let mut command = Command::new("sh");
        command.args(["-c", &format!("{before} exec \"$0\" {after}"), self.program]);
        command
    }
}

/// Logs as the rival makes them.
fn whole_and_damaged(program: &str) -> u64 {
    let mut cases = Cases::new(program, "whole and damaged logs");
    cases.at_once("no byte", &[]);
    for seed in 500_000..500_120 {
        let (_, log) = good_log(&mut Chance::new(seed));
        cases.at_once(&format!("a whole log, seed {seed}"), &log);
    }
    for seed in 501_000..501_180 {
        let (what, log) = damaged_log(&mut Chance::new(seed));
        cases.at_once(&format!("{what}, seed {seed}"), &log);
    }
    cases.group.end()
}

/// "20 program only: more than 65,536 bytes, place 65536, printed alone".
fn at_most(program: &str) -> u64 {
    let mut cases = Cases::new(program, "65,536 bytes and more");
    for (longest, _) in logs_of_65536() {
        cases.at_once("as long as a log may be", &longest);
        for more in [1, 2, 4_096, 65_535, 65_536, 65_537, 1_000_000] {
            let log = [&longest[..], &vec![3; more]].concat();
            cases.at_once("longer than a log may be", &log);
            let damaged = [&vec![9], &log[1..]].concat();
            cases.at_once("longer, and no log", &damaged);
        }
    }
    let still = still_log();
    for length in [65_534, 65_535, 65_536, 65_537, still.len()] {
        cases.at_once("still blocks alone", &still[..length]);
    }
    for (length, last) in [
        (65_536, "refused 14 at 0\n"),
        (65_537, "refused 20 at 65536\n"),
    ] {
        let text = String::from_utf8_lossy(&text_of(&vec![0; length])).to_string();
        cases.group.same("bytes 0", text, last.to_string());
        cases.at_once("bytes 0", &vec![0; length]);
    }
    cases.group.end()
}

/// Input that comes in pieces, as from a slow line: it is read to its end.
fn dribbles(program: &str) -> u64 {
    let mut cases = Cases::new(program, "input that dribbles");
    for seed in 502_000..502_020 {
        let (_, mut log) = good_log(&mut Chance::new(seed));
        log.truncate(100);
        cases.piped("a byte at a time", &log, &[1], 200);
    }
    for seed in 502_100..502_110 {
        let (_, log) = good_log(&mut Chance::new(seed));
        let log = &log[..log.len().min(800)];
        cases.piped("a few bytes at a time", log, &[1, 7, 2, 18, 3, 5], 100);
        cases.piped("a few bytes, then the rest", log, &[18, usize::MAX], 10_000);
    }
    let [(longest, _), (squares, _)] = logs_of_65536();
    let one_more = [&longest[..], &[0]].concat();
    for log in [&longest, &one_more, &squares] {
        cases.piped("a byte at a time", log, &[1], 0);
        cases.piped(
            "pieces by no rule",
            log,
            &[4_096, 1, 4_095, 4_097, 999],
            100,
        );
        cases.piped("the last byte late", log, &[65_535, 1, 1], 10_000);
    }
    cases.group.end()
}

/// Input that cannot be read, from its start or from a place on: the bytes before are the log.
fn fails(program: &str) -> u64 {
    let mut cases = Cases::new(program, "input that fails");
    let ran = run(&mut cases.shell("", "<&-"), vec![], Duration::ZERO);
    cases.agrees("closed", &[], ran);
    let folder = File::open("/").expect("a folder opens");
    cases.lent("a folder", folder, &[]);
    let writing = OpenOptions::new().write(true).open("/dev/null");
    cases.lent("open for writing", writing.expect("it opens"), &[]);
    let log = good_log(&mut Chance::new(503_000)).1;
    for length in 0..log.len().min(40) {
        // A line that is reset: what was sent can be read, then a read fails.
        let (mut here, mut there) = UnixStream::pair().expect("a pair of sockets");
        here.write_all(&log[..length]).expect("it is sent");
        there.write_all(&[0]).expect("it is sent");
        drop(here);
        cases.lent("a line that is reset", OwnedFd::from(there), &log[..length]);
    }
    cases.group.end()
}

/// Output that is not read, or not to its end: the program ends all the same.
fn unread(program: &str) -> u64 {
    let mut cases = Cases::new(program, "output that is not read");
    let still = &still_log()[..65_536];
    let text = text_of(still);
    for (signal, before) in [("fatal", ""), ("ignored", "trap '' PIPE;")] {
        for read in [0, 1, 10, 65_537, text.len() - 1] {
            let mut child = cases
                .shell(before, "")
                .stdin(Stdio::piped())
                .stdout(Stdio::piped())
                .spawn()
                .expect("the program starts");
            // Closed before the input is there, or after so many bytes.
            let mut output = child.stdout.take().filter(|_| read > 0);
            feed(child.stdin.take(), vec![still.to_vec()], Duration::ZERO);
            let mut front = vec![0; read];
            let whole = match &mut output {
                Some(output) => output.read_exact(&mut front).is_ok(),
                None => true,
            };
            drop(output);
            let end = end_of(&mut child);
            let good = end != End::Hangs && whole && front == text[..read];
            let inputs = format!("closed after {read} bytes, the signal for it {signal}");
            cases
                .group
                .holds(inputs, good, &(shown(&front), end), &"it ends");
        }
    }
    for after in [">&-", ">/dev/full", "</dev/null >&-"] {
        let mut command = cases.shell("", after);
        let ran = run(
            command.stdin(Stdio::piped()),
            vec![still.to_vec()],
            Duration::ZERO,
        );
        let good = ran.1 != End::Hangs && ran.0.is_empty();
        cases.group.holds(after, good, &ran.1, &"it ends");
    }
    cases.group.end()
}

/// All cases of the program; answers with the number of mismatches.
pub fn run_all(program: &str) -> u64 {
    whole_and_damaged(program)
        + at_most(program)
        + dribbles(program)
        + fails(program)
        + unread(program)
}
