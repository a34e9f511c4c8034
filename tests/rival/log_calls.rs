//! One log through every call that takes logs: written, read, read and written back, printed and walked, with every answer, every
//! place of lent memory and a few behind it against the rival. Each refusal of each call, and each fault that 16 is for, must have
//! been met in the end, and each command.

use crate::archive;
use crate::fields::{length_around, BEHIND};
use crate::group::Group;
use crate::logs::{self, block_values, blocks_of, faults, Fault, FAULTS};
use crate::pictures::Chance;
use crate::question::{Cursor, Head, Walked, Written};
use std::fmt;

/// The longest text of a log: the header's GAUGE_TEXT_MOST.
pub const TEXT_MOST: i64 = 393_236;

/// Calls of the walker after its first refusal.
const CALLS_AFTER: usize = 3;

/// A log and where it comes from, printed where something differs.
pub struct Case<'a> {
    pub what: &'a str,
    pub seed: u64,
    pub log: &'a [u8],
}

impl fmt::Display for Case<'_> {
    fn fmt(&self, out: &mut fmt::Formatter) -> fmt::Result {
        let (what, seed, length) = (self.what, self.seed, self.log.len());
        write!(out, "{what}, seed {seed}, log of {length} bytes:")?;
        for byte in self.log.iter().take(100) {
            write!(out, " {byte:02x}")?;
        }
        Ok(())
    }
}

/// How often each refusal came in each call (0: accepted), and how often a block was turned away for one fault alone.
struct Met {
    writing: [u64; 52],
    reading: [u64; 52],
    printing: [u64; 52],
    walking: [u64; 52],
    faults_written: [u64; FAULTS.len()],
    faults_in_logs: [u64; FAULTS.len()],
    /// How often each command was handed out, and each refused by 15, 16 and 13.
    commands: [u64; 7],
    refused: [u64; 7],
    cut: [u64; 7],
    /// Reading's 10, by its place.
    short_list: [u64; 10],
}

/// Raises the count of the fault if it is the only one.
fn alone(counts: &mut [u64; FAULTS.len()], faults: &[Fault]) {
    if let &[fault] = faults {
        counts[fault as usize] += 1;
    }
}

/// The groups of a run, and what was met in it.
pub struct Logs {
    writing: Group,
    reading: Group,
    written_back: Group,
    printing: Group,
    walking: Group,
    met: Met,
}

/// Memory by chance.
pub fn bytes(chance: &mut Chance, length: usize) -> Vec<u8> {
    (0..length).map(|_| chance.next() as u8).collect()
}

pub fn numbers(chance: &mut Chance, length: usize) -> Vec<i32> {
    (0..length).map(|_| chance.next() as i32).collect()
}

/// One case: lent memory must hold the same at every place. Prints the first that differs, with what both have there.
pub fn same_places<T: PartialEq + Copy + fmt::Debug>(
    group: &mut Group,
    inputs: impl fmt::Display,
    here: &[T],
    there: &[T],
) {
    let places = here.iter().zip(there).enumerate();
    let mut differing = places.filter(|(_, (one, other))| one != other);
    group.same(inputs, differing.next(), None);
}

impl Logs {
    pub fn new() -> Logs {
        Logs {
            writing: Group::new("logs, writing"),
            reading: Group::new("logs, reading"),
            written_back: Group::new("logs, read and written back"),
            printing: Group::new("logs, printing"),
            walking: Group::new("logs, walking"),
            met: Met {
                writing: [0; 52],
                reading: [0; 52],
                printing: [0; 52],
                walking: [0; 52],
                faults_written: [0; FAULTS.len()],
                faults_in_logs: [0; FAULTS.len()],
                commands: [0; 7],
                refused: [0; 7],
                cut: [0; 7],
                short_list: [0; 10],
            },
        }
    }

    /// Writes into a buffer of this length; hands the log back, empty if refused.
    pub fn write(
        &mut self,
        chance: &mut Chance,
        seed: u64,
        head: &Head,
        list: &[i32],
        buffer_length: usize,
    ) -> Vec<u8> {
        let mut here = bytes(chance, buffer_length + BEHIND);
        let mut there = here.clone();
        let answer = archive::write_log(head, list, &mut here, buffer_length);
        let wanted = logs::write_log(head, list, &mut there[..buffer_length]);
        let list_length = list.len();
        let inputs =
            format!("{head:?}, list of {list_length}, buffer of {buffer_length}, seed {seed}");
        self.writing.same(&inputs, answer, wanted);
        same_places(&mut self.writing, &inputs, &here, &there);
        self.met.writing[wanted.refusal as usize] += 1;
        if wanted.refusal == 16 {
            let k = wanted.place as usize;
            let values = [0, 1, 2].map(|i| list[3 * k + i] as i64);
            let broken = faults(head, k, values, None);
            alone(&mut self.met.faults_written, &broken);
        }
        there.truncate(wanted.length as usize);
        there
    }

    /// Reads into a list of about the length that is needed, and writes an accepted log back.
    fn read(&mut self, chance: &mut Chance, case: &Case) {
        let begun = logs::walk(case.log, Cursor::default());
        let needed = match begun.refusal {
            0 => 3 * blocks_of(&begun.head),
            _ => chance.between(0, 9) as usize,
        };
        let list_length = length_around(chance, needed);
        let mut here = numbers(chance, list_length + BEHIND);
        let mut there = here.clone();
        let answer = archive::read_log(case.log, &mut here, list_length);
        let wanted = logs::read_log(case.log, &mut there[..list_length]);
        self.reading.same(case, answer, wanted);
        same_places(&mut self.reading, case, &here, &there);
        self.met.reading[wanted.refusal as usize] += 1;
        if wanted.refusal == 10 {
            self.met.short_list[wanted.place as usize] += 1;
        }
        if wanted.refusal == 0 {
            let length = case.log.len();
            let mut buffer = bytes(chance, length + BEHIND);
            let kept = [case.log, &buffer[length..]].concat();
            let list = &here[..list_length];
            let answer = archive::write_log(&answer.head, list, &mut buffer, length);
            let written = Written {
                length: length as i64,
                ..Written::default()
            };
            self.written_back.same(case, answer, written);
            same_places(&mut self.written_back, case, &buffer, &kept);
        }
    }

    /// Prints into a buffer of about the length of the text: as much of it as fits, and the buffer behind it kept.
    fn print(&mut self, chance: &mut Chance, case: &Case) {
        let text = logs::print_log(case.log).into_bytes();
        let buffer_length = match chance.between(0, 2) {
            0 => chance.between(0, text.len() as i64) as usize,
            _ => length_around(chance, text.len()),
        };
        let mut here = bytes(chance, buffer_length + BEHIND);
        let mut there = here.clone();
        let length = archive::print_log(case.log, &mut here, buffer_length);
        let put = text.len().min(buffer_length);
        there[..put].copy_from_slice(&text[..put]);
        self.printing.same(case, length, text.len() as i64);
        same_places(&mut self.printing, case, &here, &there);
        self.printing
            .holds(case, length <= TEXT_MOST, &length, &TEXT_MOST);
    }

    /// Walks to the first refusal, and a few calls on.
    fn walk(&mut self, case: &Case) {
        let mut cursor = Cursor::default();
        let mut calls_left = usize::MAX;
        let mut ended_by = 0;
        while calls_left > 0 {
            let walked = self.one_call(case, cursor);
            cursor = walked.next;
            if walked.refusal != 0 && calls_left > CALLS_AFTER {
                calls_left = CALLS_AFTER;
                ended_by = walked.refusal;
            } else if walked.refusal != 0 {
                calls_left -= 1;
                self.walking
                    .same(case, (walked.refusal, walked.place), (34, 0));
            }
        }
        let printed = if case.log.len() > 65_536 {
            20
        } else {
            ended_by
        };
        self.met.printing[printed as usize] += 1;
    }

    /// One call of the walker from a cursor; hands the rival's answer back.
    pub fn one_call(&mut self, case: &Case, cursor: Cursor) -> Walked {
        let answer = archive::walk(case.log, cursor);
        let wanted = logs::walk(case.log, cursor);
        self.walking
            .same(format_args!("{case}, {cursor:?}"), answer, wanted);
        self.met.walking[wanted.refusal as usize] += 1;
        self.met.commands[wanted.command as usize] += 1;
        let rest = case.log.get(cursor.at..).unwrap_or(&[]);
        let command = rest.first().copied().unwrap_or(0);
        match wanted.refusal {
            13 => self.met.cut[command as usize] += 1,
            15 | 16 => self.met.refused[command as usize] += 1,
            _ => {}
        }
        if wanted.refusal == 16 {
            let broken = faults(
                &cursor.head,
                cursor.blocks,
                block_values(rest),
                Some(command),
            );
            alone(&mut self.met.faults_in_logs, &broken);
        }
        wanted
    }

    /// Reads, prints and walks a log.
    pub fn look_at(&mut self, chance: &mut Chance, what: &str, seed: u64, log: &[u8]) {
        let case = Case { what, seed, log };
        self.read(chance, &case);
        self.print(chance, &case);
        self.walk(&case);
    }

    /// Ends the groups. Every refusal that a call has must have been met, and each fault alone, or the cases would test too little.
    pub fn end(mut self) -> u64 {
        let met = &self.met;
        let mut each = |what: &str, counts: Vec<(String, u64)>| {
            let text: Vec<String> = counts.iter().map(|(of, n)| format!("{of}: {n}")).collect();
            println!("{what}, how often met: {}", text.join(", "));
            let all = counts.iter().all(|&(_, count)| count > 0);
            self.walking.holds(what, all, &counts, &"each met");
        };
        for (what, counts, wanted) in [
            (
                "writing",
                &met.writing,
                &[0, 1, 3, 4, 51, 5, 10, 16, 19][..],
            ),
            ("reading", &met.reading, &[0, 10, 13, 14, 15, 16, 17, 18]),
            ("printing", &met.printing, &[13, 14, 15, 16, 17, 18, 20, 34]),
            ("walking", &met.walking, &[0, 13, 14, 15, 16, 17, 18, 34]),
        ] {
            let count_of = |&refusal: &usize| (refusal.to_string(), counts[refusal]);
            each(
                &format!("logs, refusals of {what}"),
                wanted.iter().map(count_of).collect(),
            );
        }
        // A list has no commands, and a log cannot say a distortion below 0.
        let of_commands = [Fault::StillAsBlock, Fault::SmallAsLong];
        for (what, counts, not) in [
            ("writing", &met.faults_written, &of_commands[..]),
            ("logs", &met.faults_in_logs, &[Fault::Negative]),
        ] {
            let wanted = FAULTS.into_iter().filter(|fault| !not.contains(fault));
            let counts = wanted.map(|fault| (format!("{fault:?}"), counts[fault as usize]));
            each(&format!("logs, faults in {what}"), counts.collect());
        }
        for (what, counts, wanted) in [
            (
                "commands handed out",
                &met.commands[..],
                &[1, 2, 3, 4, 5, 6][..],
            ),
            ("commands refused by 15 or 16", &met.refused, &[1, 2, 5, 6]),
            ("commands cut off", &met.cut, &[1, 2, 4, 5, 6]),
            ("places of 10 in reading", &met.short_list, &[8, 9]),
        ] {
            let counts = wanted.iter().map(|&of| (of.to_string(), counts[of]));
            each(&format!("logs, {what}"), counts.collect());
        }
        self.writing.end()
            + self.reading.end()
            + self.written_back.end()
            + self.printing.end()
            + self.walking.end()
    }
}
