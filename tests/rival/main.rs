//! Holds the archive's calls against a rival of the project's own.
//!
//! rival.rs, reckoning.rs and logs.rs are the gauge's rules (docs/REFERENCE.md) once more, written from their words alone and as
//! simply as they read; nothing of the archive's source is used. Sentences in quotation marks are the rules' words, as the gauge's
//! scope has them. Worked pairs, the edges of every range, some thousands of made-up pairs, lists of calls and logs with fixed seeds
//! are put to both, and every field of every answer must agree, and every place of lent memory. One line is printed a group, and the
//! inputs and both answers of a mismatch. The exit status is 0 only if all agree. Compiled and started by the script `run` beside it,
//! with the path of the program that prints logs; with the word `program` behind it that program's cases are run alone.
//!
//! | files | hold |
//! |---|---|
//! | rival, reckoning, logs | the rival: one block, fields and the track, logs |
//! | archive, question | the calls as include/gauge.h declares them; what both sides are asked and answer |
//! | group, pictures | a group of cases; made-up pairs |
//! | worked | the worked pairs |
//! | edges, field_edges, voter_edges, travel_edges, walk_edges, log_edges, longest_logs | the ends of every range, expected numbers typed in |
//! | measuring, searching, fields, calls | made-up pairs, and lists of calls |
//! | half | the search to half a pel: worked pairs, edges, made-up pairs, and pairs moved by half pels |
//! | log_calls, made_up_logs | a log through every call; made-up logs, whole and damaged |
//! | program | the program that prints logs |

mod archive;
mod calls;
mod edges;
mod field_edges;
mod fields;
mod group;
mod half;
mod log_calls;
mod log_edges;
mod logs;
mod longest_logs;
mod made_up_logs;
mod measuring;
mod pictures;
mod program;
mod question;
mod reckoning;
mod rival;
mod searching;
mod travel_edges;
mod voter_edges;
mod walk_edges;
mod worked;

use std::process::ExitCode;

/// All groups of the archive's calls.
fn archive_cases() -> u64 {
    worked::run()
        + edges::run()
        + field_edges::run()
        + voter_edges::run()
        + travel_edges::run()
        + measuring::run()
        + searching::run()
        + half::run()
        + fields::run()
        + calls::run()
        + log_cases()
}

/// All groups of logs, and whether they met every refusal.
fn log_cases() -> u64 {
    let mut logs = log_calls::Logs::new();
    let edges = walk_edges::run() + log_edges::run() + longest_logs::run(&mut logs);
    edges + made_up_logs::run(&mut logs) + logs.end()
}

fn main() -> ExitCode {
    let words: Vec<String> = std::env::args().skip(1).collect();
    let mismatches = match &words[..] {
        [program] => archive_cases() + program::run_all(program),
        [program, only] if only == "program" => program::run_all(program),
        _ => {
            println!("rival PROGRAM [program]");
            return ExitCode::FAILURE;
        }
    };
    if mismatches > 0 {
        println!("rival: {mismatches} cases do not agree");
        return ExitCode::FAILURE;
    }
    println!("rival: all cases agree");
    ExitCode::SUCCESS
}
