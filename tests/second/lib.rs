//! The second program: the replay of a recording, and of a drawer of them, written from the documents alone and without proofs. The tests
//! hold the proved library to it, and the benchmark measures the one against the other.

mod drawer;
mod ledger;
mod machine;
mod recording;

pub use drawer::{drawer, printed_drawer};

use ledger::{Kind, Ledger, Row};
use machine::{replay, Unwatched};
use recording::Records;
use std::fmt::Write;

pub const LONGEST_RECORDING: usize = 65_536;
pub const MOST_OPERATIONS: usize = 1_024;

const REPORT_VERSION: u8 = 1;
const REPORT_HEAD: usize = 9;
const REPORT_ROW: usize = 20;

/// Number 0 and place 0 for acceptance, otherwise the refusal's.
#[derive(Clone, Copy, Debug, PartialEq, Eq)]
pub struct Answer {
    pub number: u32,
    pub place: u32,
}

impl Answer {
    pub const ACCEPTED: Answer = Answer { number: 0, place: 0 };

    fn refused(number: u32, place: usize) -> Answer {
        Answer { number, place: place as u32 }
    }
}

/// Calls `$run::<processes, nodes + 1>`, so that every array of the replay has the size its height asks for.
macro_rules! at_height {
    ($height:expr, $run:ident($($argument:expr),*)) => {
        match $height {
            1 => $run::<2, 4>($($argument),*),
            2 => $run::<4, 8>($($argument),*),
            3 => $run::<8, 16>($($argument),*),
            4 => $run::<16, 32>($($argument),*),
            5 => $run::<32, 64>($($argument),*),
            6 => $run::<64, 128>($($argument),*),
            _ => unreachable!("the header's height is 1 to 6"),
        }
    };
}

pub fn check(rec: &[u8]) -> Answer {
    fn checked<const PROCESSES: usize, const NODES: usize>(records: Records) -> Result<u32, Answer> {
        replay::<PROCESSES, NODES, _>(records, &mut Unwatched)
    }
    let checked = recording::open(rec).and_then(|(height, records)| at_height!(height, checked(records)));
    checked.err().unwrap_or(Answer::ACCEPTED)
}

pub fn report(rec: &[u8], out: &mut [u8]) -> Answer {
    let outcome = match outcome(rec) {
        Ok(outcome) => outcome,
        Err(refusal) => return refusal,
    };
    match out.get_mut(..outcome.needed()) {
        Some(out) => {
            outcome.lay(out);
            Answer::ACCEPTED
        }
        None => Answer::refused(11, outcome.needed()),
    }
}

/// What the printing program prints for this standard input.
pub fn printed(rec: &[u8]) -> String {
    match outcome(rec) {
        Ok(outcome) => outcome.print(),
        Err(refusal) => printed_refusal(refusal),
    }
}

fn printed_refusal(refusal: Answer) -> String {
    format!("refused {} {}\n", refusal.number, refusal.place)
}

struct Outcome {
    counter: u32,
    rows: Vec<Row>,
}

fn outcome(rec: &[u8]) -> Result<Outcome, Answer> {
    fn watched<const PROCESSES: usize, const NODES: usize>(records: Records) -> Result<Outcome, Answer> {
        let mut ledger = Ledger::<PROCESSES, NODES>::new(records.most_operations());
        let counter = replay::<PROCESSES, NODES, _>(records, &mut ledger)?;
        Ok(Outcome { counter, rows: ledger.into_rows() })
    }
    let (height, records) = recording::open(rec)?;
    at_height!(height, watched(records))
}

impl Outcome {
    /// The bytes of the report.
    fn needed(&self) -> usize {
        REPORT_HEAD + REPORT_ROW * self.rows.len()
    }

    fn lay(&self, out: &mut [u8]) {
        let (head, rows) = out.split_at_mut(REPORT_HEAD);
        head[0] = REPORT_VERSION;
        head[1..5].copy_from_slice(&((4 + rows.len()) as u32).to_be_bytes());
        head[5..9].copy_from_slice(&self.counter.to_be_bytes());
        for (row, out) in self.rows.iter().zip(rows.chunks_exact_mut(REPORT_ROW)) {
            out[0] = row.process;
            out[1] = row.kind as u8;
            out[2] = row.finished as u8;
            out[3] = row.contention;
            out[4..8].copy_from_slice(&row.steps.to_be_bytes());
            out[8..12].copy_from_slice(&row.answer.to_be_bytes());
            out[12..16].copy_from_slice(&row.rank.to_be_bytes());
            out[16..20].copy_from_slice(&row.second_attempts.to_be_bytes());
        }
    }

    fn print(&self) -> String {
        let mut text = format!("operations {} counter {}\n", self.rows.len(), self.counter);
        for row in &self.rows {
            let kind = match row.kind {
                Kind::Read => "read",
                Kind::Add => "add",
            };
            writeln!(
                text,
                "{} {} {} {} {} {} {} {}",
                row.process, kind, row.finished as u8, row.contention, row.steps, row.answer, row.rank, row.second_attempts
            )
            .expect("a String takes every line");
        }
        text
    }
}
