//! One input given to the proved library, to the second program and to the printing program.

use crate::buffer::{hexadecimal, Buffer};
use crate::cases::{Case, Expected};
use crate::proved::{Lent, Proved};
use second::Answer;
use std::ffi::{c_int, c_ulong};
use std::io::{ErrorKind, Write};
use std::os::fd::AsRawFd;
use std::path::PathBuf;
use std::process::{ChildStdin, Command, Stdio};
use std::thread;
use std::time::{Duration, Instant};

/// Room for every report, and more.
pub const LARGE: usize = 9 + 20 * 1_024 + 100;
/// Recordings above this length are tried with fewer buffers.
const LONG: usize = 6_000;

/// What does not agree, for a reader.
pub type Disagreement = String;

/// The answers of one input: of check, and of report for each buffer.
pub struct Answers {
    pub check: Answer,
    pub reports: Vec<Answer>,
}

macro_rules! agree {
    ($what:expr, $one:ident: $left:expr, $other:ident: $right:expr) => {{
        let (left, right) = ($left, $right);
        if left != right {
            let (one, other) = (stringify!($one), stringify!($other));
            return Err(format!("{}\n{one}: {left:?}\n{other}: {right:?}\n", $what));
        }
    }};
}
pub(crate) use agree;

pub struct Entries {
    proved: Proved,
    turn: usize,
}

impl Entries {
    pub fn new(caller: PathBuf) -> Entries {
        Entries { proved: Proved::new(caller), turn: 0 }
    }

    /// Both entries of the library against the second program, with buffers of every length that matters.
    pub fn compare(&mut self, rec: &[u8]) -> Result<Answers, Disagreement> {
        let mut lent = self.proved.lend(rec)?;
        let check = second::check(rec);
        agree!("check", proved: lent.check()?, second: check);
        let mut reports = vec![];
        for room in rooms(rec) {
            self.turn += 1;
            reports.push(compare_report(&mut lent, rec, room, self.turn)?);
        }
        lent.give_back()?;
        Ok(Answers { check, reports })
    }

    /// A case of the document: the library and the second program against the expected answers.
    pub fn compare_case(&mut self, case: &Case) -> Result<(), Disagreement> {
        let rec = &case.rec[..];
        let check = match case.expected {
            Expected::Refused { number, place } => Answer { number, place },
            Expected::Accepted { .. } => Answer::ACCEPTED,
        };
        agree!("check", document: check, second: second::check(rec));
        let report = case.expected.report();
        if let Some(spelled) = case.spelled_report {
            agree!("the report spelled out", document: Some(spelled), case: report.as_deref());
        }

        let mut lent = self.proved.lend(rec)?;
        agree!("check", document: check, proved: lent.check()?);
        let without_room = match &report {
            Some(report) => {
                let needed = report.len();
                for room in [needed, needed + 1, LARGE] {
                    let mut expected = vec![FILL; room];
                    expected[..needed].copy_from_slice(report);
                    expect_report(&mut lent, rec, room, check, &expected)?;
                }
                let short = Answer { number: 11, place: needed as u32 };
                for room in [0, 1, 8, needed - 1] {
                    expect_report(&mut lent, rec, room, short, &vec![FILL; room])?;
                }
                short
            }
            None => {
                for room in [0, 8, 9, LARGE] {
                    expect_report(&mut lent, rec, room, check, &vec![FILL; room])?;
                }
                check
            }
        };
        agree!("report, NULL for the buffer", document: without_room, proved: lent.report(&mut Buffer::null())?);
        lent.give_back()?;

        if rec.is_empty() {
            let mut lent = self.proved.lend_null()?;
            agree!("check, NULL for the recording", document: check, proved: lent.check()?);
            agree!("report, NULL for both", document: check, proved: lent.report(&mut Buffer::null())?);
            expect_report(&mut lent, rec, LARGE, check, &[FILL; LARGE])?;
        }
        self.compare(rec).map(|_| ())
    }
}

/// What an expected buffer holds where nothing is written.
pub const FILL: u8 = 0x5a;

fn expect_report(lent: &mut Lent, rec: &[u8], room: usize, answer: Answer, expected: &[u8]) -> Result<(), Disagreement> {
    let what = format!("report, a buffer of {room}");
    let mut buffer = Buffer::filled(FILL, room);
    agree!(what, document: answer, proved: lent.report(&mut buffer)?);
    agree!(what, document: hexadecimal(expected), proved: hexadecimal(buffer.bytes()));
    let mut buffer = vec![FILL; room];
    agree!(what, document: answer, second: second::report(rec, &mut buffer));
    agree!(what, document: hexadecimal(expected), second: hexadecimal(&buffer));
    Ok(())
}

fn compare_report(lent: &mut Lent, rec: &[u8], room: usize, turn: usize) -> Result<Answer, Disagreement> {
    let what = format!("report, a buffer of {room}");
    let untouched = Buffer::at_turn(room, turn);
    let (mut by_proved, mut by_second) = (untouched.clone(), untouched.clone());
    let proved = lent.report(&mut by_proved)?;
    let second = second::report(rec, by_second.bytes_mut());
    agree!(what, proved: proved, second: second);
    untouched.hold(&what, second.number == 0, &by_proved, &by_second, column)?;
    Ok(second)
}

fn rooms(rec: &[u8]) -> Vec<usize> {
    match second::report(rec, &mut []) {
        Answer { number: 11, place } => {
            let needed = place as usize;
            let mut rooms = if rec.len() > LONG {
                vec![needed - 1, needed, needed + 21]
            } else {
                vec![0, 1, 8, 9, needed - 1, needed, needed + 1, needed + 21, LARGE]
            };
            rooms.sort_unstable();
            rooms.dedup();
            rooms
        }
        _ if rec.len() > LONG => vec![9, LARGE],
        _ => vec![0, 9, 50, LARGE],
    }
}

/// How the printing program is fed.
#[derive(Clone, Copy)]
pub enum Feeding {
    Whole,
    Pieces(usize),
}

/// The first pieces are each taken from the pipe before the next is written; to wait for all of them would be slow.
const PIECES_APART: usize = 3;
const LONGEST_WAIT: Duration = Duration::from_secs(5);

extern "C" {
    fn ioctl(file: c_int, request: c_ulong, ...) -> c_int;
}

/// Linux: how many bytes are in the pipe.
const FIONREAD: c_ulong = 0x541b;

fn wait_until_taken(pipe: &ChildStdin) {
    let start = Instant::now();
    let mut bytes: c_int = 1;
    while bytes > 0 && start.elapsed() < LONGEST_WAIT {
        // SAFETY: the request writes one number.
        if unsafe { ioctl(pipe.as_raw_fd(), FIONREAD, &mut bytes) } != 0 {
            return;
        }
        thread::sleep(Duration::from_micros(200));
    }
}

pub struct Printing {
    replay: PathBuf,
}

impl Printing {
    pub fn new(replay: PathBuf) -> Printing {
        Printing { replay }
    }

    /// The printing program's text against the second program's.
    pub fn compare(&self, rec: &[u8], feeding: Feeding) -> Result<(), Disagreement> {
        agree!("printed text", replay: self.printed(rec, feeding)?, second: second::printed(rec));
        Ok(())
    }

    /// Both against the expected text.
    pub fn compare_case(&self, case: &Case, feeding: Feeding) -> Result<(), Disagreement> {
        let text = case.expected.printed();
        if let Some(spelled) = case.spelled_text {
            agree!("the text spelled out", document: spelled, case: &text);
        }
        agree!("printed text", document: &text, second: &second::printed(&case.rec));
        agree!("printed text", document: &text, replay: &self.printed(&case.rec, feeding)?);
        Ok(())
    }

    fn printed(&self, rec: &[u8], feeding: Feeding) -> Result<String, Disagreement> {
        let mut child = Command::new(&self.replay)
            .stdin(Stdio::piped())
            .stdout(Stdio::piped())
            .spawn()
            .map_err(|error| format!("{}: {error}\n", self.replay.display()))?;
        let mut input = child.stdin.take().expect("standard input is piped");
        let piece = match feeding {
            Feeding::Whole => rec.len().max(1),
            Feeding::Pieces(length) => length,
        };
        for (index, piece) in rec.chunks(piece).enumerate() {
            match input.write_all(piece) {
                Ok(()) if index < PIECES_APART && piece.len() < rec.len() => wait_until_taken(&input),
                Ok(()) => {}
                // It need not take in more than 65,537 bytes.
                Err(error) if error.kind() == ErrorKind::BrokenPipe => break,
                Err(error) => return Err(format!("writing to the printing program: {error}\n")),
            }
        }
        drop(input);
        let output = child.wait_with_output().map_err(|error| format!("the printing program: {error}\n"))?;
        if output.status.code().is_none() {
            return Err(format!("the printing program: {}\n", output.status));
        }
        String::from_utf8(output.stdout).map_err(|_| "the printing program printed something else than text\n".into())
    }
}

fn column(place: usize) -> String {
    const COLUMNS: [&str; 8] = ["process", "kind", "finished", "contention", "steps", "answer", "rank", "second attempts"];
    match place {
        0 => "version".into(),
        1..=4 => "length".into(),
        5..=8 => "counter".into(),
        _ => {
            let (row, byte) = ((place - 9) / 20, (place - 9) % 20);
            let column = if byte < 4 { byte } else { 3 + byte / 4 };
            format!("row {row}, {}", COLUMNS[column])
        }
    }
}
