//! A drawer: a shift's recordings end to end, each answered as if it were alone.

use crate::{outcome, printed, printed_refusal, Answer};
use std::fmt::Write;

const LONGEST_DRAWER: usize = 16_777_216;
const MARK: usize = 5;

pub fn drawer(drawer: &[u8], out: &mut [u8], marks: &mut [u8]) -> Answer {
    let (number, recordings) = match cut(drawer) {
        Ok(found) => found,
        Err(refusal) => return refusal,
    };
    let mut reports = Vec::new();
    let mut marked = Vec::with_capacity(MARK * number);
    for rec in recordings {
        let answer = match outcome(rec) {
            Ok(outcome) => {
                let end = reports.len();
                reports.resize(end + outcome.needed(), 0);
                outcome.lay(&mut reports[end..]);
                Answer::ACCEPTED
            }
            Err(refusal) => refusal,
        };
        marked.push(answer.number as u8);
        marked.extend_from_slice(&answer.place.to_be_bytes());
    }
    let Some(out) = out.get_mut(..reports.len()) else {
        return Answer::refused(11, reports.len());
    };
    let Some(marks) = marks.get_mut(..marked.len()) else {
        return Answer::refused(11, marked.len());
    };
    out.copy_from_slice(&reports);
    marks.copy_from_slice(&marked);
    Answer::ACCEPTED
}

/// What `tools/drawer` prints for this file.
pub fn printed_drawer(drawer: &[u8]) -> String {
    let recordings = match cut(drawer) {
        Ok((_, recordings)) => recordings,
        Err(refusal) => return printed_refusal(refusal),
    };
    let mut text = String::new();
    let mut offset = 0;
    for (index, rec) in recordings.enumerate() {
        writeln!(text, "recording {} offset {offset}", index + 1).expect("a String takes every line");
        text.push_str(&printed(rec));
        offset += rec.len();
    }
    text
}

/// How many recordings there are, and they themselves in drawer order.
fn cut(drawer: &[u8]) -> Result<(usize, Recordings<'_>), Answer> {
    if drawer.len() > LONGEST_DRAWER {
        return Err(Answer::refused(19, 0));
    }
    let mut recordings = Recordings { rest: drawer };
    let number = recordings.by_ref().count();
    if !recordings.rest.is_empty() {
        return Err(Answer::refused(12, drawer.len() - recordings.rest.len()));
    }
    Ok((number, Recordings { rest: drawer }))
}

/// Cut off one after another by each L, up to the end or to where L is not there or passes it.
struct Recordings<'a> {
    rest: &'a [u8],
}

impl<'a> Iterator for Recordings<'a> {
    type Item = &'a [u8];

    fn next(&mut self) -> Option<&'a [u8]> {
        let &[_version, l0, l1, l2, l3, ..] = self.rest else { return None };
        let (rec, rest) = self.rest.split_at_checked(5 + u32::from_be_bytes([l0, l1, l2, l3]) as usize)?;
        self.rest = rest;
        Some(rec)
    }
}
