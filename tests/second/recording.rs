//! The layout of a recording: its header and its records.

use crate::{Answer, LONGEST_RECORDING, MOST_OPERATIONS};

const HEADER: usize = 6;
const SHORTEST_RECORD: usize = 3;
const VERSION: u8 = 1;

#[derive(Clone, Copy)]
pub enum Event {
    Step,
    StartRead,
    StartAddition { delta: u32 },
}

pub struct Record {
    /// The offset of the length byte from byte 0.
    pub place: usize,
    pub process: u8,
    pub event: Event,
}

pub struct Records<'a> {
    rest: &'a [u8],
    total: usize,
}

/// The height and the records behind the header.
pub fn open(rec: &[u8]) -> Result<(u8, Records<'_>), Answer> {
    let &[version, l0, l1, l2, l3, height, ref rest @ ..] = rec else {
        return Err(Answer::refused(1, 0));
    };
    let total = HEADER + rest.len();
    if version != VERSION {
        return Err(Answer::refused(2, 0));
    }
    if total > LONGEST_RECORDING {
        return Err(Answer::refused(4, 0));
    }
    if u32::from_be_bytes([l0, l1, l2, l3]) as usize != total - 5 {
        return Err(Answer::refused(3, 0));
    }
    if !(1..=6).contains(&height) {
        return Err(Answer::refused(5, 0));
    }
    Ok((height, Records { rest, total }))
}

impl Records<'_> {
    pub fn most_operations(&self) -> usize {
        MOST_OPERATIONS.min(self.rest.len() / SHORTEST_RECORD)
    }

    #[inline(always)]
    pub fn next(&mut self) -> Result<Option<Record>, Answer> {
        let place = self.total - self.rest.len();
        let (process, event, rest) = match *self.rest {
            [] => return Ok(None),
            [2, 1, process, ref rest @ ..] => (process, Event::Step, rest),
            [2, 2, process, ref rest @ ..] => (process, Event::StartRead, rest),
            [6, 3, process, d0, d1, d2, d3, ref rest @ ..] => {
                let delta = u32::from_be_bytes([d0, d1, d2, d3]);
                (process, Event::StartAddition { delta }, rest)
            }
            _ => return Err(Answer::refused(6, place)),
        };
        self.rest = rest;
        Ok(Some(Record { place, process, event }))
    }
}
