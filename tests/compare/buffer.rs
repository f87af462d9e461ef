//! Buffers to lend, and what is found in them afterwards.

use crate::harness::Disagreement;

const GUARD: usize = 64;
/// Of a longer buffer only what follows the first differing byte is shown.
const LONG: usize = 25_000;

/// A buffer in the middle of bytes that nobody may write to; or NULL.
#[derive(Clone, PartialEq)]
pub struct Buffer {
    pub around: Vec<u8>,
    pub front: usize,
    pub room: usize,
    pub is_null: bool,
}

impl Buffer {
    pub fn null() -> Buffer {
        Buffer { around: vec![], front: 0, room: 0, is_null: true }
    }

    pub fn filled(fill: u8, room: usize) -> Buffer {
        Buffer { around: vec![fill; room], front: 0, room, is_null: false }
    }

    /// Every second buffer ends at the inaccessible page, the others lie at every alignment between guard bytes; what they hold before the
    /// call differs from call to call.
    pub fn at_turn(room: usize, turn: usize) -> Buffer {
        let front = GUARD + turn % 8;
        let back = if turn % 2 == 0 { 0 } else { GUARD };
        let around = (0..front + room + back).map(|place| (place * 167 + turn * 59 + 13) as u8).collect();
        Buffer { around, front, room, is_null: false }
    }

    pub fn bytes(&self) -> &[u8] {
        &self.around[self.front..self.front + self.room]
    }

    pub fn bytes_mut(&mut self) -> &mut [u8] {
        &mut self.around[self.front..self.front + self.room]
    }

    /// This is what was lent. Both leave the bytes around it, all of it where they refuse, and otherwise the same in it.
    pub fn hold(
        &self,
        what: &str,
        accepted: bool,
        proved: &Buffer,
        second: &Buffer,
        column: fn(usize) -> String,
    ) -> Result<(), Disagreement> {
        for (name, left) in [("proved", proved), ("second", second)] {
            let outside = |buffer: &Buffer| [&buffer.around[..self.front], &buffer.around[self.front + self.room..]].concat();
            if outside(left) != outside(self) {
                return Err(format!("{what}: {name} wrote outside the buffer\n"));
            }
            if !accepted && left != self {
                return Err(format!("{what}: {name} refused and wrote to the buffer\n"));
            }
        }
        let (proved, second) = (proved.bytes(), second.bytes());
        let Some(place) = proved.iter().zip(second).position(|(one, other)| one != other) else { return Ok(()) };
        let shown = if self.room <= LONG { 0..self.room } else { place..self.room.min(place + 100) };
        let (from, column) = (shown.start, column(place));
        let (proved, second) = (hexadecimal(&proved[shown.clone()]), hexadecimal(&second[shown]));
        Err(format!("{what}: the first differing byte is {place} ({column})\nfrom byte {from} on\nproved: {proved}\nsecond: {second}\n"))
    }
}

pub fn hexadecimal(bytes: &[u8]) -> String {
    bytes.iter().map(|byte| format!("{byte:02x}")).collect()
}
