//! Writing recordings, good and bad.

pub const STEP: u8 = 1;
pub const READ: u8 = 2;
pub const ADD: u8 = 3;

pub const HEADER: usize = 6;
pub const LONGEST: usize = 65_536;
pub const LONGEST_DRAWER: usize = 16_777_216;
/// The bytes of a mark.
pub const MARK: usize = 5;

/// A recording of height `height` with these bytes after the header, and a true L.
pub fn recording(height: u8, records: &[u8]) -> Vec<u8> {
    let mut rec = vec![1, 0, 0, 0, 0, height];
    rec.extend_from_slice(records);
    set_true_length(&mut rec);
    rec
}

pub fn set_length(rec: &mut [u8], length: u32) {
    rec[1..5].copy_from_slice(&length.to_be_bytes());
}

pub fn set_true_length(rec: &mut [u8]) {
    let length = rec.len() as u32 - 5;
    set_length(rec, length);
}

pub fn step(process: u8) -> Vec<u8> {
    vec![2, STEP, process]
}

pub fn steps(process: u8, count: usize) -> Vec<u8> {
    step(process).repeat(count)
}

pub fn start_read(process: u8) -> Vec<u8> {
    vec![2, READ, process]
}

pub fn start_add(process: u8, delta: u32) -> Vec<u8> {
    let mut record = vec![6, ADD, process];
    record.extend_from_slice(&delta.to_be_bytes());
    record
}
