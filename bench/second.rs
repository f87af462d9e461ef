//! The second program with entries like the library's, for the C programs of the benchmark and the fuzzer.

use second::Answer;
use std::slice;

#[repr(C)]
pub struct RawAnswer {
    number: u32,
    place: u32,
}

impl From<Answer> for RawAnswer {
    fn from(answer: Answer) -> RawAnswer {
        RawAnswer { number: answer.number, place: answer.place }
    }
}

/// # Safety
/// `rec` points to `len` readable bytes.
#[no_mangle]
pub unsafe extern "C" fn second_check(rec: *const u8, len: usize) -> RawAnswer {
    second::check(slice::from_raw_parts(rec, len)).into()
}

/// # Safety
/// `rec` points to `len` readable bytes and `out` to `room` writable ones, apart from each other.
#[no_mangle]
pub unsafe extern "C" fn second_report(rec: *const u8, len: usize, out: *mut u8, room: usize) -> RawAnswer {
    second::report(slice::from_raw_parts(rec, len), slice::from_raw_parts_mut(out, room)).into()
}

/// # Safety
/// `drawer` points to `len` readable bytes, `out` to `room` and `marks` to `marks_room` writable ones, all apart from each other.
#[no_mangle]
pub unsafe extern "C" fn second_drawer(
    drawer: *const u8,
    len: usize,
    out: *mut u8,
    room: usize,
    marks: *mut u8,
    marks_room: usize,
) -> RawAnswer {
    let drawer = slice::from_raw_parts(drawer, len);
    second::drawer(drawer, slice::from_raw_parts_mut(out, room), slice::from_raw_parts_mut(marks, marks_room)).into()
}
