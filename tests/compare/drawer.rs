//! One drawer given to the proved library, to the second program and to the program behind tools/drawer; and each of its recordings to the
//! library alone.

use crate::buffer::{hexadecimal, Buffer};
use crate::drawer_cases::DrawerCase;
use crate::harness::{agree, Disagreement, FILL, LARGE};
use crate::proved::{Lent, Proved};
use crate::random::Random;
use crate::recording::MARK;
use second::Answer;
use std::collections::HashMap;
use std::fs::{self, File};
use std::path::PathBuf;
use std::process::Command;

/// No longer buffer is lent; the caller could not hold it and give it back.
const MOST_ROOM: usize = 1 << 25;
/// Drawers above this length are tried with fewer buffers.
const LONG: usize = 500_000;

/// The bytes of the buffer for the reports, and of the one for the marks.
#[derive(Clone, Copy)]
pub struct Rooms {
    pub out: usize,
    pub marks: usize,
}

/// What one drawer came to.
pub struct Compared {
    pub answers: Vec<(Rooms, Answer)>,
    /// Of an accepted drawer.
    pub marks: Option<Vec<u8>>,
}

/// The recordings by each L; None where a cut fails.
pub fn recordings_of(drawer: &[u8]) -> Option<Vec<&[u8]>> {
    let mut recordings = vec![];
    let mut at = 0;
    while at < drawer.len() {
        let length = drawer.get(at + 1..at + 5)?;
        let end = at + length.iter().fold(0, |length, &byte| 256 * length + byte as usize) + 5;
        recordings.push(drawer.get(at..end)?);
        at = end;
    }
    Some(recordings)
}

/// The rooms that the reports and marks of these recordings fill to the last byte.
pub fn needed(recordings: &[&[u8]]) -> Rooms {
    let report = |rec: &&[u8]| match second::report(rec, &mut []) {
        Answer { number: 11, place } => place as usize,
        _ => 0,
    };
    Rooms { out: recordings.iter().map(report).sum(), marks: MARK * recordings.len() }
}

/// Each room exact, one short, larger and 0, beside the other's.
fn rooms_around(needed: Rooms, length: usize) -> Vec<Rooms> {
    let around = |needed: usize| [needed, needed.saturating_sub(1), needed + 1, 0, needed + 333];
    let every = around(needed.out).into_iter().flat_map(|out| around(needed.marks).map(|marks| Rooms { out, marks }));
    let short = Rooms { out: needed.out.saturating_sub(1), marks: needed.marks.saturating_sub(1) };
    if needed.out > MOST_ROOM {
        vec![Rooms { out: 0, ..needed }]
    } else if length > LONG {
        vec![needed, Rooms { out: short.out, ..needed }, Rooms { marks: short.marks, ..needed }]
    } else {
        every.collect()
    }
}

/// For a drawer that is refused whatever the rooms are.
fn any_rooms() -> Vec<Rooms> {
    [(0, 0), (0, MARK), (9, 0), (9, MARK), (LARGE, LARGE)].map(|(out, marks)| Rooms { out, marks }).to_vec()
}

/// Rooms for a generated drawer: at the boundaries, and anywhere.
pub fn rooms_for(drawer: &[u8], random: &mut Random) -> Vec<Rooms> {
    let Some(needed) = recordings_of(drawer).map(|recordings| needed(&recordings)) else { return any_rooms() };
    // No recording has a report of more than seven times its length.
    let mut rooms = vec![needed, Rooms { out: 7 * drawer.len(), ..needed }, Rooms { out: 0, marks: 0 }];
    for _ in 0..4 {
        let mut near = |needed: usize| match random.below(6) {
            0 | 1 => needed,
            2 => needed.saturating_sub(1),
            3 => needed + random.between(1, 100),
            4 => needed.saturating_sub(random.between(2, 40)),
            _ => random.between(0, needed),
        };
        rooms.push(Rooms { out: near(needed.out), marks: near(needed.marks) });
    }
    rooms
}

pub struct Drawers {
    proved: Proved,
    turn: usize,
}

impl Drawers {
    pub fn new(caller: PathBuf) -> Drawers {
        Drawers { proved: Proved::new(caller), turn: 0 }
    }

    /// The library against the second program with each pair of buffers, and against itself on each recording.
    pub fn compare(&mut self, drawer: &[u8], rooms: &[Rooms]) -> Result<Compared, Disagreement> {
        let mut compared = Compared { answers: vec![], marks: None };
        self.draw(drawer, rooms, |rooms, drawn| {
            compared.answers.push((rooms, drawn.answer));
            if drawn.answer.number == 0 {
                compared.marks = Some(drawn.marks.bytes().to_vec());
            }
            Ok(())
        })?;
        Ok(compared)
    }

    /// A case of the document: both against the expected answers and bytes too.
    pub fn compare_case(&mut self, case: &DrawerCase) -> Result<(), Disagreement> {
        let drawer = case.drawer();
        let (reports, marks) = (case.reports(), case.marks());
        let needed = Rooms { out: reports.len(), marks: marks.len() };
        let rooms = if case.refusal.is_some() { any_rooms() } else { rooms_around(needed, drawer.len()) };
        self.draw(&drawer, &rooms, |rooms, drawn| {
            let answer = case.refusal.unwrap_or(answer_for(needed, rooms));
            agree!(name_of(rooms), document: answer, both: drawn.answer);
            let (reports, marks) = if answer.number == 0 { (&reports[..], &marks[..]) } else { Default::default() };
            for (what, expected, found, untouched) in
                [("reports", reports, &drawn.out, &drawn.untouched.0), ("marks", marks, &drawn.marks, &drawn.untouched.1)]
            {
                if found.bytes().strip_prefix(expected) != Some(&untouched.bytes()[expected.len()..]) {
                    return Err(format!("{}: the {what} are not those of the document\n", name_of(rooms)));
                }
            }
            Ok(())
        })
    }

    /// An empty drawer is lent as NULL too.
    fn draw(
        &mut self,
        drawer: &[u8],
        rooms: &[Rooms],
        mut hold: impl FnMut(Rooms, &Drawn) -> Result<(), Disagreement>,
    ) -> Result<(), Disagreement> {
        for null in if drawer.is_empty() { &[false, true][..] } else { &[false] } {
            let mut lent = if *null { self.proved.lend_null()? } else { self.proved.lend(drawer)? };
            let mut accepted = None;
            for &rooms in rooms {
                self.turn += 1;
                let drawn = compare_rooms(&mut lent, drawer, rooms, self.turn)?;
                hold(rooms, &drawn)?;
                if drawn.answer.number == 0 {
                    accepted = Some(drawn);
                }
            }
            lent.give_back()?;
            if let Some(drawn) = accepted {
                self.hold_to_each_alone(drawer, &drawn)?;
            }
        }
        Ok(())
    }

    /// Each recording by itself: what report lays for it comes next in the one buffer, what check answers in the other; and nothing else does.
    fn hold_to_each_alone(&mut self, drawer: &[u8], drawn: &Drawn) -> Result<(), Disagreement> {
        let recordings = recordings_of(drawer).ok_or("accepted, and it cannot be cut\n")?;
        let mut known = HashMap::new();
        let (mut out, mut marks) = (drawn.out.bytes(), drawn.marks.bytes());
        for (index, rec) in recordings.into_iter().enumerate() {
            if !known.contains_key(rec) {
                known.insert(rec, self.alone(rec)?);
            }
            let (report, mark) = &known[rec];
            for (what, rest, alone) in [("report", &mut out, &report[..]), ("mark", &mut marks, &mark[..])] {
                let Some(after) = rest.strip_prefix(alone) else {
                    let found = hexadecimal(&rest[..rest.len().min(alone.len())]);
                    return Err(format!("the {what} of recording {index}\ndrawer: {found}\nalone: {}\n", hexadecimal(alone)));
                };
                *rest = after;
            }
        }
        if !drawn.untouched.0.bytes().ends_with(out) || !drawn.untouched.1.bytes().ends_with(marks) {
            return Err("bytes after the last report or mark are written\n".into());
        }
        Ok(())
    }

    /// The report and the mark of a recording, by the library's entries for one.
    fn alone(&mut self, rec: &[u8]) -> Result<(Vec<u8>, Vec<u8>), Disagreement> {
        let mut lent = self.proved.lend(rec)?;
        let answer = lent.check()?;
        let mut out = Buffer::filled(FILL, LARGE);
        agree!("one recording alone", check: answer, report: lent.report(&mut out)?);
        let mut report = out.bytes().to_vec();
        report.truncate(if answer.number == 0 { 5 + u32::from_be_bytes([report[1], report[2], report[3], report[4]]) as usize } else { 0 });
        let mut mark = vec![answer.number as u8];
        mark.extend_from_slice(&answer.place.to_be_bytes());
        Ok((report, mark))
    }
}

/// What the library answered, and both buffers as it left them.
struct Drawn {
    answer: Answer,
    out: Buffer,
    marks: Buffer,
    untouched: (Buffer, Buffer),
}

/// Buffers of no bytes are lent as NULL too.
fn compare_rooms(lent: &mut Lent, drawer: &[u8], rooms: Rooms, turn: usize) -> Result<Drawn, Disagreement> {
    let what = name_of(rooms);
    let (mut out_by_second, mut marks_by_second) = (Buffer::at_turn(rooms.out, turn), Buffer::at_turn(rooms.marks, turn / 3));
    let untouched = (out_by_second.clone(), marks_by_second.clone());
    let (mut out, mut marks) = untouched.clone();
    let second = second::drawer(drawer, out_by_second.bytes_mut(), marks_by_second.bytes_mut());
    let answer = lent.drawer(&mut out, &mut marks)?;
    agree!(what, proved: answer, second: second);
    untouched.0.hold(&format!("{what}, the reports"), answer.number == 0, &out, &out_by_second, |_| "of a report".into())?;
    untouched.1.hold(&format!("{what}, the marks"), answer.number == 0, &marks, &marks_by_second, mark_of)?;
    if rooms.out == 0 || rooms.marks == 0 {
        let or_null = |buffer: &Buffer| if buffer.room == 0 { Buffer::null() } else { buffer.clone() };
        let (mut out_or_null, mut marks_or_null) = (or_null(&untouched.0), or_null(&untouched.1));
        agree!(format!("{what}, NULL for none"), proved: lent.drawer(&mut out_or_null, &mut marks_or_null)?, second: second);
        if out_or_null != or_null(&out) || marks_or_null != or_null(&marks) {
            return Err(format!("{what}: with NULL for none other bytes are written\n"));
        }
    }
    Ok(Drawn { answer, out, marks, untouched })
}

fn name_of(rooms: Rooms) -> String {
    format!("drawer, buffers of {} and {}", rooms.out, rooms.marks)
}

fn mark_of(place: usize) -> String {
    format!("recording {}, {}", place / MARK, if place % MARK == 0 { "number" } else { "place" })
}

/// Of a drawer that is cut to its end.
fn answer_for(needed: Rooms, rooms: Rooms) -> Answer {
    let short = |needed: usize| Answer { number: 11, place: needed as u32 };
    if rooms.out < needed.out {
        short(needed.out)
    } else if rooms.marks < needed.marks {
        short(needed.marks)
    } else {
        Answer::ACCEPTED
    }
}

/// The program behind tools/drawer. Its standard input is a file, in which it may seek.
pub struct DrawerPrinting {
    program: PathBuf,
    input: PathBuf,
}

impl DrawerPrinting {
    pub fn new(program: PathBuf) -> DrawerPrinting {
        let input = program.with_extension("input");
        DrawerPrinting { program, input }
    }

    /// The program's text against the second program's.
    pub fn compare(&self, drawer: &[u8]) -> Result<(), Disagreement> {
        agree_on_text(("replay_drawer", &self.printed(drawer)?), ("second", &second::printed_drawer(drawer)))
    }

    /// Both against the expected text.
    pub fn compare_case(&self, case: &DrawerCase) -> Result<(), Disagreement> {
        let drawer = case.drawer();
        agree_on_text(("document", &case.printed()), ("second", &second::printed_drawer(&drawer)))?;
        self.compare(&drawer)
    }

    fn printed(&self, drawer: &[u8]) -> Result<String, Disagreement> {
        let input = fs::write(&self.input, drawer).and_then(|()| File::open(&self.input));
        let output = input.and_then(|input| Command::new(&self.program).stdin(input).output());
        let output = output.map_err(|error| format!("{}: {error}\n", self.program.display()))?;
        if !output.status.success() {
            return Err(format!("{}: {}\n", self.program.display(), output.status));
        }
        String::from_utf8(output.stdout).map_err(|_| format!("{} printed something else than text\n", self.program.display()))
    }
}

fn agree_on_text(one: (&str, &str), other: (&str, &str)) -> Result<(), Disagreement> {
    if one.1 == other.1 {
        return Ok(());
    }
    let mut both = one.1.split_inclusive('\n').zip(other.1.split_inclusive('\n'));
    let same = both.by_ref().take_while(|(one, other)| one == other).count();
    let line = |text: &str| text.split_inclusive('\n').nth(same).map(str::to_string);
    Err(format!("printed text, line {}\n{}: {:?}\n{}: {:?}\n", same + 1, one.0, line(one.1), other.0, line(other.1)))
}
