//! The document's recordings on both sides of each line, each with its neighbours, and the answers as the document gives them.

use crate::recording::*;
use std::fmt::Write;

/// The columns in order: process, kind, finished, contention, steps, answer, rank, second attempts.
pub type Row = [u32; 8];

const READ_KIND: u32 = READ as u32;
const ADD_KIND: u32 = ADD as u32;

#[derive(Clone)]
pub enum Expected {
    Refused { number: u32, place: u32 },
    Accepted { counter: u32, rows: Vec<Row> },
}

impl Expected {
    pub fn report(&self) -> Option<Vec<u8>> {
        let Expected::Accepted { counter, rows } = self else { return None };
        let mut bytes = vec![1];
        bytes.extend_from_slice(&(4 + 20 * rows.len() as u32).to_be_bytes());
        bytes.extend_from_slice(&counter.to_be_bytes());
        for row in rows {
            bytes.extend(row[..4].iter().map(|&column| column as u8));
            bytes.extend(row[4..].iter().flat_map(|column| column.to_be_bytes()));
        }
        Some(bytes)
    }

    pub fn mark(&self) -> Vec<u8> {
        match self {
            Expected::Refused { number, place } => [&[*number as u8][..], &place.to_be_bytes()].concat(),
            Expected::Accepted { .. } => vec![0; MARK],
        }
    }

    pub fn printed(&self) -> String {
        match self {
            Expected::Refused { number, place } => format!("refused {number} {place}\n"),
            Expected::Accepted { counter, rows } => {
                let mut text = format!("operations {} counter {counter}\n", rows.len());
                for [process, kind, finished, contention, steps, answer, rank, second_attempts] in rows {
                    let kind = if *kind == READ_KIND { "read" } else { "add" };
                    writeln!(text, "{process} {kind} {finished} {contention} {steps} {answer} {rank} {second_attempts}").unwrap();
                }
                text
            }
        }
    }
}

#[derive(Clone)]
pub struct Case {
    pub name: String,
    pub rec: Vec<u8>,
    pub expected: Expected,
    /// The whole report or text, where the document spells it out.
    pub spelled_report: Option<&'static [u8]>,
    pub spelled_text: Option<&'static str>,
}

impl Case {
    /// The others are fed to the printing program in one way, each way by turns.
    pub fn fed_in_every_way(&self) -> bool {
        let names =
            ["empty", "the six-byte recording", "65,536 bytes", "65,537 bytes, L true", "200000 bytes, L true", "1,024 operations", "A"];
        names.contains(&self.name.as_str())
    }
}

#[derive(Default)]
struct Cases(Vec<Case>);

impl Cases {
    fn add(&mut self, name: impl Into<String>, rec: Vec<u8>, expected: Expected) -> &mut Case {
        self.0.push(Case { name: name.into(), rec, expected, spelled_report: None, spelled_text: None });
        self.0.last_mut().unwrap()
    }

    fn refused(&mut self, name: impl Into<String>, rec: Vec<u8>, number: u32, place: usize) {
        self.add(name, rec, Expected::Refused { number, place: place as u32 });
    }

    fn accepted(&mut self, name: impl Into<String>, rec: Vec<u8>, counter: u32, rows: &[Row]) -> &mut Case {
        self.add(name, rec, Expected::Accepted { counter, rows: rows.to_vec() })
    }
}

pub fn all() -> Vec<Case> {
    let mut cases = Cases::default();
    headers(&mut cases);
    longest(&mut cases);
    records(&mut cases);
    processes(&mut cases);
    busy_and_idle(&mut cases);
    operations(&mut cases);
    lettered(&mut cases);
    errors_that_look_right(&mut cases);
    joined(&mut cases);
    before_the_start(&mut cases);
    rising_and_falling(&mut cases);
    all_at_once(&mut cases);
    contention_anew(&mut cases);
    joined_at_a_second_attempt(&mut cases);
    cases.0
}

fn with_length(height: u8, records: &[u8], length: u32) -> Vec<u8> {
    let mut rec = recording(height, records);
    set_length(&mut rec, length);
    rec
}

fn with_version(version: u8, mut rec: Vec<u8>) -> Vec<u8> {
    rec[0] = version;
    rec
}

fn headers(cases: &mut Cases) {
    cases.refused("empty", vec![], 1, 0);
    cases.refused("one byte", vec![1], 1, 0);
    cases.refused("5 zero bytes", vec![0; 5], 1, 0);
    cases.refused("5 bytes of version 1 with a true L", vec![1, 0, 0, 0, 0], 1, 0);
    cases.refused("6 zero bytes", vec![0; 6], 2, 0);
    let six = cases.accepted("the six-byte recording", vec![1, 0, 0, 0, 1, 1], 0, &[]);
    six.spelled_report = Some(&[1, 0, 0, 0, 4, 0, 0, 0, 0]);
    six.spelled_text = Some("operations 0 counter 0\n");

    for version in [0, 2, 255] {
        cases.refused(format!("version {version}"), with_version(version, recording(1, &[])), 2, 0);
        cases.refused(format!("version {version}, L and height wrong"), vec![version, 9, 9, 9, 9, 0], 2, 0);
    }
    let one_read = [start_read(0), step(0)].concat();
    cases.refused("L one too large", with_length(1, &[], 2), 3, 0);
    cases.refused("L one too small", with_length(1, &[], 0), 3, 0);
    cases.refused("L one too large, with records", with_length(1, &one_read, 8), 3, 0);
    cases.refused("L one too small, with records", with_length(1, &one_read, 6), 3, 0);
    cases.accepted("L true, with records", with_length(1, &one_read, 7), 0, &[[0, READ_KIND, 1, 1, 1, 0, 1, 0]]);
    for byte in 0..3 {
        let mut rec = recording(1, &one_read);
        rec[1 + byte] = 1;
        cases.refused(format!("L right but for its byte {byte}"), rec, 3, 0);
    }
    cases.refused("L little-endian", vec![1, 1, 0, 0, 0, 1], 3, 0);
    cases.refused("L wrong and height 0", vec![1, 0, 0, 0, 2, 0], 3, 0);
    for height in 1..=6 {
        cases.accepted(format!("height {height}"), recording(height, &[]), 0, &[]);
    }
    for height in [0, 7, 8, 64, 255] {
        cases.refused(format!("height {height}"), recording(height, &[]), 5, 0);
        cases.refused(format!("height {height}, then a bad record"), recording(height, &[0]), 5, 0);
    }
}

/// 65,536 bytes at height 6: 769 additions of 85 bytes, 27 reads of 6 and the start of one more.
fn longest_records() -> (Vec<u8>, Vec<Row>) {
    let (mut records, mut rows) = (vec![], vec![]);
    for rank in 1..=769 {
        records.extend([start_add(5, 3), steps(5, 26)].concat());
        rows.push([5, ADD_KIND, 1, 1, 26, 0, rank, 0]);
    }
    for rank in 770..=796 {
        records.extend([start_read(63), step(63)].concat());
        rows.push([63, READ_KIND, 1, 1, 1, 2_307, rank, 0]);
    }
    records.extend(start_read(0));
    rows.push([0, READ_KIND, 0, 1, 0, 0, 0, 0]);
    (records, rows)
}

fn longest(cases: &mut Cases) {
    let (records, rows) = longest_records();
    let longest = recording(6, &records);
    assert_eq!(longest.len(), LONGEST);
    cases.accepted("65,536 bytes", longest.clone(), 2_307, &rows);
    for (name, length) in [("large", 65_532), ("small", 65_530)] {
        cases.refused(format!("65,536 bytes, L one too {name}"), with_length(6, &records, length), 3, 0);
    }
    let mut cut = longest.clone();
    cut.pop();
    cases.refused("65,535 bytes, L still for 65,536", cut.clone(), 3, 0);
    set_true_length(&mut cut);
    cases.refused("65,535 bytes, the last record cut", cut, 6, LONGEST - 3);

    let mut over = longest.clone();
    over.push(2);
    cases.refused("65,537 bytes, L false", over.clone(), 4, 0);
    set_true_length(&mut over);
    cases.refused("65,537 bytes, L true", over.clone(), 4, 0);
    cases.refused("65,537 bytes, version 0", with_version(0, over.clone()), 2, 0);
    over[5] = 0;
    cases.refused("65,537 bytes, height 0", over, 4, 0);

    let mut after_whole = longest;
    after_whole.extend(step(0));
    set_true_length(&mut after_whole);
    cases.refused("65,539 bytes of good records", after_whole, 4, 0);
    for length in [65_538, 70_000, 131_072, 200_000] {
        let mut rec = vec![0; length];
        rec[0] = 1;
        rec[5] = 1;
        set_true_length(&mut rec);
        cases.refused(format!("{length} bytes, L true"), rec.clone(), 4, 0);
        set_length(&mut rec, 1);
        cases.refused(format!("{length} bytes, L false"), rec, 4, 0);
        cases.refused(format!("{length} zero bytes"), vec![0; length], 2, 0);
    }
}

fn records(cases: &mut Cases) {
    let bad: [(&str, &[u8]); 24] = [
        ("k is 0", &[0]),
        ("k is 0, then a good record", &[0, 2, 2, 0]),
        ("k is 1, nothing behind it", &[1]),
        ("k is 1", &[1, 2]),
        ("k is 2, nothing behind it", &[2]),
        ("k is 2, one byte behind it", &[2, 2]),
        ("k is 3", &[3, 2, 0, 0]),
        ("k is 6, five bytes behind it", &[6, 3, 0, 0, 0, 0]),
        ("k is 6, two bytes behind it", &[6, 3, 0]),
        ("k is 7", &[7, 3, 0, 0, 0, 0, 0, 0]),
        ("k is 255", &[255, 3, 0]),
        ("kind 0", &[2, 0, 0]),
        ("kind 4", &[2, 4, 0]),
        ("kind 255", &[2, 255, 0]),
        ("kind 1 of length 6", &[6, 1, 0, 0, 0, 0, 0]),
        ("kind 2 of length 6", &[6, 2, 0, 0, 0, 0, 0]),
        ("kind 3 of length 2", &[2, 3, 0]),
        ("kind 4 of length 6", &[6, 4, 0, 0, 0, 0, 0]),
        ("kind 1 of length 1", &[1, 1]),
        ("kind 1 of length 3", &[3, 1, 0, 0]),
        ("kind 3 of length 5", &[5, 3, 0, 0, 0, 0]),
        ("kind 4 and a process out of range", &[2, 4, 9]),
        ("kind 3 of length 2 and a process out of range", &[2, 3, 200]),
        ("kind 0 of length 6 and a process out of range", &[6, 0, 99, 0, 0, 0, 0]),
    ];
    let before = [start_add(0, 5), steps(0, 6), start_read(1)].concat();
    for (name, bytes) in bad {
        cases.refused(name, recording(1, bytes), 6, 6);
        let later = [&before[..], bytes].concat();
        cases.refused(format!("{name}, after good records"), recording(1, &later), 6, 34);
    }
    cases.accepted(
        "the good records alone",
        recording(1, &before),
        5,
        &[[0, ADD_KIND, 1, 1, 6, 0, 1, 0], [1, READ_KIND, 0, 1, 0, 0, 0, 0]],
    );
    cases.refused("a bad record before a refused step", recording(1, &[2, 9, 0, 2, 1, 0]), 6, 6);
    cases.refused("a refused step before a bad record", recording(1, &[2, 1, 0, 2, 9, 0]), 9, 6);
}

fn processes(cases: &mut Cases) {
    for height in 1..=6 {
        let n = 1u8 << height;
        let last = n - 1;
        let pass = [start_read(last), step(last)].concat();
        cases.accepted(
            format!("height {height}, process {last}"),
            recording(height, &pass),
            0,
            &[[last as u32, READ_KIND, 1, 1, 1, 0, 1, 0]],
        );
        let alone = [start_add(last, 9), steps(last, 2 + 4 * height as usize)].concat();
        cases.accepted(
            format!("height {height}, an addition by process {last}"),
            recording(height, &alone),
            9,
            &[[last as u32, ADD_KIND, 1, 1, 2 + 4 * height as u32, 0, 1, 0]],
        );
        cases.refused(
            format!("height {height}, an addition by process {last}, one step more"),
            recording(height, &[&alone[..], &step(last)].concat()),
            9,
            alone.len() + HEADER,
        );
        cases.accepted(
            format!("height {height}, an addition by process {last}, one step less"),
            recording(height, &alone[..alone.len() - 3]),
            0,
            &[[last as u32, ADD_KIND, 0, 1, 1 + 4 * height as u32, 0, 0, 0]],
        );
        for process in [n, n + 1, 128, 255] {
            cases.refused(format!("height {height}, a read by process {process}"), recording(height, &start_read(process)), 7, 6);
            cases.refused(format!("height {height}, an addition by process {process}"), recording(height, &start_add(process, 1)), 7, 6);
            cases.refused(format!("height {height}, a step by process {process}"), recording(height, &step(process)), 7, 6);
            let later = [start_read(0), step(process)].concat();
            cases.refused(format!("height {height}, a later step by process {process}"), recording(height, &later), 7, 9);
        }
    }
}

fn busy_and_idle(cases: &mut Cases) {
    let read = start_read(0);
    let add = start_add(0, 5);
    for (name, first, place) in [("read", &read, 9), ("addition", &add, 13)] {
        for (second_name, second) in [("read", &read), ("addition", &add)] {
            let rec = recording(1, &[&first[..], second].concat());
            cases.refused(format!("a {second_name} started at once after a started {name}"), rec, 8, place);
        }
    }
    cases.refused("a start one step before the end of an addition", recording(1, &[&add[..], &steps(0, 5), &add].concat()), 8, 28);
    cases.accepted(
        "a start right after the end of an addition",
        recording(1, &[&add[..], &steps(0, 6), &add].concat()),
        5,
        &[[0, ADD_KIND, 1, 1, 6, 0, 1, 0], [0, ADD_KIND, 0, 1, 0, 0, 0, 0]],
    );
    cases.accepted(
        "two starts by different processes",
        recording(1, &[start_read(0), start_read(1)].concat()),
        0,
        &[[0, READ_KIND, 0, 2, 0, 0, 0, 0], [1, READ_KIND, 0, 2, 0, 0, 0, 0]],
    );
    cases.refused("a step as first record", recording(1, &step(0)), 9, 6);
    cases.refused("a step of the other process", recording(1, &[start_read(0), step(1)].concat()), 9, 9);
    cases.accepted("a step after a start", recording(1, &[start_read(0), step(0)].concat()), 0, &[[0, READ_KIND, 1, 1, 1, 0, 1, 0]]);
    cases.refused("a step after a finished read", recording(1, &[start_read(0), steps(0, 2)].concat()), 9, 12);
}

fn operations(cases: &mut Cases) {
    let reads = |count: usize| [start_read(0), step(0)].concat().repeat(count);
    let finished = |count: u32| (1..=count).map(|rank| [0, READ_KIND, 1, 1, 1, 0, rank, 0]).collect::<Vec<Row>>();
    cases.accepted("1,023 operations", recording(1, &reads(1_023)), 0, &finished(1_023));
    cases.accepted("1,024 operations", recording(1, &reads(1_024)), 0, &finished(1_024));
    let after = 6 + 6 * 1_024;
    for (name, start) in [("a read", start_read(0)), ("an addition", start_add(1, 1))] {
        let rec = recording(1, &[reads(1_024), start].concat());
        cases.refused(format!("operation 1,025, {name}"), rec, 10, after);
    }
    cases.refused("a step after 1,024 operations", recording(1, &[reads(1_024), step(0)].concat()), 9, after);

    let mut open = reads(1_023);
    open.extend(start_read(0));
    let mut rows = finished(1_023);
    rows.push([0, READ_KIND, 0, 1, 0, 0, 0, 0]);
    cases.accepted("1,024 operations, the last unfinished", recording(1, &open), 0, &rows);
    for (name, start) in [("a read", start_read(0)), ("an addition", start_add(0, 1))] {
        let rec = recording(1, &[&open[..], &start].concat());
        cases.refused(format!("busy and operation 1,025, {name}"), rec, 8, after - 3);
    }
    cases.refused("operation 1,025 by an idle process", recording(1, &[&open[..], &start_read(1)].concat()), 10, after - 3);
    cases.refused("operation 1,025 by process 2", recording(1, &[&open[..], &start_read(2)].concat()), 7, after - 3);

    let add = [start_add(1, 2), steps(1, 6)].concat();
    let rows = (1..=1_024).map(|rank| [1, ADD_KIND, 1, 1, 6, 0, rank, 0]).collect::<Vec<Row>>();
    cases.accepted("1,024 additions", recording(1, &add.repeat(1_024)), 2_048, &rows);
    cases.refused("1,025 additions", recording(1, &add.repeat(1_025)), 10, 6 + 25 * 1_024);
}

fn lettered(cases: &mut Cases) {
    let mut bytes = vec![1, 0, 0, 0, 0x20, 1, 6, 3, 0, 0, 0, 0, 5];
    bytes.extend([2, 1, 0].repeat(6));
    bytes.extend([2, 2, 1, 2, 1, 1]);
    let a = cases.accepted("A", bytes, 5, &[[0, ADD_KIND, 1, 1, 6, 0, 1, 0], [1, READ_KIND, 1, 1, 1, 5, 2, 0]]);
    a.spelled_text = Some("operations 2 counter 5\n0 add 1 1 6 0 1 0\n1 read 1 1 1 5 2 0\n");

    for (name, d0, d1, counter) in [("B", 5, 7, 12), ("B with both deltas 0", 0, 0, 0), ("B with a sum of 0", 5, u32::MAX - 4, 0)] {
        let records = [start_add(0, d0), start_add(1, d1), steps(0, 2), steps(1, 2), step(0), step(1), steps(0, 3), steps(1, 7)].concat();
        let rows = [[0, ADD_KIND, 1, 2, 6, 0, 1, 0], [1, ADD_KIND, 1, 2, 10, 0, 2, 1]];
        cases.accepted(name, recording(1, &records), counter, &rows);
        let more = [&records[..], &step(1)].concat();
        cases.refused(format!("{name}, one step more"), recording(1, &more), 9, records.len() + HEADER);
    }

    let c = [start_add(0, 5), steps(0, 2), start_read(1), step(1), steps(0, 4)].concat();
    cases.accepted("C", recording(1, &c), 5, &[[0, ADD_KIND, 1, 2, 6, 0, 2, 0], [1, READ_KIND, 1, 2, 1, 0, 1, 0]]);

    let d = [start_add(1, 7), steps(1, 4), start_add(0, 5), steps(0, 2), steps(1, 2), start_read(1), step(1), steps(0, 4)].concat();
    cases.accepted(
        "D",
        recording(1, &d),
        12,
        &[[1, ADD_KIND, 1, 2, 6, 0, 1, 0], [0, ADD_KIND, 1, 2, 6, 0, 3, 0], [1, READ_KIND, 1, 2, 1, 7, 2, 0]],
    );

    let e = [start_add(0, 4_294_967_295), steps(0, 6), start_add(0, 2), steps(0, 6)].concat();
    cases.accepted("E", recording(1, &e), 1, &[[0, ADD_KIND, 1, 1, 6, 0, 1, 0], [0, ADD_KIND, 1, 1, 6, 0, 2, 0]]);

    let f = [start_add(0, 5), steps(0, 2), start_add(1, 7), steps(1, 6)].concat();
    cases.accepted("F", recording(1, &f), 12, &[[0, ADD_KIND, 0, 2, 2, 0, 1, 0], [1, ADD_KIND, 1, 2, 6, 0, 2, 0]]);
}

/// Neighbours of the lettered cases, one for each way to go wrong that the document names, and some more.
fn errors_that_look_right(cases: &mut Cases) {
    let f_mirrored = [start_add(1, 5), steps(1, 2), start_add(0, 7), steps(0, 6)].concat();
    cases.accepted(
        "F with the processes changed over",
        recording(1, &f_mirrored),
        12,
        &[[1, ADD_KIND, 0, 2, 2, 0, 1, 0], [0, ADD_KIND, 1, 2, 6, 0, 2, 0]],
    );
    let started_first_written_last = [start_add(0, 5), start_add(1, 7), steps(1, 2), steps(0, 2), steps(1, 4)].concat();
    cases.accepted(
        "together in one SC, written in the other order than started",
        recording(1, &started_first_written_last),
        12,
        &[[0, ADD_KIND, 0, 2, 2, 0, 2, 0], [1, ADD_KIND, 1, 2, 6, 0, 1, 0]],
    );
    let f_before_the_write = [start_add(0, 5), step(0), start_add(1, 7), steps(1, 6)].concat();
    cases.accepted(
        "F stopped one step earlier",
        recording(1, &f_before_the_write),
        7,
        &[[0, ADD_KIND, 0, 2, 1, 0, 0, 0], [1, ADD_KIND, 1, 2, 6, 0, 1, 0]],
    );

    // 1 links, then 0 stores, then 1 links again and 0's next addition stores: both of 1's attempts fail, and 1 is finished all the same.
    let fails_twice =
        [start_add(1, 1), steps(1, 3), start_add(0, 2), steps(0, 6), steps(1, 4), start_add(0, 4), steps(0, 6), steps(1, 3)].concat();
    let rows = [[1, ADD_KIND, 1, 2, 10, 0, 1, 1], [0, ADD_KIND, 1, 2, 6, 0, 2, 0], [0, ADD_KIND, 1, 2, 6, 0, 3, 0]];
    cases.accepted("both attempts fail", recording(1, &fails_twice), 7, &rows);
    cases.refused("both attempts fail, one step more", recording(1, &[&fails_twice[..], &step(1)].concat()), 9, fails_twice.len() + HEADER);

    // 1's first SC fails while 0 is linked for its second addition; 0's SC must still succeed.
    let failed_between = [
        start_add(0, 5),
        steps(0, 2),
        start_add(1, 7),
        steps(1, 3),
        steps(0, 4),
        start_add(0, 1),
        steps(0, 3),
        steps(1, 3),
        steps(0, 3),
        steps(1, 4),
    ]
    .concat();
    let rows = [[0, ADD_KIND, 1, 2, 6, 0, 1, 0], [1, ADD_KIND, 1, 2, 10, 0, 2, 1], [0, ADD_KIND, 1, 2, 6, 0, 3, 0]];
    cases.accepted("a failed SC changes nothing", recording(1, &failed_between), 13, &rows);

    let begun = [start_add(0, 5), start_add(1, 7), steps(0, 2), steps(1, 3), steps(0, 4), steps(1, 3)].concat();
    cases.accepted(
        "a second attempt due, its LL not taken",
        recording(1, &begun),
        12,
        &[[0, ADD_KIND, 1, 2, 6, 0, 1, 0], [1, ADD_KIND, 0, 2, 6, 0, 2, 0]],
    );
    cases.accepted(
        "a second attempt begun",
        recording(1, &[&begun[..], &step(1)].concat()),
        12,
        &[[0, ADD_KIND, 1, 2, 6, 0, 1, 0], [1, ADD_KIND, 0, 2, 7, 0, 2, 1]],
    );

    // At height 2, process 0 stops after its SC at node 2. Its sibling's addition carries it to node 1.
    let stopped_half_way = [start_add(0, 5), steps(0, 6), start_read(3), step(3), start_add(1, 7), steps(1, 10)].concat();
    cases.accepted(
        "stopped between two levels",
        recording(2, &stopped_half_way),
        12,
        &[[0, ADD_KIND, 0, 2, 6, 0, 2, 0], [3, READ_KIND, 1, 2, 1, 0, 1, 0], [1, ADD_KIND, 1, 2, 10, 0, 3, 0]],
    );
    // Process 3's store at node 1 carries what stood in node 2 when it read there: 0's addition, and not 1's, which is only in its leaf.
    let only_in_the_leaf = [start_add(0, 5), steps(0, 6), start_add(1, 7), steps(1, 2), start_add(3, 1), steps(3, 10)].concat();
    cases.accepted(
        "in its leaf but in no inner node",
        recording(2, &only_in_the_leaf),
        6,
        &[[0, ADD_KIND, 0, 3, 6, 0, 1, 0], [1, ADD_KIND, 0, 3, 2, 0, 0, 0], [3, ADD_KIND, 1, 3, 10, 0, 2, 0]],
    );
}

/// The row of a read that answers 0: finished, with this rank, or unfinished where the rank is 0.
fn read_of_0(process: u32, contention: u32, rank: u32) -> Row {
    let finished = (rank > 0) as u32;
    [process, READ_KIND, finished, contention, finished, 0, rank, 0]
}

/// An addition of process 0 that process 1 joins, at every place: up to, but without, its last step that counts.
fn joined(cases: &mut Cases) {
    for taken in 0..=6 {
        let before = [start_add(0, 5), steps(0, taken), start_read(1)].concat();
        let rest = steps(0, 6 - taken);
        let contention = if taken < 6 { 2 } else { 1 };
        cases.accepted(
            format!("joined after {taken} of its 6 steps"),
            recording(1, &[&before[..], &rest].concat()),
            5,
            &[[0, ADD_KIND, 1, contention, 6, 0, 1, 0], read_of_0(1, contention, 0)],
        );
        if taken == 6 {
            continue;
        }
        cases.accepted(
            format!("joined after {taken} of its 6 steps by one that ends at once"),
            recording(1, &[&before[..], &step(1), &rest].concat()),
            5,
            &[[0, ADD_KIND, 1, 2, 6, 0, 2, 0], read_of_0(1, 2, 1)],
        );
        let stopped = [0, ADD_KIND, 0, 2, taken as u32, 0, 0, 0];
        cases.accepted(
            format!("stopped after {taken} steps, then joined by the last record"),
            recording(1, &before),
            0,
            &[stopped, read_of_0(1, 2, 0)],
        );
        cases.accepted(
            format!("stopped after {taken} steps, then joined by one that ends"),
            recording(1, &[&before[..], &step(1)].concat()),
            0,
            &[stopped, read_of_0(1, 2, 1)],
        );
    }
}

/// The first record that counts is the start record.
fn before_the_start(cases: &mut Cases) {
    let still_there = [start_read(1), start_read(0), step(1), step(0)].concat();
    cases.accepted("the other ends right after its start", recording(1, &still_there), 0, &[read_of_0(1, 2, 1), read_of_0(0, 2, 2)]);
    let gone = [start_read(1), step(1), start_read(0), step(0)].concat();
    cases.accepted("the other ends right before its start", recording(1, &gone), 0, &[read_of_0(1, 1, 1), read_of_0(0, 1, 2)]);
    let more_before = [start_read(1), start_read(2), start_read(3), step(1), step(2), start_read(0), step(0)].concat();
    cases.accepted(
        "more were busy before its start than after it",
        recording(2, &more_before),
        0,
        &[read_of_0(1, 3, 1), read_of_0(2, 3, 2), read_of_0(3, 3, 0), read_of_0(0, 2, 3)],
    );
}

/// An addition of process 0 at height 2, finished and one step short of it, through which the count of the busy ones changes.
fn rising_and_falling(cases: &mut Cases) {
    let start = |processes: &[u8]| processes.iter().flat_map(|&process| start_read(process)).collect::<Vec<u8>>();
    let end = |processes: &[u8]| processes.iter().flat_map(|&process| step(process)).collect::<Vec<u8>>();
    let higher = [start(&[1]), end(&[1]), start(&[1, 2]), end(&[1, 2]), start(&[1, 2, 3]), end(&[3, 2, 1])].concat();
    let higher_rows = [(1, 2, 1), (1, 3, 2), (2, 3, 3), (1, 4, 6), (2, 4, 5), (3, 4, 4)];
    let lower = [start(&[1, 2, 3]), end(&[1, 2, 3]), start(&[1, 2]), end(&[1, 2]), start(&[1]), end(&[1])].concat();
    let lower_rows = [(1, 4, 1), (2, 4, 2), (3, 4, 3), (1, 3, 4), (2, 3, 5), (1, 2, 6)];
    // Three join, but never two of them at once.
    let in_turn = [start(&[1]), end(&[1]), start(&[2]), end(&[2]), start(&[3]), end(&[3])].concat();
    let in_turn_rows = [(1, 2, 1), (2, 2, 2), (3, 2, 3)];
    for (name, others, contention, other_rows) in [
        ("the count rises higher each time", higher, 4, &higher_rows[..]),
        ("the count rises less each time", lower, 4, &lower_rows),
        ("three join one after another", in_turn, 2, &in_turn_rows),
    ] {
        let records = [&start_add(0, 9), &others[..], &steps(0, 10)].concat();
        let reads = other_rows.iter().map(|&(process, contention, rank)| read_of_0(process, contention, rank));
        let mut rows: Vec<Row> = [[0, ADD_KIND, 1, contention, 10, 0, 1 + other_rows.len() as u32, 0]].into_iter().chain(reads).collect();
        cases.accepted(name, recording(2, &records), 9, &rows);
        rows[0] = [0, ADD_KIND, 0, contention, 9, 0, 0, 0];
        cases.accepted(format!("{name}, one step less"), recording(2, &records[..records.len() - 3]), 0, &rows);
    }
}

/// All processes of the tree busy at once: 2 at height 1, 64 at height 6.
fn all_at_once(cases: &mut Cases) {
    for height in 1..=6 {
        let n = 1u8 << height;
        let count = n as u32;
        let starts = |from: u8| (from..n).flat_map(start_read).collect::<Vec<u8>>();
        let unfinished = |from: u32, contention: u32| (from..count).map(move |process| read_of_0(process, contention, 0));
        cases.accepted(format!("{n} busy at the end"), recording(height, &starts(0)), 0, &unfinished(0, count).collect::<Vec<Row>>());
        let ended = [starts(0), (0..n).flat_map(step).collect()].concat();
        let rows: Vec<Row> = (0..count).map(|process| read_of_0(process, count, process + 1)).collect();
        cases.accepted(format!("{n} busy, and all end"), recording(height, &ended), 0, &rows);
        let never_all = [start_read(0), (1..n - 1).flat_map(start_read).collect(), step(0), start_read(n - 1)].concat();
        let rows: Vec<Row> = [read_of_0(0, count - 1, 1)].into_iter().chain(unfinished(1, count - 1)).collect();
        cases.accepted(format!("the first of {n} ends before the last starts"), recording(height, &never_all), 0, &rows);

        let needed = 2 + 4 * height as usize;
        let add = |contention: u32| [0, ADD_KIND, 1, contention, needed as u32, 0, 1, 0];
        let in_time = [start_add(0, 1), steps(0, needed - 1), starts(1), step(0)].concat();
        let rows: Vec<Row> = [add(count)].into_iter().chain(unfinished(1, count)).collect();
        cases.accepted(format!("{n} busy right before its last step"), recording(height, &in_time), 1, &rows);
        let too_late = [start_add(0, 1), steps(0, needed), starts(1)].concat();
        let rows: Vec<Row> = [add(1)].into_iter().chain(unfinished(1, count - 1)).collect();
        cases.accepted(format!("the others of {n} busy right after its last step"), recording(height, &too_late), 1, &rows);
    }
}

/// A process's next operation keeps nothing of the one before, nor of what was while it was idle.
fn contention_anew(cases: &mut Cases) {
    let alone_again = [start_read(0), start_read(1), step(0), step(1), start_read(0), step(0), start_read(1)].concat();
    cases.accepted(
        "two at once, then each alone",
        recording(1, &alone_again),
        0,
        &[read_of_0(0, 2, 1), read_of_0(1, 2, 2), read_of_0(0, 1, 3), read_of_0(1, 1, 0)],
    );
    let many_between =
        [start_read(0), step(0), start_read(1), start_read(2), start_read(3), step(1), step(2), step(3), start_read(0), step(0)].concat();
    cases.accepted(
        "three busy while it is idle",
        recording(2, &many_between),
        0,
        &[read_of_0(0, 1, 1), read_of_0(1, 3, 2), read_of_0(2, 3, 3), read_of_0(3, 3, 4), read_of_0(0, 1, 5)],
    );
    let goes_on = [start_add(3, 1), start_read(0), start_read(1), step(0), step(1), start_read(0), step(0), start_read(1)].concat();
    cases.accepted(
        "its second operation sees fewer than one that goes on",
        recording(2, &goes_on),
        0,
        &[[3, ADD_KIND, 0, 3, 0, 0, 0, 0], read_of_0(0, 3, 1), read_of_0(1, 3, 2), read_of_0(0, 2, 3), read_of_0(1, 2, 0)],
    );
}

/// An SC that fails is not the last step: 1's first at node 2 does, 0 ends, and only then 2 and 3 join.
fn joined_at_a_second_attempt(cases: &mut Cases) {
    let both_link = [start_add(0, 5), start_add(1, 7), steps(0, 2), steps(1, 2), step(0), step(1)].concat();
    let fails = [both_link, steps(0, 3), steps(1, 3), steps(0, 4)].concat();
    let in_turn = [start_read(2), step(2), start_read(3)].concat();
    let at_once = [start_read(2), start_read(3), step(2)].concat();
    for (name, others, contention) in [("one after another", in_turn, 2), ("at once", at_once, 3)] {
        let rows = [
            [0, ADD_KIND, 1, 2, 10, 0, 1, 0],
            [1, ADD_KIND, 1, contention, 14, 0, 2, 1],
            [2, READ_KIND, 1, contention, 1, 12, 3, 0],
            [3, READ_KIND, 0, contention, 0, 0, 0, 0],
        ];
        let records = [&fails[..], &others, &steps(1, 8)].concat();
        cases.accepted(format!("two join before a second attempt, {name}"), recording(2, &records), 12, &rows);
    }
}
