//! Drawers on both sides of each line, and the answers as the document gives them. The recordings in them are the document's, for the most
//! part.

use crate::cases::{Case, Expected};
use crate::drawer::recordings_of;
use crate::recording::*;
use second::Answer;
use std::fmt::Write;

/// Drawers of more recordings are not printed.
const MOST_PRINTED: usize = 20_000;

pub struct DrawerCase {
    pub name: String,
    /// Whole recordings, each as often in a row as the number says.
    runs: Vec<(usize, Case)>,
    /// What is behind them.
    rest: Vec<u8>,
    /// Of the whole drawer, whatever the rooms are.
    pub refusal: Option<Answer>,
}

impl DrawerCase {
    pub fn drawer(&self) -> Vec<u8> {
        [self.joined(|case| case.rec.clone()), self.rest.clone()].concat()
    }

    pub fn reports(&self) -> Vec<u8> {
        self.joined(|case| case.expected.report().unwrap_or_default())
    }

    pub fn marks(&self) -> Vec<u8> {
        self.joined(|case| case.expected.mark())
    }

    fn joined(&self, bytes_of: impl Fn(&Case) -> Vec<u8>) -> Vec<u8> {
        self.runs.iter().map(|(count, case)| bytes_of(case).repeat(*count)).collect::<Vec<_>>().concat()
    }

    pub fn is_printed(&self) -> bool {
        self.refusal.is_some() || self.runs.iter().map(|run| run.0).sum::<usize>() <= MOST_PRINTED
    }

    pub fn printed(&self) -> String {
        if let Some(Answer { number, place }) = self.refusal {
            return format!("refused {number} {place}\n");
        }
        let mut text = String::new();
        let (mut number, mut offset) = (1, 0);
        for (count, case) in &self.runs {
            for _ in 0..*count {
                write!(text, "recording {number} offset {offset}\n{}", case.expected.printed()).unwrap();
                number += 1;
                offset += case.rec.len();
            }
        }
        text
    }
}

struct DrawerCases<'a> {
    cases: &'a [Case],
    made: Vec<DrawerCase>,
}

impl DrawerCases<'_> {
    /// A case of the document that a drawer can hold: its L is true.
    fn named(&self, name: &str) -> Case {
        let case = self.cases.iter().find(|case| case.name == name).unwrap_or_else(|| panic!("no case is named {name}"));
        assert!(is_cut_whole(&case.rec), "{name} is not cut as it is");
        case.clone()
    }

    fn all_named(&self, names: &[&str]) -> Vec<(usize, Case)> {
        names.iter().map(|name| (1, self.named(name))).collect()
    }

    fn add(&mut self, name: impl Into<String>, runs: Vec<(usize, Case)>, rest: &[u8], refusal: Option<(u32, usize)>) {
        let refusal = refusal.map(|(number, place)| Answer { number, place: place as u32 });
        self.made.push(DrawerCase { name: name.into(), runs, rest: rest.to_vec(), refusal });
    }

    fn accepted(&mut self, name: impl Into<String>, runs: Vec<(usize, Case)>) {
        self.add(name, runs, &[], None);
    }

    /// Nothing can be cut behind the recordings.
    fn not_cut(&mut self, name: impl Into<String>, runs: Vec<(usize, Case)>, rest: &[u8]) {
        let place = length_of(&runs);
        self.add(name, runs, rest, Some((12, place)));
    }

    fn too_long(&mut self, name: impl Into<String>, runs: Vec<(usize, Case)>, rest: &[u8]) {
        assert!(length_of(&runs) + rest.len() > LONGEST_DRAWER);
        self.add(name, runs, rest, Some((19, 0)));
    }
}

fn is_cut_whole(rec: &[u8]) -> bool {
    recordings_of(rec).is_some_and(|recordings| recordings.len() == 1)
}

fn length_of(runs: &[(usize, Case)]) -> usize {
    runs.iter().map(|(count, case)| count * case.rec.len()).sum()
}

/// A recording that is refused, for drawers alone.
fn refused(rec: Vec<u8>, number: u32, place: u32) -> Case {
    assert!(is_cut_whole(&rec));
    Case { name: String::new(), rec, expected: Expected::Refused { number, place }, spelled_report: None, spelled_text: None }
}

const SIX: &str = "the six-byte recording";
const FIVE: &str = "5 zero bytes";
const LETTERED: [&str; 6] = ["A", "B", "C", "D", "E", "F"];

/// What stands before the cut that is tried.
const BEFORE: [&[&str]; 4] = [&[], &["A"], &[SIX], &["A", "version 0", "B", SIX, FIVE, "F"]];

/// One recording for each refusal that one can have here; 3 is not among them, since the cut is by L.
const REFUSED: [&str; 9] = [
    "5 bytes of version 1 with a true L",
    "version 0",
    "65,537 bytes, L true",
    "height 0",
    "k is 6, five bytes behind it, after good records",
    "height 1, a later step by process 2",
    "a start one step before the end of an addition",
    "B, one step more",
    "operation 1,025, a read",
];

pub fn all(cases: &[Case]) -> Vec<DrawerCase> {
    let mut drawers = DrawerCases { cases, made: vec![] };
    left_at_a_cut(&mut drawers);
    lengths(&mut drawers);
    astray(&mut drawers);
    refused_recordings(&mut drawers);
    long_recordings(&mut drawers);
    joined(&mut drawers);
    longest_drawers(&mut drawers);
    drawers.made
}

fn left_at_a_cut(drawers: &mut DrawerCases) {
    for before in BEFORE {
        let runs = drawers.all_named(before);
        let name = |left: &str| format!("{left} after {} recordings of {} bytes", before.len(), length_of(&runs));
        drawers.accepted(name("no byte"), runs.clone());
        for byte in [0, 1, 255] {
            for left in 1..=4 {
                drawers.not_cut(name(&format!("{left} bytes of {byte}")), runs.clone(), &vec![byte; left]);
            }
        }
        let a = drawers.named("A").rec;
        for left in 1..=5 {
            drawers.not_cut(name(&format!("the first {left} bytes of A")), runs.clone(), &a[..left]);
        }
        drawers.not_cut(name("A without its last byte"), runs.clone(), &a[..a.len() - 1]);
        drawers.not_cut(name("5 bytes of 255"), runs.clone(), &[255; 5]);
        for five in [FIVE, "5 bytes of version 1 with a true L"] {
            let with_five = [runs.clone(), drawers.all_named(&[five])].concat();
            drawers.accepted(name(five), with_five.clone());
            for left in 1..=4 {
                drawers.not_cut(name(&format!("{five} and {left} more")), with_five.clone(), &vec![0; left]);
            }
        }
    }
}

fn with_length(mut rec: Vec<u8>, length: usize) -> Vec<u8> {
    set_length(&mut rec, length as u32);
    rec
}

fn lengths(drawers: &mut DrawerCases) {
    for before in BEFORE {
        let runs = drawers.all_named(before);
        let start = length_of(&runs);
        for last in [SIX, "A", "F", "65,536 bytes"] {
            let rec = drawers.named(last).rec;
            let length = rec.len() - 5;
            let name = |what: &str| format!("{last} after {start} bytes, {what}");
            drawers.accepted(name("L true"), [runs.clone(), drawers.all_named(&[last])].concat());
            for more in [1, 2, 5, 256, 65_536] {
                drawers.not_cut(name(&format!("L {more} too large")), runs.clone(), &with_length(rec.clone(), length + more));
            }
            for less in 1..=4.min(length) {
                let short = with_length(rec.clone(), length - less);
                drawers.add(name(&format!("L {less} too small")), runs.clone(), &short, Some((12, start + rec.len() - less)));
            }
        }
        // 5 + L is 2^32 - 1, 2^32, 2^32 + 1, 2^32 + 4, 2^31 - 1, 2^31, 2^24 + 5.
        for length in [0xffff_fffa, 0xffff_fffb, 0xffff_fffc, 0xffff_ffff, 0x7fff_fffa, 0x7fff_fffb, 0x0100_0000] {
            let six = with_length(drawers.named(SIX).rec, length);
            drawers.not_cut(format!("L is {length} after {start} bytes"), runs.clone(), &six);
        }
    }
}

/// A false L in the middle, by which the next cuts fall elsewhere.
fn astray(drawers: &mut DrawerCases) {
    let (a, b) = (drawers.named("A").rec, drawers.named("B").rec);
    // Behind the cut stands 00 00003f01, or 01 01000000.
    let too_large = [with_length(a.clone(), a.len() - 4), b.clone()].concat();
    drawers.add("A with L one too large, then B", vec![], &too_large, Some((12, 38)));
    let too_small = [with_length(a.clone(), a.len() - 6), b.clone()].concat();
    drawers.add("A with L one too small, then B", vec![], &too_small, Some((12, 36)));

    // The record at 37 has the length byte 1.
    let both = refused(with_length([&a[..], &b].concat(), a.len() + b.len() - 5), 6, 37);
    // So has the record at 6.
    let whole_drawer = refused(recording(1, &[&a[..], &b].concat()), 6, 6);
    for (name, one) in [("A with an L that takes in B", both), ("a recording whose records are a drawer", whole_drawer)] {
        let between = [drawers.all_named(&["C"]), vec![(1, one.clone())], drawers.all_named(&["D"])].concat();
        drawers.accepted(name, vec![(1, one)]);
        drawers.accepted(format!("{name}, between others"), between);
    }

    drawers.accepted("25 zero bytes", vec![(5, drawers.named(FIVE))]);
    drawers.accepted("30 zero bytes, then A", vec![(6, drawers.named(FIVE)), (1, drawers.named("A"))]);
    // At the last cut L is 01000000, the first bytes of A.
    drawers.not_cut("26 zero bytes, then A", vec![(5, drawers.named(FIVE))], &[&[0][..], &a].concat());
}

fn refused_recordings(drawers: &mut DrawerCases) {
    let mut every = vec![];
    let mut by_turns = vec![];
    for name in REFUSED {
        let one = drawers.named(name);
        let Expected::Refused { number, .. } = one.expected else { panic!("{name} is refused") };
        drawers.accepted(format!("refused by {number}, alone"), vec![(1, one.clone())]);
        drawers.accepted(format!("refused by {number}, twice"), vec![(2, one.clone())]);
        let between = [drawers.all_named(&["A"]), vec![(1, one.clone())], drawers.all_named(&["C"])].concat();
        drawers.accepted(format!("refused by {number}, between A and C"), between.clone());
        let first = [vec![(1, one.clone())], drawers.all_named(&["D"])].concat();
        drawers.accepted(format!("refused by {number}, then D"), first);
        let last = [drawers.all_named(&["E"]), vec![(1, one.clone())]].concat();
        drawers.accepted(format!("E, then refused by {number}"), last);
        every.push((1, one));
        by_turns.extend(between);
    }
    drawers.accepted("every refusal, nothing accepted", every);
    drawers.accepted("every refusal, each between accepted ones", by_turns);
}

fn long_recordings(drawers: &mut DrawerCases) {
    let names = ["65,536 bytes", "65,537 bytes, L true", "65,539 bytes of good records", "65,537 bytes, version 0", "200000 bytes, L true"];
    for name in names {
        let alone = drawers.all_named(&[name]);
        drawers.accepted(format!("{name}, alone"), alone.clone());
        drawers.accepted(format!("{name}, between A and B"), [drawers.all_named(&["A"]), alone, drawers.all_named(&["B"])].concat());
    }
    let over = drawers.named("65,537 bytes, L true").rec;
    drawers.not_cut("65,537 bytes, the last of them missing", vec![], &over[..LONGEST]);
}

fn joined(drawers: &mut DrawerCases) {
    drawers.accepted("A to F", drawers.all_named(&LETTERED));
    let mut reversed = LETTERED;
    reversed.reverse();
    drawers.accepted("F to A", drawers.all_named(&reversed));
    for count in [2, 999, 1_000, 5_000] {
        drawers.accepted(format!("{count} times B"), vec![(count, drawers.named("B"))]);
    }
    drawers.accepted("10,000 times six bytes", vec![(10_000, drawers.named(SIX))]);
    drawers.accepted("A to F, 500 times", drawers.all_named(&LETTERED.repeat(500)));
    let mut every: Vec<(usize, Case)> = drawers.cases.iter().filter(|case| is_cut_whole(&case.rec)).map(|case| (1, case.clone())).collect();
    drawers.accepted("every recording of the document", every.clone());
    every.reverse();
    drawers.accepted("every recording of the document, the last first", every);
}

fn longest_drawers(drawers: &mut DrawerCases) {
    let (six, five) = (drawers.named(SIX), drawers.named(FIVE));
    let sixes = |count: usize| (count, six.clone());
    drawers.accepted("16,777,216 bytes, of six and five each", vec![sixes(2_796_201), (2, five.clone())]);
    drawers.too_long("16,777,217 bytes, of six and five each", vec![sixes(2_796_202), (1, five.clone())], &[]);
    drawers.not_cut("16,777,216 bytes, four left", vec![sixes(2_796_202)], &[0; 4]);
    drawers.too_long("16,777,217 bytes, one left", vec![sixes(2_796_201), (2, five.clone())], &[0]);
    drawers.accepted("16,777,215 zero bytes", vec![(3_355_443, five.clone())]);
    drawers.not_cut("16,777,216 zero bytes", vec![(3_355_443, five)], &[0]);
    drawers.not_cut("16,777,216 bytes of 255", vec![], &vec![255; LONGEST_DRAWER]);
    drawers.too_long("16,777,217 bytes of 255", vec![], &vec![255; LONGEST_DRAWER + 1]);
    drawers.too_long("16,777,217 zero bytes", vec![], &vec![0; LONGEST_DRAWER + 1]);
    drawers.too_long("30,000,000 bytes", vec![sixes(5_000_000)], &[]);

    let longest = drawers.named("65,536 bytes");
    drawers.accepted("16,777,216 bytes, of 65,536 each", vec![(256, longest.clone())]);
    drawers.too_long("16,777,222 bytes, the last six accepted alone", vec![(256, longest), sixes(1)], &[]);
    let one = |length: usize| refused(recording(1, &vec![2; length - HEADER]), 4, 0);
    drawers.accepted("one recording of 16,777,216 bytes", vec![(1, one(LONGEST_DRAWER))]);
    drawers.too_long("one recording of 16,777,217 bytes", vec![(1, one(LONGEST_DRAWER + 1))], &[]);
    // No recording has a longer report for its length: 64 reads are started, 1,289 bytes of report for 198.
    drawers.accepted("109,220,837 bytes of reports", vec![(84_733, drawers.named("64 busy at the end"))]);
}
