//! Counts of what the generated inputs reached, so that what they never reach is noticed.

use crate::drawer::{needed, recordings_of, Compared};
use crate::generate::MOST_OPERATIONS;
use crate::harness::{Answers, Disagreement};
use crate::model::{Model, Reached, CONTENTION};
use crate::recording::{LONGEST, MARK};
use second::Answer;
use std::collections::BTreeMap;

/// What the generated inputs reached.
#[derive(Default)]
pub struct Tally {
    accepted: [u64; 7],
    refused: [u64; 12],
    reached: Reached,
    operations: u64,
    full_length: u64,
    full_operations: u64,
    pub printed: u64,
    pub kinds: BTreeMap<&'static str, u64>,
}

/// The contentions taken record by record, as the document words them, beside those that both reports have.
pub fn hold_contention(rec: &[u8], model: &Model) -> Result<(), Disagreement> {
    let mut report = vec![0; 9 + 20 * model.operations];
    second::report(rec, &mut report);
    for (row, (bytes, &contention)) in report[9..].chunks(20).zip(&model.contention).enumerate() {
        if bytes[3] as usize != contention {
            return Err(format!("row {row}: contention {} in both reports, {contention} record by record\n", bytes[3]));
        }
    }
    Ok(())
}

impl Tally {
    pub fn count(&mut self, rec: &[u8], answers: &Answers) -> Result<(), Disagreement> {
        for answer in answers.reports.iter().filter(|answer| answer.number == 11) {
            self.refused[answer.number as usize] += 1;
        }
        if answers.check.number != 0 {
            self.refused[answers.check.number as usize] += 1;
            return Ok(());
        }
        let model = Model::replayed(rec);
        self.accepted[rec[5] as usize] += 1;
        self.full_length += (rec.len() == LONGEST) as u64;
        self.full_operations += (model.operations == MOST_OPERATIONS) as u64;
        for (sum, more) in self.reached.second_attempts.iter_mut().zip(model.reached.second_attempts) {
            *sum += more;
        }
        self.reached.failed_second_attempts += model.reached.failed_second_attempts;
        self.reached.additions_taken_in_by_own_store += model.reached.additions_taken_in_by_own_store;
        self.reached.additions_taken_in_by_another += model.reached.additions_taken_in_by_another;
        self.reached.additions_taken_in_together += model.reached.additions_taken_in_together;
        self.reached.finished_reads += model.reached.finished_reads;
        self.reached.unfinished += model.reached.unfinished;
        for (sum, more) in self.reached.contention.iter_mut().zip(model.reached.contention) {
            *sum += more;
        }
        self.operations += model.operations as u64;
        hold_contention(rec, &model)
    }

    /// Prints every count; the names of those that are 0.
    pub fn print(&self) -> Vec<String> {
        let mut counts = vec![];
        counts.extend((1..=6).map(|height| (format!("accepted, height {height}"), self.accepted[height])));
        counts.extend((1..=11).map(|number| (format!("refusal {number}"), self.refused[number])));
        counts.extend((1..=6).map(|level| (format!("second attempts, level {level}"), self.reached.second_attempts[level])));
        counts.push(("second attempts that failed".into(), self.reached.failed_second_attempts));
        counts.push(("additions taken in by their own machine's store".into(), self.reached.additions_taken_in_by_own_store));
        counts.push(("additions taken in by another machine's store".into(), self.reached.additions_taken_in_by_another));
        counts.push(("additions taken in together with others".into(), self.reached.additions_taken_in_together));
        counts.push(("finished reads".into(), self.reached.finished_reads));
        counts.push(("operations".into(), self.operations));
        counts.push(("operations unfinished at the end".into(), self.reached.unfinished));
        counts.extend(CONTENTION.iter().zip(self.reached.contention).map(|(name, count)| (name.to_string(), count)));
        counts.push(("accepted recordings of 65,536 bytes".into(), self.full_length));
        counts.push(("accepted recordings of 1,024 operations".into(), self.full_operations));
        counts.push(("inputs printed".into(), self.printed));
        let unreached = print_counts("inputs", &self.kinds, counts);
        let [finished, unfinished, ..] = self.reached.contention;
        println!(
            "contention above the count at the start: {} of 100 finished operations, {} of 100 unfinished ones",
            of_100(finished, self.operations - self.reached.unfinished),
            of_100(unfinished, self.reached.unfinished)
        );
        unreached
    }
}

/// What the generated drawers reached.
#[derive(Default)]
pub struct DrawerTally {
    accepted: u64,
    all_refused: u64,
    left_at_a_cut: u64,
    past_the_end: u64,
    short_for_reports: u64,
    short_for_marks: u64,
    recordings: [u64; 7],
    refused_recordings: [u64; 11],
    accepted_after_refused: u64,
    lower_after_higher: u64,
    pub printed: u64,
    pub kinds: BTreeMap<&'static str, u64>,
}

impl DrawerTally {
    pub fn count(&mut self, drawer: &[u8], compared: &Compared) {
        if let Some((_, Answer { number: 12, place })) = compared.answers.first() {
            let left = drawer.len() - *place as usize;
            self.left_at_a_cut += (left < 5) as u64;
            self.past_the_end += (left >= 5) as u64;
        }
        let (Some(recordings), Some(marks)) = (recordings_of(drawer), &compared.marks) else { return };
        let needed = needed(&recordings);
        for (rooms, _) in compared.answers.iter().filter(|(_, answer)| answer.number == 11) {
            self.short_for_reports += (rooms.out < needed.out) as u64;
            self.short_for_marks += (rooms.out >= needed.out) as u64;
        }
        self.count_recordings(&recordings, marks);
    }

    fn count_recordings(&mut self, recordings: &[&[u8]], marks: &[u8]) {
        let numbers: Vec<usize> = marks.iter().step_by(MARK).take(recordings.len()).map(|&number| number as usize).collect();
        self.accepted += 1;
        self.all_refused += (!recordings.is_empty() && !numbers.contains(&0)) as u64;
        for (index, rec) in recordings.iter().enumerate() {
            let number = numbers[index];
            if number != 0 {
                self.refused_recordings[number] += 1;
                continue;
            }
            self.recordings[rec[5] as usize] += 1;
            if index > 0 {
                self.accepted_after_refused += (numbers[index - 1] != 0) as u64;
                self.lower_after_higher += (numbers[index - 1] == 0 && recordings[index - 1][5] > rec[5]) as u64;
            }
        }
    }

    /// Prints every count; the names of those that are 0.
    pub fn print(&self) -> Vec<String> {
        let mut counts = vec![
            ("accepted drawers".to_string(), self.accepted),
            ("accepted drawers with every recording refused".into(), self.all_refused),
            ("refusal 12, 1 to 4 bytes left".into(), self.left_at_a_cut),
            ("refusal 12, L past the end".into(), self.past_the_end),
            ("refusal 11, for the reports".into(), self.short_for_reports),
            ("refusal 11, for the marks".into(), self.short_for_marks),
        ];
        counts.extend((1..=6).map(|height| (format!("recordings accepted, height {height}"), self.recordings[height])));
        // The cut is by L, so that none is refused by 3.
        let numbers = (1..=10).filter(|&number| number != 3);
        counts.extend(numbers.map(|number| (format!("recordings refused by {number}"), self.refused_recordings[number])));
        counts.push(("recordings accepted right after a refused one".into(), self.accepted_after_refused));
        counts.push(("recordings accepted right after one of a greater height".into(), self.lower_after_higher));
        counts.push(("drawers printed".into(), self.printed));
        print_counts("drawers", &self.kinds, counts)
    }
}

/// The names of the counts that are 0.
fn print_counts(what: &str, kinds: &BTreeMap<&'static str, u64>, counts: Vec<(String, u64)>) -> Vec<String> {
    println!("{what} by kind:");
    for (kind, count) in kinds {
        println!("  {count:>6}  {kind}");
    }
    println!("reached:");
    for (name, count) in &counts {
        println!("  {count:>8}  {name}");
    }
    counts.into_iter().filter(|count| count.1 == 0).map(|count| count.0).collect()
}

fn of_100(part: u64, whole: u64) -> u64 {
    (100 * part).checked_div(whole).unwrap_or(0)
}
