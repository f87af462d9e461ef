//! The generator: good recordings with many machines at the same nodes, the same damaged in every way, random bytes; and drawers of all these.

use crate::model::Model;
use crate::random::Random;
use crate::recording::*;

pub const MOST_OPERATIONS: usize = 1_024;

pub struct Input {
    pub kind: &'static str,
    pub rec: Vec<u8>,
}

/// Who is stepped next.
#[derive(Clone, Copy, PartialEq)]
enum Schedule {
    /// Anyone.
    Storm,
    /// All in turn.
    Lockstep,
    /// One for some steps, then another.
    Bursts,
    /// Anyone, with most held back before an SC, so that many are linked to a node when one stores.
    Ambush,
    /// Anyone but a changing set of stalled machines; some never wake up.
    Stalls,
    /// While the tide rises most turns are starts; while it falls nobody starts, and one after another comes to its end.
    Tides,
    /// One after another, each to the end of its operation.
    Alone,
}

const SCHEDULES: [(Schedule, &str); 7] = [
    (Schedule::Storm, "good, storm"),
    (Schedule::Lockstep, "good, lockstep"),
    (Schedule::Bursts, "good, bursts"),
    (Schedule::Ambush, "good, ambush"),
    (Schedule::Stalls, "good, stalls"),
    (Schedule::Tides, "good, tides"),
    (Schedule::Alone, "good, alone"),
];

#[derive(Clone, Copy)]
enum Deltas {
    Small,
    Zero,
    Wrapping,
    Any,
}

impl Deltas {
    fn draw(self, random: &mut Random) -> u32 {
        match self {
            Deltas::Small => random.below(10) as u32,
            Deltas::Zero => 0,
            Deltas::Wrapping => 0u32.wrapping_sub(random.below(4) as u32),
            Deltas::Any => random.next() as u32,
        }
    }
}

/// A good recording in the making.
struct Recorder {
    rec: Vec<u8>,
    places: Vec<usize>,
    model: Model,
}

impl Recorder {
    fn new(height: usize) -> Recorder {
        Recorder { rec: recording(height as u8, &[]), places: vec![], model: Model::new(height) }
    }

    fn record(&mut self, bytes: &[u8]) {
        self.places.push(self.rec.len());
        self.rec.extend_from_slice(bytes);
    }

    fn start(&mut self, process: usize, delta: Option<u32>) {
        match delta {
            None => {
                self.record(&start_read(process as u8));
                self.model.start(process, READ);
            }
            Some(delta) => {
                self.record(&start_add(process as u8, delta));
                self.model.start(process, ADD);
            }
        }
    }

    fn step(&mut self, process: usize) {
        self.record(&[2, STEP, process as u8]);
        self.model.step(process);
    }

    fn busy(&self) -> Vec<usize> {
        (0..self.model.n).filter(|&process| self.model.is_busy(process)).collect()
    }
}

/// Whose turn it is.
#[derive(Default)]
struct Turns {
    process: usize,
    turn: usize,
    burst: usize,
    stalled: u64,
    rising: bool,
}

impl Turns {
    /// None where the process lets its turn pass.
    fn next(&mut self, plan: &Plan, model: &Model, random: &mut Random) -> Option<usize> {
        self.process = match plan.schedule {
            Schedule::Lockstep => {
                self.turn += 1;
                plan.active[self.turn % plan.active.len()]
            }
            Schedule::Bursts if self.burst > 0 => self.process,
            Schedule::Tides if !self.rising && model.is_busy(self.process) => self.process,
            Schedule::Alone if model.is_busy(self.process) => self.process,
            _ => plan.active[random.below(plan.active.len())],
        };
        self.burst = if self.burst > 0 { self.burst - 1 } else { random.below(14) };
        let passes = match plan.schedule {
            Schedule::Ambush => model.is_about_to_store(self.process) && random.chance(90),
            Schedule::Stalls => {
                if random.chance(2) {
                    self.stalled = random.next() & random.next() | self.stalled & 0x0101_0101_0101_0101;
                }
                self.stalled >> self.process & 1 == 1
            }
            Schedule::Tides => {
                self.rising = model.busy == 0 || self.rising != random.chance(2);
                let busy = model.is_busy(self.process);
                if self.rising {
                    busy && random.chance(70)
                } else {
                    !busy
                }
            }
            _ => false,
        };
        (!passes).then_some(self.process)
    }
}

struct Plan {
    height: usize,
    schedule: Schedule,
    active: Vec<usize>,
    bytes: usize,
    operations: usize,
    reads_of_100: usize,
    deltas: Deltas,
    drain: bool,
}

impl Plan {
    fn draw(random: &mut Random, schedule: Schedule) -> Plan {
        let height = random.between(1, 6);
        let n = 1 << height;
        let active = match random.below(4) {
            0 => (0..n).collect(),
            1 => (0..n).filter(|_| random.chance(50)).collect(),
            // A few, which may be far apart.
            2 => (0..random.between(1, 6)).map(|_| random.below(n)).collect(),
            // Neighbours, which fight from the lowest level on.
            _ => {
                let first = random.below(n);
                (first..n.min(first + random.between(2, 8))).collect()
            }
        };
        let bytes = match random.below(100) {
            0..=29 => random.between(HEADER, 90),
            30..=69 => random.between(90, 900),
            70..=96 => random.between(900, 9_000),
            97 => random.between(9_000, LONGEST),
            _ => LONGEST,
        };
        let operations = match random.below(4) {
            0 => random.between(0, 8),
            1 => random.between(0, 100),
            _ => MOST_OPERATIONS,
        };
        Plan {
            height,
            schedule,
            active,
            bytes,
            operations,
            reads_of_100: random.pick(&[0, 0, 10, 40, 95]),
            deltas: random.pick(&[Deltas::Small, Deltas::Zero, Deltas::Wrapping, Deltas::Any]),
            drain: random.chance(40),
        }
    }

    fn carry_out(&self, random: &mut Random) -> Recorder {
        let mut recorder = Recorder::new(self.height);
        let mut turns = Turns::default();
        let mut idle_turns = 0;
        while !self.active.is_empty() && idle_turns < 4 * self.active.len() + 100 {
            idle_turns += 1;
            let Some(process) = turns.next(self, &recorder.model, random) else { continue };
            let room = self.bytes - recorder.rec.len().min(self.bytes);
            if recorder.model.is_busy(process) {
                if room < 3 {
                    break;
                }
                recorder.step(process);
            } else {
                let delta = if random.chance(self.reads_of_100) { None } else { Some(self.deltas.draw(random)) };
                let needed = if delta.is_none() { 3 } else { 7 };
                // At full length, near the end, an addition is started only where it helps the steps to fill the room to the last byte.
                let misfits = self.bytes == LONGEST && delta.is_some() && room < 300 && room % 3 == 0;
                if recorder.model.operations == self.operations || room < needed || misfits {
                    continue;
                }
                recorder.start(process, delta);
            }
            idle_turns = 0;
        }
        if self.drain {
            for process in recorder.busy() {
                while recorder.model.is_busy(process) && recorder.rec.len() + 3 <= LONGEST {
                    recorder.step(process);
                }
            }
        }
        set_true_length(&mut recorder.rec);
        recorder
    }
}

fn good(random: &mut Random) -> (Recorder, &'static str) {
    let (schedule, kind) = random.pick(&SCHEDULES);
    (Plan::draw(random, schedule).carry_out(random), kind)
}

/// A good recording with at least one record.
fn good_with_records(random: &mut Random) -> Recorder {
    loop {
        let recorder = good(random).0;
        if !recorder.places.is_empty() && recorder.rec.len() < 9_000 {
            return recorder;
        }
    }
}

pub fn input(random: &mut Random) -> Input {
    match random.below(100) {
        0 if random.chance(30) => {
            let height = random.between(1, 6);
            Input { kind: "good, storm of all at full length", rec: storm(random, height, LONGEST) }
        }
        0..=54 => {
            let (recorder, kind) = good(random);
            Input { kind, rec: recorder.rec }
        }
        55..=91 => damaged(random),
        _ => random_bytes(random),
    }
}

/// A storm of all processes, of `bytes` bytes or as many as the limit of operations lets it have.
pub fn storm(random: &mut Random, height: usize, bytes: usize) -> Vec<u8> {
    let plan = Plan {
        height,
        schedule: Schedule::Storm,
        active: (0..1 << height).collect(),
        bytes,
        operations: MOST_OPERATIONS,
        reads_of_100: 5,
        deltas: Deltas::Any,
        drain: false,
    };
    plan.carry_out(random).rec
}

fn damaged(random: &mut Random) -> Input {
    let Recorder { mut rec, places, model } = good_with_records(random);
    let at = random.pick(&places);
    let n = model.n as u8;
    let kind = match random.below(19) {
        0 => {
            for _ in 0..random.between(1, 3) {
                let byte = random.below(rec.len());
                rec[byte] ^= 1 << random.below(8);
            }
            "damaged, bits flipped"
        }
        1 => {
            let byte = random.between(HEADER, rec.len() - 1);
            rec[byte] = random.byte();
            "damaged, a byte of a record replaced"
        }
        2 => {
            rec.truncate(random.below(rec.len()));
            "damaged, truncated"
        }
        3 => {
            rec.truncate(random.between(HEADER, rec.len() - 1));
            set_true_length(&mut rec);
            "damaged, truncated, L true"
        }
        4 => {
            let more = random.between(1, 9);
            rec.extend((0..more).map(|_| random.byte()));
            "damaged, extended"
        }
        5 => {
            let more = random.between(1, 9);
            rec.extend((0..more).map(|_| random.pick(&[0, 1, 2, 3, 6])));
            set_true_length(&mut rec);
            "damaged, extended, L true"
        }
        6 => {
            let length = rec.len() as u32 - 5;
            let wrong = random.pick(&[length + 1, length - 1, length + 5, length << 8, length.swap_bytes(), 0, u32::MAX]);
            set_length(&mut rec, wrong);
            "damaged, L wrong"
        }
        7 => {
            rec[at + 1] = random.pick(&[0, 1, 2, 3, 4, 255]);
            "damaged, a kind replaced"
        }
        8 => {
            rec[at] = random.pick(&[0, 1, 2, 3, 5, 6, 7, 255]);
            "damaged, a length replaced"
        }
        9 => {
            rec[at + 2] = random.pick(&[n, n + 1, 2 * n, 255]);
            "damaged, a process out of range"
        }
        10 => {
            rec[at + 2] = random.below(model.n) as u8;
            "damaged, a process changed"
        }
        11 => {
            let end = at + 1 + rec[at] as usize;
            rec.drain(at..end);
            set_true_length(&mut rec);
            "damaged, a record left out"
        }
        12 => {
            let end = at + 1 + rec[at] as usize;
            let again = rec[at..end].to_vec();
            let to = random.pick(&places);
            rec.splice(to..to, again);
            set_true_length(&mut rec);
            "damaged, a record twice"
        }
        13 => {
            let process = random.below(model.n) as u8;
            rec.extend(if model.is_busy(process as usize) { start_add(process, 1) } else { step(process) });
            let tail = random.pick(&[vec![], step(process), start_read(n), vec![0]]);
            rec.extend(tail);
            set_true_length(&mut rec);
            "damaged, busy started or idle stepped at the end"
        }
        14 => {
            rec[5] = random.pick(&[0, 7, 255]);
            "damaged, no such height"
        }
        15 => {
            rec[5] = random.between(1, 6) as u8;
            "damaged, another height"
        }
        16 => {
            rec[0] = random.pick(&[0, 2, 3, 255]);
            "damaged, no such version"
        }
        17 => {
            let length = random.pick(&[LONGEST + 1, LONGEST + 2, LONGEST + 7, 80_000]);
            while rec.len() < length {
                rec.extend_from_slice(&[2, 1, 0]);
            }
            rec.truncate(length);
            if random.chance(50) {
                set_true_length(&mut rec);
            }
            "damaged, too long"
        }
        _ => return over_the_limit(random),
    };
    Input { kind, rec }
}

/// 1,024 operations, often more, with the starts beyond the limit by idle and by busy processes.
fn over_the_limit(random: &mut Random) -> Input {
    let mut plan = Plan::draw(random, Schedule::Bursts);
    plan.active = (0..1 << plan.height).collect();
    plan.bytes = LONGEST - 40;
    plan.operations = MOST_OPERATIONS;
    plan.reads_of_100 = 80;
    let Recorder { mut rec, places, .. } = plan.carry_out(random);
    // Cut near the last start, many are still busy.
    if let (true, Some(last_start)) = (random.chance(60), places.iter().rposition(|&place| rec[place + 1] != STEP)) {
        if let Some(&end) = places.get(last_start + random.between(1, 9)) {
            rec.truncate(end);
        }
    }
    for _ in 0..random.between(0, 3) {
        let process = random.below(1 << plan.height) as u8;
        rec.extend(random.pick(&[[2, READ, process], [2, READ, process], [2, STEP, process]]));
    }
    set_true_length(&mut rec);
    Input { kind: "damaged, at the limit of operations", rec }
}

fn random_bytes(random: &mut Random) -> Input {
    let length = random.between(0, 80);
    match random.below(3) {
        0 => Input { kind: "random bytes", rec: (0..length).map(|_| random.byte()).collect() },
        1 => {
            let records: Vec<u8> = (0..length).map(|_| random.byte()).collect();
            let height = random.between(0, 7) as u8;
            Input { kind: "random bytes behind a header", rec: recording(height, &records) }
        }
        _ => {
            let processes = random.between(1, 4);
            let mut records = vec![];
            for _ in 0..length {
                let process = random.below(processes) as u8;
                records.extend(match random.below(12) {
                    0 => start_read(process),
                    1 | 2 => start_add(process, random.next() as u32),
                    _ => step(process),
                });
            }
            Input { kind: "random records", rec: recording(random.between(1, 3) as u8, &records) }
        }
    }
}

/// A recording that is cut as it is, whatever else is wrong with it.
fn with_true_length(mut rec: Vec<u8>) -> Vec<u8> {
    rec.resize(rec.len().max(5), 0);
    set_true_length(&mut rec);
    rec
}

fn junk(random: &mut Random) -> Vec<u8> {
    let length = random.between(5, 60);
    let mut rec: Vec<u8> = (0..length).map(|_| random.byte()).collect();
    rec[0] = random.pick(&[1, 1, 1, rec[0]]);
    with_true_length(rec)
}

fn recording_of_a_drawer(random: &mut Random) -> Vec<u8> {
    match random.below(20) {
        0..=10 => with_true_length(input(random).rec),
        11..=14 => {
            let (height, bytes) = (random.between(1, 6), random.between(20, 1_500));
            storm(random, height, bytes)
        }
        15 | 16 => junk(random),
        17 => recording(random.between(0, 7) as u8, &[]),
        18 => vec![random.byte(), 0, 0, 0, 0],
        // One that takes in the next.
        _ => with_true_length([input(random).rec, junk(random)].concat()),
    }
}

/// A drawer of recordings of every kind, often damaged where it is cut.
pub fn drawer(random: &mut Random) -> Input {
    let number = match random.below(20) {
        0 => 0,
        1..=18 => random.between(1, 9),
        _ => random.between(10, 100),
    };
    let mut rec = vec![];
    let mut places = vec![];
    for _ in 0..number {
        places.push(rec.len());
        rec.extend(recording_of_a_drawer(random));
    }
    let kind = if places.is_empty() || random.chance(60) { "drawer, whole" } else { damage_a_drawer(random, &mut rec, &places) };
    Input { kind, rec }
}

fn damage_a_drawer(random: &mut Random, rec: &mut Vec<u8>, places: &[usize]) -> &'static str {
    let at = random.pick(places);
    let left = (rec.len() - at) as u32;
    match random.below(6) {
        0 => {
            rec.extend((0..random.between(1, 4)).map(|_| random.byte()));
            "drawer, 1 to 4 bytes behind the last"
        }
        1 => {
            rec.extend([random.byte(), 0, 0, 0, random.below(3) as u8]);
            rec.extend((0..random.below(3)).map(|_| random.byte()));
            "drawer, some five bytes behind the last"
        }
        2 => {
            rec.truncate(random.below(rec.len()));
            "drawer, cut short"
        }
        3 => {
            let byte = &mut rec[at + 4];
            *byte = random.pick(&[byte.wrapping_add(1), byte.wrapping_sub(1), byte.wrapping_add(5), byte.wrapping_sub(5)]);
            "drawer, an L changed a little"
        }
        4 => {
            set_length(&mut rec[at..], random.pick(&[0, 1, left - 5, left - 4, u32::MAX, u32::MAX - 4]));
            "drawer, an L replaced"
        }
        _ => {
            let byte = random.below(rec.len());
            rec[byte] ^= 1 << random.below(8);
            "drawer, a bit flipped"
        }
    }
}
