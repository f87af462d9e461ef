//! The generator's own picture of the machine: who is busy, and which operations each node has taken in, as plain sets. It holds no
//! values, for these decide neither. It steers the generator and counts what the generator reached; of the answers only the contention is held
//! to it, taken record by record.

use crate::recording::{ADD, READ, STEP};

const ROOT: usize = 1;
const MOST_OPERATIONS: usize = 1_024;

/// A set of operations.
type Set = [u64; MOST_OPERATIONS / 64];
const EMPTY: Set = [0; MOST_OPERATIONS / 64];

#[derive(Clone, Copy)]
struct Process {
    operation: Option<usize>,
    is_addition: bool,
    /// The step number: two steps at the leaf, then four for each of two attempts at each level.
    place: usize,
    left: Set,
    right: Set,
}

/// An operation's own records, each by how many records came before it.
struct Span {
    process: usize,
    started: usize,
    latest: usize,
    finished: bool,
}

/// Operations by where the count of busy processes is greatest.
pub const CONTENTION: [&str; 8] = [
    "finished operations with a contention above the count at the start",
    "unfinished operations with a contention above the count at the start",
    "finished operations with a contention reached only right before the last step",
    "finished operations with a greater count only after the last step",
    "unfinished operations with a contention reached only after the latest step",
    "operations with a contention below that of the process's operation before",
    "operations with a contention of all processes",
    "operations with a contention of 64",
];

/// What the generator is there to reach.
#[derive(Default)]
pub struct Reached {
    pub second_attempts: [u64; 7],
    pub failed_second_attempts: u64,
    pub additions_taken_in_by_own_store: u64,
    pub additions_taken_in_by_another: u64,
    pub additions_taken_in_together: u64,
    pub finished_reads: u64,
    pub unfinished: u64,
    pub contention: [u64; CONTENTION.len()],
}

pub struct Model {
    pub n: usize,
    pub operations: usize,
    pub busy: usize,
    height: usize,
    linked: Vec<u64>,
    taken_in: Vec<Set>,
    processes: Vec<Process>,
    spans: Vec<Span>,
    /// How many processes are busy right after each record.
    busy_after: Vec<usize>,
    /// Of each operation at the end: the most that were busy right after any record from its start up to, but without, its last step.
    pub contention: Vec<usize>,
    pub reached: Reached,
}

impl Model {
    pub fn new(height: usize) -> Model {
        let n = 1 << height;
        let idle = Process { operation: None, is_addition: false, place: 0, left: EMPTY, right: EMPTY };
        Model {
            n,
            operations: 0,
            busy: 0,
            height,
            linked: vec![0; n],
            taken_in: vec![EMPTY; 2 * n],
            processes: vec![idle; n],
            spans: Vec::new(),
            busy_after: Vec::new(),
            contention: Vec::new(),
            reached: Reached::default(),
        }
    }

    /// Replays an accepted recording.
    pub fn replayed(rec: &[u8]) -> Model {
        let mut model = Model::new(rec[5] as usize);
        let mut place = 6;
        while place < rec.len() {
            let process = rec[place + 2] as usize;
            match rec[place + 1] {
                STEP => model.step(process),
                kind => model.start(process, kind),
            }
            place += 1 + rec[place] as usize;
        }
        model.reached.unfinished = model.busy as u64;
        model.count_contention();
        model
    }

    pub fn is_busy(&self, process: usize) -> bool {
        self.processes[process].operation.is_some()
    }

    /// Whether the process's next step is an SC.
    pub fn is_about_to_store(&self, process: usize) -> bool {
        let own = &self.processes[process];
        own.operation.is_some() && own.is_addition && own.place >= 2 && own.place % 4 == 1
    }

    pub fn start(&mut self, process: usize, kind: u8) {
        assert!(kind == READ || kind == ADD);
        let own = &mut self.processes[process];
        own.operation = Some(self.operations);
        own.is_addition = kind == ADD;
        own.place = 0;
        let now = self.busy_after.len();
        self.spans.push(Span { process, started: now, latest: now, finished: false });
        self.operations += 1;
        self.busy += 1;
        self.busy_after.push(self.busy);
    }

    pub fn step(&mut self, process: usize) {
        let mut own = self.processes[process];
        let operation = own.operation.expect("only busy processes are stepped");
        let leaf = self.n + process;
        if !own.is_addition {
            self.reached.finished_reads += 1;
            own.operation = None;
        } else if own.place < 2 {
            if own.place == 1 {
                self.taken_in[leaf][operation / 64] |= 1 << (operation % 64);
            }
            own.place += 1;
        } else {
            let level = (own.place - 2) / 8 + 1;
            let is_second = (own.place - 2) % 8 >= 4;
            let node = leaf >> level;
            match (own.place - 2) % 4 {
                0 => {
                    self.linked[node] |= 1 << process;
                    self.reached.second_attempts[level] += is_second as u64;
                    own.place += 1;
                }
                1 => {
                    own.left = self.taken_in[2 * node];
                    own.place += 1;
                }
                2 => {
                    own.right = self.taken_in[2 * node + 1];
                    own.place += 1;
                }
                _ => {
                    let succeeds = self.linked[node] >> process & 1 == 1;
                    if succeeds {
                        self.linked[node] = 0;
                        self.take_in(node, process, &own);
                    }
                    self.reached.failed_second_attempts += (is_second && !succeeds) as u64;
                    own.place += if succeeds && !is_second { 5 } else { 1 };
                    if own.place == 2 + 8 * self.height {
                        own.operation = None;
                    }
                }
            }
        }
        self.processes[process] = own;
        self.note_step(operation, own.operation.is_none());
    }

    fn note_step(&mut self, operation: usize, finished: bool) {
        self.spans[operation].latest = self.busy_after.len();
        self.spans[operation].finished = finished;
        self.busy -= finished as usize;
        self.busy_after.push(self.busy);
    }

    fn count_contention(&mut self) {
        let most = |from: usize, to: usize| self.busy_after[from..to].iter().copied().max().unwrap_or(0);
        // For each process: the start and the contention of its operation after the one looked at.
        let mut after = vec![(self.busy_after.len(), usize::MAX); self.n];
        let mut contentions = vec![];
        for own in self.spans.iter().rev() {
            let (next, contention_after) = after[own.process];
            let end = if own.finished { own.latest } else { next };
            let contention = most(own.started, end);
            let above_start = contention > self.busy_after[own.started];
            let found = [
                own.finished && above_start,
                !own.finished && above_start,
                own.finished && above_start && contention > most(own.started, end - 1),
                own.finished && contention < most(end, next),
                !own.finished && contention > most(own.started, own.latest + 1),
                contention_after < contention,
                contention == self.n,
                contention == 64,
            ];
            for (count, found) in self.reached.contention.iter_mut().zip(found) {
                *count += found as u64;
            }
            after[own.process] = (own.started, contention);
            contentions.push(contention);
        }
        contentions.reverse();
        self.contention = contentions;
    }

    fn take_in(&mut self, node: usize, storing: usize, own: &Process) {
        let mut new = 0;
        for word in 0..EMPTY.len() {
            let mut fresh = (own.left[word] | own.right[word]) & !self.taken_in[node][word];
            self.taken_in[node][word] |= fresh;
            while node == ROOT && fresh != 0 {
                let operation = 64 * word + fresh.trailing_zeros() as usize;
                fresh &= fresh - 1;
                new += 1;
                if self.spans[operation].process == storing {
                    self.reached.additions_taken_in_by_own_store += 1;
                } else {
                    self.reached.additions_taken_in_by_another += 1;
                }
            }
        }
        if new > 1 {
            self.reached.additions_taken_in_together += new;
        }
    }
}
