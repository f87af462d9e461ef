//! The cells, the processes and their steps. What happens is told to a `Watch`; the machine itself keeps only what the next step needs.

use crate::ledger::Kind;
use crate::recording::{Event, Records};
use crate::{Answer, MOST_OPERATIONS};

const ROOT: usize = 1;

/// Told of everything that shows in a report. `now` is the place of the record that caused it, `busy` how many processes are busy after it.
pub trait Watch {
    fn started(&mut self, process: usize, kind: Kind, busy: u8);
    fn stepped(&mut self, process: usize);
    fn root_read(&mut self, process: usize, answer: u32);
    fn leaf_written(&mut self, process: usize, leaf: usize, now: u32);
    fn second_attempt(&mut self, process: usize);
    fn left_read(&mut self, process: usize, now: u32);
    fn right_read(&mut self, process: usize, now: u32);
    fn stored(&mut self, process: usize, node: usize, now: u32);
    fn addition_finished(&mut self, process: usize);
}

pub struct Unwatched;

impl Watch for Unwatched {
    fn started(&mut self, _: usize, _: Kind, _: u8) {}
    fn stepped(&mut self, _: usize) {}
    fn root_read(&mut self, _: usize, _: u32) {}
    fn leaf_written(&mut self, _: usize, _: usize, _: u32) {}
    fn second_attempt(&mut self, _: usize) {}
    fn left_read(&mut self, _: usize, _: u32) {}
    fn right_read(&mut self, _: usize, _: u32) {}
    fn stored(&mut self, _: usize, _: usize, _: u32) {}
    fn addition_finished(&mut self, _: usize) {}
}

/// The value of node 1 after the last record, or the first refusal.
pub fn replay<const PROCESSES: usize, const NODES: usize, W: Watch>(mut records: Records, watch: &mut W) -> Result<u32, Answer> {
    let mut machine = Machine::<PROCESSES, NODES>::new();
    let mut operations = 0;
    while let Some(record) = records.next()? {
        let process = record.process as usize;
        if process >= PROCESSES {
            return Err(Answer::refused(7, record.place));
        }
        match record.event {
            Event::Step => {
                if !machine.is_busy(process) {
                    return Err(Answer::refused(9, record.place));
                }
                machine.step(process, record.place as u32, watch);
            }
            start => {
                if machine.is_busy(process) {
                    return Err(Answer::refused(8, record.place));
                }
                if operations == MOST_OPERATIONS {
                    return Err(Answer::refused(10, record.place));
                }
                operations += 1;
                let kind = machine.start(process, start);
                watch.started(process, kind, machine.busy.count_ones() as u8);
            }
        }
    }
    Ok(machine.values[ROOT])
}

#[derive(Clone, Copy)]
enum Access {
    ReadRoot,
    ReadLeaf,
    WriteLeaf,
    Link,
    ReadLeft,
    ReadRight,
    Store,
}

#[derive(Clone, Copy)]
struct Process {
    next: Access,
    second_attempt: bool,
    node: u8,
    delta: u32,
    leaf: u32,
    left: u32,
    right: u32,
}

impl Process {
    fn first_attempt_at(&mut self, node: usize) {
        self.node = node as u8;
        self.second_attempt = false;
        self.next = Access::Link;
    }
}

/// `NODES` is twice `PROCESSES`; nothing is at index 0.
struct Machine<const PROCESSES: usize, const NODES: usize> {
    values: [u32; NODES],
    /// The set of linked processes of each inner node.
    linked: [u64; PROCESSES],
    processes: [Process; PROCESSES],
    busy: u64,
}

impl<const PROCESSES: usize, const NODES: usize> Machine<PROCESSES, NODES> {
    fn new() -> Self {
        let resting = Process { next: Access::ReadRoot, second_attempt: false, node: 0, delta: 0, leaf: 0, left: 0, right: 0 };
        Machine { values: [0; NODES], linked: [0; PROCESSES], processes: [resting; PROCESSES], busy: 0 }
    }

    fn is_busy(&self, process: usize) -> bool {
        self.busy & bit(process) != 0
    }

    fn start(&mut self, process: usize, start: Event) -> Kind {
        self.busy |= bit(process);
        let own = &mut self.processes[process];
        if let Event::StartAddition { delta } = start {
            own.next = Access::ReadLeaf;
            own.node = (PROCESSES + process) as u8;
            own.delta = delta;
            Kind::Add
        } else {
            own.next = Access::ReadRoot;
            Kind::Read
        }
    }

    #[inline(always)]
    fn step<W: Watch>(&mut self, process: usize, now: u32, watch: &mut W) {
        watch.stepped(process);
        let own = &mut self.processes[process];
        let node = own.node as usize;
        match own.next {
            Access::ReadRoot => {
                watch.root_read(process, self.values[ROOT]);
                self.busy &= !bit(process);
            }
            Access::ReadLeaf => {
                own.leaf = self.values[node];
                own.next = Access::WriteLeaf;
            }
            Access::WriteLeaf => {
                self.values[node] = own.leaf.wrapping_add(own.delta);
                watch.leaf_written(process, node, now);
                own.first_attempt_at(node / 2);
            }
            Access::Link => {
                self.linked[node] |= bit(process);
                if own.second_attempt {
                    watch.second_attempt(process);
                }
                own.next = Access::ReadLeft;
            }
            Access::ReadLeft => {
                own.left = self.values[2 * node];
                watch.left_read(process, now);
                own.next = Access::ReadRight;
            }
            Access::ReadRight => {
                own.right = self.values[2 * node + 1];
                watch.right_read(process, now);
                own.next = Access::Store;
            }
            Access::Store => {
                let succeeds = self.linked[node] & bit(process) != 0;
                if succeeds {
                    self.values[node] = own.left.wrapping_add(own.right);
                    self.linked[node] = 0;
                    watch.stored(process, node, now);
                }
                if !succeeds && !own.second_attempt {
                    own.second_attempt = true;
                    own.next = Access::Link;
                } else if node == ROOT {
                    watch.addition_finished(process);
                    self.busy &= !bit(process);
                } else {
                    own.first_attempt_at(node / 2);
                }
            }
        }
    }
}

fn bit(process: usize) -> u64 {
    1 << process
}
