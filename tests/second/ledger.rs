//! The rows of the report, and where each addition has come to on its way from its leaf to node 1.
//!
//! An addition waits in a queue of the highest node it is in. A successful SC at the parent takes from the queues of both children the
//! additions that came in before its own read of that child, and passes them on. Every addition goes up at most `h` times, so the whole
//! costs no more than the steps themselves.

use crate::machine::Watch;

#[derive(Clone, Copy)]
pub enum Kind {
    Read = 2,
    Add = 3,
}

pub struct Row {
    pub process: u8,
    pub kind: Kind,
    pub finished: bool,
    pub contention: u8,
    pub steps: u32,
    pub answer: u32,
    pub rank: u32,
    pub second_attempts: u32,
    /// When the addition's leaf write was.
    written: u32,
    /// When the addition came into the node it waits in.
    entered: u32,
    /// The row behind it in the queue.
    behind: u16,
}

/// Rows waiting in one node, by the time they came in.
#[derive(Clone, Copy)]
struct Queue {
    first: u16,
    last: u16,
}

/// No row: a recording has at most 1,024.
const NONE: u16 = u16::MAX;

/// When a process last read the left and the right child.
#[derive(Clone, Copy)]
struct ChildReads {
    left: u32,
    right: u32,
}

pub struct Ledger<const PROCESSES: usize, const NODES: usize> {
    rows: Vec<Row>,
    /// The row of each process's last operation.
    current: [u16; PROCESSES],
    /// For each process: how many were busy at most right after any record from its last start on.
    greatest: [u8; PROCESSES],
    child_reads: [ChildReads; PROCESSES],
    waiting: [Queue; NODES],
    listed: u32,
    /// The rows that one SC at node 1 takes in. Kept for its memory.
    together: Vec<u16>,
}

impl<const PROCESSES: usize, const NODES: usize> Ledger<PROCESSES, NODES> {
    pub fn new(most_operations: usize) -> Self {
        Ledger {
            rows: Vec::with_capacity(most_operations),
            current: [NONE; PROCESSES],
            greatest: [0; PROCESSES],
            child_reads: [ChildReads { left: 0, right: 0 }; PROCESSES],
            waiting: [Queue { first: NONE, last: NONE }; NODES],
            listed: 0,
            together: Vec::new(),
        }
    }

    /// The rows at the end of the recording.
    pub fn into_rows(mut self) -> Vec<Row> {
        for row in self.rows.iter_mut().filter(|row| !row.finished) {
            row.contention = self.greatest[row.process as usize];
        }
        self.rows
    }

    fn row(&mut self, process: usize) -> &mut Row {
        &mut self.rows[self.current[process] as usize]
    }

    fn finish(&mut self, process: usize) {
        let contention = self.greatest[process];
        let row = self.row(process);
        row.finished = true;
        row.contention = contention;
    }

    fn next_rank(&mut self) -> u32 {
        self.listed += 1;
        self.listed
    }

    fn enter(&mut self, node: usize, row: u16, now: u32) {
        self.rows[row as usize].entered = now;
        self.rows[row as usize].behind = NONE;
        let queue = &mut self.waiting[node];
        if queue.first == NONE {
            queue.first = row;
        } else {
            self.rows[queue.last as usize].behind = row;
        }
        queue.last = row;
    }

    /// Takes out the first row waiting in `node`, if it came in before `read`.
    fn leave(&mut self, node: usize, read: u32) -> Option<u16> {
        let first = self.waiting[node].first;
        if first == NONE || self.rows[first as usize].entered > read {
            return None;
        }
        self.waiting[node].first = self.rows[first as usize].behind;
        Some(first)
    }

    fn list_together(&mut self) {
        let mut together = std::mem::take(&mut self.together);
        together.sort_unstable_by_key(|&row| self.rows[row as usize].written);
        for row in together.drain(..) {
            self.rows[row as usize].rank = self.next_rank();
        }
        self.together = together;
    }
}

impl<const PROCESSES: usize, const NODES: usize> Watch for Ledger<PROCESSES, NODES> {
    fn started(&mut self, process: usize, kind: Kind, busy: u8) {
        // A step makes nobody busy, so that the count is never greater than right after some start.
        for greatest in &mut self.greatest {
            *greatest = busy.max(*greatest);
        }
        self.greatest[process] = busy;
        self.current[process] = self.rows.len() as u16;
        self.rows.push(Row {
            process: process as u8,
            kind,
            finished: false,
            contention: 0,
            steps: 0,
            answer: 0,
            rank: 0,
            second_attempts: 0,
            written: 0,
            entered: 0,
            behind: NONE,
        });
    }

    #[inline(always)]
    fn stepped(&mut self, process: usize) {
        self.row(process).steps += 1;
    }

    fn root_read(&mut self, process: usize, answer: u32) {
        self.finish(process);
        let rank = self.next_rank();
        let row = self.row(process);
        row.answer = answer;
        row.rank = rank;
    }

    fn leaf_written(&mut self, process: usize, leaf: usize, now: u32) {
        let row = self.current[process];
        self.rows[row as usize].written = now;
        self.enter(leaf, row, now);
    }

    fn second_attempt(&mut self, process: usize) {
        self.row(process).second_attempts += 1;
    }

    fn left_read(&mut self, process: usize, now: u32) {
        self.child_reads[process].left = now;
    }

    fn right_read(&mut self, process: usize, now: u32) {
        self.child_reads[process].right = now;
    }

    fn stored(&mut self, process: usize, node: usize, now: u32) {
        let ChildReads { left, right } = self.child_reads[process];
        for (child, read) in [(2 * node, left), (2 * node + 1, right)] {
            while let Some(row) = self.leave(child, read) {
                if node == 1 {
                    self.together.push(row);
                } else {
                    self.enter(node, row, now);
                }
            }
        }
        if node == 1 {
            self.list_together();
        }
    }

    fn addition_finished(&mut self, process: usize) {
        self.finish(process);
    }
}
