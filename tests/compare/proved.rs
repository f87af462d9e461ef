//! The proved library, called through the program `caller`, which links it and says in its own source how it is talked to.

use crate::buffer::Buffer;
use crate::harness::Disagreement;
use second::Answer;
use std::io::{Read, Write};
use std::path::PathBuf;
use std::process::{Child, ChildStdin, ChildStdout, Command, Stdio};

const LEND: u32 = 0;
const LEND_NULL: u32 = 1;
const GIVE_BACK: u32 = 2;
const CHECK: u32 = 3;
const REPORT: u32 = 4;
const REPORT_NULL: u32 = 5;
const MARKS: u32 = 6;
const MARKS_NULL: u32 = 7;
const DRAWER: u32 = 8;
const DRAWER_NULL: u32 = 9;

pub struct Proved {
    program: PathBuf,
    running: Option<Running>,
}

struct Running {
    child: Child,
    input: ChildStdin,
    output: ChildStdout,
}

/// A recording, or a drawer, lent to the library.
pub struct Lent<'a> {
    running: &'a mut Option<Running>,
    rec: &'a [u8],
}

impl Proved {
    pub fn new(program: PathBuf) -> Proved {
        Proved { program, running: None }
    }

    pub fn lend<'a>(&'a mut self, rec: &'a [u8]) -> Result<Lent<'a>, Disagreement> {
        self.start()?;
        let mut lent = Lent { running: &mut self.running, rec };
        lent.tell([LEND, rec.len() as u32, 0, 0], rec, &mut [])?;
        Ok(lent)
    }

    /// An empty one, lent as NULL.
    pub fn lend_null(&mut self) -> Result<Lent<'_>, Disagreement> {
        self.start()?;
        let mut lent = Lent { running: &mut self.running, rec: &[] };
        lent.tell([LEND_NULL, 0, 0, 0], &[], &mut [])?;
        Ok(lent)
    }

    fn start(&mut self) -> Result<(), Disagreement> {
        if self.running.is_none() {
            let mut child = Command::new(&self.program)
                .stdin(Stdio::piped())
                .stdout(Stdio::piped())
                // An emulator says there what the status says too.
                .stderr(Stdio::null())
                .spawn()
                .map_err(|error| format!("{}: {error}\n", self.program.display()))?;
            let input = child.stdin.take().expect("standard input is piped");
            let output = child.stdout.take().expect("standard output is piped");
            self.running = Some(Running { child, input, output });
        }
        Ok(())
    }
}

impl Lent<'_> {
    pub fn check(&mut self) -> Result<Answer, Disagreement> {
        self.call([CHECK, 0, 0, 0], &[], &mut [])
    }

    /// The buffer is given back as the library left it.
    pub fn report(&mut self, out: &mut Buffer) -> Result<Answer, Disagreement> {
        let told = out.around.clone();
        self.call(words(out, REPORT, REPORT_NULL), &told, &mut [&mut out.around])
    }

    /// Both buffers are given back as the library left them.
    pub fn drawer(&mut self, out: &mut Buffer, marks: &mut Buffer) -> Result<Answer, Disagreement> {
        self.tell(words(marks, MARKS, MARKS_NULL), &marks.around, &mut [])?;
        let told = out.around.clone();
        self.call(words(out, DRAWER, DRAWER_NULL), &told, &mut [&mut out.around, &mut marks.around])
    }

    pub fn give_back(mut self) -> Result<(), Disagreement> {
        let mut rec = vec![0; self.rec.len()];
        self.tell([GIVE_BACK, 0, 0, 0], &[], &mut rec)?;
        if rec != self.rec {
            return Err("the library wrote to the recording or the drawer\n".into());
        }
        Ok(())
    }

    /// Every byte of `given_back` is answered too, one part after another.
    fn call(&mut self, words: [u32; 4], told: &[u8], given_back: &mut [&mut Vec<u8>]) -> Result<Answer, Disagreement> {
        let mut reply = vec![0; 8 + given_back.iter().map(|part| part.len()).sum::<usize>()];
        self.tell(words, told, &mut reply)?;
        let (answer, mut rest) = reply.split_at(8);
        for part in given_back {
            let (bytes, after) = rest.split_at(part.len());
            part.copy_from_slice(bytes);
            rest = after;
        }
        let number = |at: usize| u32::from_le_bytes(answer[at..at + 4].try_into().expect("4 bytes"));
        Ok(Answer { number: number(0), place: number(4) })
    }

    fn tell(&mut self, words: [u32; 4], bytes: &[u8], reply: &mut [u8]) -> Result<(), Disagreement> {
        let Some(running) = self.running else {
            return Err("the program that calls the library does not run\n".into());
        };
        let mut told: Vec<u8> = words.iter().flat_map(|word| word.to_le_bytes()).collect();
        told.extend_from_slice(bytes);
        let outcome = running.input.write_all(&told).and_then(|()| running.output.read_exact(reply));
        if outcome.is_ok() {
            return Ok(());
        }
        let mut stopped = self.running.take().expect("it was running");
        drop(stopped.input);
        let status = stopped.child.wait().map_err(|error| format!("{error}\n"))?;
        Err(format!("the library stopped the program that calls it: {status}\n"))
    }
}

fn words(buffer: &Buffer, lent: u32, lent_as_null: u32) -> [u32; 4] {
    let back = buffer.around.len() - buffer.front - buffer.room;
    let first = if buffer.is_null { lent_as_null } else { lent };
    [first, buffer.front as u32, buffer.room as u32, back as u32]
}
