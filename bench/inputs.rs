//! Writes the benchmark's recordings into a folder. A file is a row of recordings, each with its length, 4 bytes little-endian, before it; or
//! a drawer, in which they stand end to end.

// The tests' generator can do more than is asked of it here.
#![allow(dead_code)]

#[path = "../tests/compare/generate.rs"]
mod generate;
#[path = "../tests/compare/model.rs"]
mod model;
#[path = "../tests/compare/random.rs"]
mod random;
#[path = "../tests/compare/recording.rs"]
mod recording;

use random::Random;
use std::path::Path;
use std::{env, fs, io};

const SEED: u64 = 1;

fn write(folder: &Path, name: &str, recordings: &[Vec<u8>]) -> io::Result<()> {
    let mut bytes = vec![];
    for rec in recordings {
        bytes.extend_from_slice(&(rec.len() as u32).to_le_bytes());
        bytes.extend_from_slice(rec);
    }
    fs::write(folder.join(name), bytes)
}

/// As many recordings as the longest drawer holds; each is made of its number.
fn write_drawer(folder: &Path, name: &str, mut made: impl FnMut(usize) -> Vec<u8>) -> io::Result<()> {
    let mut bytes = vec![];
    for number in 0.. {
        let rec = made(number);
        if bytes.len() + rec.len() > recording::LONGEST_DRAWER {
            break;
        }
        bytes.extend(rec);
    }
    fs::write(folder.join(name), bytes)
}

fn main() -> io::Result<()> {
    let folder = env::args().nth(1).expect("the folder to write to");
    let folder = Path::new(&folder);
    let mut random = Random::new(SEED);
    let full = recording::LONGEST;

    // With two processes 1,024 operations are at an end before 65,536 bytes are.
    let longest_of_two = generate::storm(&mut random, 1, full).len();
    for (height, longest) in [(6, full), (1, longest_of_two)] {
        // As many bytes in all at each size, so that none is easier to learn for the processor's branch prediction.
        for (name, parts) in [("quarter", 4), ("half", 2), ("full", 1)] {
            let recordings: Vec<_> = (0..parts).map(|_| generate::storm(&mut random, height, longest / parts)).collect();
            write(folder, &format!("storm-{height}-{name}"), &recordings)?;
        }
    }
    let small: Vec<_> = (0..2_000)
        .map(|_| {
            let (height, bytes) = (random.between(1, 6), random.between(6, 60));
            generate::storm(&mut random, height, bytes)
        })
        .collect();
    write(folder, "small", &small)?;
    let mut refused = generate::storm(&mut random, 6, full);
    refused[0] = 0;
    write(folder, "refused", &[refused])?;

    let height = |number| 1 + number % 6;
    write_drawer(folder, "drawer-6", |number| recording::recording(height(number) as u8, &[]))?;
    write_drawer(folder, "drawer-30", |number| generate::storm(&mut random, height(number), 30))?;
    write_drawer(folder, "drawer-full", |_| generate::storm(&mut random, 6, full))
}
