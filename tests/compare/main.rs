//! Compares the proved library, through its C entries and its printing programs, with the second program on the same inputs: the
//! document's cases and many generated ones, recordings and drawers of them.
//!
//!     compare [--seed N] [--count N] [--drawers N]     all of the document's cases, and so many generated recordings and drawers
//!     compare --file F                                 one recording
//!     compare --drawer F                               one drawer
//!
//! It is run from the repository's root. A recording or a drawer on which something disagrees is left under target/failing.

mod buffer;
mod cases;
mod drawer;
mod drawer_cases;
mod generate;
mod harness;
mod model;
mod proved;
mod random;
mod recording;
mod tally;

use cases::Case;
use drawer::{rooms_for, DrawerPrinting, Drawers};
use drawer_cases::DrawerCase;
use harness::{Disagreement, Entries, Feeding, Printing};
use model::Model;
use random::Random;
use std::collections::{BTreeMap, BTreeSet};
use std::path::{Path, PathBuf};
use std::process::ExitCode;
use std::sync::{mpsc, Mutex};
use std::{env, fs, thread};
use tally::{hold_contention, DrawerTally, Tally};

/// What tests/compare.sh makes: each runs a program for the library's processor.
const CALLER: &str = "target/tests/caller";
const REPLAY: &str = "target/tests/replay";
const REPLAY_DRAWER: &str = "target/tests/replay_drawer";
const FAILING: &str = "target/failing";
const MOST_FILES: usize = 10;
const FEEDINGS: [Feeding; 4] = [Feeding::Whole, Feeding::Pieces(1), Feeding::Pieces(7), Feeding::Pieces(4_096)];
/// One generated input in this many is printed too.
const PRINTED_ONE_IN: usize = 10;
const DRAWERS_PRINTED_ONE_IN: usize = 5;

struct Options {
    seed: u64,
    count: usize,
    drawers: usize,
    file: Option<PathBuf>,
    drawer: Option<PathBuf>,
}

fn options() -> Result<Options, String> {
    let mut options = Options { seed: 20_020_721, count: 20_000, drawers: 2_000, file: None, drawer: None };
    let mut words = env::args().skip(1);
    while let Some(word) = words.next() {
        let value = words.next().ok_or(format!("{word} wants a value"))?;
        let number = || value.parse::<u64>().map_err(|_| format!("{word} wants a number"));
        match word.as_str() {
            "--seed" => options.seed = number()?,
            "--count" => options.count = number()? as usize,
            "--drawers" => options.drawers = number()? as usize,
            "--file" => options.file = Some(value.into()),
            "--drawer" => options.drawer = Some(value.into()),
            _ => return Err(format!("{word} is no option; there are --seed N, --count N, --drawers N, --file F and --drawer F")),
        }
    }
    Ok(options)
}

/// The inputs that disagree.
#[derive(Default)]
struct Failing {
    inputs: BTreeSet<String>,
    kinds: BTreeMap<String, u64>,
}

impl Failing {
    fn add(&mut self, name: &str, kind: &str, rec: &[u8], disagreement: &Disagreement) {
        if !self.inputs.insert(name.to_string()) {
            return;
        }
        *self.kinds.entry(kind.to_string()).or_default() += 1;
        if self.inputs.len() <= MOST_FILES {
            let path = Path::new(FAILING).join(format!("{:02}", self.inputs.len()));
            let text = path.with_extension("txt");
            write(&path, rec);
            write(&text, format!("{name}\n{} bytes\n{disagreement}", rec.len()).as_bytes());
            println!("disagree: {name}: {}", disagreement.lines().next().unwrap_or(""));
            println!("  {} {}", path.display(), text.display());
        }
    }
}

fn write(path: &Path, bytes: &[u8]) {
    if let Err(error) = fs::write(path, bytes) {
        eprintln!("compare: {}: {error}", path.display());
    }
}

fn one_file(path: &Path) -> Result<bool, String> {
    let rec = read(path)?;
    print!("second: {}", second::printed(&rec));
    let printing = Printing::new(REPLAY.into());
    let mut outcome = Entries::new(CALLER.into()).compare(&rec).map(|_| ());
    for feeding in FEEDINGS {
        outcome = outcome.and_then(|()| printing.compare(&rec, feeding));
    }
    Ok(agrees(outcome))
}

fn one_drawer(path: &Path, seed: u64) -> Result<bool, String> {
    let drawer = read(path)?;
    print!("second:\n{}", second::printed_drawer(&drawer));
    let rooms = rooms_for(&drawer, &mut Random::new(seed));
    let compared = Drawers::new(CALLER.into()).compare(&drawer, &rooms);
    Ok(agrees(compared.and_then(|_| DrawerPrinting::new(REPLAY_DRAWER.into()).compare(&drawer))))
}

fn read(path: &Path) -> Result<Vec<u8>, String> {
    fs::read(path).map_err(|error| format!("{}: {error}", path.display()))
}

fn agrees(outcome: Result<(), Disagreement>) -> bool {
    match &outcome {
        Ok(()) => println!("compare: 1 inputs agree"),
        Err(disagreement) => {
            print!("{disagreement}");
            println!("compare: 1 of 1 inputs disagree");
        }
    }
    outcome.is_ok()
}

/// An input for the printing program.
struct Printed {
    name: String,
    kind: &'static str,
    rec: Vec<u8>,
    feeding: Feeding,
}

fn name_of_case(case: &Case) -> String {
    format!("case {}", case.name)
}

/// The printing program is started anew for every input, so this runs beside the calls of the entries.
fn print_all(cases: &[Case], generated: mpsc::Receiver<Printed>, failing: &Mutex<Failing>) {
    let printing = Printing::new(REPLAY.into());
    for (index, case) in cases.iter().enumerate() {
        let by_turns = [FEEDINGS[index % FEEDINGS.len()]];
        let feedings = if case.fed_in_every_way() { &FEEDINGS[..] } else { &by_turns };
        for feeding in feedings {
            if let Err(disagreement) = printing.compare_case(case, *feeding) {
                let name = name_of_case(case);
                failing.lock().unwrap().add(&name, &name, &case.rec, &disagreement);
            }
        }
    }
    for Printed { name, kind, rec, feeding } in generated {
        if let Err(disagreement) = printing.compare(&rec, feeding) {
            failing.lock().unwrap().add(&name, kind, &rec, &disagreement);
        }
    }
}

fn call_all(cases: &[Case], options: &Options, to_print: mpsc::Sender<Printed>, failing: &Mutex<Failing>) -> Tally {
    let mut entries = Entries::new(CALLER.into());
    for case in cases {
        let accepted = second::check(&case.rec).number == 0;
        let hold = || if accepted { hold_contention(&case.rec, &Model::replayed(&case.rec)) } else { Ok(()) };
        if let Err(disagreement) = entries.compare_case(case).and_then(|()| hold()) {
            let name = name_of_case(case);
            failing.lock().unwrap().add(&name, &name, &case.rec, &disagreement);
        }
    }
    let mut random = Random::new(options.seed);
    let mut tally = Tally::default();
    for index in 0..options.count {
        let generate::Input { kind, rec } = generate::input(&mut random);
        let name = format!("generated {index} of seed {}: {kind}", options.seed);
        *tally.kinds.entry(kind).or_default() += 1;
        if let Err(disagreement) = entries.compare(&rec).and_then(|answers| tally.count(&rec, &answers)) {
            failing.lock().unwrap().add(&name, kind, &rec, &disagreement);
        }
        if index % PRINTED_ONE_IN == 0 {
            tally.printed += 1;
            let feeding = match FEEDINGS[index / PRINTED_ONE_IN % FEEDINGS.len()] {
                // Feeding byte after byte is slow.
                Feeding::Pieces(length) if rec.len() > 2_000 * length => Feeding::Whole,
                feeding => feeding,
            };
            to_print.send(Printed { name, kind, rec, feeding }).expect("the printing thread takes every input");
        }
    }
    tally
}

fn all_drawers(cases: &[DrawerCase], options: &Options, failing: &Mutex<Failing>) -> DrawerTally {
    let mut drawers = Drawers::new(CALLER.into());
    let printing = DrawerPrinting::new(REPLAY_DRAWER.into());
    for case in cases {
        let print = || if case.is_printed() { printing.compare_case(case) } else { Ok(()) };
        if let Err(disagreement) = drawers.compare_case(case).and_then(|()| print()) {
            let name = format!("drawer {}", case.name);
            failing.lock().unwrap().add(&name, &name, &case.drawer(), &disagreement);
        }
    }
    // Not the numbers that draw the recordings.
    let mut random = Random::new(!options.seed);
    let mut tally = DrawerTally::default();
    for index in 0..options.drawers {
        let generate::Input { kind, rec: drawer } = generate::drawer(&mut random);
        let rooms = rooms_for(&drawer, &mut random);
        *tally.kinds.entry(kind).or_default() += 1;
        let mut outcome = drawers.compare(&drawer, &rooms).map(|compared| tally.count(&drawer, &compared));
        if index % DRAWERS_PRINTED_ONE_IN == 0 {
            tally.printed += 1;
            outcome = outcome.and_then(|()| printing.compare(&drawer));
        }
        if let Err(disagreement) = outcome {
            let name = format!("generated drawer {index} of seed {}: {kind}", options.seed);
            failing.lock().unwrap().add(&name, kind, &drawer, &disagreement);
        }
    }
    tally
}

fn all(options: &Options) -> bool {
    let cases = cases::all();
    let drawer_cases = drawer_cases::all(&cases);
    println!("cases of the document and their neighbours: {} recordings, {} drawers", cases.len(), drawer_cases.len());
    println!("seed {}, {} generated recordings, {} generated drawers", options.seed, options.count, options.drawers);
    let failing = Mutex::new(Failing::default());
    let (tally, drawer_tally) = thread::scope(|scope| {
        let (to_print, generated) = mpsc::channel();
        let (cases, drawer_cases, failing) = (&cases, &drawer_cases, &failing);
        scope.spawn(move || print_all(cases, generated, failing));
        let drawers = scope.spawn(move || all_drawers(drawer_cases, options, failing));
        (call_all(cases, options, to_print, failing), drawers.join().expect("the thread of the drawers ends"))
    });
    let failing = failing.into_inner().unwrap();

    let unreached = [tally.print(), drawer_tally.print()].concat();
    let recordings = cases.len() + options.count;
    let drawers = drawer_cases.len() + options.drawers;
    if !failing.inputs.is_empty() {
        println!("disagreements by kind:");
        for (kind, count) in &failing.kinds {
            println!("  {count:>6}  {kind}");
        }
        println!("compare: {} of {} inputs disagree", failing.inputs.len(), recordings + drawers);
        return false;
    }
    if !unreached.is_empty() {
        println!("compare: the generator never reached: {}", unreached.join("; "));
        return false;
    }
    println!("compare: {recordings} recordings and {drawers} drawers agree");
    true
}

fn run() -> Result<bool, String> {
    let options = options()?;
    for program in [CALLER, REPLAY, REPLAY_DRAWER] {
        if !Path::new(program).is_file() {
            return Err(format!("{program} is missing; tests/compare.sh makes it"));
        }
    }
    fs::create_dir_all(FAILING).map_err(|error| format!("{FAILING}: {error}"))?;
    match (&options.file, &options.drawer) {
        (Some(path), _) => one_file(path),
        (None, Some(path)) => one_drawer(path, options.seed),
        (None, None) => Ok(all(&options)),
    }
}

fn main() -> ExitCode {
    match run() {
        Ok(true) => ExitCode::SUCCESS,
        Ok(false) => ExitCode::FAILURE,
        Err(message) => {
            eprintln!("compare: {message}");
            ExitCode::FAILURE
        }
    }
}
