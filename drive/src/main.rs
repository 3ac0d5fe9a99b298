//! Runs histories through the servers, seed after seed, until so many events have been compared.

use drive::compare::{compare, compare_batch, compare_program, twin_printed, Difference, Twin};
use drive::generate;
use drive::history::History;
use drive::library::{Crate, Library};
use drive::shrink::shrink;
use drive::tally::Tally;
use std::path::{Path, PathBuf};
use std::process::ExitCode;

const USAGE: &str = "drive [--events N] [--seed N] [--program PATH] [--work DIR] [--all]
  --events N      stop when so many events have been compared (100,000)
  --seed N        the first seed (1)
  --program PATH  also run the histories that an event program can take through this one
  --only-program PATH  run the histories through this program alone
  --inputs DIR    no drawn histories but every file below this place, an input of the event program each
  --work DIR      where differences are written (target/drive)
  --all           fail if an answer or a refusal never came";

struct Options {
    events: u64,
    seed: u64,
    program: Option<PathBuf>,
    library: bool,
    inputs: Option<PathBuf>,
    work: PathBuf,
    all: bool,
}

fn options() -> Option<Options> {
    let mut options = Options {
        events: 100_000,
        seed: 1,
        program: None,
        library: true,
        inputs: None,
        work: "target/drive".into(),
        all: false,
    };
    let mut words = std::env::args().skip(1);
    while let Some(word) = words.next() {
        match word.as_str() {
            "--events" => options.events = words.next()?.replace([',', '_'], "").parse().ok()?,
            "--seed" => options.seed = words.next()?.parse().ok()?,
            "--program" => options.program = Some(words.next()?.into()),
            "--only-program" => {
                options.program = Some(words.next()?.into());
                options.library = false;
            }
            "--inputs" => options.inputs = Some(words.next()?.into()),
            "--work" => options.work = words.next()?.into(),
            "--all" => options.all = true,
            _ => return None,
        }
    }
    Some(options)
}

fn main() -> ExitCode {
    let Some(options) = options() else {
        eprintln!("{USAGE}");
        return ExitCode::from(2);
    };
    if let Err(error) = std::fs::create_dir_all(&options.work) {
        eprintln!("drive: {}: {error}", options.work.display());
        return ExitCode::from(2);
    }
    let mut tally = Tally::default();
    if let Some(place) = &options.inputs {
        return inputs(place, &options, &mut tally);
    }
    let mut seed = options.seed;
    while tally.events < options.events {
        if let Some(found) = differs(&generate::history(seed), &options, &mut tally) {
            report(&format!("seed-{seed}"), generate::history(seed), &found, &options);
            return ExitCode::from(1);
        }
        seed += 1;
    }
    println!("{}", tally.table());
    println!("seeds {} to {}: {}", options.seed, seed - 1, told(&tally));
    let missing = tally.missing();
    if options.all && !missing.is_empty() {
        println!("never met: {}", missing.join("; "));
        return ExitCode::from(1);
    }
    ExitCode::SUCCESS
}

/// Runs every file of a place.
fn inputs(place: &Path, options: &Options, tally: &mut Tally) -> ExitCode {
    let entries = match std::fs::read_dir(place) {
        Ok(entries) => entries,
        Err(error) => {
            eprintln!("drive: {}: {error}", place.display());
            return ExitCode::from(2);
        }
    };
    let mut paths: Vec<PathBuf> = entries.flatten().map(|entry| entry.path()).collect();
    paths.sort();
    for path in &paths {
        let Ok(input) = std::fs::read(path) else { continue };
        // What has no good opening part is for the program alone.
        let history = History::read(&input).unwrap_or_else(|| History::of_octets(&input));
        if let Some(found) = differs(&history, options, tally) {
            let name = path.file_name().map_or("input".into(), |name| name.to_string_lossy());
            report(&name, history, &found, options);
            return ExitCode::from(1);
        }
    }
    println!("{}", tally.table());
    println!("{} inputs: {}", paths.len(), told(tally));
    ExitCode::SUCCESS
}

fn told(tally: &Tally) -> String {
    format!(
        "{} histories with {} events through the library, {} through the crate, {} in batches, {} with {} lines through the program: no difference",
        tally.histories, tally.events, tally.crates, tally.batches, tally.programs, tally.lines
    )
}

fn differs(history: &History, options: &Options, tally: &mut Tally) -> Option<Difference> {
    if !options.library {
        let program = options.program.as_ref()?;
        tally.events += history.events.len() as u64;
        return if history.program { compare_program(history, program, &options.work, tally) } else { None };
    }
    if let Some(found) = compare(history, &mut Library::default(), &mut Twin::default(), tally) {
        return Some(found);
    }
    if Crate::takes(history) {
        tally.crates += 1;
        if let Some(found) = compare(history, &mut Crate::default(), &mut Twin::default(), &mut Tally::default()) {
            return Some(found);
        }
    }
    if !history.program {
        return None;
    }
    if history.opening.is_none() {
        tally.batches += 1;
        if let Some(found) = compare_batch(history) {
            return Some(found);
        }
    }
    compare_program(history, options.program.as_ref()?, &options.work, tally)
}

/// Tells the smallest cut of a history that still differs, and writes it where the lab can run it.
fn report(name: &str, whole: History, found: &Difference, options: &Options) {
    println!("{name}: event {} of {}: {}", found.place + 1, whole.events.len(), found.what);
    let cut = shrink(&whole, |less| differs(less, options, &mut Tally::default()).is_some());
    if let Some(found) = differs(&cut, options, &mut Tally::default()) {
        println!(
            "cut to {} events and {} rows: event {}: {}",
            cut.events.len(),
            cut.rows.len(),
            found.place + 1,
            found.what
        );
    }
    let name = options.work.join(name);
    write(&name.with_extension("dump"), cut.dump().as_bytes());
    print!("{}", cut.dump());
    if cut.program {
        write(&name.with_extension("bin"), &cut.input());
        write(&name.with_extension("expected"), &twin_printed(&cut.input()));
        println!("to read it: tools/events dis {}", name.with_extension("bin").display());
    }
}

fn write(path: &Path, octets: &[u8]) {
    match std::fs::write(path, octets) {
        Ok(()) => println!("written: {}", path.display()),
        Err(error) => eprintln!("drive: {}: {error}", path.display()),
    }
}
