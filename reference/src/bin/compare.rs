//! Compares the compiled library with this program, submission by submission, and watches the promises meanwhile.
//!
//!   compare                        as scripts/compare does: 40,000 submissions, at least 20,000 if time runs out; every possible pair must come
//!   compare --seeds N              the submissions of seeds 0 to N - 1
//!   compare --seeds FROM..TO       the submissions of seeds FROM to TO - 1
//!   compare --print SEED           writes the submission of a seed to standard output and its hall to standard error
//!   compare --seeds ... --write DIRECTORY   writes the submissions there, SEED.card or SEED.slip, and compares nothing
//!   compare --planted NAME         this program with a mistake planted in it; a difference must come
//!
//! It stops at the first submission that differs or breaks a promise, and prints it, made as small as it can, as a paper for `examine`.

use std::io::Write;
use std::path::{Path, PathBuf};
use std::process::ExitCode;
use std::sync::atomic::{AtomicBool, AtomicU64, Ordering};
use std::sync::Mutex;
use std::time::{Duration, Instant};

use reference::compare::{Comparison, Trouble};
use reference::generate::{submission, Submission};
use reference::misreading::Misreading;
use reference::page::REFUSAL_BASE;
use reference::pairs::Tally;

#[path = "../library.rs"]
mod library;

const GATE_SEEDS: u64 = 40_000;
const GATE_LEAST: u64 = 20_000;
const GATE_SECONDS: u64 = 100;
const PROGRESS_EVERY: u64 = 2_000;
/// One schedule in so many is driven on until all seats are done.
const TO_DONE_EVERY: u64 = 16;

struct Options {
    from: u64,
    to: u64,
    /// After this time the run ends once it has compared the least number.
    limit: Option<Duration>,
    planted: Option<Misreading>,
    all_pairs: bool,
    write: Option<PathBuf>,
}

fn usage() -> ! {
    eprintln!("usage: compare [--seeds N | --seeds FROM..TO] [--planted NAME | --write DIRECTORY] | --print SEED");
    std::process::exit(2);
}

fn number(text: &str) -> u64 {
    text.parse().unwrap_or_else(|_| usage())
}

fn options() -> Options {
    let mut options =
        Options { from: 0, to: GATE_SEEDS, limit: Some(Duration::from_secs(GATE_SECONDS)), planted: None, all_pairs: true, write: None };
    let mut arguments = std::env::args().skip(1);
    while let Some(argument) = arguments.next() {
        let value = arguments.next().unwrap_or_else(|| usage());
        match argument.as_str() {
            "--seeds" => {
                let (from, to) = value.split_once("..").unwrap_or(("0", &value));
                options = Options { from: number(from), to: number(to), limit: None, all_pairs: false, ..options };
            }
            "--planted" => options.planted = Some(Misreading::named(&value).unwrap_or_else(|| usage())),
            "--write" => options.write = Some(PathBuf::from(value)),
            "--print" => print_submission(number(&value)),
            _ => usage(),
        }
    }
    options
}

fn print_submission(seed: u64) -> ! {
    let Submission { sort, text, room } = submission(seed);
    eprintln!("{} hall, {} bytes, output buffer of {room} bytes", sort.name(), text.len());
    std::io::stdout().write_all(&text).expect("standard output takes it");
    std::process::exit(0);
}

fn write_submissions(options: &Options, directory: &Path) {
    std::fs::create_dir_all(directory).expect("the directory can be made");
    for seed in options.from..options.to {
        let Submission { sort, text, .. } = submission(seed);
        std::fs::write(directory.join(format!("{seed}.{}", sort.name())), text).expect("the submission can be written");
    }
}

/// What the threads share.
struct Shared {
    next: AtomicU64,
    done: AtomicU64,
    stop: AtomicBool,
    tally: Mutex<Tally>,
    /// The trouble with the lowest seed.
    trouble: Mutex<Option<(u64, Trouble)>>,
    start: Instant,
}

impl Shared {
    fn next_seed(&self, options: &Options) -> Option<u64> {
        let late = options.limit.is_some_and(|limit| self.start.elapsed() > limit);
        let enough = late && self.done.load(Ordering::Relaxed) >= GATE_LEAST;
        if enough || self.stop.load(Ordering::Relaxed) {
            return None;
        }
        let seed = self.next.fetch_add(1, Ordering::Relaxed);
        (seed < options.to).then_some(seed)
    }

    fn report(&self, seed: u64, trouble: Trouble) {
        self.stop.store(true, Ordering::Relaxed);
        let mut worst = self.trouble.lock().expect("no thread panicked");
        if worst.as_ref().map_or(true, |(other, _)| seed < *other) {
            *worst = Some((seed, trouble));
        }
    }
}

fn comparison(options: &Options, seed: u64) -> Comparison<'static> {
    Comparison { other: &library::hall_function, misreading: options.planted, to_done: seed % TO_DONE_EVERY == 0 }
}

fn work(options: &Options, shared: &Shared) {
    let mut tally = Tally::default();
    while let Some(seed) = shared.next_seed(options) {
        if let Err(trouble) = comparison(options, seed).check(&submission(seed), &mut tally) {
            shared.report(seed, trouble);
        }
        let done = shared.done.fetch_add(1, Ordering::Relaxed) + 1;
        if done % PROGRESS_EVERY == 0 {
            eprintln!("{done} submissions compared, {:.0} s", shared.start.elapsed().as_secs_f64());
        }
    }
    shared.tally.lock().expect("no thread panicked").add(&tally);
}

fn main() -> ExitCode {
    let options = options();
    if let Some(directory) = &options.write {
        write_submissions(&options, directory);
        return ExitCode::SUCCESS;
    }
    let shared = Shared {
        next: AtomicU64::new(options.from),
        done: AtomicU64::new(0),
        stop: AtomicBool::new(false),
        tally: Mutex::default(),
        trouble: Mutex::default(),
        start: Instant::now(),
    };
    let threads = std::thread::available_parallelism().map_or(1, usize::from);
    std::thread::scope(|scope| (0..threads).for_each(|_| drop(scope.spawn(|| work(&options, &shared)))));
    let done = shared.done.load(Ordering::Relaxed);
    let trouble = shared.trouble.into_inner().expect("no thread panicked");
    if let Some((seed, trouble)) = trouble {
        show_trouble(&options, seed, &trouble);
        return ExitCode::FAILURE;
    }
    show_pairs(&options, done, &shared.tally.into_inner().expect("no thread panicked"), shared.start.elapsed())
}

fn show_pairs(options: &Options, done: u64, tally: &Tally, time: Duration) -> ExitCode {
    print!("{}", tally.table());
    let (hit, all) = tally.hit();
    println!("{done} submissions compared in {:.0} s, no difference, no promise broken; {hit} of {all} pairs came", time.as_secs_f64());
    let faults = tally.faults();
    faults.iter().for_each(|fault| println!("{fault}"));
    if options.all_pairs && (!faults.is_empty() || done < GATE_LEAST) {
        return ExitCode::FAILURE;
    }
    ExitCode::SUCCESS
}

fn show_trouble(options: &Options, seed: u64, trouble: &Trouble) {
    let (small, trouble) = comparison(options, seed).shrink(&submission(seed), trouble);
    println!("seed {seed}, {} hall, output buffer of {} bytes:", small.sort.name(), small.room);
    match &trouble {
        Trouble::Broken(broken) => println!("{} is broken: {}", broken.promise, broken.how),
        Trouble::Differs { other, own } => {
            println!("the library answers {}:\n{}", other.0, shown(other.0, &other.1));
            println!("the reference answers {}:\n{}", own.0, shown(own.0, &own.1));
            if let Some(at) = (0..own.1.len()).find(|&at| own.1[at] != other.1[at]) {
                println!("the buffers differ first at byte {at}");
            }
        }
    }
    println!("the smallest paper found that shows it, for `crates/examine/out/examine {} FILE`:", small.sort.name());
    std::io::stdout().write_all(&small.text).expect("standard output takes it");
}

fn shown(answer: u32, buffer: &[u8]) -> String {
    let written = if answer < REFUSAL_BASE { (answer as usize).min(buffer.len()) } else { 0 };
    String::from_utf8_lossy(&buffer[..written]).into_owned()
}
