//! Times the papers of `papers` on the compiled library and on this program, in one run: least time of several batches, per call.
//!
//!   bench            a table of all papers
//!   bench NAME ...   only papers whose names contain one of these

use std::time::Instant;

use reference::page::{hall_function, Run, OUTPUT_MIN};
use reference::papers::{papers, Paper};

#[path = "../library.rs"]
mod library;

const BATCHES: usize = 80;
const BATCH_NANOSECONDS: f64 = 1_000_000.0;

/// Least nanoseconds that one run takes, over several batches.
fn least(mut run: impl FnMut()) -> f64 {
    run();
    let once = elapsed(1, &mut run).max(1.0);
    let count = (BATCH_NANOSECONDS / once) as usize + 1;
    (0..BATCHES).map(|_| elapsed(count, &mut run) / count as f64).fold(f64::INFINITY, f64::min)
}

fn elapsed(count: usize, run: &mut impl FnMut()) -> f64 {
    let start = Instant::now();
    (0..count).for_each(|_| run());
    start.elapsed().as_nanos() as f64
}

fn time(paper: &Paper) {
    let run = Run::of(paper.sort, None, &paper.text, &mut |_| {});
    let calls = f64::from(run.calls);
    let mut output = [0; OUTPUT_MIN];
    let library = least(|| {
        library::hall_function(paper.sort, &paper.text, &mut output);
    });
    let reference = least(|| {
        hall_function(paper.sort, &paper.text, &mut output);
    });
    println!(
        "| {}.{} | {} | {} | {} | {:.1} | {:.0} | {:.1} | {:.1} |",
        paper.name,
        paper.sort.name(),
        paper.text.len(),
        run.calls,
        run.accepted,
        library / calls,
        1e9 / library,
        reference / calls,
        reference / library
    );
}

fn main() {
    let wanted: Vec<String> = std::env::args().skip(1).collect();
    println!("| paper | bytes | calls | accepted | library, ns per call | library, papers per second | reference, ns per call | ratio |");
    println!("|---|---|---|---|---|---|---|---|");
    for paper in papers() {
        if wanted.is_empty() || wanted.iter().any(|name| paper.name.contains(name.as_str())) {
            time(&paper);
        }
    }
}
