//! Papers for timing: full ones near the longest submission, with every call accepted or about half of them refused, and tiny ones.
//! They are the same in every run.

use crate::author::{random_entry, Author};
use crate::call::Call;
use crate::page::SUBMISSION_MAX;
use crate::plan::{HallSort, Setup};
use crate::random::Random;

pub struct Paper {
    pub name: String,
    pub sort: HallSort,
    pub text: Vec<u8>,
}

/// Sizes (n, t, R) of the timed papers.
pub const SIZES: [(u8, u8, u8); 10] =
    [(1, 0, 1), (1, 0, 8), (4, 1, 1), (4, 1, 8), (7, 2, 8), (10, 3, 8), (13, 4, 1), (13, 4, 2), (13, 4, 4), (13, 4, 8)];

/// Lengths in bytes at which the paper of four seats and eight rounds is cut, to see how cost grows with the length.
const PARTS: [usize; 3] = [1_024, 4_096, 16_384];

/// Room for a longest call line.
const LONGEST_LINE: usize = 27;

/// All timed papers.
pub fn papers() -> Vec<Paper> {
    let mut papers = Vec::new();
    for sort in HallSort::BOTH {
        for (n, t, rounds) in SIZES {
            papers.push(full(sort, n, t, rounds));
        }
        for (n, t, rounds) in [(4, 1, 8), (13, 4, 8)] {
            papers.push(half_refused(sort, n, t, rounds));
        }
        papers.push(busy(sort, 13, 4, 8));
        let whole = full(sort, 4, 1, 8);
        papers.extend(PARTS.map(|bytes| part(&whole, bytes)));
        papers.push(short(sort, 4, 1, 2));
        papers.push(tiny(sort));
    }
    papers
}

fn setup(n: u8, t: u8, rounds: u8) -> Setup {
    let corrupt = (0..t).map(|i| 1u16 << (u16::from(n) - 1 - u16::from(i))).sum();
    Setup { n, t, rounds, d: 10, e: 3, corrupt }
}

fn author(sort: HallSort, n: u8, t: u8, rounds: u8, entries: usize) -> Author {
    let mut random = Random::new(u64::from(n) * 100 + u64::from(rounds));
    let table = (0..entries).map(|_| random_entry(&mut random, sort, 1000)).collect();
    Author::new(random, sort, setup(n, t, rounds), table)
}

/// One step of a long schedule, all accepted: mostly a delivery, else what a seat may do, else time passes; corrupt seats forge and seal.
fn step(author: &mut Author) {
    if author.random.percent(4) {
        if let Some(corrupt) = author.corrupt_seat() {
            let round = author.lowest_round();
            if !(author.random.percent(30) && author.forge(corrupt, round, true)) {
                author.seal_something(corrupt);
            }
            return;
        }
    }
    let seat = author.honest_seat().expect("an honest seat");
    if author.random.percent(75) && author.deliver_one(seat) {
        return;
    }
    if author.act(seat) {
        return;
    }
    if author.random.percent(30) {
        let by = author.random.below(12) as u32;
        author.tick(seat, by);
    }
}

fn natural(sort: HallSort, n: u8, t: u8, rounds: u8, mut after_step: impl FnMut(&mut Author)) -> Author {
    let mut author = author(sort, n, t, rounds, 40);
    let mut quiet = 0;
    while quiet < 200 && author.text.len() + LONGEST_LINE <= SUBMISSION_MAX {
        let before = author.calls;
        step(&mut author);
        quiet = if author.hall.all_done() { quiet + 1 } else { 0 };
        if author.calls > before {
            after_step(&mut author);
        }
    }
    author
}

/// A whole schedule to done, filled up to the longest submission with deliveries of what a seat has already, spread evenly.
fn full(sort: HallSort, n: u8, t: u8, rounds: u8) -> Paper {
    let plain = natural(sort, n, t, rounds, |_| {});
    let repeats = repeats_per_call(&plain);
    let mut random = Random::new(1);
    let mut due = 0.0;
    let mut author = natural(sort, n, t, rounds, |author| {
        due += repeats;
        while due >= 1.0 {
            due -= 1.0;
            repeat(author, &mut random);
        }
    });
    while author.text.len() + 13 <= SUBMISSION_MAX {
        repeat(&mut author, &mut random);
    }
    Paper { name: format!("full-n{n}-r{rounds}"), sort, text: author.text }
}

fn repeats_per_call(plain: &Author) -> f64 {
    let left = SUBMISSION_MAX - plain.text.len();
    left as f64 / 13.0 / plain.calls as f64
}

fn repeat(author: &mut Author, random: &mut Random) {
    if let Some(call) = author.repeated_delivery(random) {
        if author.text.len() + 13 <= SUBMISSION_MAX {
            author.say(&call);
        }
    }
}

/// The lines of a full paper up to this length.
fn part(whole: &Paper, bytes: usize) -> Paper {
    let end = whole.text[..bytes].iter().rposition(|&byte| byte == b'\n').map_or(0, |at| at + 1);
    Paper { name: format!("part-n4-r8-{}k", bytes / 1024), sort: whole.sort, text: whole.text[..end].to_vec() }
}

/// A schedule without delays in which seats hold back their finishes, so that many seats propose, and echo what corrupt seats forge:
/// as many calls as there can be of those that look through blocks and chains.
fn busy(sort: HallSort, n: u8, t: u8, rounds: u8) -> Paper {
    let mut random = Random::new(7);
    let table = (0..128).map(|_| random_entry(&mut random, sort, 1000)).collect();
    let mut author = Author::new(random, sort, Setup { d: 0, e: 0, ..setup(n, t, rounds) }, table);
    while author.text.len() + LONGEST_LINE <= SUBMISSION_MAX {
        busy_step(&mut author);
    }
    Paper { name: format!("busy-n{n}-r{rounds}"), sort, text: author.text }
}

fn busy_step(author: &mut Author) {
    let round = author.lowest_round();
    if author.random.percent(8) {
        if let Some(corrupt) = author.corrupt_seat() {
            author.forge(corrupt, round, true);
        }
    }
    let seat = author.honest_seat().expect("an honest seat");
    if author.hall.seat(seat).round == round && author.random.percent(60) && author.act_but_finish(seat) {
        return;
    }
    if author.deliver_one(seat) || (author.random.percent(5) && author.act(seat)) {
        return;
    }
    let mut random = author.random.clone();
    repeat(author, &mut random);
    author.random = random;
}

/// A schedule in which after each accepted call one that is refused comes, of any sort.
fn half_refused(sort: HallSort, n: u8, t: u8, rounds: u8) -> Paper {
    let mut random = Random::new(2);
    let mut author = natural(sort, n, t, rounds, |author| refuse(author, &mut random));
    let mut fill = Random::new(3);
    while author.text.len() + 2 * LONGEST_LINE <= SUBMISSION_MAX {
        repeat(&mut author, &mut fill);
        refuse(&mut author, &mut random);
    }
    Paper { name: format!("half-n{n}-r{rounds}"), sort, text: author.text }
}

fn refuse(author: &mut Author, random: &mut Random) {
    loop {
        let call = random_call(author, random);
        if !author.hall.is_ready(&call) {
            if author.text.len() + LONGEST_LINE <= SUBMISSION_MAX {
                author.say(&call);
            }
            return;
        }
    }
}

/// A call of any sort with numbers that are mostly in range.
fn random_call(author: &Author, random: &mut Random) -> Call {
    let plan = &author.hall.plan;
    let seat = random.below(usize::from(plan.n) + 1) as u8;
    let made: Vec<u16> = author.hall.blocks.keys().copied().chain([0, 312]).collect();
    let block = *random.pick(&made);
    match random.below(9) {
        0 => Call::Tick { seat, time: random.below(50) as u32 },
        1 => Call::Enter { seat },
        2 => Call::Propose { seat, parent: block, places: vec![random.below(128) as u8] },
        3 => Call::Echo { seat, block },
        4 => Call::Finish { seat, block },
        5 => Call::Commit { seat, block },
        6 => Call::Deliver { seat, kind: random.below(8) as u8, signer: random.below(14) as u8, subject: block },
        7 => Call::Forge { seat, round: random.below(9) as u8, parent: block, places: Vec::new() },
        _ => Call::Seal { seat, kind: random.below(8) as u8, subject: block },
    }
}

/// A schedule to done and no more.
fn short(sort: HallSort, n: u8, t: u8, rounds: u8) -> Paper {
    Paper { name: format!("short-n{n}-r{rounds}"), sort, text: natural(sort, n, t, rounds, |_| {}).text }
}

/// One seat enters.
fn tiny(sort: HallSort) -> Paper {
    let mut author = author(sort, 1, 0, 1, 0);
    author.say(&Call::Enter { seat: 0 });
    Paper { name: "tiny".to_string(), sort, text: author.text }
}
