//! Submissions from a seed: guided runs of honest seats to done, equivocating corrupt seats, late and partial deliveries, noise of every
//! sort. The same seed gives the same submission.

use crate::author::{entry_frame, rank_frame, random_entry, setup_frame, shuffled_ranks, Author};
use crate::call::Call;
use crate::frame::write_line;
use crate::hall::Phase;
use crate::misreading::Misreading;
use crate::noise::{any_call, malformed_line, near_call};
use crate::page::{OUTPUT_MIN, SUBMISSION_MAX};
use crate::plan::{Entry, HallSort, Setup, ROUNDS_MAX, SEATS_MAX};
use crate::random::Random;
use crate::rules::CLOCK_MAX;

/// No step of a schedule writes more bytes than this.
const LONGEST_STEP: usize = 1_200;

#[derive(Clone, PartialEq, Eq, Debug)]
pub struct Submission {
    pub sort: HallSort,
    pub text: Vec<u8>,
    /// The length of the output buffer.
    pub room: usize,
}

pub fn submission(seed: u64) -> Submission {
    submission_by(seed, None)
}

/// The same by an author who goes by the rules with a misreading, to see where that leads.
pub fn submission_by(seed: u64, misreading: Option<Misreading>) -> Submission {
    let mut random = Random::new(seed.wrapping_mul(0x2545_f491_4f6c_dd1d));
    let sort = *random.pick(&HallSort::BOTH);
    let room = room(&mut random);
    let text = match random.below(100) {
        0..=5 => bad_setup(&mut random, sort),
        6..=8 => bad_ranks(&mut random, sort),
        9 | 10 => many_entries(&mut random, sort),
        11 => garbage(&mut random),
        12..=15 => mutated(&mut random, sort, misreading),
        16 => of_longest_length(&mut random, sort),
        17..=31 => to_done(random.clone(), sort, misreading),
        _ => schedule(random.clone(), sort, misreading),
    };
    Submission { sort, text, room }
}

fn room(random: &mut Random) -> usize {
    match random.below(50) {
        0 => random.below(OUTPUT_MIN),
        1 => *random.pick(&[0, 1, 17, OUTPUT_MIN - 1]),
        2..=5 => random.between(OUTPUT_MIN, 3 * OUTPUT_MIN),
        _ => OUTPUT_MIN,
    }
}

// First lines.

/// A setup that stands.
fn good_setup(random: &mut Random) -> Setup {
    let n = *random.pick(&[1, 2, 3, 4, 4, 4, 5, 5, 6, 7, 7, 8, 9, 10, 11, 12, 13, 13]);
    let rounds = random.between(1, 8) as u8;
    setup_of_size(random, n, rounds)
}

fn setup_of_size(random: &mut Random, n: u8, rounds: u8) -> Setup {
    let most = (n - 1) / 3;
    let t = if random.percent(75) { most } else { random.below(usize::from(most) + 1) as u8 };
    let corrupt = if random.percent(80) { t } else { random.below(usize::from(t) + 1) as u8 };
    let delays = [(0, 0), (0, 3), (10, 3), (1, 0), (1, 1), (10_000, 10_000), (5, 10_000)];
    let (d, e) = *random.pick(&delays);
    let mut seats: Vec<u8> = (0..n).collect();
    random.shuffle(&mut seats);
    let mask = seats[..usize::from(corrupt)].iter().map(|seat| 1u16 << seat).sum();
    Setup { n, t, rounds, d, e, corrupt: mask }
}

fn entries(random: &mut Random, sort: HallSort) -> Vec<Entry> {
    let count = *random.pick(&[0, 1, 2, 4, 8, 12, 20, 40]);
    let numbers = *random.pick(&[3, 8, 100]);
    (0..count).map(|_| random_entry(random, sort, numbers)).collect()
}

/// A setup line in which something is out of range, or which is no setup line; and some lines after it, which must not matter.
fn bad_setup(random: &mut Random, sort: HallSort) -> Vec<u8> {
    let mut setup = good_setup(random);
    match random.below(9) {
        0 => setup.n = *random.pick(&[0, 14, 15, 128, 255]),
        1 => setup.rounds = *random.pick(&[0, 9, 10, 255]),
        2 => setup.t = *random.pick(&[(setup.n - 1) / 3 + 1, setup.n, 85, 86, 171, 255]),
        3 => setup.d = *random.pick(&[10_001, 65_535]),
        4 => setup.e = *random.pick(&[10_001, 65_535]),
        5 => setup.corrupt |= 1 << random.between(usize::from(setup.n), 15),
        6 => setup.corrupt = random.next() as u16,
        7 => setup = any_setup(random),
        _ => {}
    }
    let mut text = match random.below(12) {
        0 => Vec::new(),
        1 => malformed_line(random, sort, &setup),
        2 => write_line(&any_call(random).frame()),
        _ => write_line(&setup_frame(&setup)),
    };
    if sort == HallSort::Slip && random.percent(60) {
        (0..setup.rounds.min(9)).for_each(|_| text.extend(write_line(&rank_frame(&shuffled_ranks(random, setup.n.clamp(1, 13))))));
    }
    (0..random.below(4)).for_each(|_| text.extend(write_line(&any_call(random).frame())));
    if random.percent(20) {
        text.pop();
    }
    text
}

fn any_setup(random: &mut Random) -> Setup {
    let small = |random: &mut Random| random.below(16) as u8;
    Setup {
        n: small(random),
        t: random.below(6) as u8,
        rounds: small(random),
        d: random.below(10_010) as u16,
        e: random.below(10_010) as u16,
        corrupt: random.next() as u16 & random.next() as u16,
    }
}

/// Rank lines of which one is wrong, or of the wrong number.
fn bad_ranks(random: &mut Random, sort: HallSort) -> Vec<u8> {
    let setup = good_setup(random);
    let mut text = write_line(&setup_frame(&setup));
    let lines = usize::from(setup.rounds) + random.below(2);
    let wrong = random.below(lines);
    for line in 0..lines {
        let mut ranks = shuffled_ranks(random, setup.n);
        if line == wrong {
            match random.below(8) {
                0 => ranks[0] = setup.n,
                1 => ranks[0] = *random.pick(&[13, 16, 32, 255]),
                2 if setup.n > 1 => ranks[0] = ranks[1],
                3 => ranks.push(setup.n),
                4 => {
                    ranks.pop();
                }
                5 => {
                    text.extend(malformed_line(random, sort, &setup));
                    continue;
                }
                6 => {
                    text.extend(write_line(&any_call(random).frame()));
                    continue;
                }
                _ => break,
            }
        }
        text.extend(write_line(&rank_frame(&ranks)));
    }
    if random.percent(70) {
        text.extend(write_line(&Call::Enter { seat: 0 }.frame()));
    }
    if random.percent(20) {
        text.pop();
    }
    text
}

/// Entry lines around and past the 128th, with malformed lines between, then calls that use the last places.
fn many_entries(random: &mut Random, sort: HallSort) -> Vec<u8> {
    let setup = good_setup(random);
    let mut author = Author::new(random.clone(), sort, setup, Vec::new());
    let count = *random.pick(&[1, 100, 127, 128, 129, 130, 200]);
    let mut table = Vec::new();
    for _ in 0..count {
        if random.percent(3) {
            author.text.extend(malformed_line(random, sort, &setup));
        }
        let entry = random_entry(random, sort, 200);
        author.text.extend(write_line(&entry_frame(&entry)));
        table.push(entry);
    }
    table.truncate(128);
    author.hall.plan.entries = table;
    let habits = Habits { lines: 60, malformed: 3, ..Habits::random(random) };
    habits.follow(&mut author, sort, &setup);
    author.text
}

/// Bytes that are no submission, and bytes that look like one.
fn garbage(random: &mut Random) -> Vec<u8> {
    let length = *random.pick(&[0, 1, 2, 20, 300, 3000, SUBMISSION_MAX, SUBMISSION_MAX + 1]);
    match random.below(4) {
        0 => vec![b'\n'; length],
        1 => (0..length).map(|_| random.byte()).collect(),
        2 => (0..length).map(|_| *random.pick(b"0123456789abcdef\n")).collect(),
        _ => {
            let lines = length.min(200);
            (0..lines).flat_map(|_| write_line(&any_call(random).frame())).collect()
        }
    }
}

/// A schedule with some of its bytes changed, lines swapped, doubled or taken out.
fn mutated(random: &mut Random, sort: HallSort, misreading: Option<Misreading>) -> Vec<u8> {
    let mut text = schedule(random.clone(), sort, misreading);
    for _ in 0..random.between(1, 6) {
        let at = random.below(text.len().max(1));
        match random.below(6) {
            0 if at < text.len() => text[at] = random.byte(),
            1..=3 if at < text.len() => text[at] = *random.pick(b"0123456789abcdef"),
            4 if at < text.len() => {
                text.remove(at);
            }
            _ => text.insert(at, *random.pick(b"0123456789abcdef\n")),
        }
    }
    if random.percent(40) {
        let mut lines: Vec<Vec<u8>> = text.split_inclusive(|&byte| byte == b'\n').map(<[u8]>::to_vec).collect();
        let from = random.below(lines.len().max(1));
        random.shuffle(&mut lines[from..]);
        text = lines.concat();
    }
    text
}

/// A schedule filled up to exactly the longest length, or to one byte more.
fn of_longest_length(random: &mut Random, sort: HallSort) -> Vec<u8> {
    let setup = good_setup(random);
    let table = entries(random, sort);
    let mut author = Author::new(random.clone(), sort, setup, table);
    Habits { lines: 300, ..Habits::random(random) }.follow(&mut author, sort, &setup);
    let length = SUBMISSION_MAX + usize::from(random.percent(25));
    let noise = *random.pick(&[0, 5, 60]);
    while author.text.len() + 100 < length {
        let mut own = author.random.clone();
        match author.repeated_delivery(&mut own) {
            Some(call) if !own.percent(noise) => author.say(&call),
            _ => {
                let call = near_call(&mut author);
                author.say(&call)
            }
        };
        author.random = Random::new(own.next());
    }
    let mut text = author.text;
    let fill = *random.pick(b"\n0 ");
    text.resize(length - 1, fill);
    text.push(*random.pick(b"\n\n0"));
    text
}

// Schedules.

/// How a schedule goes: chances in a hundred, and limits.
#[derive(Clone, Debug)]
struct Habits {
    /// Lines after the first ones, at most.
    lines: usize,
    malformed: usize,
    noise: usize,
    corrupt: usize,
    /// Of the deliveries: how many are lost.
    lose: usize,
    /// Of an honest seat's turns: how many are deliveries.
    deliver: usize,
    /// Of the corrupt seats' blocks: how many are sound.
    sound: usize,
    /// Seats are in two parts, and messages from one to the other are late.
    split: bool,
    /// Clocks start so high that they come to their end.
    late: bool,
}

impl Habits {
    fn random(random: &mut Random) -> Habits {
        let honest = random.percent(25);
        let noise = *random.pick(&[0, 2, 10, 30, 70]);
        Habits {
            lines: *random.pick(&[20, 60, 120, 250, 250, 500, 900]),
            malformed: if honest { 0 } else { *random.pick(&[0, 0, 0, 1, 5, 20]) },
            noise: if honest { 0 } else { noise },
            corrupt: *random.pick(&[0, 5, 15, 30]),
            lose: if honest { 0 } else { *random.pick(&[0, 0, 5, 40]) },
            deliver: *random.pick(&[50, 70, 80]),
            sound: *random.pick(&[30, 80, 100]),
            split: random.percent(40),
            late: random.percent(3),
        }
    }

    /// Writes a schedule until its lines are used up or all seats are done, and a little beyond that.
    fn follow(&self, author: &mut Author, sort: HallSort, setup: &Setup) {
        if self.split {
            author.split();
        }
        if self.late {
            self.start_late(author);
        }
        let mut beyond = 8;
        for _ in 0..self.lines {
            if author.hall.all_done() {
                beyond -= 1;
            }
            if beyond == 0 || author.text.len() + LONGEST_STEP > SUBMISSION_MAX {
                break;
            }
            self.step(author, sort, setup);
        }
    }

    fn start_late(&self, author: &mut Author) {
        let seats: Vec<u8> = author.hall.plan.honest_seats().collect();
        for seat in seats {
            let before = author.random.below(60_000) as u32;
            author.say(&Call::Tick { seat, time: CLOCK_MAX - before });
        }
    }

    fn step(&self, author: &mut Author, sort: HallSort, setup: &Setup) {
        if author.random.percent(self.malformed) {
            let line = self.out_of_place(author, sort, setup);
            author.text.extend(line);
        } else if author.random.percent(self.noise) {
            let call = if author.random.percent(10) { any_call(&mut author.random) } else { near_call(author) };
            author.say(&call);
        } else if author.random.percent(self.corrupt) {
            self.corrupt_step(author);
        } else if let Some(seat) = author.honest_seat() {
            self.honest_step(author, seat);
        }
    }

    fn out_of_place(&self, author: &mut Author, sort: HallSort, setup: &Setup) -> Vec<u8> {
        if author.calls > 0 && author.random.percent(10) {
            return write_line(&entry_frame(&random_entry(&mut author.random, sort, 9)));
        }
        malformed_line(&mut author.random, sort, setup)
    }

    fn honest_step(&self, author: &mut Author, seat: u8) {
        if author.random.percent(self.deliver) && author.has_mail(seat) {
            if author.random.percent(self.lose) {
                author.lose_one(seat);
            } else {
                author.deliver_one(seat);
            }
            return;
        }
        if !author.act(seat) && !self.can_wait(author, seat) {
            self.let_time_pass(author, seat);
        }
    }

    /// Where lines are saved: whether a seat is better served by what comes to it than by the passing of time.
    fn can_wait(&self, author: &mut Author, seat: u8) -> bool {
        let in_round = author.hall.seat(seat).phase == Phase::InRound;
        author.thrifty && (!in_round || author.has_mail(seat) || author.random.percent(50))
    }

    fn let_time_pass(&self, author: &mut Author, seat: u8) {
        let unit = u32::from(author.hall.plan.d).max(1);
        let by = match author.random.below(4) {
            0 => author.random.below(3) as u32,
            1 => unit,
            2 => 2 * unit * author.random.below(4) as u32,
            _ => author.hall.plan.longest_delay(),
        };
        author.tick(seat, by);
    }

    fn corrupt_step(&self, author: &mut Author) {
        let Some(seat) = author.corrupt_seat() else { return };
        let round = match author.random.below(8) {
            0 => author.random.between(1, usize::from(author.hall.plan.rounds)) as u8,
            _ => author.lowest_round(),
        };
        match author.random.below(10) {
            0..=3 => {
                let sound = author.random.percent(self.sound);
                author.forge(seat, round, sound);
            }
            4 => self.fourth_block(author, seat, round),
            5 => author.show_combined(),
            6 | 7 => author.seal_both_sides(seat, round),
            _ => {
                author.seal_something(seat);
            }
        }
    }

    /// Up to four blocks of one round on one parent; the fourth is refused.
    fn fourth_block(&self, author: &mut Author, seat: u8, round: u8) {
        for _ in 0..4 {
            let parent = author.some_parent(round);
            let places = (0..author.random.below(5)).map(|_| author.random.below(128) as u8).collect();
            author.say(&Call::Forge { seat, round, parent, places });
        }
    }
}

/// A schedule in which nothing is lost and every seat does what it may, until all are done; any size as often as any other.
fn to_done(mut random: Random, sort: HallSort, misreading: Option<Misreading>) -> Vec<u8> {
    let n = random.between(1, usize::from(SEATS_MAX)) as u8;
    let rounds = random.between(1, usize::from(ROUNDS_MAX)) as u8;
    let setup = setup_of_size(&mut random, n, rounds);
    let table = entries(&mut random, sort);
    let habits = Habits { lines: 20_000, malformed: 0, noise: 0, lose: 0, late: false, ..Habits::random(&mut random) };
    let habits = if n > 7 { Habits { corrupt: 2, split: false, ..habits } } else { habits };
    let mut author = Author::new(random, sort, setup, table);
    author.thrifty = true;
    author.hall.plan.misreading = misreading;
    habits.follow(&mut author, sort, &setup);
    author.text
}

/// A schedule in a random hall.
fn schedule(mut random: Random, sort: HallSort, misreading: Option<Misreading>) -> Vec<u8> {
    let setup = good_setup(&mut random);
    let table = entries(&mut random, sort);
    let habits = Habits::random(&mut random);
    let mut author = Author::new(random, sort, setup, table);
    author.hall.plan.misreading = misreading;
    habits.follow(&mut author, sort, &setup);
    if author.random.percent(6) {
        author.text.pop();
    }
    author.text
}
