//! Lines that should be refused, or might be: malformed ones of every sort, and calls with numbers in and out of range.

use crate::author::{entry_frame, random_entry, rank_frame, setup_frame, shuffled_ranks, Author};
use crate::call::Call;
use crate::frame::write_line;
use crate::plan::{HallSort, Setup};
use crate::random::Random;
use crate::ready::blocks_of_round;
use crate::rules::CLOCK_MAX;

/// The digits of a frame with its line feed, changed so that the line is malformed; or a whole frame out of its place.
pub fn malformed_line(random: &mut Random, sort: HallSort, setup: &Setup) -> Vec<u8> {
    let mut line = write_line(&some_frame(random));
    let digits = line.len() - 1;
    let at = random.below(digits);
    match random.below(15) {
        0 => line = b"\n".to_vec(),
        1 => line[at] = *random.pick(b"ABCDEFgzZ/:`@"),
        2 => line[at] = *random.pick(b" \t\r\0\x7f\x80\xff\x0b"),
        3 => line.insert(digits, b'\r'),
        4 => line.insert(*random.pick(&[0, at, digits]), b' '),
        5 => {
            line.remove(at);
        }
        6 => line.insert(at, b'0'),
        7 => line = write_line(&[&[unknown_first_byte(random)][..], &[0; 12][..random.below(13)]].concat()),
        8 => line = wrong_length(random),
        9 => line = too_many_places(random),
        10 => line = write_line(&setup_frame(setup)),
        11 => line = write_line(&rank_frame(&shuffled_ranks(random, setup.n))),
        12 => line = write_line(&entry_frame(&random_entry(random, other(sort), 9))),
        13 => line = long_line(random),
        _ => line = (0..random.below(30)).map(|_| random.byte()).filter(|&byte| byte != b'\n').chain([b'\n']).collect(),
    }
    line
}

fn other(sort: HallSort) -> HallSort {
    match sort {
        HallSort::Card => HallSort::Slip,
        HallSort::Slip => HallSort::Card,
    }
}

/// A frame of a call, without regard to any hall.
fn some_frame(random: &mut Random) -> Vec<u8> {
    any_call(random).frame()
}

fn unknown_first_byte(random: &mut Random) -> u8 {
    *random.pick(&[0x00, 0x05, 0x0f, 0x19, 0x1a, 0x20, 0x7f, 0x80, 0xe0, 0xef, 0xf0, 0xff])
}

/// A known first byte with a byte too few or too many.
fn wrong_length(random: &mut Random) -> Vec<u8> {
    let (first, shortest, longest) = *random.pick(&[
        (0x01, 10, 10),
        (0x02, 7, 7),
        (0x03, 9, 9),
        (0x04, 2, 14),
        (0x10, 6, 6),
        (0x11, 2, 2),
        (0x12, 4, 12),
        (0x13, 4, 4),
        (0x14, 4, 4),
        (0x15, 4, 4),
        (0x16, 6, 6),
        (0x17, 5, 13),
        (0x18, 5, 5),
    ]);
    let length = *random.pick(&[1, shortest - 1, longest + 1, longest + 2]);
    let mut bytes: Vec<u8> = (0..length).map(|_| random.below(4) as u8).collect();
    bytes[0] = first;
    write_line(&bytes)
}

/// A propose or forge with nine places or more.
fn too_many_places(random: &mut Random) -> Vec<u8> {
    let places = (0..random.between(9, 12)).map(|_| random.below(8) as u8).collect();
    let call = if random.percent(50) {
        Call::Propose { seat: 0, parent: 0, places }
    } else {
        Call::Forge { seat: 0, round: 1, parent: 0, places }
    };
    write_line(&call.frame())
}

fn long_line(random: &mut Random) -> Vec<u8> {
    let mut line = vec![*random.pick(b"01f x"); random.between(28, 700)];
    line.push(b'\n');
    line
}

/// A call of random bytes.
pub fn any_call(random: &mut Random) -> Call {
    let (seat, kind, signer, round) = (random.byte(), random.byte(), random.byte(), random.byte());
    let block = random.next() as u16;
    let places: Vec<u8> = (0..random.below(9)).map(|_| random.byte()).collect();
    match random.below(9) {
        0 => Call::Tick { seat, time: random.next() as u32 },
        1 => Call::Enter { seat },
        2 => Call::Propose { seat, parent: block, places },
        3 => Call::Echo { seat, block },
        4 => Call::Finish { seat, block },
        5 => Call::Commit { seat, block },
        6 => Call::Deliver { seat, kind, signer, subject: block },
        7 => Call::Forge { seat, round, parent: block, places },
        _ => Call::Seal { seat, kind, subject: block },
    }
}

/// A call with numbers near those that this hall would take.
pub fn near_call(author: &mut Author) -> Call {
    let seat = near_seat(author);
    let block = near_block(author, seat);
    let places = near_places(author);
    let n = usize::from(author.hall.plan.n);
    let rounds = usize::from(author.hall.plan.rounds);
    let random = &mut author.random;
    match random.below(12) {
        0 => near_tick(author, seat),
        1 => Call::Enter { seat },
        2 => Call::Propose { seat, parent: block, places },
        3 | 4 => Call::Echo { seat, block },
        5 => Call::Finish { seat, block },
        6 => Call::Commit { seat, block },
        7 | 8 => {
            let kind = random.below(9) as u8;
            let signer = if random.percent(30) { 0 } else { random.below(n + 2) as u8 };
            let subject = if kind == 6 { random.below(rounds + 2) as u16 } else { block };
            Call::Deliver { seat, kind, signer, subject }
        }
        9 | 10 => Call::Forge { seat, round: random.below(rounds + 2) as u8, parent: block, places },
        _ => {
            let kind = *random.pick(&[2, 4, 6, 2, 4, 6, 2, 4, 6, 0, 1, 3, 5, 7, 255]);
            let subject = if kind == 6 { random.below(rounds + 2) as u16 } else { block };
            Call::Seal { seat, kind, subject }
        }
    }
}

fn near_tick(author: &mut Author, seat: u8) -> Call {
    let clock = author.hall.seats.get(&seat).map_or(0, |state| state.clock);
    let time = match author.random.below(12) {
        0 => CLOCK_MAX + 1,
        1 => u32::MAX,
        2 => CLOCK_MAX,
        3..=6 => clock.saturating_sub(1),
        7 => 0,
        8 => clock,
        _ => clock.saturating_add(author.random.below(30) as u32),
    };
    Call::Tick { seat, time }
}

fn near_seat(author: &mut Author) -> u8 {
    let n = author.hall.plan.n;
    let corrupt = author.corrupt_seat();
    let random = &mut author.random;
    match (random.below(12), corrupt) {
        (0, _) => n,
        (1, _) => *random.pick(&[n.saturating_add(1), 13, 15, 16, 255]),
        (2..=4, Some(seat)) => seat,
        _ => random.below(usize::from(n)) as u8,
    }
}

/// A made block of the seat's round or of the rounds beside it, some other made block, the root, or a number that is not made.
fn near_block(author: &mut Author, seat: u8) -> u16 {
    let round = author.hall.seats.get(&seat).map_or(author.lowest_round(), |state| state.round);
    let beside = match author.random.below(6) {
        0 => round.saturating_sub(1),
        1 => (round + 1).min(author.hall.plan.rounds),
        _ => round,
    };
    let of_round = blocks_of_round(&author.hall, beside);
    let made: Vec<u16> = author.hall.blocks.keys().copied().collect();
    let random = &mut author.random;
    match random.below(14) {
        0 => 0,
        1 => *random.pick(&[1, 3, 312, 313, 314, 40, 65535, 256, 624]),
        2 | 3 if !made.is_empty() => *random.pick(&made),
        4 => random.below(3 * usize::from(author.hall.plan.n) * usize::from(author.hall.plan.rounds) + 3) as u16,
        _ if !of_round.is_empty() => *random.pick(&of_round),
        _ => 0,
    }
}

fn near_places(author: &mut Author) -> Vec<u8> {
    let entries = author.hall.plan.entries.len();
    let random = &mut author.random;
    let count = if random.percent(10) { random.between(5, 8) } else { random.below(5) };
    let one = |random: &mut Random| match random.below(20) {
        0 => random.between(128, 255),
        1 => 127,
        2 => entries.min(255),
        3 => entries.saturating_sub(1),
        _ => random.below(entries.max(1)),
    };
    (0..count).map(|_| one(random) as u8).collect()
}
