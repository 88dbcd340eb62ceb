//! What is fixed before the hall opens: sizes, delays, corrupt seats, ranks and entries (docs/RULES.md, sections 3, 5 and 6).

use std::collections::BTreeSet;

use crate::misreading::Misreading;

pub const SEATS_MAX: u8 = 13;
pub const ROUNDS_MAX: u8 = 8;
pub const DELAY_MAX: u16 = 10_000;
pub const ENTRIES_MAX: usize = 128;

/// Which of the two ready-made halls.
#[derive(Clone, Copy, PartialEq, Eq, PartialOrd, Ord, Debug)]
pub enum HallSort {
    Card,
    Slip,
}

impl HallSort {
    pub const BOTH: [HallSort; 2] = [HallSort::Card, HallSort::Slip];

    pub fn name(self) -> &'static str {
        match self {
            HallSort::Card => "card",
            HallSort::Slip => "slip",
        }
    }
}

/// What a catalogue is about.
#[derive(Clone, Copy, PartialEq, Eq, Debug)]
pub enum Entry {
    Card { store: u16, find: u32 },
    Slip { sherds: (u32, u32) },
}

impl Entry {
    pub fn like(&self, other: &Entry) -> bool {
        match (*self, *other) {
            (Entry::Slip { sherds: (a, b) }, Entry::Slip { sherds: (c, d) }) => (a, b) == (c, d) || (a, b) == (d, c),
            (x, y) => x == y,
        }
    }
}

/// The fields of a setup line, as they stand there.
#[derive(Clone, Copy, PartialEq, Eq, Debug)]
pub struct Setup {
    pub n: u8,
    pub t: u8,
    pub rounds: u8,
    pub d: u16,
    pub e: u16,
    pub corrupt: u16,
}

/// Why a setup line makes no plan: the number, and for 5 the seat.
#[derive(Clone, Copy, PartialEq, Eq, Debug)]
pub struct SetupFault {
    pub number: u8,
    pub seat: u8,
}

impl Setup {
    /// The checks of the setup line in order: 1, 2, 3, 5.
    pub fn judge(&self) -> Result<BTreeSet<u8>, SetupFault> {
        let fault = |number, seat| Err(SetupFault { number, seat });
        if !(1..=SEATS_MAX).contains(&self.n) || !(1..=ROUNDS_MAX).contains(&self.rounds) {
            return fault(1, 0);
        }
        if 3 * u32::from(self.t) + 1 > u32::from(self.n) {
            return fault(2, 0);
        }
        if self.d > DELAY_MAX || self.e > DELAY_MAX {
            return fault(3, 0);
        }
        let mut corrupt = BTreeSet::new();
        for seat in (0..16u8).filter(|seat| self.corrupt >> seat & 1 == 1) {
            if seat >= self.n || corrupt.len() >= usize::from(self.t) {
                return fault(5, seat);
            }
            corrupt.insert(seat);
        }
        Ok(corrupt)
    }
}

/// The ranks of a round: for each seat its rank.
pub type Ranks = Vec<u8>;

pub fn rotation(n: u8, rounds: u8) -> Vec<Ranks> {
    let rank = |seat: u8, round: u8| (seat + n - (round - 1) % n) % n;
    (1..=rounds).map(|round| (0..n).map(|seat| rank(seat, round)).collect()).collect()
}

/// Whether the ranks of a round are 0 to n - 1, each once.
pub fn each_once(ranks: &[u8]) -> bool {
    let mut sorted = ranks.to_vec();
    sorted.sort_unstable();
    sorted.iter().enumerate().all(|(i, &rank)| i == usize::from(rank))
}

#[derive(Clone, Debug)]
pub struct Plan {
    pub n: u8,
    pub t: u8,
    pub rounds: u8,
    pub d: u16,
    pub e: u16,
    pub corrupt: BTreeSet<u8>,
    /// By round, round 1 first.
    pub ranks: Vec<Ranks>,
    pub entries: Vec<Entry>,
    /// A mistake made on purpose, to see that it is found; none in every other use.
    pub misreading: Option<Misreading>,
}

impl Plan {
    pub fn new(setup: &Setup, corrupt: BTreeSet<u8>, ranks: Vec<Ranks>, entries: Vec<Entry>) -> Plan {
        let Setup { n, t, rounds, d, e, .. } = *setup;
        Plan { n, t, rounds, d, e, corrupt, ranks, entries, misreading: None }
    }

    pub fn is_seat(&self, seat: u8) -> bool {
        seat < self.n
    }

    pub fn is_honest(&self, seat: u8) -> bool {
        !self.corrupt.contains(&seat)
    }

    pub fn honest_seats(&self) -> impl Iterator<Item = u8> + '_ {
        (0..self.n).filter(|&seat| self.is_honest(seat))
    }

    pub fn is_round(&self, round: u16) -> bool {
        (1..=u16::from(self.rounds)).contains(&round)
    }

    pub fn rank(&self, seat: u8, round: u8) -> u8 {
        self.ranks[usize::from(round) - 1][usize::from(seat)]
    }

    /// The seat that has this rank in this round.
    pub fn holder(&self, rank: u8, round: u8) -> u8 {
        (0..self.n).find(|&seat| self.rank(seat, round) == rank).expect("each rank has a seat")
    }

    pub fn quorum(&self) -> usize {
        match self.misreading {
            Some(Misreading::SmallQuorum) => usize::from(2 * self.t + 1),
            _ => usize::from(self.n - self.t),
        }
    }

    pub fn beacon_quorum(&self) -> usize {
        usize::from(self.t) + 1
    }

    pub fn propose_delay(&self, rank: u8) -> u32 {
        2 * u32::from(self.d) * u32::from(rank)
    }

    pub fn echo_delay(&self, rank: u8) -> u32 {
        self.propose_delay(rank) + u32::from(self.e)
    }

    pub fn longest_delay(&self) -> u32 {
        self.echo_delay(self.n - 1)
    }

    pub fn block_number(&self, round: u8, maker: u8, variant: u8) -> u16 {
        1 + ((u16::from(round) - 1) * u16::from(self.n) + u16::from(maker)) * 3 + u16::from(variant)
    }

    /// Whether both places have entries and these are alike.
    pub fn alike(&self, one: u8, other: u8) -> bool {
        match (self.entries.get(usize::from(one)), self.entries.get(usize::from(other))) {
            (Some(x), Some(y)) => x.like(y),
            _ => false,
        }
    }
}
