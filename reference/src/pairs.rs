//! Counts how often each sort of line came with each answer, and knows which of these pairs can come at all. Also counts what else a run of
//! the comparison must have met: happenings that no single answer shows, and halls of every size in which all seats came to be done.

use std::collections::BTreeMap;

use crate::call::{Call, Refusal};
use crate::frame::Malformed;
use crate::hall::{Hall, FINALIZATION_SHARE, NOTARIZATION_SHARE};
use crate::page::{Seen, OUTPUT_MIN, REFUSALS_LISTED, SUBMISSION_MAX};
use crate::plan::{HallSort, ROUNDS_MAX, SEATS_MAX};
use crate::ready::blocks_of_round;
use crate::rules::{CLOCK_MAX, PLACES_MAX};

/// Stands for "accepted" in place of a refusal's number.
pub const ACCEPTED: u8 = 0;

/// A sort of line, or the hall function itself.
pub type Row = &'static str;

pub const FUNCTION: Row = "hall function";
const SETUP: Row = "setup line";
const RANKS: Row = "rank line";
const ENTRY: Row = "entry line";

const DELIVER: [Row; 7] = ["deliver, other kind", "deliver 1", "deliver 2", "deliver 3", "deliver 4", "deliver 5", "deliver 6"];
const SEAL: [Row; 4] = ["seal, other kind", "seal 2", "seal 4", "seal 6"];

/// The answers that can come, by docs/REFUSALS.md, in both halls.
const POSSIBLE: [(Row, &[u8]); 33] = [
    (FUNCTION, &[ACCEPTED, 4, 24]),
    (SETUP, &[ACCEPTED, 1, 2, 3, 5, 23]),
    (ENTRY, &[ACCEPTED, 7]),
    ("tick", &[ACCEPTED, 8, 9, 11]),
    ("enter", &[ACCEPTED, 8, 9, 12, 13]),
    ("propose", &[ACCEPTED, 8, 9, 10, 12, 14, 15, 17, 18, 19]),
    ("echo", &[ACCEPTED, 8, 9, 10, 12, 14, 16, 17, 18, 20]),
    ("finish", &[ACCEPTED, 8, 9, 10, 12, 17, 18, 21]),
    ("commit", &[ACCEPTED, 8, 9, 10, 17, 18, 21]),
    (DELIVER[0], &[8, 9, 10]),
    (DELIVER[1], &[ACCEPTED, 8, 9, 10]),
    (DELIVER[2], &[ACCEPTED, 8, 9, 10, 22]),
    (DELIVER[3], &[ACCEPTED, 8, 9, 10, 22]),
    (DELIVER[4], &[ACCEPTED, 8, 9, 10, 22]),
    (DELIVER[5], &[ACCEPTED, 8, 9, 10, 22]),
    (DELIVER[6], &[ACCEPTED, 8, 9, 10, 22]),
    ("forge", &[ACCEPTED, 8, 9, 10, 15, 16, 17]),
    (SEAL[0], &[8, 9, 10]),
    (SEAL[1], &[ACCEPTED, 8, 9, 10, 16]),
    (SEAL[2], &[ACCEPTED, 8, 9, 10, 16]),
    (SEAL[3], &[ACCEPTED, 8, 9, 10, 16]),
    ("first line missing", &[23]),
    ("no line feed", &[23]),
    ("empty line", &[23]),
    ("character that is no digit", &[23]),
    ("odd number of digits", &[23]),
    ("unknown first byte", &[23]),
    ("wrong number of bytes", &[23]),
    ("first line is no setup", &[23]),
    ("setup line again", &[23]),
    ("rank line out of place", &[23]),
    ("entry of the other hall", &[23]),
    ("entry after a call", &[23]),
];

/// Those of the slip hall only.
const POSSIBLE_WITH_RANKS: [(Row, &[u8]); 4] = [
    (RANKS, &[ACCEPTED, 6, 23]),
    ("rank line missing", &[23]),
    ("other line where ranks are due", &[23]),
    ("wrong number of ranks", &[23]),
];

/// What else must come, in both halls.
const HAPPENINGS: [Row; 11] = [
    LAST_CLOCK,
    RANK_DISQUALIFIED,
    TWO_NOTARIZED,
    LATER_COMMIT,
    ALL_DONE,
    FULL_CATALOGUES,
    FIVE_PLACES,
    MANY_REFUSALS,
    LONGEST_SUBMISSION,
    TOO_LONG_BY_ONE,
    LONGER_BUFFER,
];

const LAST_CLOCK: Row = "tick to 1,000,000,000 accepted";
const RANK_DISQUALIFIED: Row = "echo after which a rank is disqualified";
const TWO_NOTARIZED: Row = "two blocks of a round with a quorum of notarization seals";
const LATER_COMMIT: Row = "block without a quorum of finalization seals in a catalogue";
const ALL_DONE: Row = "all honest seats done";
const FULL_CATALOGUES: Row = "all honest seats done with blocks of all rounds";
const FIVE_PLACES: Row = "propose or forge with 5 to 8 places";
const MANY_REFUSALS: Row = "more than 64 refusals";
const LONGEST_SUBMISSION: Row = "submission of 65,535 bytes";
const TOO_LONG_BY_ONE: Row = "submission of 65,536 bytes";
const LONGER_BUFFER: Row = "output buffer of more than 2,048 bytes";

/// Pairs that one might look for and that cannot come, with the reason. That no other pair comes is checked too.
pub const IMPOSSIBLE: [(Row, u8, &str); 18] = [
    (RANKS, 4, "a rank line that is missing is malformed, so a draw never has too few ranks"),
    (SETUP, 4, "the buffers of the page are long enough"),
    ("tick", 10, "a time that is out of range is 11"),
    ("enter", 10, "it names nothing but the seat"),
    ("propose", 16, "a second proposal is 15, whatever is in it"),
    ("propose", 20, "better blocks are looked for in echo only"),
    ("finish", 14, "finish looks at no delay"),
    ("finish", 16, "a seat that finished is no longer in the round: 12"),
    ("commit", 12, "commit works in every phase"),
    ("commit", 16, "a block that is committed is not above the highest committed round: 17"),
    ("forge", 18, "a forged block may have any parent of the round below"),
    ("forge", 19, "a forged block may have any payload"),
    (DELIVER[0], ACCEPTED, "a kind that is not 1 to 6 is out of range"),
    (DELIVER[0], 22, "a kind that is not 1 to 6 is out of range: 10 comes before"),
    (DELIVER[1], 22, "a block that is not made is out of range, and a made one exists"),
    (SEAL[0], ACCEPTED, "a kind that is not 2, 4 or 6 is out of range"),
    (SEAL[0], 16, "a kind that is not 2, 4 or 6 is out of range: 10 comes before"),
    (FUNCTION, 23, "malformed lines stand in the record, not in the result"),
];

fn name_of_malformed(cause: Malformed) -> Row {
    match cause {
        Malformed::Missing => "first line missing",
        Malformed::RanksMissing => "rank line missing",
        Malformed::NoLineFeed => "no line feed",
        Malformed::Empty => "empty line",
        Malformed::Character => "character that is no digit",
        Malformed::OddDigits => "odd number of digits",
        Malformed::UnknownFirstByte => "unknown first byte",
        Malformed::Length => "wrong number of bytes",
        Malformed::NotSetup => "first line is no setup",
        Malformed::SetupAgain => "setup line again",
        Malformed::NotRanks => "other line where ranks are due",
        Malformed::RankCount => "wrong number of ranks",
        Malformed::RanksOutOfPlace => "rank line out of place",
        Malformed::EntryOfOtherHall => "entry of the other hall",
        Malformed::EntryAfterCall => "entry after a call",
    }
}

fn name_of_call(call: &Call) -> Row {
    match *call {
        Call::Tick { .. } => "tick",
        Call::Enter { .. } => "enter",
        Call::Propose { .. } => "propose",
        Call::Echo { .. } => "echo",
        Call::Finish { .. } => "finish",
        Call::Commit { .. } => "commit",
        Call::Deliver { kind, .. } => DELIVER[if kind <= 6 { usize::from(kind) } else { 0 }],
        Call::Forge { .. } => "forge",
        Call::Seal { kind, .. } => match kind {
            2 | 4 | 6 => SEAL[usize::from(kind) / 2],
            _ => SEAL[0],
        },
    }
}

fn number(verdict: Result<(), Refusal>) -> u8 {
    verdict.map_or_else(|refusal| refusal.number, |()| ACCEPTED)
}

#[derive(Default, Clone)]
pub struct Tally {
    counts: BTreeMap<(HallSort, Row, u8), u64>,
    happenings: BTreeMap<(HallSort, Row), u64>,
    /// By n and R: runs in which all honest seats came to be done.
    done: BTreeMap<(HallSort, u8, u8), u64>,
    /// Refusals of the run that is seen now.
    refusals: usize,
}

impl Tally {
    pub fn count(&mut self, sort: HallSort, row: Row, number: u8) {
        *self.counts.entry((sort, row, number)).or_default() += 1;
    }

    fn happen(&mut self, sort: HallSort, happening: Row) {
        *self.happenings.entry((sort, happening)).or_default() += 1;
    }

    /// A submission before it is run.
    pub fn begin(&mut self, sort: HallSort, length: usize, room: usize) {
        self.refusals = 0;
        if length == SUBMISSION_MAX {
            self.happen(sort, LONGEST_SUBMISSION);
        }
        if length == SUBMISSION_MAX + 1 {
            self.happen(sort, TOO_LONG_BY_ONE);
        }
        if room > OUTPUT_MIN {
            self.happen(sort, LONGER_BUFFER);
        }
    }

    pub fn see(&mut self, sort: HallSort, seen: &Seen) {
        self.see_answer(sort, seen);
        match seen {
            Seen::Malformed(_) | Seen::Entry(Err(_)) => self.refusals += 1,
            Seen::Call(hall, call, verdict) => self.see_call(sort, hall, call, verdict),
            Seen::End(hall) => self.see_end(sort, hall),
            _ => {}
        }
    }

    fn see_call(&mut self, sort: HallSort, hall: &Hall, call: &Call, verdict: &Result<(), Refusal>) {
        self.refusals += usize::from(verdict.is_err());
        match call {
            Call::Tick { time: CLOCK_MAX, .. } if verdict.is_ok() => self.happen(sort, LAST_CLOCK),
            Call::Echo { seat, .. } if verdict.is_ok() && !hall.seat(*seat).disqualified.is_empty() => self.happen(sort, RANK_DISQUALIFIED),
            Call::Propose { places, .. } | Call::Forge { places, .. } if places.len() > PLACES_MAX => self.happen(sort, FIVE_PLACES),
            _ => {}
        }
    }

    fn see_end(&mut self, sort: HallSort, hall: &Hall) {
        let (n, rounds, quorum) = (hall.plan.n, hall.plan.rounds, hall.plan.quorum());
        let notarized = |round: u8| blocks_of_round(hall, round).into_iter().filter(|&b| hall.seal_count(NOTARIZATION_SHARE, b) >= quorum).count();
        if (1..=rounds).any(|round| notarized(round) > 1) {
            self.happen(sort, TWO_NOTARIZED);
        }
        let mut committed = hall.seats.values().flat_map(|seat| &seat.catalogue);
        if committed.any(|&block| hall.seal_count(FINALIZATION_SHARE, block) < quorum) {
            self.happen(sort, LATER_COMMIT);
        }
        if hall.all_done() {
            self.happen(sort, ALL_DONE);
            *self.done.entry((sort, n, rounds)).or_default() += 1;
            if hall.seats.values().all(|seat| seat.committed_round == rounds) {
                self.happen(sort, FULL_CATALOGUES);
            }
        }
        if self.refusals > REFUSALS_LISTED {
            self.happen(sort, MANY_REFUSALS);
        }
    }

    fn see_answer(&mut self, sort: HallSort, seen: &Seen) {
        match seen {
            Seen::Setup(verdict) => self.count(sort, SETUP, number(*verdict)),
            Seen::Ranks(verdict) => self.count(sort, RANKS, number(*verdict)),
            Seen::Entry(verdict) => self.count(sort, ENTRY, number(*verdict)),
            Seen::Malformed(cause) => self.count(sort, name_of_malformed(*cause), 23),
            Seen::Call(_, call, verdict) => self.count(sort, name_of_call(call), number(*verdict)),
            Seen::Opened(_) | Seen::End(_) => {}
        }
    }

    pub fn add(&mut self, other: &Tally) {
        for (pair, count) in &other.counts {
            *self.counts.entry(*pair).or_default() += count;
        }
        for (happening, count) in &other.happenings {
            *self.happenings.entry(*happening).or_default() += count;
        }
        for (size, count) in &other.done {
            *self.done.entry(*size).or_default() += count;
        }
    }

    fn possible(sort: HallSort) -> Vec<(Row, &'static [u8])> {
        let ranks: &[(Row, &[u8])] = if sort == HallSort::Slip { &POSSIBLE_WITH_RANKS } else { &[] };
        POSSIBLE.iter().chain(ranks).copied().collect()
    }

    pub fn get(&self, sort: HallSort, row: Row, number: u8) -> u64 {
        self.counts.get(&(sort, row, number)).copied().unwrap_or(0)
    }

    /// How many different possible pairs came, and how many there are, over both halls.
    pub fn hit(&self) -> (usize, usize) {
        let all: Vec<_> = HallSort::BOTH.into_iter().flat_map(pairs_of).collect();
        let hit = all.iter().filter(|(sort, row, number)| self.get(*sort, row, *number) > 0).count();
        (hit, all.len())
    }

    /// Possible pairs, happenings and sizes that did not come, and impossible pairs that did.
    pub fn faults(&self) -> Vec<String> {
        let mut faults = Vec::new();
        for (sort, row, number) in HallSort::BOTH.into_iter().flat_map(pairs_of) {
            if self.get(sort, row, number) == 0 {
                faults.push(format!("{} hall: {row} with {} did not come", sort.name(), name_of_number(number)));
            }
        }
        for &(sort, row, number) in self.counts.keys() {
            if !pairs_of(sort).contains(&(sort, row, number)) {
                faults.push(format!("{} hall: {row} with {} cannot come and came", sort.name(), name_of_number(number)));
            }
        }
        for sort in HallSort::BOTH {
            let missing = HAPPENINGS.into_iter().filter(|happening| !self.happenings.contains_key(&(sort, happening)));
            faults.extend(missing.map(|happening| format!("{} hall: {happening}: did not come", sort.name())));
            for (n, rounds) in sizes() {
                if !self.done.contains_key(&(sort, n, rounds)) {
                    faults.push(format!("{} hall: no run to done with n = {n} and R = {rounds}", sort.name()));
                }
            }
        }
        faults
    }

    pub fn table(&self) -> String {
        let mut table = format!("{:<32} {:<9} {:>12} {:>12}\n", "line", "answer", "card hall", "slip hall");
        for (row, numbers) in Tally::possible(HallSort::Slip) {
            for &number in numbers {
                let [card, slip] = HallSort::BOTH.map(|sort| self.get(sort, row, number));
                table += &format!("{row:<32} {:<9} {card:>12} {slip:>12}\n", name_of_number(number));
            }
        }
        for (row, number, reason) in IMPOSSIBLE {
            table += &format!("{row:<32} {:<9} cannot come: {reason}\n", name_of_number(number));
        }
        table + &self.happenings_table() + &self.sizes_table()
    }

    fn happenings_table(&self) -> String {
        let mut table = format!("\n{:<62} {:>12} {:>12}\n", "happening", "card hall", "slip hall");
        for happening in HAPPENINGS {
            let [card, slip] = HallSort::BOTH.map(|sort| self.happenings.get(&(sort, happening)).copied().unwrap_or(0));
            table += &format!("{happening:<62} {card:>12} {slip:>12}\n");
        }
        table
    }

    /// Runs to done by n and R, both halls together.
    fn sizes_table(&self) -> String {
        let mut table = format!("\nruns to done{}\n", (1..=ROUNDS_MAX).map(|rounds| format!("{:>8}", format!("R = {rounds}"))).collect::<String>());
        for n in 1..=SEATS_MAX {
            table += &format!("{:<12}", format!("n = {n}"));
            for rounds in 1..=ROUNDS_MAX {
                let count: u64 = HallSort::BOTH.iter().filter_map(|&sort| self.done.get(&(sort, n, rounds))).sum();
                table += &format!("{count:>8}");
            }
            table += "\n";
        }
        table
    }
}

fn sizes() -> impl Iterator<Item = (u8, u8)> {
    (1..=SEATS_MAX).flat_map(|n| (1..=ROUNDS_MAX).map(move |rounds| (n, rounds)))
}

fn pairs_of(sort: HallSort) -> Vec<(HallSort, Row, u8)> {
    Tally::possible(sort).into_iter().flat_map(|(row, numbers)| numbers.iter().map(move |&number| (sort, row, number))).collect()
}

fn name_of_number(number: u8) -> String {
    if number == ACCEPTED { "accepted".to_string() } else { number.to_string() }
}
