//! A run from the bytes of a submission to the bytes of its record (docs/PAGE.md).

use crate::call::{Call, Refusal, LAYER_PAGE, LAYER_PLAN};
use crate::frame::{frame, lines, write_line, Frame, Line, Malformed};
use crate::hall::{Hall, Phase, Seat};
use crate::misreading::Misreading;
use crate::plan::{each_once, rotation, Entry, HallSort, Plan, Ranks, Setup, ENTRIES_MAX};

pub const SUBMISSION_MAX: usize = 65_535;
pub const OUTPUT_MIN: usize = 2_048;
pub const REFUSAL_BASE: u32 = 1_000_000;
pub const REFUSALS_LISTED: usize = 64;

/// The card hall: what the C function of this name answers and writes.
pub fn card_hall(submission: &[u8], output: &mut [u8]) -> u32 {
    hall_function(HallSort::Card, submission, output)
}

/// The slip hall.
pub fn slip_hall(submission: &[u8], output: &mut [u8]) -> u32 {
    hall_function(HallSort::Slip, submission, output)
}

pub fn hall_function(sort: HallSort, submission: &[u8], output: &mut [u8]) -> u32 {
    answer(sort, None, submission, output, &mut |_| {})
}

/// A hall function, perhaps with a misreading, watched line by line.
pub fn answer(
    sort: HallSort,
    misreading: Option<Misreading>,
    submission: &[u8],
    output: &mut [u8],
    watch: &mut dyn FnMut(Seen),
) -> u32 {
    if submission.len() > SUBMISSION_MAX {
        return REFUSAL_BASE + 24;
    }
    if output.len() < OUTPUT_MIN {
        return REFUSAL_BASE + 4;
    }
    let record = Run::of(sort, misreading, submission, watch).record();
    output[..record.len()].copy_from_slice(&record);
    record.len() as u32
}

/// What is seen of a run while it goes on: each line with what came of it, and the hall after each call.
pub enum Seen<'a> {
    Setup(Result<(), Refusal>),
    Ranks(Result<(), Refusal>),
    Entry(Result<(), Refusal>),
    Malformed(Malformed),
    Opened(&'a Hall),
    Call(&'a Hall, &'a Call, Result<(), Refusal>),
    End(&'a Hall),
}

/// Everything that the record tells.
pub struct Run {
    /// By line number, all of them.
    pub refusals: Vec<(usize, Refusal)>,
    pub calls: u16,
    pub accepted: u16,
    /// None if the first lines ended the run.
    pub hall: Option<Hall>,
    listed: usize,
}

fn malformed() -> Refusal {
    Refusal { number: 23, layer: LAYER_PAGE, seat: 0, subject: 0 }
}

fn of_plan(number: u8, seat: u8) -> Refusal {
    Refusal { number, layer: LAYER_PLAN, seat, subject: 0 }
}

/// The first lines: the sizes and ranks, or the line and refusal that ends the run.
struct Start {
    setup: Setup,
    corrupt: std::collections::BTreeSet<u8>,
    ranks: Vec<Ranks>,
    /// How many lines were read.
    read: usize,
}

fn start(sort: HallSort, lines: &[Line], watch: &mut dyn FnMut(Seen)) -> Result<Start, (usize, Refusal)> {
    let setup = first_line(lines.first(), watch).map_err(|refusal| (1, refusal))?;
    let judged = setup.judge().map_err(|fault| of_plan(fault.number, fault.seat));
    watch(Seen::Setup(judged.as_ref().map(|_| ()).map_err(|refusal| *refusal)));
    let corrupt = judged.map_err(|refusal| (1, refusal))?;
    match sort {
        HallSort::Card => Ok(Start { setup, corrupt, ranks: rotation(setup.n, setup.rounds), read: 1 }),
        HallSort::Slip => {
            let mut ranks = Vec::new();
            for at in 1..=usize::from(setup.rounds) {
                ranks.push(rank_line(lines.get(at), setup.n, watch).map_err(|refusal| (at + 1, refusal))?);
            }
            Ok(Start { setup, corrupt, ranks, read: 1 + usize::from(setup.rounds) })
        }
    }
}

fn first_line(line: Option<&Line>, watch: &mut dyn FnMut(Seen)) -> Result<Setup, Refusal> {
    let cause = match line.map(frame) {
        Some(Ok(Frame::Setup(setup))) => return Ok(setup),
        Some(Ok(_)) => Malformed::NotSetup,
        Some(Err(cause)) => cause,
        None => Malformed::Missing,
    };
    watch(Seen::Malformed(cause));
    watch(Seen::Setup(Err(malformed())));
    Err(malformed())
}

fn rank_line(line: Option<&Line>, n: u8, watch: &mut dyn FnMut(Seen)) -> Result<Ranks, Refusal> {
    let cause = match line.map(frame) {
        Some(Ok(Frame::Ranks(ranks))) if ranks.len() == usize::from(n) => {
            let judged = if each_once(&ranks) { Ok(()) } else { Err(of_plan(6, 0)) };
            watch(Seen::Ranks(judged));
            return judged.map(|()| ranks);
        }
        Some(Ok(Frame::Ranks(_))) => Malformed::RankCount,
        Some(Ok(_)) => Malformed::NotRanks,
        Some(Err(cause)) => cause,
        None => Malformed::RanksMissing,
    };
    watch(Seen::Malformed(cause));
    watch(Seen::Ranks(Err(malformed())));
    Err(malformed())
}

/// A line after the first ones: what it is in its place.
enum Placed {
    Entry(Entry),
    Call(Call),
    Malformed(Malformed),
}

fn placed(sort: HallSort, line: &Line, open: bool) -> Placed {
    let own_entry = |entry: &Entry| matches!((sort, entry), (HallSort::Card, Entry::Card { .. }) | (HallSort::Slip, Entry::Slip { .. }));
    match frame(line) {
        Ok(Frame::Call(call)) => Placed::Call(call),
        Ok(Frame::Entry(entry)) if !own_entry(&entry) => Placed::Malformed(Malformed::EntryOfOtherHall),
        Ok(Frame::Entry(_)) if open => Placed::Malformed(Malformed::EntryAfterCall),
        Ok(Frame::Entry(entry)) => Placed::Entry(entry),
        Ok(Frame::Setup(_)) => Placed::Malformed(Malformed::SetupAgain),
        Ok(Frame::Ranks(_)) => Placed::Malformed(Malformed::RanksOutOfPlace),
        Err(cause) => Placed::Malformed(cause),
    }
}

impl Run {
    pub fn of(sort: HallSort, misreading: Option<Misreading>, submission: &[u8], watch: &mut dyn FnMut(Seen)) -> Run {
        let listed = if misreading == Some(Misreading::SixtyFiveRefusals) { REFUSALS_LISTED + 1 } else { REFUSALS_LISTED };
        let mut run = Run { refusals: Vec::new(), calls: 0, accepted: 0, hall: None, listed };
        let lines = lines(submission);
        match start(sort, &lines, watch) {
            Err(refusal) => run.refusals.push(refusal),
            Ok(start) => {
                let mut plan = Plan::new(&start.setup, start.corrupt, start.ranks, Vec::new());
                plan.misreading = misreading;
                run.follow(sort, plan, &lines[start.read..], watch);
            }
        }
        run
    }

    fn follow(&mut self, sort: HallSort, mut plan: Plan, lines: &[Line], watch: &mut dyn FnMut(Seen)) {
        let mut hall: Option<Hall> = None;
        for line in lines {
            match placed(sort, line, hall.is_some()) {
                Placed::Malformed(cause) => {
                    self.refusals.push((line.number, malformed()));
                    watch(Seen::Malformed(cause));
                }
                Placed::Entry(entry) => self.take_entry(&mut plan, line.number, entry, watch),
                Placed::Call(call) => {
                    let hall = hall.get_or_insert_with(|| opened(plan.clone(), watch));
                    self.take_call(hall, line.number, &call, watch);
                }
            }
        }
        let hall = hall.unwrap_or_else(|| opened(plan, watch));
        watch(Seen::End(&hall));
        self.hall = Some(hall);
    }

    fn take_entry(&mut self, plan: &mut Plan, line: usize, entry: Entry, watch: &mut dyn FnMut(Seen)) {
        if plan.entries.len() < ENTRIES_MAX {
            plan.entries.push(entry);
            watch(Seen::Entry(Ok(())));
        } else {
            self.refusals.push((line, of_plan(7, 0)));
            watch(Seen::Entry(Err(of_plan(7, 0))));
        }
    }

    fn take_call(&mut self, hall: &mut Hall, line: usize, call: &Call, watch: &mut dyn FnMut(Seen)) {
        let verdict = hall.perform(call);
        self.calls += 1;
        match verdict {
            Ok(()) => self.accepted += 1,
            Err(refusal) => self.refusals.push((line, refusal)),
        }
        watch(Seen::Call(hall, call, verdict));
    }

    /// The record's bytes.
    pub fn record(&self) -> Vec<u8> {
        let mut record = Vec::new();
        for (line, refusal) in self.refusals.iter().take(self.listed) {
            record.extend(refusal_line(*line, refusal));
        }
        if let Some(hall) = &self.hall {
            for (number, seat) in &hall.seats {
                record.extend(seat_line(*number, seat));
            }
            record.extend(self.counts_line());
        }
        record
    }

    fn counts_line(&self) -> Vec<u8> {
        let refused = self.calls - self.accepted;
        write_line(&[&[0xef][..], &self.calls.to_be_bytes(), &self.accepted.to_be_bytes(), &refused.to_be_bytes()].concat())
    }
}

fn opened(plan: Plan, watch: &mut dyn FnMut(Seen)) -> Hall {
    let hall = Hall::open(plan);
    watch(Seen::Opened(&hall));
    hall
}

fn refusal_line(line: usize, refusal: &Refusal) -> Vec<u8> {
    let number = (line as u16).to_be_bytes();
    write_line(&[&[0xf0][..], &number, &[refusal.number, refusal.layer, refusal.seat], &refusal.subject.to_be_bytes()].concat())
}

fn seat_line(number: u8, seat: &Seat) -> Vec<u8> {
    let state = match seat.phase {
        Phase::Waiting => 0,
        Phase::InRound => 1,
        Phase::Done => 2,
    };
    let blocks: Vec<u8> = seat.catalogue.iter().flat_map(|block| block.to_be_bytes()).collect();
    write_line(&[&[0xe0, number, state, seat.round, seat.committed_round][..], &blocks].concat())
}
