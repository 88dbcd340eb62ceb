//! Watches a run of this program for the promises of docs/PROMISES.md: catalogues-agree, no-entry-twice, finalized-alone, better-is-named
//! and runs-end after every call, posts-can-arrive and never-stuck at its end.

use crate::author::delivery;
use crate::call::{Call, Refusal};
use crate::hall::{Hall, Message, Phase, Seat, FINALIZATION_SHARE, NOTARIZATION_SHARE};
use crate::plan::Plan;
use crate::ready::{blocks_of_round, ready_commits, ready_of_seat, something_is_ready};
use crate::rules::CLOCK_MAX;

/// A promise that was broken, and how.
#[derive(Clone, PartialEq, Eq, Debug)]
pub struct Broken {
    pub promise: &'static str,
    pub how: String,
}

#[derive(Default)]
pub struct Watcher {
    /// The longest catalogue of any honest seat at any point so far.
    longest: Vec<u16>,
    /// Accepted calls of the five sorts that runs-end counts.
    steps: usize,
    pub broken: Option<Broken>,
}

/// The quorum by the rules, whatever misreading the hall may have.
fn quorum(plan: &Plan) -> usize {
    usize::from(plan.n - plan.t)
}

impl Watcher {
    fn fail(&mut self, promise: &'static str, how: String) {
        if self.broken.is_none() {
            self.broken = Some(Broken { promise, how });
        }
    }

    /// After a call: the hall as it is now.
    pub fn after_call(&mut self, hall: &Hall, call: &Call, verdict: &Result<(), Refusal>) {
        match verdict {
            Ok(()) => self.after_accepted(hall, call),
            Err(refusal) if refusal.number == 20 => self.better_is_named(hall, call, refusal.subject),
            Err(_) => {}
        }
    }

    fn after_accepted(&mut self, hall: &Hall, call: &Call) {
        self.catalogues_agree(hall);
        self.finalized_alone(hall);
        match call {
            Call::Tick { .. } | Call::Deliver { .. } | Call::Forge { .. } | Call::Seal { .. } => {}
            _ => self.steps += 1,
        }
        if matches!(call, Call::Commit { .. }) {
            self.no_entry_twice(hall, call.seat());
        }
        self.runs_end(&hall.plan);
    }

    /// Every catalogue agrees with the longest that there has been, so any two agree, at one point or at two.
    fn catalogues_agree(&mut self, hall: &Hall) {
        for (number, seat) in &hall.seats {
            let common = self.longest.len().min(seat.catalogue.len());
            if self.longest[..common] != seat.catalogue[..common] {
                self.fail("catalogues-agree", format!("seat {number} has {:?}, and there was {:?}", seat.catalogue, self.longest));
            } else if seat.catalogue.len() > self.longest.len() {
                self.longest = seat.catalogue.clone();
            }
        }
    }

    fn no_entry_twice(&mut self, hall: &Hall, seat: u8) {
        let places = hall.places_of(&hall.seat(seat).catalogue);
        for (i, &one) in places.iter().enumerate() {
            for &other in &places[..i] {
                if one == other || hall.plan.alike(one, other) || hall.plan.alike(other, one) {
                    self.fail("no-entry-twice", format!("the catalogue of seat {seat} has the alike places {other} and {one}"));
                }
            }
        }
    }

    fn finalized_alone(&mut self, hall: &Hall) {
        let quorum = quorum(&hall.plan);
        let full = |signers: usize| signers >= quorum;
        let finalized = hall.seals.range((FINALIZATION_SHARE, 0)..=(FINALIZATION_SHARE, u16::MAX)).filter(|(_, signers)| full(signers.len()));
        let mut rivals = Vec::new();
        for (&(_, block), _) in finalized {
            for rival in blocks_of_round(hall, hall.round_of(block)) {
                if rival != block && full(hall.seal_count(NOTARIZATION_SHARE, rival)) {
                    rivals.push((block, rival));
                }
            }
        }
        for (block, rival) in rivals {
            self.fail("finalized-alone", format!("block {block} has a quorum of finalization seals, block {rival} one of notarization seals"));
        }
    }

    /// The block that a refusal 20 names is the first by rank, then by number, of all better blocks.
    fn better_is_named(&mut self, hall: &Hall, call: &Call, named: u16) {
        let seat = hall.seat(call.seat());
        let rank = hall.rank_of(call.subject());
        let better = |block: &u16| {
            let lower = hall.rank_of(*block);
            lower < rank && !seat.disqualified.contains(&lower) && hall.is_valid(seat, *block)
        };
        let first = blocks_of_round(hall, seat.round).into_iter().filter(better).min_by_key(|&block| (hall.rank_of(block), block));
        if first != Some(named) {
            self.fail("better-is-named", format!("{named} is named, the first better block is {first:?}"));
        }
    }

    fn runs_end(&mut self, plan: &Plan) {
        let (n, rounds) = (usize::from(plan.n), usize::from(plan.rounds));
        if self.steps > n * rounds * (2 * n + 4) {
            self.fail("runs-end", format!("{} calls of honest seats were accepted", self.steps));
        }
    }

    /// At the end of a schedule: everything that was broadcast can arrive, and when it has, and all have waited, the hall is not stuck.
    /// If asked, goes on from there in the same way until all seats are done.
    pub fn at_end(&mut self, hall: &Hall, to_done: bool) {
        let mut hall = hall.clone();
        if !self.settle(&mut hall) {
            return;
        }
        while self.broken.is_none() && to_done && !hall.all_done() {
            self.one_more(&mut hall);
            if !self.settle(&mut hall) {
                return;
            }
        }
        if to_done && self.broken.is_none() {
            self.commit_all(&mut hall);
        }
    }

    /// Brings the hall to where never-stuck speaks of it, and checks that; false if a clock is too near to its end for that.
    fn settle(&mut self, hall: &mut Hall) -> bool {
        self.deliver_all(hall);
        if !wait(hall) {
            return false;
        }
        if !hall.all_done() && !something_is_ready(hall) {
            self.fail("never-stuck", "all is delivered, all have waited, not all are done, and nothing is ready".to_string());
        }
        true
    }

    fn deliver_all(&mut self, hall: &mut Hall) {
        for seat in honest(hall) {
            let missing: Vec<Message> = hall.broadcast.difference(&hall.seat(seat).pool).copied().collect();
            for message in missing {
                if let Err(refusal) = hall.perform(&delivery(seat, message)) {
                    self.fail("posts-can-arrive", format!("{message:?} to seat {seat}: refused with {}", refusal.number));
                }
            }
        }
    }

    /// Some ready call of some seat.
    fn one_more(&mut self, hall: &mut Hall) {
        let call = honest(hall).into_iter().rev().find_map(|seat| ready_of_seat(hall, seat).pop());
        if let Some(call) = call {
            let verdict = hall.perform(&call);
            self.after_call(hall, &call, &verdict);
        }
    }

    fn commit_all(&mut self, hall: &mut Hall) {
        for seat in honest(hall) {
            while let Some(call) = ready_commits(hall, seat).into_iter().next() {
                let verdict = hall.perform(&call);
                self.after_call(hall, &call, &verdict);
            }
        }
    }
}

fn honest(hall: &Hall) -> Vec<u8> {
    hall.seats.keys().copied().collect()
}

/// Lets every seat that is in a round wait for the longest delay; false if its clock cannot go so far.
fn wait(hall: &mut Hall) -> bool {
    let longest = hall.plan.longest_delay();
    for seat in honest(hall) {
        let Seat { phase, start, clock, .. } = *hall.seat(seat);
        if phase == Phase::InRound && clock - start < longest {
            if start + longest > CLOCK_MAX {
                return false;
            }
            hall.perform(&Call::Tick { seat, time: start + longest }).expect("the clock goes forward");
        }
    }
    true
}
