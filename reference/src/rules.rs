//! The nine calls on a hall: the checks of each in order, then what an accepted one does (docs/RULES.md, section 12).

use crate::call::{Call, Refusal, LAYER_HALL, LAYER_SEAT};
use crate::hall::{
    Block, Hall, Message, Phase, Seat, BEACON_SHARE, BLOCK, FINALIZATION, FINALIZATION_SHARE, NOTARIZATION, NOTARIZATION_SHARE, ROOT,
};
use crate::misreading::Misreading;

pub const CLOCK_MAX: u32 = 1_000_000_000;
pub const PLACES_MAX: usize = 4;
pub const PLACE_MAX: u8 = 127;
pub const VARIANTS: u8 = 3;

/// A check that failed: number and layer, and for 20 the better block.
struct Failed {
    number: u8,
    layer: u8,
    better: Option<u16>,
}

/// A check of the hall: refused with this number if the condition holds.
fn hall_check(number: u8, refused: bool) -> Result<(), Failed> {
    check(number, LAYER_HALL, refused)
}

/// A check of the seat.
fn seat_check(number: u8, refused: bool) -> Result<(), Failed> {
    check(number, LAYER_SEAT, refused)
}

fn check(number: u8, layer: u8, refused: bool) -> Result<(), Failed> {
    if refused {
        Err(Failed { number, layer, better: None })
    } else {
        Ok(())
    }
}

impl Hall {
    /// Performs a call: judged, and if accepted with all of its effect.
    pub fn perform(&mut self, call: &Call) -> Result<(), Refusal> {
        self.judge(call)?;
        self.take_effect(call);
        Ok(())
    }

    /// Whether the call would be accepted now, and if not how it is refused.
    pub fn judge(&self, call: &Call) -> Result<(), Refusal> {
        self.checks(call).map_err(|failed| Refusal {
            number: failed.number,
            layer: failed.layer,
            seat: call.seat(),
            subject: failed.better.unwrap_or(call.subject()),
        })
    }

    pub fn is_ready(&self, call: &Call) -> bool {
        self.judge(call).is_ok()
    }

    fn checks(&self, call: &Call) -> Result<(), Failed> {
        let who = call.seat();
        hall_check(8, !self.plan.is_seat(who))?;
        hall_check(9, self.plan.is_honest(who) == call.is_for_corrupt())?;
        hall_check(10, self.is_out_of_range(call))?;
        match call {
            Call::Tick { time, .. } => self.check_tick(self.seat(who), *time),
            Call::Enter { .. } => self.check_enter(self.seat(who)),
            Call::Propose { parent, places, .. } => self.check_propose(who, *parent, places),
            Call::Echo { block, .. } => self.check_echo(self.seat(who), *block),
            Call::Finish { block, .. } => self.check_finish(self.seat(who), *block),
            Call::Commit { block, .. } => self.check_commit(self.seat(who), *block),
            Call::Deliver { seat, kind, signer, subject } => self.check_deliver(*seat, Message::share(*kind, *signer, *subject)),
            Call::Forge { round, parent, places, .. } => self.check_forge(who, *round, *parent, places),
            Call::Seal { kind, subject, .. } => hall_check(16, self.sealed(*kind, who, *subject)),
        }
    }

    /// What check 10 asks in each call.
    fn is_out_of_range(&self, call: &Call) -> bool {
        let bad_places = |places: &[u8]| places.len() > PLACES_MAX || places.iter().any(|&place| place > PLACE_MAX);
        match call {
            Call::Tick { .. } | Call::Enter { .. } => false,
            Call::Propose { parent, places, .. } => !self.is_root_or_made(*parent) || bad_places(places),
            Call::Echo { block, .. } | Call::Finish { block, .. } | Call::Commit { block, .. } => !self.is_root_or_made(*block),
            Call::Deliver { kind, signer, subject, .. } => match *kind {
                BLOCK | NOTARIZATION | FINALIZATION => *signer != 0 || !self.is_made(*subject),
                NOTARIZATION_SHARE | FINALIZATION_SHARE => !self.plan.is_seat(*signer) || !self.is_made(*subject),
                BEACON_SHARE => !self.plan.is_seat(*signer) || !self.plan.is_round(*subject),
                _ => true,
            },
            Call::Forge { round, parent, places, .. } => {
                !self.plan.is_round(u16::from(*round)) || !self.is_root_or_made(*parent) || bad_places(places)
            }
            Call::Seal { kind, subject, .. } => match *kind {
                NOTARIZATION_SHARE | FINALIZATION_SHARE => !self.is_made(*subject),
                BEACON_SHARE => !self.plan.is_round(*subject),
                _ => true,
            },
        }
    }

    fn check_tick(&self, seat: &Seat, time: u32) -> Result<(), Failed> {
        seat_check(11, time < seat.clock || time > CLOCK_MAX)
    }

    fn check_enter(&self, seat: &Seat) -> Result<(), Failed> {
        seat_check(12, seat.phase != Phase::Waiting)?;
        seat_check(13, seat.shares(BEACON_SHARE, u16::from(seat.round)) < self.plan.beacon_quorum())
    }

    fn check_propose(&self, who: u8, parent: u16, places: &[u8]) -> Result<(), Failed> {
        let seat = self.seat(who);
        seat_check(12, seat.phase != Phase::InRound)?;
        seat_check(15, seat.proposed)?;
        seat_check(14, self.is_early(seat, self.plan.propose_delay(self.plan.rank(who, seat.round))))?;
        seat_check(17, self.round_of(parent) + 1 != seat.round)?;
        seat_check(18, !self.is_notarized(seat, parent))?;
        seat_check(19, !self.is_sound(places, parent))
    }

    fn check_echo(&self, seat: &Seat, block: u16) -> Result<(), Failed> {
        seat_check(12, seat.phase != Phase::InRound)?;
        seat_check(17, self.round_of(block) != seat.round)?;
        let rank = self.rank_of(block);
        let is_out = seat.disqualified.contains(&rank) && self.plan.misreading != Some(Misreading::EchoAgain);
        seat_check(16, seat.noted.contains(&block) || is_out)?;
        seat_check(18, !self.is_valid(seat, block))?;
        seat_check(14, self.is_early(seat, self.plan.echo_delay(rank)))?;
        match self.better_block(seat, rank) {
            None => Ok(()),
            better => Err(Failed { number: 20, layer: LAYER_SEAT, better }),
        }
    }

    fn check_finish(&self, seat: &Seat, block: u16) -> Result<(), Failed> {
        seat_check(12, seat.phase != Phase::InRound)?;
        seat_check(17, self.round_of(block) != seat.round)?;
        seat_check(18, !self.is_valid(seat, block))?;
        seat_check(21, !self.is_combined(seat, NOTARIZATION, NOTARIZATION_SHARE, block))
    }

    fn check_commit(&self, seat: &Seat, block: u16) -> Result<(), Failed> {
        seat_check(17, self.round_of(block) <= seat.committed_round)?;
        seat_check(18, !self.is_valid(seat, block))?;
        seat_check(21, !self.is_combined(seat, FINALIZATION, FINALIZATION_SHARE, block))
    }

    fn check_deliver(&self, receiver: u8, message: Message) -> Result<(), Failed> {
        let kept_back = self.plan.misreading == Some(Misreading::BlockStays)
            && message.kind == BLOCK
            && self.broadcast.contains(&message)
            && self.blocks[&message.subject].maker != receiver;
        hall_check(22, !self.exists(message) || kept_back)
    }

    fn check_forge(&self, who: u8, round: u8, parent: u16, places: &[u8]) -> Result<(), Failed> {
        hall_check(17, self.round_of(parent) + 1 != round)?;
        let forged = self.variants_made(who, round);
        let same = |number: &u16| self.blocks[number].parent == parent && self.blocks[number].places == places;
        hall_check(16, forged.iter().any(same))?;
        hall_check(15, forged.len() == usize::from(VARIANTS))
    }

    fn is_early(&self, seat: &Seat, delay: u32) -> bool {
        match self.plan.misreading {
            Some(Misreading::DelayOneShort) => seat.elapsed() + 1 < delay,
            _ => seat.elapsed() < delay,
        }
    }

    /// The blocks of this round that the seat made, lowest number first.
    fn variants_made(&self, maker: u8, round: u8) -> Vec<u16> {
        (0..VARIANTS).map(|variant| self.plan.block_number(round, maker, variant)).filter(|&number| self.is_made(number)).collect()
    }

    /// The first valid block of the seat's round with a lower rank that is not disqualified, by rank and then by number.
    pub fn better_block(&self, seat: &Seat, rank: u8) -> Option<u16> {
        let mut ranks: Vec<u8> = (0..rank).collect();
        if self.plan.misreading == Some(Misreading::BetterFromHighest) {
            ranks.reverse();
        }
        ranks
            .into_iter()
            .filter(|lower| !seat.disqualified.contains(lower))
            .flat_map(|lower| self.variants_made(self.plan.holder(lower, seat.round), seat.round))
            .find(|&block| self.is_valid(seat, block))
    }

    fn take_effect(&mut self, call: &Call) {
        let who = call.seat();
        match call {
            Call::Tick { time, .. } => self.seat_mut(who).clock = *time,
            Call::Enter { .. } => self.enter(who),
            Call::Propose { parent, places, .. } => self.propose(who, *parent, places),
            Call::Echo { block, .. } => self.echo(who, *block),
            Call::Finish { block, .. } => self.finish(who, *block),
            Call::Commit { block, .. } => self.commit(who, *block),
            Call::Deliver { kind, signer, subject, .. } => {
                self.seat_mut(who).pool.insert(Message::share(*kind, *signer, *subject));
            }
            Call::Forge { round, parent, places, .. } => {
                let variant = self.variants_made(who, *round).len() as u8;
                self.make_block(who, *round, variant, *parent, places);
            }
            Call::Seal { kind, subject, .. } => self.add_seal(*kind, who, *subject),
        }
    }

    fn enter(&mut self, who: u8) {
        let seat = self.seat_mut(who);
        seat.phase = Phase::InRound;
        seat.start = seat.clock;
        seat.proposed = false;
        seat.noted.clear();
        seat.disqualified.clear();
        let next = u16::from(seat.round) + 1;
        if self.plan.is_round(next) && self.plan.misreading != Some(Misreading::NoNextShare) {
            self.seal_and_broadcast(who, BEACON_SHARE, next);
        }
    }

    fn propose(&mut self, who: u8, parent: u16, places: &[u8]) {
        let round = self.seat(who).round;
        let number = self.make_block(who, round, 0, parent, places);
        self.seat_mut(who).proposed = true;
        self.send(who, Message::plain(BLOCK, number));
        if self.plan.misreading != Some(Misreading::ParentKept) {
            self.send_notarization_of(who, parent);
        }
    }

    fn echo(&mut self, who: u8, block: u16) {
        let Block { maker, parent, .. } = self.blocks[&block].clone();
        let rank = self.rank_of(block);
        let is_second = self.seat(who).noted.iter().any(|&noted| self.rank_of(noted) == rank);
        if maker != who {
            self.send(who, Message::plain(BLOCK, block));
            self.send_notarization_of(who, parent);
        }
        if is_second {
            self.seat_mut(who).disqualified.insert(rank);
        } else {
            self.seat_mut(who).noted.insert(block);
            self.seal_and_broadcast(who, NOTARIZATION_SHARE, block);
        }
    }

    fn finish(&mut self, who: u8, block: u16) {
        self.send(who, Message::plain(NOTARIZATION, block));
        let no_rival = self.seat(who).noted.iter().all(|&noted| noted == block);
        if no_rival || self.plan.misreading == Some(Misreading::FinalDespiteRival) {
            self.seal_and_broadcast(who, FINALIZATION_SHARE, block);
        }
        let last = self.plan.rounds;
        let seat = self.seat_mut(who);
        if seat.round == last {
            seat.phase = Phase::Done;
        } else {
            seat.phase = Phase::Waiting;
            seat.round += 1;
        }
    }

    fn commit(&mut self, who: u8, block: u16) {
        self.send(who, Message::plain(FINALIZATION, block));
        let committed = self.seat(who).committed_round;
        let new: Vec<u16> = self.chain(block).into_iter().filter(|&b| self.round_of(b) > committed).collect();
        let round = self.round_of(block);
        let seat = self.seat_mut(who);
        seat.catalogue.extend(new);
        seat.committed_round = round;
    }

    fn make_block(&mut self, maker: u8, round: u8, variant: u8, parent: u16, places: &[u8]) -> u16 {
        let number = self.plan.block_number(round, maker, variant);
        self.blocks.insert(number, Block { round, maker, parent, places: places.to_vec() });
        number
    }

    /// Broadcasts the notarization of a parent; the root has none.
    fn send_notarization_of(&mut self, who: u8, parent: u16) {
        if parent != ROOT {
            self.send(who, Message::plain(NOTARIZATION, parent));
        }
    }
}
