//! The state of a hall: blocks, seals, broadcasts, and each honest seat with its pool (docs/RULES.md, sections 4 and 7 to 11).

use std::collections::{BTreeMap, BTreeSet};

use crate::misreading::Misreading;
use crate::plan::Plan;

pub const ROOT: u16 = 0;

pub const BLOCK: u8 = 1;
pub const NOTARIZATION_SHARE: u8 = 2;
pub const NOTARIZATION: u8 = 3;
pub const FINALIZATION_SHARE: u8 = 4;
pub const FINALIZATION: u8 = 5;
pub const BEACON_SHARE: u8 = 6;

/// A message. Kinds 1, 3 and 5 have the signer 0.
#[derive(Clone, Copy, PartialEq, Eq, PartialOrd, Ord, Debug)]
pub struct Message {
    pub kind: u8,
    pub subject: u16,
    pub signer: u8,
}

impl Message {
    /// A message of kind 1, 3 or 5.
    pub fn plain(kind: u8, block: u16) -> Message {
        Message { kind, subject: block, signer: 0 }
    }

    /// A message of kind 2, 4 or 6.
    pub fn share(kind: u8, signer: u8, subject: u16) -> Message {
        Message { kind, subject, signer }
    }
}

#[derive(Clone, PartialEq, Eq, Debug)]
pub struct Block {
    pub round: u8,
    pub maker: u8,
    pub parent: u16,
    pub places: Vec<u8>,
}

#[derive(Clone, Copy, PartialEq, Eq, Debug)]
pub enum Phase {
    Waiting,
    InRound,
    Done,
}

/// An honest seat.
#[derive(Clone, Debug)]
pub struct Seat {
    pub phase: Phase,
    pub round: u8,
    pub clock: u32,
    pub start: u32,
    pub proposed: bool,
    pub noted: BTreeSet<u16>,
    pub disqualified: BTreeSet<u8>,
    pub committed_round: u8,
    pub catalogue: Vec<u16>,
    pub pool: BTreeSet<Message>,
}

impl Seat {
    fn at_opening() -> Seat {
        Seat {
            phase: Phase::Waiting,
            round: 1,
            clock: 0,
            start: 0,
            proposed: false,
            noted: BTreeSet::new(),
            disqualified: BTreeSet::new(),
            committed_round: 0,
            catalogue: Vec::new(),
            pool: BTreeSet::new(),
        }
    }

    pub fn elapsed(&self) -> u32 {
        self.clock - self.start
    }

    pub fn has(&self, message: Message) -> bool {
        self.pool.contains(&message)
    }

    /// How many shares of this kind and subject the pool has.
    pub fn shares(&self, kind: u8, subject: u16) -> usize {
        self.pool.range(Message::share(kind, 0, subject)..=Message::share(kind, u8::MAX, subject)).count()
    }
}

#[derive(Clone, Debug)]
pub struct Hall {
    pub plan: Plan,
    /// Every made block by its number; the root is not among them.
    pub blocks: BTreeMap<u16, Block>,
    /// The seal book: by kind and subject, who has sealed.
    pub seals: BTreeMap<(u8, u16), BTreeSet<u8>>,
    /// What honest seats have broadcast.
    pub broadcast: BTreeSet<Message>,
    /// The honest seats by number.
    pub seats: BTreeMap<u8, Seat>,
}

impl Hall {
    pub fn open(plan: Plan) -> Hall {
        let seats = plan.honest_seats().map(|seat| (seat, Seat::at_opening())).collect();
        let mut hall = Hall { plan, blocks: BTreeMap::new(), seals: BTreeMap::new(), broadcast: BTreeSet::new(), seats };
        let honest: Vec<u8> = hall.seats.keys().copied().collect();
        for seat in honest {
            hall.seal_and_broadcast(seat, BEACON_SHARE, 1);
        }
        hall
    }

    // Seals and messages.

    pub fn sealed(&self, kind: u8, seat: u8, subject: u16) -> bool {
        self.seals.get(&(kind, subject)).is_some_and(|signers| signers.contains(&seat))
    }

    pub fn seal_count(&self, kind: u8, subject: u16) -> usize {
        self.seals.get(&(kind, subject)).map_or(0, BTreeSet::len)
    }

    pub fn add_seal(&mut self, kind: u8, seat: u8, subject: u16) {
        self.seals.entry((kind, subject)).or_default().insert(seat);
    }

    pub fn exists(&self, message: Message) -> bool {
        let Message { kind, subject, signer } = message;
        match kind {
            BLOCK => self.is_made(subject),
            NOTARIZATION => self.seal_count(NOTARIZATION_SHARE, subject) >= self.plan.quorum(),
            FINALIZATION => self.seal_count(FINALIZATION_SHARE, subject) >= self.plan.quorum(),
            _ => self.sealed(kind, signer, subject),
        }
    }

    pub fn seat(&self, seat: u8) -> &Seat {
        &self.seats[&seat]
    }

    pub fn seat_mut(&mut self, seat: u8) -> &mut Seat {
        self.seats.get_mut(&seat).expect("an honest seat")
    }

    pub fn send(&mut self, seat: u8, message: Message) {
        self.seat_mut(seat).pool.insert(message);
        self.broadcast.insert(message);
    }

    pub fn seal_and_broadcast(&mut self, seat: u8, kind: u8, subject: u16) {
        self.add_seal(kind, seat, subject);
        self.send(seat, Message::share(kind, seat, subject));
    }

    // Blocks.

    pub fn is_made(&self, block: u16) -> bool {
        self.blocks.contains_key(&block)
    }

    pub fn is_root_or_made(&self, block: u16) -> bool {
        block == ROOT || self.is_made(block)
    }

    pub fn round_of(&self, block: u16) -> u8 {
        self.blocks.get(&block).map_or(0, |made| made.round)
    }

    pub fn rank_of(&self, block: u16) -> u8 {
        let made = &self.blocks[&block];
        self.plan.rank(made.maker, made.round)
    }

    /// The blocks from round 1 up to this one.
    pub fn chain(&self, block: u16) -> Vec<u16> {
        if block == ROOT {
            return Vec::new();
        }
        let mut chain = self.chain(self.blocks[&block].parent);
        chain.push(block);
        chain
    }

    /// The places in the payloads of these blocks, in order.
    pub fn places_of(&self, blocks: &[u16]) -> Vec<u8> {
        blocks.iter().flat_map(|block| self.blocks[block].places.iter().copied()).collect()
    }

    /// Whether a payload is sound on the chain of a parent.
    pub fn is_sound(&self, places: &[u8], parent: u16) -> bool {
        let below = self.places_of(&self.chain(parent));
        let in_table = |place: u8| usize::from(place) < self.plan.entries.len();
        let is_new = |i: usize, place: u8| {
            let like_it = |&other: &u8| self.plan.alike(other, place);
            !places[..i].iter().any(like_it) && !below.iter().any(like_it)
        };
        places.iter().enumerate().all(|(i, &place)| in_table(place) && is_new(i, place))
    }

    // What a pool says of a block.

    pub fn is_valid(&self, seat: &Seat, block: u16) -> bool {
        if block == ROOT {
            return true;
        }
        let Some(made) = self.blocks.get(&block) else { return false };
        seat.has(Message::plain(BLOCK, block))
            && self.is_notarized(seat, made.parent)
            && (self.is_sound(&made.places, made.parent) || self.plan.misreading == Some(Misreading::AnyPayload))
    }

    pub fn is_notarized(&self, seat: &Seat, block: u16) -> bool {
        block == ROOT || (seat.has(Message::plain(NOTARIZATION, block)) && self.is_valid(seat, block))
    }

    /// Whether the combined message, or a quorum of its shares, is in the pool.
    pub fn is_combined(&self, seat: &Seat, combined: u8, share: u8, block: u16) -> bool {
        seat.has(Message::plain(combined, block)) || seat.shares(share, block) >= self.plan.quorum()
    }

    pub fn all_done(&self) -> bool {
        self.seats.values().all(|seat| seat.phase == Phase::Done)
    }
}
