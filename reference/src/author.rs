//! The author of a submission: writes its lines, and runs them beside to know what may come next. It plays the network (what was
//! broadcast lies in the seats' inboxes until it is delivered, late, in any order, or never), the honest seats and the corrupt ones.

use std::collections::BTreeSet;

use crate::call::Call;
use crate::frame::write_line;
use crate::hall::{Hall, Message, Phase, BEACON_SHARE, BLOCK, FINALIZATION, FINALIZATION_SHARE, NOTARIZATION, NOTARIZATION_SHARE, ROOT};
use crate::plan::{rotation, Entry, HallSort, Plan, Ranks, Setup};
use crate::random::Random;
use crate::ready::{blocks_of_round, ready_commits, ready_of_seat};
use crate::rules::CLOCK_MAX;

/// How many in a hundred messages between two parts are held up each time.
const LATE: usize = 90;

pub struct Author {
    pub random: Random,
    pub hall: Hall,
    pub text: Vec<u8>,
    /// For each seat the messages on their way to it.
    inboxes: Vec<Vec<Message>>,
    /// What was put into the inboxes so far.
    posted: BTreeSet<Message>,
    /// If the seats are in two parts: those of the first one.
    first_part: Option<BTreeSet<u8>>,
    /// Whether messages that can no longer be of use to their receiver are dropped.
    pub thrifty: bool,
    pub calls: usize,
}

impl Author {
    /// Writes setup line, rank lines and entry lines.
    pub fn new(mut random: Random, sort: HallSort, setup: Setup, entries: Vec<Entry>) -> Author {
        let corrupt = setup.judge().expect("a lawful setup");
        let ranks = match sort {
            HallSort::Card => rotation(setup.n, setup.rounds),
            HallSort::Slip => (0..setup.rounds).map(|_| shuffled_ranks(&mut random, setup.n)).collect(),
        };
        let mut text = write_line(&setup_frame(&setup));
        if sort == HallSort::Slip {
            ranks.iter().for_each(|round| text.extend(write_line(&rank_frame(round))));
        }
        entries.iter().for_each(|entry| text.extend(write_line(&entry_frame(entry))));
        let hall = Hall::open(Plan::new(&setup, corrupt, ranks, entries));
        let inboxes = vec![Vec::new(); usize::from(setup.n)];
        let mut author = Author { random, hall, text, inboxes, posted: BTreeSet::new(), first_part: None, thrifty: false, calls: 0 };
        author.post_new();
        author
    }

    /// Writes the line of a call and performs it.
    pub fn say(&mut self, call: &Call) -> bool {
        self.text.extend(write_line(&call.frame()));
        self.calls += 1;
        let accepted = self.hall.perform(call).is_ok();
        if accepted {
            self.post_new();
        }
        accepted
    }

    pub fn say_if_ready(&mut self, call: &Call) -> bool {
        self.hall.is_ready(call) && self.say(call)
    }

    /// Puts what was newly broadcast into the inboxes of those that do not have it.
    fn post_new(&mut self) {
        if self.posted.len() == self.hall.broadcast.len() {
            return;
        }
        let new: Vec<Message> = self.hall.broadcast.difference(&self.posted).copied().collect();
        for message in new {
            self.posted.insert(message);
            for (&seat, state) in &self.hall.seats {
                if !state.has(message) {
                    self.inboxes[usize::from(seat)].push(message);
                }
            }
        }
    }

    pub fn honest_seat(&mut self) -> Option<u8> {
        let seats: Vec<u8> = self.hall.plan.honest_seats().collect();
        (!seats.is_empty()).then(|| *self.random.pick(&seats))
    }

    pub fn corrupt_seat(&mut self) -> Option<u8> {
        let seats: Vec<u8> = self.hall.plan.corrupt.iter().copied().collect();
        (!seats.is_empty()).then(|| *self.random.pick(&seats))
    }

    // The network.

    pub fn has_mail(&self, seat: u8) -> bool {
        !self.inboxes[usize::from(seat)].is_empty()
    }

    /// Delivers one of the messages on their way to a seat.
    pub fn deliver_one(&mut self, seat: u8) -> bool {
        let inbox = &mut self.inboxes[usize::from(seat)];
        if inbox.is_empty() {
            return false;
        }
        let message = inbox.swap_remove(self.random.below(inbox.len()));
        if self.is_held_up(seat, message) && self.random.percent(LATE) {
            self.inboxes[usize::from(seat)].push(message);
            return false;
        }
        if self.thrifty && self.is_stale(seat, message) {
            return false;
        }
        self.say(&delivery(seat, message))
    }

    /// Whether a share comes after what it is for.
    fn is_stale(&self, receiver: u8, message: Message) -> bool {
        let state = self.hall.seat(receiver);
        let round = self.hall.round_of(message.subject);
        match message.kind {
            BEACON_SHARE => message.subject < u16::from(state.round) || (message.subject == u16::from(state.round) && state.phase != Phase::Waiting),
            NOTARIZATION_SHARE => round < state.round || state.has(Message::plain(NOTARIZATION, message.subject)),
            FINALIZATION_SHARE => round <= state.committed_round || state.has(Message::plain(FINALIZATION, message.subject)),
            _ => false,
        }
    }

    /// Puts the honest seats into two parts; from now on messages from one part to the other are late.
    pub fn split(&mut self) {
        let mut seats: Vec<u8> = self.hall.plan.honest_seats().collect();
        self.random.shuffle(&mut seats);
        self.first_part = Some(seats[..seats.len() / 2].iter().copied().collect());
    }

    fn is_in_first_part(&self, seat: u8) -> bool {
        self.first_part.as_ref().is_some_and(|part| part.contains(&seat))
    }

    /// Whether a message comes from an honest seat of the other part.
    fn is_held_up(&self, receiver: u8, message: Message) -> bool {
        let sender = match message.kind {
            BLOCK | NOTARIZATION | FINALIZATION => self.hall.blocks[&message.subject].maker,
            _ => message.signer,
        };
        message.kind != BEACON_SHARE
            && self.first_part.is_some()
            && self.hall.plan.is_honest(sender)
            && self.is_in_first_part(sender) != self.is_in_first_part(receiver)
    }

    /// Loses one of them.
    pub fn lose_one(&mut self, seat: u8) {
        let inbox = &mut self.inboxes[usize::from(seat)];
        if !inbox.is_empty() {
            inbox.swap_remove(self.random.below(inbox.len()));
        }
    }

    /// A delivery of something that the seat has already.
    pub fn repeated_delivery(&mut self, random: &mut Random) -> Option<Call> {
        let seats: Vec<u8> = self.hall.plan.honest_seats().collect();
        let seat = *random.pick(&seats);
        let pool = &self.hall.seat(seat).pool;
        let at = random.below(pool.len());
        pool.iter().nth(at).map(|&message| delivery(seat, message))
    }

    // Honest seats.

    /// A call of an honest seat that is ready, commits too; proposals get a random sound payload.
    pub fn act(&mut self, seat: u8) -> bool {
        let mut calls = ready_of_seat(&self.hall, seat);
        calls.extend(ready_commits(&self.hall, seat));
        self.say_one_of(&calls)
    }

    /// The same, but the seat does not finish its round.
    pub fn act_but_finish(&mut self, seat: u8) -> bool {
        let mut calls = ready_of_seat(&self.hall, seat);
        calls.extend(ready_commits(&self.hall, seat));
        calls.retain(|call| !matches!(call, Call::Finish { .. }));
        self.say_one_of(&calls)
    }

    fn say_one_of(&mut self, calls: &[Call]) -> bool {
        if calls.is_empty() {
            return false;
        }
        let call = match self.random.pick(calls).clone() {
            Call::Propose { seat, parent, .. } => Call::Propose { seat, parent, places: self.sound_places(parent) },
            other => other,
        };
        self.say(&call)
    }

    pub fn tick(&mut self, seat: u8, by: u32) -> bool {
        let time = self.hall.seat(seat).clock.saturating_add(by).min(CLOCK_MAX);
        self.say(&Call::Tick { seat, time })
    }

    pub fn sound_places(&mut self, parent: u16) -> Vec<u8> {
        let mut places = Vec::new();
        let entries = self.hall.plan.entries.len();
        let wanted = self.random.below(5);
        for _ in 0..wanted.min(entries) {
            places.push(self.random.below(entries) as u8);
            if !self.hall.is_sound(&places, parent) {
                places.pop();
            }
        }
        places
    }

    // Corrupt seats.

    /// Forges a block of this round on some parent, sound or not as asked, and puts it into the inboxes of some.
    pub fn forge(&mut self, seat: u8, round: u8, sound: bool) -> bool {
        let parent = self.some_parent(round);
        let places = if sound { self.sound_places(parent) } else { self.unsound_places(parent) };
        let call = Call::Forge { seat, round, parent, places };
        if !self.say_if_ready(&call) {
            return false;
        }
        let number = *blocks_of_round(&self.hall, round).iter().rev().find(|number| self.hall.blocks[number].maker == seat).expect("it was made");
        self.show(Message::plain(BLOCK, number));
        true
    }

    /// A block of the round below; the root if there is none.
    pub fn some_parent(&mut self, round: u8) -> u16 {
        let parents = blocks_of_round(&self.hall, round - 1);
        if parents.is_empty() {
            return ROOT;
        }
        *self.random.pick(&parents)
    }

    /// Places that are most likely unsound on the parent's chain: past the table, one twice, one of the chain again, or at random.
    fn unsound_places(&mut self, parent: u16) -> Vec<u8> {
        let below = self.hall.places_of(&self.hall.chain(parent));
        let entries = self.hall.plan.entries.len();
        let mut places = self.sound_places(parent);
        places.truncate(2);
        match self.random.below(4) {
            0 => places.push(self.random.between(entries.min(127), 127) as u8),
            1 if entries > 0 => places.extend([self.random.below(entries) as u8; 2]),
            2 if !below.is_empty() => places.push(*self.random.pick(&below)),
            _ => places.push(self.random.below(entries.max(1)) as u8),
        }
        places
    }

    /// Seals for a corrupt seat, and puts the share into the inboxes of some.
    pub fn seal(&mut self, seat: u8, kind: u8, subject: u16) -> bool {
        let sealed = self.say_if_ready(&Call::Seal { seat, kind, subject });
        if sealed {
            self.show(Message::share(kind, seat, subject));
        }
        sealed
    }

    /// Seals something that the seat has not sealed: a share for a made block, or a beacon share.
    pub fn seal_something(&mut self, seat: u8) -> bool {
        let kind = *self.random.pick(&[NOTARIZATION_SHARE, FINALIZATION_SHARE, NOTARIZATION_SHARE, BEACON_SHARE]);
        let subject = if kind == BEACON_SHARE {
            self.random.between(1, usize::from(self.hall.plan.rounds)) as u16
        } else {
            let made: Vec<u16> = self.hall.blocks.keys().copied().collect();
            if made.is_empty() {
                return false;
            }
            *self.random.pick(&made)
        };
        self.seal(seat, kind, subject)
    }

    /// Seals notarization and finalization shares for every block of a round that it has not sealed, and shows them to some.
    pub fn seal_both_sides(&mut self, seat: u8, round: u8) {
        for block in blocks_of_round(&self.hall, round) {
            self.seal(seat, NOTARIZATION_SHARE, block);
            self.seal(seat, FINALIZATION_SHARE, block);
        }
    }

    /// Puts a message into the inboxes of a random part of the seats; if they are in two parts, blocks by their variant to one of these.
    pub fn show(&mut self, message: Message) {
        let mut seats: Vec<u8> = self.hall.plan.honest_seats().collect();
        if self.first_part.is_some() && message.kind == BLOCK {
            let to_first = message.subject % 3 == 1;
            seats.retain(|&seat| self.is_in_first_part(seat) == to_first);
            seats.iter().for_each(|&seat| self.inboxes[usize::from(seat)].push(message));
            return;
        }
        let share = *self.random.pick(&[30, 50, 100]);
        for seat in seats {
            if self.random.percent(share) {
                self.inboxes[usize::from(seat)].push(message);
            }
        }
    }

    /// Puts the combined message of some made block into inboxes, if it exists.
    pub fn show_combined(&mut self) {
        let made: Vec<u16> = self.hall.blocks.keys().copied().collect();
        if made.is_empty() {
            return;
        }
        let block = *self.random.pick(&made);
        for kind in [NOTARIZATION, FINALIZATION] {
            if self.hall.exists(Message::plain(kind, block)) {
                self.show(Message::plain(kind, block));
            }
        }
    }

    pub fn lowest_round(&self) -> u8 {
        let busy = self.hall.seats.values().filter(|seat| seat.phase != Phase::Done);
        busy.map(|seat| seat.round).min().unwrap_or(self.hall.plan.rounds)
    }
}

pub fn delivery(seat: u8, message: Message) -> Call {
    Call::Deliver { seat, kind: message.kind, signer: message.signer, subject: message.subject }
}

pub fn setup_frame(setup: &Setup) -> Vec<u8> {
    let two = |number: u16| number.to_be_bytes();
    [&[0x01, setup.n, setup.t, setup.rounds][..], &two(setup.d), &two(setup.e), &two(setup.corrupt)].concat()
}

pub fn rank_frame(ranks: &[u8]) -> Vec<u8> {
    [&[0x04][..], ranks].concat()
}

pub fn entry_frame(entry: &Entry) -> Vec<u8> {
    match *entry {
        Entry::Card { store, find } => [&[0x02][..], &store.to_be_bytes(), &find.to_be_bytes()].concat(),
        Entry::Slip { sherds: (a, b) } => [&[0x03][..], &a.to_be_bytes(), &b.to_be_bytes()].concat(),
    }
}

pub fn shuffled_ranks(random: &mut Random, n: u8) -> Ranks {
    let mut ranks: Ranks = (0..n).collect();
    random.shuffle(&mut ranks);
    ranks
}

/// A random entry of the hall's kind, from few numbers, so that like entries come up.
pub fn random_entry(random: &mut Random, sort: HallSort, numbers: usize) -> Entry {
    match sort {
        HallSort::Card => Entry::Card { store: random.below(3) as u16, find: random.below(numbers) as u32 },
        HallSort::Slip => Entry::Slip { sherds: (random.below(numbers) as u32, random.below(numbers) as u32) },
    }
}
