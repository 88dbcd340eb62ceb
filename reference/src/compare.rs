//! One submission through another hall function and through this program: result, bytes written, bytes left alone; and the promises.

use crate::generate::Submission;
use crate::misreading::Misreading;
use crate::page::{answer, Seen, REFUSAL_BASE};
use crate::pairs::{Tally, ACCEPTED, FUNCTION};
use crate::plan::HallSort;
use crate::promises::{Broken, Watcher};
use crate::shrink::shrink;

/// Any hall function with the meaning of those in include/hall.h.
pub type HallFunction<'a> = &'a (dyn Fn(HallSort, &[u8], &mut [u8]) -> u32 + Sync);

#[derive(Clone, Debug)]
pub enum Trouble {
    /// The two differ; what each answered and left in its buffer.
    Differs { other: (u32, Vec<u8>), own: (u32, Vec<u8>) },
    Broken(Broken),
}

impl Trouble {
    /// Whether both are of one sort: a difference, or the same promise.
    pub fn is_like(&self, trouble: &Trouble) -> bool {
        match (self, trouble) {
            (Trouble::Differs { .. }, Trouble::Differs { .. }) => true,
            (Trouble::Broken(one), Trouble::Broken(two)) => one.promise == two.promise,
            _ => false,
        }
    }
}

/// How a submission is compared.
#[derive(Clone, Copy)]
pub struct Comparison<'a> {
    pub other: HallFunction<'a>,
    /// A mistake planted in this program.
    pub misreading: Option<Misreading>,
    /// Whether the end of the schedule is driven on until all seats are done.
    pub to_done: bool,
}

/// A pattern that no record is like, different at neighbouring bytes.
fn patterned(room: usize) -> Vec<u8> {
    (0..room).map(|i| 0x80 | (i * 37 % 127) as u8).collect()
}

impl Comparison<'_> {
    pub fn check(&self, submission: &Submission, tally: &mut Tally) -> Result<(), Trouble> {
        let Submission { sort, text, room } = submission;
        tally.begin(*sort, text.len(), *room);
        let mut theirs = patterned(*room);
        let their_answer = (self.other)(*sort, text, &mut theirs);
        let mut ours = patterned(*room);
        let mut watcher = Watcher::default();
        let our_answer = answer(*sort, self.misreading, text, &mut ours, &mut |seen| {
            tally.see(*sort, &seen);
            match seen {
                Seen::Call(hall, call, verdict) => watcher.after_call(hall, call, &verdict),
                Seen::End(hall) => watcher.at_end(hall, self.to_done),
                _ => {}
            }
        });
        tally.count(*sort, FUNCTION, our_answer.checked_sub(REFUSAL_BASE).map_or(ACCEPTED, |number| number as u8));
        if (their_answer, &theirs) != (our_answer, &ours) {
            return Err(Trouble::Differs { other: (their_answer, theirs), own: (our_answer, ours) });
        }
        watcher.broken.map_or(Ok(()), |broken| Err(Trouble::Broken(broken)))
    }

    /// The smallest submission, by taking out lines, that has trouble of the same sort, and that trouble.
    pub fn shrink(&self, submission: &Submission, trouble: &Trouble) -> (Submission, Trouble) {
        let with = |text: &[u8]| Submission { text: text.to_vec(), ..submission.clone() };
        let trouble_of = |text: &[u8]| self.check(&with(text), &mut Tally::default()).err().filter(|found| found.is_like(trouble));
        let small = with(&shrink(&submission.text, &|text| trouble_of(text).is_some()));
        let found = trouble_of(&small.text).unwrap_or_else(|| trouble.clone());
        (small, found)
    }
}
