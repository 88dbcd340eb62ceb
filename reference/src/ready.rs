//! Which calls would be accepted now (docs/RULES.md, section 13).

use crate::call::Call;
use crate::hall::{Hall, Phase, ROOT};

/// The enter, propose, echo and finish calls of a seat that are ready. A propose is given with the empty payload: that one is sound on
/// every chain, so a propose is ready with some payload exactly if it is ready with the empty one.
pub fn ready_of_seat(hall: &Hall, seat: u8) -> Vec<Call> {
    let state = hall.seat(seat);
    let mut calls = Vec::new();
    match state.phase {
        Phase::Waiting => calls.push(Call::Enter { seat }),
        Phase::Done => {}
        Phase::InRound => {
            for parent in blocks_of_round(hall, state.round - 1) {
                calls.push(Call::Propose { seat, parent, places: Vec::new() });
            }
            for block in blocks_of_round(hall, state.round) {
                calls.push(Call::Echo { seat, block });
                calls.push(Call::Finish { seat, block });
            }
        }
    }
    calls.retain(|call| hall.is_ready(call));
    calls
}

/// The commit calls of a seat that are ready.
pub fn ready_commits(hall: &Hall, seat: u8) -> Vec<Call> {
    let committed = hall.seat(seat).committed_round;
    let later = (committed + 1..=hall.plan.rounds).flat_map(|round| blocks_of_round(hall, round));
    later.map(|block| Call::Commit { seat, block }).filter(|call| hall.is_ready(call)).collect()
}

/// Whether some honest seat has an enter, propose, echo or finish that is ready.
pub fn something_is_ready(hall: &Hall) -> bool {
    hall.plan.honest_seats().any(|seat| !ready_of_seat(hall, seat).is_empty())
}

/// The made blocks of a round; of round 0 the root.
pub fn blocks_of_round(hall: &Hall, round: u8) -> Vec<u16> {
    if round == 0 {
        return vec![ROOT];
    }
    let first = hall.plan.block_number(round, 0, 0);
    let next = hall.plan.block_number(round + 1, 0, 0);
    hall.blocks.range(first..next).map(|(&number, _)| number).collect()
}
