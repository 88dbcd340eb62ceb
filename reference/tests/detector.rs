//! Tests of the detector: with a mistake planted in this program the comparison finds a difference, or a promise is seen to break, and the
//! submission that shows it is made small; without one nothing is found.

use reference::compare::{Comparison, HallFunction, Trouble};
use reference::generate::{submission, submission_by, Submission};
use reference::misreading::Misreading;
use reference::page::{answer, hall_function};
use reference::pairs::Tally;
use reference::plan::HallSort;

/// So many seeds are tried before a mistake counts as not found.
const SEEDS: u64 = 20_000;

fn check(comparison: &Comparison, submission: &Submission) -> Option<Trouble> {
    comparison.check(submission, &mut Tally::default()).err()
}

/// The first trouble that is wanted among the submissions of an author, made small.
fn find(comparison: &Comparison, author: Option<Misreading>, wanted: impl Fn(&Trouble) -> bool) -> Option<(Submission, Trouble)> {
    (0..SEEDS).find_map(|seed| {
        let submission = submission_by(seed, author);
        let trouble = check(comparison, &submission).filter(&wanted)?;
        let small = comparison.shrink(&submission, &trouble);
        assert!(small.0.text.len() <= submission.text.len());
        Some(small)
    })
}

/// No line can be taken out of it.
fn assert_smallest(comparison: &Comparison, small: &Submission, trouble: &Trouble) {
    assert!(check(comparison, small).is_some_and(|found| found.is_like(trouble)), "the small submission shows it");
    let lines: Vec<&[u8]> = small.text.split_inclusive(|&byte| byte == b'\n').collect();
    for out in 0..lines.len() {
        let rest = [&lines[..out], &lines[out + 1..]].concat().concat();
        let without = Submission { text: rest, ..small.clone() };
        assert!(!check(comparison, &without).is_some_and(|found| found.is_like(trouble)), "line {} is not needed", out + 1);
    }
}

fn assert_difference_found(misreading: Misreading) {
    let comparison = Comparison { other: &hall_function, misreading: Some(misreading), to_done: false };
    let found = find(&comparison, None, |trouble| matches!(trouble, Trouble::Differs { .. }));
    let (small, trouble) = found.unwrap_or_else(|| panic!("{} is not found", misreading.name()));
    assert_smallest(&comparison, &small, &trouble);
}

/// The program with the mistake against itself, on schedules by an author with the same mistake: no difference can come, so only the
/// promises can tell.
fn assert_promise_breaks(misreading: Misreading, promise: &str) {
    let misread = |sort: HallSort, text: &[u8], output: &mut [u8]| answer(sort, Some(misreading), text, output, &mut |_| {});
    let comparison = Comparison { other: &misread, misreading: Some(misreading), to_done: false };
    let found = find(&comparison, Some(misreading), |trouble| matches!(trouble, Trouble::Broken(broken) if broken.promise == promise));
    let (small, trouble) = found.unwrap_or_else(|| panic!("{}: {promise} is not seen to break", misreading.name()));
    assert_smallest(&comparison, &small, &trouble);
}

#[test]
fn without_a_mistake_nothing_is_found() {
    let comparison = Comparison { other: &hall_function, misreading: None, to_done: true };
    for seed in 0..400 {
        assert!(check(&comparison, &submission(seed)).is_none(), "seed {seed}");
    }
}

#[test]
fn differences_are_found() {
    for misreading in Misreading::ALL {
        // What is broadcast with a proposal is in the proposer's pool already: no record tells.
        if misreading != Misreading::ParentKept {
            assert_difference_found(misreading);
        }
    }
}

#[test]
fn small_quorum_breaks_catalogues_agree() {
    assert_promise_breaks(Misreading::SmallQuorum, "catalogues-agree");
}

#[test]
fn final_despite_rival_breaks_finalized_alone() {
    assert_promise_breaks(Misreading::FinalDespiteRival, "finalized-alone");
}

#[test]
fn any_payload_breaks_no_entry_twice() {
    assert_promise_breaks(Misreading::AnyPayload, "no-entry-twice");
}

#[test]
fn better_from_highest_breaks_better_is_named() {
    assert_promise_breaks(Misreading::BetterFromHighest, "better-is-named");
}

#[test]
fn block_stays_breaks_posts_can_arrive() {
    assert_promise_breaks(Misreading::BlockStays, "posts-can-arrive");
}

#[test]
fn no_next_share_breaks_never_stuck() {
    assert_promise_breaks(Misreading::NoNextShare, "never-stuck");
}

/// A paper of the card hall that breaks a promise with the mistake, and none without it.
fn assert_paper_breaks(lines: &[&str], misreading: Misreading, promise: &str) {
    let text = lines.iter().flat_map(|line| [line.as_bytes(), b"\n"].concat()).collect();
    let paper = Submission { sort: HallSort::Card, text, room: 2048 };
    let misread = |sort: HallSort, text: &[u8], output: &mut [u8]| answer(sort, Some(misreading), text, output, &mut |_| {});
    let trouble = check(&Comparison { other: &misread, misreading: Some(misreading), to_done: false }, &paper);
    assert!(matches!(&trouble, Some(Trouble::Broken(broken)) if broken.promise == promise), "{trouble:?}");
    let trouble = check(&Comparison { other: &hall_function, misreading: None, to_done: true }, &paper);
    assert!(trouble.is_none(), "{trouble:?}");
}

/// Blocks 4 and 1 of round 1 are both notarized, the notarization of 1 is shown to seat 1 only, and seat 1 proposes on it in round 2, as
/// leader. Seats 2 and 3 never see that block valid and echo block 19, which seat 1 refuses for its own.
#[test]
fn parent_kept_breaks_never_stuck() {
    let lines = [
        "01040102000000000001",
        "160106020001",
        "160206010001",
        "160306010001",
        "1101",
        "1102",
        "1103",
        "12010000",
        "160201000004",
        "160301000004",
        "13010004",
        "13020004",
        "13030004",
        "1700010000",
        "160101000001",
        "160201000001",
        "13010001",
        "13020001",
        "1800020001",
        "160103000001",
        "160103000004",
        "160203000004",
        "160303000004",
        "14010004",
        "14020004",
        "14030004",
        "160106020002",
        "160206010002",
        "160306010002",
        "1101",
        "1102",
        "1103",
        "12010001",
        "12020004",
        "12030004",
        "13010010",
        "160301000013",
        "13020013",
        "13030013",
    ];
    assert_paper_breaks(&lines, Misreading::ParentKept, "never-stuck");
}

/// One seat echoes the second block of a rank more often than runs-end allows, were it accepted.
#[test]
fn echo_again_breaks_runs_end() {
    let first = [
        "01040101000000000001",
        "02000100000001",
        "160106020001",
        "1101",
        "1700010000",
        "170001000000",
        "160101000001",
        "160101000002",
        "13010001",
    ];
    let lines: Vec<&str> = first.into_iter().chain(std::iter::repeat_n("13010002", 60)).collect();
    assert_paper_breaks(&lines, Misreading::EchoAgain, "runs-end");
}

/// Another hall function that is right but for what it is given here to spoil.
fn assert_spoiled_is_found(spoil: impl Fn(u32, &mut [u8]) -> u32 + Sync) {
    let spoiled = |sort: HallSort, text: &[u8], output: &mut [u8]| {
        let result = hall_function(sort, text, output);
        spoil(result, output)
    };
    let other: HallFunction = &spoiled;
    let paper = Submission { sort: HallSort::Card, text: b"01010001000000000000\n1100\n".to_vec(), room: 2048 };
    assert!(matches!(check(&Comparison { other, misreading: None, to_done: false }, &paper), Some(Trouble::Differs { .. })));
}

#[test]
fn a_wrong_result_is_found() {
    assert_spoiled_is_found(|result, _| result + 1);
}

#[test]
fn a_wrong_byte_is_found() {
    assert_spoiled_is_found(|result, output| {
        output[3] ^= 1;
        result
    });
}

#[test]
fn a_byte_past_the_record_is_found() {
    assert_spoiled_is_found(|result, output| {
        output[result as usize] = b'\n';
        result
    });
}

#[test]
fn the_last_byte_of_the_buffer_is_found() {
    assert_spoiled_is_found(|result, output| {
        *output.last_mut().expect("it is not empty") = 0;
        result
    });
}

#[test]
fn a_tally_without_runs_names_what_is_missing() {
    let faults = Tally::default().faults();
    assert!(faults.contains(&"card hall: echo with 20 did not come".to_string()));
    assert!(faults.contains(&"slip hall: no run to done with n = 13 and R = 8".to_string()));
}
