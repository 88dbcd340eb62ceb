//! The compiled library, by its C functions (include/hall.h).

use reference::plan::HallSort;

mod c {
    extern "C" {
        pub fn card_hall(submission: *const u8, submission_len: usize, output: *mut u8, output_len: usize) -> u32;
        pub fn slip_hall(submission: *const u8, submission_len: usize, output: *mut u8, output_len: usize) -> u32;
    }
}

pub fn hall_function(sort: HallSort, submission: &[u8], output: &mut [u8]) -> u32 {
    let function = match sort {
        HallSort::Card => c::card_hall,
        HallSort::Slip => c::slip_hall,
    };
    // SAFETY: both slices are valid for their lengths, are not null, and do not overlap.
    unsafe { function(submission.as_ptr(), submission.len(), output.as_mut_ptr(), output.len()) }
}
