//! Makes a submission that shows something smaller, line by line, as long as it still shows it.

/// Takes lines out of a text, many at a time and then fewer, until no single line can be taken out.
pub fn shrink(text: &[u8], still_shows: &dyn Fn(&[u8]) -> bool) -> Vec<u8> {
    let mut lines: Vec<&[u8]> = text.split_inclusive(|&byte| byte == b'\n').collect();
    let mut chunk = lines.len().div_ceil(2).max(1);
    loop {
        let before = lines.len();
        take_out(&mut lines, chunk, still_shows);
        if chunk > 1 {
            chunk = chunk.div_ceil(2);
        } else if lines.len() == before {
            return lines.concat();
        }
    }
}

/// Tries to take out each run of so many lines.
fn take_out(lines: &mut Vec<&[u8]>, chunk: usize, still_shows: &dyn Fn(&[u8]) -> bool) {
    let mut at = 0;
    while at < lines.len() {
        let end = (at + chunk).min(lines.len());
        let rest = [&lines[..at], &lines[end..]].concat();
        if still_shows(&rest.concat()) {
            *lines = rest;
        } else {
            at = end;
        }
    }
}
