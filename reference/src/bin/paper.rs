//! `paper card|slip FILE` runs one paper through this program as tests/paper.c does through the library, so that tests/table can run it:
//! it writes the record to standard output, or prints `answer NUMBER` where the hall refuses the submission as a whole.

use std::io::Write;

use reference::page::{card_hall, slip_hall, REFUSAL_BASE};

const UNTOUCHED: u8 = 0xaa;

fn main() {
    let arguments: Vec<String> = std::env::args().skip(1).collect();
    let (hall, file): (fn(&[u8], &mut [u8]) -> u32, &str) = match arguments.as_slice() {
        [sort, file] if sort == "card" => (card_hall, file),
        [sort, file] if sort == "slip" => (slip_hall, file),
        _ => {
            eprintln!("usage: paper card|slip FILE");
            std::process::exit(1);
        }
    };
    let submission = std::fs::read(file).expect("the file can be read");
    let mut output = [UNTOUCHED; 4096];
    let answer = hall(&submission, &mut output);
    let written = if answer < REFUSAL_BASE { answer as usize } else { 0 };
    if answer >= REFUSAL_BASE {
        println!("answer {answer}");
    }
    std::io::stdout().write_all(&output[..written]).expect("the record can be written");
    if output[written..].iter().any(|&byte| byte != UNTOUCHED) {
        eprintln!("a byte past the record was touched");
        std::process::exit(2);
    }
}
