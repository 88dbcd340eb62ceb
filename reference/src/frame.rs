//! Lines and frames of a submission (docs/PAGE.md, "Lines" and "Frames of a submission").

use crate::call::Call;
use crate::plan::{Entry, Setup};

/// What a whole line says.
#[derive(Clone, PartialEq, Eq, Debug)]
pub enum Frame {
    Setup(Setup),
    Entry(Entry),
    Ranks(Vec<u8>),
    Call(Call),
}

/// Why a line is malformed. The record does not tell; the tables of the comparison do.
#[derive(Clone, Copy, PartialEq, Eq, PartialOrd, Ord, Debug)]
pub enum Malformed {
    Missing,
    RanksMissing,
    NoLineFeed,
    Empty,
    Character,
    OddDigits,
    UnknownFirstByte,
    Length,
    NotSetup,
    SetupAgain,
    NotRanks,
    RankCount,
    RanksOutOfPlace,
    EntryOfOtherHall,
    EntryAfterCall,
}

#[derive(Clone, Copy, Debug)]
pub struct Line<'a> {
    /// From 1.
    pub number: usize,
    pub text: &'a [u8],
    pub has_line_feed: bool,
}

pub fn lines(submission: &[u8]) -> Vec<Line<'_>> {
    submission
        .split_inclusive(|&byte| byte == b'\n')
        .enumerate()
        .map(|(i, piece)| match piece.strip_suffix(b"\n") {
            Some(text) => Line { number: i + 1, text, has_line_feed: true },
            None => Line { number: i + 1, text: piece, has_line_feed: false },
        })
        .collect()
}

/// The frame of a line, wherever it stands.
pub fn frame(line: &Line) -> Result<Frame, Malformed> {
    if !line.has_line_feed {
        return Err(Malformed::NoLineFeed);
    }
    decode(&hexadecimal(line.text)?)
}

fn hexadecimal(text: &[u8]) -> Result<Vec<u8>, Malformed> {
    let digits: Option<Vec<u8>> = text.iter().map(|&character| digit(character)).collect();
    let digits = digits.ok_or(Malformed::Character)?;
    if digits.len() % 2 == 1 {
        return Err(Malformed::OddDigits);
    }
    Ok(digits.chunks(2).map(|pair| pair[0] * 16 + pair[1]).collect())
}

fn digit(character: u8) -> Option<u8> {
    match character {
        b'0'..=b'9' => Some(character - b'0'),
        b'a'..=b'f' => Some(character - b'a' + 10),
        _ => None,
    }
}

fn decode(bytes: &[u8]) -> Result<Frame, Malformed> {
    let (&first, fields) = bytes.split_first().ok_or(Malformed::Empty)?;
    let right_length = match first {
        0x01 => fields.len() == 9,
        0x02 => fields.len() == 6,
        0x03 => fields.len() == 8,
        0x04 => (1..=13).contains(&fields.len()),
        0x10 | 0x16 => fields.len() == 5,
        0x11 => fields.len() == 1,
        0x12 => (3..=11).contains(&fields.len()),
        0x13..=0x15 => fields.len() == 3,
        0x17 => (4..=12).contains(&fields.len()),
        0x18 => fields.len() == 4,
        _ => return Err(Malformed::UnknownFirstByte),
    };
    if !right_length {
        return Err(Malformed::Length);
    }
    Ok(match first {
        0x01 => Frame::Setup(setup(fields)),
        0x02 => Frame::Entry(Entry::Card { store: two(fields, 0), find: four(fields, 2) }),
        0x03 => Frame::Entry(Entry::Slip { sherds: (four(fields, 0), four(fields, 4)) }),
        0x04 => Frame::Ranks(fields.to_vec()),
        _ => Frame::Call(call(first, fields)),
    })
}

fn setup(fields: &[u8]) -> Setup {
    Setup { n: fields[0], t: fields[1], rounds: fields[2], d: two(fields, 3), e: two(fields, 5), corrupt: two(fields, 7) }
}

fn call(first: u8, fields: &[u8]) -> Call {
    let seat = fields[0];
    match first {
        0x10 => Call::Tick { seat, time: four(fields, 1) },
        0x11 => Call::Enter { seat },
        0x12 => Call::Propose { seat, parent: two(fields, 1), places: fields[3..].to_vec() },
        0x13 => Call::Echo { seat, block: two(fields, 1) },
        0x14 => Call::Finish { seat, block: two(fields, 1) },
        0x15 => Call::Commit { seat, block: two(fields, 1) },
        0x16 => Call::Deliver { seat, kind: fields[1], signer: fields[2], subject: two(fields, 3) },
        0x17 => Call::Forge { seat, round: fields[1], parent: two(fields, 2), places: fields[4..].to_vec() },
        _ => Call::Seal { seat, kind: fields[1], subject: two(fields, 2) },
    }
}

fn two(bytes: &[u8], at: usize) -> u16 {
    u16::from_be_bytes([bytes[at], bytes[at + 1]])
}

fn four(bytes: &[u8], at: usize) -> u32 {
    u32::from_be_bytes([bytes[at], bytes[at + 1], bytes[at + 2], bytes[at + 3]])
}

/// The line of a frame's bytes, with its line feed.
pub fn write_line(bytes: &[u8]) -> Vec<u8> {
    let mut text: Vec<u8> = bytes.iter().flat_map(|byte| format!("{byte:02x}").into_bytes()).collect();
    text.push(b'\n');
    text
}
