//! The records of a tape, and how they are read.

use super::calls::{Call, Request};
use super::types::{u32_at, u64_at, FileKind, TAPE_ZONES};
use super::{superblock, zone};

#[derive(Clone, Copy, Debug, PartialEq, Eq)]
pub enum Verb {
    Read,
    Write,
    Truncate,
    Flush,
    Open,
    Close,
}

impl Verb {
    pub fn mark(self) -> &'static str {
        match self {
            Verb::Read => "RD",
            Verb::Write => "WR",
            Verb::Truncate => "TR",
            Verb::Flush => "FL",
            Verb::Open => "OP",
            Verb::Close => "CL",
        }
    }
}

/// The file that a record names: any kind byte, and a number that there may not be.
#[derive(Clone, Copy, Debug, PartialEq, Eq)]
pub struct Named {
    pub kind: u8,
    pub number: u32,
}

impl Named {
    pub fn of(kind: FileKind, number: u32) -> Named {
        let kind = match kind {
            FileKind::Conventional => 0,
            FileKind::Sequential => 1,
        };
        Named { kind, number }
    }

    /// None for a kind byte that no file has.
    pub fn file(&self) -> Option<(FileKind, u32)> {
        let kind = match self.kind {
            0 => FileKind::Conventional,
            1 => FileKind::Sequential,
            _ => return None,
        };
        Some((kind, self.number))
    }
}

/// A call as the tape has it: any kind byte, and fields that its verb may not use.
#[derive(Clone, Copy, Debug, PartialEq, Eq)]
pub struct CallRecord {
    pub verb: Verb,
    pub kind: u8,
    pub number: u32,
    pub offset: u64,
    pub length: u64,
}

impl CallRecord {
    /// With zero in the fields that aren't used.
    pub fn of(call: &Call) -> CallRecord {
        let (verb, offset, length) = match call.request {
            Request::Read { offset, length } => (Verb::Read, offset, length),
            Request::Write { offset, length } => (Verb::Write, offset, length),
            Request::Truncate { size } => (Verb::Truncate, 0, size),
            Request::Flush => (Verb::Flush, 0, 0),
            Request::Open => (Verb::Open, 0, 0),
            Request::Close => (Verb::Close, 0, 0),
        };
        let Named { kind, number } = Named::of(call.kind, call.number);
        CallRecord { verb, kind, number, offset, length }
    }

    /// None for a kind byte that no file has.
    pub fn call(&self) -> Option<Call> {
        let (kind, number) = self.named().file()?;
        Some(Call { kind, number, request: self.request() })
    }

    pub fn named(&self) -> Named {
        Named { kind: self.kind, number: self.number }
    }

    pub fn request(&self) -> Request {
        let (offset, length) = (self.offset, self.length);
        match self.verb {
            Verb::Read => Request::Read { offset, length },
            Verb::Write => Request::Write { offset, length },
            Verb::Truncate => Request::Truncate { size: length },
            Verb::Flush => Request::Flush,
            Verb::Open => Request::Open,
            Verb::Close => Request::Close,
        }
    }
}

#[derive(Clone, Copy, Debug, PartialEq, Eq)]
pub enum Record<'a> {
    Block(u16),
    SuperBlock(&'a [u8]),
    Report(&'a [u8]),
    /// The options, and the two limits, which stand behind them with `explicit-open` or without.
    Mount {
        options: &'a [u8],
        open_limit: u32,
        active_limit: u32,
    },
    Call(CallRecord),
    /// The command of this file was done.
    Good(Named),
    /// The disk failed it, and reports a zone.
    Failed(Named, &'a [u8]),
}

#[derive(Clone, Copy, Debug, PartialEq, Eq)]
pub enum Next<'a> {
    Record(Record<'a>),
    End,
    /// An unknown mark, or a record that the tape ends in.
    Broken,
}

/// Reads records one after the other; `at` is where the next one begins.
pub struct Reader<'a> {
    tape: &'a [u8],
    pub at: usize,
}

impl<'a> Reader<'a> {
    pub fn new(tape: &'a [u8]) -> Reader<'a> {
        Reader { tape, at: 0 }
    }

    /// A broken record isn't passed over: `at` stays on it.
    pub fn read(&mut self) -> Next<'a> {
        let rest = &self.tape[self.at..];
        if rest.is_empty() {
            return Next::End;
        }
        match decode(rest) {
            Some((record, length)) => {
                self.at += length;
                Next::Record(record)
            }
            None => Next::Broken,
        }
    }
}

/// The record at the front and its length with the mark; None if it is unknown or cut.
fn decode(rest: &[u8]) -> Option<(Record<'_>, usize)> {
    let mark = rest.get(..2)?;
    let body = &rest[2..];
    let (record, length) = match mark {
        b"BK" => (Record::Block(u16::from_le_bytes([*body.first()?, *body.get(1)?])), 2),
        b"SB" => (Record::SuperBlock(body.get(..superblock::LENGTH)?), superblock::LENGTH),
        b"ZR" => {
            let length = report_length(body.get(..zone::HEADER)?);
            (Record::Report(body.get(..length)?), length)
        }
        b"MO" => {
            let limits_at = 1 + usize::from(*body.first()?);
            (decode_mount(body, limits_at)?, limits_at + LIMITS_LENGTH)
        }
        b"RD" => (decode_call(Verb::Read, body)?, CALL_LENGTH),
        b"WR" => (decode_call(Verb::Write, body)?, CALL_LENGTH),
        b"TR" => (decode_call(Verb::Truncate, body)?, CALL_LENGTH),
        b"FL" => (decode_call(Verb::Flush, body)?, CALL_LENGTH),
        b"OP" => (decode_call(Verb::Open, body)?, CALL_LENGTH),
        b"CL" => (decode_call(Verb::Close, body)?, CALL_LENGTH),
        b"OK" => (Record::Good(decode_named(body)?), NAMED_LENGTH),
        b"NO" => {
            let length = NAMED_LENGTH + zone::RECORD;
            (Record::Failed(decode_named(body)?, body.get(NAMED_LENGTH..length)?), length)
        }
        _ => return None,
    };
    Some((record, 2 + length))
}

/// Nothing follows a header whose count no report on a tape can have. Such a report lacks its zones, so a mount answers 28.
fn report_length(header: &[u8]) -> usize {
    match u32_at(header, 8) {
        count @ 1..=TAPE_ZONES => zone::HEADER + zone::RECORD * count as usize,
        _ => zone::HEADER,
    }
}

/// "MO ends with the limits (u32, open first)."
pub const LIMITS_LENGTH: usize = 8;

fn decode_mount(body: &[u8], limits_at: usize) -> Option<Record<'_>> {
    let limits = body.get(limits_at..limits_at + LIMITS_LENGTH)?;
    let (open_limit, active_limit) = (u32_at(limits, 0), u32_at(limits, 4));
    Some(Record::Mount { options: &body[1..limits_at], open_limit, active_limit })
}

/// A kind byte and a number.
pub const NAMED_LENGTH: usize = 5;
const CALL_LENGTH: usize = NAMED_LENGTH + 16;

fn decode_named(body: &[u8]) -> Option<Named> {
    let body = body.get(..NAMED_LENGTH)?;
    Some(Named { kind: body[0], number: u32_at(body, 1) })
}

fn decode_call(verb: Verb, body: &[u8]) -> Option<Record<'static>> {
    let body = body.get(..CALL_LENGTH)?;
    let Named { kind, number } = decode_named(body)?;
    let (offset, length) = (u64_at(body, 5), u64_at(body, 13));
    Some(Record::Call(CallRecord { verb, kind, number, offset, length }))
}
