//! Tapes that break off, or whose records are unknown or out of place.

use super::calls::any_call;
use super::failures::noise_record;
use super::random::Random;
use super::records::encode;
use super::shape;
use super::wild;
use crate::player::tape::{Named, Next, Reader, Record, LIMITS_LENGTH, NAMED_LENGTH};
use crate::player::zone;

/// A broken tape, or one that is just not broken.
pub fn tape(random: &mut Random) -> Vec<u8> {
    let (tape, _) = wild::tape(random);
    match random.below(10) {
        0 => cut(random, tape),
        1 => cut_at_a_record(random, &tape),
        2 => cut_a_completion(random, &tape),
        3 => reorder(random, &tape),
        4 => replace_a_mark(random, tape),
        5 => insert(random, &tape),
        6 => miscount(random, tape),
        7 => flip(random, tape),
        8 => cut_the_mount(random, &tape),
        _ => nothing_much(random),
    }
}

/// Adds something to the end that stops the player, and something after it.
pub fn spoil_end(random: &mut Random, tape: &mut Vec<u8>) {
    match random.below(8) {
        0 => tape.push(random.pick(b"ROWNTFBSZMC?\0")),
        1 => tape.extend_from_slice(random.pick(&[b"??", b"rd", b"KO", b"\0\0", b"ON", b"op", b"LC", b"OC"])),
        2 => encode(&Record::Block(512), tape),
        3 => encode(&Record::Mount { options: b"", open_limit: 0, active_limit: 0 }, tape),
        _ => {
            // Nothing may follow, as it would be taken for the rest.
            let record = any_record(random);
            tape.extend_from_slice(&record[..random.between(2, record.len() as u64 - 1) as usize]);
            return;
        }
    }
    if random.percent(50) {
        tape.extend_from_slice(b"OK\0\0\0\0\0OK");
    }
}

/// A call or a completion, as bytes. A failed one has the most places to be cut at, so it is the commonest.
fn any_record(random: &mut Random) -> Vec<u8> {
    let mut bytes = Vec::new();
    let named = Named { kind: random.below(2) as u8, number: random.below(3) as u32 };
    match random.weighted(&[20, 30, 50]) {
        0 => encode(&Record::Call(any_call(random)), &mut bytes),
        1 => encode(&Record::Good(named), &mut bytes),
        _ => encode(&Record::Failed(named, &noise_record(random)), &mut bytes),
    }
    bytes
}

/// Where each record begins, and the end of what can be read.
fn starts(tape: &[u8]) -> Vec<usize> {
    let mut reader = Reader::new(tape);
    let mut starts = vec![0];
    while let Next::Record(_) = reader.read() {
        starts.push(reader.at);
    }
    starts
}

fn cut(random: &mut Random, mut tape: Vec<u8>) -> Vec<u8> {
    // Half of the cuts fall into the first records, where each is told by its own length.
    let length = tape.len() as u64;
    let at = if random.percent(50) { random.below(length.min(40)) } else { random.below(length) };
    tape.truncate(at as usize);
    tape
}

fn cut_at_a_record(random: &mut Random, tape: &[u8]) -> Vec<u8> {
    let starts = starts(tape);
    let at =
        if random.percent(50) { random.pick(&starts[..starts.len().min(6)]) } else { random.pick(&starts) };
    let slip = random.pick(&[0, 0, 1, 2, 3]);
    tape[..(at + slip).min(tape.len())].to_vec()
}

/// Cuts one completion anywhere in it; the tape's end if it has none.
fn cut_a_completion(random: &mut Random, tape: &[u8]) -> Vec<u8> {
    let starts = starts(tape);
    let records = starts.windows(2).map(|ends| (ends[0], ends[1]));
    let is_completion = |&(start, _): &(usize, usize)| matches!(&tape[start..start + 2], b"OK" | b"NO");
    let completions: Vec<(usize, usize)> = records.filter(is_completion).collect();
    if completions.is_empty() {
        return tape[..tape.len() - 1].to_vec();
    }
    let (start, end) = random.pick(&completions);
    // Half of them lack no more than a file's name.
    let missing = if random.percent(50) { NAMED_LENGTH } else { end - start - 1 };
    tape[..end - random.between(1, missing as u64) as usize].to_vec()
}

/// Cuts the record of the options and limits anywhere in it, mostly in the limits.
fn cut_the_mount(random: &mut Random, tape: &[u8]) -> Vec<u8> {
    let starts = starts(tape);
    let (start, end) = (starts[3], starts[4]);
    let missing = if random.percent(80) { LIMITS_LENGTH } else { end - start - 1 };
    tape[..end - random.between(1, missing as u64) as usize].to_vec()
}

/// Swaps, drops or repeats one of the first records.
fn reorder(random: &mut Random, tape: &[u8]) -> Vec<u8> {
    let starts = starts(tape);
    let mut records: Vec<&[u8]> = starts.windows(2).map(|ends| &tape[ends[0]..ends[1]]).collect();
    let at = random.below(4) as usize;
    match random.below(3) {
        0 => records.swap(at, (at + 1) % 4),
        1 => {
            records.remove(at);
        }
        _ => records.insert(random.between(at as u64, 5) as usize % (records.len() + 1), records[at]),
    }
    records.concat()
}

fn replace_a_mark(random: &mut Random, mut tape: Vec<u8>) -> Vec<u8> {
    let starts = starts(&tape);
    let at = random.pick(&starts[..starts.len() - 1]);
    let mark = random.pick(&[b"??", b"bk", b"RR", b"\xFF\xFF", b"SB", b"OK", b"BK", b"ZR"]);
    tape[at..at + 2].copy_from_slice(mark);
    tape
}

/// Puts a record into a place where it may not be.
fn insert(random: &mut Random, tape: &[u8]) -> Vec<u8> {
    let at = random.pick(&starts(tape));
    let mut result = tape[..at].to_vec();
    match random.below(3) {
        0 => encode(&Record::Block(4096), &mut result),
        1 => {
            let mount = Record::Mount { options: b"errors=repair", open_limit: 1, active_limit: 2 };
            encode(&mount, &mut result);
        }
        _ => result.extend_from_slice(&any_record(random)),
    }
    result.extend_from_slice(&tape[at..]);
    result
}

/// Gives the report another count than it has zones.
fn miscount(random: &mut Random, mut tape: Vec<u8>) -> Vec<u8> {
    const REPORT_AT: usize = 4 + 2 + 4096;
    const COUNT_AT: usize = REPORT_AT + 2 + 8;
    let count = random.pick(&[0, 1, 2, 5, 100, 1022, 1023, 1024, 1 << 16, u32::MAX]);
    tape[COUNT_AT..COUNT_AT + 4].copy_from_slice(&count.to_le_bytes());
    tape
}

/// Flips bits anywhere behind the super block.
fn flip(random: &mut Random, mut tape: Vec<u8>) -> Vec<u8> {
    for _ in 0..random.between(1, 3) {
        let at = random.between(4 + 2 + 4096, tape.len() as u64 - 1) as usize;
        tape[at] ^= 1 << random.below(8);
    }
    tape
}

fn nothing_much(random: &mut Random) -> Vec<u8> {
    let mut tape = Vec::new();
    match random.below(5) {
        0 => {}
        1 => tape.push(b'B'),
        2 => tape = any_record(random),
        3 => {
            tape.resize(random.between(1, 200) as usize, 0);
            random.fill(&mut tape);
        }
        _ => {
            encode(&Record::Block(512), &mut tape);
            encode(&Record::SuperBlock(&shape::super_block(random, 0)), &mut tape);
            encode(&Record::Report(&[0; zone::HEADER]), &mut tape);
        }
    }
    tape
}
