//! Inputs for the checksum, and their checksums, as text or as bytes.

use std::ops::RangeInclusive;

use crate::generator::random::Random;
use crate::player::checksum::checksum;

/// Lengths that every list begins with, so that none is left to chance: a program that takes eight bytes at a
/// time can go wrong with those after the last eight, or at a length from which on it takes them another way.
const SHORT_LENGTHS: RangeInclusive<u64> = 0..=272;
/// Lengths that come next, around a super block's 4,096: long inputs have every length modulo eight too.
const LONG_LENGTHS: RangeInclusive<u64> = 4_088..=4_104;

/// Inputs of 0 to 5,000 bytes, most of them short; the first have the lengths above, in order.
pub fn inputs(seed: u64, count: u64) -> Vec<Vec<u8>> {
    let mut first_lengths = SHORT_LENGTHS.chain(LONG_LENGTHS);
    let input = |index| {
        let mut random = Random::new(seed, index);
        match first_lengths.next() {
            Some(length) => random_bytes(&mut random, length),
            None => any_bytes(&mut random),
        }
    };
    (0..count).map(input).collect()
}

fn random_bytes(random: &mut Random, length: u64) -> Vec<u8> {
    let mut bytes = vec![0; length as usize];
    random.fill(&mut bytes);
    bytes
}

fn any_bytes(random: &mut Random) -> Vec<u8> {
    let length = match random.weighted(&[50, 30, 17, 3]) {
        0 => random.below(17),
        1 => random.below(257),
        2 => random.below(1025),
        _ => random.below(5001),
    };
    let mut bytes = vec![0; length as usize];
    match random.weighted(&[60, 10, 10, 20]) {
        0 => random.fill(&mut bytes),
        1 => {}
        2 => bytes.fill(0xFF),
        // A single byte: from the result for zeros alone this one differs by one remainder, carried on.
        _ if length > 0 => bytes[random.below(length) as usize] = random.between(1, 255) as u8,
        _ => {}
    }
    bytes
}

pub fn as_lines(inputs: &[Vec<u8>]) -> Vec<u8> {
    let line = |bytes: &Vec<u8>| bytes.iter().map(|byte| format!("{byte:02x}")).collect::<String>() + "\n";
    inputs.iter().map(line).collect::<String>().into_bytes()
}

/// The length of each input, two bytes little-endian, and its bytes.
pub fn as_records(inputs: &[Vec<u8>]) -> Vec<u8> {
    let mut records = Vec::new();
    for bytes in inputs {
        records.extend_from_slice(&(bytes.len() as u16).to_le_bytes());
        records.extend_from_slice(bytes);
    }
    records
}

/// One checksum for each line of hex digits.
pub fn of_lines(text: &[u8]) -> Result<String, String> {
    let text = std::str::from_utf8(text).map_err(|_| "the input isn't text".to_string())?;
    let mut sums = String::new();
    for (index, line) in text.lines().enumerate() {
        let bytes = from_hex(line).ok_or(format!("line {} isn't pairs of hex digits", index + 1))?;
        sums.push_str(&format!("{:08x}\n", checksum(&bytes)));
    }
    Ok(sums)
}

fn from_hex(line: &str) -> Option<Vec<u8>> {
    let digits: Option<Vec<u8>> = line.chars().map(|c| c.to_digit(16).map(|digit| digit as u8)).collect();
    let digits = digits?;
    let pairs = digits.chunks_exact(2);
    if !pairs.remainder().is_empty() {
        return None;
    }
    Some(pairs.map(|pair| pair[0] << 4 | pair[1]).collect())
}

/// One checksum for each record of a length and bytes.
pub fn of_records(mut rest: &[u8]) -> Result<String, String> {
    let mut sums = String::new();
    while !rest.is_empty() {
        let cut = || "the last record is cut".to_string();
        let (length, after) = rest.split_at_checked(2).ok_or_else(cut)?;
        let length = usize::from(u16::from_le_bytes([length[0], length[1]]));
        let (bytes, after) = after.split_at_checked(length).ok_or_else(cut)?;
        sums.push_str(&format!("{:08x}\n", checksum(bytes)));
        rest = after;
    }
    Ok(sums)
}
