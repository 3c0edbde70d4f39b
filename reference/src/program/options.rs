//! Option texts in parts, as bytes, and what a mount reads from each.

use super::option_counts::OptionCounts;
use crate::generator::option_cuts::CutText;
use crate::generator::option_texts::cut_texts;
use crate::player::options::{parse, Options};
use crate::player::types::Policy;

/// From so many texts on, each edge has to come.
pub const ENOUGH_TEXTS: u64 = 5_000;

/// The first texts of a seed as records, and a line on them; Err if there are enough and an edge never came.
pub fn inputs(seed: u64, count: u64) -> Result<(Vec<u8>, String), String> {
    let mut counts = OptionCounts::default();
    let mut records = Vec::new();
    for (_, text) in (0..count).zip(cut_texts(seed)) {
        counts.count(&text);
        put_record(&mut records, &text);
    }
    all_came(&counts)?;
    Ok((records, counts.to_string()))
}

/// Whether there is one of everything, among so many that there should be.
pub fn all_came(counts: &OptionCounts) -> Result<(), String> {
    let missing = counts.missing();
    if counts.texts >= ENOUGH_TEXTS && !missing.is_empty() {
        return Err(format!("never came: {}\n{counts}", missing.join(", ")));
    }
    Ok(())
}

/// The number of parts in two bytes, then each part: its length in two bytes, and its bytes. All numbers are little-endian.
pub fn put_record(records: &mut Vec<u8>, text: &CutText) {
    put_number(records, text.parts.len());
    for part in &text.parts {
        put_number(records, part.len());
        records.extend_from_slice(part);
    }
}

fn put_number(records: &mut Vec<u8>, number: usize) {
    let number = u16::try_from(number).expect("parts are few and short");
    records.extend_from_slice(&number.to_le_bytes());
}

/// One line for each record.
pub fn of_records(mut rest: &[u8]) -> Result<String, String> {
    let mut lines = String::new();
    while !rest.is_empty() {
        let text = take_text(&mut rest).ok_or("the last text is cut")?;
        lines.push_str(&line(&text));
        lines.push('\n');
    }
    Ok(lines)
}

/// The parts of a record put together. None if it isn't there whole.
fn take_text(rest: &mut &[u8]) -> Option<Vec<u8>> {
    let mut text = Vec::new();
    for _ in 0..take_number(rest)? {
        let length = take_number(rest)?;
        text.extend_from_slice(take(rest, length)?);
    }
    Some(text)
}

fn take_number(rest: &mut &[u8]) -> Option<usize> {
    let bytes = take(rest, 2)?;
    Some(usize::from(u16::from_le_bytes([bytes[0], bytes[1]])))
}

fn take<'a>(rest: &mut &'a [u8], length: usize) -> Option<&'a [u8]> {
    let (bytes, after) = rest.split_at_checked(length)?;
    *rest = after;
    Some(bytes)
}

/// `0`, the policy's number and 1 with explicit-open, else 0; or the refusal's number.
pub fn line(text: &[u8]) -> String {
    match parse(text) {
        Ok(Options { policy, explicit_open }) => {
            format!("0 {} {}", policy_number(policy), u32::from(explicit_open))
        }
        Err(refusal) => refusal.number().to_string(),
    }
}

pub fn policy_number(policy: Policy) -> usize {
    match policy {
        Policy::RemountReadOnly => 0,
        Policy::ZoneReadOnly => 1,
        Policy::ZoneOffline => 2,
        Policy::Repair => 3,
    }
}
