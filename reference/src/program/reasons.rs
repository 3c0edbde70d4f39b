//! The reasons that 29 and 9 came with on tapes, and whether their order mattered.

use std::ops::Range;

use super::counter::{Counter, Failure};
use crate::disk::consistency::add_each;
use crate::player::completion::{is_better, is_of_file};
use crate::player::types::{Reason, Refusal, SECTOR};
use crate::player::zone::{Zone, CONVENTIONAL, SEQUENTIAL_PREFERRED, SEQUENTIAL_REQUIRED};

/// The numbers of the reasons that 29 and 9 can have on a tape, and of those that have a next one.
pub const OF_ZONES: Range<usize> = 1..8;
pub const OF_RECORDS: Range<usize> = 2..10;
pub const ZONE_PAIRS: Range<usize> = 1..7;
pub const RECORD_PAIRS: Range<usize> = 2..9;
const NUMBERS: usize = 10;

/// Counts by a number: that of a reason, or the place of a refusal in the order of the checks.
#[derive(Clone, Copy, Debug, Default, PartialEq, Eq)]
pub struct Counts {
    pub given: [u64; NUMBERS],
    /// Those with the next one's fault as well: a player that looks for that one first is wrong there.
    pub before_next: [u64; NUMBERS],
}

impl Counts {
    pub fn count(&mut self, number: usize, has_next: bool) {
        self.given[number] += 1;
        self.before_next[number] += u64::from(has_next);
    }

    fn add(&mut self, other: &Counts) {
        add_each(&mut self.given, &other.given);
        add_each(&mut self.before_next, &other.before_next);
    }

    /// The reasons of this answer that never came, and those that never came with the next one's fault.
    pub fn missing_reasons(&self, answer: u32, all: Range<usize>, pairs: Range<usize>) -> Vec<String> {
        let reasons = all.filter(|&number| self.given[number] == 0).map(|number| number.to_string());
        let pairs = pairs.filter(|&number| self.before_next[number] == 0);
        let orders = pairs.map(|number| format!("{number} before {}", number + 1));
        reasons.chain(orders).map(|text| format!("{answer} with reason {text}")).collect()
    }
}

#[derive(Clone, Copy, Debug, Default, PartialEq, Eq)]
pub struct Reasons {
    /// Of 29.
    pub zones: Counts,
    /// Of 9.
    pub records: Counts,
    /// Reports answered 29 in which a zone behind the given one has a lower reason.
    pub lower_behind: u64,
}

impl Counter for Reasons {
    fn bad_zone(&mut self, block: u64, zones: &[Zone], number: usize, reason: Reason) {
        self.zones.count(reason.number() as usize, has_next_fault(&zones[number], block, reason));
        let mut behind = zones[number..].windows(2).filter_map(|pair| second_fault(pair, block));
        self.lower_behind += u64::from(behind.any(|fault| fault < reason));
    }

    fn failure(&mut self, failure: &Failure) {
        let Err(Refusal::RecordMismatch(reason)) = failure.answer else { return };
        let zone = Zone::decode(failure.record, true);
        let (kind, row) = (failure.held.kind, failure.row(failure.before));
        let has_next = match reason {
            Reason::Pointer => !is_of_file(&zone, kind, row),
            Reason::OtherZone => is_better(&zone, kind, row),
            _ => has_next_fault(&zone, failure.before.mount.block, reason),
        };
        self.records.count(reason.number() as usize, has_next);
    }
}

impl Reasons {
    pub fn add(&mut self, other: &Reasons) {
        self.zones.add(&other.zones);
        self.records.add(&other.records);
        self.lower_behind += other.lower_behind;
    }

    /// What never came.
    pub fn missing(&self) -> Vec<String> {
        let mut missing = self.zones.missing_reasons(29, OF_ZONES, ZONE_PAIRS);
        missing.extend(self.records.missing_reasons(9, OF_RECORDS, RECORD_PAIRS));
        if self.lower_behind == 0 {
            missing.push("29 before a lower reason of a later zone".to_string());
        }
        missing
    }
}

/// The second zone's first reason, the first one being good or not.
fn second_fault(pair: &[Zone], block: u64) -> Option<Reason> {
    if pair[0].start.checked_add(pair[0].length) == Some(pair[1].start) {
        pair[1].fault(block)
    } else {
        Some(Reason::Start)
    }
}

/// Whether a zone with this reason, from the start to the condition, has the next field's fault too.
pub fn has_next_fault(zone: &Zone, block: u64, reason: Reason) -> bool {
    let step = block / SECTOR;
    match reason {
        Reason::Start => !zone.length_is_good(step),
        Reason::Length => !zone.capacity_is_good(step),
        Reason::Capacity => !zone.end_is_good(),
        Reason::End => !zone.type_is_good(),
        Reason::Type => !has_any_types_condition(zone),
        // With a condition that is bad no pointer counts, so this is about players that look at it all the same.
        Reason::Condition => !zone.is_conventional() && !zone.pointer_is_good(step),
        _ => false,
    }
}

/// Whether some type of zone has the condition. One that none has is bad whatever an unknown type is taken for.
fn has_any_types_condition(zone: &Zone) -> bool {
    let types = [CONVENTIONAL, SEQUENTIAL_REQUIRED, SEQUENTIAL_PREFERRED];
    types.iter().any(|&kind| Zone { kind, ..*zone }.condition_is_good())
}
