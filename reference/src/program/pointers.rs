//! Pointers that a player may fall for, and what came of them on a tape: those of full zones, which are ignored, and
//! those that the capacity bounds, which aren't.

use super::counter::{Counter, Failure};
use crate::disk::consistency::add_each;
use crate::player::tape::CallRecord;
use crate::player::types::{Operation, Policy, Reason, Row, SECTOR};
use crate::player::zone::{Zone, FULL};

/// So many cases are counted.
pub const CASES: usize = 9;
/// What they are, in the order of `Case`. A stray pointer is one of a full zone that isn't at the capacity's end.
pub const CASE_NAMES: [&str; CASES] = [
    "a call on a file mounted with a stray pointer",
    "a record with a stray pointer answered 7",
    "a failed read with a stray pointer that recovers nothing",
    "a failed read with a stray pointer that recovers",
    "a failed read with a stray pointer at the size that recovers",
    "a call on a file mounted with condition 1 to 4 at the capacity's end",
    "a record with condition 1 to 4 at the capacity's end answered 7",
    "a pointer at the end of a zone that holds less answered 29",
    "a pointer at the end of a zone that holds less answered 9",
];

#[derive(Clone, Copy)]
enum Case {
    StrayMounted,
    StrayRecord,
    StrayReadAsBefore,
    StrayReadRecovers,
    StrayReadAtSizeRecovers,
    EndMounted,
    EndRecord,
    PastCapacityAtMount,
    PastCapacityInRecord,
}

/// How often each case came on tapes.
#[derive(Clone, Copy, Debug, Default, PartialEq, Eq)]
pub struct Pointers {
    pub counts: [u64; CASES],
}

impl Counter for Pointers {
    /// The pointer is the last reason, so it is the only one where it is given.
    fn bad_zone(&mut self, _block: u64, zones: &[Zone], number: usize, reason: Reason) {
        let past = is_past_capacity(&zones[number]);
        self.count(Case::PastCapacityAtMount, past && reason == Reason::Pointer);
    }

    fn call(&mut self, zones: &[Zone], call: &CallRecord, answered: bool) {
        if answered && call.kind == 1 {
            let zone = sequential_file(zones, call.number as usize);
            self.count(Case::StrayMounted, zone.is_some_and(is_stray));
            self.count(Case::EndMounted, zone.is_some_and(is_open_at_end));
        }
    }

    fn failure(&mut self, failure: &Failure) {
        let zone = Zone::decode(failure.record, true);
        if failure.answer.is_err() {
            let mut full = failure.record.to_vec();
            full[25] = FULL;
            let still_bad = failure.answer_with(&full).is_err();
            self.count(Case::PastCapacityInRecord, is_past_capacity(&zone) && !still_bad);
            return;
        }
        self.count(Case::StrayRecord, is_stray(&zone));
        self.count(Case::EndRecord, is_open_at_end(&zone));
        if failure.held.command.operation == Operation::Read && is_stray(&zone) {
            self.count_stray_read(
                failure.before.mount.policy,
                &zone,
                failure.row(failure.before),
                failure.row(failure.after),
            );
        }
    }
}

impl Pointers {
    pub fn add(&mut self, other: &Pointers) {
        add_each(&mut self.counts, &other.counts);
    }

    fn count(&mut self, case: Case, came: bool) {
        self.counts[case as usize] += u64::from(came);
    }

    /// Under repair a row that has its capacity stays as it is with a recovery too, so that shows nothing.
    fn count_stray_read(&mut self, policy: Policy, zone: &Zone, before: &Row, after: &Row) {
        // The command went in any case.
        let (as_before, was_full) = (before.idle() == *after, before.size == before.capacity);
        let at_size = stands_at(zone, before.size / SECTOR);
        self.count(Case::StrayReadAsBefore, as_before && was_full && policy != Policy::Repair);
        self.count(Case::StrayReadRecovers, !as_before && !was_full);
        self.count(Case::StrayReadAtSizeRecovers, !as_before && !was_full && at_size);
    }
}

/// The zone of a file. Zone 0 is none.
fn sequential_file(zones: &[Zone], number: usize) -> Option<&Zone> {
    zones.iter().skip(1).filter(|zone| !zone.is_conventional()).nth(number)
}

/// So many sectors behind the zone's start.
fn stands_at(zone: &Zone, sectors: u64) -> bool {
    zone.pointer.checked_sub(zone.start) == Some(sectors)
}

fn is_at_end(zone: &Zone) -> bool {
    stands_at(zone, zone.capacity)
}

fn is_stray(zone: &Zone) -> bool {
    zone.condition == FULL && !is_at_end(zone)
}

fn is_open_at_end(zone: &Zone) -> bool {
    zone.pointer_counts() && is_at_end(zone)
}

fn is_past_capacity(zone: &Zone) -> bool {
    zone.pointer_counts() && zone.capacity < zone.length && stands_at(zone, zone.length)
}
