//! What a zone record may say and still be true: many bytes show the same zone.

use crate::player::types::{u32_at, Condition};
use crate::player::zone::{Zone, FULL, HEADER, RECORD};

/// A true record may differ from the disk's own bytes in so many ways.
pub const FREEDOMS: usize = 5;
/// What they are, in the order of `freedoms`. The last is a case of the third.
pub const FREEDOM_NAMES: [&str; FREEDOMS] = [
    "another type byte",
    "another condition byte",
    "another pointer",
    "no capacity",
    "another pointer of a full zone",
];

/// A zone record, and whether its capacity field counts.
#[derive(Clone, Copy, Debug, PartialEq, Eq)]
pub struct Shown {
    pub record: [u8; RECORD],
    pub capacity_given: bool,
}

impl Shown {
    pub fn with_capacity_given(record: [u8; RECORD]) -> Shown {
        Shown { record, capacity_given: true }
    }

    pub fn zone(&self) -> Zone {
        Zone::decode(&self.record, self.capacity_given)
    }

    /// The same zone with its capacity given, as a tape always has it.
    pub fn on_tape(&self) -> [u8; RECORD] {
        let mut record = self.record;
        record[32..40].copy_from_slice(&self.zone().capacity.to_le_bytes());
        record
    }

    /// In what it differs from the bytes that the disk itself has for the zone.
    pub fn freedoms(&self, zone: &Zone) -> [bool; FREEDOMS] {
        let shown = self.zone();
        let other_pointer = shown.pointer != zone.pointer;
        [
            shown.kind != zone.kind,
            shown.condition != zone.condition,
            other_pointer,
            !self.capacity_given,
            other_pointer && shown.condition == FULL,
        ]
    }
}

/// The zones of a report that a mount has taken.
pub fn shown_in(report: &[u8]) -> Vec<Shown> {
    let capacity_given = u32_at(report, 12) == 1;
    let (records, _) = report[HEADER..].as_chunks::<RECORD>();
    records.iter().map(|&record| Shown { record, capacity_given }).collect()
}

/// Whether the disk writes the zone at a pointer; that of any other stands nowhere.
pub fn has_pointer(zone: &Zone) -> bool {
    !zone.is_conventional() && zone.health() == Condition::Healthy
}

/// Whether the disk's pointer of a zone stands behind all that the zone can hold.
pub fn stands_at_end(zone: &Zone) -> bool {
    zone.pointer == zone.start + zone.capacity
}

/// Whether `shown` says where the disk's pointer stands: by being full, with any pointer at all, or by its pointer.
fn tells_pointer(shown: &Zone, zone: &Zone) -> bool {
    match shown.condition {
        FULL => stands_at_end(zone),
        _ => shown.pointer == zone.pointer,
    }
}

/// Whether `shown` is good input that says of `zone`, as the disk has it, what is so. Both sequential types say the
/// same, and so do the conditions 1 to 4 of a healthy sequential zone; a pointer that doesn't count may be anything.
pub fn is_true(shown: &Zone, zone: &Zone, block: u64) -> bool {
    let place = |zone: &Zone| (zone.start, zone.length, zone.capacity);
    let sort = |zone: &Zone| (zone.is_conventional(), zone.health());
    shown.is_good(block)
        && place(shown) == place(zone)
        && sort(shown) == sort(zone)
        && (!has_pointer(zone) || tells_pointer(shown, zone))
}
