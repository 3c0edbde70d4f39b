//! The disk's zones in bytes that are true of them. Many are; each of them may be drawn.

use super::random::Random;
use super::shape::{any_pointer, encode_zone, report_header};
use crate::disk::truth::{has_pointer, stands_at_end, Shown};
use crate::player::zone::{self, Zone, RECORD};

/// The record that a failed command carries.
pub fn record(random: &mut Random, zone: &Zone) -> Shown {
    let capacity_given = needs_capacity(zone) || random.percent(50);
    Shown { record: bytes(random, zone, capacity_given), capacity_given }
}

/// A report of all zones. Its flag stands for all of them.
pub fn report(random: &mut Random, zones: &[Zone]) -> Vec<u8> {
    let capacity_given = zones.iter().any(needs_capacity) || random.percent(50);
    let mut report = report_header(zones.len(), capacity_given);
    zones.iter().for_each(|zone| report.extend_from_slice(&bytes(random, zone, capacity_given)));
    report
}

/// Without a capacity the length is taken for it, as it is in every conventional zone.
fn needs_capacity(zone: &Zone) -> bool {
    zone.capacity != zone.length
}

fn bytes(random: &mut Random, zone: &Zone, capacity_given: bool) -> [u8; RECORD] {
    let mut shown = Zone { kind: kind(random, zone), condition: condition(random, zone), ..*zone };
    if !shown.pointer_counts() {
        shown.pointer = any_pointer(random, zone);
    }
    if !capacity_given {
        shown.capacity = any_number(random, zone);
    }
    encode_zone(random, &shown)
}

/// Both sequential types say the same, whichever the first report had.
fn kind(random: &mut Random, zone: &Zone) -> u8 {
    if zone.is_conventional() {
        zone::CONVENTIONAL
    } else {
        random.pick(&[zone::SEQUENTIAL_REQUIRED, zone::SEQUENTIAL_PREFERRED])
    }
}

/// Of a healthy sequential zone 1 to 4 are true wherever its pointer stands, 14 at the end alone.
fn condition(random: &mut Random, zone: &Zone) -> u8 {
    if !has_pointer(zone) {
        return zone.condition;
    }
    if stands_at_end(zone) && random.percent(50) {
        return zone::FULL;
    }
    random.between(1, 4) as u8
}

/// For a field that means nothing: one that would mean something, or any.
fn any_number(random: &mut Random, zone: &Zone) -> u64 {
    let (any, extreme) = (random.word(), random.extreme());
    let end = zone.start + zone.capacity;
    random.pick(&[0, zone.start, zone.start + 1, end, zone.length, zone.pointer, u64::MAX, any, extreme])
}
