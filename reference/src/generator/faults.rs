//! Zones with faults of chosen reasons, often of several at once, so that the order of the reasons shows.

use super::random::Random;
use crate::player::types::{Reason, DISK_LIMIT};
use crate::player::zone::{self, Zone};

/// What a zone can be bad for: the first seven in a report, all but the first in a failed command's record.
pub const REASONS: [Reason; 9] = [
    Reason::Start,
    Reason::Length,
    Reason::Capacity,
    Reason::End,
    Reason::Type,
    Reason::Condition,
    Reason::Pointer,
    Reason::OtherZone,
    Reason::BetterCondition,
];

pub const SEQUENTIAL: [u8; 2] = [zone::SEQUENTIAL_REQUIRED, zone::SEQUENTIAL_PREFERRED];
pub const CONVENTIONAL_CONDITIONS: [u8; 3] = [zone::NOT_WRITE_POINTER, zone::READ_ONLY, zone::OFFLINE];
const UNKNOWN_TYPES: [u8; 6] = [0, 4, 5, 18, 128, 255];
/// Conditions that no type of zone has.
const UNKNOWN_CONDITIONS: [u8; 6] = [5, 7, 12, 16, 130, 255];

/// Any of these faults, which stand in the order of their checks: alone, with the next one, or with some of those that
/// come after it.
pub fn choose<T: Copy>(random: &mut Random, faults: &[T]) -> Vec<T> {
    let mut rest = faults[random.below(faults.len() as u64) as usize..].iter().copied();
    let first = rest.next();
    match random.weighted(&[10, 70, 20]) {
        0 => first.into_iter().collect(),
        1 => first.into_iter().chain(rest.next()).collect(),
        _ => first.into_iter().chain(rest.filter(|_| random.percent(50))).collect(),
    }
}

/// Puts faults of these reasons into a good zone, as far as one zone can have them together. `step` is a block in
/// sectors. Faults of other reasons come along where they must: no capacity is good in a zone of no length.
pub fn put(random: &mut Random, zone: &mut Zone, step: u64, faults: &[Reason]) {
    let wanted = |reason: Reason| faults.contains(&reason);
    // The one fault of a capacity that lies in the type.
    let too_small = wanted(Reason::Capacity)
        && !wanted(Reason::Type)
        && !wanted(Reason::Pointer)
        && (zone.is_conventional() || random.percent(30));
    if too_small {
        zone.kind = zone::CONVENTIONAL;
        zone.condition = random.pick(&CONVENTIONAL_CONDITIONS);
    }
    put_type_and_condition(random, zone, faults);
    if wanted(Reason::Start) {
        zone.start = other_start(random, zone.start, step);
    }
    put_length(random, zone, step, faults);
    if too_small && random.percent(80) {
        zone.capacity = smaller_capacity(random, zone, step);
    } else if wanted(Reason::Capacity) {
        let length_is_free = !wanted(Reason::Length) && !wanted(Reason::End);
        put_capacity(random, zone, step, length_is_free);
    }
    if wanted(Reason::Pointer) {
        put_pointer(random, zone, step);
    }
}

fn put_type_and_condition(random: &mut Random, zone: &mut Zone, faults: &[Reason]) {
    let wanted = |reason: Reason| faults.contains(&reason);
    if wanted(Reason::Type) {
        zone.kind = random.pick(&UNKNOWN_TYPES);
        zone.condition = random.pick(&[0, 1, 2, 3, 4, 13, 14, 15]);
    }
    if wanted(Reason::Pointer) {
        // The pointer counts, in a sequential zone.
        zone.condition = random.between(1, 4) as u8;
        if !wanted(Reason::Type) {
            zone.kind = random.pick(&SEQUENTIAL);
        }
    }
    if wanted(Reason::Condition) && wanted(Reason::Pointer) && !wanted(Reason::Type) && random.percent(20) {
        // By its condition alone the pointer would count.
        zone.kind = zone::CONVENTIONAL;
        zone.capacity = zone.length;
    } else if wanted(Reason::Condition) {
        zone.condition = bad_condition(random, zone.kind);
    }
}

/// Half of them are good for another type, if the type is known.
fn bad_condition(random: &mut Random, kind: u8) -> u8 {
    let of_other_types: &[u8] = match kind {
        zone::CONVENTIONAL => &[1, 2, 3, 4, zone::FULL],
        zone::SEQUENTIAL_REQUIRED | zone::SEQUENTIAL_PREFERRED => &[zone::NOT_WRITE_POINTER],
        _ => &UNKNOWN_CONDITIONS,
    };
    let conditions = if random.percent(50) { of_other_types } else { &UNKNOWN_CONDITIONS };
    random.pick(conditions)
}

fn other_start(random: &mut Random, start: u64, step: u64) -> u64 {
    match random.below(6) {
        0 => start.wrapping_add(step),
        1 => start.wrapping_sub(step),
        2 => start.wrapping_add(1),
        3 if start != 0 => 0,
        4 => DISK_LIMIT,
        _ => random.extreme(),
    }
}

/// A conventional zone's capacity goes with its length; a sequential one's stays, as it is its file's.
fn put_length(random: &mut Random, zone: &mut Zone, step: u64, faults: &[Reason]) {
    let off_block = step > 1 && random.percent(70);
    let length = match (faults.contains(&Reason::Length), faults.contains(&Reason::End)) {
        (false, false) => return,
        (true, false) if !off_block => 0,
        (true, false) => random.pick(&[zone.length.wrapping_add(1), zone.length.wrapping_sub(1)]),
        (true, true) if step > 1 => long_length(random, zone.start, step) + 1,
        // Every length is whole blocks, and nothing doesn't reach the limit.
        (true, true) => 0,
        (false, true) => long_length(random, zone.start, step),
    };
    zone.length = length;
    if zone.is_conventional() {
        zone.capacity = length;
    }
}

/// Whole blocks, at least one of them past the end of any disk; some such that the sum with the start wraps.
fn long_length(random: &mut Random, start: u64, step: u64) -> u64 {
    let whole = |sectors: u64| sectors / step * step;
    match random.below(4) {
        0 | 1 => whole(DISK_LIMIT.saturating_sub(start)) + step,
        2 => whole(start.wrapping_neg()).max(1 << 63),
        _ => whole(random.pick(&[u64::MAX, 1 << 63, 1 << 41])),
    }
}

/// Whole blocks, but fewer than the length of a conventional zone.
fn smaller_capacity(random: &mut Random, zone: &mut Zone, step: u64) -> u64 {
    if zone.length == step {
        zone.length = 2 * step;
    }
    let most = (zone.length / step).saturating_sub(1).max(1);
    let any = random.between(1, most);
    random.pick(&[1, most, any]) * step
}

fn put_capacity(random: &mut Random, zone: &mut Zone, step: u64, length_is_free: bool) {
    let whole = zone.capacity / step * step;
    match random.below(4) {
        0 => zone.capacity = 0,
        1 if step > 1 => zone.capacity = random.pick(&[whole + 1, whole.saturating_sub(1)]),
        // With the capacity of its file a record has no other fault.
        2 if length_is_free && whole > step => zone.length = whole - step,
        _ => zone.capacity = zone.length.saturating_add(step),
    }
}

/// Outside of what the zone holds, or off the block.
fn put_pointer(random: &mut Random, zone: &mut Zone, step: u64) {
    let end = zone.start.wrapping_add(zone.capacity);
    zone.pointer = match random.below(7) {
        0 => zone.start.wrapping_sub(step),
        1 if step > 1 => zone.start.wrapping_add(1),
        2 if step > 1 => end.wrapping_sub(1),
        3 => random.pick(&[zone.start.wrapping_sub(1), u64::MAX]),
        4 => end.wrapping_add(step),
        _ => return point_past_capacity(random, zone, step),
    };
}

/// To the end of a zone that holds less than its length.
pub fn point_past_capacity(random: &mut Random, zone: &mut Zone, step: u64) {
    if zone.capacity == zone.length {
        // A failed command's record must keep its file's capacity, and a zone of a report its length.
        match random.below(2) {
            0 => zone.length = zone.length.wrapping_add(step),
            _ => zone.capacity = zone.capacity.wrapping_sub(step),
        }
    }
    zone.pointer = zone.start.wrapping_add(zone.length);
}
