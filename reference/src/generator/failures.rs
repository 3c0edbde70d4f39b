//! Zone records that come with a failed completion: the disk's own, plausible, damaged, or noise.

use super::faults::{self, CONVENTIONAL_CONDITIONS, REASONS, SEQUENTIAL};
use super::random::Random;
use super::refused::spoil_zone;
use super::shape::{any_pointer, encode_zone, report_header};
use crate::disk::truth::Shown;
use crate::player::types::{
    Command, Condition, FileKind, Operation, Outstanding, Reason, Row, Volume, DISK_LIMIT, SECTOR,
};
use crate::player::zone::{self, Zone, RECORD};

/// The zone with the disk's own type and condition. Where a pointer means nothing the disk may put anything there.
pub fn own_record(random: &mut Random, zone: &Zone) -> Shown {
    let mut shown = *zone;
    if !zone.pointer_counts() {
        shown.pointer = any_pointer(random, zone);
    }
    Shown::with_capacity_given(encode_zone(random, &shown))
}

/// A report of all zones, each as in its own record.
pub fn own_report(random: &mut Random, zones: &[Zone]) -> Vec<u8> {
    let mut report = report_header(zones.len(), true);
    zones.iter().for_each(|zone| report.extend_from_slice(&own_record(random, zone).record));
    report
}

/// A record that fits the file of a command, mostly.
pub fn plausible_record(random: &mut Random, volume: &Volume, of: &Outstanding) -> [u8; RECORD] {
    let zone = plausible_zone(random, volume, of);
    encode_zone(random, &zone)
}

/// The same with faults: mostly of chosen reasons, often of several.
pub fn damaged_record(random: &mut Random, volume: &Volume, of: &Outstanding) -> [u8; RECORD] {
    let step = volume.mount.block / SECTOR;
    let row = volume.row(of.kind, of.number);
    let mut zone = plausible_zone(random, volume, of);
    if random.percent(25) {
        spoil_zone(random, &mut zone, step);
        return encode_zone(random, &zone);
    }
    let possible = match row.condition {
        // Nothing is better than healthy.
        Condition::Healthy => &REASONS[1..8],
        // Few records come for such a file, and the last reason for no other.
        _ if random.percent(70) => &REASONS[6..],
        _ => &REASONS[1..],
    };
    let chosen = faults::choose(random, possible);
    if chosen.contains(&Reason::BetterCondition) {
        make_healthy(random, &mut zone);
    }
    if chosen.contains(&Reason::OtherZone) {
        match of.kind {
            FileKind::Sequential => leave_sequential_file(random, &mut zone, step),
            FileKind::Conventional => leave_conventional_file(random, &mut zone, row, step),
        }
    }
    faults::put(random, &mut zone, step, &chosen);
    encode_zone(random, &zone)
}

/// That betters a sequential file's zone, if it was ill. A conventional file's may be another one than that which is.
fn make_healthy(random: &mut Random, zone: &mut Zone) {
    if zone.is_conventional() {
        zone.condition = zone::NOT_WRITE_POINTER;
    } else {
        zone.condition = random.pick(&[1, 2, 3, 4, zone::FULL]);
        zone.pointer = random.pick(&[zone.start, zone.start + zone.capacity]);
    }
}

/// Makes a sequential file's zone another one, good in itself but for a pointer that may be off the block.
fn leave_sequential_file(random: &mut Random, zone: &mut Zone, step: u64) {
    match random.below(5) {
        0 if step > 1 => {
            move_to(zone, zone.start.wrapping_add(random.pick(&[1, step / 2, step - 1])));
            if random.percent(50) {
                zone.pointer = zone.pointer.checked_next_multiple_of(step).unwrap_or(0);
            }
        }
        0 | 1 => {
            move_to(zone, random.pick(&[0, zone.start.wrapping_add(step), zone.start.wrapping_sub(step)]))
        }
        2 => {
            zone.capacity += step;
            zone.length = zone.length.max(zone.capacity);
        }
        3 if zone.capacity > step => {
            zone.capacity -= step;
            zone.pointer = zone.pointer.min(zone.start + zone.capacity);
        }
        _ => {
            zone.kind = zone::CONVENTIONAL;
            zone.condition = random.pick(&CONVENTIONAL_CONDITIONS);
            zone.length = zone.capacity;
        }
    }
}

/// The pointer goes along.
fn move_to(zone: &mut Zone, start: u64) {
    zone.pointer = zone.pointer.wrapping_sub(zone.start).wrapping_add(start);
    zone.start = start;
}

/// Makes a conventional file's zone another one, good in itself.
fn leave_conventional_file(random: &mut Random, zone: &mut Zone, row: &Row, step: u64) {
    let end = row.start + row.capacity / SECTOR;
    match random.below(4) {
        0 => zone.start = row.start.wrapping_sub(random.pick(&[1, step, zone.length])),
        1 => zone.start = random.pick(&[end, end - 1, end + step]),
        2 => zone.length = end - zone.start + step,
        _ => {
            zone.kind = random.pick(&SEQUENTIAL);
            zone.condition = random.pick(&[1, 2, 3, 4, zone::READ_ONLY, zone::FULL, zone::OFFLINE]);
            zone.pointer = random.pick(&[zone.start, zone.start + zone.length]);
        }
    }
    zone.capacity = zone.length;
}

fn plausible_zone(random: &mut Random, volume: &Volume, of: &Outstanding) -> Zone {
    let row = volume.row(of.kind, of.number);
    let step = volume.mount.block / SECTOR;
    match of.kind {
        FileKind::Sequential => sequential_zone(random, row, step, &of.command),
        FileKind::Conventional => conventional_zone(random, row, step),
    }
}

fn sequential_zone(random: &mut Random, row: &Row, step: u64, command: &Command) -> Zone {
    let capacity = row.capacity / SECTOR;
    let spare = if random.percent(50) { step * random.between(1, 4) } else { 0 };
    let length = (capacity + spare).min(DISK_LIMIT - row.start);
    // Often full where a wrong size would show: in a full file, and after a read, whose test looks at the size.
    let often_full = row.size == row.capacity || command.operation == Operation::Read;
    let condition = if often_full && random.percent(50) {
        zone::FULL
    } else {
        random.pick(&[1, 2, 3, 4, 13, 14, 15, 2, 2, 13])
    };
    let written = match random.weighted(&[40, 20, 20, 10, 10]) {
        0 => row.size / SECTOR,
        1 => (row.size + command.length).min(row.capacity) / SECTOR / step * step,
        2 => random.below(capacity / step.max(1) + 1) * step,
        3 => 0,
        _ => capacity,
    };
    let pointer = row.start + written;
    let kind = random.pick(&SEQUENTIAL);
    let zone = Zone { start: row.start, length, pointer, kind, condition, capacity };
    // Most pointers that are ignored stand where they would be good, often at the size.
    if zone.pointer_counts() || random.percent(60) {
        return zone;
    }
    Zone { pointer: any_pointer(random, &zone), ..zone }
}

/// Any part of the file may be the zone that is reported, on the block or not.
fn conventional_zone(random: &mut Random, row: &Row, step: u64) -> Zone {
    let blocks = row.capacity / SECTOR / step.max(1);
    let skipped = random.below(blocks);
    let most = blocks - skipped;
    let length = step * if random.percent(60) { most } else { random.between(1, most.max(1)) };
    let off = u64::from(random.percent(10));
    let condition = random.pick(&[0, 0, 13, 15]);
    let pointer = random.pick(&[0, row.start, u64::MAX]);
    let start = row.start + skipped * step + off;
    Zone { start, length, pointer, kind: zone::CONVENTIONAL, condition, capacity: length }
}

/// Any 64 bytes.
pub fn noise_record(random: &mut Random) -> [u8; RECORD] {
    let mut record = [0; RECORD];
    random.fill(&mut record);
    record
}
