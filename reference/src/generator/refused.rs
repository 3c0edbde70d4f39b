//! Mounts with faults: one for each refusal number, often several at once, so that the order shows.

use super::calls::any_call;
use super::faults::{self, point_past_capacity, REASONS, SEQUENTIAL};
use super::random::Random;
use super::records::{encode, head};
use super::shape::{self, Shape, STRAY_PERMS};
use crate::player::mount::Input;
use crate::player::superblock::{self, stamp};
use crate::player::tape::Record;
use crate::player::types::{put, Reason, DISK_LIMIT, SECTOR};
use crate::player::zone::{self, Zone, HEADER};

/// A tape with a refused mount. What follows the mount must not be looked at.
pub fn tape(random: &mut Random) -> Vec<u8> {
    let mut shape = shape::shape(random);
    // There are many ways for a zone to be bad, so they have a large share.
    let bad_zones = random.percent(62);
    if bad_zones {
        for _ in 0..random.pick(&[1, 1, 1, 2, 3]) {
            spoil_a_zone(random, &mut shape);
        }
    }
    let mut input = shape::input(random, &shape);
    let faults = random.pick(if bad_zones { &[0, 0, 0, 0, 0, 1] } else { &[1, 1, 1, 1, 2, 2, 3] });
    for _ in 0..faults {
        spoil(random, &mut input);
    }
    let mut tape = head(&input);
    if random.percent(50) {
        encode(&Record::Call(any_call(random)), &mut tape);
    }
    if random.percent(30) {
        tape.extend_from_slice(b"xx");
    }
    tape
}

pub const BAD_BLOCKS: [u16; 13] = [0, 1, 2, 16, 511, 513, 1024, 2048, 4095, 4097, 8192, 0xFE00, u16::MAX];

fn spoil(random: &mut Random, input: &mut Input) {
    // The perm's share is large, as other faults often come with it; the owner's is small, as it is one of these.
    match random.weighted(&[10, 10, 10, 10, 6, 24, 14, 30, 15]) {
        0 => input.block = random.pick(&BAD_BLOCKS),
        1 => spoil_magic(random, &mut input.super_block),
        2 => spoil_checksum(random, &mut input.super_block),
        3 => spoil_features(random, &mut input.super_block),
        4 => spoil_owner(random, &mut input.super_block),
        5 => spoil_perm_and_neighbours(random, &mut input.super_block),
        6 => spoil_tail(random, &mut input.super_block),
        7 => input.options = bad_options(random),
        _ => spoil_header(random, &mut input.report),
    }
}

pub fn spoil_magic(random: &mut Random, bytes: &mut [u8]) {
    match random.below(3) {
        0 => bytes[..4].reverse(),
        1 => bytes[..4].fill(0),
        _ => bytes[random.below(4) as usize] ^= 1 << random.below(8),
    }
    stamp(bytes);
}

pub fn spoil_checksum(random: &mut Random, bytes: &mut [u8]) {
    let right = superblock::checksum_of(bytes);
    let at = random.between(8, superblock::LENGTH as u64 - 1) as usize;
    let sum = match random.below(4) {
        // Inverted at the end, as most CRC-32 are.
        0 => !right,
        1 => right ^ (1 << random.below(32)),
        // Taken with its own field in place.
        2 => crate::player::checksum::checksum(bytes),
        _ => {
            bytes[at] ^= 1 << random.below(8);
            right
        }
    };
    put(bytes, superblock::CHECKSUM_AT, &sum.to_le_bytes());
}

/// The number of a feature bit that no feature has.
pub fn stray_feature(random: &mut Random) -> u64 {
    let any = random.between(4, 63);
    random.pick(&[4, 4, 5, 31, 32, 63, any])
}

pub fn spoil_features(random: &mut Random, bytes: &mut [u8]) {
    let bit = stray_feature(random);
    bytes[superblock::FEATURES_AT + bit as usize / 8] |= 1 << (bit % 8);
    stamp(bytes);
}

pub fn spoil_owner(random: &mut Random, bytes: &mut [u8]) {
    let (bit, at) = random.pick(&[
        (superblock::HAS_OWNER, superblock::OWNER_AT),
        (superblock::HAS_GROUP, superblock::GROUP_AT),
    ]);
    bytes[superblock::FEATURES_AT] |= bit as u8;
    put(bytes, at, &[0xFF; 4]);
    stamp(bytes);
}

/// The faults that are looked for just before and just after the perm's often come with it, so that the order shows.
fn spoil_perm_and_neighbours(random: &mut Random, bytes: &mut [u8]) {
    spoil_perm(random, bytes);
    if random.percent(30) {
        spoil_owner(random, bytes);
    }
    if random.percent(40) {
        spoil_tail(random, bytes);
    }
}

/// The lowest, which a check that is off by one would take, is the commonest.
pub fn stray_perm(random: &mut Random) -> u32 {
    let any = 1 << random.between(9, 31) | random.below(0o1000) as u32;
    let chosen = random.pick(&STRAY_PERMS);
    random.pick(&[0o1000, any, any, chosen, chosen])
}

pub fn spoil_perm(random: &mut Random, bytes: &mut [u8]) {
    let perm = stray_perm(random);
    bytes[superblock::FEATURES_AT] |= superblock::HAS_PERM as u8;
    put(bytes, superblock::PERM_AT, &perm.to_le_bytes());
    stamp(bytes);
}

pub fn spoil_tail(random: &mut Random, bytes: &mut [u8]) {
    let at = match random.below(3) {
        0 => superblock::TAIL_AT,
        1 => superblock::LENGTH - 1,
        _ => random.between(superblock::TAIL_AT as u64, superblock::LENGTH as u64 - 1) as usize,
    };
    bytes[at] |= 1 << random.below(8);
    stamp(bytes);
}

fn spoil_header(random: &mut Random, report: &mut Vec<u8>) {
    match random.below(3) {
        0 => {
            let sector = random.pick(&[1, 8, 1 << 40, u64::MAX, 1 << 32]);
            put(report, 0, &sector.to_le_bytes());
        }
        1 => {
            // No zones follow a count that no report can have.
            let count: u32 = random.pick(&[0, 0, 1024, 1025, 65_536, u32::MAX, 1 << 31]);
            put(report, 8, &count.to_le_bytes());
            report.truncate(HEADER);
        }
        _ => {
            let bit = random.between(1, 31) as usize;
            report[12 + bit / 8] |= 1 << (bit % 8);
        }
    }
}

/// Each is wrong in its own way.
const BAD_OPTIONS: [&str; 48] = [
    "errors=",
    "errors",
    "errors=x",
    "errors=repair ",
    " errors=repair",
    "Errors=repair",
    "errors=REPAIR",
    "errors=repair,x",
    "x,errors=repair",
    "errors=repair\0",
    "errors=repairs",
    "errors=repai",
    "error=repair",
    "errors=zone-ro;errors=repair",
    "errors=remount_ro",
    "errors=errors=repair",
    "errors=repair=",
    "errors=zone-",
    "errors=zone-off",
    "repair",
    "=repair",
    "errors:repair",
    "errors=remount-ro,errors=",
    " ",
    "\0",
    ", ,",
    "errors=repair,errors=zone-r",
    "errors=zone-offlin",
    "errors==repair",
    "explicit-open ",
    " explicit-open",
    "Explicit-open",
    "EXPLICIT-OPEN",
    "explicit-Open",
    "explicit-openx",
    "explicit-open\0",
    "explicit-open=",
    "explicit-open=1",
    "explicit_open",
    "explicit-open;errors=repair",
    "explicit-openerrors=repair",
    "explicit-openexplicit-open",
    "explicit-open,explicit",
    "explicit-open,errors=",
    "errors=explicit-open",
    "no-explicit-open",
    "errors=repair,explicit-ope",
    "explicit-open,errors=repair,x",
];

pub fn bad_options(random: &mut Random) -> Vec<u8> {
    if random.percent(65) {
        return random.pick(&BAD_OPTIONS).as_bytes().to_vec();
    }
    if random.percent(50) {
        return bad_explicit_open(random);
    }
    let mut noise = vec![0; random.between(1, 255) as usize];
    random.fill(&mut noise);
    // Commas alone would be good options.
    noise[0] = b'e';
    if random.percent(50) {
        noise[1..].fill(b',');
    }
    noise
}

/// The option cut short, or with a bit flipped, alone or between good pieces.
fn bad_explicit_open(random: &mut Random) -> Vec<u8> {
    let mut piece = b"explicit-open".to_vec();
    if random.percent(50) {
        piece.truncate(random.between(1, 12) as usize);
    } else {
        piece[random.below(13) as usize] ^= 1 << random.below(8);
    }
    let (front, back): (&[u8], &[u8]) = random.pick(&[
        (b"", b""),
        (b"explicit-open,", b""),
        (b"errors=repair,", b","),
        (b"", b",errors=zone-ro"),
        (b",,", b",explicit-open"),
    ]);
    [front, &piece, back].concat()
}

/// Makes one zone of a report bad. There is one.
pub fn spoil_a_zone(random: &mut Random, shape: &mut Shape) {
    let number = match random.below(4) {
        0 => 0,
        1 => shape.zones.len() - 1,
        _ => random.below(shape.zones.len() as u64) as usize,
    };
    let step = u64::from(shape.block) / SECTOR;
    spoil_zone_of_report(random, &mut shape.zones[number], step, &mut shape.capacity_given);
}

/// Puts faults into a zone, mostly of chosen reasons. `step` is a block in sectors.
pub fn spoil_zone_of_report(random: &mut Random, zone: &mut Zone, step: u64, capacity_given: &mut bool) {
    if random.percent(25) {
        spoil_zone(random, zone, step);
        return;
    }
    let chosen = faults::choose(random, &REASONS[..7]);
    faults::put(random, zone, step, &chosen);
    // Without its flag no capacity is looked at.
    *capacity_given |= chosen.contains(&Reason::Capacity);
}

/// Puts one fault into a zone. Some faults are none for the zone they meet: a near miss is worth as much.
pub fn spoil_zone(random: &mut Random, zone: &mut Zone, step: u64) {
    match random.weighted(&[15, 15, 20, 15, 35, 10]) {
        0 => spoil_place(random, zone, step),
        1 => spoil_capacity(random, zone, step),
        2 => spoil_type(random, zone),
        3 => spoil_pointer(random, zone, step),
        4 => {
            zone.kind = random.pick(&SEQUENTIAL);
            zone.condition = random.between(1, 4) as u8;
            point_past_capacity(random, zone, step);
        }
        _ => {
            let value = random.extreme();
            match random.below(4) {
                0 => zone.start = value,
                1 => zone.length = value,
                2 => zone.capacity = value,
                _ => zone.pointer = value,
            }
        }
    }
}

fn spoil_place(random: &mut Random, zone: &mut Zone, step: u64) {
    match random.below(7) {
        0 => zone.start = zone.start.wrapping_add(step),
        1 => zone.start = zone.start.wrapping_sub(step),
        2 => zone.start = zone.start.wrapping_add(1),
        3 => zone.length = 0,
        4 => zone.length = zone.length.wrapping_add(1),
        // One block past the end of any disk, and a length whose sum with the start wraps.
        5 => {
            zone.length = DISK_LIMIT.wrapping_sub(zone.start).wrapping_add(step);
            zone.capacity = random.pick(&[zone.capacity, zone.length]);
        }
        _ => {
            zone.length = zone.start.wrapping_neg();
            zone.capacity = random.pick(&[zone.capacity, zone.length]);
        }
    }
}

fn spoil_capacity(random: &mut Random, zone: &mut Zone, step: u64) {
    zone.capacity = match random.below(5) {
        0 => 0,
        1 => zone.capacity.wrapping_add(1),
        2 => zone.length.wrapping_add(step),
        3 => zone.capacity.wrapping_sub(step),
        _ => zone.start.wrapping_neg(),
    };
}

fn spoil_type(random: &mut Random, zone: &mut Zone) {
    if random.percent(40) {
        zone.kind = random.pick(&[0, 1, 2, 3, 4, 255]);
    } else {
        zone.condition = random.pick(&[0, 1, 4, 5, 12, 13, 14, 15, 16, 255]);
    }
}

fn spoil_pointer(random: &mut Random, zone: &mut Zone, step: u64) {
    if random.percent(70) {
        zone.kind = random.pick(&SEQUENTIAL);
        // No pointer is a fault with one of the last three.
        zone.condition = random.pick(&[1, 2, 3, 4, 1, 2, 3, 4, zone::READ_ONLY, zone::FULL, zone::OFFLINE]);
    }
    let end = zone.start.wrapping_add(zone.capacity);
    zone.pointer = match random.below(7) {
        0 => zone.start.wrapping_sub(step),
        1 => zone.start.wrapping_add(1),
        2 => end.wrapping_add(step),
        3 => end.wrapping_sub(step),
        4 => end.wrapping_sub(1),
        5 => random.pick(&[0, u64::MAX]),
        _ => end,
    };
}
