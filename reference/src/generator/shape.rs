//! Good mounts of many shapes.

use super::random::Random;
use crate::player::mount::Input;
use crate::player::types::{put, DISK_LIMIT, SECTOR};
use crate::player::zone::{Zone, HEADER, RECORD};
use crate::player::{options, superblock, zone};

/// Perms that are good in use; the last is the highest.
pub const MODES: [u32; 3] = [0, 0o640, 0o777];
/// Perms that aren't: with the lowest of the stray bits, with a few of them, with one further up, with all.
pub const STRAY_PERMS: [u32; 7] = [0o1000, 0o1777, 0o7777, 1 << 16, 1 << 31, 1 << 31 | 0o640, u32::MAX];

/// The values of a good mount before they become bytes, so that a fault can be put into one of them.
pub struct Shape {
    pub block: u16,
    pub capacity_given: bool,
    pub zones: Vec<Zone>,
    pub features: u64,
    pub options: Vec<u8>,
    pub open_limit: u32,
    pub active_limit: u32,
}

pub fn shape(random: &mut Random) -> Shape {
    with_zones(random, zone_count)
}

/// As many zones as `count` says.
pub fn with_zones(random: &mut Random, count: impl Fn(&mut Random) -> u64) -> Shape {
    let block = random.pick(&[512, 4096]);
    let capacity_given = random.percent(70);
    let count = count(random);
    let zones = zones(random, u64::from(block) / SECTOR, count, capacity_given);
    let (open_limit, active_limit) = limits(random, &zones);
    let (features, options) = (random.below(16), good_options(random));
    Shape { block, capacity_given, zones, features, options, open_limit, active_limit }
}

/// The disk's zones as bytes: every byte that must be ignored is noise.
pub fn input(random: &mut Random, shape: &Shape) -> Input {
    Input {
        block: shape.block,
        super_block: super_block(random, shape.features),
        report: report(random, shape),
        options: shape.options.clone(),
        open_limit: shape.open_limit,
        active_limit: shape.active_limit,
    }
}

fn zone_count(random: &mut Random) -> u64 {
    match random.weighted(&[4, 56, 28, 9, 3]) {
        0 => 1,
        1 => random.between(2, 6),
        2 => random.between(7, 20),
        3 => random.between(21, 100),
        _ => random.between(1021, 1023),
    }
}

/// Like most disks: zones of one length, conventional ones together; and unlike: everything at random.
fn zones(random: &mut Random, step: u64, count: u64, capacity_given: bool) -> Vec<Zone> {
    let common = zone_length(random, step);
    let (same_length, stay, ill) =
        (random.percent(60), random.pick(&[0, 60, 90]), random.pick(&[0, 0, 10, 30]));
    let mut conventional = random.percent(60);
    let mut start = 0;
    let mut zones = Vec::new();
    for number in 0..count {
        if !random.percent(stay) {
            conventional = random.percent(40);
        }
        let length = if same_length { common } else { zone_length(random, step) };
        // The last zone sometimes ends at the very limit.
        let last = number + 1 == count;
        let length = if last && random.percent(8) { DISK_LIMIT - start } else { length };
        let mut zone = Zone { start, length, pointer: 0, kind: 0, condition: 0, capacity: length };
        if conventional {
            make_conventional(random, &mut zone, ill);
        } else {
            make_sequential(random, &mut zone, step, ill, capacity_given);
        }
        start += length;
        zones.push(zone);
    }
    zones
}

pub fn zone_length(random: &mut Random, step: u64) -> u64 {
    let blocks = match random.weighted(&[45, 30, 15, 10]) {
        0 => random.between(1, 6),
        1 => random.between(7, 64),
        2 => random.between(65, 100_000),
        _ => 65_536,
    };
    blocks * step
}

pub fn make_conventional(random: &mut Random, zone: &mut Zone, ill: u64) {
    zone.kind = zone::CONVENTIONAL;
    zone.condition = ill_or(random, ill / 3, zone::NOT_WRITE_POINTER);
    zone.pointer = random.pick(&[0, zone.start, u64::MAX]);
}

pub fn make_sequential(random: &mut Random, zone: &mut Zone, step: u64, ill: u64, capacity_given: bool) {
    zone.kind = random.pick(&[zone::SEQUENTIAL_REQUIRED, zone::SEQUENTIAL_PREFERRED]);
    if capacity_given && random.percent(60) {
        zone.capacity = random.between(1, zone.length / step) * step;
    }
    let blocks = zone.capacity / step;
    let written = match random.weighted(&[35, 15, 25, 25]) {
        0 => 0,
        1 => blocks,
        2 => random.below(blocks + 1).min(3),
        _ => random.below(blocks + 1),
    };
    zone.pointer = zone.start + written * step;
    let open = if written == blocks && random.percent(70) {
        zone::FULL
    } else {
        // Any of the four is good at any pointer, also at the end.
        random.between(1, 4) as u8
    };
    zone.condition = ill_or(random, ill, open);
    if !zone.pointer_counts() {
        zone.pointer = any_pointer(random, zone);
    }
}

/// For a pointer that is ignored: where it could stand, just beside that, and anywhere else.
pub fn any_pointer(random: &mut Random, zone: &Zone) -> u64 {
    let end = zone.start + zone.capacity;
    match random.below(11) {
        0 => 0,
        1 => u64::MAX,
        2 => zone.start,
        3 => zone.pointer,
        4 => end,
        // Eight sectors are whole blocks, whichever block the disk has.
        5 => zone.start + random.below(zone.capacity) / 8 * 8,
        6 => random.pick(&[zone.start + 1, end.wrapping_sub(1)]),
        7 => random.pick(&[zone.start.wrapping_sub(1), zone.start.wrapping_sub(8)]),
        8 => zone.start + zone.length,
        9 => random.word(),
        _ => random.extreme(),
    }
}

fn ill_or(random: &mut Random, percent: u64, healthy: u8) -> u8 {
    if random.percent(percent) {
        random.pick(&[zone::READ_ONLY, zone::OFFLINE])
    } else {
        healthy
    }
}

/// None, low ones that are soon met, those that the mount meets or lies above already, and those that nothing meets. Often
/// both are low, as the order of 11 and 12 shows only there.
fn limits(random: &mut Random, zones: &[Zone]) -> (u32, u32) {
    let files = zones.iter().skip(1).filter(|zone| !zone.is_conventional());
    let begun = |zone: &&Zone| {
        let written =
            zone.pointer_counts() && (zone.start + 1..zone.start + zone.capacity).contains(&zone.pointer);
        written && zone.condition != zone::FULL
    };
    let (all, active) = (files.clone().count() as u32, files.filter(begun).count() as u32);
    if random.percent(15) {
        return (
            random.pick(&[1, 1, 2]),
            random.pick(&[1, active.max(1), active + 1, active + 1, active + 2]),
        );
    }
    let limit = |random: &mut Random, now: u32| match random.weighted(&[54, 6, 8, 8, 10, 6, 8]) {
        0 => 0,
        1 => 1,
        2 => 2,
        // 0 means none.
        3 => now,
        4 => now + random.between(1, 4) as u32,
        5 => now.saturating_sub(1),
        _ => random.pick(&[all, all.saturating_sub(1), 1022, 65_536, 1 << 31, u32::MAX]),
    };
    (limit(random, 2), limit(random, active))
}

const EXPLICIT_OPEN: &str = "explicit-open";

fn good_options(random: &mut Random) -> Vec<u8> {
    let policies = policies(random);
    let text = if random.percent(50) { with_explicit_open(random, &policies) } else { policies };
    text.into_bytes()
}

/// The piece stands anywhere among the others, now and then again. Some of the others go if there are too many.
fn with_explicit_open(random: &mut Random, policies: &str) -> String {
    if policies.is_empty() {
        return EXPLICIT_OPEN.to_string();
    }
    let mut pieces: Vec<&str> = policies.split(',').collect();
    for _ in 0..random.pick(&[1, 1, 1, 1, 2, 3]) {
        pieces.insert(random.between(0, pieces.len() as u64) as usize, EXPLICIT_OPEN);
    }
    while pieces.join(",").len() > options::MAX_LENGTH {
        let policy = pieces.iter().position(|&piece| piece != EXPLICIT_OPEN);
        pieces.remove(policy.unwrap_or(0));
    }
    let text = pieces.join(",");
    // As long as they can be, if they were.
    let width = if policies.len() == options::MAX_LENGTH { options::MAX_LENGTH } else { 0 };
    format!("{text:,<width$}")
}

fn policies(random: &mut Random) -> String {
    // Repair leaves files usable after a failure, so it has the longest stories to tell.
    let piece = |random: &mut Random| {
        let all = ["errors=remount-ro", "errors=zone-ro", "errors=zone-offline", "errors=repair"];
        all[random.weighted(&[20, 20, 20, 40])]
    };
    match random.weighted(&[8, 70, 12, 6, 4]) {
        0 => String::new(),
        1 => piece(random).to_string(),
        2 => format!("{},{}", piece(random), piece(random)),
        3 => format!(",,{},,,{},", piece(random), piece(random)),
        _ => {
            let mut long = piece(random).to_string();
            while long.len() + 20 < 255 {
                long = format!("{long},{}", piece(random));
            }
            format!("{long:,<255}")
        }
    }
}

pub fn super_block(random: &mut Random, features: u64) -> Vec<u8> {
    let mut bytes = vec![0; superblock::LENGTH];
    random.fill(&mut bytes[8..superblock::TAIL_AT]);
    bytes[..4].copy_from_slice(&superblock::MAGIC.to_le_bytes());
    put(&mut bytes, superblock::FEATURES_AT, &features.to_le_bytes());
    for (bit, at) in
        [(superblock::HAS_OWNER, superblock::OWNER_AT), (superblock::HAS_GROUP, superblock::GROUP_AT)]
    {
        let used = features & bit != 0;
        // An id that isn't in use may be anything; one that is may be anything but all ones.
        let id = if used { random.pick(&[0, 1000, u32::MAX - 1]) } else { random.pick(&[0, 7, u32::MAX]) };
        put(&mut bytes, at, &id.to_le_bytes());
    }
    let perm = if features & superblock::HAS_PERM != 0 {
        random.pick(&MODES)
    } else {
        random.pick(&[&MODES[..], &STRAY_PERMS].concat())
    };
    put(&mut bytes, superblock::PERM_AT, &perm.to_le_bytes());
    superblock::stamp(&mut bytes);
    bytes
}

fn report(random: &mut Random, shape: &Shape) -> Vec<u8> {
    let mut bytes = report_header(shape.zones.len(), shape.capacity_given);
    for zone in &shape.zones {
        let mut record = encode_zone(random, zone);
        if !shape.capacity_given {
            put(&mut record, 32, &random.pick(&[0, zone.length, u64::MAX]).to_le_bytes());
        }
        bytes.extend_from_slice(&record);
    }
    bytes
}

pub fn report_header(zones: usize, capacity_given: bool) -> Vec<u8> {
    let mut bytes = vec![0; HEADER];
    put(&mut bytes, 8, &(zones as u32).to_le_bytes());
    put(&mut bytes, 12, &u32::from(capacity_given).to_le_bytes());
    bytes
}

/// A zone record with noise in every byte that no reader may look at.
pub fn encode_zone(random: &mut Random, zone: &Zone) -> [u8; RECORD] {
    let mut record = [0; RECORD];
    random.fill(&mut record);
    put(&mut record, 0, &zone.start.to_le_bytes());
    put(&mut record, 8, &zone.length.to_le_bytes());
    put(&mut record, 16, &zone.pointer.to_le_bytes());
    record[24] = zone.kind;
    record[25] = zone.condition;
    put(&mut record, 32, &zone.capacity.to_le_bytes());
    record
}
