//! Cases for the formatter, and super blocks to be read: good ones, and bad ones, often in several ways, so that the
//! order of the checks shows.

use super::failures::noise_record;
use super::faults;
use super::random::Random;
use super::refused::{
    spoil_checksum, spoil_features, spoil_magic, spoil_owner, spoil_perm, spoil_tail, spoil_zone_of_report,
    stray_feature, stray_perm, BAD_BLOCKS,
};
use super::shape::{encode_zone, make_conventional, make_sequential, zone_length, MODES, STRAY_PERMS};
use crate::player::format::{format, FormatInput};
use crate::player::superblock::{Rights, HAS_GROUP, HAS_OWNER, HAS_PERM, LENGTH};
use crate::player::types::{put, Reason, Refusal, DISK_LIMIT, SECTOR};
use crate::player::zone::Zone;

/// What the formatter refuses, in the order of its checks. The last stands for every bad zone.
pub const FORMAT_ORDER: [Refusal; 7] = [
    Refusal::Block,
    Refusal::SuperBlockLength,
    Refusal::Features,
    Refusal::Owner,
    Refusal::Perm,
    Refusal::Label,
    BAD_RECORD,
];
const BAD_RECORD: Refusal = Refusal::BadZone { zone: 0, reason: Reason::NoRecord };

/// What is refused of a super block that is read, in the order of the checks.
pub const READ_ORDER: [Refusal; 7] = [
    Refusal::SuperBlockLength,
    Refusal::Magic,
    Refusal::Checksum,
    Refusal::Features,
    Refusal::Owner,
    Refusal::Perm,
    Refusal::Tail,
];

/// Lengths that no super block has.
pub const BAD_LENGTHS: [usize; 12] = [0, 1, 4, 107, 108, 512, 4095, 4095, 4095, 4097, 4097, 8192];
/// Lengths that no label has. The least, which a check that is off by one would take, is the commonest.
const LONG_LABELS: [usize; 12] = [65, 65, 65, 66, 66, 127, 128, 255, 256, 320, 4096, 65_536];
/// Lengths that no zone's record has.
const BAD_RECORDS: [usize; 14] = [0, 1, 8, 24, 25, 26, 32, 39, 40, 63, 63, 65, 65, 128];
/// So many in a hundred sequential zones are read-only or offline.
const ILL: u64 = 30;

#[derive(Clone, Debug, PartialEq, Eq)]
pub struct FormatCase {
    pub block: u64,
    /// The lent block, full of noise: what is left, and what is written, shows.
    pub lent: Vec<u8>,
    pub label: Vec<u8>,
    pub uuid: [u8; 16],
    pub features: u64,
    pub owner: u32,
    pub group: u32,
    pub mode: u32,
    pub record: Vec<u8>,
    pub given: bool,
}

impl FormatCase {
    pub fn input(&self) -> FormatInput<'_> {
        FormatInput {
            block: self.block,
            label: &self.label,
            uuid: self.uuid,
            features: self.features,
            owner: self.owner,
            group: self.group,
            mode: self.mode,
            record: &self.record,
            given: self.given,
        }
    }
}

/// The case with this number of this seed; about half of them are good.
pub fn format_case(seed: u64, number: u64) -> FormatCase {
    let mut random = Random::new(seed, number);
    // There are many ways for a zone to be bad, so they have a large share.
    let faults = match random.weighted(&[50, 20, 30]) {
        0 => Vec::new(),
        1 => vec![BAD_RECORD],
        _ => faults::choose(&mut random, &FORMAT_ORDER),
    };
    case_with(&mut random, &faults)
}

/// The block to be read with this number of this seed; half of them are good.
pub fn super_case(seed: u64, number: u64) -> Vec<u8> {
    let mut random = Random::new(seed, number);
    let mut bytes = formatted(&mut random);
    if random.percent(50) {
        return bytes;
    }
    let faults = faults::choose(&mut random, &READ_ORDER);
    for (_, spoil) in SPOILERS.iter().filter(|(fault, _)| faults.contains(fault)) {
        spoil(&mut random, &mut bytes);
    }
    if faults.contains(&Refusal::SuperBlockLength) {
        bytes.resize(random.pick(&BAD_LENGTHS), 0);
    }
    bytes
}

pub type Spoiler = fn(&mut Random, &mut [u8]);
/// What puts each fault into a super block, in an order that keeps those before: all but the last leave a right checksum.
pub const SPOILERS: [(Refusal, Spoiler); 6] = [
    (Refusal::Magic, spoil_magic),
    (Refusal::Features, spoil_features),
    (Refusal::Owner, spoil_owner),
    (Refusal::Perm, spoil_perm),
    (Refusal::Tail, spoil_tail),
    (Refusal::Checksum, spoil_checksum),
];

/// A good super block.
fn formatted(random: &mut Random) -> Vec<u8> {
    let case = case_with(random, &[]);
    let mut block = case.lent.clone();
    format(&case.input(), &mut block).expect("a case without a fault is good");
    block
}

/// A case with these faults; a zone that is spoilt may be good all the same. Without any, it is good.
fn case_with(random: &mut Random, faults: &[Refusal]) -> FormatCase {
    let block = random.pick(&[512, 4096]);
    let lent = if faults.contains(&Refusal::SuperBlockLength) { random.pick(&BAD_LENGTHS) } else { LENGTH };
    let Rights { features, owner, group, mode } = rights(random, faults);
    let mut uuid = [0; 16];
    random.fill(&mut uuid);
    let (record, given) = record(random, block / SECTOR, faults.contains(&BAD_RECORD));
    FormatCase {
        block: if faults.contains(&Refusal::Block) { bad_block(random) } else { block },
        lent: noise(random, lent),
        label: label(random, faults.contains(&Refusal::Label)),
        uuid,
        features,
        owner,
        group,
        mode,
        record,
        given,
    }
}

/// Some would be good, if only so many of their bits were looked at.
pub fn bad_block(random: &mut Random) -> u64 {
    let wide = random.pick(&[1 << 16, 1 << 32, 1 << 63]) | random.pick(&[512, 4096]);
    let narrow = u64::from(random.pick(&BAD_BLOCKS));
    random.pick(&[narrow, narrow, wide, u64::MAX])
}

fn noise(random: &mut Random, length: usize) -> Vec<u8> {
    let mut bytes = vec![0; length];
    random.fill(&mut bytes);
    bytes
}

/// Any bytes, often with zeros among them, which mean nothing.
fn label(random: &mut Random, too_long: bool) -> Vec<u8> {
    let any = random.below(65) as usize;
    let length = if too_long { random.pick(&LONG_LABELS) } else { random.pick(&[any, any, any, 0, 63, 64]) };
    let mut bytes = noise(random, length);
    if random.percent(40) {
        let from = random.below(length as u64);
        let to = random.between(from, length as u64);
        bytes[from as usize..to as usize].fill(0);
    }
    bytes
}

/// Features with owner, group and mode at their edges. One that isn't in use may be anything.
fn rights(random: &mut Random, faults: &[Refusal]) -> Rights {
    let features = random.below(16);
    let mut rights = Rights {
        features,
        owner: id(random, features & HAS_OWNER != 0),
        group: id(random, features & HAS_GROUP != 0),
        mode: mode(random, features & HAS_PERM != 0),
    };
    if faults.contains(&Refusal::Features) {
        let any = if random.percent(20) { random.word() } else { 0 };
        rights.features |= 1 << stray_feature(random) | any;
    }
    if faults.contains(&Refusal::Owner) {
        let bits = random.pick(&[HAS_OWNER, HAS_GROUP, HAS_OWNER | HAS_GROUP]);
        rights.features |= bits;
        rights.owner = if bits & HAS_OWNER != 0 { u32::MAX } else { rights.owner };
        rights.group = if bits & HAS_GROUP != 0 { u32::MAX } else { rights.group };
    }
    if faults.contains(&Refusal::Perm) {
        rights.features |= HAS_PERM;
        rights.mode = stray_perm(random);
    }
    rights
}

fn id(random: &mut Random, in_use: bool) -> u32 {
    let any = random.below(u64::from(u32::MAX)) as u32;
    let good = [0, 0o777, 0o1000, u32::MAX - 1, any];
    if in_use {
        random.pick(&good)
    } else {
        random.pick(&[&good[..], &[u32::MAX, u32::MAX]].concat())
    }
}

fn mode(random: &mut Random, in_use: bool) -> u32 {
    let (low, any) = (random.below(0o1000) as u32, random.word() as u32);
    if in_use {
        random.pick(&[&MODES[..], &[low, low]].concat())
    } else {
        random.pick(&[&MODES[..], &STRAY_PERMS, &[low, any, any, u32::MAX - 1]].concat())
    }
}

/// Zone 0's record, and the flag beside it. `step` is a block in sectors.
fn record(random: &mut Random, step: u64, bad: bool) -> (Vec<u8>, bool) {
    let mut given = random.percent(70);
    let mut zone = good_zone(random, step, given);
    if !bad {
        return (encode(random, &zone, step, given), given);
    }
    match random.weighted(&[5, 25, 70]) {
        0 => return (noise_record(random).to_vec(), given),
        // Every type with every condition; some are good together.
        1 => (zone.kind, zone.condition) = (random.between(1, 3) as u8, random.below(16) as u8),
        _ => spoil_zone_of_report(random, &mut zone, step, &mut given),
    }
    let other_length = random.percent(12);
    if other_length && random.percent(50) {
        // The next reason's fault comes along.
        zone.start = step;
    }
    let mut record = encode(random, &zone, step, given);
    if other_length {
        record.resize(random.pick(&BAD_RECORDS), 0);
    }
    (record, given)
}

/// A zone that is good as the first one.
fn good_zone(random: &mut Random, step: u64, capacity_given: bool) -> Zone {
    let length = if random.percent(5) { DISK_LIMIT } else { zone_length(random, step) };
    let mut zone = Zone { start: 0, length, pointer: 0, kind: 0, condition: 0, capacity: length };
    if random.percent(25) {
        make_conventional(random, &mut zone, ILL);
    } else {
        make_sequential(random, &mut zone, step, ILL, capacity_given);
    }
    zone
}

/// Without its flag the capacity's field holds what is bad, what would be good, or as much as is written.
fn encode(random: &mut Random, zone: &Zone, step: u64, capacity_given: bool) -> Vec<u8> {
    let mut record = encode_zone(random, zone).to_vec();
    if !capacity_given {
        let other = random.pick(&[
            0,
            u64::MAX,
            zone.length,
            zone.length.wrapping_sub(step),
            zone.pointer,
            zone.pointer,
        ]);
        put(&mut record, 32, &other.to_le_bytes());
    }
    record
}
