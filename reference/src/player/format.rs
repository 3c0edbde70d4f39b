//! Formatting: writing a super block, and reading back what it was written from.

use super::types::{block_is_known, bytes_at, put, Condition, Reason, Refusal, SECTOR};
use super::zone::{Zone, RECORD};
use super::{superblock, zone};

/// What a super block is written from, and the record of zone 0, where it goes.
#[derive(Clone, Copy, Debug, PartialEq, Eq)]
pub struct FormatInput<'a> {
    pub block: u64,
    pub label: &'a [u8],
    pub uuid: [u8; 16],
    pub features: u64,
    pub owner: u32,
    pub group: u32,
    pub mode: u32,
    pub record: &'a [u8],
    /// The report's flag: whether the record has a capacity.
    pub given: bool,
}

impl FormatInput<'_> {
    pub fn rights(&self) -> superblock::Rights {
        superblock::Rights { features: self.features, owner: self.owner, group: self.group, mode: self.mode }
    }

    pub fn label_fits(&self) -> bool {
        self.label.len() <= superblock::LABEL
    }

    /// Zone 0, if it is good as the first of a report; else 29.
    pub fn first_zone(&self) -> Result<Zone, Refusal> {
        if self.record.len() != RECORD {
            return Err(Refusal::BadZone { zone: 0, reason: Reason::NoRecord });
        }
        let zone = Zone::decode(self.record, self.given);
        zone::check_zones(&[zone], self.block)?;
        Ok(zone)
    }
}

/// `Ok(true)`: zone 0 must first be finished. "the order is 20, 21, 24, 25, 34, 29, all before a byte is written" (K6),
/// and 33 "before 34" (K8).
pub fn format(input: &FormatInput, lent: &mut [u8]) -> Result<bool, Refusal> {
    if !block_is_known(input.block) {
        return Err(Refusal::Block);
    }
    superblock::check_length(lent)?;
    input.rights().check()?;
    if !input.label_fits() {
        return Err(Refusal::Label);
    }
    let zone = input.first_zone()?;
    write(input, lent);
    Ok(must_be_finished(&zone))
}

/// The fields go in as they are given, also those that are ignored: so a block that is read can be written again.
fn write(input: &FormatInput, lent: &mut [u8]) {
    lent.fill(0);
    put(lent, 0, &superblock::MAGIC.to_le_bytes());
    put(lent, superblock::LABEL_AT, input.label);
    put(lent, superblock::UUID_AT, &input.uuid);
    put(lent, superblock::FEATURES_AT, &input.features.to_le_bytes());
    put(lent, superblock::OWNER_AT, &input.owner.to_le_bytes());
    put(lent, superblock::GROUP_AT, &input.group.to_le_bytes());
    put(lent, superblock::PERM_AT, &input.mode.to_le_bytes());
    superblock::stamp(lent);
}

/// A good zone that is "sequential, healthy and below capacity in size".
fn must_be_finished(zone: &Zone) -> bool {
    !zone.is_conventional() && zone.health() == Condition::Healthy && zone.written() < zone.capacity * SECTOR
}

/// What a super block was written from, as it stands there.
#[derive(Clone, Copy, Debug, PartialEq, Eq)]
pub struct SuperFields {
    pub label: [u8; superblock::LABEL],
    pub uuid: [u8; 16],
    pub features: u64,
    pub owner: u32,
    pub group: u32,
    pub mode: u32,
}

/// Refuses what a mount refuses: 21 to 25, 33 and 26.
pub fn super_fields(block: &[u8]) -> Result<SuperFields, Refusal> {
    let uuid = superblock::decode(block)?.uuid;
    let superblock::Rights { features, owner, group, mode } = superblock::Rights::decode(block);
    Ok(SuperFields { label: bytes_at(block, superblock::LABEL_AT), uuid, features, owner, group, mode })
}
