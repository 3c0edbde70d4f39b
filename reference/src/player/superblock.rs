//! The first 4,096 bytes of the disk: layout, checksum and features.

use super::checksum::{update, START};
use super::types::{bytes_at, put, u32_at, u64_at, Refusal};

pub const LENGTH: usize = 4096;
pub const MAGIC: u32 = 0x5A4F_4653;
pub const CHECKSUM_AT: usize = 4;
pub const LABEL_AT: usize = 8;
/// A label has at most so many bytes.
pub const LABEL: usize = 64;
pub const UUID_AT: usize = 72;
pub const FEATURES_AT: usize = 88;
pub const OWNER_AT: usize = 96;
pub const GROUP_AT: usize = 100;
pub const PERM_AT: usize = 104;
pub const TAIL_AT: usize = 108;

pub const AGGREGATE: u64 = 1;
pub const HAS_OWNER: u64 = 2;
pub const HAS_GROUP: u64 = 4;
pub const HAS_PERM: u64 = 8;
const ALL_FEATURES: u64 = AGGREGATE | HAS_OWNER | HAS_GROUP | HAS_PERM;

const DEFAULT_MODE: u32 = 0o640;
/// A perm in use is the mode, and has no bits beyond these nine.
pub const HIGHEST_MODE: u32 = 0o777;
const NO_ID: u32 = u32::MAX;

#[derive(Clone, Copy, Debug, PartialEq, Eq)]
pub struct SuperBlock {
    pub aggregate: bool,
    pub owner: u32,
    pub group: u32,
    pub mode: u32,
    pub uuid: [u8; 16],
}

/// The checksum that belongs into these bytes: its own field counts as zero.
pub fn checksum_of(bytes: &[u8]) -> u32 {
    let before = update(START, &bytes[..CHECKSUM_AT]);
    let field = update(before, &[0; 4]);
    update(field, &bytes[CHECKSUM_AT + 4..])
}

/// Puts it there.
pub fn stamp(bytes: &mut [u8]) {
    let sum = checksum_of(bytes);
    put(bytes, CHECKSUM_AT, &sum.to_le_bytes());
}

/// Here and below, `bytes` is as long as a super block.
pub fn magic_is_right(bytes: &[u8]) -> bool {
    u32_at(bytes, 0) == MAGIC
}

pub fn checksum_is_right(bytes: &[u8]) -> bool {
    u32_at(bytes, CHECKSUM_AT) == checksum_of(bytes)
}

pub fn tail_is_zero(bytes: &[u8]) -> bool {
    bytes[TAIL_AT..].iter().all(|&byte| byte == 0)
}

/// The features, and the three fields that have a bit among them: as they stand in a super block, or as they count.
#[derive(Clone, Copy, Debug, PartialEq, Eq)]
pub struct Rights {
    pub features: u64,
    pub owner: u32,
    pub group: u32,
    pub mode: u32,
}

impl Rights {
    pub fn decode(bytes: &[u8]) -> Rights {
        Rights {
            features: u64_at(bytes, FEATURES_AT),
            owner: u32_at(bytes, OWNER_AT),
            group: u32_at(bytes, GROUP_AT),
            mode: u32_at(bytes, PERM_AT),
        }
    }

    /// A field without its feature bit is ignored, whatever it holds.
    pub fn in_use(&self) -> Rights {
        let used = |bit, field, default| if self.features & bit != 0 { field } else { default };
        Rights {
            features: self.features,
            owner: used(HAS_OWNER, self.owner, 0),
            group: used(HAS_GROUP, self.group, 0),
            mode: used(HAS_PERM, self.mode, DEFAULT_MODE),
        }
    }

    /// Checks 24, 25 and 33, in this order: "With feature bit 3, a perm above 0777 (octal) now refuses the mount with
    /// 33, checked after 25 and before 26." (K8)
    pub fn check(&self) -> Result<(), Refusal> {
        if !self.features_are_known() {
            Err(Refusal::Features)
        } else if !self.ids_are_good() {
            Err(Refusal::Owner)
        } else if !self.mode_is_good() {
            Err(Refusal::Perm)
        } else {
            Ok(())
        }
    }

    pub fn features_are_known(&self) -> bool {
        self.features & !ALL_FEATURES == 0
    }

    pub fn ids_are_good(&self) -> bool {
        let Rights { owner, group, .. } = self.in_use();
        owner != NO_ID && group != NO_ID
    }

    pub fn mode_is_good(&self) -> bool {
        self.in_use().mode <= HIGHEST_MODE
    }
}

/// Check 21.
pub fn check_length(bytes: &[u8]) -> Result<(), Refusal> {
    if bytes.len() == LENGTH {
        Ok(())
    } else {
        Err(Refusal::SuperBlockLength)
    }
}

/// Checks 21 to 25, 33 and 26, in this order.
pub fn decode(bytes: &[u8]) -> Result<SuperBlock, Refusal> {
    check_length(bytes)?;
    if !magic_is_right(bytes) {
        return Err(Refusal::Magic);
    }
    if !checksum_is_right(bytes) {
        return Err(Refusal::Checksum);
    }
    let rights = Rights::decode(bytes);
    rights.check()?;
    if !tail_is_zero(bytes) {
        return Err(Refusal::Tail);
    }
    let Rights { features, owner, group, mode } = rights.in_use();
    let aggregate = features & AGGREGATE != 0;
    Ok(SuperBlock { aggregate, owner, group, mode, uuid: bytes_at(bytes, UUID_AT) })
}
