//! Super blocks: making one, and reading the values of one.

use crate::answer::ask;
use crate::refusal::Refusal;
use crate::words::{self, LABEL_BYTES, UUID_BYTES};

/// What a super block is made from.
#[derive(Clone, Copy, Debug, PartialEq, Eq)]
pub struct Format<'a> {
    /// The block in bytes, 512 or 4096.
    pub block: u64,
    /// Any bytes, at most 64; the super block has zeros after them.
    pub label: &'a [u8],
    /// The uuid.
    pub uuid: [u8; UUID_BYTES],
    /// The sum of the features wanted: [`FEATURE_AGGREGATE`](words::FEATURE_AGGREGATE), [`FEATURE_UID`](words::FEATURE_UID),
    /// [`FEATURE_GID`](words::FEATURE_GID), [`FEATURE_PERM`](words::FEATURE_PERM).
    pub features: u64,
    /// The owner of the files. Without its feature it is written as well, but a mount has 0.
    pub owner: u32,
    /// The group of the files. Without its feature it is written as well, but a mount has 0.
    pub group: u32,
    /// The permission bits of the files, at most `0o777`. Without its feature it may be anything and is written as well, but a mount
    /// has `0o640`.
    pub mode: u32,
    /// The 64 bytes of zone 0, the first zone of a report: a `struct blk_zone` of Linux as it comes.
    pub record: &'a [u8],
    /// The flag of that report: whether the record states a capacity.
    pub capacity_given: bool,
}

/// What is to be done with a super block that was made.
#[derive(Clone, Copy, Debug, PartialEq, Eq, Hash)]
#[must_use]
pub struct Formatted {
    /// Whether zone 0 must be finished first: it is sequential, healthy and below its capacity in size. Then the super block is written to the
    /// first 4,096 bytes of the disk. A zone 0 that takes writes at its pointer alone (type 2) wants another order, which `docs/LINKING.md` has: it
    /// is reset, written and finished.
    pub finish: bool,
}

/// Makes a super block, in memory: all 4,096 bytes are written, whatever stood there. It mounts, all else good, with exactly these values.
/// Refused, the bytes are as they were; refusals are 20, 21, 24, 25, 33, 34 and 29, in this order, 29 with zone 0 and what is bad of its record.
///
/// ```
/// use zonefs::words::FEATURE_PERM;
/// use zonefs::{format, super_fields, Format, Reason, Refusal};
///
/// # // Sequential and empty, with 64 sectors; it may be written anywhere (type 3).
/// # let mut zone_0 = [0; 64];
/// # (zone_0[8], zone_0[24], zone_0[25]) = (64, 3, 1);
/// let mut super_block = [0; 4096];
/// let mut wanted = Format {
///     block: 4096,
///     label: b"drawer 7",
///     uuid: *b"0123456789abcdef",
///     features: FEATURE_PERM,
///     owner: 0,
///     group: 0,
///     mode: 0o600,
///     record: &zone_0,
///     capacity_given: false,
/// };
/// // Zone 0 is sequential and not full: it is finished, and then the disk's first 4,096 bytes are written.
/// assert!(format(&wanted, &mut super_block)?.finish);
///
/// // To change the mode, keep the other values that the block has.
/// let fields = super_fields(&super_block)?;
/// assert_eq!((fields.label_text(), fields.mode), (&b"drawer 7"[..], 0o600));
/// wanted = Format { label: &fields.label, uuid: fields.uuid, mode: 0o640, ..wanted };
/// let _finish = format(&wanted, &mut super_block)?;
/// assert_eq!(super_fields(&super_block)?.mode, 0o640);
///
/// // A record that was cut is no first zone, and the block stays as it is.
/// let cut = Format { record: &zone_0[..63], ..wanted };
/// assert_eq!(format(&cut, &mut super_block), Err(Refusal::BadZone { zone: 0, reason: Reason::NoRecord }));
/// # Ok::<(), Refusal>(())
/// ```
pub fn format(wanted: &Format<'_>, super_block: &mut [u8]) -> Result<Formatted, Refusal> {
    let Format { block, label, ref uuid, features, owner, group, mode, record, capacity_given } = *wanted;
    let given = u32::from(capacity_given);
    let answer = ask(|answer| {
        words::format(block, super_block, label, uuid, features, owner, group, mode, record, given, answer)
    })?;
    Ok(Formatted { finish: answer[words::ANSWER_FINISH] != 0 })
}

/// The values of a super block, as they stand there. Owner, group and mode may be anything where their feature bit is clear.
#[derive(Clone, Copy, Debug, PartialEq, Eq, Hash)]
pub struct SuperFields {
    /// All 64 bytes, with the zeros after a shorter label.
    pub label: [u8; LABEL_BYTES],
    /// The uuid.
    pub uuid: [u8; UUID_BYTES],
    /// The sum of the features that the block has.
    pub features: u64,
    /// The owner of the files.
    pub owner: u32,
    /// The group of the files.
    pub group: u32,
    /// The permission bits of the files.
    pub mode: u32,
}

impl SuperFields {
    /// The label without the zeros at its end.
    pub fn label_text(&self) -> &[u8] {
        let zeros = self.label.iter().rev().take_while(|&&byte| byte == 0).count();
        &self.label[..LABEL_BYTES - zeros]
    }
}

/// Reads the values of a super block. Made again from these by [`format`], it has the same bytes. Refusals are those of a mount, 21 to 25, 33
/// and 26, in this order.
pub fn super_fields(super_block: &[u8]) -> Result<SuperFields, Refusal> {
    let (mut label, mut uuid) = ([0; LABEL_BYTES], [0; UUID_BYTES]);
    let answer = ask(|answer| words::super_fields(super_block, &mut label, &mut uuid, answer))?;
    Ok(SuperFields {
        label,
        uuid,
        features: answer[words::ANSWER_SUPER_FEATURES],
        owner: answer[words::ANSWER_SUPER_OWNER] as u32,
        group: answer[words::ANSWER_SUPER_GROUP] as u32,
        mode: answer[words::ANSWER_SUPER_MODE] as u32,
    })
}
