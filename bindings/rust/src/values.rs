//! What a volume is asked with, and what it answers.

use core::fmt;

use crate::codes::{Access, CommandKind, Condition, FileKind, Policy};
use crate::refusal::Refusal;
use crate::words::{self, ACCOUNT_WORDS, MOUNT_WORDS, ROW_WORDS};

/// What a mount reads.
#[derive(Clone, Copy, Debug)]
pub struct Source<'a> {
    /// The block in bytes, 512 or 4096.
    pub block: u64,
    /// The first 4,096 bytes of the disk.
    pub super_block: &'a [u8],
    /// The option text, such as `errors=repair` or `errors=repair,explicit-open`.
    pub options: &'a [u8],
    /// The zone report: `struct blk_zone_report` with its zones, as BLKREPORTZONE of Linux gives it. The zones are handed over as they
    /// come: what stands in the pointer of a full one isn't looked at, and its file has its capacity.
    pub report: &'a [u8],
    /// How many seq files may be open under `explicit-open`; 0 for no limit.
    pub open_limit: u32,
    /// How many seq files may be active under `explicit-open`, by opening one; 0 for no limit.
    pub active_limit: u32,
}

/// What a mount in pieces begins with: a [`Source`] without its report.
#[derive(Clone, Copy, Debug)]
pub struct PiecesSource<'a> {
    /// The block in bytes, 512 or 4096.
    pub block: u64,
    /// The first 4,096 bytes of the disk.
    pub super_block: &'a [u8],
    /// The option text, such as `errors=repair` or `errors=repair,explicit-open`.
    pub options: &'a [u8],
    /// How many seq files may be open under `explicit-open`; 0 for no limit.
    pub open_limit: u32,
    /// How many seq files may be active under `explicit-open`, by opening one; 0 for no limit.
    pub active_limit: u32,
}

/// A file: its kind, and its number among the files of that kind.
#[derive(Clone, Copy, Debug, PartialEq, Eq, Hash)]
pub struct FileId {
    /// Which table it is in.
    pub kind: FileKind,
    /// Counted from 0, by where the files start.
    pub number: u32,
}

impl FileId {
    /// The file `cnv/NUMBER`.
    pub const fn cnv(number: u32) -> FileId {
        FileId { kind: FileKind::Conventional, number }
    }

    /// The file `seq/NUMBER`.
    pub const fn seq(number: u32) -> FileId {
        FileId { kind: FileKind::Sequential, number }
    }

    pub(crate) fn kind_code(self) -> u32 {
        self.kind.code() as u32
    }
}

/// The name, such as `seq/12`.
impl fmt::Display for FileId {
    fn fmt(&self, formatter: &mut fmt::Formatter<'_>) -> fmt::Result {
        let folder = match self.kind {
            FileKind::Conventional => "cnv",
            FileKind::Sequential => "seq",
        };
        write!(formatter, "{folder}/{}", self.number)
    }
}

/// What is known of a file.
#[derive(Clone, Copy, Debug, PartialEq, Eq)]
pub struct File {
    /// The first sector, of 512 bytes.
    pub start: u64,
    /// In bytes.
    pub capacity: u64,
    /// In bytes.
    pub size: u64,
    /// The condition of its zones.
    pub condition: Condition,
    /// What may be done with it.
    pub access: Access,
    /// The permission bits to show for it.
    pub mode: u32,
}

/// A command for the disk.
#[derive(Clone, Copy, Debug, PartialEq, Eq, Hash)]
pub struct Command {
    /// What to do.
    pub kind: CommandKind,
    /// Where, in bytes from the start of the disk.
    pub address: u64,
    /// In bytes; 0 but for reads and writes.
    pub length: u64,
}

impl Command {
    /// A command from its words; `None` if the first is no code.
    pub(crate) fn from_words(kind: u64, address: u64, length: u64) -> Option<Command> {
        Some(Command { kind: CommandKind::from_code(kind)?, address, length })
    }

    /// The command that a row has outstanding, `None` where it has none. [`Refusal::Impossible`] where what it holds is no command: calls on the
    /// file are then refused as [`Refusal::Busy`], and its completions as impossible.
    pub fn of_row(row: &[u64; ROW_WORDS]) -> Result<Option<Command>, Refusal> {
        let Some(code) = row[words::ROW_HELD].checked_sub(1) else { return Ok(None) };
        let command = Command::from_words(code, row[words::ROW_HELD_ADDRESS], row[words::ROW_HELD_LENGTH]);
        command.map(Some).ok_or(Refusal::Impossible)
    }
}

/// What a call that isn't refused answers.
#[derive(Clone, Copy, Debug, PartialEq, Eq, Hash)]
#[must_use]
pub enum Reply {
    /// The call is over, with a count of bytes, which is 0.
    Done(u64),
    /// The disk has to do this, and then [`Volume::complete`](crate::Volume::complete) or [`Volume::fail`](crate::Volume::fail) has to be called for
    /// this file. Until then it takes no other call; other files do.
    Command(Command),
}

/// What the mount words hold.
#[derive(Clone, Copy, Debug, PartialEq, Eq)]
pub struct MountValue {
    /// The block in bytes.
    pub block: u64,
    /// How many cnv files there are.
    pub cnv_files: u32,
    /// How many seq files there are.
    pub seq_files: u32,
    /// The owner of the files.
    pub owner: u32,
    /// The group of the files.
    pub group: u32,
    /// The permission bits of a file that can be written.
    pub mode: u32,
    /// What a failure does.
    pub policy: Policy,
    /// The uuid of the super block.
    pub uuid: [u8; 16],
    /// Whether the whole mount is read-only.
    pub read_only: bool,
    /// Whether it has the option `explicit-open`: seq files are opened before they are written, and the limits count.
    pub explicit_open: bool,
}

impl MountValue {
    /// Reads mount words; `None` where they hold no mount value.
    pub fn from_words(mount: &[u64; MOUNT_WORDS]) -> Option<MountValue> {
        let short = |at: usize| u32::try_from(mount[at]).ok();
        let flag = |at: usize| match mount[at] {
            0 => Some(false),
            1 => Some(true),
            _ => None,
        };
        let halves = [mount[words::MOUNT_UUID_LOW], mount[words::MOUNT_UUID_HIGH]];
        let mut uuid = [0; 16];
        uuid[..8].copy_from_slice(&halves[0].to_le_bytes());
        uuid[8..].copy_from_slice(&halves[1].to_le_bytes());
        Some(MountValue {
            block: mount[words::MOUNT_BLOCK],
            cnv_files: short(words::MOUNT_CNV_FILES)?,
            seq_files: short(words::MOUNT_SEQ_FILES)?,
            owner: short(words::MOUNT_OWNER)?,
            group: short(words::MOUNT_GROUP)?,
            mode: short(words::MOUNT_MODE)?,
            policy: Policy::from_code(mount[words::MOUNT_POLICY])?,
            uuid,
            read_only: flag(words::MOUNT_READ_ONLY)?,
            explicit_open: flag(words::MOUNT_EXPLICIT_OPEN)?,
        })
    }
}

/// What the account words hold: how many seq files are open and how many are active, and how many may be under `explicit-open`.
///
/// A file is open while it has opens. It is active while it is healthy, can be written and isn't full, and either isn't empty or is open under
/// `explicit-open`. A mount finds no file open, and as many active as there are, also above the limit.
#[derive(Clone, Copy, Debug, PartialEq, Eq)]
pub struct Account {
    /// How many files are open.
    pub open: u32,
    /// How many files are active.
    pub active: u32,
    /// Opening a file raises the first no further than this; 0 for no limit.
    pub open_limit: u32,
    /// Opening a file raises the second no further than this; 0 for no limit.
    pub active_limit: u32,
}

impl Account {
    /// Reads account words; `None` where one of them is above 32 bits.
    pub fn from_words(account: &[u64; ACCOUNT_WORDS]) -> Option<Account> {
        let short = |at: usize| u32::try_from(account[at]).ok();
        Some(Account {
            open: short(words::ACCOUNT_OPEN)?,
            active: short(words::ACCOUNT_ACTIVE)?,
            open_limit: short(words::ACCOUNT_OPEN_LIMIT)?,
            active_limit: short(words::ACCOUNT_ACTIVE_LIMIT)?,
        })
    }
}
