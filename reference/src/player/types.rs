//! The values that everything else shares.

/// Bytes in a sector; starts, lengths and pointers of zones count sectors.
pub const SECTOR: u64 = 512;
/// No zone and no file ends beyond this sector.
pub const DISK_LIMIT: u64 = 1 << 40;
/// A report has at most this many zones.
pub const MAX_ZONES: u32 = 65_536;
/// Zone 0 is never a file, so there are at most this many files of a kind.
pub const MAX_FILES: usize = 65_535;
/// "The tape keeps to 1,023 zones" (K4): behind a header with a larger count no zone is read.
pub const TAPE_ZONES: u32 = 1023;
/// So a player of tapes needs no more rows of each kind than this.
pub const PLAYER_ROWS: usize = 1022;

#[derive(Clone, Copy, Debug, PartialEq, Eq)]
pub enum FileKind {
    Conventional,
    Sequential,
}

/// From best to worst; the order is used to compare a record with a row.
#[derive(Clone, Copy, Debug, PartialEq, Eq, PartialOrd, Ord)]
pub enum Condition {
    Healthy,
    ReadOnly,
    Offline,
}

/// From least to most; the order is used to see that access never rises.
#[derive(Clone, Copy, Debug, PartialEq, Eq, PartialOrd, Ord)]
pub enum Access {
    None,
    Read,
    Write,
}

/// What a failed command does to its file and to the mount: the `errors=` option.
#[derive(Clone, Copy, Debug, PartialEq, Eq)]
pub enum Policy {
    RemountReadOnly,
    ZoneReadOnly,
    ZoneOffline,
    Repair,
}

/// One file: start in sectors, capacity and size in bytes, how many opens it has, and the command that it has outstanding.
#[derive(Clone, Copy, Debug, PartialEq, Eq)]
pub struct Row {
    pub start: u64,
    pub capacity: u64,
    pub size: u64,
    pub condition: Condition,
    pub access: Access,
    /// The file is open while this isn't 0. Only sequential files count.
    pub opens: u64,
    pub held: Held,
}

impl Row {
    pub const EMPTY: Row = Row {
        start: 0,
        capacity: 0,
        size: 0,
        condition: Condition::Healthy,
        access: Access::None,
        opens: 0,
        held: Held::Nothing,
    };

    /// The same file with nothing outstanding.
    pub fn idle(&self) -> Row {
        Row { held: Held::Nothing, ..*self }
    }
}

/// The order is that of the codes.
#[derive(Clone, Copy, Debug, PartialEq, Eq)]
pub enum Operation {
    Read,
    Write,
    Reset,
    Finish,
    Flush,
    Open,
    Close,
}

impl Operation {
    pub const ALL: [Operation; 7] = [
        Operation::Read,
        Operation::Write,
        Operation::Reset,
        Operation::Finish,
        Operation::Flush,
        Operation::Open,
        Operation::Close,
    ];

    pub fn code(self) -> u64 {
        self as u64
    }

    /// None for a code that no command has.
    pub fn of_code(code: u64) -> Option<Operation> {
        Operation::ALL.into_iter().find(|operation| operation.code() == code)
    }
}

/// A command to the disk: byte address and byte length.
#[derive(Clone, Copy, Debug, PartialEq, Eq)]
pub struct Command {
    pub operation: Operation,
    pub address: u64,
    pub length: u64,
}

/// What a row holds: the last three of its words.
#[derive(Clone, Copy, Debug, PartialEq, Eq)]
pub enum Held {
    Nothing,
    Command(Command),
    /// A word that is no command's. No call leaves it, but a lent table may have it.
    NoCommand {
        word: u64,
        address: u64,
        length: u64,
    },
}

impl Held {
    /// The first word is 0 where nothing is held, and then the others aren't looked at; else it is 1 + the code.
    pub fn of_words([word, address, length]: [u64; 3]) -> Held {
        let Some(code) = word.checked_sub(1) else { return Held::Nothing };
        match Operation::of_code(code) {
            Some(operation) => Held::Command(Command { operation, address, length }),
            None => Held::NoCommand { word, address, length },
        }
    }

    /// As a row is stored: with nothing held all three are 0.
    pub fn words(self) -> [u64; 3] {
        match self {
            Held::Nothing => [0; 3],
            Held::Command(command) => [1 + command.operation.code(), command.address, command.length],
            Held::NoCommand { word, address, length } => [word, address, length],
        }
    }

    /// Whether anything is held, be it a command or not.
    pub fn is_outstanding(self) -> bool {
        self != Held::Nothing
    }

    pub fn command(self) -> Option<Command> {
        match self {
            Held::Command(command) => Some(command),
            Held::Nothing | Held::NoCommand { .. } => None,
        }
    }
}

/// An outstanding command and the file whose call issued it.
#[derive(Clone, Copy, Debug, PartialEq, Eq)]
pub struct Outstanding {
    pub kind: FileKind,
    pub number: u32,
    pub command: Command,
}

impl Outstanding {
    pub fn is_of(&self, kind: FileKind, number: u32) -> bool {
        self.kind == kind && self.number == number
    }
}

/// What a mount fixes, and the read-only mark.
#[derive(Clone, Debug, PartialEq, Eq)]
pub struct Mount {
    pub block: u64,
    pub cnv_files: usize,
    pub seq_files: usize,
    pub owner: u32,
    pub group: u32,
    pub mode: u32,
    pub policy: Policy,
    /// The option `explicit-open`: without it opens and closes only count.
    pub explicit_open: bool,
    pub read_only: bool,
    pub uuid: [u8; 16],
}

/// "The mount keeps one small running account of files open for writing and files active, corrected in place." Only
/// sequential files count in it.
#[derive(Clone, Copy, Debug, Default, PartialEq, Eq)]
pub struct Account {
    pub open: u32,
    pub active: u32,
    /// What an open may raise the two to, given at mount; 0 means none.
    pub open_limit: u32,
    pub active_limit: u32,
}

/// A mount with its account and the two lent tables, which may be longer than the files they hold.
#[derive(Clone, Debug, PartialEq, Eq)]
pub struct Volume {
    pub mount: Mount,
    pub account: Account,
    pub cnv: Vec<Row>,
    pub seq: Vec<Row>,
}

impl Volume {
    pub fn rows(&self, kind: FileKind) -> &[Row] {
        match kind {
            FileKind::Conventional => &self.cnv,
            FileKind::Sequential => &self.seq,
        }
    }

    pub fn files(&self, kind: FileKind) -> usize {
        match kind {
            FileKind::Conventional => self.mount.cnv_files,
            FileKind::Sequential => self.mount.seq_files,
        }
    }

    pub fn row(&self, kind: FileKind, number: u32) -> &Row {
        &self.rows(kind)[number as usize]
    }

    pub fn row_mut(&mut self, kind: FileKind, number: u32) -> &mut Row {
        match kind {
            FileKind::Conventional => &mut self.cnv[number as usize],
            FileKind::Sequential => &mut self.seq[number as usize],
        }
    }

    /// The command that a file has outstanding; None also for a file that isn't there.
    pub fn outstanding(&self, kind: FileKind, number: u32) -> Option<Outstanding> {
        let mut files = self.rows(kind).iter().take(self.files(kind));
        let command = files.nth(number as usize)?.held.command()?;
        Some(Outstanding { kind, number, command })
    }

    /// The commands of all files, by kind and number.
    pub fn all_outstanding(&self) -> Vec<Outstanding> {
        let of_kind =
            |kind| (0..self.files(kind) as u32).filter_map(move |number| self.outstanding(kind, number));
        of_kind(FileKind::Conventional).chain(of_kind(FileKind::Sequential)).collect()
    }
}

/// What is wrong with a zone. The numbers are the paper's, and of several reasons the lowest is given.
#[derive(Clone, Copy, Debug, PartialEq, Eq, PartialOrd, Ord)]
pub enum Reason {
    /// A record of any other length than 64 bytes, which has no field to name.
    NoRecord = 0,
    Start = 1,
    Length = 2,
    Capacity = 3,
    End = 4,
    Type = 5,
    Condition = 6,
    Pointer = 7,
    /// A good zone, but not one of the file whose command failed.
    OtherZone = 8,
    /// The file's zone in a better condition than it can have.
    BetterCondition = 9,
}

impl Reason {
    pub fn number(self) -> u64 {
        self as u64
    }
}

/// Those of a mount stand in the order of its checks. The last is the formatter's alone.
#[derive(Clone, Copy, Debug, PartialEq, Eq)]
pub enum Refusal {
    NoSuchFile,
    Outstanding,
    ReadOnlyMount,
    Access,
    BeyondCapacity,
    NotAppending,
    NothingOutstanding,
    RecordMismatch(Reason),
    Impossible,
    OpenLimit,
    ActiveLimit,
    NotOpen,
    TooManyOpens,
    Block,
    SuperBlockLength,
    Magic,
    Checksum,
    Features,
    Owner,
    Perm,
    Tail,
    Options,
    ReportHeader,
    BadZone { zone: u32, reason: Reason },
    TooFewRows,
    Label,
}

impl Refusal {
    pub fn number(self) -> u32 {
        match self {
            Refusal::NoSuchFile => 1,
            Refusal::Outstanding => 2,
            Refusal::ReadOnlyMount => 3,
            Refusal::Access => 4,
            Refusal::BeyondCapacity => 5,
            Refusal::NotAppending => 6,
            Refusal::NothingOutstanding => 8,
            Refusal::RecordMismatch(_) => 9,
            Refusal::Impossible => 10,
            Refusal::OpenLimit => 11,
            Refusal::ActiveLimit => 12,
            Refusal::NotOpen => 13,
            Refusal::TooManyOpens => 14,
            Refusal::Block => 20,
            Refusal::SuperBlockLength => 21,
            Refusal::Magic => 22,
            Refusal::Checksum => 23,
            Refusal::Features => 24,
            Refusal::Owner => 25,
            Refusal::Perm => 33,
            Refusal::Tail => 26,
            Refusal::Options => 27,
            Refusal::ReportHeader => 28,
            Refusal::BadZone { .. } => 29,
            Refusal::TooFewRows => 30,
            Refusal::Label => 34,
        }
    }

    /// What a tape prints behind the number.
    pub fn values(self) -> Vec<u64> {
        match self {
            Refusal::BadZone { zone, reason } => vec![u64::from(zone), reason.number()],
            Refusal::RecordMismatch(reason) => vec![reason.number()],
            _ => Vec::new(),
        }
    }
}

/// Disks have blocks of one of these lengths.
pub fn block_is_known(block: u64) -> bool {
    block == 512 || block == 4096
}

/// `a + b <= limit`, for numbers whose sum may not fit.
pub fn sum_within(a: u64, b: u64, limit: u64) -> bool {
    u128::from(a) + u128::from(b) <= u128::from(limit)
}

pub fn bytes_at<const COUNT: usize>(bytes: &[u8], at: usize) -> [u8; COUNT] {
    let mut some = [0; COUNT];
    some.copy_from_slice(&bytes[at..at + COUNT]);
    some
}

pub fn u32_at(bytes: &[u8], at: usize) -> u32 {
    u32::from_le_bytes(bytes_at(bytes, at))
}

pub fn u64_at(bytes: &[u8], at: usize) -> u64 {
    u64::from_le_bytes(bytes_at(bytes, at))
}

/// The other way round: writes a value's bytes.
pub fn put(bytes: &mut [u8], at: usize, value: &[u8]) {
    bytes[at..at + value.len()].copy_from_slice(value);
}
