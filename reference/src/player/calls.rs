//! Finding and showing files, and deciding reads, writes, truncations, flushes, opens and closes.

use super::account::is_open;
use super::tape::{CallRecord, Named};
use super::types::{
    block_is_known, sum_within, Access, Account, Command, Condition, FileKind, Held, Mount, Operation,
    Refusal, Row, Volume, DISK_LIMIT, MAX_FILES, SECTOR,
};

/// No file has more opens: "a 65,536th open of one file answers 14".
pub const MAX_OPENS: u64 = 65_535;

#[derive(Clone, Copy, Debug, PartialEq, Eq)]
pub enum Request {
    Read { offset: u64, length: u64 },
    Write { offset: u64, length: u64 },
    Truncate { size: u64 },
    Flush,
    Open,
    Close,
}

#[derive(Clone, Copy, Debug, PartialEq, Eq)]
pub struct Call {
    pub kind: FileKind,
    pub number: u32,
    pub request: Request,
}

/// Answered at once with a count, or a command issued to the disk.
#[derive(Clone, Copy, Debug, PartialEq, Eq)]
pub enum Reply {
    Done(u64),
    Issued(Command),
}

impl Volume {
    /// Decides a call and stores the command it issues, if any, in the file's row. An open or a close that isn't refused
    /// counts there too. Any other answer changes nothing.
    pub fn call(&mut self, call: &Call) -> Result<Reply, Refusal> {
        let row = self.checked_row(call.kind, call.number)?;
        if row.held.is_outstanding() {
            return Err(Refusal::Outstanding);
        }
        let reply = decide(&self.mount, &self.account, call.kind, &row, &call.request)?;
        self.store(call.kind, call.number, left_by(&call.request, &reply, call.kind, &row));
        Ok(reply)
    }

    /// The same for a call as a tape has it. With a kind byte that no file has, there is no such file.
    pub fn recorded_call(&mut self, record: &CallRecord) -> Result<Reply, Refusal> {
        let (kind, number) = self.named_file(&record.named())?;
        self.call(&Call { kind, number, request: record.request() })
    }

    /// The file of a name such as `seq/12`.
    pub fn find(&self, name: &[u8]) -> Result<(FileKind, u32), Refusal> {
        self.check_counts()?;
        let (kind, number) = parse_name(name).ok_or(Refusal::NoSuchFile)?;
        self.checked_row(kind, number)?;
        Ok((kind, number))
    }

    /// A file's row and the mode that it shows.
    pub fn show(&self, kind: FileKind, number: u32) -> Result<(Row, u32), Refusal> {
        let row = self.checked_row(kind, number)?;
        let mode = match row.access {
            Access::None => 0,
            Access::Write if !self.mount.read_only => self.mount.mode,
            _ => self.mount.mode & !0o222,
        };
        Ok((row, mode))
    }

    /// The checks that all calls share, before the one on the outstanding command.
    pub fn checked_row(&self, kind: FileKind, number: u32) -> Result<Row, Refusal> {
        let row = self.existing_row(kind, number)?;
        let covered = self.account.covers(kind, &row, self.mount.explicit_open);
        if !is_possible(&row, kind, self.mount.block) || !covered {
            return Err(Refusal::Impossible);
        }
        Ok(row)
    }

    /// The checks that calls and completions share: the counts, and whether the file is there.
    pub fn existing_row(&self, kind: FileKind, number: u32) -> Result<Row, Refusal> {
        self.check_counts()?;
        let number = number as usize;
        if number >= self.files(kind) {
            return Err(Refusal::NoSuchFile);
        }
        Ok(self.rows(kind)[number])
    }

    /// The file that a tape's record names, if it has a kind that there is. The counts come before that.
    pub fn named_file(&self, named: &Named) -> Result<(FileKind, u32), Refusal> {
        self.check_counts()?;
        named.file().ok_or(Refusal::NoSuchFile)
    }

    fn check_counts(&self) -> Result<(), Refusal> {
        let fits = |files: usize, rows: usize| files <= rows && files <= MAX_FILES;
        let counts_fit =
            fits(self.mount.cnv_files, self.cnv.len()) && fits(self.mount.seq_files, self.seq.len());
        let account_fits = self.account.fits(self.mount.seq_files);
        if block_is_known(self.mount.block) && counts_fit && account_fits {
            Ok(())
        } else {
            Err(Refusal::Impossible)
        }
    }
}

fn parse_name(name: &[u8]) -> Option<(FileKind, u32)> {
    let (kind, digits) = if let Some(digits) = name.strip_prefix(b"cnv/") {
        (FileKind::Conventional, digits)
    } else {
        (FileKind::Sequential, name.strip_prefix(b"seq/")?)
    };
    let leading_zero = digits.len() > 1 && digits[0] == b'0';
    if leading_zero || !digits.iter().all(u8::is_ascii_digit) {
        return None;
    }
    // Fails for no digits and for a number that is too large for any file.
    let number = std::str::from_utf8(digits).ok()?.parse().ok()?;
    Some((kind, number))
}

/// What number 10 asks of a row, whatever it holds and whatever the account says.
pub fn is_possible(row: &Row, kind: FileKind, block: u64) -> bool {
    let whole = |value: u64, unit: u64| value != 0 && value.is_multiple_of(unit);
    let placed = whole(row.start, block / SECTOR)
        && whole(row.capacity, block)
        && sum_within(row.start, row.capacity / SECTOR, DISK_LIMIT);
    let sized = row.size.is_multiple_of(block)
        && match (row.access, kind) {
            (Access::None, _) => row.size == 0,
            (_, FileKind::Conventional) => row.size == row.capacity,
            (_, FileKind::Sequential) => row.size <= row.capacity,
        };
    let accessible = match row.condition {
        Condition::Healthy => true,
        Condition::ReadOnly => row.access != Access::Write,
        Condition::Offline => row.access == Access::None,
    };
    let openable = !is_open(row) || row.access == Access::Write;
    placed && sized && accessible && openable
}

/// A row with nothing outstanding as a call leaves it that got this reply. A sequential file counts its opens.
fn left_by(request: &Request, reply: &Reply, kind: FileKind, row: &Row) -> Row {
    let opens = match (kind, request) {
        (FileKind::Sequential, Request::Open) => row.opens + 1,
        (FileKind::Sequential, Request::Close) => row.opens - 1,
        _ => row.opens,
    };
    let held = match *reply {
        Reply::Done(_) => Held::Nothing,
        Reply::Issued(command) => Held::Command(command),
    };
    Row { opens, held, ..*row }
}

/// What a call on a possible row with nothing outstanding is answered. It doesn't look at what the row holds. The limits
/// come last, and with the option alone.
fn decide(
    mount: &Mount,
    account: &Account,
    kind: FileKind,
    row: &Row,
    request: &Request,
) -> Result<Reply, Refusal> {
    if mount.read_only && needed_access(kind, request) == Some(Access::Write) {
        return Err(Refusal::ReadOnlyMount);
    }
    let reply = decide_unmarked(&Terms::of(mount), kind, row, request)?;
    if mount.explicit_open && *request == Request::Open {
        account.check_limits(row, &left_by(request, &reply, kind, row))?;
    }
    Ok(reply)
}

/// What a call asks of the mount beside the mark.
#[derive(Clone, Copy, Debug, PartialEq, Eq)]
pub struct Terms {
    pub block: u64,
    pub explicit_open: bool,
}

impl Terms {
    pub fn of(mount: &Mount) -> Terms {
        Terms { block: mount.block, explicit_open: mount.explicit_open }
    }
}

/// "A close skips 3 and 4", and a conventional file's open too; None for those. What needs write access needs a mount
/// that isn't read-only.
fn needed_access(kind: FileKind, request: &Request) -> Option<Access> {
    match (request, kind) {
        (Request::Close, _) | (Request::Open, FileKind::Conventional) => None,
        (Request::Read { .. }, _) => Some(Access::Read),
        (Request::Write { .. } | Request::Truncate { .. } | Request::Flush | Request::Open, _) => {
            Some(Access::Write)
        }
    }
}

/// The same on a mount without the read-only mark and with an account without limits.
pub fn decide_unmarked(
    terms: &Terms,
    kind: FileKind,
    row: &Row,
    request: &Request,
) -> Result<Reply, Refusal> {
    if needed_access(kind, request).is_some_and(|needed| row.access < needed) {
        return Err(Refusal::Access);
    }
    match *request {
        Request::Read { offset, length } => read(row, offset, length),
        Request::Write { offset, length } => write(terms, kind, row, offset, length),
        Request::Truncate { size } => truncate(kind, row, size),
        Request::Flush => Ok(issue(row, Operation::Flush, 0, 0)),
        // "On cnv both are answered 0 after 2."
        Request::Open | Request::Close if kind == FileKind::Conventional => Ok(Reply::Done(0)),
        Request::Open => open(terms, row),
        Request::Close => close(terms, row),
    }
}

fn read(row: &Row, offset: u64, length: u64) -> Result<Reply, Refusal> {
    if !sum_within(offset, length, row.capacity) {
        return Err(Refusal::BeyondCapacity);
    }
    let count = length.min(row.size.saturating_sub(offset));
    if count == 0 {
        return Ok(Reply::Done(0));
    }
    Ok(issue(row, Operation::Read, offset, count))
}

fn write(terms: &Terms, kind: FileKind, row: &Row, offset: u64, length: u64) -> Result<Reply, Refusal> {
    if terms.explicit_open && kind == FileKind::Sequential && !is_open(row) {
        return Err(Refusal::NotOpen);
    }
    if !sum_within(offset, length, row.capacity) {
        return Err(Refusal::BeyondCapacity);
    }
    let aligned = offset.is_multiple_of(terms.block) && length.is_multiple_of(terms.block);
    if kind == FileKind::Sequential && !(aligned && offset == row.size) {
        return Err(Refusal::NotAppending);
    }
    if length == 0 {
        return Ok(Reply::Done(0));
    }
    Ok(issue(row, Operation::Write, offset, length))
}

fn truncate(kind: FileKind, row: &Row, size: u64) -> Result<Reply, Refusal> {
    if kind == FileKind::Conventional || (size != 0 && size != row.capacity) {
        return Err(Refusal::Access);
    }
    if size == row.size {
        return Ok(Reply::Done(0));
    }
    let operation = if size == 0 { Operation::Reset } else { Operation::Finish };
    Ok(issue(row, operation, 0, 0))
}

/// "The first open of a file that isn't full commands a zone open", with the option; "others are answered 0".
fn open(terms: &Terms, row: &Row) -> Result<Reply, Refusal> {
    if row.opens >= MAX_OPENS {
        return Err(Refusal::TooManyOpens);
    }
    if terms.explicit_open && !is_open(row) && row.size < row.capacity {
        return Ok(issue(row, Operation::Open, 0, 0));
    }
    Ok(Reply::Done(0))
}

/// "The last close of one neither empty nor full a zone close", with the option.
fn close(terms: &Terms, row: &Row) -> Result<Reply, Refusal> {
    if !is_open(row) {
        return Err(Refusal::NotOpen);
    }
    let begun = row.size != 0 && row.size < row.capacity;
    if terms.explicit_open && row.opens == 1 && begun {
        return Ok(issue(row, Operation::Close, 0, 0));
    }
    Ok(Reply::Done(0))
}

fn issue(row: &Row, operation: Operation, offset: u64, length: u64) -> Reply {
    Reply::Issued(Command { operation, address: row.start * SECTOR + offset, length })
}
