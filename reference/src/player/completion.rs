//! Digesting a completion: success, or failure with the zone's record.

use super::calls::{decide_unmarked, is_possible, Reply, Request, Terms};
use super::tape::Named;
use super::types::{
    sum_within, Access, Command, Condition, FileKind, Held, Operation, Policy, Reason, Refusal, Row, Volume,
    SECTOR,
};
use super::zone::{Zone, RECORD};

impl Volume {
    /// The file's command was done: gives the count of a read or write, else 0.
    pub fn succeed(&mut self, kind: FileKind, number: u32) -> Result<u64, Refusal> {
        let (row, command) = self.checked_command(kind, number)?;
        let size = match command.operation {
            Operation::Write if kind == FileKind::Sequential => row.size + command.length,
            Operation::Reset => 0,
            Operation::Finish => row.capacity,
            Operation::Read | Operation::Write => row.size,
            Operation::Flush | Operation::Open | Operation::Close => row.size,
        };
        self.store(kind, number, Row { size, held: Held::Nothing, ..row });
        Ok(command.length)
    }

    /// The disk failed the file's command and reports a zone. `Ok` is answer 7, with the file's new size.
    pub fn fail(
        &mut self,
        kind: FileKind,
        number: u32,
        record: &[u8],
        capacity_given: bool,
    ) -> Result<u64, Refusal> {
        let (row, command) = self.checked_command(kind, number)?;
        if record.len() != RECORD {
            return Err(Refusal::RecordMismatch(Reason::NoRecord));
        }
        let zone = Zone::decode(record, capacity_given);
        // The record's own faults come first; it need not start where another zone ended.
        let reason = zone.fault(self.mount.block).or_else(|| mismatch(&zone, kind, &row));
        if let Some(reason) = reason {
            return Err(Refusal::RecordMismatch(reason));
        }
        let mut after = row.idle();
        if needs_recovery(command.operation, kind, &row, &zone) {
            let policy = self.mount.policy;
            after = recover(policy, kind, &after, &zone);
            after.opens = opens_left(command.operation, &after);
            // What other files have outstanding stays so.
            self.mount.read_only |= policy == Policy::RemountReadOnly;
        }
        self.store(kind, number, after);
        Ok(after.size)
    }

    /// The same for a completion as a tape has it. With a kind byte that no file has, there is no such file.
    pub fn recorded_success(&mut self, named: &Named) -> Result<u64, Refusal> {
        let (kind, number) = self.named_file(named)?;
        self.succeed(kind, number)
    }

    /// On a tape the capacity is always given.
    pub fn recorded_failure(&mut self, named: &Named, record: &[u8]) -> Result<u64, Refusal> {
        let (kind, number) = self.named_file(named)?;
        self.fail(kind, number, record, true)
    }

    /// What a completion checks before it looks at a record: 10 (counts), 1, 8, 10 (row, then the command).
    fn checked_command(&self, kind: FileKind, number: u32) -> Result<(Row, Command), Refusal> {
        if !self.existing_row(kind, number)?.held.is_outstanding() {
            return Err(Refusal::NothingOutstanding);
        }
        let row = self.checked_row(kind, number)?;
        let command = row.held.command().ok_or(Refusal::Impossible)?;
        if !is_issuable(&Terms::of(&self.mount), kind, &row, &command) {
            return Err(Refusal::Impossible);
        }
        Ok((row, command))
    }
}

/// Whether some call on the file would issue this command. Its own address and length name the only
/// candidate: a read that is cut at the size commands the same as the shorter read. The mount's mark doesn't
/// count, as another file's failure may have set it since, nor do account and limits.
fn is_issuable(terms: &Terms, kind: FileKind, row: &Row, command: &Command) -> bool {
    let Some(offset) = command.address.checked_sub(row.start * SECTOR) else {
        return false;
    };
    let request = match command.operation {
        Operation::Read => Request::Read { offset, length: command.length },
        Operation::Write => Request::Write { offset, length: command.length },
        Operation::Reset => Request::Truncate { size: 0 },
        Operation::Finish => Request::Truncate { size: row.capacity },
        Operation::Flush => Request::Flush,
        Operation::Open => Request::Open,
        Operation::Close => Request::Close,
    };
    let issues = |before: &Row| decide_unmarked(terms, kind, before, &request) == Ok(Reply::Issued(*command));
    row_before(command.operation, row).is_some_and(|row| is_possible(&row, kind, terms.block) && issues(&row))
}

/// "10 takes a held open or close as its file stood before that call." None if it can't have stood so.
fn row_before(operation: Operation, row: &Row) -> Option<Row> {
    let opens = match operation {
        Operation::Open => row.opens.checked_sub(1)?,
        Operation::Close => row.opens.checked_add(1)?,
        _ => row.opens,
    };
    Some(Row { opens, ..*row })
}

/// Why a good zone can't be what the file's command failed on.
fn mismatch(zone: &Zone, kind: FileKind, row: &Row) -> Option<Reason> {
    if !is_of_file(zone, kind, row) {
        Some(Reason::OtherZone)
    } else if is_better(zone, kind, row) {
        Some(Reason::BetterCondition)
    } else {
        None
    }
}

/// A sequential file is one zone; a conventional one may be several.
pub fn is_of_file(zone: &Zone, kind: FileKind, row: &Row) -> bool {
    match kind {
        FileKind::Sequential => {
            !zone.is_conventional() && zone.start == row.start && zone.capacity == row.capacity / SECTOR
        }
        FileKind::Conventional => {
            let end = row.start + row.capacity / SECTOR;
            zone.is_conventional() && zone.start >= row.start && sum_within(zone.start, zone.length, end)
        }
    }
}

/// A sequential file's zone can't have got better. A conventional file's may be another one than that which got worse.
pub fn is_better(zone: &Zone, kind: FileKind, row: &Row) -> bool {
    kind == FileKind::Sequential && zone.health() < row.condition
}

/// A read that failed in a healthy zone, of which as much is written as the file's size says, recovers nothing.
fn needs_recovery(operation: Operation, kind: FileKind, row: &Row, zone: &Zone) -> bool {
    let size_agrees =
        kind == FileKind::Conventional || (zone.health() == Condition::Healthy && row.size == zone.written());
    let harmless = operation == Operation::Read && zone.health() == Condition::Healthy && size_agrees;
    !harmless
}

#[derive(Clone, Copy)]
enum NewSize {
    Fixed,
    AsIs,
    Zero,
}

/// The recovery table: the size's rule, and the most access that is left.
fn table_entry(policy: Policy, condition: Condition) -> (NewSize, Access) {
    match (policy, condition) {
        (_, Condition::Offline) | (Policy::ZoneOffline, _) => (NewSize::Zero, Access::None),
        (_, Condition::ReadOnly) => (NewSize::AsIs, Access::Read),
        (Policy::ZoneReadOnly, Condition::Healthy) => (NewSize::Fixed, Access::Read),
        (Policy::RemountReadOnly | Policy::Repair, Condition::Healthy) => (NewSize::Fixed, Access::Write),
    }
}

fn recover(policy: Policy, kind: FileKind, row: &Row, zone: &Zone) -> Row {
    let (rule, most) = table_entry(policy, zone.health());
    let size = match rule {
        NewSize::Fixed if kind == FileKind::Sequential => zone.written(),
        NewSize::Fixed | NewSize::AsIs => row.size,
        NewSize::Zero => 0,
    };
    Row { size, condition: zone.health(), access: row.access.min(most), ..*row }
}

/// A file is open until "a failed open or the loss of write access"; `after` is its row as recovered.
fn opens_left(operation: Operation, after: &Row) -> u64 {
    if operation == Operation::Open || after.access != Access::Write {
        0
    } else {
        after.opens
    }
}
