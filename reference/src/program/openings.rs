//! Opens and closes by hand, and what came of them on a tape.

use std::collections::BTreeSet;

use crate::disk::consistency::add_each;
use crate::player::account::is_open;
use crate::player::calls::Reply;
use crate::player::play::{mount_volume, read_input};
use crate::player::tape::{CallRecord, Named, Next, Reader, Record, Verb};
use crate::player::types::{Access, Account, FileKind, Operation, Refusal, Row, Volume};

/// So many cases are counted.
pub const CASES: usize = 32;
/// What they are, in the order of `Case`. Those from the cnv files' on say what option they are of; those before are of
/// sequential files with `explicit-open`, but for 13 of a close, 14, a close on a read-only mount, and the losses,
/// which come without it too.
pub const CASE_NAMES: [&str; CASES] = [
    "a first open commanded",
    "a further open answered",
    "a first open of a full file",
    "a last close commanded",
    "a last close of an empty file",
    "a last close of a full file",
    "a close that isn't the last",
    "a failed open",
    "a failed close",
    "opens lost with the write access",
    "13 of a close after a loss",
    "13 of a close without a loss",
    "13 of a write",
    "13 of a write before 5",
    "13 of a write before 6",
    "11 of an open",
    "12 of an open",
    "11 of an open before 12",
    "11 with its limit met exactly by an open",
    "12 with its limit met exactly by an open",
    "12 with the active count above its limit",
    "a reset of a full open file",
    "a reset of a full open file that takes the active count above its limit",
    "3 of an open before 11 or 12",
    "4 of an open before 11 or 12",
    "14 of an open",
    "a close on a read-only mount",
    "an open of a cnv file",
    "a close of a cnv file",
    "an open or a close of a cnv file that would be 3 or 4 of a seq file",
    "a first open and a last close without explicit-open",
    "an open without explicit-open above a limit",
];

#[derive(Clone, Copy)]
enum Case {
    FirstOpen,
    FurtherOpen,
    FullOpen,
    LastClose,
    EmptyClose,
    FullClose,
    EarlierClose,
    FailedOpen,
    FailedClose,
    Loss,
    NoOpenAfterLoss,
    NoOpen,
    ShutWrite,
    ShutWriteBeyond,
    ShutWriteElsewhere,
    OpenLimit,
    ActiveLimit,
    BothLimits,
    OpenLimitMet,
    ActiveLimitMet,
    ActiveLimitPassed,
    FullReset,
    FullResetAboveLimit,
    MarkBeforeLimits,
    AccessBeforeLimits,
    TooManyOpens,
    MarkedClose,
    CnvOpen,
    CnvClose,
    CnvUnchecked,
    CountedAlone,
    LimitWithoutOption,
}

/// How often each case came on tapes.
#[derive(Clone, Copy, Debug, PartialEq, Eq)]
pub struct Openings {
    pub counts: [u64; CASES],
}

impl Default for Openings {
    fn default() -> Openings {
        Openings { counts: [0; CASES] }
    }
}

impl Openings {
    pub fn count_tape(&mut self, tape: &[u8]) {
        let mut reader = Reader::new(tape);
        let Some((_, input)) = read_input(&mut reader) else { return };
        let Ok(volume) = mount_volume(&input) else { return };
        let mut watch =
            Watch { volume, lost: BTreeSet::new(), met: Met::default(), seen: Openings::default() };
        while let Next::Record(record) = reader.read() {
            match record {
                Record::Call(call) => watch.call(&call),
                Record::Good(named) => watch.completion(&named, None),
                Record::Failed(named, zone) => watch.completion(&named, Some(zone)),
                Record::Block(_) | Record::SuperBlock(_) | Record::Report(_) | Record::Mount { .. } => break,
            }
        }
        self.add(&watch.seen);
    }

    pub fn add(&mut self, other: &Openings) {
        add_each(&mut self.counts, &other.counts);
    }

    fn count(&mut self, case: Case, came: bool) {
        self.counts[case as usize] += u64::from(came);
    }
}

/// Whether an open has taken a number to its limit, and the number has stayed there.
#[derive(Default)]
struct Met {
    open: bool,
    active: bool,
}

/// Follows a tape as the player does.
struct Watch {
    volume: Volume,
    /// Sequential files whose opens went without a close, and that weren't opened since.
    lost: BTreeSet<u32>,
    met: Met,
    seen: Openings,
}

impl Watch {
    fn call(&mut self, record: &CallRecord) {
        let file =
            record.named().file().filter(|&(kind, number)| (number as usize) < self.volume.files(kind));
        let before = file.map(|(kind, number)| *self.volume.row(kind, number));
        let account = self.volume.account;
        let answer = self.volume.recorded_call(record);
        if let (Some((kind, number)), Some(row)) = (file, before) {
            match (kind, record.verb) {
                (FileKind::Sequential, Verb::Open) => self.open(number, &row, &account, &answer),
                (FileKind::Sequential, Verb::Close) => self.close(number, &row, &answer),
                (FileKind::Sequential, Verb::Write) => self.write(record, &row, &answer),
                (FileKind::Conventional, Verb::Open | Verb::Close) => self.of_cnv(record, &row, &answer),
                _ => {}
            }
        }
        self.keep_met();
    }

    fn open(&mut self, number: u32, row: &Row, account: &Account, answer: &Result<Reply, Refusal>) {
        let option = self.volume.mount.explicit_open;
        let (first, full) = (!is_open(row), row.size == row.capacity);
        match answer {
            Ok(reply) => {
                let issued = matches!(reply, Reply::Issued(_));
                self.lost.remove(&number);
                self.seen.count(Case::FirstOpen, issued);
                self.seen.count(Case::FurtherOpen, option && !first);
                self.seen.count(Case::FullOpen, option && first && full);
                let above = is_met(account.open, account.open_limit);
                self.seen.count(Case::LimitWithoutOption, !option && first && above);
                self.note_met(account);
            }
            Err(refusal) => self.refused_open(row, account, *refusal),
        }
    }

    fn refused_open(&mut self, row: &Row, account: &Account, refusal: Refusal) {
        let (first, empty) = (!is_open(row), row.size == 0);
        let open_met = first && is_met(account.open, account.open_limit);
        let active_met = first && empty && is_met(account.active, account.active_limit);
        let limited = self.volume.mount.explicit_open && (open_met || active_met);
        match refusal {
            Refusal::OpenLimit => {
                self.seen.count(Case::OpenLimit, true);
                self.seen.count(Case::BothLimits, active_met);
                self.seen.count(Case::OpenLimitMet, self.met.open);
            }
            Refusal::ActiveLimit => {
                self.seen.count(Case::ActiveLimit, true);
                self.seen.count(Case::ActiveLimitMet, self.met.active);
                self.seen.count(Case::ActiveLimitPassed, account.active > account.active_limit);
            }
            Refusal::ReadOnlyMount => self.seen.count(Case::MarkBeforeLimits, limited),
            Refusal::Access => self.seen.count(Case::AccessBeforeLimits, limited),
            Refusal::TooManyOpens => self.seen.count(Case::TooManyOpens, true),
            _ => {}
        }
    }

    fn close(&mut self, number: u32, row: &Row, answer: &Result<Reply, Refusal>) {
        let (option, read_only) = (self.volume.mount.explicit_open, self.volume.mount.read_only);
        let last = row.opens == 1;
        match answer {
            Ok(reply) => {
                self.seen.count(Case::LastClose, matches!(reply, Reply::Issued(_)));
                self.seen.count(Case::EmptyClose, option && last && row.size == 0);
                self.seen.count(Case::FullClose, option && last && row.size == row.capacity);
                self.seen.count(Case::EarlierClose, option && !last);
                self.seen.count(Case::MarkedClose, read_only);
                self.seen.count(Case::CountedAlone, !option && last);
            }
            Err(Refusal::NotOpen) => {
                let after_loss = self.lost.contains(&number);
                self.seen.count(Case::NoOpenAfterLoss, after_loss);
                self.seen.count(Case::NoOpen, !after_loss);
            }
            Err(_) => {}
        }
    }

    /// The same write on a file that is open tells what 13 came before.
    fn write(&mut self, record: &CallRecord, row: &Row, answer: &Result<Reply, Refusal>) {
        if *answer != Err(Refusal::NotOpen) {
            return;
        }
        let mut trial = self.volume.clone();
        trial.store(FileKind::Sequential, record.number, Row { opens: 1, ..*row });
        let next = trial.recorded_call(record);
        self.seen.count(Case::ShutWrite, true);
        self.seen.count(Case::ShutWriteBeyond, next == Err(Refusal::BeyondCapacity));
        self.seen.count(Case::ShutWriteElsewhere, next == Err(Refusal::NotAppending));
    }

    fn of_cnv(&mut self, record: &CallRecord, row: &Row, answer: &Result<Reply, Refusal>) {
        let answered = answer.is_ok();
        let unchecked = self.volume.mount.read_only || row.access != Access::Write;
        self.seen.count(Case::CnvOpen, answered && record.verb == Verb::Open);
        self.seen.count(Case::CnvClose, answered && record.verb == Verb::Close);
        self.seen.count(Case::CnvUnchecked, answered && unchecked);
    }

    fn completion(&mut self, named: &Named, failed: Option<&[u8]>) {
        let file = named.file();
        let held = file.and_then(|(kind, number)| self.volume.outstanding(kind, number));
        let before = held.map(|of| *self.volume.row(of.kind, of.number));
        let answer = match failed {
            None => self.volume.recorded_success(named),
            Some(zone) => self.volume.recorded_failure(named, zone),
        };
        if let (Ok(_), Some(of), Some(row)) = (answer, held, before) {
            if of.kind == FileKind::Sequential {
                self.digested(of.number, of.command.operation, &row, failed.is_some());
            }
        }
        self.keep_met();
    }

    /// Answered 0 or 7; `row` is the sequential file's as it was.
    fn digested(&mut self, number: u32, operation: Operation, row: &Row, failed: bool) {
        let after = *self.volume.row(FileKind::Sequential, number);
        let account = self.volume.account;
        let was_full = row.size == row.capacity;
        if failed {
            self.seen.count(Case::FailedOpen, operation == Operation::Open);
            self.seen.count(Case::FailedClose, operation == Operation::Close);
            let loss = is_open(row) && !is_open(&after);
            self.seen.count(Case::Loss, loss && operation != Operation::Open);
            if loss {
                self.lost.insert(number);
            }
        } else if operation == Operation::Reset && was_full && is_open(row) && self.volume.mount.explicit_open
        {
            self.seen.count(Case::FullReset, true);
            let above = account.active_limit != 0 && account.active > account.active_limit;
            self.seen.count(Case::FullResetAboveLimit, above);
        }
    }

    /// An open was taken; `before` is the account as it was then.
    fn note_met(&mut self, before: &Account) {
        let after = self.volume.account;
        self.met.open |= after.open > before.open && after.open == after.open_limit;
        self.met.active |= after.active > before.active && after.active == after.active_limit;
    }

    fn keep_met(&mut self) {
        let account = self.volume.account;
        self.met.open &= account.open == account.open_limit;
        self.met.active &= account.active == account.active_limit;
    }
}

/// Whether one more would be above the limit.
fn is_met(number: u32, limit: u32) -> bool {
    limit != 0 && number >= limit
}
