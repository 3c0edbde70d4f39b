//! Files that have commands outstanding at the same time, and what came of that on a tape.

use crate::disk::consistency::add_each;
use crate::player::calls::Reply;
use crate::player::completion::is_of_file;
use crate::player::play::{mount_volume, read_input};
use crate::player::tape::{CallRecord, Named, Next, Reader, Record};
use crate::player::types::{FileKind, Operation, Outstanding, Reason, Refusal, Volume};
use crate::player::zone::Zone;

/// So many cases are counted.
pub const CASES: usize = 17;
/// What they are, in the order of `Case`. A busy file is one with a command outstanding.
pub const CASE_NAMES: [&str; CASES] = [
    "a call answered 0 while another file is busy",
    "a call answered 2 while another file is busy too",
    "three files busy at once",
    "a completion out of the order of issue",
    "a completion answered 8 while another file is busy",
    "a completion answered 1 by its number",
    "a completion answered 1 by its kind",
    "9 for a record of another busy file",
    "a recovery that makes the mount read-only while another file is busy",
    "a good write of a seq file whose mount became read-only meanwhile",
    "a good write of a cnv file whose mount became read-only meanwhile",
    "a good reset of a file whose mount became read-only meanwhile",
    "a good finish of a file whose mount became read-only meanwhile",
    "a good flush of a file whose mount became read-only meanwhile",
    "a completion answered 7 on a mount that is read-only",
    "a good open of a file whose mount became read-only meanwhile",
    "a good close of a file whose mount became read-only meanwhile",
];

#[derive(Clone, Copy)]
enum Case {
    CallBeside,
    BusyBeside,
    Three,
    OutOfOrder,
    IdleBeside,
    NoNumber,
    NoKind,
    OthersRecord,
    MarkBeside,
    MarkedSeqWrite,
    MarkedCnvWrite,
    MarkedReset,
    MarkedFinish,
    MarkedFlush,
    MarkedFailure,
    MarkedOpen,
    MarkedClose,
}

/// How often each case came on tapes.
#[derive(Clone, Copy, Debug, Default, PartialEq, Eq)]
pub struct Busy {
    pub counts: [u64; CASES],
}

impl Busy {
    pub fn count_tape(&mut self, tape: &[u8]) {
        let mut reader = Reader::new(tape);
        let Some((_, input)) = read_input(&mut reader) else { return };
        let Ok(volume) = mount_volume(&input) else { return };
        let mut watch = Watch { volume, issued: Vec::new(), seen: Busy::default() };
        while let Next::Record(record) = reader.read() {
            match record {
                Record::Call(call) => watch.call(&call),
                Record::Good(named) => watch.completion(&named, None),
                Record::Failed(named, zone) => watch.completion(&named, Some(zone)),
                Record::Block(_) | Record::SuperBlock(_) | Record::Report(_) | Record::Mount { .. } => break,
            }
        }
        self.add(&watch.seen);
    }

    pub fn add(&mut self, other: &Busy) {
        add_each(&mut self.counts, &other.counts);
    }

    fn count(&mut self, case: Case, came: bool) {
        self.counts[case as usize] += u64::from(came);
    }
}

/// A command that isn't completed yet, and whether the mount was read-only when it was issued.
struct Issued {
    command: Outstanding,
    marked: bool,
}

/// Follows a tape as the player does, with the commands in the order of issue.
struct Watch {
    volume: Volume,
    issued: Vec<Issued>,
    seen: Busy,
}

impl Watch {
    fn call(&mut self, record: &CallRecord) {
        let others = self.others(&record.named());
        let answer = self.volume.recorded_call(record);
        self.seen.count(Case::CallBeside, answer.is_ok() && others);
        self.seen.count(Case::BusyBeside, answer == Err(Refusal::Outstanding) && others);
        if let (Ok(Reply::Issued(command)), Some((kind, number))) = (answer, record.named().file()) {
            let marked = self.volume.mount.read_only;
            self.issued.push(Issued { command: Outstanding { kind, number, command }, marked });
            self.seen.count(Case::Three, self.issued.len() >= 3);
        }
    }

    fn completion(&mut self, named: &Named, failed: Option<&[u8]>) {
        let others = self.others(named);
        let marked = self.volume.mount.read_only;
        let answer = match failed {
            None => self.volume.recorded_success(named),
            Some(zone) => self.volume.recorded_failure(named, zone),
        };
        match answer {
            Ok(_) => self.digested(named, failed.is_some(), marked),
            Err(Refusal::NothingOutstanding) => self.seen.count(Case::IdleBeside, others),
            Err(Refusal::NoSuchFile) => {
                self.seen.count(Case::NoNumber, named.file().is_some());
                self.seen.count(Case::NoKind, named.file().is_none());
            }
            Err(Refusal::RecordMismatch(Reason::OtherZone)) => {
                let of_other = failed.is_some_and(|zone| self.is_of_a_busy_file(zone));
                self.seen.count(Case::OthersRecord, of_other);
            }
            Err(_) => {}
        }
    }

    /// Answered 0 or 7; `marked` is whether the mount was read-only before.
    fn digested(&mut self, named: &Named, failed: bool, marked: bool) {
        let Some(place) = self.place(named) else { return };
        let done = self.issued.remove(place);
        self.seen.count(Case::OutOfOrder, place > 0);
        self.seen.count(Case::MarkedFailure, failed && marked);
        let sets_mark = self.volume.mount.read_only && !marked;
        self.seen.count(Case::MarkBeside, sets_mark && !self.issued.is_empty());
        if !failed && marked && !done.marked {
            self.count_marked(&done.command);
        }
    }

    /// A command done well that couldn't have been issued any more, or a close, which could.
    fn count_marked(&mut self, done: &Outstanding) {
        let case = match (done.command.operation, done.kind) {
            // A read could have been.
            (Operation::Read, _) => return,
            (Operation::Write, FileKind::Sequential) => Case::MarkedSeqWrite,
            (Operation::Write, FileKind::Conventional) => Case::MarkedCnvWrite,
            (Operation::Reset, _) => Case::MarkedReset,
            (Operation::Finish, _) => Case::MarkedFinish,
            (Operation::Flush, _) => Case::MarkedFlush,
            (Operation::Open, _) => Case::MarkedOpen,
            (Operation::Close, _) => Case::MarkedClose,
        };
        self.seen.count(case, true);
    }

    fn place(&self, named: &Named) -> Option<usize> {
        let (kind, number) = named.file()?;
        self.issued.iter().position(|issued| issued.command.is_of(kind, number))
    }

    /// Whether another file than the named one is busy.
    fn others(&self, named: &Named) -> bool {
        self.issued.len() > usize::from(self.place(named).is_some())
    }

    /// The record was refused for the file that it came for, so it is another one's if it is any busy file's.
    fn is_of_a_busy_file(&self, record: &[u8]) -> bool {
        let zone = Zone::decode(record, true);
        let is_of = |of: &Outstanding| is_of_file(&zone, of.kind, self.volume.row(of.kind, of.number));
        self.issued.iter().any(|issued| is_of(&issued.command))
    }
}
