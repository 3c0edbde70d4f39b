//! Which answers come in a run on a truthful disk, and that a refusal moves nothing.

use super::accounts::true_account;
use super::truth::Shown;
use crate::player::calls::Reply;
use crate::player::tape::{CallRecord, Named, Verb};
use crate::player::types::{FileKind, Held, Refusal, Volume};

pub const GOOD: u32 = 0;
pub const NO_SUCH_FILE: u32 = 1;
pub const OUTSTANDING: u32 = 2;
pub const FAILED: u32 = 7;
pub const NOTHING_OUTSTANDING: u32 = 8;
pub const RECORD_MISMATCH: u32 = 9;
pub const IMPOSSIBLE: u32 = 10;
pub const OPEN_LIMIT: u32 = 11;
pub const ACTIVE_LIMIT: u32 = 12;

/// What a call or a completion finds of the file that it names.
#[derive(Clone, Copy, Debug, PartialEq, Eq)]
pub enum Found {
    NoFile,
    /// Nothing is outstanding on it, whatever is on others.
    Idle,
    Busy,
}

/// Hands a completion of the named file to the volume and gives the answer's number.
pub fn complete(volume: &mut Volume, named: &Named, failed: Option<&Shown>) -> u32 {
    let file = volume.named_file(named);
    let answer = file.and_then(|(kind, number)| match failed {
        None => volume.succeed(kind, number).map(|_| GOOD),
        Some(shown) => volume.fail(kind, number, &shown.record, shown.capacity_given).map(|_| FAILED),
    });
    answer.unwrap_or_else(Refusal::number)
}

/// The number of an answer to a call.
pub fn number_of(answer: &Result<Reply, Refusal>) -> u32 {
    answer.map_or_else(Refusal::number, |_| GOOD)
}

/// What a call on an idle file can be refused with.
fn refusals_of(verb: Verb) -> &'static [u32] {
    match verb {
        Verb::Read => &[4, 5],
        Verb::Write => &[3, 4, 13, 5, 6],
        Verb::Truncate | Verb::Flush => &[3, 4],
        Verb::Open => &[3, 4, 14, OPEN_LIMIT, ACTIVE_LIMIT],
        Verb::Close => &[13],
    }
}

/// What is wrong with the answer to a call: 1 is for a file that isn't there and for nothing else, 2 for a busy one
/// and for nothing else, 10 never comes, and each of the others only where it is looked for.
pub fn call_fault(found: Found, verb: Verb, answer: &Result<Reply, Refusal>) -> Option<String> {
    let number = number_of(answer);
    let (what, may_come) = match found {
        Found::NoFile => ("a file that isn't there", number == NO_SUCH_FILE),
        Found::Idle => ("an idle file", number == GOOD || refusals_of(verb).contains(&number)),
        Found::Busy => ("a busy file", number == OUTSTANDING),
    };
    (!may_come).then(|| format!("a call on {what} is answered {number}"))
}

/// "Only 10, 11 and 12 may read" the account: without limits a call is answered the same, or 0 where they were in its way.
pub fn limit_fault(answer: &Result<Reply, Refusal>, without: &Result<Reply, Refusal>) -> Option<String> {
    let limited = matches!(number_of(answer), OPEN_LIMIT | ACTIVE_LIMIT);
    let as_expected = if limited { without.is_ok() } else { answer == without };
    (!as_expected).then(|| {
        let (with, without) = (number_of(answer), number_of(without));
        format!("a call is answered {with}, and {without} without limits")
    })
}

/// How many opens a call that isn't refused adds to a sequential file and takes from it.
fn opens_moved(record: &CallRecord) -> (u64, u64) {
    match (record.verb, record.named().file()) {
        (Verb::Open, Some((FileKind::Sequential, _))) => (1, 0),
        (Verb::Close, Some((FileKind::Sequential, _))) => (0, 1),
        _ => (0, 0),
    }
}

/// What is wrong with what a call moved: an issued command is stored in the row of its file, an open or a close is
/// counted there, with what follows from that in the account, and all else stays.
pub fn call_moved(
    record: &CallRecord,
    answer: &Result<Reply, Refusal>,
    before: &Volume,
    after: &Volume,
) -> Option<String> {
    let mut expected = before.clone();
    if let (Ok(reply), Some((kind, number))) = (answer, record.named().file()) {
        let row = expected.row_mut(kind, number);
        if let Reply::Issued(command) = reply {
            row.held = Held::Command(*command);
        }
        let (added, taken) = opens_moved(record);
        row.opens = (row.opens + added).saturating_sub(taken);
        if added + taken > 0 {
            expected.account = true_account(&expected);
        }
    }
    (*after != expected).then(|| match answer {
        Ok(Reply::Issued(_)) => "a call moved something beside the command in its row".to_string(),
        Ok(Reply::Done(_)) => "a call that was answered at once moved something".to_string(),
        Err(refusal) => format!("a refused call (answered {}) moved something", refusal.number()),
    })
}

/// What is wrong with the answer to a completion of the named file: it is another one than it must be, it is a
/// refusal and something moved, or it is none and the file's command is still outstanding.
pub fn completion_fault(
    named: &Named,
    must_be: u32,
    answer: u32,
    before: &Volume,
    after: &Volume,
) -> Option<String> {
    let refused = answer != GOOD && answer != FAILED;
    if refused && after != before {
        return Some(format!("is answered {answer} and moved something"));
    }
    if answer != must_be {
        return Some(format!("is answered {answer} and not {must_be}"));
    }
    let is_held = |(kind, number)| after.row(kind, number).held.is_outstanding();
    let still_held = !refused && named.file().is_some_and(is_held);
    still_held.then(|| format!("is answered {answer} and leaves the file's command outstanding"))
}
