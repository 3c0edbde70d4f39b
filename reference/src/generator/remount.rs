//! Files that are busy while another one's failure makes the mount read-only. A run under remount-ro has that moment once
//! at most, so it is made a lively one.

use super::random::Random;
use super::runs::{do_command, Course};
use super::stories::{call, leave_a_close};
use crate::disk::consistency::Run;
use crate::player::calls::{Call, Request};
use crate::player::types::{Access, FileKind, Operation, Outstanding, Policy, Row};

/// Whether the moment can still come.
fn is_ahead(run: &Run) -> bool {
    run.volume.mount.policy == Policy::RemountReadOnly && !run.volume.mount.read_only
}

/// Several files get commands that a read-only mount wouldn't issue, and one of these fails. The others are left to be
/// done later.
pub fn fail_one_of_many(
    random: &mut Random,
    run: &mut Run,
    course: &Course,
    tape: &mut Vec<u8>,
) -> Result<(), String> {
    if !is_ahead(run) {
        return Ok(());
    }
    if run.volume.mount.explicit_open {
        leave_a_close(random, run, course, tape)?;
    }
    for _ in 0..random.between(4, 14) {
        issue(random, run, course, tape)?;
    }
    let writes = |of: &&Outstanding| of.command.operation != Operation::Read;
    let failing: Vec<Outstanding> = run.outstanding().iter().filter(writes).copied().collect();
    if failing.is_empty() {
        return Ok(());
    }
    let of = random.pick(&failing);
    do_command(random, run, &Course { failures: 100, ..*course }, &of, tape)
}

/// A command for some file that can be written and isn't busy, if one is found.
fn issue(random: &mut Random, run: &mut Run, course: &Course, tape: &mut Vec<u8>) -> Result<(), String> {
    let kind = if random.percent(25) { FileKind::Conventional } else { FileKind::Sequential };
    let number = random.below(run.volume.files(kind).min(12) as u64) as u32;
    let row = *run.volume.row(kind, number);
    if row.access != Access::Write || row.held.is_outstanding() {
        return Ok(());
    }
    if must_be_opened(run, kind, &row) {
        call(run, &Call { kind, number, request: Request::Open }, tape)?;
        match run.volume.outstanding(kind, number) {
            // Most of the opens are left to be done later, as others are.
            Some(of) if random.percent(40) => {
                do_command(random, run, &Course { failures: 0, ..*course }, &of, tape)?
            }
            _ => return Ok(()),
        }
    }
    let row = *run.volume.row(kind, number);
    let request = request(random, kind, &row, run.volume.mount.block);
    call(run, &Call { kind, number, request }, tape)
}

/// Without that the file isn't written.
fn must_be_opened(run: &Run, kind: FileKind, row: &Row) -> bool {
    run.volume.mount.explicit_open && kind == FileKind::Sequential && row.opens == 0
}

/// One that issues a command, mostly. A full file isn't written or finished, and an empty one isn't reset.
fn request(random: &mut Random, kind: FileKind, row: &Row, block: u64) -> Request {
    let sequential = kind == FileKind::Sequential;
    let offset = if sequential { row.size } else { row.capacity - block };
    match random.weighted(&[24, 12, 34, 12, 18]) {
        0 if sequential && row.size > 0 => Request::Truncate { size: 0 },
        0 | 1 if sequential && row.size < row.capacity => Request::Truncate { size: row.capacity },
        2 if offset < row.capacity => Request::Write { offset, length: block },
        4 if sequential && row.opens == 1 => Request::Close,
        _ => Request::Flush,
    }
}
