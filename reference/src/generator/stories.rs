//! Short stories of files that are opened, used and closed by hand. Calls at random seldom come in such an order.

use super::random::Random;
use super::records::encode;
use super::runs::{do_command, Course};
use crate::disk::consistency::Run;
use crate::player::calls::{Call, Request};
use crate::player::tape::{CallRecord, Record};
use crate::player::types::{Access, FileKind, Row};

/// One call of a story; what it asks for follows from the file as it is then.
#[derive(Clone, Copy)]
enum Act {
    Open,
    Write,
    Finish,
    Reset,
    Close,
}

/// What is told of one file.
const STORIES: [&[Act]; 8] = [
    &[Act::Open, Act::Write, Act::Close],
    &[Act::Open, Act::Write, Act::Close, Act::Close],
    &[Act::Open, Act::Open, Act::Write, Act::Close, Act::Close],
    &[Act::Write, Act::Open, Act::Write],
    &[Act::Open, Act::Finish, Act::Close],
    &[Act::Open, Act::Reset, Act::Close],
    &[Act::Open, Act::Finish, Act::Reset, Act::Write, Act::Close],
    &[Act::Open, Act::Reset],
];

/// One file's story, or the opening of many files, as limits are met so.
pub fn tell(random: &mut Random, run: &mut Run, course: &Course, tape: &mut Vec<u8>) -> Result<(), String> {
    if random.percent(35) {
        return open_many(random, run, course, tape);
    }
    let Some(number) = writable_file(random, run) else { return Ok(()) };
    let story = random.pick(&STORIES);
    for &act in story {
        let row = *run.volume.row(FileKind::Sequential, number);
        let request = request(act, &row, run.volume.mount.block);
        call_and_do(random, run, course, &on(number, request), tape)?;
    }
    Ok(())
}

/// Opens a sequential file with room, if one is found, writes a block and closes it: the close is left outstanding.
pub fn leave_a_close(
    random: &mut Random,
    run: &mut Run,
    course: &Course,
    tape: &mut Vec<u8>,
) -> Result<(), String> {
    let roomy = |row: &Row| row.access == Access::Write && row.size + run.volume.mount.block < row.capacity;
    let Some(number) = find_file(random, run, roomy) else { return Ok(()) };
    let well = Course { failures: 0, ..*course };
    for act in [Act::Open, Act::Write] {
        let row = *run.volume.row(FileKind::Sequential, number);
        call_and_do(random, run, &well, &on(number, request(act, &row, run.volume.mount.block)), tape)?;
    }
    call(run, &on(number, Request::Close), tape)
}

pub fn call(run: &mut Run, call: &Call, tape: &mut Vec<u8>) -> Result<(), String> {
    let record = CallRecord::of(call);
    encode(&Record::Call(record), tape);
    run.recorded_call(&record)
}

fn on(number: u32, request: Request) -> Call {
    Call { kind: FileKind::Sequential, number, request }
}

/// Neighbours, so that limits are met and passed. Half of the commands are done at once.
fn open_many(random: &mut Random, run: &mut Run, course: &Course, tape: &mut Vec<u8>) -> Result<(), String> {
    let files = run.volume.mount.seq_files as u64;
    let first = random.below(files);
    for number in 0..files.min(6) {
        let open = on(((first + number) % files) as u32, Request::Open);
        if random.percent(50) {
            call_and_do(random, run, course, &open, tape)?;
        } else {
            call(run, &open, tape)?;
        }
    }
    Ok(())
}

/// The command that the call issues, if it does, is done.
fn call_and_do(
    random: &mut Random,
    run: &mut Run,
    course: &Course,
    asked: &Call,
    tape: &mut Vec<u8>,
) -> Result<(), String> {
    call(run, asked, tape)?;
    match run.volume.outstanding(asked.kind, asked.number) {
        Some(of) => do_command(random, run, course, &of, tape),
        None => Ok(()),
    }
}

/// A sequential file with write access, if one is found; now and then rather a full one.
fn writable_file(random: &mut Random, run: &Run) -> Option<u32> {
    let full_wanted = random.percent(35);
    let wanted = |row: &Row| row.access == Access::Write && (!full_wanted || row.size == row.capacity);
    find_file(random, run, wanted)
}

/// A sequential file that is as wanted. A few are looked at.
fn find_file(random: &mut Random, run: &Run, wanted: impl Fn(&Row) -> bool) -> Option<u32> {
    let tries = (0..8).map(|_| random.below(run.volume.mount.seq_files as u64) as u32);
    tries.into_iter().find(|&number| wanted(run.volume.row(FileKind::Sequential, number)))
}

/// A write is of one block at the size; on a full file it is refused.
fn request(act: Act, row: &Row, block: u64) -> Request {
    match act {
        Act::Open => Request::Open,
        Act::Write => Request::Write { offset: row.size, length: block },
        Act::Finish => Request::Truncate { size: row.capacity },
        Act::Reset => Request::Truncate { size: 0 },
        Act::Close => Request::Close,
    }
}
