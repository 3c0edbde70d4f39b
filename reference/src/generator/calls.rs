//! Calls with arguments that matter: at the size, at the capacity, off the block, past every limit.

use super::random::Random;
use crate::player::tape::{CallRecord, Verb};
use crate::player::types::{Access, FileKind, Row, Volume};

/// Kind bytes that no file has.
pub const NO_KINDS: [u8; 4] = [2, 3, 128, 255];
/// Numbers that few disks have a file of, or none.
pub const HIGH_NUMBERS: [u64; 5] = [1021, 1022, 1023, 65_536, u32::MAX as u64];
pub const VERBS: [Verb; 6] = [Verb::Read, Verb::Write, Verb::Truncate, Verb::Flush, Verb::Open, Verb::Close];

/// A call on nothing in particular.
pub fn any_call(random: &mut Random) -> CallRecord {
    let (offset, length) = (random.below(1 << 20), random.below(1 << 20));
    CallRecord { verb: random.pick(&VERBS), kind: random.below(2) as u8, number: 0, offset, length }
}

/// The files of each kind that get most of the calls, so that much happens to each of them.
#[derive(Clone, Copy, Debug)]
pub struct Focus {
    pub first: u64,
    pub width: u64,
}

/// A call on one of the volume's files, mostly.
pub fn call(random: &mut Random, volume: &Volume, focus: &Focus) -> CallRecord {
    let (kind, number, row) = lively_file(random, volume, focus);
    let verb = VERBS[random.weighted(&weights(volume, kind, &row))];
    let block = volume.mount.block;
    let (offset, length) = match verb {
        Verb::Read => read_arguments(random, &row, block),
        Verb::Write => write_arguments(random, &row, block, kind == 1),
        Verb::Truncate => (random.word(), truncate_size(random, &row, block)),
        Verb::Flush | Verb::Open | Verb::Close => (random.word(), random.word()),
    };
    CallRecord { verb, kind, number, offset, length }
}

/// In the order of the verbs.
fn weights(volume: &Volume, kind: u8, row: &Row) -> [u64; 6] {
    let must_be_open = volume.mount.explicit_open && kind == 1;
    if volume.mount.read_only {
        // All but reads and closes are refused before they are looked at.
        [60, 9, 6, 6, 7, 12]
    } else if must_be_open && row.opens == 0 {
        // Writes are refused until the file is open.
        [14, 10, 13, 9, 48, 6]
    } else if must_be_open && row.size == row.capacity {
        // A reset makes it active, whatever the limit is.
        [16, 8, 44, 8, 9, 15]
    } else if must_be_open && row.opens > 1 {
        [14, 32, 13, 8, 5, 28]
    } else if must_be_open {
        [16, 36, 14, 9, 5, 20]
    } else {
        [22, 36, 17, 11, 8, 6]
    }
}

/// Looks a few times for a file that can be used at all.
fn lively_file(random: &mut Random, volume: &Volume, focus: &Focus) -> (u8, u32, Row) {
    let mut chosen = file(random, volume, focus);
    for _ in 0..4 {
        let row = row_of(volume, chosen).unwrap_or(NO_FILE);
        if is_wanted(random, &row) {
            break;
        }
        chosen = file(random, volume, focus);
    }
    let row = row_of(volume, chosen).unwrap_or(NO_FILE);
    (chosen.0, chosen.1, row)
}

/// Calls on the others are answered 4, or 2 while they are busy, and nothing else.
fn is_wanted(random: &mut Random, row: &Row) -> bool {
    let access = if random.percent(70) { Access::Write } else { Access::Read };
    let usable = row.access >= access || random.percent(10);
    let idle = !row.held.is_outstanding() || random.percent(18);
    usable && idle
}

/// Stands in for the row of a file that isn't there.
const NO_FILE: Row = Row { start: 8, capacity: 1 << 20, access: Access::Write, ..Row::EMPTY };

fn row_of(volume: &Volume, (kind, number): (u8, u32)) -> Option<Row> {
    let kind = if kind == 0 { FileKind::Conventional } else { FileKind::Sequential };
    let row = *volume.rows(kind).get(number as usize)?;
    (row.capacity != 0).then_some(row)
}

/// Kind byte and number.
fn file(random: &mut Random, volume: &Volume, focus: &Focus) -> (u8, u32) {
    if random.percent(2) {
        return (random.pick(&NO_KINDS), random.below(3) as u32);
    }
    let counts = [volume.mount.cnv_files as u64, volume.mount.seq_files as u64];
    let preferred = usize::from(random.percent(75));
    // A kind without files still gets a call now and then.
    let kind = if counts[preferred] == 0 && random.percent(97) { 1 - preferred } else { preferred };
    let count = counts[kind];
    let number = match random.weighted(&[70, 24, 3, 3]) {
        0 => (focus.first + random.below(count.min(focus.width))) % count.max(1),
        1 => random.below(count),
        2 => count + random.below(2),
        _ => random.pick(&HIGH_NUMBERS),
    };
    (kind as u8, number as u32)
}

fn read_arguments(random: &mut Random, row: &Row, block: u64) -> (u64, u64) {
    let offset = match random.weighted(&[30, 30, 10, 10, 8, 6, 6]) {
        0 => 0,
        1 => random.below(row.size + 1),
        2 => row.size,
        3 => row.size.saturating_sub(block),
        4 => random.below(row.capacity),
        5 => row.capacity,
        _ => odd_offset(random, row, block),
    };
    (offset, length(random, row, block, offset))
}

fn write_arguments(random: &mut Random, row: &Row, block: u64, sequential: bool) -> (u64, u64) {
    let at_size = if sequential { 80 } else { 0 };
    let offset = if random.percent(at_size) {
        row.size
    } else {
        match random.weighted(&[40, 20, 20, 20]) {
            0 => random.below(row.capacity),
            1 => row.size.wrapping_sub(block),
            2 => random.pick(&[0, row.capacity - block, row.capacity, row.size + block]),
            _ => odd_offset(random, row, block),
        }
    };
    (offset, length(random, row, block, offset))
}

fn odd_offset(random: &mut Random, row: &Row, block: u64) -> u64 {
    match random.below(5) {
        0 => row.size + 1,
        1 => row.size + 512,
        2 => row.capacity + 1,
        3 => row.capacity + block,
        _ => random.extreme(),
    }
}

/// Mostly whole blocks that fit; sometimes just too long, or such that the sum wraps.
fn length(random: &mut Random, row: &Row, block: u64, offset: u64) -> u64 {
    let room = row.capacity.saturating_sub(offset);
    match random.weighted(&[36, 20, 12, 6, 8, 7, 6, 5]) {
        0 => random.between(1, 4) * block,
        1 => random.between(1, (room / block).max(1)) * block,
        2 => room,
        3 => 0,
        4 => room + random.pick(&[1, block, 512]),
        5 => random.pick(&[1, block - 1, block + 1, 512, 10_000]),
        6 => random.below(room),
        _ => match random.below(3) {
            0 => offset.wrapping_neg(),
            1 => offset.wrapping_neg().wrapping_add(row.capacity),
            _ => random.extreme(),
        },
    }
}

fn truncate_size(random: &mut Random, row: &Row, block: u64) -> u64 {
    match random.weighted(&[40, 30, 12, 12, 6]) {
        0 => 0,
        1 => row.capacity,
        2 => row.size,
        3 => random.pick(&[1, block, row.capacity - block, row.capacity + 1, row.capacity - 1]),
        _ => random.extreme(),
    }
}
