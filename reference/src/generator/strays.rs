//! Which file a completion names, in its turn or by mistake.

use super::calls::{HIGH_NUMBERS, NO_KINDS};
use super::random::Random;
use crate::player::tape::Named;
use crate::player::types::{Command, FileKind, Operation, Outstanding, Volume};

/// How many files have commands outstanding, about: alone, a few, many.
pub const TOGETHER: [usize; 6] = [1, 2, 2, 3, 6, 12];

/// One of these: the first, the last, or any. None if there is none.
pub fn any_of(random: &mut Random, outstanding: &[Outstanding]) -> Option<Outstanding> {
    match random.below(3) {
        0 => outstanding.first().copied(),
        1 => outstanding.last().copied(),
        _ if outstanding.is_empty() => None,
        _ => Some(random.pick(outstanding)),
    }
}

/// The command of another file, if there is one.
pub fn another(random: &mut Random, outstanding: &[Outstanding], than: &Outstanding) -> Option<Outstanding> {
    let others: Vec<Outstanding> = outstanding.iter().filter(|other| *other != than).copied().collect();
    any_of(random, &others)
}

/// A file of the volume, a number past its files, or a kind that no file has.
pub fn any_name(random: &mut Random, volume: &Volume) -> Named {
    let kind = random.pick(&[FileKind::Conventional, FileKind::Sequential]);
    let files = volume.files(kind) as u64;
    match random.weighted(&[60, 15, 10, 15]) {
        0 => Named::of(kind, random.below(files) as u32),
        1 => Named::of(kind, (files + random.below(2)) as u32),
        2 => Named::of(kind, random.pick(&HIGH_NUMBERS) as u32),
        // The number is often that of a busy file of one of the two kinds that there are.
        _ => Named { kind: random.pick(&NO_KINDS), number: random.below(files.min(3)) as u32 },
    }
}

/// Stands in for a command of the named file, where a record of that file is made without one; None if it isn't there.
pub fn as_if_outstanding(volume: &Volume, named: &Named) -> Option<Outstanding> {
    let (kind, number) = named.file().filter(|&(kind, number)| (number as usize) < volume.files(kind))?;
    let command = Command { operation: Operation::Flush, address: 0, length: 0 };
    Some(Outstanding { kind, number, command })
}
