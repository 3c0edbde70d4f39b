//! Volumes that no run can have, for the completions that are answered 10.

use super::random::Random;
use crate::player::types::{
    Access, Account, Command, Condition, FileKind, Held, Operation, Outstanding, Row, Volume, MAX_FILES,
};

/// A copy of a volume with this command outstanding, spoilt such that number 10 forbids its completion.
pub fn spoilt(random: &mut Random, volume: &Volume, of: &Outstanding) -> Volume {
    let mut copy = volume.clone();
    match random.below(6) {
        0 => copy.mount.block = random.pick(&[0, 1, 1024, 4097]),
        1 => spoil_counts(random, &mut copy, of.kind),
        2 => spoil_row(random, copy.row_mut(of.kind, of.number)),
        3 => spoil_account(random, &mut copy, of),
        4 => spoil_opens(random, &mut copy, of),
        _ => {
            let row = copy.row_mut(of.kind, of.number);
            row.held = spoilt_command(random, row.start, &of.command);
        }
    }
    copy
}

/// More files than there can be, or than rows. There is a file of this kind.
fn spoil_counts(random: &mut Random, volume: &mut Volume, kind: FileKind) {
    let too_few = random.below(volume.files(kind) as u64) as usize;
    match (random.below(3), kind) {
        (0, _) => volume.mount.cnv_files = MAX_FILES + 1,
        (1, _) => volume.mount.seq_files = MAX_FILES + 1,
        (_, FileKind::Conventional) => volume.cnv.truncate(too_few),
        (_, FileKind::Sequential) => volume.seq.truncate(too_few),
    }
}

/// Breaks the row of a command, which could be read at least when that was issued.
fn spoil_row(random: &mut Random, row: &mut Row) {
    match random.below(6) {
        0 => row.size += 1,
        1 => row.start = 0,
        2 => row.capacity += 1,
        3 => row.condition = Condition::Offline,
        4 => (row.size, row.access) = (row.capacity, Access::None),
        _ => (row.access, row.opens) = (Access::Read, random.pick(&[1, 2, 65_535, 65_536, u64::MAX])),
    }
}

/// An account of more files than there are, or none in what the file counts in.
fn spoil_account(random: &mut Random, volume: &mut Volume, of: &Outstanding) {
    let above = volume.mount.seq_files as u32 + random.pick(&[1, 2, 1022, u32::MAX - 1022]);
    let explicit_open = volume.mount.explicit_open;
    let row = *volume.row(of.kind, of.number);
    let sequential = of.kind == FileKind::Sequential;
    let begun = row.size != 0 && row.size < row.capacity;
    let account = &mut volume.account;
    match random.below(4) {
        0 if sequential && row.opens > 0 => account.open = 0,
        // Of a file with an open or something written, and room; the others count nowhere.
        1 if sequential && row.access == Access::Write && begun => account.active = 0,
        1 if sequential && explicit_open && row.opens > 0 && row.size == 0 => account.active = 0,
        2 => account.active = above,
        3 => *account = Account { open: above, active: above, ..*account },
        _ => account.open = above,
    }
}

/// Opens that the file can't have had before the command was issued, where the command tells; else too many for its access.
fn spoil_opens(random: &mut Random, volume: &mut Volume, of: &Outstanding) {
    let any = random.between(3, 65_535);
    let must_be_open = volume.mount.explicit_open && of.kind == FileKind::Sequential;
    let row = volume.row_mut(of.kind, of.number);
    match of.command.operation {
        Operation::Open => row.opens = random.pick(&[0, 2, any, u64::MAX]),
        Operation::Close => row.opens = random.pick(&[1, 2, any, u64::MAX]),
        Operation::Write if must_be_open => row.opens = 0,
        _ => (row.access, row.opens) = (random.pick(&[Access::Read, Access::None]), any),
    }
}

/// What no call on the file would leave: a command that it wouldn't issue, or a word that is no command's.
fn spoilt_command(random: &mut Random, start: u64, command: &Command) -> Held {
    let mut spoilt = *command;
    match random.below(3) {
        0 => spoilt.address = random.pick(&[0, start]),
        // A read or write of nothing, or another one with a length.
        1 => spoilt.length = u64::from(command.length == 0),
        _ => {
            let word = random.pick(&[8, 9, 256, 1 << 32, u64::MAX]);
            return Held::NoCommand { word, address: command.address, length: command.length };
        }
    }
    Held::Command(spoilt)
}
