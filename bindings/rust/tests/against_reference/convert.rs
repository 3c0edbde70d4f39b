//! The reference's values as words, and words as the reference's values.

use reference::player::types::{Access, Account, Command, Condition, FileKind, Held, Mount, Policy, Row};
use zonefs::words::{ACCOUNT_WORDS, MOUNT_WORDS, ROW_WORDS};

pub const KINDS: [FileKind; 2] = [FileKind::Conventional, FileKind::Sequential];
const CONDITIONS: [Condition; 3] = [Condition::Healthy, Condition::ReadOnly, Condition::Offline];
const ACCESSES: [Access; 3] = [Access::None, Access::Read, Access::Write];
const POLICIES: [Policy; 4] =
    [Policy::RemountReadOnly, Policy::ZoneReadOnly, Policy::ZoneOffline, Policy::Repair];

pub fn code<T: PartialEq>(items: &[T], item: &T) -> u64 {
    items.iter().position(|other| other == item).expect("each value has its code") as u64
}

/// The item of a code; None for a code that no value has.
pub fn coded<T: Copy>(items: &[T], code: u64) -> Option<T> {
    items.get(usize::try_from(code).ok()?).copied()
}

/// What a row says of its file, without its opens and what it holds.
pub fn file_words(row: &Row) -> [u64; 5] {
    [row.start, row.capacity, row.size, code(&CONDITIONS, &row.condition), code(&ACCESSES, &row.access)]
}

pub fn row_words(row: &Row) -> [u64; ROW_WORDS] {
    let [start, capacity, size, condition, access] = file_words(row);
    let [held, address, length] = row.held.words();
    [start, capacity, size, condition, access, held, address, length, row.opens]
}

pub fn table_words(rows: &[Row]) -> Vec<u64> {
    rows.iter().flat_map(row_words).collect()
}

/// A row from its words. One whose codes are none is as impossible as one that starts at 0, and what it holds counts all the same.
pub fn row_of(words: &[u64]) -> Row {
    let held = Held::of_words([words[5], words[6], words[7]]);
    match (coded(&CONDITIONS, words[3]), coded(&ACCESSES, words[4])) {
        (Some(condition), Some(access)) => Row {
            start: words[0],
            capacity: words[1],
            size: words[2],
            condition,
            access,
            opens: words[8],
            held,
        },
        _ => Row { held, ..Row::EMPTY },
    }
}

pub fn rows_of(words: &[u64]) -> Vec<Row> {
    words.chunks_exact(ROW_WORDS).map(row_of).collect()
}

pub fn command_values(command: &Command) -> [u64; 3] {
    [command.operation.code(), command.address, command.length]
}

pub fn mount_words(mount: &Mount) -> Vec<u64> {
    let half = |at: usize| u64::from_le_bytes(mount.uuid[at..at + 8].try_into().expect("eight bytes"));
    vec![
        mount.block,
        mount.cnv_files as u64,
        mount.seq_files as u64,
        u64::from(mount.owner),
        u64::from(mount.group),
        u64::from(mount.mode),
        code(&POLICIES, &mount.policy),
        half(0),
        half(8),
        u64::from(mount.read_only),
        u64::from(mount.explicit_open),
    ]
}

/// The mount value of words; None where they hold none.
pub fn mount_of(words: &[u64]) -> Option<Mount> {
    if words.len() < MOUNT_WORDS {
        return None;
    }
    let short = |at: usize| u32::try_from(words[at]).ok();
    let mut uuid = [0; 16];
    uuid[..8].copy_from_slice(&words[7].to_le_bytes());
    uuid[8..].copy_from_slice(&words[8].to_le_bytes());
    Some(Mount {
        block: words[0],
        cnv_files: short(1)? as usize,
        seq_files: short(2)? as usize,
        owner: short(3)?,
        group: short(4)?,
        mode: short(5)?,
        policy: coded(&POLICIES, words[6])?,
        read_only: coded(&[false, true], words[9])?,
        explicit_open: coded(&[false, true], words[10])?,
        uuid,
    })
}

pub fn account_words(account: &Account) -> [u64; ACCOUNT_WORDS] {
    let Account { open, active, open_limit, active_limit } = *account;
    [open, active, open_limit, active_limit].map(u64::from)
}

/// The account of words; None where there are too few or one of them is above 32 bits.
pub fn account_of(words: &[u64]) -> Option<Account> {
    let short = |at: usize| u32::try_from(*words.get(at)?).ok();
    Some(Account { open: short(0)?, active: short(1)?, open_limit: short(2)?, active_limit: short(3)? })
}
