//! The true counts of open and active files, by the rows alone, and whether an account holds them.

use crate::player::types::{Access, Account, Condition, Row, Volume};

/// "From a mount on, after any calls and completions, both numbers are the true counts." The limits stay.
pub fn true_account(volume: &Volume) -> Account {
    let files = || volume.seq.iter().take(volume.mount.seq_files);
    let open = files().filter(|row| row.opens > 0).count() as u32;
    let active = files().filter(|row| counts_as_active(row, volume.mount.explicit_open)).count() as u32;
    Account { open, active, ..volume.account }
}

/// By the paper's words, and not by the player's.
fn counts_as_active(row: &Row, explicit_open: bool) -> bool {
    let is_full = row.size == row.capacity;
    let is_empty = row.size == 0;
    match (row.condition, row.access) {
        (Condition::Healthy, Access::Write) if is_full => false,
        (Condition::Healthy, Access::Write) if is_empty => explicit_open && row.opens > 0,
        (Condition::Healthy, Access::Write) => true,
        _ => false,
    }
}

/// What is wrong with the account.
pub fn account_fault(volume: &Volume) -> Option<String> {
    let (account, expected) = (volume.account, true_account(volume));
    (account != expected).then(|| format!("the account is {account:?}, and the rows give {expected:?}"))
}
