//! Which files are open and which are active, and the account of how many there are.

use super::types::{Access, Account, Condition, FileKind, Refusal, Row, Volume};

pub fn is_open(row: &Row) -> bool {
    row.opens != 0
}

/// "It is active while healthy with write access, not full, and either open under the option or not empty."
pub fn is_active(row: &Row, explicit_open: bool) -> bool {
    let writable = row.condition == Condition::Healthy && row.access == Access::Write;
    let counts = (explicit_open && is_open(row)) || row.size != 0;
    writable && row.size < row.capacity && counts
}

impl Account {
    /// No file is open yet. As many are active as are, also where that is above the limit.
    pub fn at_mount(seq: &[Row], explicit_open: bool, open_limit: u32, active_limit: u32) -> Account {
        let active = seq.iter().filter(|row| is_active(row, explicit_open)).count() as u32;
        Account { open: 0, active, open_limit, active_limit }
    }

    /// What number 10 asks of an account before it looks at a file: it isn't "above the seq file count".
    pub fn fits(&self, seq_files: usize) -> bool {
        let most = self.open.max(self.active);
        most as usize <= seq_files
    }

    /// What number 10 asks of it with a row: it isn't "0 in what the named row counts in".
    pub fn covers(&self, kind: FileKind, row: &Row, explicit_open: bool) -> bool {
        let counted = |counts: bool, number: u32| !counts || number != 0;
        kind == FileKind::Conventional
            || (counted(is_open(row), self.open) && counted(is_active(row, explicit_open), self.active))
    }

    /// "An open that would raise the open count above its limit answers 11, the active count 12", with the option.
    pub fn check_limits(&self, before: &Row, after: &Row) -> Result<(), Refusal> {
        let exceeded = |raised: bool, number: u32, limit: u32| raised && limit != 0 && number >= limit;
        let becomes_open = !is_open(before) && is_open(after);
        let becomes_active = !is_active(before, true) && is_active(after, true);
        if exceeded(becomes_open, self.open, self.open_limit) {
            return Err(Refusal::OpenLimit);
        }
        if exceeded(becomes_active, self.active, self.active_limit) {
            return Err(Refusal::ActiveLimit);
        }
        Ok(())
    }

    /// A sequential row that the account covers has become another one. No limit is looked at.
    fn correct(&mut self, before: &Row, after: &Row, explicit_open: bool) {
        let corrected = |number: u32, was: bool, is: bool| number - u32::from(was) + u32::from(is);
        self.open = corrected(self.open, is_open(before), is_open(after));
        let (was, is) = (is_active(before, explicit_open), is_active(after, explicit_open));
        self.active = corrected(self.active, was, is);
    }
}

impl Volume {
    /// Stores a file's row as a call or a completion leaves it, and corrects the account.
    pub fn store(&mut self, kind: FileKind, number: u32, after: Row) {
        let before = *self.row(kind, number);
        if kind == FileKind::Sequential {
            self.account.correct(&before, &after, self.mount.explicit_open);
        }
        *self.row_mut(kind, number) = after;
    }
}
