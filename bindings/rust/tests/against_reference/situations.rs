//! What several outstanding commands and rows that hold anything can lead to. The tests count each, so that none of it goes untried. What opens and
//! accounts can lead to is in `openings`.

use std::collections::BTreeMap;

use reference::player::types::{Operation, Row};
use zonefs::words::{MOUNT_READ_ONLY, ROW_HELD, ROW_HELD_ADDRESS, ROW_HELD_LENGTH, ROW_WORDS};

use crate::convert::{coded, KINDS};
use crate::events::{Event, Lent};
use crate::inputs::busy_files;
use crate::openings;

/// How often each was met.
#[derive(Default)]
pub struct Situations(BTreeMap<&'static str, u64>);

const CALLS: [&str; 5] = [
    "a command beside two others",
    "a call at once, and words behind nothing held",
    "2 with a command held",
    "2 with no command held",
    "10 of a row that holds something",
];

const COMPLETIONS: [&str; 9] = [
    "1 while files are busy",
    "8 while other files are busy",
    "8 of a row whose condition or access is none",
    "10 of such a row that holds something",
    "a good end beside another command",
    "a failure beside another command",
    "10 of what is no command",
    "10 of a command that no call gives",
    "a good write on a read-only mount",
];

pub fn all() -> impl Iterator<Item = &'static str> {
    CALLS.into_iter().chain(COMPLETIONS)
}

impl Situations {
    pub fn note(&mut self, name: &'static str, met: bool) {
        if met {
            *self.0.entry(name).or_default() += 1;
        }
    }

    /// `before` is what was lent, and `number` what was answered.
    pub fn note_event(&mut self, before: &Lent, event: &Event, number: u64, after: &Lent) {
        let busy = busy_files(before).len();
        let row = named_row(before, event);
        let possible = is_possible(before, event);
        match event {
            Event::Call(..) => {
                let changed = (&before.cnv, &before.seq) != (&after.cnv, &after.seq);
                self.note(CALLS[1], number == 0 && !changed && has_idle_words(before, event));
                self.note_call(busy, row, number, changed);
            }
            Event::Good(..) | Event::Failed(..) => {
                self.note_completion(busy, row, number);
                self.note_held(row.filter(|_| possible), number, before);
            }
            Event::Find(_) | Event::Show(..) => {}
        }
        openings::note(self, before, event, number, after);
    }

    fn note_call(&mut self, busy: usize, row: Option<Row>, number: u64, changed: bool) {
        let Some(Row { held, .. }) = row else { return };
        self.note(CALLS[0], number == 0 && changed && busy >= 2);
        self.note(CALLS[2], number == 2 && held.command().is_some());
        self.note(CALLS[3], number == 2 && held.command().is_none());
        self.note(CALLS[4], number == 10 && held.is_outstanding());
    }

    fn note_completion(&mut self, busy: usize, row: Option<Row>, number: u64) {
        self.note(COMPLETIONS[0], number == 1 && busy >= 1);
        let Some(row) = row else { return };
        let no_codes = row.idle() == Row::EMPTY;
        self.note(COMPLETIONS[1], number == 8 && busy >= 1);
        self.note(COMPLETIONS[2], number == 8 && no_codes);
        self.note(COMPLETIONS[3], number == 10 && no_codes && row.held.is_outstanding());
        self.note(COMPLETIONS[4], number == 0 && busy >= 2);
        self.note(COMPLETIONS[5], number == 7 && busy >= 2);
    }

    /// A completion of a possible row.
    fn note_held(&mut self, row: Option<Row>, number: u64, before: &Lent) {
        let Some(Row { held, .. }) = row else { return };
        self.note(COMPLETIONS[6], number == 10 && held.command().is_none());
        self.note(COMPLETIONS[7], number == 10 && held.command().is_some());
        let writes = held.command().is_some_and(|command| command.operation == Operation::Write);
        self.note(COMPLETIONS[8], number == 0 && writes && before.mount[MOUNT_READ_ONLY] == 1);
    }

    pub fn all_met(&self, names: impl Iterator<Item = &'static str>) {
        for name in names {
            let count = self.0.get(name).copied().unwrap_or(0);
            assert!(count >= 100, "the inputs led to this {count} times only: {name}");
        }
    }
}

/// The row of a file that there is.
pub fn named_row(lent: &Lent, event: &Event) -> Option<Row> {
    let (kind, number) = event.file()?;
    lent.volume()?.existing_row(coded(&KINDS, u64::from(kind))?, number).ok()
}

fn is_possible(lent: &Lent, event: &Event) -> bool {
    let named = event.file().and_then(|(kind, number)| Some((coded(&KINDS, u64::from(kind))?, number)));
    let (Some((kind, number)), Some(volume)) = (named, lent.volume()) else { return false };
    volume.checked_row(kind, number).is_ok()
}

/// Whether the row of a file that there is holds nothing, with something behind that.
pub fn has_idle_words(lent: &Lent, event: &Event) -> bool {
    let Some((kind, number)) = event.file() else { return false };
    let table = if kind == 0 { &lent.cnv } else { &lent.seq };
    let row = table.chunks_exact(ROW_WORDS).nth(number as usize);
    row.is_some_and(|row| row[ROW_HELD] == 0 && (row[ROW_HELD_ADDRESS], row[ROW_HELD_LENGTH]) != (0, 0))
}
