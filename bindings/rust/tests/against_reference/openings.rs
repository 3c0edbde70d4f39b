//! What opens, closes and accounts can lead to, also those that came from elsewhere. The tests count each, as they do what is in `situations`.

use reference::player::account::{is_active, is_open};
use reference::player::calls::{is_possible, Request};
use reference::player::types::{Access, Account, FileKind, Operation, Refusal, Row, Volume};

use crate::convert::{coded, KINDS};
use crate::events::{Event, Lent};
use crate::situations::{has_idle_words, named_row, Situations};

const CALLS: [&str; 12] = [
    "11",
    "12",
    "13 of a write",
    "13 of a close",
    "14",
    "a zone open",
    "a zone close",
    "an open at once that counts",
    "a close at once that counts",
    "an open or a close at once over words behind nothing held",
    "an open or a close of a cnv file that has opens",
    "more files active afterwards than there are",
];

const COMPLETIONS: [&str; 9] = [
    "a good open",
    "a good close",
    "a failed open",
    "a failed close",
    "10 of an open or a close that no call gives",
    "a failure that takes opens with the access",
    "a failure that leaves opens",
    "a good end after which a file is active",
    "a good end after which a file is no longer active",
];

const ACCOUNTS: [&str; 5] = [
    "10 of a word above 32 bits",
    "10 of more files than there are",
    "10 of no open file, and an open row",
    "10 of no active file, and an active row",
    "10 of opens without write access",
];

pub fn all() -> impl Iterator<Item = &'static str> {
    CALLS.into_iter().chain(COMPLETIONS).chain(ACCOUNTS)
}

/// `before` is what was lent, and `number` what was answered.
pub fn note(met: &mut Situations, before: &Lent, event: &Event, number: u64, after: &Lent) {
    let Some(file) = event.file() else { return };
    let Some(volume) = before.volume() else {
        met.note(ACCOUNTS[0], number == 10 && before.account.iter().any(|&word| word > u64::from(u32::MAX)));
        return;
    };
    let Some(kind) = coded(&KINDS, u64::from(file.0)) else { return };
    if number == 10 {
        note_impossible(met, &volume, kind, file.1);
    }
    // Such an account is impossible to the next call.
    let left = after.volume().map_or(0, |volume| volume.account.active as usize);
    met.note(CALLS[11], number == 0 && left > volume.mount.seq_files);
    let (Some(old), Some(new)) = (named_row(before, event), named_row(after, event)) else { return };
    match event {
        Event::Call(_, _, request) => {
            note_refused(met, request, number);
            note_counted(met, request, kind, number, (&old, &new));
            let idle_words = new != old && has_idle_words(before, event);
            met.note(CALLS[9], number == 0 && !new.held.is_outstanding() && idle_words);
        }
        Event::Good(..) => note_good(met, &volume, kind, number, (&old, &new)),
        Event::Failed(..) => note_failed(met, number, (&old, &new)),
        Event::Find(_) | Event::Show(..) => {}
    }
}

fn note_refused(met: &mut Situations, request: &Request, number: u64) {
    met.note(CALLS[0], number == 11);
    met.note(CALLS[1], number == 12);
    met.note(CALLS[2], number == 13 && matches!(request, Request::Write { .. }));
    met.note(CALLS[3], number == 13 && *request == Request::Close);
    met.note(CALLS[4], number == 14);
}

fn note_counted(
    met: &mut Situations,
    request: &Request,
    kind: FileKind,
    number: u64,
    (old, new): (&Row, &Row),
) {
    let commanded = new.held.is_outstanding();
    let opens = *request == Request::Open && number == 0;
    let closes = *request == Request::Close && number == 0;
    met.note(CALLS[5], opens && commanded);
    met.note(CALLS[6], closes && commanded);
    met.note(CALLS[7], opens && !commanded && new.opens == old.opens.wrapping_add(1));
    met.note(CALLS[8], closes && !commanded && new.opens == old.opens.wrapping_sub(1));
    met.note(CALLS[10], (opens || closes) && kind == FileKind::Conventional && is_open(old) && old == new);
}

fn note_good(met: &mut Situations, volume: &Volume, kind: FileKind, number: u64, (old, new): (&Row, &Row)) {
    let operation = old.held.command().map(|command| command.operation);
    met.note(COMPLETIONS[0], number == 0 && operation == Some(Operation::Open));
    met.note(COMPLETIONS[1], number == 0 && operation == Some(Operation::Close));
    let opening = matches!(operation, Some(Operation::Open | Operation::Close));
    met.note(COMPLETIONS[4], number == 10 && opening && volume_allows(volume, kind, old));
    let active = |row: &Row| is_active(row, volume.mount.explicit_open);
    let counted = number == 0 && kind == FileKind::Sequential;
    met.note(COMPLETIONS[7], counted && !active(old) && active(new));
    met.note(COMPLETIONS[8], counted && active(old) && !active(new));
}

fn note_failed(met: &mut Situations, number: u64, (old, new): (&Row, &Row)) {
    let operation = old.held.command().map(|command| command.operation);
    met.note(COMPLETIONS[2], number == 7 && operation == Some(Operation::Open));
    met.note(COMPLETIONS[3], number == 7 && operation == Some(Operation::Close));
    let had_opens = number == 7 && is_open(old) && operation != Some(Operation::Open);
    met.note(COMPLETIONS[5], had_opens && new.access != Access::Write && !is_open(new));
    met.note(COMPLETIONS[6], had_opens && new.opens == old.opens);
}

/// Which of the account's, or of the opens', causes of 10 it was, where all else is possible.
fn note_impossible(met: &mut Situations, volume: &Volume, kind: FileKind, number: u32) {
    let Account { open, active, .. } = volume.account;
    let uncounted = Volume { account: Account::default(), ..volume.clone() };
    let there = uncounted.existing_row(kind, number);
    let above = !volume.account.fits(volume.mount.seq_files);
    met.note(ACCOUNTS[1], above && there != Err(Refusal::Impossible));
    let Ok(row) = there else { return };
    let possible = !above && kind == FileKind::Sequential && is_possible(&row, kind, volume.mount.block);
    met.note(ACCOUNTS[2], possible && is_open(&row) && open == 0);
    met.note(ACCOUNTS[3], possible && is_active(&row, volume.mount.explicit_open) && active == 0);
    let closed = Row { opens: 0, ..row };
    let without = row.access != Access::Write && is_possible(&closed, kind, volume.mount.block);
    met.note(ACCOUNTS[4], !above && is_open(&row) && without);
}

/// Whether nothing but what the row holds is impossible.
fn volume_allows(volume: &Volume, kind: FileKind, row: &Row) -> bool {
    is_possible(row, kind, volume.mount.block)
        && volume.account.covers(kind, row, volume.mount.explicit_open)
        && volume.account.fits(volume.mount.seq_files)
}
