//! The typed functions answer what the words do, and leave the same words.

use reference::generator::format::FormatCase;
use reference::player::calls::Request;
use reference::player::mount::Input;
use reference::player::types::Held;
use zonefs::words::{ACCOUNT_WORDS, ANSWER_VALUES, ANSWER_WORDS, MOUNT_WORDS};
use zonefs::{Account, FileId, FileKind, Format, MountValue};
use zonefs::{Refusal, Reply, RowWords, Source, SuperFields, Volume};

use crate::convert::{account_of, account_words, coded, command_values, mount_of, KINDS};
use crate::events::{self, Answer, Event, Lent};

type Owned = Volume<Vec<RowWords>>;

/// None where the words are shorter or longer than the types have them, which only words can be.
fn volume_of(lent: &Lent) -> Option<Owned> {
    let mount = lent.mount.as_slice().try_into().ok()?;
    let account = lent.account.as_slice().try_into().ok()?;
    let answers = lent.answer.len() >= ANSWER_WORDS;
    answers.then(|| Volume::from_parts(mount, account, rows(&lent.cnv), rows(&lent.seq)))
}

fn rows(words: &[u64]) -> Vec<RowWords> {
    let (rows, rest) = words.as_chunks();
    assert!(rest.is_empty(), "these tests lend whole rows");
    rows.to_vec()
}

fn refused(refusal: Refusal) -> Answer {
    let values = match refusal {
        Refusal::Failed { size } => vec![size],
        Refusal::BadRecord { reason } => vec![reason.code()],
        Refusal::BadZone { zone, reason } => vec![zone, reason.code()],
        _ => vec![],
    };
    (refusal.number(), values)
}

fn replied(reply: Reply) -> Answer {
    match reply {
        Reply::Done(count) => (0, vec![count]),
        Reply::Command(command) => (0, vec![command.kind.code(), command.address, command.length]),
    }
}

fn call(volume: &mut Owned, file: FileId, request: &Request) -> Result<Reply, Refusal> {
    match *request {
        Request::Read { offset, length } => volume.read(file, offset, length),
        Request::Write { offset, length } => volume.write(file, offset, length),
        Request::Truncate { size } => volume.truncate(file, size),
        Request::Flush => volume.flush(file),
        Request::Open => volume.open(file),
        Request::Close => volume.close(file),
    }
}

/// None for a kind that there isn't, as no type has it.
fn file(kind: u32, number: u32) -> Option<FileId> {
    Some(FileId { kind: FileKind::from_code(u64::from(kind))?, number })
}

fn ask(volume: &mut Owned, event: &Event) -> Option<Answer> {
    let result = match event {
        Event::Call(kind, number, request) => call(volume, file(*kind, *number)?, request).map(replied),
        Event::Good(kind, number) => volume.complete(file(*kind, *number)?).map(|count| (0, vec![count])),
        Event::Failed(kind, number, record, given) => {
            Err(volume.fail(file(*kind, *number)?, record, *given != 0))
        }
        Event::Find(name) => {
            volume.find(name).map(|file| (0, vec![file.kind.code(), u64::from(file.number)]))
        }
        Event::Show(kind, number) => volume.show(file(*kind, *number)?).map(|file| {
            let codes = [file.condition.code(), file.access.code()];
            (0, vec![file.start, file.capacity, file.size, codes[0], codes[1], u64::from(file.mode)])
        }),
    };
    Some(result.unwrap_or_else(refused))
}

/// What the words answered; they hold no values where they answer 10 without writing anything.
fn answered(number: u64, before: &Lent, after: &Lent) -> Answer {
    if number == 10 && before.answer == after.answer {
        return (number, vec![]);
    }
    (number, after.answer[1..=after.answer[ANSWER_VALUES] as usize].to_vec())
}

/// `after` is what the words left of `before`, and `number` what they answered.
pub fn check(before: &Lent, event: &Event, number: u64, after: &Lent) {
    let Some(mut volume) = volume_of(before) else { return };
    check_value(&volume);
    check_account(&volume);
    check_outstanding(&volume, before, event);
    let Some(answer) = ask(&mut volume, event) else { return };
    assert_eq!(answer, answered(number, before, after), "{event:?}");
    assert_eq!(Some(volume), volume_of(after), "{event:?}");
}

pub fn check_mount(before: &Lent, input: &Input, number: u64, after: &Lent) {
    if (before.mount.len(), before.account.len()) != (MOUNT_WORDS, ACCOUNT_WORDS) {
        return;
    }
    let Input { super_block, report, options, open_limit, active_limit, .. } = input;
    let (block, open_limit, active_limit) = (u64::from(input.block), *open_limit, *active_limit);
    let source = Source { block, super_block, options, report, open_limit, active_limit };
    let (mut cnv, mut seq) = (rows(&before.cnv), rows(&before.seq));
    let mounted = Volume::mount(&source, &mut cnv, &mut seq)
        .map(|volume| (*volume.mount_words(), *volume.account_words()));
    let answer = match mounted {
        Ok((mount, account)) => {
            assert_eq!((&after.mount[..], &after.account[..]), (&mount[..], &account[..]));
            (0, MountValue::from_words(&mount).map(counts).expect("a mount gives a mount value"))
        }
        Err(refusal) => refused(refusal),
    };
    assert_eq!(answer, answered(number, before, after));
    assert_eq!((cnv, seq), (rows(&after.cnv), rows(&after.seq)));
}

/// `left` is the block as the words left it, and `answer` what they answered.
pub fn check_format(case: &FormatCase, answer: Answer, left: &[u8]) {
    let FormatCase { block, uuid, features, owner, group, mode, given: capacity_given, .. } = *case;
    let (label, record) = (&case.label[..], &case.record[..]);
    let wanted = Format { block, label, uuid, features, owner, group, mode, record, capacity_given };
    let mut super_block = case.lent.clone();
    let made = zonefs::format(&wanted, &mut super_block).map(|made| (0, vec![u64::from(made.finish)]));
    assert_eq!(made.unwrap_or_else(refused), answer, "{case:?}");
    assert!(super_block == left, "other bytes: {case:?}");
}

/// `label` and `uuid` are what the words left there, and `answer` what they answered.
pub fn check_fields(super_block: &[u8], answer: Answer, label: &[u8], uuid: &[u8]) {
    let read = zonefs::super_fields(super_block).map(|fields| {
        assert_eq!((&fields.label[..], &fields.uuid[..]), (label, uuid));
        let SuperFields { features, owner, group, mode, .. } = fields;
        (0, vec![features, u64::from(owner), u64::from(group), u64::from(mode)])
    });
    assert_eq!(read.unwrap_or_else(refused), answer);
}

fn counts(value: MountValue) -> Vec<u64> {
    vec![u64::from(value.cnv_files), u64::from(value.seq_files)]
}

/// The mount value as the tests themselves read it from the words.
fn check_value(volume: &Owned) {
    let value = volume.value();
    let expected = mount_of(volume.mount_words());
    assert_eq!(value.is_some(), expected.is_some());
    let (Some(value), Some(expected)) = (value, expected) else { return };
    assert_eq!(
        (value.block, counts(value), value.owner, value.group, value.mode),
        (
            expected.block,
            vec![expected.cnv_files as u64, expected.seq_files as u64],
            expected.owner,
            expected.group,
            expected.mode
        )
    );
    assert_eq!((value.uuid, value.read_only), (expected.uuid, expected.read_only));
    assert_eq!((value.policy.code(), value.explicit_open), (expected.policy as u64, expected.explicit_open));
}

/// The account as the tests themselves read it from the words.
fn check_account(volume: &Owned) {
    let account = volume.account().map(|Account { open, active, open_limit, active_limit }| {
        [open, active, open_limit, active_limit].map(u64::from)
    });
    assert_eq!(account, account_of(volume.account_words()).as_ref().map(account_words));
}

/// What the event's file has outstanding, as the reference reads it from the words. There is no function on words for it.
fn check_outstanding(volume: &Owned, lent: &Lent, event: &Event) {
    let Some((kind, number)) = event.file() else { return };
    let (Some(file), Some(kind)) = (file(kind, number), coded(&KINDS, u64::from(kind))) else { return };
    let impossible = (10, vec![]);
    let expected = match lent.volume().map(|volume| volume.show(kind, number)) {
        None => impossible,
        Some(Err(refusal)) => events::refused(refusal),
        Some(Ok((row, _))) => match row.held {
            Held::Nothing => (0, vec![]),
            Held::Command(command) => (0, command_values(&command).to_vec()),
            Held::NoCommand { .. } => impossible,
        },
    };
    let outstanding = volume
        .outstanding(file)
        .map(|command| (0, command.map_or(vec![], |command| replied(Reply::Command(command)).1)));
    assert_eq!(outstanding.unwrap_or_else(refused), expected, "{event:?}");
}
