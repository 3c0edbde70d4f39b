//! What is lent to the library, what it is asked, and what the reference expects.

use reference::generator::random::Random;
use reference::player::calls::{Call, Reply, Request};
use reference::player::mount::Input;
use reference::player::tape::Record;
use reference::player::types::{FileKind, Refusal, Row, Volume};
use zonefs::words::{self, ACCOUNT_WORDS, ANSWER_WORDS, MOUNT_WORDS, ROW_WORDS};

use crate::convert::{
    account_of, account_words, code, coded, command_values, file_words, mount_of, mount_words, row_words,
    rows_of, table_words, KINDS,
};
use crate::typed;

/// What the library is lent from call to call.
#[derive(Clone, Debug, PartialEq, Eq)]
pub struct Lent {
    pub mount: Vec<u64>,
    pub account: Vec<u64>,
    pub cnv: Vec<u64>,
    pub seq: Vec<u64>,
    pub answer: Vec<u64>,
}

impl Lent {
    /// Words for `rows` rows of each kind, filled with whatever.
    pub fn any(random: &mut Random, rows: usize) -> Lent {
        let mut words = |count: usize| (0..count).map(|_| random.word()).collect::<Vec<u64>>();
        Lent {
            mount: words(MOUNT_WORDS),
            account: words(ACCOUNT_WORDS),
            cnv: words(rows * ROW_WORDS),
            seq: words(rows * ROW_WORDS),
            answer: words(ANSWER_WORDS),
        }
    }

    /// What the reference makes of the same words; None where they hold no mount value, or no account.
    pub fn volume(&self) -> Option<Volume> {
        let (mount, account) = (mount_of(&self.mount)?, account_of(&self.account)?);
        Some(Volume { mount, account, cnv: rows_of(&self.cnv), seq: rows_of(&self.seq) })
    }
}

/// One thing to ask of the library, or to tell it. A file is named by any kind and any number.
#[derive(Clone, Debug)]
pub enum Event {
    Call(u32, u32, Request),
    Good(u32, u32),
    Failed(u32, u32, Vec<u8>, u32),
    Find(Vec<u8>),
    Show(u32, u32),
}

fn ask_call(lent: &mut Lent, kind: u32, number: u32, request: &Request) -> u64 {
    let Lent { mount, account, cnv, seq, answer } = lent;
    match *request {
        Request::Read { offset, length } => {
            words::read(mount, account, cnv, seq, kind, number, offset, length, answer)
        }
        Request::Write { offset, length } => {
            words::write(mount, account, cnv, seq, kind, number, offset, length, answer)
        }
        Request::Truncate { size } => words::truncate(mount, account, cnv, seq, kind, number, size, answer),
        Request::Flush => words::flush(mount, account, cnv, seq, kind, number, answer),
        Request::Open => words::open(mount, account, cnv, seq, kind, number, answer),
        Request::Close => words::close(mount, account, cnv, seq, kind, number, answer),
    }
}

fn ask(lent: &mut Lent, event: &Event) -> u64 {
    let Lent { mount, account, cnv, seq, answer } = lent;
    match event {
        Event::Call(kind, number, request) => ask_call(lent, *kind, *number, request),
        Event::Good(kind, number) => words::complete(mount, account, cnv, seq, *kind, *number, answer),
        Event::Failed(kind, number, record, given) => {
            words::fail(mount, account, cnv, seq, *kind, *number, record, *given, answer)
        }
        Event::Find(name) => words::find(mount, account, cnv, seq, name, answer),
        Event::Show(kind, number) => words::show(mount, account, cnv, seq, *kind, *number, answer),
    }
}

impl Event {
    /// What a record of a tape asks; None for one of the mount.
    pub fn of_record(record: &Record, capacity_given: impl FnOnce() -> u32) -> Option<Event> {
        match record {
            Record::Call(call) => Some(Event::Call(u32::from(call.kind), call.number, call.request())),
            Record::Good(file) => Some(Event::Good(u32::from(file.kind), file.number)),
            Record::Failed(file, zone) => {
                Some(Event::Failed(u32::from(file.kind), file.number, zone.to_vec(), capacity_given()))
            }
            Record::Block(_) | Record::SuperBlock(_) | Record::Report(_) | Record::Mount { .. } => None,
        }
    }

    /// The kind and the number that it names.
    pub fn file(&self) -> Option<(u32, u32)> {
        match self {
            Event::Call(kind, number, _)
            | Event::Good(kind, number)
            | Event::Failed(kind, number, ..)
            | Event::Show(kind, number) => Some((*kind, *number)),
            Event::Find(_) => None,
        }
    }
}

/// A number and its values.
pub type Answer = (u64, Vec<u64>);

pub fn refused(refusal: Refusal) -> Answer {
    (u64::from(refusal.number()), refusal.values())
}

/// The refusal of a kind that there isn't: 10 for the counts comes before 1.
fn no_kind(volume: &Volume) -> Refusal {
    volume.checked_row(FileKind::Conventional, u32::MAX).expect_err("no file has this number")
}

fn expect(volume: &mut Volume, event: &Event) -> Answer {
    let kind_of = |volume: &Volume, kind: u32| coded(&KINDS, u64::from(kind)).ok_or_else(|| no_kind(volume));
    let result = match event {
        Event::Call(kind, number, request) => kind_of(volume, *kind)
            .and_then(|kind| volume.call(&Call { kind, number: *number, request: *request }))
            .map(|reply| match reply {
                Reply::Done(count) => (0, vec![count]),
                Reply::Issued(command) => (0, command_values(&command).to_vec()),
            }),
        Event::Good(kind, number) => kind_of(volume, *kind)
            .and_then(|kind| volume.succeed(kind, *number))
            .map(|count| (0, vec![count])),
        Event::Failed(kind, number, record, given) => kind_of(volume, *kind)
            .and_then(|kind| volume.fail(kind, *number, record, *given != 0))
            .map(|size| (7, vec![size])),
        Event::Find(name) => {
            volume.find(name).map(|(kind, number)| (0, vec![code(&KINDS, &kind), u64::from(number)]))
        }
        Event::Show(kind, number) => kind_of(volume, *kind)
            .and_then(|kind| volume.show(kind, *number))
            .map(|(row, mode)| (0, [&file_words(&row)[..], &[u64::from(mode)]].concat())),
    };
    result.unwrap_or_else(refused)
}

/// The answer words after these values.
pub fn answer_after(before: &[u64], values: &[u64]) -> Vec<u64> {
    let mut after = vec![0; ANSWER_WORDS];
    after[0] = values.len() as u64;
    after[1..=values.len()].copy_from_slice(values);
    after.extend(&before[ANSWER_WORDS..]);
    after
}

/// A row of the reference put back over words, where it changed. (Words that are no row, and those after nothing held, stay as they are: a row
/// that is stored has changed, as it begins or ends to hold a command, or has another number of opens.)
fn table_after(words: &[u64], before: &[Row], after: &[Row]) -> Vec<u64> {
    let mut words = words.to_vec();
    for (number, (old, new)) in before.iter().zip(after).enumerate() {
        if old != new {
            words[number * ROW_WORDS..(number + 1) * ROW_WORDS].copy_from_slice(&row_words(new));
        }
    }
    words
}

/// Asks both, and compares everything. Gives the number.
pub fn check(lent: &mut Lent, event: &Event) -> u64 {
    let before = lent.clone();
    let number = ask(lent, event);
    let mut expected = before.clone();
    let volume = if has_room(&before) { before.volume() } else { None };
    let expected_number = match volume {
        None => 10,
        Some(old) => {
            let mut new = old.clone();
            let (number, values) = expect(&mut new, event);
            expected.answer = answer_after(&before.answer, &values);
            expected.cnv = table_after(&before.cnv, &old.cnv, &new.cnv);
            expected.seq = table_after(&before.seq, &old.seq, &new.seq);
            expected.mount.splice(..MOUNT_WORDS, mount_words(&new.mount));
            expected.account.splice(..ACCOUNT_WORDS, account_words(&new.account));
            number
        }
    };
    assert_eq!(number, expected_number, "{event:?} on {:?} with {:?}", before.mount, before.account);
    assert_eq!(*lent, expected, "{event:?}");
    typed::check(&before, event, number, lent);
    number
}

pub fn ask_mount(lent: &mut Lent, block: u64, input: &Input) -> u64 {
    let Input { super_block, report, options, open_limit, active_limit, .. } = input;
    let Lent { mount, account, cnv, seq, answer } = lent;
    words::mount(
        block,
        super_block,
        options,
        report,
        *open_limit,
        *active_limit,
        cnv,
        seq,
        mount,
        account,
        answer,
    )
}

/// Whether there is room for what every function writes, or reads, whatever it is asked.
fn has_room(lent: &Lent) -> bool {
    let Lent { mount, account, answer, .. } = lent;
    mount.len() >= MOUNT_WORDS && account.len() >= ACCOUNT_WORDS && answer.len() >= ANSWER_WORDS
}

/// Mounts both, and compares everything. Gives the number.
pub fn check_mount(lent: &mut Lent, input: &Input) -> u64 {
    let before = lent.clone();
    let number = ask_mount(lent, u64::from(input.block), input);
    let mut expected = before.clone();
    if !has_room(&before) {
        assert_eq!(number, 10);
        assert_eq!(*lent, expected);
        return number;
    }
    let mut cnv = vec![Row::EMPTY; before.cnv.len() / ROW_WORDS];
    let mut seq = vec![Row::EMPTY; before.seq.len() / ROW_WORDS];
    let (expected_number, values) = match reference::player::mount::mount(input, &mut cnv, &mut seq) {
        Ok((mount, account)) => {
            let fill = |words: &mut Vec<u64>, rows: &[Row]| {
                words.splice(..rows.len() * ROW_WORDS, table_words(rows));
            };
            fill(&mut expected.cnv, &cnv[..mount.cnv_files]);
            fill(&mut expected.seq, &seq[..mount.seq_files]);
            expected.mount.splice(..MOUNT_WORDS, mount_words(&mount));
            expected.account.splice(..ACCOUNT_WORDS, account_words(&account));
            (0, vec![mount.cnv_files as u64, mount.seq_files as u64])
        }
        Err(refusal) => {
            expected.mount.splice(..MOUNT_WORDS, [0; MOUNT_WORDS]);
            expected.account.splice(..ACCOUNT_WORDS, [0; ACCOUNT_WORDS]);
            refused(refusal)
        }
    };
    expected.answer = answer_after(&before.answer, &values);
    let options = input.options.escape_ascii();
    assert_eq!(number, expected_number, "options {options}");
    assert_eq!(*lent, expected, "options {options}");
    typed::check_mount(&before, input, number, lent);
    number
}
