//! Random events, and random changes of the words that are lent.

use reference::generator::random::Random;
use reference::player::account::{is_active, is_open};
use reference::player::calls::Request;
use reference::player::types::Row;
use zonefs::words::{
    ACCOUNT_ACTIVE, ACCOUNT_ACTIVE_LIMIT, ACCOUNT_OPEN, ACCOUNT_OPEN_LIMIT, MOUNT_CNV_FILES,
    MOUNT_EXPLICIT_OPEN, MOUNT_READ_ONLY, MOUNT_SEQ_FILES, ROW_ACCESS, ROW_CAPACITY, ROW_CONDITION, ROW_HELD,
    ROW_HELD_ADDRESS, ROW_HELD_LENGTH, ROW_OPENS, ROW_SIZE, ROW_START, ROW_WORDS,
};

use crate::convert::row_of;
use crate::events::{Event, Lent};

/// The words of the first rows of a table are changed, and the files in them are named more often than others.
const FIRST_ROWS: u64 = 4;
const BLOCK: u64 = 4096;

fn any_name(random: &mut Random) -> Vec<u8> {
    let mut name = random.pick(&[&b"cnv/"[..], b"seq/", b"seq", b"cnv/0", b""]).to_vec();
    for _ in 0..random.below(4) {
        name.push(random.pick(b"0123456789 /a"));
    }
    name
}

/// A kind and a number, which no file may have.
fn any_file(random: &mut Random) -> (u32, u32) {
    (random.below(3) as u32, random.pick(&[0, 0, 0, 1, 1, 2, 3, 7, u32::MAX]))
}

/// The rows of a kind that the mount words count.
fn file_rows(lent: &Lent, kind: u32) -> impl Iterator<Item = &[u64]> {
    let (table, files) = match kind {
        0 => (&lent.cnv, lent.mount.get(MOUNT_CNV_FILES)),
        _ => (&lent.seq, lent.mount.get(MOUNT_SEQ_FILES)),
    };
    let files = files.copied().unwrap_or(0);
    table.chunks_exact(ROW_WORDS).take(usize::try_from(files).unwrap_or(usize::MAX))
}

/// Kind and number of each file whose row holds something.
pub fn busy_files(lent: &Lent) -> Vec<(u32, u32)> {
    let of_kind = |kind: u32| {
        let numbered = (0..).zip(file_rows(lent, kind));
        numbered.filter(|(_, row)| row[ROW_HELD] != 0).map(move |(number, _)| (kind, number))
    };
    of_kind(0).chain(of_kind(1)).collect()
}

/// Mostly a busy one, if there is one.
fn file_to_complete(random: &mut Random, lent: &Lent) -> (u32, u32) {
    let busy = busy_files(lent);
    if busy.is_empty() || random.percent(20) {
        return any_file(random);
    }
    random.pick(&busy)
}

fn any_amount(random: &mut Random) -> u64 {
    match random.below(4) {
        0 => 0,
        1 => random.below(64) * 512,
        2 => random.extreme(),
        _ => random.below(1 << 20),
    }
}

fn any_request(random: &mut Random) -> Request {
    match random.below(6) {
        0 => Request::Read { offset: any_amount(random), length: any_amount(random) },
        1 => Request::Write { offset: any_amount(random), length: any_amount(random) },
        2 => Request::Truncate { size: any_amount(random) },
        3 => Request::Flush,
        4 => Request::Open,
        _ => Request::Close,
    }
}

/// One that a file with such a row is likely to have commanded.
fn likely_request(random: &mut Random, row: &[u64]) -> Request {
    match random.below(8) {
        0 => Request::Read { offset: 0, length: row[ROW_SIZE].min(1 + random.below(1 << 16)) },
        1 | 2 => Request::Write { offset: row[ROW_SIZE], length: BLOCK * (1 + random.below(3)) },
        3 => Request::Truncate { size: random.pick(&[0, row[ROW_CAPACITY]]) },
        4 => Request::Flush,
        5 | 6 if row[ROW_OPENS] != 0 => Request::Close,
        _ => Request::Open,
    }
}

fn likely_call(random: &mut Random, lent: &Lent) -> Event {
    let (kind, number) = (random.below(2) as u32, random.below(FIRST_ROWS) as u32);
    let request = match file_rows(lent, kind).nth(number as usize) {
        Some(row) => likely_request(random, row),
        None => any_request(random),
    };
    Event::Call(kind, number, request)
}

/// A record of the file's zone, with any condition and a pointer somewhere in it.
fn likely_record(random: &mut Random, kind: u32, row: &[u64]) -> Vec<u8> {
    let sectors = row[ROW_CAPACITY] / 512;
    let pointer = row[ROW_START].wrapping_add(random.below(sectors / 8 + 1) * 8);
    let mut record = vec![0; 64];
    let mut put = |at: usize, value: u64| record[at..at + 8].copy_from_slice(&value.to_le_bytes());
    put(0, row[ROW_START]);
    put(8, sectors);
    put(16, pointer);
    put(32, sectors);
    record[24] = if kind == 0 { 1 } else { 2 };
    record[25] = random.pick(if kind == 0 { &[0, 0, 13, 15] } else { &[1, 2, 4, 13, 14, 15] });
    record
}

fn any_record(random: &mut Random) -> Vec<u8> {
    let mut record = vec![0; random.pick(&[64, 64, 64, 0, 63, 65])];
    random.fill(&mut record);
    record
}

fn any_failure(random: &mut Random, lent: &Lent) -> Event {
    let (kind, number) = file_to_complete(random, lent);
    let row = if random.percent(70) { file_rows(lent, kind).nth(number as usize) } else { None };
    let record = match row {
        Some(row) => likely_record(random, kind, row),
        None => any_record(random),
    };
    Event::Failed(kind, number, record, random.below(2) as u32)
}

/// Calls and completions of any kind on the words as they are.
pub fn any_event(random: &mut Random, lent: &Lent) -> Event {
    let (kind, number) = any_file(random);
    match random.below(9) {
        0 | 1 => Event::Call(kind, number, any_request(random)),
        2 | 3 => likely_call(random, lent),
        4 | 5 => {
            let (kind, number) = file_to_complete(random, lent);
            Event::Good(kind, number)
        }
        6 => any_failure(random, lent),
        7 => Event::Find(any_name(random)),
        _ => Event::Show(kind, number),
    }
}

/// One that opens or closes a file with such a row, or that asks whether it is open.
fn opening_request(random: &mut Random, row: &[u64]) -> Request {
    match random.below(5) {
        0 => Request::Open,
        1 => Request::Close,
        2 if row[ROW_OPENS] != 0 => Request::Close,
        2 => Request::Open,
        _ => likely_request(random, row),
    }
}

/// Mostly calls on files that are opened and closed, and what ends their commands.
pub fn opening_event(random: &mut Random, lent: &Lent) -> Event {
    let (kind, number) = (u32::from(random.percent(85)), random.below(FIRST_ROWS) as u32);
    let busy = file_to_complete(random, lent);
    match (random.below(11), file_rows(lent, kind).nth(number as usize)) {
        (0..=5, Some(row)) => Event::Call(kind, number, opening_request(random, row)),
        (6 | 7, _) => Event::Good(busy.0, busy.1),
        (8 | 9, _) => any_failure(random, lent),
        _ => any_event(random, lent),
    }
}

/// Changes a word of what is lent.
fn change_word(random: &mut Random, lent: &mut Lent) {
    let words = match random.below(6) {
        0 => &mut lent.cnv,
        1 => &mut lent.seq,
        2 => &mut lent.account,
        _ => &mut lent.mount,
    };
    if words.is_empty() {
        return;
    }
    let at = random.below((words.len() as u64).min(FIRST_ROWS * ROW_WORDS as u64)) as usize;
    words[at] = match random.below(5) {
        0 => random.below(6),
        1 => random.extreme(),
        2 => words[at].wrapping_add(1),
        3 => words[at] ^ (1 << random.below(64)),
        _ => random.below(1 << 33),
    };
}

/// Words to hold: nothing, whatever stands behind it; a command, also one that the row leads to; no command.
fn any_held(random: &mut Random, row: &[u64]) -> [u64; 3] {
    let start = row[ROW_START].wrapping_mul(512);
    let held = random.pick(&[0, 0, 1, 2, 3, 4, 5, 6, 7, 8, 9, u64::MAX]);
    match random.below(4) {
        0 => [held, random.word(), random.word()],
        1 => [held, start, 0],
        2 => [held, start.wrapping_add(row[ROW_SIZE]), BLOCK],
        _ => [held, start, row[ROW_SIZE]],
    }
}

/// Changes what a row holds, and at times its condition or access to one that is none, or back, or its opens.
fn change_row(random: &mut Random, lent: &mut Lent) {
    let table = if random.percent(30) { &mut lent.cnv } else { &mut lent.seq };
    let at = random.below(FIRST_ROWS) as usize;
    let Some(row) = table.chunks_exact_mut(ROW_WORDS).nth(at) else { return };
    let held = any_held(random, row);
    if random.percent(70) {
        [row[ROW_HELD], row[ROW_HELD_ADDRESS], row[ROW_HELD_LENGTH]] = held;
    }
    match random.below(8) {
        0 => row[ROW_CONDITION] = random.pick(&[0, 1, 2, 3, u64::MAX]),
        1 => row[ROW_ACCESS] = random.pick(&[0, 1, 2, 3, u64::MAX]),
        2..=5 => row[ROW_OPENS] = random.pick(&[0, 1, 1, 1, 2, 65_534, 65_535, u64::MAX]),
        _ => {}
    }
}

/// A seq row as a run leaves it: written or not, open or not, and at times with an open or a close outstanding, which its opens fit or not.
fn settle_row(random: &mut Random, lent: &mut Lent) {
    let explicit_open = lent.mount[MOUNT_EXPLICIT_OPEN] == 1;
    let at = random.below(FIRST_ROWS) as usize;
    let Some(row) = lent.seq.chunks_exact_mut(ROW_WORDS).nth(at) else { return };
    let part = BLOCK.min(row[ROW_CAPACITY]);
    row[ROW_SIZE] = random.pick(&[0, 0, part, part, part, row[ROW_CAPACITY]]);
    row[ROW_CONDITION] = 0;
    row[ROW_ACCESS] = 2;
    row[ROW_HELD] = if explicit_open { random.pick(&[0, 0, 0, 0, 6, 7]) } else { 0 };
    row[ROW_HELD_ADDRESS] = row[ROW_START].wrapping_mul(512);
    row[ROW_HELD_LENGTH] = 0;
    row[ROW_OPENS] = match row[ROW_HELD] {
        6 if random.percent(80) => 1,
        7 if random.percent(80) => 0,
        _ => random.pick(&[0, 0, 1, 1, 1, 2, 65_535]),
    };
}

/// Opens in a cnv row, which count nowhere.
fn put_opens_of_cnv(random: &mut Random, lent: &mut Lent) {
    let at = random.below(FIRST_ROWS) as usize;
    let Some(row) = lent.cnv.chunks_exact_mut(ROW_WORDS).nth(at) else { return };
    row[ROW_OPENS] = random.pick(&[0, 1, 1, 2, u64::MAX]);
}

/// Any words for the account: few files, as many as there are, or more, and at times above 32 bits; limits that are near, far or none.
fn change_account(random: &mut Random, lent: &mut Lent) {
    let files = lent.mount[MOUNT_SEQ_FILES];
    let any = if random.percent(20) { random.word() } else { 1 };
    let open = random.pick(&[0, 1, 2, files, any]);
    let active = random.pick(&[files, files, files, files, files.wrapping_add(1), 0, any]);
    let mut limit = || random.pick(&[0, 0, 0, 0, 1, files, u64::from(u32::MAX), any]);
    let limits = (limit(), limit());
    put_account(lent, (open, active), limits);
}

/// The account as it has to be for the rows, with limits that are near or none.
fn mend_account(random: &mut Random, lent: &mut Lent) {
    let explicit_open = lent.mount[MOUNT_EXPLICIT_OPEN] == 1;
    let rows: Vec<Row> = file_rows(lent, 1).map(row_of).collect();
    let count = |counts: &dyn Fn(&Row) -> bool| rows.iter().filter(|row| counts(row)).count() as u64;
    let (open, active) = (count(&is_open), count(&|row| is_active(row, explicit_open)));
    let mut limit = |files: u64| if random.percent(50) { 0 } else { files + random.below(2) };
    let limits = (limit(open), limit(active));
    put_account(lent, (open, active), limits);
}

fn put_account(lent: &mut Lent, (open, active): (u64, u64), (open_limit, active_limit): (u64, u64)) {
    lent.account[ACCOUNT_OPEN] = open;
    lent.account[ACCOUNT_ACTIVE] = active;
    lent.account[ACCOUNT_OPEN_LIMIT] = open_limit;
    lent.account[ACCOUNT_ACTIVE_LIMIT] = active_limit;
}

/// Changes some of what is lent; the account may then fit the rows all the same.
pub fn damage(random: &mut Random, lent: &mut Lent) {
    match random.below(12) {
        0..=5 => change_row(random, lent),
        6..=8 => change_word(random, lent),
        9 => lent.mount[MOUNT_READ_ONLY] = random.below(2),
        10 => lent.mount[MOUNT_EXPLICIT_OPEN] = random.below(2),
        _ => change_account(random, lent),
    }
    if random.percent(60) {
        mend_account(random, lent);
    }
}

/// Changes what opens and closes look at, mostly to what a run leads to.
pub fn change_opens(random: &mut Random, lent: &mut Lent) {
    match random.below(12) {
        0 => change_row(random, lent),
        1 => lent.mount[MOUNT_READ_ONLY] = random.below(2),
        2 => lent.mount[MOUNT_EXPLICIT_OPEN] = random.below(2),
        3..=5 => return change_account(random, lent),
        6 => put_opens_of_cnv(random, lent),
        _ => settle_row(random, lent),
    }
    if random.percent(80) {
        mend_account(random, lent);
    }
}
