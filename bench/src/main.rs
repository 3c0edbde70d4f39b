//! The pace of the proved library beside ordinary Rust programs that do the same, measured in one run.
//! A pace is the other's time divided by the library's: 1 is as fast, 2 twice as fast, 0.5 half as fast.

use std::hint::black_box;
use std::time::Duration;

use reference::player::calls::{Call, Request};
use reference::player::format::{format, FormatInput};
use reference::player::mount::{mount, Input};
use reference::player::options::parse;
use reference::player::types::{FileKind, Row, Volume, MAX_FILES};
use zonefs::words::{
    self, ACCOUNT_WORDS, ANSWER_WORDS, MOST_FILES, MOST_ZONES, MOUNT_WORDS, PIECES_WORDS, ROW_WORDS,
};

/// Rounds; each measures all programs once, one after the other, and the median is what counts.
const ROUNDS: usize = 15;

const BLOCK: u64 = 4096;
/// The zones of the volume that all but the mounts of the most zones are measured on; as many as a tape can have.
const ZONES: u64 = 1023;
/// Sectors in each zone: room for all the appends of a round.
const ZONE_SECTORS: u64 = 1 << 24;

/// The library's code of the kind.
const SEQ: u32 = 1;
/// The seq file that is written where one is enough.
const ONE_FILE: u32 = 7;
/// The seq files that are busy at once.
const BUSY_FILES: u32 = 500;

const POLYNOMIAL: u32 = 0xEDB8_8320;

const fn remainders() -> [u32; 256] {
    let mut table = [0; 256];
    let mut byte = 0;
    while byte < 256 {
        let mut remainder = byte as u32;
        let mut bit = 0;
        while bit < 8 {
            remainder = if remainder & 1 == 1 { (remainder >> 1) ^ POLYNOMIAL } else { remainder >> 1 };
            bit += 1;
        }
        table[byte] = remainder;
        byte += 1;
    }
    table
}

static TABLE: [u32; 256] = remainders();

/// The ordinary program: a table, one byte at a time.
fn bytewise(bytes: &[u8]) -> u32 {
    bytes.iter().fold(u32::MAX, |sum, &byte| (sum >> 8) ^ TABLE[((sum ^ u32::from(byte)) & 0xFF) as usize])
}

fn put(bytes: &mut [u8], at: usize, value: &[u8]) {
    bytes[at..at + value.len()].copy_from_slice(value);
}

/// A volume of so many zones, the first half conventional, the others sequential and empty, without a limit. It has no feature, so that no
/// conventional zones are aggregated: each zone but the first is a file.
fn input(zones: u64, options: &[u8]) -> Input {
    let mut super_block = vec![0; 4096];
    put(&mut super_block, 0, &0x5A4F_4653_u32.to_le_bytes());
    let sum = bytewise(&super_block);
    put(&mut super_block, 4, &sum.to_le_bytes());
    let mut report = vec![0; 16 + 64 * zones as usize];
    put(&mut report, 8, &(zones as u32).to_le_bytes());
    for zone in 0..zones {
        let at = 16 + 64 * zone as usize;
        let conventional = zone <= zones / 2;
        put(&mut report, at, &(zone * ZONE_SECTORS).to_le_bytes());
        put(&mut report, at + 8, &ZONE_SECTORS.to_le_bytes());
        put(&mut report, at + 16, &(zone * ZONE_SECTORS).to_le_bytes());
        report[at + 24] = if conventional { 1 } else { 2 };
        report[at + 25] = if conventional { 0 } else { 1 };
    }
    let options = options.to_vec();
    Input { block: BLOCK as u16, super_block, report, options, open_limit: 0, active_limit: 0 }
}

/// What the library is lent.
struct Lent {
    mount: [u64; MOUNT_WORDS],
    account: [u64; ACCOUNT_WORDS],
    cnv: Vec<u64>,
    seq: Vec<u64>,
    answer: [u64; ANSWER_WORDS],
    pieces: [u64; PIECES_WORDS],
}

impl Lent {
    /// With so many rows in each table.
    fn new(rows: usize) -> Lent {
        let (mount, account) = ([0; MOUNT_WORDS], [0; ACCOUNT_WORDS]);
        let table = || vec![0; rows * ROW_WORDS];
        let (answer, pieces) = ([0; ANSWER_WORDS], [0; PIECES_WORDS]);
        Lent { mount, account, cnv: table(), seq: table(), answer, pieces }
    }

    fn mount(&mut self, input: &Input) -> u64 {
        let Lent { mount, account, cnv, seq, answer, .. } = self;
        words::mount(
            u64::from(input.block),
            &input.super_block,
            &input.options,
            &input.report,
            input.open_limit,
            input.active_limit,
            cnv,
            seq,
            mount,
            account,
            answer,
        )
    }

    /// The same with the report in pieces of so many bytes.
    fn mount_in_pieces(&mut self, input: &Input, length: usize) -> u64 {
        let Lent { mount, account, cnv, seq, answer, pieces } = self;
        let (block, open_limit, active_limit) =
            (u64::from(input.block), input.open_limit, input.active_limit);
        let (super_block, options) = (&input.super_block, &input.options);
        let mut numbers = words::begin(block, super_block, options, open_limit, active_limit, pieces, answer);
        for bytes in input.report.chunks(length) {
            numbers += words::piece(pieces, bytes, cnv, seq, answer);
        }
        numbers + words::end(pieces, mount, account, answer)
    }

    fn write(&mut self, file: u32, offset: u64) -> u64 {
        let Lent { mount, account, cnv, seq, answer, .. } = self;
        words::write(mount, account, cnv, seq, SEQ, file, offset, BLOCK, answer)
    }

    fn complete(&mut self, file: u32) -> u64 {
        let Lent { mount, account, cnv, seq, answer, .. } = self;
        words::complete(mount, account, cnv, seq, SEQ, file, answer)
    }

    fn append(&mut self, offset: u64) -> u64 {
        self.write(ONE_FILE, offset) + self.complete(ONE_FILE)
    }

    /// With its completion.
    fn open(&mut self) -> u64 {
        let Lent { mount, account, cnv, seq, answer, .. } = self;
        words::open(mount, account, cnv, seq, SEQ, ONE_FILE, answer) + self.complete(ONE_FILE)
    }

    /// With its completion.
    fn close(&mut self) -> u64 {
        let Lent { mount, account, cnv, seq, answer, .. } = self;
        words::close(mount, account, cnv, seq, SEQ, ONE_FILE, answer) + self.complete(ONE_FILE)
    }
}

fn volume(input: &Input) -> Volume {
    let mut cnv = vec![Row::EMPTY; MAX_FILES];
    let mut seq = vec![Row::EMPTY; MAX_FILES];
    let (mount, account) = mount(input, &mut cnv, &mut seq).expect("a good volume");
    Volume { mount, account, cnv, seq }
}

fn call(volume: &mut Volume, number: u32, request: Request) {
    volume.call(&Call { kind: FileKind::Sequential, number, request }).expect("a call that is not refused");
}

fn write(volume: &mut Volume, number: u32, offset: u64) {
    call(volume, number, Request::Write { offset, length: BLOCK });
}

fn complete(volume: &mut Volume, number: u32) -> u64 {
    volume.succeed(FileKind::Sequential, number).expect("its completion")
}

fn append(volume: &mut Volume, offset: u64) -> u64 {
    write(volume, ONE_FILE, offset);
    complete(volume, ONE_FILE)
}

/// An open or a close, with its completion.
fn opening(volume: &mut Volume, request: Request) -> u64 {
    call(volume, ONE_FILE, request);
    complete(volume, ONE_FILE)
}

#[repr(C)]
struct Timespec {
    seconds: i64,
    nanoseconds: i64,
}

extern "C" {
    fn clock_gettime(clock: i32, time: *mut Timespec) -> i32;
}

/// The time that this process has had on a core: other work on the machine hardly changes it.
fn cpu_time() -> Duration {
    const PROCESS_CPU_TIME: i32 = 2;
    let mut now = Timespec { seconds: 0, nanoseconds: 0 };
    // It writes one such struct, through a pointer to one.
    let status = unsafe { clock_gettime(PROCESS_CPU_TIME, &mut now) };
    assert_eq!(status, 0);
    Duration::new(now.seconds as u64, now.nanoseconds as u32)
}

/// The time of so many turns; each is told its number.
fn time(turns: u64, mut work: impl FnMut(u64)) -> Duration {
    let start = cpu_time();
    for turn in 0..turns {
        work(turn);
    }
    cpu_time() - start
}

/// The time of each program for a turn, in nanoseconds: the median over the rounds.
fn medians(turns: u64, programs: &mut [&mut dyn FnMut() -> Duration]) -> Vec<f64> {
    let mut times = vec![Vec::new(); programs.len()];
    for _ in 0..ROUNDS {
        for (times, program) in times.iter_mut().zip(programs.iter_mut()) {
            times.push(program().as_nanos() as f64 / turns as f64);
        }
    }
    times
        .into_iter()
        .map(|mut times| {
            times.sort_by(f64::total_cmp);
            times[ROUNDS / 2]
        })
        .collect()
}

fn line(what: &str, library: f64, other: f64, target: &str) {
    println!("{what:<66} {library:>10.0} ns {other:>10.0} ns   pace {:>5.2}{target}", other / library);
}

/// The time of a checksum of so many bytes: the library's, that of a table a byte at a time, and that of one bit at a time.
fn checksum_times(length: usize) -> [f64; 3] {
    let turns = 8_000_000 / (length as u64 + 100);
    let bytes: Vec<u8> = (0..length as u32).map(|i| (i.wrapping_mul(2_654_435_761) >> 24) as u8).collect();
    assert_eq!(words::checksum(&bytes), bytewise(&bytes));
    assert_eq!(words::checksum(&bytes), reference::player::checksum::checksum(&bytes));
    let sum_by = |sum: fn(&[u8]) -> u32| {
        time(turns, |_| {
            black_box(sum(black_box(&bytes)));
        })
    };
    let mut library = || sum_by(words::checksum);
    let mut table = || sum_by(bytewise);
    let mut bits = || sum_by(reference::player::checksum::checksum);
    let times = medians(turns, &mut [&mut library, &mut table, &mut bits]);
    [times[0], times[1], times[2]]
}

/// Of few bytes, of the most that the library takes one at a time, of the fewest that it takes eight at a time, and of a super block's, whose
/// times are handed on.
fn checksums() -> (f64, f64) {
    for length in [16, 127, 128] {
        let what = format!("checksum of {length} bytes, beside a table, a byte at a time");
        let [library, table, _] = checksum_times(length);
        line(&what, library, table, "");
    }
    let [library, table, bits] = checksum_times(4096);
    line("checksum of 4,096 bytes, beside a table, a byte at a time", library, table, "   (target 2.00)");
    line("checksum of 4,096 bytes, beside one bit at a time", library, bits, "");
    (library, bits)
}

fn mounts(input: &Input, checksum: (f64, f64)) {
    const TURNS: u64 = 100;
    let mut lent = Lent::new(MAX_FILES);
    let mut cnv = vec![Row::EMPTY; MAX_FILES];
    let mut seq = vec![Row::EMPTY; MAX_FILES];
    let mut library = || time(TURNS, |_| assert_eq!(black_box(lent.mount(black_box(input))), 0));
    let mut other = || {
        time(TURNS, |_| {
            let mounted = mount(black_box(input), &mut cnv, &mut seq);
            assert!(black_box(mounted).is_ok());
        })
    };
    let times = medians(TURNS, &mut [&mut library, &mut other]);
    line("mount of 1,023 zones, beside the reference", times[0], times[1], "   (target 0.80)");
    let (library, other) = (times[0] - checksum.0, times[1] - checksum.1);
    line("the same less each one's checksum", library, other, "");
    let share = |part: f64, whole: f64| 100.0 * part / whole;
    let (library, other) = (share(checksum.0, times[0]), share(checksum.1, times[1]));
    println!("{:<66} {library:>10.0} %  {other:>10.0} %", "the checksum's share of that mount");
}

/// Good options of so many bytes, as many as fit.
fn option_text(length: usize) -> Vec<u8> {
    let mut text = vec![b"errors=repair".as_slice(); (length + 1) / 14].join(&b',');
    text.resize(length, b',');
    text
}

/// A begin that reads options and does little else, as its super block is refused for its length; and the reference's reading of them alone.
fn options() {
    const TURNS: u64 = 20_000;
    for length in [0, 13, 255] {
        let text = option_text(length);
        assert!(parse(&text).is_ok());
        let (mut pieces, mut answer) = ([0; PIECES_WORDS], [0; ANSWER_WORDS]);
        let mut library = || {
            time(TURNS, |_| {
                let number = words::begin(BLOCK, &[0], black_box(&text), 0, 0, &mut pieces, &mut answer);
                assert_eq!(black_box(number), 21);
            })
        };
        let mut other = || {
            time(TURNS, |_| {
                black_box(parse(black_box(&text))).ok();
            })
        };
        let times = medians(TURNS, &mut [&mut library, &mut other]);
        let what = format!("a refused begin with options of {length} bytes; reading them");
        println!("{what:<66} {:>10.0} ns {:>10.0} ns", times[0], times[1]);
    }
}

/// The time of a zone, and how much of the report that is, in gigabytes (10^9 bytes) a second.
fn zone_line(what: &str, time: f64, input: &Input, pace: &str) {
    let bytes = input.report.len() as f64 / MOST_ZONES as f64;
    println!("{what:<66} {time:>10.1} ns {:>8.2} GB/s{pace}", bytes / time);
}

/// Of as many zones as there can be, with the report whole and in pieces: of a page, and of a mebibyte. All three leave the same.
fn large_mounts() {
    const TURNS: u64 = 20;
    const LENGTHS: [usize; 2] = [4096, 1 << 20];
    let input = &input(MOST_ZONES as u64, b"errors=repair");
    let [mut whole, mut small, mut large] = [(); 3].map(|()| Lent::new(MOST_FILES));
    assert_eq!(whole.mount(input), 0);
    for (lent, length) in [(&mut small, LENGTHS[0]), (&mut large, LENGTHS[1])] {
        assert_eq!(lent.mount_in_pieces(input, length), 0);
        assert!(lent.mount == whole.mount && lent.account == whole.account, "the same mount");
        assert!(lent.cnv == whole.cnv && lent.seq == whole.seq, "the same tables");
    }
    let in_pieces = |lent: &mut Lent, length| {
        time(TURNS, |_| assert_eq!(black_box(lent.mount_in_pieces(black_box(input), length)), 0))
    };
    let mut at_once = || time(TURNS, |_| assert_eq!(black_box(whole.mount(black_box(input))), 0));
    let mut by_page = || in_pieces(&mut small, LENGTHS[0]);
    let mut by_mebibyte = || in_pieces(&mut large, LENGTHS[1]);
    let zones = TURNS * MOST_ZONES as u64;
    let times = medians(zones, &mut [&mut at_once, &mut by_page, &mut by_mebibyte]);
    let pace = |time: f64| format!("   pace {:>5.2}   (target 0.70)", times[0] / time);
    zone_line("a zone of a mount of 65,536, the report whole", times[0], input, "");
    zone_line("the same in pieces of 4,096 bytes, beside the whole", times[1], input, &pace(times[1]));
    zone_line("the same in pieces of 1 MiB, beside the whole", times[2], input, &pace(times[2]));
}

/// A super block in full use, made over other bytes, on a disk whose zone 0 is the volume's.
fn formats(input: &Input) {
    const TURNS: u64 = 1_000;
    let (label, uuid, record) = (b"drawer 7", *b"0123456789abcdef", &input.report[16..80]);
    let (features, owner, group, mode, given) = (15, 1000, 100, 0o600, false);
    let wanted = FormatInput { block: BLOCK, label, uuid, features, owner, group, mode, record, given };
    let mut made = [[0xA5; 4096]; 2];
    let [ours, theirs] = &mut made;
    let mut answer = [0; ANSWER_WORDS];
    let mut library = || {
        time(TURNS, |_| {
            let number = words::format(
                BLOCK,
                ours,
                label,
                &uuid,
                features,
                owner,
                group,
                mode,
                black_box(record),
                0,
                &mut answer,
            );
            assert_eq!(black_box(number), 0);
        })
    };
    let mut other = || time(TURNS, |_| assert_eq!(black_box(format(black_box(&wanted), theirs)), Ok(false)));
    let times = medians(TURNS, &mut [&mut library, &mut other]);
    assert!(made[0] == made[1], "both make the same bytes");
    line("a super block made, beside the reference", times[0], times[1], "");
}

/// The time of a write with its completion, the library's and the reference's: of `passes` over the files, `writes` in each, from a table and an
/// account as the mount left them.
fn appending(
    input: &Input,
    (passes, writes): (u64, u64),
    library: impl Fn(&mut Lent, u64),
    reference: impl Fn(&mut Volume, u64),
) -> Vec<f64> {
    let mut lent = Lent::new(MAX_FILES);
    assert_eq!(lent.mount(input), 0);
    let (account, seq) = (lent.account, lent.seq.clone());
    let fresh = volume(input);
    let mut held = fresh.clone();
    let mut ours = || {
        lent.account = account;
        lent.seq.copy_from_slice(&seq);
        time(passes, |pass| library(&mut lent, pass * BLOCK))
    };
    let mut theirs = || {
        held.account = fresh.account;
        held.seq.copy_from_slice(&fresh.seq);
        time(passes, |pass| reference(&mut held, pass * BLOCK))
    };
    medians(passes * writes, &mut [&mut ours, &mut theirs])
}

fn appends(input: &Input) {
    let library = |lent: &mut Lent, offset| assert_eq!(black_box(lent.append(offset)), 0);
    let reference = |held: &mut Volume, offset| assert_eq!(black_box(append(held, offset)), BLOCK);
    let times = appending(input, (20_000, 1), library, reference);
    line("a write with its completion, beside the reference", times[0], times[1], "   (target 0.80)");
}

/// Each file has a write outstanding, and only then they end, the last one first.
fn busy_appends(input: &Input) {
    let library = |lent: &mut Lent, offset| {
        (0..BUSY_FILES).for_each(|file| assert_eq!(black_box(lent.write(file, offset)), 0));
        (0..BUSY_FILES).rev().for_each(|file| assert_eq!(black_box(lent.complete(file)), 0));
    };
    let reference = |held: &mut Volume, offset| {
        (0..BUSY_FILES).for_each(|file| write(held, file, offset));
        (0..BUSY_FILES).rev().for_each(|file| assert_eq!(black_box(complete(held, file)), BLOCK));
    };
    let times = appending(input, (40, u64::from(BUSY_FILES)), library, reference);
    line("the same on 500 files busy at once, beside the reference", times[0], times[1], "");
}

/// A file with one block is opened and closed, both by commands, with their completions; that is a turn.
fn opens() {
    const TURNS: u64 = 20_000;
    let input = input(ZONES, b"errors=repair,explicit-open");
    let mut lent = Lent::new(MAX_FILES);
    assert_eq!(lent.mount(&input) + lent.open() + lent.append(0) + lent.close(), 0);
    let mut held = volume(&input);
    opening(&mut held, Request::Open);
    append(&mut held, 0);
    opening(&mut held, Request::Close);
    let mut library = || time(TURNS, |_| assert_eq!(black_box(lent.open() + lent.close()), 0));
    let mut other = || {
        time(TURNS, |_| {
            let ended = opening(&mut held, Request::Open) + opening(&mut held, Request::Close);
            assert_eq!(black_box(ended), 0);
        })
    };
    let times = medians(TURNS, &mut [&mut library, &mut other]);
    line("an open and a close with their completions, beside the reference", times[0], times[1], "");
}

fn main() {
    println!("{:<66} {:>13} {:>13}", "", "library", "other");
    let checksum = checksums();
    let input = input(ZONES, b"errors=repair");
    mounts(&input, checksum);
    options();
    large_mounts();
    formats(&input);
    appends(&input);
    busy_appends(&input);
    opens();
}
