//! Mounts a volume, keeps two files busy at once, has an append fail halfway, recovers, and goes on, as examples/firmware.c does. Before that
//! a report with a bad zone is refused, and says what is bad. After it the disk is mounted again with `explicit-open`: files are opened before they are
//! written and closed afterwards, and no more are open at once than the disk can take.
//! The disk is played by this program. It prints each step, and ends with status 1 where a step answers otherwise than it should.

use std::error::Error;

use zonefs::{format, words, Command, CommandKind, FileId, Format};
use zonefs::{Reason, Refusal, Reply, Source, Volume, EMPTY_ROW};

const BLOCK: u64 = 4096;
const SECTOR: u64 = 512;
const ZONE_SECTORS: u64 = 524_288;
const CAPACITY_SECTORS: u64 = 393_216;

/// Five zones: three conventional, then two sequential ones that have been written up to these pointers.
struct Disk {
    pointers: [u64; 2],
    /// So many blocks of the next command land, and then it fails.
    fails_after: Option<u64>,
}

impl Disk {
    const CONVENTIONAL: u64 = 3;

    /// As a formatter leaves it. Zone 0 is conventional, so it isn't to be finished.
    fn super_block(&self) -> Result<[u8; words::SUPER_BYTES], Refusal> {
        let wanted = Format {
            block: BLOCK,
            label: b"recover",
            uuid: [0; words::UUID_BYTES],
            features: 0,
            owner: 0,
            group: 0,
            mode: 0,
            record: &self.record(0),
            capacity_given: true,
        };
        let mut bytes = [0; words::SUPER_BYTES];
        assert!(!format(&wanted, &mut bytes)?.finish, "zone 0 is conventional");
        Ok(bytes)
    }

    fn report(&self) -> Vec<u8> {
        let zones = Disk::CONVENTIONAL + self.pointers.len() as u64;
        let mut bytes = vec![0; words::HEADER_BYTES];
        put(&mut bytes, words::REPORT_COUNT, &(zones as u32).to_le_bytes());
        put(&mut bytes, words::REPORT_FLAGS, &words::CAPACITY_GIVEN.to_le_bytes());
        (0..zones).for_each(|zone| bytes.extend(self.record(zone)));
        bytes
    }

    /// The zone as it is now.
    fn record(&self, zone: u64) -> [u8; words::ZONE_BYTES] {
        let start = zone * ZONE_SECTORS;
        // Type, condition, capacity and pointer: a conventional zone has no pointer, and neither has a full one, so there it may be 0.
        let (kind, condition, capacity, pointer) = match zone.checked_sub(Disk::CONVENTIONAL) {
            None => (1, 0, ZONE_SECTORS, 0),
            Some(number) => match self.pointers[number as usize] {
                pointer if pointer == start => (2, 1, CAPACITY_SECTORS, pointer),
                pointer if pointer == start + CAPACITY_SECTORS => (2, 14, CAPACITY_SECTORS, 0),
                pointer => (2, 2, CAPACITY_SECTORS, pointer),
            },
        };
        let mut bytes = [0; words::ZONE_BYTES];
        put(&mut bytes, words::RECORD_START, &start.to_le_bytes());
        put(&mut bytes, words::RECORD_LENGTH, &ZONE_SECTORS.to_le_bytes());
        put(&mut bytes, words::RECORD_POINTER, &pointer.to_le_bytes());
        bytes[words::RECORD_TYPE] = kind;
        bytes[words::RECORD_CONDITION] = condition;
        put(&mut bytes, words::RECORD_CAPACITY, &capacity.to_le_bytes());
        bytes
    }

    /// Does a command on a sequential zone; gives the zone's record where not all of it was done.
    fn perform(&mut self, command: &Command) -> Result<(), [u8; words::ZONE_BYTES]> {
        let zone = command.address / SECTOR / ZONE_SECTORS;
        let pointer = &mut self.pointers[(zone - Disk::CONVENTIONAL) as usize];
        match command.kind {
            CommandKind::Write => {}
            CommandKind::Reset => {
                *pointer = zone * ZONE_SECTORS;
                return Ok(());
            }
            // A zone that is opened or closed keeps its pointer.
            CommandKind::Open | CommandKind::Close => return Ok(()),
            other => panic!("this program asks for no {other:?}"),
        }
        assert_eq!(command.address, *pointer * SECTOR, "a sequential zone is written at its pointer");
        let failure = self.fails_after.take();
        *pointer += failure.map_or(command.length, |blocks| blocks * BLOCK) / SECTOR;
        failure.map_or(Ok(()), |_| Err(self.record(zone)))
    }
}

fn put(bytes: &mut [u8], at: usize, value: &[u8]) {
    bytes[at..at + value.len()].copy_from_slice(value);
}

type Mounted = Volume<[zonefs::RowWords; 4]>;

/// The limits are how many files may be open and how many active; 0 is none.
fn mount_with(
    disk: &Disk,
    options: &[u8],
    (open_limit, active_limit): (u32, u32),
) -> Result<Mounted, Refusal> {
    let (super_block, report) = (disk.super_block()?, disk.report());
    let source = Source {
        block: BLOCK,
        super_block: &super_block,
        options,
        report: &report,
        open_limit,
        active_limit,
    };
    Volume::mount(&source, [EMPTY_ROW; 4], [EMPTY_ROW; 4])
}

fn mount(disk: &Disk) -> Result<Mounted, Refusal> {
    mount_with(disk, b"errors=repair", (0, 0))
}

/// The command that a call has led to. Here each call does.
fn commanded(reply: Reply) -> Result<Command, String> {
    match reply {
        Reply::Command(command) => Ok(command),
        Reply::Done(_) => Err("the disk should have something to do".to_string()),
    }
}

/// Has the disk do what the file has outstanding, and says how that went. Gives the bytes written.
fn end(volume: &mut Mounted, disk: &mut Disk, file: FileId, command: &Command) -> Result<u64, Refusal> {
    match disk.perform(command) {
        Ok(()) => volume.complete(file),
        Err(record) => Err(volume.fail(file, &record, true)),
    }
}

/// Carries a call through as a driver does that waits for the disk: has the disk do the command, if there is one, and says how that went.
fn carry(volume: &mut Mounted, disk: &mut Disk, file: FileId, reply: Reply) -> Result<u64, Refusal> {
    match reply {
        Reply::Done(count) => Ok(count),
        Reply::Command(command) => end(volume, disk, file, &command),
    }
}

fn append(volume: &mut Mounted, disk: &mut Disk, file: FileId, length: u64) -> Result<u64, Refusal> {
    let size = size_of(volume, file)?;
    let reply = volume.write(file, size, length)?;
    carry(volume, disk, file, reply)
}

fn open(volume: &mut Mounted, disk: &mut Disk, file: FileId) -> Result<u64, Refusal> {
    let reply = volume.open(file)?;
    carry(volume, disk, file, reply)
}

fn close(volume: &mut Mounted, disk: &mut Disk, file: FileId) -> Result<u64, Refusal> {
    let reply = volume.close(file)?;
    carry(volume, disk, file, reply)
}

fn size_of(volume: &Mounted, file: FileId) -> Result<u64, Refusal> {
    volume.show(file).map(|file| file.size)
}

/// Prints a step, and stops the program where its answer isn't the one expected.
fn step(what: &str, answer: Result<u64, Refusal>, expected: Result<u64, Refusal>) -> Result<(), String> {
    match answer {
        Ok(bytes) => println!("{what}: {bytes} bytes"),
        Err(refusal) => println!("{what}: refused, {refusal}"),
    }
    if answer == expected {
        return Ok(());
    }
    Err(format!("{what}: expected {expected:?}"))
}

/// A pointer that lies before its zone: the refusal names the zone and the field.
fn refused_mount() -> Result<(), String> {
    let astray = Disk { pointers: [3 * ZONE_SECTORS - BLOCK / SECTOR, 4 * ZONE_SECTORS], fails_after: None };
    let bad_zone = Refusal::BadZone { zone: 3, reason: Reason::Pointer };
    step("mount with a pointer astray", mount(&astray).map(|_| 0), Err(bad_zone))
}

/// Each file may have a command outstanding: seq/1 is emptied while an append to seq/0 is under way, and is done first.
fn two_files(volume: &mut Mounted, disk: &mut Disk, log: FileId, full: FileId) -> Result<(), Box<dyn Error>> {
    let append = commanded(volume.write(log, 4096, 8192)?)?;
    let reset = commanded(volume.truncate(full, 0)?)?;
    let busy = volume.write(log, 4096, 4096).map(|_| 0);
    step("append 4096 to seq/0, which is busy", busy, Err(Refusal::Busy))?;
    step("reset seq/1", end(volume, disk, full, &reset), Ok(0))?;
    step("size of seq/1", size_of(volume, full), Ok(0))?;
    assert_eq!(volume.outstanding(log)?, Some(append), "what seq/0 has outstanding stays so");
    step("append 8192 to seq/0", end(volume, disk, log, &append), Ok(8192))?;
    step("size of seq/0", size_of(volume, log), Ok(12288))?;
    Ok(())
}

/// Of two blocks only one lands: the size is what is on the disk, and the rest is appended there.
fn recover(volume: &mut Mounted, disk: &mut Disk, log: FileId) -> Result<(), String> {
    disk.fails_after = Some(1);
    step("append 8192 to seq/0", append(volume, disk, log, 8192), Err(Refusal::Failed { size: 16384 }))?;
    let misplaced = volume.write(log, 12288, 4096).map(|_| 0);
    step("append 4096 where it had been", misplaced, Err(Refusal::Misplaced))?;
    step("append 4096 to seq/0", append(volume, disk, log, 4096), Ok(4096))?;
    step("size of seq/0", size_of(volume, log), Ok(20480))
}

/// Prints how many files the account has, and stops the program where there aren't as many.
fn count(volume: &Mounted, open: u32, active: u32) -> Result<(), String> {
    let account = volume.account().ok_or("a mount gives an account")?;
    println!("{} open, {} active", account.open, account.active);
    if (account.open, account.active) == (open, active) {
        return Ok(());
    }
    Err(format!("expected {open} and {active}"))
}

/// Under `explicit-open` nothing is written to a file that isn't open, and here one file alone may be open. The first open of a file and its last
/// close are commands for the disk; seq/1 is empty, so that it is active only while it is open, and its close is none.
fn by_hand(disk: &mut Disk) -> Result<(), Box<dyn Error>> {
    let mut volume = mount_with(disk, b"errors=repair,explicit-open", (1, 2))?;
    let volume = &mut volume;
    let (log, other) = (volume.find("seq/0")?, volume.find("seq/1")?);
    count(volume, 0, 1)?;
    let closed = append(volume, disk, log, 4096);
    step("append 4096 to seq/0, which is not open", closed, Err(Refusal::NotOpen))?;
    step("open seq/0", open(volume, disk, log), Ok(0))?;
    step("open seq/1", open(volume, disk, other), Err(Refusal::OpenLimit))?;
    step("append 4096 to seq/0", append(volume, disk, log, 4096), Ok(4096))?;
    count(volume, 1, 1)?;
    step("close seq/0", close(volume, disk, log), Ok(0))?;
    step("open seq/1", open(volume, disk, other), Ok(0))?;
    count(volume, 1, 2)?;
    step("close seq/1", close(volume, disk, other), Ok(0))?;
    step("close seq/1 once more", close(volume, disk, other), Err(Refusal::NotOpen))?;
    count(volume, 0, 1)?;
    Ok(())
}

fn main() -> Result<(), Box<dyn Error>> {
    refused_mount()?;

    // seq/0 has one block, seq/1 is full.
    let pointers = [3 * ZONE_SECTORS + BLOCK / SECTOR, 4 * ZONE_SECTORS + CAPACITY_SECTORS];
    let mut disk = Disk { pointers, fails_after: None };
    let mut volume = mount(&disk)?;
    let value = volume.value().ok_or("a mount gives a mount value")?;
    println!("mounted: {} cnv files, {} seq files", value.cnv_files, value.seq_files);

    // A full zone's file has its capacity.
    let (log, full) = (volume.find("seq/0")?, volume.find("seq/1")?);
    step("size of seq/1", size_of(&volume, full), Ok(CAPACITY_SECTORS * SECTOR))?;
    step("size of seq/0", size_of(&volume, log), Ok(4096))?;

    two_files(&mut volume, &mut disk, log, full)?;
    recover(&mut volume, &mut disk, log)?;
    println!("recovered");

    by_hand(&mut disk)?;
    println!("closed");
    Ok(())
}
