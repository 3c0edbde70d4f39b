//! Mounting: checks 20 to 30, with 33 between 25 and 26, and the rows that the zones give.

use super::options::{self, Options};
use super::types::{block_is_known, Access, Account, Condition, Held, Mount, Refusal, Row, SECTOR};
use super::zone::Zone;
use super::{superblock, zone};

/// The inputs of a mount, as a tape's first four records carry them.
#[derive(Clone, Debug, PartialEq, Eq)]
pub struct Input {
    pub block: u16,
    pub super_block: Vec<u8>,
    pub report: Vec<u8>,
    pub options: Vec<u8>,
    /// How many files may be open, and active, by an open under `explicit-open`. 0 means none.
    pub open_limit: u32,
    pub active_limit: u32,
}

/// What a mount has found before it looks at a report, and the limits, which it doesn't check.
#[derive(Clone, Copy, Debug, PartialEq, Eq)]
pub struct Begun {
    pub block: u64,
    pub super_block: superblock::SuperBlock,
    pub options: Options,
    pub open_limit: u32,
    pub active_limit: u32,
}

/// Checks 20 to 27, with 33: those that come before the report's, whether it is there already or not.
pub fn begin(
    block: u64,
    super_block: &[u8],
    options: &[u8],
    open_limit: u32,
    active_limit: u32,
) -> Result<Begun, Refusal> {
    if !block_is_known(block) {
        return Err(Refusal::Block);
    }
    let super_block = superblock::decode(super_block)?;
    let options = options::parse(options)?;
    Ok(Begun { block, super_block, options, open_limit, active_limit })
}

impl Begun {
    /// The mount value and the account of a mount with so many cnv files and these seq files.
    pub fn mounted(&self, cnv_files: usize, seq_rows: &[Row]) -> (Mount, Account) {
        let superblock::SuperBlock { owner, group, mode, uuid, .. } = self.super_block;
        let Options { policy, explicit_open } = self.options;
        let account = Account::at_mount(seq_rows, explicit_open, self.open_limit, self.active_limit);
        let mount = Mount {
            block: self.block,
            cnv_files,
            seq_files: seq_rows.len(),
            owner,
            group,
            mode,
            policy,
            explicit_open,
            read_only: false,
            uuid,
        };
        (mount, account)
    }
}

/// Fills the front of both tables. A refusal leaves them as they were, as it does the rows past the files.
pub fn mount(input: &Input, cnv: &mut [Row], seq: &mut [Row]) -> Result<(Mount, Account), Refusal> {
    let Input { super_block, report, options, open_limit, active_limit, .. } = input;
    let begun = begin(u64::from(input.block), super_block, options, *open_limit, *active_limit)?;
    let zones = zone::decode_report(report)?;
    zone::check_zones(&zones, begun.block)?;
    let cnv_rows = conventional_rows(&zones, begun.super_block.aggregate);
    let seq_rows = sequential_rows(&zones);
    if cnv_rows.len() > cnv.len() || seq_rows.len() > seq.len() {
        return Err(Refusal::TooFewRows);
    }
    cnv[..cnv_rows.len()].copy_from_slice(&cnv_rows);
    seq[..seq_rows.len()].copy_from_slice(&seq_rows);
    Ok(begun.mounted(cnv_rows.len(), &seq_rows))
}

fn sequential_rows(zones: &[Zone]) -> Vec<Row> {
    zones.iter().skip(1).filter(|zone| !zone.is_conventional()).map(sequential_row).collect()
}

pub fn sequential_row(zone: &Zone) -> Row {
    let healthy = zone.health() == Condition::Healthy;
    let size = if healthy { zone.written() } else { 0 };
    row_at_mount(zone.start, zone.capacity * SECTOR, size, healthy)
}

/// Zone 0 holds the super block and belongs to no file, so it begins no run either.
fn conventional_rows(zones: &[Zone], aggregate: bool) -> Vec<Row> {
    let files = &zones[1..];
    let runs: Vec<&[Zone]> = if aggregate {
        files.chunk_by(|a, b| a.is_conventional() == b.is_conventional()).collect()
    } else {
        files.chunks(1).collect()
    };
    runs.into_iter().filter(|run| run[0].is_conventional()).map(conventional_row).collect()
}

/// The file of a run of conventional zones, or of a single one.
pub fn conventional_row(run: &[Zone]) -> Row {
    let sectors: u64 = run.iter().map(|zone| zone.capacity).sum();
    let healthy = run.iter().all(|zone| zone.health() == Condition::Healthy);
    let size = if healthy { sectors * SECTOR } else { 0 };
    row_at_mount(run[0].start, sectors * SECTOR, size, healthy)
}

/// A zone that is read-only at mount has no known size, so it is kept as an offline one.
fn row_at_mount(start: u64, capacity: u64, size: u64, healthy: bool) -> Row {
    let (condition, access) =
        if healthy { (Condition::Healthy, Access::Write) } else { (Condition::Offline, Access::None) };
    Row { start, capacity, size, condition, access, opens: 0, held: Held::Nothing }
}
