//! Tests with numbers from the papers, or worked out by hand; none asks this program for its expectation.

mod accounts;
mod answers;
mod borders;
mod busy;
mod calls;
mod completion;
mod completion_order;
mod consistency;
mod format;
mod generator;
mod held;
mod mount;
mod opening;
mod openings;
mod option_texts;
mod perms;
mod pieces;
mod pointers;
mod reasons;
mod sheet;
mod sums;
mod tape;
mod truthful;

use crate::player::calls::{Call, Reply, Request};
use crate::player::mount::Input;
use crate::player::play::mount_volume;
use crate::player::tape::Named;
use crate::player::types::{FileKind, Refusal, Volume};
use crate::player::zone::Zone;

pub const CNV: FileKind = FileKind::Conventional;
pub const SEQ: FileKind = FileKind::Sequential;

/// A super block with the default mode, nobody's label, and a right checksum.
pub fn super_block(features: u64) -> Vec<u8> {
    let mut bytes = vec![0; 4096];
    bytes[..4].copy_from_slice(&[0x53, 0x46, 0x4F, 0x5A]);
    bytes[88..96].copy_from_slice(&features.to_le_bytes());
    stamp(&mut bytes);
    bytes
}

/// Puts the checksum over bytes with a zero field into a super block.
pub fn stamp(bytes: &mut [u8]) {
    bytes[4..8].fill(0);
    let sum = crate::player::checksum::checksum(bytes);
    bytes[4..8].copy_from_slice(&sum.to_le_bytes());
}

/// Puts in the faults of those numbers that are a super block's; 25 by the id at `id_at` with its feature bit.
pub fn spoil_super_block(bytes: &mut Vec<u8>, faults: &[u32], id_at: usize, id_bit: u8) {
    for fault in faults {
        match fault {
            22 => bytes[0] ^= 1,
            24 => bytes[88] |= 16,
            25 => {
                bytes[88] |= id_bit;
                bytes[id_at..id_at + 4].fill(0xFF);
            }
            33 => {
                bytes[88] |= 8;
                bytes[104..108].copy_from_slice(&[0, 2, 0, 0]);
            }
            26 => bytes[4095] = 1,
            _ => {}
        }
    }
    stamp(bytes);
    bytes[4] ^= u8::from(faults.contains(&23));
    bytes.resize(4096 + usize::from(faults.contains(&21)), 0);
}

/// A sequential file, as a tape's completion names it.
pub fn seq(number: u32) -> Named {
    Named { kind: 1, number }
}

pub fn cnv(number: u32) -> Named {
    Named { kind: 0, number }
}

pub fn zone(start: u64, length: u64, pointer: u64, kind: u8, condition: u8, capacity: u64) -> Zone {
    Zone { start, length, pointer, kind, condition, capacity }
}

pub fn record(zone: &Zone) -> [u8; 64] {
    let mut bytes = [0xEE; 64];
    bytes[..8].copy_from_slice(&zone.start.to_le_bytes());
    bytes[8..16].copy_from_slice(&zone.length.to_le_bytes());
    bytes[16..24].copy_from_slice(&zone.pointer.to_le_bytes());
    bytes[24] = zone.kind;
    bytes[25] = zone.condition;
    bytes[32..40].copy_from_slice(&zone.capacity.to_le_bytes());
    bytes
}

pub fn report(flags: u32, zones: &[Zone]) -> Vec<u8> {
    let mut bytes = vec![0; 8];
    bytes.extend_from_slice(&(zones.len() as u32).to_le_bytes());
    bytes.extend_from_slice(&flags.to_le_bytes());
    zones.iter().for_each(|zone| bytes.extend_from_slice(&record(zone)));
    bytes
}

/// The five zones of the paper's worked example.
pub fn sheet_zones() -> Vec<Zone> {
    vec![
        zone(0, 524288, 0, 1, 0, 524288),
        zone(524288, 524288, 0, 1, 0, 524288),
        zone(1048576, 524288, 0, 1, 0, 524288),
        zone(1572864, 524288, 1572872, 2, 2, 393216),
        zone(2097152, 524288, 2097152, 2, 1, 393216),
    ]
}

pub fn input_with(features: u64, options: &str, zones: &[Zone]) -> Input {
    Input {
        block: 4096,
        super_block: super_block(features),
        report: report(1, zones),
        options: options.as_bytes().to_vec(),
        open_limit: 0,
        active_limit: 0,
    }
}

pub fn sheet_input() -> Input {
    input_with(0, "errors=repair", &sheet_zones())
}

pub fn sheet() -> Volume {
    mount_volume(&sheet_input()).unwrap()
}

/// The sheet's disk under another error policy.
pub fn sheet_under(options: &str) -> Volume {
    mount_volume(&input_with(0, options, &sheet_zones())).unwrap()
}

pub fn read(kind: FileKind, number: u32, offset: u64, length: u64) -> Call {
    Call { kind, number, request: Request::Read { offset, length } }
}

pub fn write(kind: FileKind, number: u32, offset: u64, length: u64) -> Call {
    Call { kind, number, request: Request::Write { offset, length } }
}

pub fn truncate(kind: FileKind, number: u32, size: u64) -> Call {
    Call { kind, number, request: Request::Truncate { size } }
}

pub fn flush(kind: FileKind, number: u32) -> Call {
    Call { kind, number, request: Request::Flush }
}

pub fn open(kind: FileKind, number: u32) -> Call {
    Call { kind, number, request: Request::Open }
}

pub fn close(kind: FileKind, number: u32) -> Call {
    Call { kind, number, request: Request::Close }
}

/// The refusal's number, or 0 for a call that is answered or issued.
pub fn number(result: Result<Reply, Refusal>) -> u32 {
    result.map_or_else(Refusal::number, |_| 0)
}
