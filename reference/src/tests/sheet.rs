//! The paper's worked example, whole.

use super::*;
use crate::generator::records::{encode, head};
use crate::player::calls::Reply::{Done, Issued};
use crate::player::play::play;
use crate::player::tape::{CallRecord, Record, Verb};
use crate::player::types::{Access, Command, Held, Operation};

fn command(operation: Operation, address: u64, length: u64) -> Reply {
    Issued(Command { operation, address, length })
}

#[test]
fn files_and_sizes() {
    let volume = sheet();
    assert_eq!((volume.mount.cnv_files, volume.mount.seq_files), (2, 2));
    assert_eq!((volume.cnv[0].size, volume.cnv[1].size), (268435456, 268435456));
    assert_eq!((volume.cnv[0].capacity, volume.cnv[1].capacity), (268435456, 268435456));
    assert_eq!((volume.seq[0].size, volume.seq[1].size), (4096, 0));
    assert_eq!(volume.seq[0].capacity, 201326592);
}

#[test]
fn aggregated() {
    let volume = mount_volume(&input_with(1, "errors=repair", &sheet_zones())).unwrap();
    assert_eq!((volume.mount.cnv_files, volume.mount.seq_files), (1, 2));
    assert_eq!((volume.cnv[0].start, volume.cnv[0].size), (524288, 536870912));
}

#[test]
fn writes() {
    let issued = command(Operation::Write, 805306368 + 4096, 201322496);
    assert_eq!(sheet().call(&write(SEQ, 0, 4096, 201322496)), Ok(issued));
    assert_eq!(number(sheet().call(&write(SEQ, 0, 4096, 201326592))), 5);
    assert_eq!(number(sheet().call(&write(SEQ, 0, 4096, 1))), 6);
    assert_eq!(number(sheet().call(&write(SEQ, 0, 0, 4096))), 6);
}

#[test]
fn truncations() {
    assert_eq!(number(sheet().call(&truncate(SEQ, 0, 4096))), 4);
    let mut volume = sheet();
    assert_eq!(volume.call(&truncate(SEQ, 1, 0)), Ok(Done(0)));
    assert_eq!(volume, sheet());
}

#[test]
fn reads() {
    assert_eq!(sheet().call(&read(SEQ, 0, 0, 10000)), Ok(command(Operation::Read, 805306368, 4096)));
    assert_eq!(sheet().call(&read(SEQ, 0, 4096, 10000)), Ok(Done(0)));
}

#[test]
fn failed_write() {
    for (condition, size, access) in [(2, 8192, Access::Write), (13, 4096, Access::Read)] {
        let mut volume = sheet();
        volume.call(&write(SEQ, 0, 4096, 8192)).unwrap();
        let zone = zone(1572864, 524288, 1572880, 2, condition, 393216);
        assert_eq!(volume.fail(SEQ, 0, &record(&zone), true), Ok(size));
        assert_eq!((volume.seq[0].size, volume.seq[0].access), (size, access));
    }
}

/// A full zone has no pointer, so it has its capacity whatever stands there.
#[test]
fn full_zone_at_mount() {
    let mut zones = sheet_zones();
    zones[4] = zone(2097152, 524288, 0, 2, 14, 393216);
    let volume = mount_volume(&input_with(0, "errors=repair", &zones)).unwrap();
    assert_eq!((volume.seq[0].size, volume.seq[1].size), (4096, 201326592));
}

#[test]
fn failed_write_into_a_full_zone() {
    let mut volume = sheet();
    volume.call(&write(SEQ, 0, 4096, 8192)).unwrap();
    let zone = zone(1572864, 524288, 0, 2, 14, 393216);
    assert_eq!(volume.fail(SEQ, 0, &record(&zone), true), Ok(201326592));
    assert_eq!((volume.seq[0].size, volume.seq[0].access), (201326592, Access::Write));
    assert_eq!(volume.seq[0].held, Held::Nothing);
}

/// A call on a sequential file, as a tape has it.
fn on_tape(verb: Verb, number: u32, offset: u64, length: u64) -> Record<'static> {
    Record::Call(CallRecord { verb, kind: 1, number, offset, length })
}

/// What a tape prints that mounts this input and then has these records.
fn printed(input: &Input, records: &[Record]) -> String {
    let mut tape = head(input);
    records.iter().for_each(|record| encode(record, &mut tape));
    play(&tape).iter().map(|line| format!("{}\n", line.text)).collect()
}

/// The same two as a tape prints them, with a read that shows the size.
#[test]
fn full_zones_on_a_tape() {
    let mut zones = sheet_zones();
    zones[4] = zone(2097152, 524288, 0, 2, 14, 393216);
    let full = record(&zone(1572864, 524288, 0, 2, 14, 393216));
    let records = [
        on_tape(Verb::Read, 1, 0, 201326592),
        Record::Good(seq(1)),
        on_tape(Verb::Write, 0, 4096, 8192),
        Record::Failed(seq(0), &full),
        on_tape(Verb::Write, 0, 201326592, 0),
    ];
    let expected = "\
MO 0 2 2
RD 0 R 1073741824 201326592
OK 1 1 0 201326592
WR 0 W 805310464 8192
NO 1 0 7 201326592
WR 0 D 0
";
    assert_eq!(printed(&input_with(0, "errors=repair", &zones), &records), expected);
}

/// The output that the paper prints whole, with the file in the completions' lines.
#[test]
fn printed_output() {
    let records = [
        on_tape(Verb::Write, 0, 4096, 8192),
        Record::Good(seq(0)),
        on_tape(Verb::Write, 0, 4096, 4096),
        on_tape(Verb::Truncate, 0, 0, 0),
        Record::Good(seq(0)),
    ];
    let expected = "\
MO 0 2 2
WR 0 W 805310464 8192
OK 1 0 0 8192
WR 6
TR 0 Z 805306368 0
OK 1 0 0 0
";
    assert_eq!(printed(&sheet_input(), &records), expected);
}

#[test]
fn checksum_is_not_inverted() {
    assert_eq!(crate::player::checksum::checksum(b"123456789"), 0x340BC6D9);
    assert_eq!(crate::player::checksum::checksum(b""), 0xFFFFFFFF);
}
