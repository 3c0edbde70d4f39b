//! Calls: numbers 1 to 6 and 10, their order, names and modes.

use super::*;
use crate::player::calls::Reply::{Done, Issued};
use crate::player::types::{Access, Command, Condition, Operation, Row};

#[test]
fn numbers_one_to_six() {
    assert_eq!(number(sheet().call(&read(CNV, 2, 0, 1))), 1);
    assert_eq!(number(sheet().call(&flush(SEQ, u32::MAX))), 1);
    let mut busy = sheet();
    busy.call(&flush(SEQ, 1)).unwrap();
    assert_eq!(number(busy.call(&read(SEQ, 1, 0, 0))), 2);
    assert_eq!(number(busy.call(&read(SEQ, 2, 0, 0))), 1);
    let mut read_only = sheet();
    read_only.mount.read_only = true;
    assert_eq!(number(read_only.call(&write(CNV, 0, 0, 0))), 3);
    assert_eq!(number(read_only.call(&truncate(CNV, 0, 5))), 3);
    assert_eq!(number(read_only.call(&flush(SEQ, 0))), 3);
    assert_eq!(number(read_only.call(&read(SEQ, 0, 0, 1))), 0);
    assert_eq!(number(sheet().call(&truncate(CNV, 0, 0))), 4);
    assert_eq!(number(sheet().call(&truncate(SEQ, 0, 201326593))), 4);
    assert_eq!(number(sheet().call(&read(SEQ, 0, u64::MAX, u64::MAX))), 5);
    assert_eq!(number(sheet().call(&write(CNV, 0, 1, u64::MAX))), 5);
    assert_eq!(number(sheet().call(&write(SEQ, 0, 8192, 4096))), 6);
}

#[test]
fn access_is_checked_before_capacity() {
    for (access, size) in [(Access::Read, 4096), (Access::None, 0)] {
        let mut volume = sheet();
        volume.seq[0] = Row { access, size, ..volume.seq[0] };
        let reading = if access == Access::None { 4 } else { 5 };
        assert_eq!(number(volume.call(&read(SEQ, 0, 0, u64::MAX))), reading);
        assert_eq!(number(volume.call(&write(SEQ, 0, 0, u64::MAX))), 4);
        assert_eq!(number(volume.call(&truncate(SEQ, 0, size))), 4);
        assert_eq!(number(volume.call(&flush(SEQ, 0))), 4);
    }
}

#[test]
fn length_zero() {
    assert_eq!(sheet().call(&write(SEQ, 0, 4096, 0)), Ok(Done(0)));
    assert_eq!(sheet().call(&write(CNV, 0, 268435456, 0)), Ok(Done(0)));
    assert_eq!(number(sheet().call(&write(SEQ, 0, 0, 0))), 6);
    assert_eq!(number(sheet().call(&write(SEQ, 0, 201326593, 0))), 5);
    assert_eq!(number(sheet().call(&read(SEQ, 0, 201326593, 0))), 5);
    assert_eq!(sheet().call(&read(SEQ, 0, 201326592, 0)), Ok(Done(0)));
}

#[test]
fn commands() {
    let command = |operation, address, length| Ok(Issued(Command { operation, address, length }));
    assert_eq!(sheet().call(&write(CNV, 1, 3, 5)), command(Operation::Write, 536870915, 5));
    assert_eq!(sheet().call(&read(CNV, 0, 268435455, 1)), command(Operation::Read, 536870911, 1));
    assert_eq!(sheet().call(&truncate(SEQ, 0, 0)), command(Operation::Reset, 805306368, 0));
    assert_eq!(sheet().call(&truncate(SEQ, 1, 201326592)), command(Operation::Finish, 1073741824, 0));
    assert_eq!(sheet().call(&flush(CNV, 0)), command(Operation::Flush, 268435456, 0));
    let mut volume = sheet();
    volume.seq[1].size = 201326592;
    assert_eq!(volume.call(&truncate(SEQ, 1, 201326592)), Ok(Done(0)));
}

/// Number 10 for counts and block comes before 1, for a row between 1 and 2.
#[test]
fn impossible_mounts() {
    let broken: [fn(&mut Volume); 6] = [
        |volume| volume.mount.block = 513,
        |volume| volume.mount.cnv_files = 65_536,
        |volume| volume.mount.seq_files = 65_536,
        |volume| volume.cnv.truncate(1),
        |volume| volume.seq.clear(),
        |volume| (volume.mount.seq_files, volume.seq) = (65_536, vec![Row::EMPTY; 65_536]),
    ];
    for change in broken {
        let mut volume = sheet();
        change(&mut volume);
        assert_eq!(number(volume.call(&read(CNV, 5000, 0, 0))), 10);
        assert_eq!(volume.find(b"nothing"), Err(Refusal::Impossible));
    }
}

#[test]
fn impossible_rows() {
    let broken: [fn(&mut Row); 12] = [
        |row| row.start = 0,
        |row| row.start += 1,
        |row| row.capacity = 0,
        |row| row.capacity += 512,
        |row| row.start = (1 << 40) - 8,
        |row| row.start = u64::MAX - 7,
        |row| row.size = 512,
        |row| row.size = row.capacity + 4096,
        |row| row.condition = Condition::Offline,
        |row| row.access = Access::None,
        |row| row.condition = Condition::ReadOnly,
        |row| (row.condition, row.access) = (Condition::Offline, Access::Read),
    ];
    for (index, change) in broken.iter().enumerate() {
        let mut volume = sheet();
        volume.call(&flush(SEQ, 0)).unwrap();
        change(&mut volume.seq[0]);
        assert_eq!(number(volume.call(&flush(SEQ, 0))), 10, "change {index}");
        assert_eq!(number(volume.call(&flush(SEQ, 7))), 1, "change {index}");
    }
    let mut volume = sheet();
    volume.cnv[0].size -= 4096;
    assert_eq!(number(volume.call(&flush(CNV, 0))), 10);
}

#[test]
fn names() {
    let volume = sheet();
    assert_eq!(volume.find(b"cnv/0"), Ok((CNV, 0)));
    assert_eq!(volume.find(b"seq/1"), Ok((SEQ, 1)));
    let nothing: [&[u8]; 11] = [
        b"seq/07",
        b"seq/1 ",
        b"seq/",
        b"seq",
        b"seq/2",
        b"cnv/00",
        b"Seq/1",
        b"seq/+1",
        b"seq/-0",
        b"seq/4294967296",
        b"/seq/1",
    ];
    for name in nothing {
        assert_eq!(volume.find(name), Err(Refusal::NoSuchFile), "{}", name.escape_ascii());
    }
}

#[test]
fn modes() {
    let mut volume = sheet();
    assert_eq!(volume.show(SEQ, 0).unwrap().1, 0o640);
    volume.seq[0].access = Access::Read;
    assert_eq!(volume.show(SEQ, 0).unwrap().1, 0o440);
    volume.seq[1].access = Access::None;
    assert_eq!(volume.show(SEQ, 1).unwrap().1, 0);
    volume.mount.read_only = true;
    volume.mount.mode = 0o1777;
    assert_eq!(volume.show(CNV, 0).unwrap().1, 0o1555);
}
