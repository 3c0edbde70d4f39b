//! Writing the records of a tape.

use crate::player::mount::Input;
use crate::player::tape::{Named, Record, NAMED_LENGTH};

/// Appends a record, mark first.
pub fn encode(record: &Record, tape: &mut Vec<u8>) {
    let mut put = |mark: &str, parts: &[&[u8]]| {
        tape.extend_from_slice(mark.as_bytes());
        parts.iter().for_each(|part| tape.extend_from_slice(part));
    };
    match record {
        Record::Block(block) => put("BK", &[&block.to_le_bytes()]),
        Record::SuperBlock(bytes) => put("SB", &[bytes]),
        Record::Report(bytes) => put("ZR", &[bytes]),
        Record::Mount { options, open_limit, active_limit } => {
            let limits = [open_limit.to_le_bytes(), active_limit.to_le_bytes()].concat();
            put("MO", &[&[options.len() as u8], options, &limits]);
        }
        Record::Call(call) => {
            let (offset, length) = (call.offset.to_le_bytes(), call.length.to_le_bytes());
            put(call.verb.mark(), &[&named_bytes(&call.named()), &offset, &length]);
        }
        Record::Good(file) => put("OK", &[&named_bytes(file)]),
        Record::Failed(file, bytes) => put("NO", &[&named_bytes(file), bytes]),
    }
}

fn named_bytes(named: &Named) -> [u8; NAMED_LENGTH] {
    let mut bytes = [named.kind; NAMED_LENGTH];
    bytes[1..].copy_from_slice(&named.number.to_le_bytes());
    bytes
}

/// The four records that a tape begins with.
pub fn head(input: &Input) -> Vec<u8> {
    let mut tape = Vec::new();
    encode(&Record::Block(input.block), &mut tape);
    encode(&Record::SuperBlock(&input.super_block), &mut tape);
    encode(&Record::Report(&input.report), &mut tape);
    let Input { options, open_limit, active_limit, .. } = input;
    let mount = Record::Mount { options, open_limit: *open_limit, active_limit: *active_limit };
    encode(&mount, &mut tape);
    tape
}
