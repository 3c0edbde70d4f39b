//! A tape as text, for people.

use crate::player::superblock;
use crate::player::tape::{Named, Next, Reader, Record, Verb};
use crate::player::types::{u32_at, u64_at};
use crate::player::zone::{self, Zone};

/// The first zones of a report are listed, up to this many.
const ZONES_SHOWN: usize = 24;

/// A record as text, and where it begins on the tape.
pub struct Described {
    pub at: usize,
    pub text: String,
}

/// All records up to the end or the first that can't be read, which is described too.
pub fn describe(tape: &[u8]) -> Vec<Described> {
    let mut reader = Reader::new(tape);
    let mut described = Vec::new();
    loop {
        let at = reader.at;
        let text = match reader.read() {
            Next::End => return described,
            Next::Record(record) => record_text(&record),
            Next::Broken => {
                let text = format!("unknown or cut record, {} bytes are left", tape.len() - at);
                described.push(Described { at, text });
                return described;
            }
        };
        described.push(Described { at, text });
    }
}

fn record_text(record: &Record) -> String {
    match record {
        Record::Block(block) => format!("BK {block}"),
        Record::SuperBlock(bytes) => super_block_text(bytes),
        Record::Report(bytes) => report_text(bytes),
        Record::Mount { options, open_limit, active_limit } => {
            format!("MO \"{}\" limits open {open_limit} active {active_limit}", options.escape_ascii())
        }
        Record::Call(call) => {
            let file = format!("{} {}", call.verb.mark(), file_text(&call.named()));
            match call.verb {
                Verb::Read | Verb::Write => format!("{file} offset {} length {}", call.offset, call.length),
                Verb::Truncate => format!("{file} size {}", call.length),
                Verb::Flush | Verb::Open | Verb::Close => file,
            }
        }
        Record::Good(file) => format!("OK {}", file_text(file)),
        Record::Failed(file, bytes) => {
            format!("NO {} {}", file_text(file), zone_text(&Zone::decode(bytes, true)))
        }
    }
}

fn file_text(file: &Named) -> String {
    let kind = match file.kind {
        0 => "cnv".to_string(),
        1 => "seq".to_string(),
        other => format!("kind {other} "),
    };
    format!("{kind}/{}", file.number)
}

fn super_block_text(bytes: &[u8]) -> String {
    let magic = u32_at(bytes, 0);
    let sum = u32_at(bytes, superblock::CHECKSUM_AT);
    let right = superblock::checksum_of(bytes);
    let features = u64_at(bytes, superblock::FEATURES_AT);
    let owner = u32_at(bytes, superblock::OWNER_AT);
    let group = u32_at(bytes, superblock::GROUP_AT);
    let perm = u32_at(bytes, superblock::PERM_AT);
    let tail = bytes[superblock::TAIL_AT..].iter().position(|&byte| byte != 0);
    let tail = tail.map_or("zero".to_string(), |at| format!("nonzero at {}", at + superblock::TAIL_AT));
    format!(
        "SB magic {magic:08x} checksum {sum:08x} (computed {right:08x}) features {features:#x} owner {owner} group {group} perm {perm:o} tail {tail}"
    )
}

fn report_text(bytes: &[u8]) -> String {
    let (sector, count, flags) = (u64_at(bytes, 0), u32_at(bytes, 8), u32_at(bytes, 12));
    let mut text = format!("ZR sector {sector} count {count} flags {flags}");
    let records = bytes[zone::HEADER..].chunks(zone::RECORD);
    for (number, record) in records.enumerate().take(ZONES_SHOWN) {
        let zone = Zone::decode(record, flags & 1 == 1);
        text.push_str(&format!("\n    zone {number}: {}", zone_text(&zone)));
    }
    if bytes.len() > zone::HEADER + ZONES_SHOWN * zone::RECORD {
        text.push_str("\n    ..");
    }
    text
}

fn zone_text(zone: &Zone) -> String {
    format!(
        "start {} length {} pointer {} type {} condition {} capacity {}",
        zone.start, zone.length, zone.pointer, zone.kind, zone.condition, zone.capacity
    )
}
