//! The player: one line for each record of a tape, from the mount on.

use super::calls::Reply;
use super::mount::{mount, Input};
use super::tape::{CallRecord, Named, Next, Reader, Record};
use super::types::{Operation, Refusal, Row, Volume, PLAYER_ROWS};

/// A printed line, and where on the tape its record begins.
#[derive(Clone, Debug, PartialEq, Eq)]
pub struct Line {
    pub at: usize,
    pub text: String,
}

const BROKEN: &str = "?? 40";

/// Plays a whole tape.
pub fn play(tape: &[u8]) -> Vec<Line> {
    let mut reader = Reader::new(tape);
    let mut lines = Vec::new();
    let Some((at, input)) = read_input(&mut reader) else {
        return vec![Line { at: reader.at, text: BROKEN.to_string() }];
    };
    let (text, volume) = mount_line(&input);
    lines.push(Line { at, text });
    let Some(mut volume) = volume else {
        return lines;
    };
    loop {
        let at = reader.at;
        let text = match reader.read() {
            Next::End => return lines,
            Next::Record(record) => answer(&mut volume, &record),
            Next::Broken => None,
        };
        let stop = text.is_none();
        lines.push(Line { at, text: text.unwrap_or_else(|| BROKEN.to_string()) });
        if stop {
            return lines;
        }
    }
}

/// The four records that a tape begins with, and where the last of them begins. None if one of them is
/// broken, missing or out of place; `reader` may have passed over a misplaced one then.
pub fn read_input(reader: &mut Reader) -> Option<(usize, Input)> {
    let Next::Record(Record::Block(block)) = reader.read() else { return None };
    let Next::Record(Record::SuperBlock(super_block)) = reader.read() else { return None };
    let Next::Record(Record::Report(report)) = reader.read() else { return None };
    let at = reader.at;
    let Next::Record(Record::Mount { options, open_limit, active_limit }) = reader.read() else {
        return None;
    };
    let input = Input {
        block,
        super_block: super_block.to_vec(),
        report: report.to_vec(),
        options: options.to_vec(),
        open_limit,
        active_limit,
    };
    Some((at, input))
}

/// A volume with the tape's tables: as many rows as there can be files on a tape.
pub fn mount_volume(input: &Input) -> Result<Volume, Refusal> {
    let mut cnv = vec![Row::EMPTY; PLAYER_ROWS];
    let mut seq = vec![Row::EMPTY; PLAYER_ROWS];
    let (mount, account) = mount(input, &mut cnv, &mut seq)?;
    Ok(Volume { mount, account, cnv, seq })
}

fn mount_line(input: &Input) -> (String, Option<Volume>) {
    match mount_volume(input) {
        Ok(volume) => {
            let text = format!("MO 0 {} {}", volume.mount.cnv_files, volume.mount.seq_files);
            (text, Some(volume))
        }
        Err(refusal) => (refusal_line("MO", refusal), None),
    }
}

/// The line of a record after the mount; None for one that has no place there.
fn answer(volume: &mut Volume, record: &Record) -> Option<String> {
    match record {
        Record::Call(call) => Some(call_line(volume, call)),
        Record::Good(file) => {
            let answer = volume.recorded_success(file).map(|count| (0, count));
            Some(completion_line("OK", file, answer))
        }
        Record::Failed(file, zone) => {
            let answer = volume.recorded_failure(file, zone).map(|size| (7, size));
            Some(completion_line("NO", file, answer))
        }
        Record::Block(_) | Record::SuperBlock(_) | Record::Report(_) | Record::Mount { .. } => None,
    }
}

fn call_line(volume: &mut Volume, record: &CallRecord) -> String {
    let mark = record.verb.mark();
    match volume.recorded_call(record) {
        Ok(Reply::Done(count)) => format!("{mark} 0 D {count}"),
        Ok(Reply::Issued(command)) => {
            let letter = letter(command.operation);
            format!("{mark} 0 {letter} {} {}", command.address, command.length)
        }
        Err(refusal) => refusal_line(mark, refusal),
    }
}

/// The file stands between the mark and the answer, by kind and number as the record has them.
fn completion_line(mark: &str, file: &Named, answer: Result<(u32, u64), Refusal>) -> String {
    let front = format!("{mark} {} {}", file.kind, file.number);
    match answer {
        Ok((number, value)) => format!("{front} {number} {value}"),
        Err(refusal) => refusal_line(&front, refusal),
    }
}

fn refusal_line(front: &str, refusal: Refusal) -> String {
    let mut line = format!("{front} {}", refusal.number());
    for value in refusal.values() {
        line.push_str(&format!(" {value}"));
    }
    line
}

fn letter(operation: Operation) -> char {
    match operation {
        Operation::Read => 'R',
        Operation::Write => 'W',
        Operation::Reset => 'Z',
        Operation::Finish => 'F',
        Operation::Flush => 'S',
        Operation::Open => 'O',
        Operation::Close => 'C',
    }
}
