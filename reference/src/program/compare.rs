//! Runs another player on tapes and compares what it prints with this one.

use std::fs;
use std::io;
use std::path::{Path, PathBuf};
use std::process::{Command, Stdio};
use std::sync::atomic::{AtomicU64, Ordering};
use std::thread;

use super::describe::describe;
use super::tally::Tally;
use crate::generator::generate;
use crate::player::play::{play, Line};

/// Below this many tapes an answer that was never reached is no failure.
const ENOUGH_TAPES: u64 = 1000;
const WORKERS: usize = 2;
/// How much of the tape is shown before a difference.
const RECORDS_SHOWN: usize = 12;

/// A failure and the index of its tape.
struct Failure {
    index: u64,
    text: String,
}

/// Compares `count` tapes of `seed`. Ok is the summary; Err says what is wrong.
pub fn compare_generated(seed: u64, count: u64, player: &str, keep: Option<&Path>) -> Result<String, String> {
    let work = WorkDirectory::new()?;
    let next = AtomicU64::new(1);
    let stop = AtomicU64::new(u64::MAX);
    let worker = |number: usize| {
        let file = work.path.join(format!("{number}.tape"));
        run_worker(seed, count, player, &file, &next, &stop)
    };
    let results: Vec<(Tally, Option<Failure>)> = thread::scope(|scope| {
        let worker = &worker;
        let threads: Vec<_> = (0..WORKERS).map(|number| scope.spawn(move || worker(number))).collect();
        threads.into_iter().map(|thread| thread.join().expect("a worker panicked")).collect()
    });
    let mut tally = Tally::default();
    results.iter().for_each(|(part, _)| tally.add(part));
    let failures = results.into_iter().filter_map(|(_, failure)| failure);
    if let Some(failure) = failures.min_by_key(|failure| failure.index) {
        let kept = keep_tape(seed, failure.index, keep)?;
        return Err(format!(
            "tape {} of seed {seed}: {}\nkept as {}",
            failure.index,
            failure.text,
            kept.display()
        ));
    }
    let missing = tally.missing();
    if count >= ENOUGH_TAPES && !missing.is_empty() {
        return Err(format!("never reached: {}\n{}", missing.join(", "), tally.summary()));
    }
    Ok(tally.summary())
}

/// Takes tapes from the shared counter until all are done or an earlier one has failed.
fn run_worker(
    seed: u64,
    count: u64,
    player: &str,
    file: &Path,
    next: &AtomicU64,
    stop: &AtomicU64,
) -> (Tally, Option<Failure>) {
    let mut tally = Tally::default();
    loop {
        let index = next.fetch_add(1, Ordering::Relaxed);
        if index > count || index > stop.load(Ordering::Relaxed) {
            return (tally, None);
        }
        if let Err(text) = compare_index(seed, index, player, file, &mut tally) {
            stop.fetch_min(index, Ordering::Relaxed);
            return (tally, Some(Failure { index, text }));
        }
    }
}

fn compare_index(seed: u64, index: u64, player: &str, file: &Path, tally: &mut Tally) -> Result<(), String> {
    let generated = generate(seed, index);
    tally.compared.add(&generated.check?);
    fs::write(file, &generated.bytes).map_err(|error| format!("{}: {error}", file.display()))?;
    compare_tape(&generated.bytes, file, player, tally)
}

/// Compares on tapes that are there already.
pub fn compare_files(player: &str, files: &[String]) -> Result<String, String> {
    let mut tally = Tally::default();
    for name in files {
        let tape = fs::read(name).map_err(|error| format!("{name}: {error}"))?;
        compare_tape(&tape, Path::new(name), player, &mut tally).map_err(|text| format!("{name}: {text}"))?;
    }
    Ok(tally.summary())
}

fn compare_tape(tape: &[u8], file: &Path, player: &str, tally: &mut Tally) -> Result<(), String> {
    let lines = play(tape);
    let output = Command::new(player)
        .arg(file)
        .stdin(Stdio::null())
        .stderr(Stdio::piped())
        .output()
        .map_err(|error| format!("{player} can't be run: {error}"))?;
    compare_output(tape, &lines, &output.stdout)?;
    // Without a code it was ended by a signal: then equal output is luck.
    let Some(code) = output.status.code() else {
        return Err(format!("{player} was ended by a signal: {}", String::from_utf8_lossy(&output.stderr)));
    };
    tally.tapes += 1;
    tally.exits += u64::from(code != 0);
    lines.iter().for_each(|line| tally.count_line(&line.text));
    tally.count_tape(tape);
    Ok(())
}

/// Byte for byte; an Err shows the first line that differs.
pub fn compare_output(tape: &[u8], lines: &[Line], output: &[u8]) -> Result<(), String> {
    let expected: String = lines.iter().map(|line| format!("{}\n", line.text)).collect();
    if expected.as_bytes() == output {
        return Ok(());
    }
    let text = String::from_utf8_lossy(output);
    let given: Vec<&str> = text.split_inclusive('\n').collect();
    let same = lines.iter().zip(&given).take_while(|(line, given)| format!("{}\n", line.text) == **given);
    let first = same.count();
    let line = |text: Option<&str>| text.map_or("(nothing)".to_string(), |text| format!("{text:?}"));
    let ours = line(lines.get(first).map(|line| line.text.as_str()));
    let theirs =
        line(given.get(first).map(|text| text.strip_suffix('\n').unwrap_or("(a line that doesn't end)")));
    let around = context(tape, lines, first);
    Err(format!("line {} differs\n{around}  this player:  {ours}\n  other player: {theirs}", first + 1))
}

/// The tape in text up to the record of a line, each with the answer it got.
fn context(tape: &[u8], lines: &[Line], first: usize) -> String {
    let at = lines.get(first).map_or(usize::MAX, |line| line.at);
    let described = describe(tape);
    let shown: Vec<_> = described.iter().filter(|record| record.at <= at).collect();
    let skip = shown.len().saturating_sub(RECORDS_SHOWN);
    let mut text = String::new();
    for (index, record) in shown.iter().enumerate() {
        // The four records of the mount are always worth seeing.
        if index >= 4 && index < skip {
            continue;
        }
        let answer = lines.iter().take(first).find(|line| line.at == record.at);
        let answer = answer.map_or(String::new(), |line| format!("  ->  {}", line.text));
        text.push_str(&format!("  {}{answer}\n", record.text));
    }
    text
}

fn keep_tape(seed: u64, index: u64, keep: Option<&Path>) -> Result<PathBuf, String> {
    let directory = match keep {
        Some(directory) => directory.to_path_buf(),
        None => std::env::temp_dir().join("reference-kept"),
    };
    let file = directory.join(format!("{seed}-{index:06}.tape"));
    let write = || -> io::Result<()> {
        fs::create_dir_all(&directory)?;
        fs::write(&file, generate(seed, index).bytes)
    };
    write().map_err(|error| format!("{}: {error}", file.display()))?;
    Ok(file)
}

/// A directory of this process that goes away with the value.
struct WorkDirectory {
    path: PathBuf,
}

impl WorkDirectory {
    fn new() -> Result<WorkDirectory, String> {
        let path = std::env::temp_dir().join(format!("reference-{}", std::process::id()));
        fs::create_dir_all(&path).map_err(|error| format!("{}: {error}", path.display()))?;
        Ok(WorkDirectory { path })
    }
}

impl Drop for WorkDirectory {
    fn drop(&mut self) {
        // Nothing can be done about a directory that can't be removed.
        let _ = fs::remove_dir_all(&self.path);
    }
}
