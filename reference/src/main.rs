//! The command line of the reference player.

use std::fs;
use std::io::{self, Read, Write};
use std::path::Path;
use std::process::ExitCode;

use reference::generator::{generate, long, MAX_PAD};
use reference::player::play::play;
use reference::program::compare::{compare_files, compare_generated};
use reference::program::describe::describe;
use reference::program::tally::Tally;
use reference::program::{options, sums};

const HELP: &str = "\
usage:
  reference play [FILE]                        plays a tape (standard input without FILE or with -)
  reference describe [FILE]                    shows a tape as text
  reference generate SEED DIR COUNT            writes COUNT tapes of SEED into DIR
  reference long SEED CALLS [PAD]              writes one tape with a long run of CALLS calls (0 to 1000000)
                                               to standard output, and what is on it to standard error; PAD
                                               bytes (0 to 228, else 0) that mean nothing shift all that
                                               follows the mount
  reference compare SEED COUNT PLAYER [KEEPDIR]
                                               compares PLAYER on COUNT tapes of SEED; a tape on which
                                               they differ is kept in KEEPDIR
  reference compare-files PLAYER FILE...       compares PLAYER on the given tapes
  reference checksum [--binary]                prints a checksum for each input on standard input
  reference checksum-inputs [--binary] SEED COUNT
                                               prints COUNT inputs for checksum; the first 290 have 0 to 272
                                               and 4088 to 4104 bytes, in this order, the others 0 to 5000
  reference options                            prints what a mount reads from each option text on standard
                                               input: 0, the policy's number (0 remount-ro, 1 zone-ro,
                                               2 zone-offline, 3 repair) and 1 with explicit-open, else 0; or 27
  reference option-inputs SEED COUNT           writes COUNT option texts in parts to standard output, and what
                                               came to standard error; fails if of 5000 texts or more none has
                                               one of the edges that are counted
  reference --help                             shows this

PLAYER is a program that takes a tape's file name as its only argument and prints the lines.
Each file may have one command outstanding: on a tape OK and NO name their file, by a kind byte and a
number of four bytes, as calls do, and both are printed behind the mark. Behind the options of MO stand two
limits of four bytes each, how many files may be open and how many active; 0 means none.
Inputs for checksum are lines of hex digits, or with --binary a length (two bytes, little-endian)
and as many bytes, over and over.
An option text is the number of its parts (two bytes, little-endian), then for each part a length (two bytes,
little-endian) and as many bytes.
The exit status is 0 if all went well, 1 if something failed, 2 for a wrong command line.
";

/// A tape is made in memory.
const MAX_CALLS: u64 = 1_000_000;
const _: () = assert!(MAX_CALLS == 1_000_000 && MAX_PAD == 228, "the help states both");

enum Problem {
    Usage(String),
    Failure(String),
}

impl From<String> for Problem {
    fn from(text: String) -> Problem {
        Problem::Failure(text)
    }
}

fn main() -> ExitCode {
    let arguments: Vec<String> = std::env::args().skip(1).collect();
    match run(&arguments) {
        Ok(()) => ExitCode::SUCCESS,
        Err(Problem::Failure(text)) => {
            eprintln!("reference: {text}");
            ExitCode::from(1)
        }
        Err(Problem::Usage(text)) => {
            eprintln!("reference: {text}\n\n{HELP}");
            ExitCode::from(2)
        }
    }
}

fn run(arguments: &[String]) -> Result<(), Problem> {
    let words: Vec<&str> = arguments.iter().map(String::as_str).collect();
    match words.as_slice() {
        ["--help" | "-h" | "help"] | [_, "--help" | "-h"] => print(HELP),
        ["play"] => play_tape("-"),
        ["play", file] => play_tape(file),
        ["describe"] => describe_tape("-"),
        ["describe", file] => describe_tape(file),
        ["generate", seed, directory, count] => {
            write_tapes(number("SEED", seed)?, Path::new(directory), number("COUNT", count)?)
        }
        ["long", seed, calls] => write_long(seed, calls, "0"),
        ["long", seed, calls, pad] => write_long(seed, calls, pad),
        ["compare", seed, count, player] => compare(seed, count, player, None),
        ["compare", seed, count, player, keep] => compare(seed, count, player, Some(Path::new(keep))),
        ["compare-files", player, _, ..] => print_line(&compare_files(player, &arguments[2..])?),
        ["checksum"] => print(&sums::of_lines(&read_input("-")?)?),
        ["checksum", "--binary"] => print(&sums::of_records(&read_input("-")?)?),
        ["checksum-inputs", seed, count] => write_out(&sums::as_lines(&sum_inputs(seed, count)?)),
        ["checksum-inputs", "--binary", seed, count] => {
            write_out(&sums::as_records(&sum_inputs(seed, count)?))
        }
        ["options"] => print(&options::of_records(&read_input("-")?)?),
        ["option-inputs", seed, count] => write_options(seed, count),
        [] => Err(Problem::Usage("a command is needed".to_string())),
        [command, ..] => {
            Err(Problem::Usage(format!("unknown command, or wrong arguments for it: {command}")))
        }
    }
}

fn number(name: &str, text: &str) -> Result<u64, Problem> {
    number_up_to(u64::MAX, name, text)
}

fn number_up_to(most: u64, name: &str, text: &str) -> Result<u64, Problem> {
    let wrong = || Problem::Usage(format!("{name} must be a number from 0 to {most}, not {text:?}"));
    text.parse().ok().filter(|&value| value <= most).ok_or_else(wrong)
}

fn play_tape(file: &str) -> Result<(), Problem> {
    let tape = read_input(file)?;
    let text: String = play(&tape).into_iter().map(|line| line.text + "\n").collect();
    print(&text)
}

fn describe_tape(file: &str) -> Result<(), Problem> {
    let tape = read_input(file)?;
    let text: String = describe(&tape).into_iter().map(|record| record.text + "\n").collect();
    print(&text)
}

fn sum_inputs(seed: &str, count: &str) -> Result<Vec<Vec<u8>>, Problem> {
    Ok(sums::inputs(number("SEED", seed)?, number("COUNT", count)?))
}

fn write_options(seed: &str, count: &str) -> Result<(), Problem> {
    let (records, line) = options::inputs(number("SEED", seed)?, number("COUNT", count)?)?;
    eprintln!("{line}");
    write_out(&records)
}

fn compare(seed: &str, count: &str, player: &str, keep: Option<&Path>) -> Result<(), Problem> {
    print_line(&compare_generated(number("SEED", seed)?, number("COUNT", count)?, player, keep)?)
}

fn write_tapes(seed: u64, directory: &Path, count: u64) -> Result<(), Problem> {
    let failed = |path: &Path, error: io::Error| format!("{}: {error}", path.display());
    fs::create_dir_all(directory).map_err(|error| failed(directory, error))?;
    for index in 1..=count {
        let generated = generate(seed, index);
        let file = directory.join(format!("{index:06}.tape"));
        fs::write(&file, &generated.bytes).map_err(|error| failed(&file, error))?;
        generated.check.map_err(|text| format!("tape {index} of seed {seed}: {text}"))?;
    }
    Ok(())
}

fn write_long(seed: &str, calls: &str, pad: &str) -> Result<(), Problem> {
    let (calls, pad) = (number_up_to(MAX_CALLS, "CALLS", calls)?, number_up_to(MAX_PAD, "PAD", pad)?);
    let tape = long(number("SEED", seed)?, calls, pad)?;
    let mut tally = Tally::default();
    play(&tape).iter().for_each(|line| tally.count_line(&line.text));
    eprintln!("{}", tally.tape_summary(tape.len()));
    write_out(&tape)
}

fn read_input(file: &str) -> Result<Vec<u8>, Problem> {
    if file != "-" {
        return Ok(fs::read(file).map_err(|error| format!("{file}: {error}"))?);
    }
    let mut bytes = Vec::new();
    io::stdin().read_to_end(&mut bytes).map_err(|error| format!("standard input: {error}"))?;
    Ok(bytes)
}

fn print_line(text: &str) -> Result<(), Problem> {
    print(&format!("{text}\n"))
}

fn print(text: &str) -> Result<(), Problem> {
    write_out(text.as_bytes())
}

fn write_out(bytes: &[u8]) -> Result<(), Problem> {
    let mut out = io::stdout().lock();
    let result = out.write_all(bytes).and_then(|()| out.flush());
    Ok(result.map_err(|error| format!("standard output: {error}"))?)
}
