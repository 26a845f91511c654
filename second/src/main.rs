//! The commands of the second program.

#![forbid(unsafe_code)]

use std::io::{self, BufReader, BufWriter, Read, Write};
use std::num::NonZeroUsize;
use std::process::ExitCode;

use second::answer::answer;
use second::blocks::{image_of, Form};
use second::cable::cancelled;
use second::figure2::{figure2, precedence, thresholds, unmeasured};
use second::generate::{write_stream, Wanted};
use second::heaviest::heaviest;
use second::numbered_cases::{patch_of, runs_of};
use second::report::{bounds_report, opened_report, reasons_report, room_report};
use second::simulate::simulate;
use second::sorts::Sorts;
use second::stream::Case;
use second::table::Table;

const USAGE: &str =
    "usage: second bounds | reasons | room RESERVE | opened LIMIT | generate SEED LETTERS COUNT \
                     | answer | sorts | figure2 | unmeasured | thresholds | precedence | heaviest \
                     | cancelled | patch NUMBER | case NUMBER | simulate SEED COUNT \
                     (RESERVE and LIMIT are numbers of decimal digits from 0 to 4294967295; \
                     LETTERS are some of T, P, M, B, A, R, W, V, U, G, H and L; \
                     NUMBER is 11, 12 or 13)";

/// Digits that a reserve or a limit may have, leading zeros among them.
const MOST_DIGITS: usize = 32;

/// What the command line asks for.
enum Command {
    Report(fn(&[u8]) -> String),
    Room {
        reserve: u32,
    },
    Opened {
        limit: u32,
    },
    Generate {
        seed: u64,
        wanted: Vec<Wanted>,
        count: usize,
    },
    Simulate {
        seed: u64,
        count: NonZeroUsize,
    },
    Answer,
    Sorts,
    Table(Table),
    Image(Vec<u8>),
    Runs(Vec<Case>),
}

fn main() -> ExitCode {
    let arguments: Vec<String> = std::env::args().skip(1).collect();
    let words: Vec<&str> = arguments.iter().map(String::as_str).collect();
    let Some(command) = command_from(&words) else {
        eprintln!("{USAGE}");
        return ExitCode::from(2);
    };
    match run(command) {
        Ok(()) => ExitCode::SUCCESS,
        Err(error) => {
            eprintln!("second: {error}");
            ExitCode::FAILURE
        }
    }
}

/// The command that these words name, if they name one.
fn command_from(words: &[&str]) -> Option<Command> {
    match words {
        ["bounds"] => Some(Command::Report(bounds_report)),
        ["reasons"] => Some(Command::Report(reasons_report)),
        ["room", reserve] => Some(Command::Room {
            reserve: number_from(reserve)?,
        }),
        ["opened", limit] => Some(Command::Opened {
            limit: number_from(limit)?,
        }),
        ["answer"] => Some(Command::Answer),
        ["sorts"] => Some(Command::Sorts),
        ["figure2"] => Some(Command::Table(figure2())),
        ["unmeasured"] => Some(Command::Table(unmeasured())),
        ["thresholds"] => Some(Command::Table(thresholds())),
        ["precedence"] => Some(Command::Table(precedence())),
        ["heaviest"] => Some(Command::Table(heaviest())),
        ["cancelled"] => Some(Command::Image(cancelled())),
        ["patch", number] => patch_of(number.parse().ok()?).map(Command::Image),
        ["case", number] => runs_of(number.parse().ok()?).map(Command::Runs),
        ["generate", seed, letters, count] => Some(Command::Generate {
            seed: seed.parse().ok()?,
            wanted: wanted_from(letters)?,
            count: count.parse().ok()?,
        }),
        ["simulate", seed, count] => Some(Command::Simulate {
            seed: seed.parse().ok()?,
            count: count.parse().ok()?,
        }),
        _ => None,
    }
}

/// The number of 32 bits that this word says: decimal digits alone, at most 32 of them.
fn number_from(word: &str) -> Option<u32> {
    let are_digits = word.bytes().all(|byte| byte.is_ascii_digit());
    if !are_digits || word.len() > MOST_DIGITS {
        return None;
    }
    word.parse().ok()
}

/// What these letters ask for, if every letter asks for something and there is at least one.
fn wanted_from(letters: &str) -> Option<Vec<Wanted>> {
    let wanted: Option<Vec<Wanted>> = letters.bytes().map(Wanted::from_letter).collect();
    wanted.filter(|wanted| !wanted.is_empty())
}

fn run(command: Command) -> io::Result<()> {
    let mut input = BufReader::new(io::stdin().lock());
    let mut output = BufWriter::new(io::stdout().lock());
    match command {
        Command::Report(report) => output.write_all(report(&read_image(&mut input)?).as_bytes())?,
        Command::Room { reserve } => {
            output.write_all(room_report(&read_image(&mut input)?, reserve).as_bytes())?;
        }
        Command::Opened { limit } => {
            output.write_all(opened_report(&read_image(&mut input)?, limit).as_bytes())?;
        }
        Command::Generate {
            seed,
            wanted,
            count,
        } => write_stream(seed, &wanted, count, &mut output)?,
        Command::Simulate { seed, count } => {
            let totals = simulate(seed, count.get()).map_err(io::Error::other)?;
            writeln!(output, "{totals}")?;
        }
        Command::Answer => answer_all(&mut input, &mut output)?,
        Command::Sorts => output.write_all(sorts_in(&mut input)?.lines().as_bytes())?,
        Command::Table(table) => output.write_all(&image_of(Form::Table, &table.records()))?,
        Command::Image(image) => output.write_all(&image)?,
        Command::Runs(runs) => runs.iter().try_for_each(|run| run.write(&mut output))?,
    }
    output.flush()
}

/// The input up to one byte past the longest table; the rest is read and dropped.
fn read_image(input: &mut impl Read) -> io::Result<Vec<u8>> {
    let longest = Form::Table.most_bytes() as u64;
    let mut image = Vec::new();
    input.take(longest + 1).read_to_end(&mut image)?;
    io::copy(input, &mut io::sink())?;
    Ok(image)
}

/// Answers case after case until the stream ends; a broken stream ends the answers where it breaks.
fn answer_all(input: &mut impl Read, output: &mut impl Write) -> io::Result<()> {
    loop {
        match Case::read(input) {
            Ok(None) => return Ok(()),
            Ok(Some(mut case)) => writeln!(output, "{}", answer(&mut case))?,
            Err(error) => {
                output.flush()?;
                return Err(error);
            }
        }
    }
}

/// The sorts of call in the stream.
fn sorts_in(input: &mut impl Read) -> io::Result<Sorts> {
    let mut sorts = Sorts::default();
    while let Some(case) = Case::read(input)? {
        sorts.count(&case);
    }
    Ok(sorts)
}
