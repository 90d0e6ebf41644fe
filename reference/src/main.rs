//! The command-line program: the rules' program as `map`, and seven more
//! commands for comparing it with another implementation.

use clearance_reference::{listing, map, point_with_reads, points, probe, probe_rows, read};
use clearance_reference::{reply_length, trees, write, Job, Lookup, Refusal, SHEET_LIMIT};
use std::io::{self, Read, Write};
use std::process::ExitCode;

/// Numbers of store the program lends, those of 1,489 nodes: RULES, "Printing".
const LENT_NUMBERS: usize = 16_379;
/// Bytes of map the program lends: RULES, "Printing".
const LENT_CELLS: usize = 65_536;

const USAGE: &str = "\
usage: clearance-reference COMMAND < SHEET

Reads a job sheet from standard input.
  map            write the clearance map
  store          write the trees, a node a line, for any number of nodes
  point X Y      write (point LO HI EDGE), fine units squared
  points X Y...  write such a line for each of up to 256 spots
  reads X Y      write (reads N), the nodes read for the same point
  write          write the sheet back
  probe          write the answers to a fixed battery of points and stores
  probe-rows     write the answers to a fixed battery of rows of points
  --help         write this text

A refusal is written as (refused NUMBER).
";

enum Command {
    Map,
    Store,
    Point(i32, i32),
    Points(Vec<i32>),
    Reads(i32, i32),
    Write,
    Probe,
    ProbeRows,
}

fn command(arguments: &[&str]) -> Option<Command> {
    match arguments {
        ["map"] => Some(Command::Map),
        ["store"] => Some(Command::Store),
        ["point", x, y] => Some(Command::Point(x.parse().ok()?, y.parse().ok()?)),
        ["points", numbers @ ..] => Some(Command::Points(parsed(numbers)?)),
        ["reads", x, y] => Some(Command::Reads(x.parse().ok()?, y.parse().ok()?)),
        ["write"] => Some(Command::Write),
        ["probe"] => Some(Command::Probe),
        ["probe-rows"] => Some(Command::ProbeRows),
        _ => None,
    }
}

/// Any count of numbers, or nothing if one of them is none.
fn parsed(numbers: &[&str]) -> Option<Vec<i32>> {
    numbers.iter().map(|number| number.parse().ok()).collect()
}

/// The lookup of a spot in a store of the job's own. A job that has none is
/// refused before any store is looked at.
fn asked(job: &Job, x: i32, y: i32) -> Result<Lookup, Refusal> {
    point_with_reads(job, x, y, &trees::own_store(job))
}

/// The reply to a sheaf of spots, from a store of the job's own likewise.
fn asked_together(job: &Job, spots: &[i32]) -> Result<Vec<i64>, Refusal> {
    let mut reply = vec![0; reply_length(spots)];
    points(job, spots, &trees::own_store(job), &mut reply)?;
    Ok(reply)
}

/// What the program writes for a sheet, or why it is refused.
fn answer(command: &Command, sheet: &[u8]) -> Result<Vec<u8>, Refusal> {
    let job = read(sheet)?;
    match *command {
        Command::Map => {
            let mut store = [0; LENT_NUMBERS];
            let mut cells = [0; LENT_CELLS];
            map(&job, &mut store, &mut cells)?;
            let side = 1_usize << (job.n - job.m);
            Ok(listing::map(&cells[..side * side]).into())
        }
        Command::Store => {
            let numbers = trees::store_numbers(&trees::grow(&job)?);
            Ok(listing::store(&numbers).into())
        }
        Command::Point(x, y) => Ok(listing::point(&asked(&job, x, y)?.nearest).into()),
        Command::Points(ref spots) => Ok(listing::points(&asked_together(&job, spots)?).into()),
        Command::Reads(x, y) => Ok(listing::reads(&asked(&job, x, y)?).into()),
        Command::Write => {
            let mut lent = [0; SHEET_LIMIT];
            let length = write(&job, &mut lent)?;
            Ok(lent[..length].to_vec())
        }
        Command::Probe => Ok(probe::battery(&job).into()),
        Command::ProbeRows => Ok(probe_rows::battery(&job).into()),
    }
}

/// Answers standard input on standard output.
fn run(command: &Command) -> io::Result<()> {
    // One byte past the limit is enough to know that a sheet is too long.
    let mut sheet = Vec::new();
    io::stdin()
        .take(SHEET_LIMIT as u64 + 1)
        .read_to_end(&mut sheet)?;
    let text = answer(command, &sheet).unwrap_or_else(|refusal| listing::refusal(refusal).into());
    io::stdout().write_all(&text)
}

fn main() -> ExitCode {
    let arguments: Vec<String> = std::env::args_os()
        .skip(1)
        .map(|argument| argument.to_string_lossy().into_owned())
        .collect();
    let arguments: Vec<&str> = arguments.iter().map(String::as_str).collect();
    let done = if let ["--help" | "-h"] = arguments[..] {
        io::stdout().write_all(USAGE.as_bytes())
    } else if let Some(command) = command(&arguments) {
        run(&command)
    } else {
        eprint!("clearance-reference: unknown command or number\n{USAGE}");
        return ExitCode::from(2);
    };
    match done {
        Ok(()) => ExitCode::SUCCESS,
        Err(error) => {
            eprintln!("clearance-reference: {error}");
            ExitCode::FAILURE
        }
    }
}
