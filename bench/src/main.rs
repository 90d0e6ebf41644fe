//! Prints in one run how fast the implementations are beside each other. Speed
//! is measured here and asserted nowhere.

mod growth;
mod makers;
#[cfg(feature = "proved")]
mod proved;
mod tables;
mod timing;
mod whole;

use clearance_bench::{same_tricks, sampling, straight};
use clearance_reference::{self as reference, listing, read};
use makers::{Case, Maker};
use std::fs;
use std::path::{Path, PathBuf};
use std::process::ExitCode;
use std::time::Duration;

const USAGE: &str = "\
usage: clearance_bench [--program PATH] [--examples FOLDER] [--seconds S] [--steps K]
       clearance_bench --growth [--seconds S]

  --program PATH     the proved program, for the row of whole programs
  --examples FOLDER  the job sheets to time (the repository's)
  --seconds S        time for each implementation in each line of a table (0.1)
  --steps K          steps an edge of the sampling (32)
  --growth           only the map's least times as edges, columns and the reach grow
  --as NAME < SHEET  be one whole program: reference or sampling
  --help             write this text

Exit status: 0 done, 1 an answer is wrong or a file cannot be used, 2 bad usage.
";

const NOTES: &str = "
Each time is the median of 7 to 1,001 calls that take turns, less the clock's own: processor time from 0.1 ms on where
the system tells it, else the wall clock. Store, map, sheet and reply are cleared before each call, outside the clock.
drawn by The proved library draws a map by rows where 24 reaches are no longer than the plate's side, else by quarters; the last
         mean is of those by rows. The others know one way only.
build    Both libraries draw the map of a plate of one cell, which is nearly all building: the proved one has no entry for
         the trees alone. The sampling makes its polyline.
draw     The map without the building: the map's time less that of a plate of one cell. The same tricks draw from a
         finished store, and are timed on both plates too. A map of one letter is left out: there is too little to time.
point    Store and polyline are ready. All but the sampling check that the store holds the job's trees.
lookup   The point without the check of the store, of jobs of 1,000 nodes and more. The proved library's is its point's time
         less that of a store whose last number is wrong. The reference looks up in finished trees.
points   256 points over the plate in one call, which checks the store once; else as a point. Of the proved library its C
         function is timed, since the safe call also makes values of the reply.
program  A process from its start to the end of its output, on the wall clock.
";

struct Asked {
    program: Option<PathBuf>,
    examples: PathBuf,
    budget: Duration,
    steps: usize,
    growth: bool,
    whole: Option<Maker>,
    help: bool,
}

/// What the arguments ask for, or `None` for bad usage.
fn asked(mut words: impl Iterator<Item = String>) -> Option<Asked> {
    let mut asked = Asked {
        program: None,
        examples: Path::new(env!("CARGO_MANIFEST_DIR")).join("../examples"),
        budget: Duration::from_millis(100),
        steps: sampling::STEPS,
        growth: false,
        whole: None,
        help: false,
    };
    while let Some(word) = words.next() {
        match word.as_str() {
            "--program" => asked.program = Some(words.next()?.into()),
            "--examples" => asked.examples = words.next()?.into(),
            "--seconds" => {
                asked.budget = Duration::try_from_secs_f64(words.next()?.parse().ok()?).ok()?;
            }
            "--steps" => {
                asked.steps = words
                    .next()?
                    .parse()
                    .ok()
                    .filter(|steps| (1..=4_096).contains(steps))?;
            }
            "--as" => {
                asked.whole = Some(Maker::program_named(&words.next()?)?);
            }
            "--growth" => asked.growth = true,
            "--help" => asked.help = true,
            _ => return None,
        }
    }
    Some(asked)
}

/// The example sheets in the order of their names.
fn cases(asked: &Asked) -> Result<Vec<Case>, String> {
    let folder = asked.examples.display();
    let entries = fs::read_dir(&asked.examples).map_err(|error| format!("{folder}: {error}"))?;
    let mut paths: Vec<PathBuf> = entries.flatten().map(|entry| entry.path()).collect();
    paths.retain(|path| path.extension().is_some_and(|end| end == "sheet"));
    paths.sort();
    if paths.is_empty() {
        return Err(format!("{folder}: no sheets"));
    }
    paths
        .iter()
        .map(|path| {
            let bytes = fs::read(path).map_err(|error| format!("{}: {error}", path.display()))?;
            let job = read(&bytes).map_err(|refusal| format!("{}: {refusal}", path.display()))?;
            let name = path.file_stem().unwrap_or_default().to_string_lossy();
            let mut case = Case::of(&name, job)?;
            case.program = asked.program.clone();
            case.steps = asked.steps;
            Ok(case)
        })
        .collect()
}

/// Answers must be the same before it makes sense to time them.
fn check(case: &Case) -> Result<(), String> {
    let wrong = |who: &str| Err(format!("{}: {who} gives another answer", case.name));
    let mut cells = vec![0; case.cells.len()];
    same_tricks::draw(&case.job, &case.store, &mut cells);
    if cells != case.cells {
        return wrong("same tricks");
    }
    if let Some(who) = wrong_at_points(case) {
        return wrong(who);
    }
    #[cfg(feature = "proved")]
    {
        let mut store = vec![0; case.store.len()];
        cells.fill(0);
        let job = clearance::read(&case.sheet);
        let nodes = job.and_then(|job| clearance::map(&job, &mut store, &mut cells));
        if nodes != Ok(case.nodes) || store != case.store || cells != case.cells {
            return wrong("proved");
        }
        let (x, y) = case.spot();
        let found = job.and_then(|job| clearance::point(&job, x, y, &case.store));
        let wanted = reference::point(&case.job, x, y, &case.store);
        if found.map(|near| (near.lo, near.hi)).ok() != wanted.map(|near| (near.lo, near.hi)).ok() {
            return wrong("proved");
        }
    }
    if let Some(program) = &case.program {
        let text = whole::spawn(program, &[], &case.sheet)
            .map_err(|error| format!("{}: {error}", program.display()))?;
        if text != listing::map(&case.cells).as_bytes() {
            return wrong("the program");
        }
    }
    Ok(())
}

/// Who does not answer all the spots as the reference does.
fn wrong_at_points(case: &Case) -> Option<&'static str> {
    let (spots, store) = (case.spots(), &case.store);
    let mut wanted = vec![0; 3 * spots.len() / 2];
    let mut reply = wanted.clone();
    if reference::points(&case.job, &spots, store, &mut wanted).is_err() {
        return Some("the reference");
    }
    if same_tricks::points(&case.job, &spots, store, &mut reply).is_err() || reply != wanted {
        return Some("same tricks");
    }
    #[cfg(feature = "proved")]
    for ask in [proved::Row::points, proved::Row::one_by_one] {
        reply.fill(0);
        let row = proved::Row::of(&case.sheet);
        let number = row.map(|row| ask(&row, &spots, store, &mut reply));
        if number != Some(0) || reply != wanted {
            return Some("proved");
        }
    }
    None
}

/// The cases with lines, and the same with cubics in their place.
fn with_and_without_lines(cases: &[Case]) -> Result<Vec<[Case; 2]>, String> {
    cases
        .iter()
        .filter(|case| straight::count(&case.job) > 0)
        .map(|case| {
            let cubics = straight::as_cubics(&case.job);
            Ok([
                Case::of(&case.name, case.job.clone())?,
                Case::of(&case.name, cubics)?,
            ])
        })
        .collect()
}

/// The series of the map's own table, their answers compared.
fn map_series() -> Result<Vec<(&'static str, Vec<Case>)>, String> {
    let checked = |title: &str, job| {
        let case = Case::of(title, job)?;
        check(&case)?;
        Ok(case)
    };
    growth::map_series()
        .into_iter()
        .map(|(title, jobs)| {
            let cases = jobs.into_iter().map(|job| checked(title, job));
            Ok((title, cases.collect::<Result<_, String>>()?))
        })
        .collect()
}

fn run(asked: &Asked) -> Result<(), String> {
    if asked.growth {
        tables::print_map_growth(&map_series()?, asked.budget);
        return Ok(());
    }
    let cases = cases(asked)?;
    let pairs = with_and_without_lines(&cases)?;
    cases
        .iter()
        .chain(pairs.as_flattened())
        .try_for_each(check)?;
    let linked = cfg!(feature = "proved");
    tables::print_ratios(&cases, linked || asked.program.is_some(), asked.budget);
    print!("{NOTES}");
    tables::print_points(&cases, asked.budget);
    tables::print_straight(&pairs, asked.budget);
    tables::print_wrong_cells(&cases);
    tables::print_growth(linked, asked.budget)
}

fn main() -> ExitCode {
    let Some(asked) = asked(std::env::args().skip(1)) else {
        eprint!("{USAGE}");
        return ExitCode::from(2);
    };
    let done = if asked.help {
        print!("{USAGE}");
        Ok(())
    } else if let Some(maker) = asked.whole {
        whole::run_as(maker, asked.steps).map_err(|error| error.to_string())
    } else {
        run(&asked)
    };
    match done {
        Ok(()) => ExitCode::SUCCESS,
        Err(message) => {
            eprintln!("clearance_bench: {message}");
            ExitCode::FAILURE
        }
    }
}
