//! Who makes the answers, and one timed call of each for every row.

#[cfg(feature = "proved")]
use crate::proved;
use crate::timing::{timed, wall_time, Call};
use crate::whole::spawn;
use clearance_bench::{same_tricks, sampling};
use clearance_reference::{self as reference, Job};
use std::hint::black_box;
use std::path::PathBuf;

/// An implementation.
#[derive(Clone, Copy, Debug, PartialEq, Eq)]
pub enum Maker {
    Proved,
    Reference,
    Sampling,
    SameTricks,
}

impl Maker {
    pub const ALL: [Maker; 4] = [
        Maker::Proved,
        Maker::Reference,
        Maker::Sampling,
        Maker::SameTricks,
    ];

    pub fn name(self) -> &'static str {
        match self {
            Maker::Proved => "proved",
            Maker::Reference => "reference",
            Maker::Sampling => "sampling",
            Maker::SameTricks => "same tricks",
        }
    }

    /// The maker of this name that is a whole program in this crate.
    pub fn program_named(name: &str) -> Option<Maker> {
        let programs = [Maker::Reference, Maker::Sampling];
        programs.into_iter().find(|maker| maker.name() == name)
    }
}

/// Nodes from which on a lookup is timed: with fewer there is too little to time.
const LOOKUP_NODES: usize = 1_000;

/// What is timed.
#[derive(Clone, Copy, Debug, PartialEq, Eq)]
pub enum Row {
    Read,
    Write,
    Build,
    Map,
    Draw,
    Point,
    Lookup,
    Points,
    Program,
}

impl Row {
    pub const ALL: [Row; 9] = [
        Row::Read,
        Row::Write,
        Row::Build,
        Row::Map,
        Row::Draw,
        Row::Point,
        Row::Lookup,
        Row::Points,
        Row::Program,
    ];

    pub fn name(self) -> &'static str {
        match self {
            Row::Read => "read",
            Row::Write => "write",
            Row::Build => "build",
            Row::Map => "map",
            Row::Draw => "draw",
            Row::Point => "point",
            Row::Lookup => "lookup",
            Row::Points => "points",
            Row::Program => "program",
        }
    }

    /// Whether a map is drawn in it, so that the way of drawing tells.
    pub fn draws(self) -> bool {
        matches!(self, Row::Map | Row::Draw | Row::Program)
    }
}

/// A job with all that its calls need.
pub struct Case {
    pub name: String,
    pub sheet: Vec<u8>,
    pub job: Job,
    pub nodes: usize,
    /// The finished store and map.
    pub store: Vec<i32>,
    pub cells: Vec<u8>,
    /// The proved program, if there is one.
    pub program: Option<PathBuf>,
    /// Steps an edge of the sampling.
    pub steps: usize,
}

/// The call of a row to a library. The proved one and the reference have the
/// same entries, each with a job of its own.
macro_rules! library_call {
    ($library:ident, $case:ident, $row:ident) => {{
        let (x, y) = $case.spot();
        let job = $library::read(&$case.sheet).ok()?;
        let one_cell = $library::Job { n: 0, m: 0, ..job };
        let map = |job: $library::Job| {
            $case.with_memory(move |store, cells| $library::map(black_box(&job), store, cells))
        };
        let call: Call<'_> = match $row {
            Row::Read => Box::new(|| timed(|| $library::read(black_box(&$case.sheet)))),
            Row::Write => with_sheet(move |out| $library::write(black_box(&job), out)),
            Row::Build => map(one_cell),
            Row::Map => map(job),
            Row::Draw => less(map(job), map(one_cell)),
            Row::Point => Box::new(move || {
                timed(|| $library::point(black_box(&job), x, y, black_box(&$case.store)))
            }),
            Row::Lookup | Row::Points | Row::Program => return None,
        };
        Some(call)
    }};
}

impl Case {
    /// Draws the map with the reference; a refusal as text.
    pub fn of(name: &str, job: Job) -> Result<Case, String> {
        let refused = |refusal| format!("{name} is refused: {refusal}");
        let mut sheet = vec![0; reference::SHEET_LIMIT];
        let length = reference::write(&job, &mut sheet).map_err(refused)?;
        sheet.truncate(length);
        let mut store = vec![0; reference::trees::STORE_LIMIT];
        let mut cells = vec![0; 1 << (2 * (job.n - job.m))];
        let nodes = reference::map(&job, &mut store, &mut cells).map_err(refused)?;
        store.truncate(reference::trees::NUMBERS_A_NODE * nodes);
        Ok(Case {
            name: name.to_string(),
            sheet,
            job,
            nodes,
            store,
            cells,
            program: None,
            steps: sampling::STEPS,
        })
    }

    /// Whether the proved library draws the map by rows: where 24 reaches are no
    /// longer than the plate's side. Elsewhere it draws by quarters.
    pub fn is_by_rows(&self) -> bool {
        24 * self.job.reach <= 1 << self.job.n
    }

    /// The way of drawing in a word.
    pub fn way(&self) -> &'static str {
        if self.is_by_rows() {
            "rows"
        } else {
            "quarters"
        }
    }

    /// The middle of the plate, where a point is asked.
    pub fn spot(&self) -> (i32, i32) {
        let limit = reference::COORDINATE_LIMIT;
        let half = (1 << self.job.n) / 2;
        (
            (self.job.x + half).min(limit),
            (self.job.y + half).min(limit),
        )
    }

    /// As many spots as one call takes, 16 by 16 over the plate: x and y in turn.
    pub fn spots(&self) -> Vec<i32> {
        let limit = i64::from(reference::COORDINATE_LIMIT);
        let across = reference::SPOT_LIMIT.isqrt();
        let spot = |corner: i32, step: usize| {
            let off = ((2 * step + 1) << self.job.n) / (2 * across);
            (i64::from(corner) + off as i64).min(limit) as i32
        };
        let (x, y) = (self.job.x, self.job.y);
        (0..reference::SPOT_LIMIT)
            .flat_map(|index| [spot(x, index % across), spot(y, index / across)])
            .collect()
    }

    /// The same outline with a plate of one smallest cell, where building the
    /// trees is nearly all the work.
    fn one_cell_job(&self) -> Job {
        Job {
            n: 0,
            m: 0,
            ..self.job
        }
    }

    /// Whether drawing is hardly any work beside building: a map of one letter
    /// mostly is one block.
    fn is_plain(&self) -> bool {
        self.cells.iter().all(|&letter| letter == self.cells[0])
    }

    /// The call of a row, if this maker has it.
    pub fn call(&self, maker: Maker, row: Row) -> Option<Call<'_>> {
        if row == Row::Program {
            return self.program_call(maker);
        }
        if row == Row::Draw && self.is_plain() {
            return None;
        }
        if row == Row::Lookup && self.nodes < LOOKUP_NODES {
            return None;
        }
        match maker {
            Maker::Proved => self.proved_call(row),
            Maker::Reference if row == Row::Lookup => self.reference_lookup(),
            Maker::Reference if row == Row::Points => Some(self.with_reply(|spots, reply| {
                reference::points(black_box(&self.job), spots, black_box(&self.store), reply)
            })),
            Maker::Reference => library_call!(reference, self, row),
            Maker::Sampling => self.sampling_call(row),
            Maker::SameTricks => self.same_tricks_call(row),
        }
    }

    #[cfg(feature = "proved")]
    fn proved_call(&self, row: Row) -> Option<Call<'_>> {
        match row {
            Row::Lookup => self.proved_lookup(),
            Row::Points => self.proved_points().map(|[at_once, _]| at_once),
            _ => library_call!(clearance, self, row),
        }
    }

    /// All spots in one call, and in a call each.
    #[cfg(feature = "proved")]
    pub fn proved_points(&self) -> Option<[Call<'_>; 2]> {
        let row = proved::Row::of(&self.sheet)?;
        Some([proved::Row::points, proved::Row::one_by_one].map(|ask| {
            self.with_reply(move |spots, reply| {
                ask(black_box(&row), spots, black_box(&self.store), reply)
            })
        }))
    }

    #[cfg(not(feature = "proved"))]
    pub fn proved_points(&self) -> Option<[Call<'_>; 2]> {
        None
    }

    /// It has no entry without the check of the store. A store that is wrong in
    /// its last number is checked as far and never looked up in.
    #[cfg(feature = "proved")]
    fn proved_lookup(&self) -> Option<Call<'_>> {
        let (x, y) = self.spot();
        let job = clearance::read(&self.sheet).ok()?;
        let point = |store: Vec<i32>| -> Call<'_> {
            Box::new(move || timed(|| clearance::point(black_box(&job), x, y, black_box(&store))))
        };
        let mut stranger = self.store.clone();
        *stranger.last_mut()? ^= 1;
        Some(less(point(self.store.clone()), point(stranger)))
    }

    #[cfg(not(feature = "proved"))]
    fn proved_call(&self, _row: Row) -> Option<Call<'_>> {
        None
    }

    fn reference_lookup(&self) -> Option<Call<'_>> {
        let (x, y) = self.spot();
        let trees = reference::trees::grow(&self.job).ok()?;
        Some(Box::new(move || {
            timed(|| reference::lookup(black_box(&trees), x, y))
        }))
    }

    fn program_call(&self, maker: Maker) -> Option<Call<'_>> {
        let steps = self.steps.to_string();
        let (program, arguments) = match maker {
            Maker::Proved => (self.program.clone()?, vec![]),
            _ => {
                let name = Maker::program_named(maker.name())?.name();
                let this = std::env::current_exe().ok()?;
                (this, vec!["--as", name, "--steps", &steps])
            }
        };
        let arguments: Vec<String> = arguments.into_iter().map(String::from).collect();
        Some(Box::new(move || {
            wall_time(|| spawn(&program, &arguments, &self.sheet))
        }))
    }

    /// It has no sheets of its own. Its build is the polyline.
    fn sampling_call(&self, row: Row) -> Option<Call<'_>> {
        let (x, y) = self.spot();
        let spot = [f64::from(x), f64::from(y)];
        let steps = self.steps;
        let map = |job: Job| -> Call<'_> {
            Box::new(move || timed(|| sampling::map(black_box(&job), steps)))
        };
        match row {
            Row::Build => Some(Box::new(move || {
                timed(|| sampling::polyline(black_box(&self.job), steps))
            })),
            Row::Map => Some(map(self.job.clone())),
            Row::Draw => Some(less(map(self.job.clone()), map(self.one_cell_job()))),
            Row::Point | Row::Lookup => {
                let polyline = sampling::polyline(&self.job, steps);
                Some(Box::new(move || {
                    timed(|| sampling::distance(black_box(&polyline), black_box(spot)))
                }))
            }
            Row::Points => Some(self.sampling_points()),
            _ => None,
        }
    }

    fn sampling_points(&self) -> Call<'_> {
        let polyline = sampling::polyline(&self.job, self.steps);
        let spots = self.spots();
        let distances = move |spots: &[i32]| -> Vec<f64> {
            let pairs = spots.as_chunks::<2>().0.iter();
            pairs
                .map(|pair| sampling::distance(&polyline, pair.map(f64::from)))
                .collect()
        };
        Box::new(move || timed(|| distances(black_box(&spots))))
    }

    /// They draw and answer several points, and do nothing else.
    fn same_tricks_call(&self, row: Row) -> Option<Call<'_>> {
        let draw = |job: Job| {
            self.with_memory(move |_, cells| {
                same_tricks::draw(black_box(&job), black_box(&self.store), cells);
            })
        };
        match row {
            Row::Draw => Some(less(draw(self.job.clone()), draw(self.one_cell_job()))),
            Row::Points => Some(self.with_reply(|spots, reply| {
                same_tricks::points(black_box(&self.job), spots, black_box(&self.store), reply)
            })),
            _ => None,
        }
    }

    /// A call with all spots and a reply for them, cleared before it.
    fn with_reply<'a, T>(&self, work: impl Fn(&[i32], &mut [i64]) -> T + 'a) -> Call<'a> {
        let spots = self.spots();
        let mut reply = vec![0; 3 * spots.len() / 2];
        Box::new(move || {
            reply.fill(0);
            timed(|| work(black_box(&spots), black_box(&mut reply)))
        })
    }

    /// A call with store and map, both cleared before it.
    fn with_memory<'a, T>(&self, work: impl Fn(&mut [i32], &mut [u8]) -> T + 'a) -> Call<'a> {
        let (mut store, mut cells) = (self.store.clone(), self.cells.clone());
        Box::new(move || {
            store.fill(0);
            cells.fill(0);
            timed(|| work(black_box(&mut store), black_box(&mut cells)))
        })
    }
}

/// A call with bytes for a sheet, cleared before it.
fn with_sheet<'a, T>(work: impl Fn(&mut [u8]) -> T + 'a) -> Call<'a> {
    let mut out = [0; reference::SHEET_LIMIT];
    Box::new(move || {
        out.fill(0);
        timed(|| work(black_box(&mut out)))
    })
}

/// What one call takes longer than another. The clock's own time cancels out, so
/// it is added once, as every other call has it.
fn less<'a>(mut call: Call<'a>, mut other: Call<'a>) -> Call<'a> {
    Box::new(move || call().saturating_sub(other()) + timed(|| ()))
}
