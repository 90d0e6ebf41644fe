//! The six calls. References make the pointers right, an empty slice's never
//! null, and Rust keeps what is written apart from all else, so there is nothing
//! left to check.

use crate::clamp::{Clamp, Placed, CLAMPS_COUNT, PLACED_NUMBERS};
use crate::ffi;
use crate::job::{Job, JOB_NUMBERS};
use crate::nearest::{Nearest, NEAREST_NUMBERS};
use crate::refusal::Refusal;
use crate::version::assert_fits;
use crate::SPOTS_MOST;

/// Reads a job sheet. Refuses with 1 to 4.
///
/// ```
/// use clearance::{read, Refusal};
///
/// let sheet = "(job\n(plate 0 0 6)\n(cell 2)\n(reach 9)\n(edge (0 0) (9 0) (9 9) (0 9))\n)\n";
/// let job = read(sheet.as_bytes())?;
/// assert_eq!((job.n, job.m, job.reach, job.grain, job.count), (6, 2, 9, 10, 1));
/// assert_eq!(read(&sheet.as_bytes()[1..]), Err(Refusal::Form));
/// # Ok::<(), Refusal>(())
/// ```
pub fn read(sheet: &[u8]) -> Result<Job, Refusal> {
    assert_fits();
    let mut job = Job::ZERO;
    // SAFETY: a slice and a job of its own, see the head of this file.
    let number = unsafe { ffi::clearance_read(sheet.as_ptr(), sheet.len(), job.as_mut_ptr()) };
    Refusal::check(number)?;
    Ok(job)
}

/// Writes a job's sheet to the start of the lent bytes and gives its length;
/// [`SHEET_WRITTEN_MOST`](crate::SHEET_WRITTEN_MOST) are always enough. Refuses
/// with 2, 3, 4 or 7.
///
/// ```
/// use clearance::{read, write, Refusal};
///
/// let sheet = b"(job\n(plate 0 0 6)\n(cell 2)\n(reach 9)\n(edge (0 0) (9 0) (9 9) (0 9))\n)\n";
/// let job = read(sheet)?;
/// let mut lent = [0; 100];
/// let length = write(&job, &mut lent)?;
/// assert_eq!(&lent[..length], sheet);
/// assert_eq!(write(&job, &mut lent[..length - 1]), Err(Refusal::Space));
/// # Ok::<(), Refusal>(())
/// ```
pub fn write(job: &Job, out: &mut [u8]) -> Result<usize, Refusal> {
    assert_fits();
    let mut bytes = 0;
    // SAFETY: a job, a slice and a number of its own, see the head of this file.
    let number = unsafe {
        ffi::clearance_write(
            job.as_ptr(),
            JOB_NUMBERS,
            out.as_mut_ptr(),
            out.len(),
            &raw mut bytes,
        )
    };
    Refusal::check(number)?;
    Ok(bytes)
}

/// Writes the trees to the start of the store and the map to the start of the
/// cells, and gives the count of nodes. A node takes
/// [`NODE_NUMBERS`](crate::NODE_NUMBERS) numbers;
/// [`STORE_MOST`](crate::STORE_MOST) numbers and
/// [`CELLS_MOST`](crate::CELLS_MOST) bytes are always enough. Refuses with 2 to 7.
///
/// ```
/// use clearance::{map, read, Refusal};
///
/// let job = read(b"(job\n(plate 0 0 1)\n(cell 0)\n(reach 90)\n(edge (0 0) (0 0) (0 0) (0 0))\n)\n")?;
/// let (mut store, mut cells) = ([0; 11], [0; 4]);
/// assert_eq!(map(&job, &mut store, &mut cells), Ok(1));
/// assert_eq!(store, [0, 0, 0, 0, 0, 0, 1, 0, 0, 0, 0]);
/// assert_eq!(&cells, b"IIII");
/// assert_eq!(map(&job, &mut store[1..], &mut cells), Err(Refusal::Store));
/// # Ok::<(), Refusal>(())
/// ```
pub fn map(job: &Job, store: &mut [i32], cells: &mut [u8]) -> Result<usize, Refusal> {
    assert_fits();
    let mut nodes = 0;
    // SAFETY: a job, two slices and a number of its own, see the head of this file.
    let number = unsafe {
        ffi::clearance_map(
            job.as_ptr(),
            JOB_NUMBERS,
            store.as_mut_ptr(),
            store.len(),
            cells.as_mut_ptr(),
            cells.len(),
            &raw mut nodes,
        )
    };
    Refusal::check(number)?;
    Ok(nodes)
}

/// Bounds the distance of the point `(x, y)` from the outline. The store begins
/// with the job's trees, as [`map`] left them. Refuses with 2, 3, 4, 5, 6 or 8.
///
/// ```
/// use clearance::{map, point, read, Refusal};
///
/// let job = read(b"(job\n(plate 0 0 1)\n(cell 0)\n(reach 90)\n(edge (0 0) (0 0) (0 0) (0 0))\n)\n")?;
/// let (mut store, mut cells) = ([0; 11], [0; 4]);
/// assert_eq!(point(&job, 3, 4, &store), Err(Refusal::Stranger));
/// map(&job, &mut store, &mut cells)?;
/// assert_eq!(point(&job, 3, 4, &store)?.hi, 6400);
/// # Ok::<(), Refusal>(())
/// ```
pub fn point(job: &Job, x: i32, y: i32, store: &[i32]) -> Result<Nearest, Refusal> {
    assert_fits();
    let mut nearest = [0; NEAREST_NUMBERS];
    // SAFETY: a job, a slice and numbers of its own, see the head of this file.
    let number = unsafe {
        ffi::clearance_point(
            job.as_ptr(),
            JOB_NUMBERS,
            x,
            y,
            store.as_ptr(),
            store.len(),
            nearest.as_mut_ptr(),
        )
    };
    Refusal::check(number)?;
    Ok(Nearest::of(nearest))
}

/// Bounds the distances of 1 to [`SPOTS_MOST`] points from the outline, x and y of
/// each. They are those of [`point`], in the order of the spots (theorem
/// `points_alone` of the C function), but the code compares the store once for all
/// of them. Of 2, 3, 4, 9, 5, 6 and 8, in this order, it
/// refuses with the first that applies: a coordinate out of range comes before too
/// many spots. It has room of its own for the answers, enough for every row (theorem
/// `reply_room`), so 7 is not among them.
///
/// ```
/// use clearance::{map, point, points, read, Refusal};
///
/// let job = read(b"(job\n(plate 0 0 1)\n(cell 0)\n(reach 90)\n(edge (0 0) (0 0) (0 0) (0 0))\n)\n")?;
/// let (mut store, mut cells) = ([0; 11], [0; 4]);
/// map(&job, &mut store, &mut cells)?;
/// let spots = [[3, 4], [0, 0], [-5, 12]];
/// let found = points(&job, &spots, &store)?;
/// assert_eq!(found[0], point(&job, 3, 4, &store)?);
/// assert_eq!(found.iter().map(|nearest| nearest.hi).collect::<Vec<_>>(), [6400, 0, 43264]);
/// assert_eq!(points(&job, &[], &store), Err(Refusal::Sheaf));
///
/// // More spots than one call takes.
/// let mut found = Vec::new();
/// for some in [[3, 4]; 1_000].chunks(clearance::SPOTS_MOST) {
///     found.extend(points(&job, some, &store)?);
/// }
/// assert_eq!(found.len(), 1_000);
/// # Ok::<(), Refusal>(())
/// ```
pub fn points(job: &Job, spots: &[[i32; 2]], store: &[i32]) -> Result<Vec<Nearest>, Refusal> {
    assert_fits();
    // More spots are refused before the room counts.
    let mut reply = [0; SPOTS_MOST * NEAREST_NUMBERS];
    let numbers = spots.as_flattened();
    // SAFETY: a job, two slices and numbers of its own, see the head of this file.
    let number = unsafe {
        ffi::clearance_points(
            job.as_ptr(),
            JOB_NUMBERS,
            numbers.as_ptr(),
            numbers.len(),
            store.as_ptr(),
            store.len(),
            reply.as_mut_ptr(),
            reply.len(),
        )
    };
    Refusal::check(number)?;
    let answers = reply.as_chunks().0.iter().take(spots.len());
    Ok(answers.copied().map(Nearest::of).collect())
}

/// Looks at the cells of a map under the four clamps of table four: [`Placed::Go`]
/// exactly if every cell under every clamp is C. If the map is the one that [`map`]
/// drew for this job, a go means that whatever lies under a clamp, over all fractions,
/// keeps at least the reach from the outline (theorem
/// `drawn_go`). Whether the map is this job's is not checked, and bytes behind its
/// cells are not looked at. Refuses with 2, 3, 4, 7, 10 or 11.
///
/// ```
/// use clearance::{clamps, map, read, Clamp, Placed, Refusal};
///
/// let job = read(b"(job\n(plate -8 -8 4)\n(cell 1)\n(reach 4)\n(grain 1)\n\
///     (edge (0 0) (0 0) (0 0) (0 0))\n)\n")?;
/// let (mut store, mut cells) = ([0; 11], [0; 64]);
/// map(&job, &mut store, &mut cells)?;
///
/// let low = Clamp { column: 0, row: 0, columns: 8, rows: 2 };
/// let high = Clamp { row: 6, ..low };
/// assert_eq!(clamps(&job, &cells, &[low, low, low, high])?, Placed::Go);
///
/// let middle = Clamp { column: 1, row: 3, columns: 4, rows: 2 };
/// let stopped = Placed::Stopped { clamp: 3, column: 2, row: 3 };
/// assert_eq!(clamps(&job, &cells, &[low, low, low, middle])?, stopped);
///
/// let outside = Clamp { columns: 8, ..middle };
/// assert_eq!(clamps(&job, &cells, &[low, low, low, outside]), Err(Refusal::OffPlate));
/// cells[63] = b'?';
/// assert_eq!(clamps(&job, &cells, &[low; 4]), Err(Refusal::Letter));
/// # Ok::<(), Refusal>(())
/// ```
pub fn clamps(job: &Job, cells: &[u8], clamps: &[Clamp; CLAMPS_COUNT]) -> Result<Placed, Refusal> {
    assert_fits();
    let numbers = clamps.map(Clamp::numbers);
    let mut placed = [0; PLACED_NUMBERS];
    // SAFETY: a job, a slice and numbers of its own, see the head of this file.
    let number = unsafe {
        ffi::clearance_clamps(
            job.as_ptr(),
            JOB_NUMBERS,
            cells.as_ptr(),
            cells.len(),
            numbers.as_flattened().as_ptr(),
            placed.as_mut_ptr(),
        )
    };
    Refusal::check(number)?;
    Ok(Placed::of(placed))
}
