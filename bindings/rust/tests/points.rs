//! Several points in one call: each has the answer it has alone, in the order of
//! the spots; what a refused call leaves; and which refusal comes first.

use clearance::{
    ffi, map, point, points, read, Job, Nearest, Refusal, JOB_NUMBERS, NODE_NUMBERS, SPOTS_MOST,
};

/// Two edges of one point each.
const SHEET: &[u8] = b"(job\n(plate -8 -8 4)\n(cell 1)\n(reach 4)\n(grain 1)\n\
    (edge (0 0) (0 0) (0 0) (0 0))\n(edge (8 0) (8 0) (8 0) (8 0))\n)\n";

type Store = [i32; 2 * NODE_NUMBERS];

fn job_and_store() -> (Job, Store) {
    let job = read(SHEET).unwrap();
    let mut store = [0; 2 * NODE_NUMBERS];
    assert_eq!(map(&job, &mut store, &mut [0; 64]), Ok(2));
    (job, store)
}

/// The C function of the two edges with any row of spots: its number, and what it
/// leaves of a reply of so many sevens.
fn asked(spots: &[i32], reply: usize) -> (u8, Vec<i64>) {
    let (mut row, mut reply) = ([0; JOB_NUMBERS], vec![7; reply]);
    let (_, store) = job_and_store();
    // SAFETY: all are whole and apart.
    let number = unsafe {
        ffi::clearance_read(SHEET.as_ptr(), SHEET.len(), &raw mut row);
        ffi::clearance_points(
            row.as_ptr(),
            row.len(),
            spots.as_ptr(),
            spots.len(),
            store.as_ptr(),
            store.len(),
            reply.as_mut_ptr(),
            reply.len(),
        )
    };
    (number, reply)
}

/// The number of a call that is refused and leaves its reply as it was.
fn refused(spots: &[i32], reply: usize) -> u8 {
    let (number, left) = asked(spots, reply);
    assert_eq!(left, vec![7; reply]);
    number
}

#[test]
fn answers_stand_in_the_order_of_the_spots() {
    let near = (0, vec![6400, 6400, 0, 0, 0, 1, 7]);
    assert_eq!(asked(&[3, 4, 8, 0], 7), near);
    let turned = (0, vec![0, 0, 1, 6400, 6400, 0, 7]);
    assert_eq!(asked(&[8, 0, 3, 4], 7), turned);
    assert_eq!(asked(&[3, 4], 3), (0, vec![6400, 6400, 0]));
}

#[test]
fn a_row_has_one_to_256_spots() {
    assert_eq!(refused(&[], 7), 9);
    assert_eq!(refused(&[3], 7), 9);
    assert_eq!(refused(&[3, 4, 8], 7), 9);
    let most = 2 * SPOTS_MOST;
    assert_eq!(asked(&[0; 512], 768), (0, [0, 0, 0].repeat(256)));
    assert_eq!(refused(&[0; 512], 767), 7);
    for numbers in [most + 1, most + 2, most + 3, 10 * most] {
        assert_eq!(refused(&vec![0; numbers], 3 * numbers), 9);
    }
}

#[test]
fn every_number_of_the_row_is_in_range() {
    assert_eq!(refused(&[1_000_001], 7), 3);
    assert_eq!(refused(&[0, -1_000_001], 7), 3);
    assert_eq!(refused(&[0, 0, 0, i32::MIN], 0), 3);
    let mut row = [0; 515];
    row[514] = 2_000_000;
    assert_eq!(refused(&row, 7), 3);
    assert_eq!(asked(&[1_000_000, -1_000_000], 3).0, 0);
}

#[test]
fn a_reply_has_three_numbers_a_spot() {
    assert_eq!(refused(&[3, 4], 2), 7);
    assert_eq!(refused(&[3, 4], 0), 7);
    assert_eq!(refused(&[3, 4, 8, 0], 5), 7);
    assert_eq!(asked(&[3, 4, 8, 0], 6).0, 0);
}

#[test]
fn each_spot_has_the_answer_it_has_alone() {
    let (job, store) = job_and_store();
    let spots: Vec<[i32; 2]> = (0..256).map(|i| [i % 16 - 4, i / 16 - 8]).collect();
    let alone: Result<Vec<Nearest>, Refusal> = spots
        .iter()
        .map(|&[x, y]| point(&job, x, y, &store))
        .collect();
    assert_eq!(points(&job, &spots, &store), alone);
    assert_eq!(
        points(&job, &spots[7..8], &store).unwrap()[0],
        alone.unwrap()[7]
    );
}

#[test]
fn any_count_of_spots_is_answered_or_refused() {
    let (job, store) = job_and_store();
    for count in [0, SPOTS_MOST + 1, 1_000_000] {
        assert_eq!(
            points(&job, &vec![[0; 2]; count], &store),
            Err(Refusal::Sheaf)
        );
    }
    let many = vec![[0; 2]; SPOTS_MOST];
    assert_eq!(points(&job, &many, &store).unwrap().len(), SPOTS_MOST);
}

/// 2, 3, 4, 9, 5, 6 and 8: each call has a reason less than the one before it.
#[test]
fn the_first_reason_in_its_order_is_given() {
    let (legal, mut store) = job_and_store();
    let long = [-1_000_000, 0, -1_000_000, 0, 1_000_000, 0, 1_000_000, 0];
    let mut job = Job {
        count: 0,
        m: 5,
        ..legal
    };
    job.places[..8].copy_from_slice(&long);
    store[21] ^= 1;
    let (few, outside) = ([[0; 2]; 2], [[0, 1_000_001]; 257]);
    assert_eq!(points(&job, &outside, &store[1..]), Err(Refusal::Edges));
    job.count = 2;
    assert_eq!(points(&job, &outside, &store[1..]), Err(Refusal::Range));
    assert_eq!(
        points(&job, &[[0; 2]; 257], &store[1..]),
        Err(Refusal::Cell)
    );
    job.m = legal.m;
    assert_eq!(
        points(&job, &[[0; 2]; 257], &store[1..]),
        Err(Refusal::Sheaf)
    );
    assert_eq!(points(&job, &[], &store[1..]), Err(Refusal::Sheaf));
    assert_eq!(points(&job, &few, &store[1..]), Err(Refusal::Long));
    assert_eq!(points(&legal, &few, &store[1..]), Err(Refusal::Store));
    assert_eq!(points(&legal, &few, &store), Err(Refusal::Stranger));
    store[21] ^= 1;
    assert!(points(&legal, &few, &store).is_ok());
}
