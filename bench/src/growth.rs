//! Jobs that grow in one size and stay the same in the others.

use clearance_reference::{Job, EDGE_LIMIT, NUMBERS_AN_EDGE};

const PLATE: i32 = 14;
const EDGES: usize = 8;
const SPREAD: i32 = 6;
const GRAIN: i32 = 40;
const REACH: i32 = 300;

/// An S in one of 64 places of the plate, eight in a row.
fn edge(place: usize) -> [i32; NUMBERS_AN_EDGE] {
    let x = 2_048 * (place % 8) as i32 + 150;
    let y = 2_048 * (place / 8) as i32 + 500;
    [
        x,
        y,
        x + 700,
        y + 2_400,
        x + 1_000,
        y - 1_400,
        x + 1_700,
        y + 1_000,
    ]
}

/// A job with so many edges, 2^spread cells a side, this grain and this reach.
fn job(edges: usize, spread: i32, grain: i32, reach: i32) -> Job {
    let mut job = Job {
        count: edges,
        n: PLATE,
        m: PLATE - spread,
        reach,
        grain,
        ..Job::ZERO
    };
    let places = job.places.as_chunks_mut().0;
    for (index, place) in places.iter_mut().take(edges).enumerate() {
        // Few edges are spread over the plate as many are.
        *place = edge(index * (EDGE_LIMIT / edges) + EDGE_LIMIT / edges / 2);
    }
    job
}

/// Each series with what grows in it.
pub fn series() -> [(&'static str, Vec<Job>); 3] {
    [
        (
            "edges",
            [1, 8, 64]
                .map(|edges| job(edges, SPREAD, GRAIN, REACH))
                .into(),
        ),
        (
            "cells",
            [4, 5, 6, 7, 8]
                .map(|spread| job(EDGES, spread, GRAIN, REACH))
                .into(),
        ),
        (
            "nodes",
            [320, 160, 80, 40, 20, 10, 5]
                .map(|grain| job(EDGES, SPREAD, grain, REACH))
                .into(),
        ),
    ]
}

/// Each series of the map's own table with what grows in it. The last reach is the
/// first with which a map is not drawn by rows.
pub fn map_series() -> [(&'static str, Vec<Job>); 3] {
    let side = 1 << PLATE;
    let [edges, spread, reach] = [16, 7, side / 64];
    let job = |edges: i32, spread, reach| job(edges as usize, spread, GRAIN, reach);
    let parts = [512, 256, 128, 64, 32, 24].map(|part| side / part);
    let reaches = parts.into_iter().chain([side / 24 + 1]);
    [
        (
            "edges",
            [1, 4, 16, 64].map(|edges| job(edges, spread, reach)).into(),
        ),
        (
            "columns",
            [4, 5, 6, 7, 8]
                .map(|spread| job(edges, spread, reach))
                .into(),
        ),
        (
            "reach",
            reaches.map(|reach| job(edges, spread, reach)).collect(),
        ),
    ]
}
