//! The tables that are printed.

use crate::growth;
use crate::makers::{Case, Maker, Row};
use crate::timing::{leasts, medians};
use clearance_bench::exact::wrong_cells;
use clearance_bench::{sampling, straight};
use std::time::Duration;

/// Median times in microseconds, in the order of `Maker::ALL`.
type Times = [Option<f64>; 4];

/// The ratios that are shown, the proved library's first.
const RATIOS: [(Maker, Maker); 5] = [
    (Maker::Proved, Maker::Reference),
    (Maker::Proved, Maker::Sampling),
    (Maker::Proved, Maker::SameTricks),
    (Maker::Sampling, Maker::Reference),
    (Maker::SameTricks, Maker::Reference),
];

fn times(case: &Case, row: Row, budget: Duration) -> Times {
    let mut calls = Vec::new();
    let mut places = Vec::new();
    for (place, maker) in Maker::ALL.into_iter().enumerate() {
        if let Some(call) = case.call(maker, row) {
            calls.push(call);
            places.push(place);
        }
    }
    let mut times = [None; 4];
    for (place, time) in places.into_iter().zip(medians(&mut calls, budget)) {
        times[place] = Some(time);
    }
    times
}

fn ratio(times: &Times, (one, other): (Maker, Maker)) -> Option<f64> {
    Some(times[one as usize]? / times[other as usize]?)
}

/// The ratios that any of these rows has.
fn shown_ratios(proved: bool) -> Vec<(Maker, Maker)> {
    let wanted = |(one, _): &(Maker, Maker)| proved || *one != Maker::Proved;
    RATIOS.into_iter().filter(wanted).collect()
}

/// Ratios of every row for every case, then the geometric means: of all, and where
/// maps are drawn also of those by rows.
pub fn print_ratios(cases: &[Case], proved: bool, budget: Duration) {
    let ratios = shown_ratios(proved);
    println!("Ratios of median times; below 1 the first is faster.\n");
    print!("{:8} {:10} {:8}", "row", "example", "drawn by");
    print!(" {:>14}", "reference µs");
    for (one, other) in &ratios {
        print!(" {:>24}", format!("{} / {}", one.name(), other.name()));
    }
    println!();
    for row in Row::ALL {
        let mut all = Vec::new();
        let mut by_rows = Vec::new();
        for case in cases {
            let times = times(case, row, budget);
            if times == [None; 4] {
                continue;
            }
            let way = if row.draws() { case.way() } else { "" };
            print!("{:8} {:10} {way:8}", row.name(), case.name);
            print!(" {:14.2}", times[Maker::Reference as usize].unwrap_or(0.0));
            print_line(ratios.iter().map(|&pair| ratio(&times, pair)));
            all.push(times);
            if case.is_by_rows() {
                by_rows.push(times);
            }
        }
        print_means(row, "", &all, &ratios);
        if row.draws() {
            print_means(row, "rows", &by_rows, &ratios);
        }
    }
}

fn print_means(row: Row, way: &str, all: &[Times], ratios: &[(Maker, Maker)]) {
    print!("{:8} {:10} {way:8} {:14}", row.name(), "MEAN", "");
    print_line(ratios.iter().map(|&pair| geometric_mean(all, pair)));
}

fn print_line(numbers: impl Iterator<Item = Option<f64>>) {
    for number in numbers {
        match number {
            Some(number) => print!(" {number:24.3}"),
            None => print!(" {:>24}", "-"),
        }
    }
    println!();
}

fn geometric_mean(all: &[Times], pair: (Maker, Maker)) -> Option<f64> {
    let ratios: Option<Vec<f64>> = all.iter().map(|times| ratio(times, pair)).collect();
    mean_of(&ratios?)
}

/// The geometric mean of some ratios.
fn mean_of(ratios: &[f64]) -> Option<f64> {
    let sum: f64 = ratios.iter().map(|ratio| ratio.ln()).sum();
    (!ratios.is_empty()).then(|| (sum / ratios.len() as f64).exp())
}

/// The proved library's points in one call beside a call each.
pub fn print_points(cases: &[Case], budget: Duration) {
    let mut ratios = Vec::new();
    for case in cases {
        let Some(mut calls) = case.proved_points() else {
            return;
        };
        let [at_once, singly] = medians(&mut calls, budget)[..] else {
            return;
        };
        if ratios.is_empty() {
            println!("\nTime in µs of 256 points in one call and in 256 calls, proved.\n");
            print!("{:10} {:>7} {:>12}", "example", "nodes", "one call");
            println!(" {:>12} {:>16}", "256 calls", "one / 256 calls");
        }
        let ratio = at_once / singly;
        print!("{:10} {:7} {at_once:12.2}", case.name, case.nodes);
        println!(" {singly:12.2} {ratio:16.4}");
        ratios.push(ratio);
    }
    if let Some(mean) = mean_of(&ratios) {
        println!("{:10} {mean:50.4}", "MEAN");
    }
}

/// The building with lines beside that with cubics in their place.
pub fn print_straight(pairs: &[[Case; 2]], budget: Duration) {
    println!("\nTime of the build in µs with straight sides as lines and as cubics.\n");
    print!("{:10} {:>6} {:12}", "example", "lines", "maker");
    print!(" {:>13} {:>14}", "nodes (lines)", "nodes (cubics)");
    println!(" {:>9} {:>10} {:>14}", "lines", "cubics", "lines / cubics");
    for pair in pairs {
        for maker in [Maker::Proved, Maker::Reference] {
            print_straight_line(pair, maker, budget);
        }
    }
}

fn print_straight_line(pair: &[Case; 2], maker: Maker, budget: Duration) {
    let calls = pair.iter().filter_map(|case| case.call(maker, Row::Build));
    let [lines, cubics] = medians(&mut calls.collect::<Vec<_>>(), budget)[..] else {
        return;
    };
    let [with, without] = pair;
    let count = straight::count(&with.job);
    print!("{:10} {count:6} {:12}", with.name, maker.name());
    print!(" {:13} {:14}", with.nodes, without.nodes);
    println!(" {lines:9.2} {cubics:10.2} {:14.3}", lines / cubics);
}

/// The letters of the sampling beside those of the map, and its mistakes.
pub fn print_wrong_cells(cases: &[Case]) {
    println!("\nCells that the sampling calls clear or inside wrongly, beside the map. It strays");
    println!("by so many hundredths of a millimetre from the outline.\n");
    print!(
        "{:10} {:>7} {:>6} {:>8}",
        "example", "cells", "steps", "strays"
    );
    print!(
        " {:>18} {:>11} {:>12}",
        "sampling C/I/D", "wrong clear", "wrong inside"
    );
    println!(" {:>18} {:>9}", "map C/I/D", "map wrong");
    for case in cases {
        let (job, steps) = (&case.job, case.steps);
        let sampled = sampling::map(job, steps);
        let wrong = wrong_cells(job, &sampled);
        let map_wrong = wrong_cells(job, &case.cells);
        let strays = sampling::straying(job, steps);
        print!(
            "{:10} {:7} {steps:6} {strays:8.2}",
            case.name,
            sampled.len()
        );
        print!(
            " {:>18} {:11} {:12}",
            letter_counts(&sampled),
            wrong.clear,
            wrong.inside
        );
        let both = map_wrong.clear + map_wrong.inside;
        println!(" {:>18} {both:9}", letter_counts(&case.cells));
    }
}

fn letter_counts(letters: &[u8]) -> String {
    let counts = [b'C', b'I', b'D'].map(|letter| letters.iter().filter(|&&l| l == letter).count());
    format!("{}/{}/{}", counts[0], counts[1], counts[2])
}

/// How the map's time grows with edges, cells and nodes.
pub fn print_growth(proved: bool, budget: Duration) -> Result<(), String> {
    println!("\nTime of the map in µs as one size grows.\n");
    print!(
        "{:>6} {:>7} {:>6} {:>7}",
        "edges", "cells", "grain", "nodes"
    );
    // All that draw a map from the job; without the library the first is missing.
    let all = [Maker::Proved, Maker::Reference, Maker::Sampling];
    let makers = &all[usize::from(!proved)..];
    for maker in makers {
        print!(" {:>12}", maker.name());
    }
    println!();
    for (title, jobs) in growth::series() {
        println!("with {title}:");
        for job in jobs {
            let case = Case::of(title, job)?;
            let (count, cells, grain) = (case.job.count, case.cells.len(), case.job.grain);
            print!("{count:6} {cells:7} {grain:6} {:7}", case.nodes);
            let times = times(&case, Row::Map, budget);
            for &maker in makers {
                print!(" {:12.1}", times[maker as usize].unwrap_or(f64::NAN));
            }
            println!();
        }
    }
    Ok(())
}

/// The map's least times, each series with what grows in it.
pub fn print_map_growth(series: &[(&str, Vec<Case>)], budget: Duration) {
    println!("Least time of the map in µs as one size grows.\n");
    print!("{:>6} {:>7} {:>6}", "edges", "columns", "reach");
    print!(" {:>10} {:8} {:>6}", "side/reach", "drawn by", "nodes");
    println!(
        " {:>10} {:>10} {:>18}",
        "proved", "reference", "proved / reference"
    );
    for (title, cases) in series {
        println!("with {title}:");
        for case in cases {
            let job = &case.job;
            let columns = case.cells.len().isqrt();
            let part = f64::from(1 << job.n) / f64::from(job.reach);
            print!("{:6} {columns:7} {:6} {part:10.2}", job.count, job.reach);
            print!(" {:8} {:6}", case.way(), case.nodes);
            print_least(case, budget);
        }
    }
}

/// The least times of the proved library, if it is linked, and the reference.
fn print_least(case: &Case, budget: Duration) {
    let makers = [Maker::Proved, Maker::Reference];
    let calls = makers.map(|maker| case.call(maker, Row::Map));
    match leasts(&mut calls.into_iter().flatten().collect::<Vec<_>>(), budget)[..] {
        [proved, reference] => {
            let ratio = proved / reference;
            println!(" {proved:10.1} {reference:10.1} {ratio:18.3}");
        }
        [reference] => println!(" {:>10} {reference:10.1} {:>18}", "-", "-"),
        _ => println!(),
    }
}
