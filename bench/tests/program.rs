//! The measurement from outside, as short as it can be: with the feature
//! `proved` the proved library is in it.

use std::process::Command;

/// The standard output of a run that is done.
fn printed(arguments: &[&str]) -> String {
    let bench = env!("CARGO_BIN_EXE_clearance_bench");
    let done = Command::new(bench).args(arguments).output().unwrap();
    let said = String::from_utf8_lossy(&done.stderr);
    assert!(done.status.success(), "{said}");
    String::from_utf8(done.stdout).unwrap()
}

/// The first word of a row's means and how many of its ratios are numbers.
fn means(text: &str) -> Vec<(&str, usize)> {
    let lines = text.lines().filter(|line| line.contains(" MEAN "));
    lines
        .map(|line| {
            let mut words = line.split_whitespace();
            let row = words.next().unwrap();
            (
                row,
                words.filter(|word| word.parse::<f64>().is_ok()).count(),
            )
        })
        .collect()
}

#[test]
fn the_tables_are_printed() {
    let text = printed(&["--seconds", "0", "--steps", "4"]);
    let wanted = if cfg!(feature = "proved") {
        // Of the whole program there are two without a proved one.
        [1, 1, 3, 3, 3, 5, 5, 3, 3, 5, 1, 1]
    } else {
        [0, 0, 1, 1, 1, 2, 2, 1, 1, 2, 1, 1]
    };
    // Where maps are drawn there is a mean of those by rows too.
    let rows = [
        "read", "write", "build", "map", "map", "draw", "draw", "point", "lookup", "points",
        "program", "program",
    ];
    let wanted: Vec<(&str, usize)> = rows.into_iter().zip(wanted).collect();
    assert_eq!(means(&text), wanted);
    for title in [
        "as lines and as cubics",
        "wrong clear",
        "with edges:",
        "with cells:",
        "with nodes:",
    ] {
        assert!(text.contains(title), "{title}");
    }
    let beside = text.contains("256 points in one call and in 256 calls");
    assert_eq!(beside, cfg!(feature = "proved"));
}

#[test]
fn the_growth_is_printed() {
    let text = printed(&["--growth", "--seconds", "0"]);
    for title in ["with edges:", "with columns:", "with reach:"] {
        assert!(text.contains(title), "{title}");
    }
    // Only the last reach is too long for a map by rows.
    let ways: Vec<bool> = text
        .lines()
        .filter(|line| line.starts_with("    "))
        .map(|line| line.contains(" rows "))
        .collect();
    assert_eq!(ways, [vec![true; 15], vec![false]].concat());
}

#[test]
fn bad_usage_is_refused() {
    let bench = env!("CARGO_BIN_EXE_clearance_bench");
    for arguments in [&["--as", "same tricks"][..], &["--steps", "0"], &["-x"]] {
        let done = Command::new(bench).args(arguments).output().unwrap();
        assert_eq!(done.status.code(), Some(2));
        assert!(done.stdout.is_empty());
    }
}
