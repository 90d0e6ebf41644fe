//! The command-line program from outside.

mod common;

use common::{SAMPLE_MAP, SAMPLE_SHEET};
use std::io::Write;
use std::process::{Command, Output, Stdio};

fn run(arguments: &[&str], input: &[u8]) -> Output {
    let mut child = Command::new(env!("CARGO_BIN_EXE_clearance-reference"))
        .args(arguments)
        .stdin(Stdio::piped())
        .stdout(Stdio::piped())
        .stderr(Stdio::piped())
        .spawn()
        .unwrap();
    // A program that stops reading early closes the pipe, which is no fault.
    let _ = child.stdin.take().unwrap().write_all(input);
    child.wait_with_output().unwrap()
}

/// What an accepted or refused call prints; it must end well and say no more.
fn printed(arguments: &[&str], sheet: &str) -> String {
    let output = run(arguments, sheet.as_bytes());
    assert_eq!(output.status.code(), Some(0));
    assert!(output.stderr.is_empty());
    String::from_utf8(output.stdout).unwrap()
}

fn long_sheet(grain: i32) -> String {
    SAMPLE_SHEET
        .replace("(grain 1)", &format!("(grain {grain})"))
        .replace(
            "(0 0) (0 0) (0 0) (0 0)",
            "(0 0) (333333 0) (666666 0) (999999 0)",
        )
}

#[test]
fn the_sample() {
    assert_eq!(printed(&["map"], SAMPLE_SHEET), SAMPLE_MAP);
    assert_eq!(printed(&["write"], SAMPLE_SHEET), SAMPLE_SHEET);
    let store = printed(&["store"], SAMPLE_SHEET);
    assert_eq!(store, "(store 1\n0 0 0 0 0 0 1 0 0 0 0\n)\n");
    let point = printed(&["point", "3", "4"], SAMPLE_SHEET);
    assert_eq!(point, "(point 6400 6400 0)\n");
    let point = printed(&["point", "-3", "-4"], SAMPLE_SHEET);
    assert_eq!(point, "(point 6400 6400 0)\n");
    let points = printed(&["points", "3", "4", "0", "0", "-3", "-4"], SAMPLE_SHEET);
    assert_eq!(
        points,
        "(point 6400 6400 0)\n(point 0 0 0)\n(point 6400 6400 0)\n"
    );
    let reads = printed(&["reads", "3", "4"], SAMPLE_SHEET);
    assert_eq!(reads, "(reads 1)\n");
}

#[test]
fn refusals_of_the_sheet() {
    let no_edges = SAMPLE_SHEET.replace("(edge (0 0) (0 0) (0 0) (0 0))\n", "");
    for (sheet, wanted) in [
        ("", "(refused 1)\n"),
        (&no_edges, "(refused 2)\n"),
        (
            &SAMPLE_SHEET.replace("(reach 4)", "(reach 0)"),
            "(refused 3)\n",
        ),
        (
            &SAMPLE_SHEET.replace("(cell 1)", "(cell 5)"),
            "(refused 4)\n",
        ),
    ] {
        for arguments in [
            &["map"][..],
            &["store"],
            &["point", "0", "0"],
            &["points", "0", "0", "0", "0"],
            &["points"],
            &["reads", "0", "0"],
            &["write"],
            &["probe"],
            &["probe-rows"],
        ] {
            assert_eq!(printed(arguments, sheet), wanted);
        }
    }
}

#[test]
fn refusals_of_the_trees() {
    let long = long_sheet(488);
    assert_eq!(printed(&["map"], &long), "(refused 5)\n");
    assert_eq!(printed(&["store"], &long), "(refused 5)\n");
    assert_eq!(printed(&["point", "0", "0"], &long), "(refused 5)\n");
    assert_eq!(printed(&["point", "1000001", "0"], &long), "(refused 3)\n");
    assert_eq!(printed(&["reads", "0", "0"], &long), "(refused 5)\n");
    assert_eq!(printed(&["reads", "1000001", "0"], &long), "(refused 3)\n");
    assert_eq!(printed(&["write"], &long), long);

    // At grain 489 it has 2,047 nodes, more than are lent, but they can be seen
    // and asked.
    let too_many = long_sheet(489);
    assert_eq!(printed(&["map"], &too_many), "(refused 6)\n");
    let store = printed(&["store"], &too_many);
    assert!(store.starts_with("(store 2047\n"));
    assert_eq!(store.lines().count(), 2_049);
    let mut nodes = store.lines().skip(1).take(2_047);
    assert!(nodes.all(|node| node.split(' ').count() == 11));
    let point = printed(&["point", "0", "0"], &too_many);
    assert_eq!(point, "(point 0 244140625 0)\n");
    let reads = printed(&["reads", "500000", "0"], &too_many);
    assert_eq!(reads, "(reads 1043)\n");
}

/// Ranges, then the count of numbers, then the length of pieces.
#[test]
fn refusals_of_a_sheaf() {
    let [long, deep] = [488, 489].map(long_sheet);
    let most = ["0"; 512];
    let too_many = ["0"; 514];
    for (numbers, of_sample, of_long) in [
        (&["0", "0"][..], "(point 0 0 0)\n", "(refused 5)\n"),
        (&most, &"(point 0 0 0)\n".repeat(256), "(refused 5)\n"),
        (&[], "(refused 9)\n", "(refused 9)\n"),
        (&["0"], "(refused 9)\n", "(refused 9)\n"),
        (&["0", "0", "0"], "(refused 9)\n", "(refused 9)\n"),
        (&too_many, "(refused 9)\n", "(refused 9)\n"),
        (&["1000001"], "(refused 3)\n", "(refused 3)\n"),
        (
            &["0", "0", "0", "-1000001"],
            "(refused 3)\n",
            "(refused 3)\n",
        ),
    ] {
        let arguments = [&["points"], numbers].concat();
        assert_eq!(printed(&arguments, SAMPLE_SHEET), of_sample);
        assert_eq!(printed(&arguments, &long), of_long);
    }
    let points = printed(&["points", "0", "0", "999999", "0"], &deep);
    assert_eq!(points.lines().count(), 2);
    for (line, x) in points.lines().zip(["0", "999999"]) {
        assert_eq!(printed(&["point", x, "0"], &deep), format!("{line}\n"));
    }
}

/// A level line of 2^d times 2 has pieces of depth d that just are short at
/// grain 1, so 2^(d + 1) - 1 nodes: here 1,023, 255, 127, 63, 15, 3 and 3.
#[test]
fn the_lent_store_holds_1489_nodes() {
    let lines: String = [1_024, 256, 128, 64, 16, 4, 4]
        .iter()
        .map(|length| format!("(line (0 0) ({length} 0))\n"))
        .collect();
    let point = "(edge (0 0) (0 0) (0 0) (0 0))\n";
    let fits = SAMPLE_SHEET.replace(point, &lines);
    assert!(printed(&["store"], &fits).starts_with("(store 1489\n"));
    assert!(printed(&["map"], &fits).starts_with("(map 8\n"));
    let one_more = SAMPLE_SHEET.replace(point, &(lines + point));
    assert!(printed(&["store"], &one_more).starts_with("(store 1490\n"));
    assert_eq!(printed(&["map"], &one_more), "(refused 6)\n");
}

#[test]
fn sheets_past_the_limit() {
    let edge = "(edge (0 0) (0 0) (0 0) (0 0))\n";
    let sheet = |count: usize| SAMPLE_SHEET.replace(edge, &edge.repeat(count));
    assert_eq!(printed(&["map"], &sheet(261)), "(refused 2)\n");
    assert_eq!(printed(&["map"], &sheet(270)), "(refused 1)\n");
    let far_too_long = SAMPLE_SHEET.repeat(10_000);
    assert_eq!(printed(&["map"], &far_too_long), "(refused 1)\n");
}

#[test]
fn usage() {
    for arguments in [
        &[][..],
        &["draw"],
        &["map", "map"],
        &["point"],
        &["point", "1"],
        &["point", "1", "x"],
        &["point", "1", "99999999999"],
        &["point", "1", "2", "3"],
        &["points", "x"],
        &["points", "1", "2", "3", "99999999999"],
        &["reads"],
        &["reads", "1"],
        &["reads", "x", "1"],
        &["reads", "1", "2", "3"],
    ] {
        let output = run(arguments, SAMPLE_SHEET.as_bytes());
        assert_eq!(output.status.code(), Some(2), "{arguments:?}");
        assert!(output.stdout.is_empty() && !output.stderr.is_empty());
    }
    let help = printed(&["--help"], "");
    let words = ["map", "store", "point X Y", "points X Y...", "reads X Y"];
    for word in words.into_iter().chain(["write", "probe", "probe-rows"]) {
        assert!(help.contains(word));
    }
}
