//! Damaged sheets: each gives a job or a refusal, and a job its own sheet.

mod common;

use clearance_reference::{read, write, Refusal};
use common::jobs::random_job;
use common::random::Xorshift;
use common::SAMPLE_SHEET;

const SHEETS: usize = 100_000;

/// Numbers that are at, inside or past some range, or no numbers at all.
const NUMBERS: [&str; 16] = [
    "0", "1", "-1", "4", "8", "10", "20", "21", "100000", "1000000", "-1000000", "1000001",
    "9999999", "12345678", "-0", "01",
];

/// Bytes that matter to the form, and some that do not.
const BYTES: &[u8] = b"0123456789-() \n\r\tjobplatecellreachgrainedgeline+.\0\xff";

fn damage(rng: &mut Xorshift, sheet: &mut Vec<u8>) {
    let place = rng.below(sheet.len().max(1));
    if sheet.is_empty() {
        sheet.push(rng.choose(BYTES));
        return;
    }
    match rng.below(17) {
        0 => sheet[place] ^= 1 << rng.below(8),
        1 => sheet[place] = rng.choose(BYTES),
        2 => drop(sheet.remove(place)),
        3 => sheet.insert(place, rng.choose(BYTES)),
        4 => sheet.truncate(place),
        5 => swap_lines(rng, sheet),
        6..=9 => repeat_line(rng, sheet),
        10 => swap_names(sheet),
        _ => change_number(rng, sheet),
    }
}

fn lines(sheet: &[u8]) -> Vec<Vec<u8>> {
    sheet
        .split_inclusive(|&byte| byte == b'\n')
        .map(<[u8]>::to_vec)
        .collect()
}

fn swap_lines(rng: &mut Xorshift, sheet: &mut Vec<u8>) {
    let mut lines = lines(sheet);
    let (a, b) = (rng.below(lines.len()), rng.below(lines.len()));
    lines.swap(a, b);
    *sheet = lines.concat();
}

/// Repeats a line, now and then past the limit of the edges or of the sheet.
fn repeat_line(rng: &mut Xorshift, sheet: &mut Vec<u8>) {
    let mut lines = lines(sheet);
    let place = rng.below(lines.len());
    let times = rng.choose(&[0, 2, 2, 2, 60, 70, 300]);
    lines[place] = lines[place].repeat(times);
    *sheet = lines.concat();
}

/// Gives the first cubic or line the other's name.
fn swap_names(sheet: &mut [u8]) {
    let names = [b"(edge", b"(line"];
    let at = sheet
        .windows(5)
        .position(|part| names.contains(&part.try_into().unwrap()));
    if let Some(at) = at {
        let other = names[usize::from(sheet[at + 1] == b'e')];
        sheet[at..at + 5].copy_from_slice(other);
    }
}

fn change_number(rng: &mut Xorshift, sheet: &mut Vec<u8>) {
    let is_part = |byte: u8| byte == b'-' || byte.is_ascii_digit();
    let starts: Vec<usize> = (0..sheet.len())
        .filter(|&i| is_part(sheet[i]) && (i == 0 || !is_part(sheet[i - 1])))
        .collect();
    if starts.is_empty() {
        return;
    }
    let start = rng.choose(&starts);
    let length = sheet[start..].iter().take_while(|&&b| is_part(b)).count();
    let number = rng.choose(&NUMBERS).bytes();
    sheet.splice(start..start + length, number);
}

/// The sheet without its grain line where that names what is taken anyway.
fn without_spare_grain(sheet: &[u8]) -> Vec<u8> {
    let mut lines = lines(sheet);
    lines.retain(|line| line != b"(grain 10)\n");
    lines.concat()
}

/// Reads a sheet, and writes it again if it is a job. Gives the number.
fn check(sheet: &[u8]) -> usize {
    match read(sheet) {
        Err(refusal) => {
            assert!(refusal <= Refusal::Cell);
            usize::from(refusal.number())
        }
        Ok(job) => {
            let mut lent = [0; 8_192];
            let length = write(&job, &mut lent).unwrap();
            assert_eq!(lent[..length], without_spare_grain(sheet));
            assert_eq!(read(&lent[..length]), Ok(job));
            0
        }
    }
}

#[test]
fn damaged_sheets_never_surprise() {
    let mut rng = Xorshift::new(0x0005_deec_e66d);
    let mut given = [0; 5];
    let mut lent = [0; 8_192];
    for index in 0..SHEETS {
        let mut sheet = if index % 4 == 0 {
            SAMPLE_SHEET.into()
        } else {
            let job = random_job(&mut rng, 8);
            let length = write(&job, &mut lent).unwrap();
            lent[..length].to_vec()
        };
        for _ in 0..1 + rng.below(2) {
            damage(&mut rng, &mut sheet);
        }
        given[check(&sheet)] += 1;
    }
    // Sheets of every kind must have come up, or the damage was no test.
    assert!(given.iter().all(|&count| count > 500), "{given:?}");
}

#[test]
fn bytes_of_no_meaning() {
    let mut rng = Xorshift::new(0x5851_f42d);
    for _ in 0..20_000 {
        let length = rng.below(60);
        let sheet: Vec<u8> = (0..length).map(|_| rng.choose(BYTES)).collect();
        assert_eq!(check(&sheet), 1);
    }
}
