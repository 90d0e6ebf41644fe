//! Damage to sheets: bytes, lines and numbers.

use crate::random::Random;

/// Texts for a number: at, inside or past some range, or no numbers at all.
const NUMBERS: [&str; 26] = [
    "0",
    "1",
    "-1",
    "4",
    "8",
    "10",
    "20",
    "21",
    "64",
    "100000",
    "100001",
    "1000000",
    "-1000000",
    "1000001",
    "-1000001",
    "9999999",
    "-9999999",
    "12345678",
    "-12345678",
    "-0",
    "00",
    "01",
    "-01",
    "+1",
    "-",
    "",
];

/// Bytes that matter to the form, and some that look like them.
const BYTES: &[u8] = b"0123456789-() \n\r\tjobplatecellreachgrainedgeline+./:\0\x8a\xa0\xff";

/// Damages a sheet once.
pub fn damage(random: &mut Random, sheet: &mut Vec<u8>) {
    if sheet.is_empty() {
        sheet.push(random.choose(BYTES));
        return;
    }
    let place = random.below(sheet.len());
    match random.below(16) {
        0 => sheet[place] ^= 1 << random.below(8),
        1 => sheet[place] = random.choose(BYTES),
        2 => sheet[place] = random.bits() as u8,
        3 => drop(sheet.remove(place)),
        4 => sheet.insert(place, random.choose(BYTES)),
        5 => sheet.insert(place, sheet[place]),
        6 => sheet.truncate(place),
        7 => sheet.extend((0..=random.below(3)).map(|_| random.choose(BYTES))),
        8 => change_lines(random, sheet),
        9 | 10 => change_points(random, sheet),
        _ => change_number(random, sheet),
    }
}

/// Bytes of no meaning.
pub fn noise(random: &mut Random) -> Vec<u8> {
    let length = random.choose(&[0, 1, 5, 60, 300, 8_192, 8_193, 20_000]);
    (0..length).map(|_| random.choose(BYTES)).collect()
}

/// Swaps two lines, repeats one or leaves one out.
fn change_lines(random: &mut Random, sheet: &mut Vec<u8>) {
    let pieces = sheet.split_inclusive(|&byte| byte == b'\n');
    let mut lines: Vec<Vec<u8>> = pieces.map(<[u8]>::to_vec).collect();
    let place = random.below(lines.len());
    if random.once_in(3) {
        let other = random.below(lines.len());
        lines.swap(place, other);
    } else {
        let times = random.choose(&[0, 2, 3, 64, 65, 300]);
        lines[place] = lines[place].repeat(times);
    }
    *sheet = lines.concat();
}

/// Gives the line of an edge the other kind's word, a point more or a point less.
fn change_points(random: &mut Random, sheet: &mut Vec<u8>) {
    const LAST: &[u8] = b"))\n";
    let pieces = sheet.split_inclusive(|&byte| byte == b'\n');
    let mut lines: Vec<Vec<u8>> = pieces.map(<[u8]>::to_vec).collect();
    let is_edge = |line: &Vec<u8>| {
        (line.starts_with(b"(edge (") || line.starts_with(b"(line (")) && line.ends_with(LAST)
    };
    let edges: Vec<usize> = (0..lines.len()).filter(|&at| is_edge(&lines[at])).collect();
    if edges.is_empty() {
        return;
    }
    let line = &mut lines[random.choose(&edges)];
    // From the space before the last point to the end of it.
    let start = line.iter().rposition(|&byte| byte == b'(').unwrap_or(0) - 1;
    let point = start..line.len() - LAST.len() + 1;
    match random.below(3) {
        0 => {
            let word: [u8; 4] = if line[1] == b'e' { *b"line" } else { *b"edge" };
            line[1..5].copy_from_slice(&word);
        }
        1 => drop(line.drain(point)),
        _ => {
            let again = line[point.clone()].to_vec();
            line.splice(point.end..point.end, again);
        }
    }
    *sheet = lines.concat();
}

/// Puts another text in the place of a number.
fn change_number(random: &mut Random, sheet: &mut Vec<u8>) {
    let is_part = |byte: u8| byte == b'-' || byte.is_ascii_digit();
    let starts: Vec<usize> = (0..sheet.len())
        .filter(|&at| is_part(sheet[at]) && (at == 0 || !is_part(sheet[at - 1])))
        .collect();
    if starts.is_empty() {
        return;
    }
    let start = random.choose(&starts);
    let length = sheet[start..].iter().take_while(|&&b| is_part(b)).count();
    if random.once_in(4) {
        // A zero before its digits.
        let sign = usize::from(sheet[start] == b'-');
        sheet.insert(start + sign, b'0');
        return;
    }
    sheet.splice(start..start + length, random.choose(&NUMBERS).bytes());
}
