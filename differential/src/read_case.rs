//! Reading: the library beside the second implementation.

use crate::damage::{damage, noise};
use crate::fault::{number_of, Comparison, Fault};
use crate::lent::Lent;
use crate::numbers::numbers_of;
use crate::random::Random;
use crate::sheets::{legal_sheet, odd_sheet, sheet_of_length};
use crate::tally::Tally;
use clearance::ffi;
use clearance_reference::SHEET_LIMIT;

/// Reads a lent sheet with both and compares everything.
fn compare(sheet: &Lent<u8>, salt: u64, tally: &mut Tally) -> Result<(), Fault> {
    let given = sheet.clone();
    let mut job = Lent::<i32>::marked(clearance::JOB_NUMBERS, salt);
    let mut wanted = job.clone();
    // SAFETY: the sheet is as long as the call is told, the job a whole row, and they are apart.
    let number =
        unsafe { ffi::clearance_read(sheet.pointer(), sheet.length(), job.pointer_mut().cast()) };

    let result = clearance_reference::read(given.part());
    if let Ok(read) = &result {
        wanted.part_mut().copy_from_slice(&numbers_of(read));
    }
    tally.note(number_of(&result));
    Comparison::default()
        .value("refusal", number, number_of(&result))
        .memory("job", &job, &wanted)
        .memory("sheet", sheet, &given)
        .finish(|| describe(given.part()))
}

/// A sheet in few words: its length and its first bytes.
fn describe(sheet: &[u8]) -> String {
    const SHOWN: usize = 600;
    let text = sheet[..sheet.len().min(SHOWN)].escape_ascii();
    let rest = if sheet.len() > SHOWN { "..." } else { "" };
    format!("read of {} bytes \"{text}{rest}\"", sheet.len())
}

/// Sheets of legal jobs.
pub fn legal(random: &mut Random, tally: &mut Tally) -> Result<(), Fault> {
    let sheet = legal_sheet(random);
    compare(&Lent::holding(&sheet, random.bits()), random.bits(), tally)
}

/// Sheets of right form with wrong numbers and counts.
pub fn odd(random: &mut Random, tally: &mut Tally) -> Result<(), Fault> {
    let sheet = odd_sheet(random);
    compare(&Lent::holding(&sheet, random.bits()), random.bits(), tally)
}

/// Damaged sheets.
pub fn damaged(random: &mut Random, tally: &mut Tally) -> Result<(), Fault> {
    let mut sheet = match random.below(8) {
        0 => odd_sheet(random),
        _ => legal_sheet(random),
    };
    for _ in 0..random.choose(&[1, 1, 1, 2, 3]) {
        damage(random, &mut sheet);
    }
    compare(&Lent::holding(&sheet, random.bits()), random.bits(), tally)
}

/// Sheets cut off, with the rest right behind them in memory; noise; and
/// lengths about the limit.
pub fn lengths(random: &mut Random, tally: &mut Tally) -> Result<(), Fault> {
    let (sheet, length) = match random.below(4) {
        0 => {
            let sheet = noise(random);
            let length = sheet.len();
            (sheet, length)
        }
        1 => {
            let off = random.below(5);
            let length = random.choose(&[2_000, 5_645, SHEET_LIMIT, SHEET_LIMIT, 20_000]) + off - 2;
            (sheet_of_length(random, length), length)
        }
        2 => {
            let length = SHEET_LIMIT + 1;
            (sheet_of_length(random, length), SHEET_LIMIT)
        }
        _ => {
            let sheet = legal_sheet(random);
            let length = sheet.len() - random.choose(&[0, 1, 2, sheet.len()]);
            (sheet, length)
        }
    };
    let lent = Lent::cut(&sheet, length, random.bits());
    compare(&lent, random.bits(), tally)
}
