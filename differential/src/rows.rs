//! A job lent as a row of numbers, whole, short or long.

use crate::lent::Lent;
use crate::numbers::{Numbers, MARKS, PLACE, PLACES};
use crate::random::Random;

/// The lent row and the job that it stands for.
pub struct Row {
    pub lent: Lent<i32>,
    pub job: Numbers,
}

impl Row {
    /// A row of the job; the salt settles its length. Most are whole. Some go on
    /// past the job, and some leave out zeros at its end, with other numbers
    /// right behind. A few are cut off anywhere, which mostly is another job, or
    /// where the marks begin, which takes its lines for cubics.
    pub fn of(job: &Numbers, salt: u64) -> Row {
        let mut random = Random::new(salt, 0);
        let whole = job.len();
        let lent = match random.below(10) {
            0 => Row::going_on(job, random.choose(&[1, 2, 8, 200]), salt),
            1 => {
                let used = whole - job.iter().rev().take_while(|&&v| v == 0).count();
                let length = used + random.below(whole - used + 1);
                Lent::holding(&job[..length], salt)
            }
            2 => {
                let first = random.choose(&[0, PLACES - 1, PLACES, PLACES + PLACE]);
                let last = random.choose(&[MARKS - 1, MARKS, MARKS + 1, whole - 1]);
                let any = random.below(whole);
                Lent::cut(job, random.choose(&[first, last, any]), salt)
            }
            _ => Lent::holding(job, salt),
        };
        let mut stands_for = [0; clearance::JOB_NUMBERS];
        let given = lent.part().iter();
        stands_for
            .iter_mut()
            .zip(given)
            .for_each(|(to, from)| *to = *from);
        Row {
            lent,
            job: stands_for,
        }
    }

    /// The job's numbers and some more.
    fn going_on(job: &Numbers, more: usize, salt: u64) -> Lent<i32> {
        let mut lent = Lent::marked(job.len() + more, salt);
        lent.part_mut()[..job.len()].copy_from_slice(job);
        lent
    }
}
