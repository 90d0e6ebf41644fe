//! Reading and writing the job sheet: RULES, "Sheets".

use crate::edge::Edge;
use crate::job::{judge, Job};
use crate::refusal::Refusal;

/// Most bytes a sheet may have.
pub const SHEET_LIMIT: usize = 8_192;
/// The grain of a sheet that names none.
pub const DEFAULT_GRAIN: i32 = 10;
/// Most digits of a number.
const DIGIT_LIMIT: usize = 7;

/// The job of a sheet, or the lowest of 1 to 4. The form of the whole sheet is
/// judged before any count or range.
pub fn parse(sheet: &[u8]) -> Result<Job, Refusal> {
    if sheet.len() > SHEET_LIMIT {
        return Err(Refusal::Form);
    }
    let job = Cursor { rest: sheet }.job().ok_or(Refusal::Form)?;
    judge(&job)?;
    Ok(job)
}

/// What is left to read of a sheet. Every method gives `None` when the form is
/// broken.
struct Cursor<'a> {
    rest: &'a [u8],
}

impl Cursor<'_> {
    fn job(mut self) -> Option<Job> {
        let mut job = Job::ZERO;
        self.text("(job\n(plate ")?;
        job.x = self.number()?;
        self.text(" ")?;
        job.y = self.number()?;
        self.text(" ")?;
        job.n = self.number()?;
        self.text(")\n(cell ")?;
        job.m = self.number()?;
        self.text(")\n(reach ")?;
        job.reach = self.number()?;
        self.text(")\n")?;
        job.grain = DEFAULT_GRAIN;
        if self.text("(grain ").is_some() {
            job.grain = self.number()?;
            self.text(")\n")?;
        }
        loop {
            if self.text("(edge ").is_some() {
                job.add(&Edge::Cubic(self.points()?));
            } else if self.text("(line ").is_some() {
                job.add(&Edge::Line(self.points()?));
            } else {
                break;
            }
        }
        self.text(")\n")?;
        self.rest.is_empty().then_some(job)
    }

    /// The points of an edge, two numbers each, after its name.
    fn points<const NUMBERS: usize>(&mut self) -> Option<[i32; NUMBERS]> {
        let mut points = [0; NUMBERS];
        for (index, point) in points.chunks_exact_mut(2).enumerate() {
            self.text(if index == 0 { "(" } else { " (" })?;
            point[0] = self.number()?;
            self.text(" ")?;
            point[1] = self.number()?;
            self.text(")")?;
        }
        self.text(")\n")?;
        Some(points)
    }

    /// Takes exactly this text, or nothing.
    fn text(&mut self, text: &str) -> Option<()> {
        self.rest = self.rest.strip_prefix(text.as_bytes())?;
        Some(())
    }

    /// Takes one number. Seven digits always fit.
    fn number(&mut self) -> Option<i32> {
        let negative = self.text("-").is_some();
        let length = self.rest.iter().take_while(|b| b.is_ascii_digit()).count();
        let (digits, rest) = self.rest.split_at(length);
        if length == 0 || length > DIGIT_LIMIT {
            return None;
        }
        if digits[0] == b'0' && (length > 1 || negative) {
            return None;
        }
        self.rest = rest;
        let size = digits
            .iter()
            .fold(0, |size, digit| 10 * size + i32::from(digit - b'0'));
        Some(if negative { -size } else { size })
    }
}

/// The sheet of a job, or the lowest of 2 to 4.
pub fn text(job: &Job) -> Result<String, Refusal> {
    judge(job)?;
    let mut text = format!("(job\n(plate {} {} {})\n", job.x, job.y, job.n);
    text += &format!("(cell {})\n(reach {})\n", job.m, job.reach);
    if job.grain != DEFAULT_GRAIN {
        text += &format!("(grain {})\n", job.grain);
    }
    for edge in job.edges() {
        text += &edge_line(&edge);
    }
    text += ")\n";
    Ok(text)
}

fn edge_line(edge: &Edge) -> String {
    match edge {
        Edge::Cubic([x0, y0, x1, y1, x2, y2, x3, y3]) => {
            format!("(edge ({x0} {y0}) ({x1} {y1}) ({x2} {y2}) ({x3} {y3}))\n")
        }
        Edge::Line([x0, y0, x1, y1]) => format!("(line ({x0} {y0}) ({x1} {y1}))\n"),
    }
}
