//! Random edges of many shapes.

use crate::numbers::PLACE;
use crate::random::Random;
use clearance_reference::{Edge, COORDINATE_LIMIT};

/// The shape of a cubic. A line has the first and the last of its control points
/// as its ends.
#[derive(Clone, Copy)]
pub enum Shape {
    /// All four control points at one spot.
    Spot,
    /// Control points that differ by one at most, where rounding tells.
    Crumb,
    Straight,
    /// Straight along an axis.
    Level,
    /// Straight, with a parameter that runs back and forth.
    Folded,
    Cusp,
    Loop,
    Closed,
    /// There and back by the same way, so that its strip has no axis.
    Back,
    Free,
}

pub const SHAPES: [Shape; 10] = [
    Shape::Spot,
    Shape::Crumb,
    Shape::Straight,
    Shape::Level,
    Shape::Folded,
    Shape::Cusp,
    Shape::Loop,
    Shape::Closed,
    Shape::Back,
    Shape::Free,
];

/// Which edges of a job are lines.
#[derive(Clone, Copy)]
pub enum Mix {
    Cubics,
    Lines,
    Both,
}

impl Mix {
    /// As often the one as the other.
    pub fn random(random: &mut Random) -> Mix {
        random.choose(&[Mix::Cubics, Mix::Lines, Mix::Both])
    }

    /// Whether the next edge is a line.
    pub fn line(self, random: &mut Random) -> bool {
        match self {
            Mix::Cubics => false,
            Mix::Lines => true,
            Mix::Both => random.once_in(2),
        }
    }
}

/// The numbers that an edge has.
pub fn numbers_mut(edge: &mut Edge) -> &mut [i32] {
    match edge {
        Edge::Cubic(numbers) => numbers,
        Edge::Line(numbers) => numbers,
    }
}

/// Where an outline lies and how large it is.
#[derive(Clone, Copy)]
pub struct Ground {
    pub middle: [i32; 2],
    pub size: i32,
}

impl Ground {
    /// From a few units to the whole range, anywhere in it.
    pub fn random(random: &mut Random) -> Ground {
        let size = random.choose(&[1, 3, 9, 20, 60, 300, 2_000, 15_000, 120_000, 1_000_000]);
        let room = COORDINATE_LIMIT - size;
        let middle = match random.below(3) {
            0 => [0, 0],
            1 => [random.between(-50, 50), random.between(-50, 50)],
            _ => [random.between(-room, room), random.between(-room, room)],
        };
        Ground { middle, size }
    }

    /// A small part of this ground, so that each edge has cells of its own.
    pub fn part(&self, random: &mut Random) -> Ground {
        let [x, y] = self.spot(random);
        Ground {
            middle: [self.middle[0] + x, self.middle[1] + y],
            size: (self.size / 12).max(1),
        }
    }

    /// A spot about the middle.
    fn spot(&self, random: &mut Random) -> [i32; 2] {
        [0, 1].map(|_| random.between(-self.size, self.size))
    }

    /// A random edge of this shape here, a cubic or a line, its numbers kept in
    /// range. In x and in y by itself its control points are a step apart, or
    /// several: the coarser the step, the more quotients have no remainder.
    pub fn edge(&self, random: &mut Random, shape: Shape, line: bool) -> Edge {
        let points = self.control_points(random, shape);
        let steps = [0, 1].map(|_| self.step(random));
        let mut numbers = [0; PLACE];
        for (index, number) in numbers.iter_mut().enumerate() {
            let [point, c] = [index / 2, index % 2];
            let coarse = points[point][c] / steps[c] * steps[c];
            let free = coarse.saturating_add(self.middle[c]);
            *number = free.clamp(-COORDINATE_LIMIT, COORDINATE_LIMIT);
        }
        let [x0, y0, .., x3, y3] = numbers;
        if line {
            Edge::Line([x0, y0, x3, y3])
        } else {
            Edge::Cubic(numbers)
        }
    }

    /// 1, or as often a power of two up to the size.
    fn step(&self, random: &mut Random) -> i32 {
        if random.once_in(2) {
            return 1;
        }
        1 << random.between(0, self.size.ilog2() as i32)
    }

    fn control_points(&self, random: &mut Random, shape: Shape) -> [[i32; 2]; 4] {
        let [p, q, a, b] = [0; 4].map(|_| self.spot(random));
        let [w, h] = q;
        let along = |k: i32| [0, 1].map(|c| p[c] + k * (q[c] - p[c]) / 3);
        match shape {
            Shape::Spot => [p; 4],
            Shape::Crumb => [0; 4].map(|_| p.map(|number| number + random.between(-1, 1))),
            Shape::Straight => [p, along(1), along(2), q],
            Shape::Level => [p, a, b, q].map(|[x, _]| [x, h]),
            Shape::Folded => [p, along(5), along(-2), q],
            Shape::Cusp => [[0, 0], [w, h], [0, h], [w, 0]],
            Shape::Loop => [[0, 0], [2 * w, h], [-w, h], [w, 0]],
            Shape::Closed => [p, a, b, p],
            Shape::Back => [p, a, a, p],
            Shape::Free => [p, a, b, q],
        }
    }
}
