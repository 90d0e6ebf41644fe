//! Upright boxes around strips and trees, and how far a spot is from them:
//! RULES, "Boxes" and "Distance".

use crate::strips::Strip;

/// A box with sides along the coordinates, in fine units and with its sides
/// included. Index 0 is x and 1 is y; `least` is never past `greatest`.
#[derive(Clone, Copy, Debug, PartialEq, Eq)]
pub struct UprightBox {
    /// Its lower left corner.
    pub least: [i64; 2],
    /// Its upper right corner.
    pub greatest: [i64; 2],
}

impl UprightBox {
    /// The smallest one around a strip.
    pub fn of(strip: &Strip) -> UprightBox {
        let extent = strip.extent();
        UprightBox {
            least: [0, 1].map(|c| strip.centre[c] - extent[c]),
            greatest: [0, 1].map(|c| strip.centre[c] + extent[c]),
        }
    }

    /// The smallest one around two.
    pub fn around([first, second]: [UprightBox; 2]) -> UprightBox {
        UprightBox {
            least: [0, 1].map(|c| first.least[c].min(second.least[c])),
            greatest: [0, 1].map(|c| first.greatest[c].max(second.greatest[c])),
        }
    }

    /// Squared distance from a spot to the nearest point of the box, 0 inside.
    pub fn nearest_square(&self, spot: [i64; 2]) -> i64 {
        let [x, y] = [0, 1].map(|c| {
            let before = self.least[c] - spot[c];
            let past = spot[c] - self.greatest[c];
            before.max(past).max(0)
        });
        x * x + y * y
    }

    /// Squared distance from a spot to the farthest point of the box. In each
    /// coordinate that is an end, so both together are a corner.
    pub fn farthest_square(&self, spot: [i64; 2]) -> i64 {
        let [x, y] = [0, 1].map(|c| {
            let to_least = (spot[c] - self.least[c]).abs();
            let to_greatest = (spot[c] - self.greatest[c]).abs();
            to_least.max(to_greatest)
        });
        x * x + y * y
    }
}

#[cfg(test)]
mod tests {
    use super::UprightBox;
    use crate::strips::Strip;

    const WIDE: UprightBox = UprightBox {
        least: [-4, 1],
        greatest: [6, 3],
    };

    #[test]
    fn the_signs_of_an_axis_do_not_matter() {
        for axis in [[3, -1], [-3, 1], [3, 1], [-3, -1]] {
            let strip = Strip {
                centre: [1, 2],
                axis,
                half_box: [2, 0],
            };
            assert_eq!(UprightBox::of(&strip), WIDE);
        }
    }

    #[test]
    fn the_box_around_two() {
        let tall = UprightBox {
            least: [0, -9],
            greatest: [7, 2],
        };
        let wanted = UprightBox {
            least: [-4, -9],
            greatest: [7, 3],
        };
        assert_eq!(UprightBox::around([WIDE, tall]), wanted);
        assert_eq!(UprightBox::around([tall, WIDE]), wanted);
        assert_eq!(UprightBox::around([WIDE, WIDE]), WIDE);
    }

    #[test]
    fn distances_inside_beside_and_past_a_corner() {
        for (spot, near, far) in [
            ([0, 2], 0, 36 + 1),
            ([1, 2], 0, 25 + 1),
            ([-4, 3], 0, 100 + 4),
            ([6, 0], 1, 100 + 9),
            ([9, 2], 9, 169 + 1),
            ([-7, 7], 9 + 16, 169 + 36),
            ([8, -1], 4 + 4, 144 + 16),
        ] {
            assert_eq!(WIDE.nearest_square(spot), near, "{spot:?}");
            assert_eq!(WIDE.farthest_square(spot), far, "{spot:?}");
        }
    }
}
