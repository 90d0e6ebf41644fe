//! The kinds of cases.

use crate::fault::Fault;
use crate::random::Random;
use crate::tally::Tally;
use crate::{binding_case, largest_case, map_case, point_case, points_case, read_case, write_case};

/// Which ties a kind is there to draw.
#[derive(Clone, Copy)]
pub enum Ties {
    None,
    /// Of each test of a strip.
    OfTests,
    /// Of edges that attain hi, at a third of its points at least.
    OfEdges,
}

/// One kind of case.
pub struct Kind {
    pub name: &'static str,
    /// How often it is run beside the others.
    share: usize,
    /// Numbers that its calls must give in a whole pass, or it was no test.
    pub must_give: &'static [u8],
    /// Ties that must be drawn in a whole pass.
    pub must_tie: Ties,
    /// Runs one case.
    pub run: fn(&mut Random, &mut Tally) -> Result<(), Fault>,
}

const fn kind(
    name: &'static str,
    share: usize,
    must_give: &'static [u8],
    run: fn(&mut Random, &mut Tally) -> Result<(), Fault>,
) -> Kind {
    Kind {
        name,
        share,
        must_give,
        must_tie: Ties::None,
        run,
    }
}

const fn with_ties(must_tie: Ties, kind: Kind) -> Kind {
    Kind { must_tie, ..kind }
}

/// All of them.
pub const KINDS: [Kind; 22] = [
    kind("sheets of legal jobs", 8, &[0], read_case::legal),
    kind("sheets of odd numbers", 16, &[0, 2, 3, 4], read_case::odd),
    kind("sheets damaged", 32, &[0, 1, 2, 3, 4], read_case::damaged),
    kind("sheets by length", 8, &[0, 1, 2], read_case::lengths),
    kind("written legal jobs", 8, &[0, 7], write_case::legal),
    kind(
        "written odd jobs",
        16,
        &[0, 2, 3, 4, 7],
        write_case::illegal,
    ),
    kind("maps drawn", 24, &[0, 2, 5], map_case::drawn),
    with_ties(
        Ties::OfTests,
        kind("maps at ties", 10, &[0], map_case::tied),
    ),
    kind("maps of many edges", 3, &[0], map_case::crowded),
    kind("maps by length", 8, &[0, 5, 6, 7], map_case::lengths),
    kind(
        "maps of odd jobs",
        12,
        &[2, 3, 4, 5, 6, 7],
        map_case::illegal,
    ),
    kind("points answered", 8, &[0, 2, 5], point_case::answered),
    with_ties(
        Ties::OfEdges,
        kind("points at ties", 8, &[0], point_case::tied),
    ),
    kind("points by store", 10, &[0, 5, 6, 8], point_case::stores),
    kind("points by number", 3, &[0, 6, 8], point_case::numbers),
    kind(
        "points of odd jobs",
        10,
        &[2, 3, 4, 5, 6, 8],
        point_case::illegal,
    ),
    kind("spots answered", 6, &[0, 2, 5], points_case::answered),
    kind("spots by length", 3, &[0, 5, 7, 9], points_case::lengths),
    kind("spots by store", 8, &[0, 5, 6, 7, 8], points_case::stores),
    kind(
        "spots of odd calls",
        16,
        &[0, 2, 3, 4, 5, 6, 7, 8, 9],
        points_case::illegal,
    ),
    kind("largest jobs", 1, &[0, 6, 7], largest_case::largest),
    kind(
        "safe calls",
        6,
        &[0, 2, 3, 4, 5, 6, 7, 8, 9],
        binding_case::all,
    ),
];

/// The index of the kind of a case.
pub fn choose(random: &mut Random) -> usize {
    let mut ticket = random.below(KINDS.iter().map(|kind| kind.share).sum());
    for (index, kind) in KINDS.iter().enumerate() {
        if ticket < kind.share {
            return index;
        }
        ticket -= kind.share;
    }
    0
}
