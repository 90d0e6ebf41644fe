//! One point of an outline that is not its own mirror image: x and y, and the two
//! bounds, cannot pass for each other. And points that several edges are equally
//! near.

use clearance::{map, point, read, NODE_NUMBERS};

#[test]
fn a_point_has_its_bounds() {
    let sheet =
        b"(job\n(plate 0 0 1)\n(cell 0)\n(reach 90)\n(edge (10 0) (10 0) (10 0) (11 0))\n)\n";
    let job = read(sheet).unwrap();
    let mut store = [0; NODE_NUMBERS];
    map(&job, &mut store, &mut [0; 4]).unwrap();
    let nearest = point(&job, 3, 4, &store).unwrap();
    assert_eq!((nearest.lo, nearest.hi, nearest.edge), (14912, 20996, 0));
}

/// The first edge and the third are the same point.
#[test]
fn the_first_of_equal_edges_is_named() {
    let sheet = b"(job\n(plate 0 0 1)\n(cell 0)\n(reach 90)\n(grain 1)\n\
        (line (0 0) (0 0))\n(line (8 0) (8 0))\n(line (0 0) (0 0))\n)\n";
    let job = read(sheet).unwrap();
    let mut store = [0; 3 * NODE_NUMBERS];
    map(&job, &mut store, &mut [0; 4]).unwrap();
    let asked = [4, 8, 0].map(|x| point(&job, x, 0, &store).unwrap());
    assert_eq!(asked.map(|nearest| nearest.hi), [4096, 0, 0]);
    assert_eq!(asked.map(|nearest| nearest.edge), [0, 1, 0]);
}
