#!/usr/bin/env python3
"""Writes the stored jobs of differential/stored and of the test programs drawing_cases and point_cases, a file a case, and the lists of their
names."""

import pathlib
import random

TOP = pathlib.Path(__file__).resolve().parents[2]
POINT = [0] * 8
# Of a point these ask nothing that others do not: they differ in plate and reach alone, are long like others, or only add to chance.
NOT_FOR_POINTS = {
    "one_cell", "plate_as_cell", "cells_256_a_side", "reach_below_band", "reach_huge", "reach_exact",
    "straight_long", "pad_none_long", *(f"random_{k:02}" for k in range(8, 16)),
}
# Rows of points ask what single ones do and how they go together, so some of each kind are enough.
FOR_MANY_POINTS = [
    "point", "line", "parabola", "loop", "last_edge_nearest", "edges_64", "corner_at_the_end_of_range", "largest_plate",
    "extreme_controls", "straight_489", "straight_488", "refused_2", "refused_3", "refused_4", "refused_5", "refused_1",
    "random_00", "random_02", "straight_rounded", "straight_then_cubic", "straight_and_cubics", "pad_none", "pad_of_three",
    "mirrored_edges", "equal_edges", "outline_around", "three_points", "three_points_at_the_second", "line_and_point",
    "shared_ends", "example_bracket",
]

cases = {}


def case(name, x, y, n, m, reach, grain, edges):
    """Edges of eight numbers are cubics, those of four lines."""
    lines = ["(job", f"(plate {x} {y} {n})", f"(cell {m})", f"(reach {reach})", f"(grain {grain})"]
    for e in edges:
        word = {8: "edge", 4: "line"}[len(e)]
        lines.append(f"({word} " + " ".join(f"({a} {b})" for a, b in zip(e[::2], e[1::2])) + ")")
    cases[name] = "".join(line + "\n" for line in lines + [")"])


def line(x0, y0, x1, y1):
    """A cubic that runs straight from end to end."""
    return [x0, y0, (2 * x0 + x1) // 3, (2 * y0 + y1) // 3, (x0 + 2 * x1) // 3, (y0 + 2 * y1) // 3, x1, y1]


def shapes():
    case("point", -8, -8, 4, 1, 4, 1, [POINT])
    case("point_off_centre", -20, -9, 5, 1, 6, 2, [[3, -2] * 4])
    case("line", -40, -30, 7, 2, 9, 3, [line(-20, -10, 60, 50)])
    case("line_upright", -40, -30, 7, 2, 9, 3, [line(0, -20, 0, 80)])
    case("parabola", -20, -20, 6, 1, 5, 7, [[0, 0, 0, 4, 4, 8, 12, 12]])
    case("cusp", -30, -30, 7, 2, 6, 2, [[0, 0, 60, 50, 0, 50, 60, 0]])
    case("loop", -30, -30, 7, 2, 6, 2, [[0, 0, 90, 54, -30, 54, 60, 0]])
    case("there_and_back", -30, -30, 7, 2, 6, 2, [[0, 0, 80, 40, 80, 40, 0, 0]])
    case("flat_s", -30, -30, 7, 2, 6, 2, [[0, 20, 90, 20, -30, 20, 60, 20]])
    case("two_edges", -30, -30, 7, 2, 6, 2, [line(-20, 0, 20, 0), line(0, 40, 40, 40)])
    case("last_edge_nearest", -30, -30, 7, 2, 6, 2, [line(60, 60, 90, 90), line(50, -20, 90, -20), [0] * 8])
    case("edges_64", -40, -40, 8, 3, 7, 2, [line(k, -k, k + 9, 2 * k - 40) for k in range(64)])


def plates():
    case("one_cell", -1, -1, 0, 0, 3, 1, [POINT])
    case("plate_as_cell", -512, -512, 10, 10, 100, 10, [line(-100, 0, 100, 0)])
    case("cells_256_a_side", -128, -128, 8, 0, 20, 3, [line(-90, -40, 70, 60), [50, -80, 90, 10, -20, -100, 60, 70]])
    case("reach_below_band", -64, -64, 7, 2, 1, 8, [line(-40, -20, 40, 30)])
    case("reach_huge", -64, -64, 7, 2, 1000000, 8, [line(-40, -20, 40, 30)])
    case("outline_far_off", -64, -64, 7, 2, 10, 100, [line(900000, 900000, 902000, 901000)])
    case("reach_exact", 0, 0, 4, 1, 8, 1, [POINT])
    case("corner_at_the_end_of_range", 1000000, 1000000, 4, 1, 8, 1, [[1000000] * 8])
    case("largest_plate", -524288, -524288, 20, 15, 90000, 20000, [line(-400000, -300000, 400000, 350000)])


def extremes():
    big = 1000000
    case("extreme_controls", -big, -big, 20, 16, 200000, 100000, [[-big, big, big, -big, -big, -big, big, big]])
    case("extreme_swing", -big, -big, 20, 16, 200000, 100000, [[big, -big, -big, big, big, -big, -big, big]])
    straight = [0, 0, 333333, 0, 666666, 0, 999999, 0]
    case("straight_489", 0, -8, 4, 2, 4, 489, [straight])
    case("straight_488", 0, -8, 4, 2, 4, 488, [straight])


def refused():
    case("refused_2", -8, -8, 4, 1, 4, 1, [])
    case("refused_3", -8, -8, 4, 1, 0, 1, [POINT])
    case("refused_4", -8, -8, 4, 5, 4, 1, [POINT])
    case("refused_5", -8, -8, 4, 1, 4, 1, [line(0, 0, 999999, 0)])
    cases["refused_1"] = cases["point"][:-1]


def random_jobs():
    chance = random.Random(20)
    for k in range(16):
        span = chance.choice([20, 200, 3000, 40000])
        n = chance.randint(4, 6) + span.bit_length() - 4
        edges = [[chance.randint(-span, span) for _ in range(8)] for _ in range(chance.randint(1, 6))]
        case(f"random_{k:02}", chance.randint(-span, 0), chance.randint(-span, 0), n, n - chance.randint(2, 5),
             chance.randint(1, span), max(1, span // chance.choice([3, 10, 25])), edges)


def lines():
    case("straight_point", -8, -8, 4, 1, 4, 1, [[0, 0, 0, 0]])
    case("straight_slanting", -8, -8, 4, 1, 4, 1, [[-6, -6, 6, 6]])
    case("straight_upright", -40, -30, 7, 2, 9, 3, [[0, -20, 0, 80]])
    case("straight_rounded", -30, -30, 6, 1, 9, 1, [[0, 0, 17, -17]])
    case("straight_then_cubic", -8, -8, 4, 1, 2, 1, [[-8, 0, 0, 0], [0, 0, 4, 0, 4, 4, 4, 8]])
    case("straight_and_cubics", -50, -30, 7, 2, 11, 2,
         [[-40, 60, -20, 60, 0, 40, 0, 20], [0, 20, 53, -7], [53, -7, 53, 90], [60, 5, 90, 54, -30, 54, 30, 85],
          [-40, 0, -9, 1]])
    case("straight_long", -8, -8, 4, 1, 4, 1, [[-1000000, 0, 1000000, 0]])


def cubic(x, y):
    """A cubic by its numbers in x and in y."""
    return [number for pair in zip(x, y) for number in pair]


def pads():
    """Cubics by how many of a piece's four quotients have a remainder."""
    case("pad_of_halves_alone", -16, -16, 5, 1, 5, 1, [cubic([0, 0, 1, 3], [0, 0, -1, -3])])
    case("pad_in_y_alone", -16, -16, 5, 1, 5, 1, [cubic([0, 0, 4, 12], [0, 0, 0, 1])])
    case("pad_in_x_alone", -16, -16, 5, 1, 5, 8, [cubic([0, 0, 0, 1], [0, 0, 4, 12])])
    case("pad_none", -16, -16, 5, 1, 5, 7, [cubic([0, 0, 4, 12], [0, 4, 8, 12]), cubic([0, 0, -4, -12], [0, -4, -8, -12])])
    case("pad_below_zero", -16, -16, 5, 1, 5, 8, [cubic([0, 0, -4, -12], [0, 0, 0, -1]), cubic([0, -1, -2, -3], [0, 0, 0, -32])])
    case("pad_of_two", -8, -8, 5, 1, 6, 1, [cubic([0, 0, 0, 1], [0, 0, 0, -1]), cubic([-9, 2, 3, -6], [-1, 0, -5, 0])])
    case("pad_of_three", -16, -16, 5, 1, 4, 1,
         [cubic([-18, 2, 6, -6], [-3, 4, 2, -1]), cubic([4, -2, -3, 1], [-18, 2, 6, -6]),
          cubic([-18, 2, 6, -6], [4, -9, 9, -6]), cubic([2, -3, -1, 0], [6, -2, -2, 6])])
    case("pad_of_four", -16, -16, 5, 1, 5, 1, [cubic([-3, 1, 0, 0], [3, -1, 0, 0]), cubic([1, 0, 2, -1], [-1, 0, -2, 1])])
    case("pad_coarse", -256, -256, 10, 4, 96, 8, [cubic([64, 128, -192, 256], [0, 320, 320, -64])])
    just = cubic([0, 2048, 4096, 6144], [0] * 4)
    case("pad_none_just_short", -8, -8, 4, 1, 4, 3, [just])
    case("pad_none_long", -8, -8, 4, 1, 4, 2, [just])


def around():
    """Points with the outline on several sides of them."""
    right = [48, -64, 16, -32, 16, 32, 48, 64]
    left = [-48, -64, -16, -32, -16, 32, -48, 64]
    # The origin is midway: both edges give the same hi there, and the first is named.
    case("mirrored_edges", -64, -64, 7, 2, 12, 2, [left, right])
    case("mirrored_edges_exchanged", -64, -64, 7, 2, 12, 2, [right, left])
    # Of these it is the second.
    case("equal_edges", -64, -64, 7, 2, 12, 2, [[-60, 60] * 4, right, right])
    # A closed outline with rounded corners; the upper side is the nearest to the origin.
    case("outline_around", -70, -80, 8, 3, 20, 2,
         [[-35, -69, 45, -69], [45, -69, 56, -69, 65, -60, 65, -49], [65, -49, 65, 31], [65, 31, 65, 42, 56, 51, 45, 51],
          [45, 51, -35, 51], [-35, 51, -46, 51, -55, 42, -55, 31], [-55, 31, -55, -49], [-55, -49, -55, -60, -46, -69, -35, -69]])


def first_edges():
    """Points whose hi several edges attain, or another edge than lo: the first that attains hi is named."""
    # At the plate's corner, (4, 0), all three are equally near; at the origin the first and the last.
    three = [[0, 0] * 4, [8, 0] * 4, [0, 0] * 4]
    case("three_points", 4, 0, 4, 1, 4, 1, three)
    # The plate's corner is at the second.
    case("three_points_at_the_second", 8, 0, 4, 1, 4, 1, three)
    # From the origin lo is the first edge's, and hi the second's.
    case("line_and_point", -8, -8, 4, 1, 4, 20, [cubic([-9, -3, 3, 9], [1] * 4), [2, 2] * 4])
    bend, far, farther = cubic([0, 0, 4, 12], [0, 4, 8, 12]), [-60, 60] * 4, [-60, -70] * 4
    case("equal_edges_in_front", -16, -16, 5, 1, 5, 7, [bend, bend, far])
    case("equal_edges_in_the_middle", -16, -16, 5, 1, 5, 7, [far, bend, bend, farther])
    # Asked at its four corners, at each of which two sides end.
    case("shared_ends", 0, 8, 4, 1, 2, 1, [[8, 0, 8, 8], [8, 8, 0, 8], [0, 8, 0, 0], [0, 0, 8, 0]])
    # From the origin the second edge attains hi with its first leaf: alone, and together with the first edge's last.
    case("first_leaf_alone", -8, -8, 4, 1, 2, 1, [[8, -1, 0, -1], [0, 0, 0, 8]])
    case("first_leaf_and_last", -8, -8, 4, 1, 2, 1, [[8, 0, 0, 0], [0, 0, 0, 8]])


def sizes():
    """Trees that just fit what the program lends, 1,489 nodes, and that just do not; and the deepest that do."""
    fitting = [line(0, 0, length, 0) for length in (450000, 123000, 60000, 30000, 6000, 1500, 1500)]
    case("nodes_1489", -8192, -8192, 14, 10, 4000, 489, fitting)
    case("nodes_1490", -8192, -8192, 14, 10, 4000, 489, fitting + [POINT])
    # The longest straight edges with the least grains at which they are drawn: 1,023 nodes each.
    case("straight_977", 0, -8, 4, 2, 4, 977, [line(0, 0, 999999, 0)])
    case("straight_longest_1954", 0, -8, 4, 2, 4, 1954, [[-1000000, 0, 1000000, 0]])
    # Only where it is fast are its pieces halved ten times: 899 nodes, and with a finer grain it is long.
    fast_end = cubic([0, 0, 0, 9000], [0] * 4)
    case("deepest_at_one_end", 8000, -512, 10, 5, 100, 14, [fast_end])
    case("deepest_at_one_end_long", 8000, -512, 10, 5, 100, 13, [fast_end])
    # Without a pad, and just short after nine halvings.
    case("pad_none_just_short_of_nine", -8, -8, 4, 1, 4, 3, [cubic([0, 1024, 2048, 3072], [0] * 4)])


def touching():
    """Cells exactly at the reach, which are clear, and cells that miss it, each named by its lower left corner."""
    # Beside the upright box of a slanting line; those at (8, 2) and (-4, 4) touch across the slant.
    case("touch_edge", -8, -8, 5, 1, 4, 8, [[0, 0, 6, 8]])
    # At (9, 12), which is (3, 4) off a corner of that box, and at (-5, -6), off the other end of the line.
    case("touch_corner", -7, -8, 5, 1, 5, 8, [[0, 0, 6, 8]])
    # Six cells (4, -3) or (-4, 3) off the line itself, by the second test alone, as at (10, 3) in the upright box.
    case("touch_slant", -8, -7, 5, 1, 5, 8, [[0, 0, 12, 16]])
    # The same at (1, -4) for a cubic with a box, axis (-18, -24).
    case("touch_slant_and_box", -8, -8, 4, 0, 2, 3, [cubic([0, -2, 1, -3], [0, 1, 0, -3])])
    # The same at (25, -40), (33, -32) and (41, -24) for an axis of (40, 40), for whose length 57 stands.
    case("touch_slant_root_not_whole", -63, -64, 7, 3, 40, 3, [[0, 0, 5, 5]])
    # One point: cells 5, or (3, 4), off it are clear. Cells whose far corner is so far off are not inside.
    case("touch_point", -8, -8, 4, 0, 5, 1, [POINT])
    # Axis (0, 0) and box (48, 48): the second test, 0 at least 0, would make every cell clear.
    case("touch_box_alone", -7, -6, 5, 1, 5, 3, [cubic([0, 8, 8, 0], [0, 8, 8, 0])])
    # The least and the greatest reach.
    case("touch_reach_1", -4, -4, 3, 0, 1, 1, [POINT])
    case("touch_reach_longest", 0, -8, 4, 1, 1000000, 1, [[-1000000, 0, -1000000, 0]])
    # The second test in large numbers, at the plate's upper left corner.
    case("touch_slant_large", 800000, -600016, 4, 1, 1000000, 100000, [[-600000, -800000, 600000, 800000]])
    # The plate is a single cell and touches with its corner.
    case("touch_plate", 3, 4, 4, 4, 5, 1, [POINT])
    # At (3, 4) a cell touches the reach of both points; at (5, 0) it touches one and is inside of the other.
    case("touch_and_near", -5, -8, 4, 1, 5, 1, [[0, 0, 0, 0], [8, 0, 8, 0]])
    # The whole edge ends at 64 fine units and settles the cell at (8, 0), though its right half sticks out to 65.
    case("touch_whole_not_half", -8, -8, 5, 1, 4, 3, [cubic([0, -1, -1, 4], [0] * 4)])
    # The halves end at -33 and 63 fine units. On the left the cells at (-8, 0), (-7, 3) and (-6, 4) miss the first test
    # by one and are D; on the right, at (9, 0) and (7, 4), the halves have one to spare.
    case("touch_missed", -14, -16, 5, 0, 5, 3, [cubic([0, 5, 3, -2], [0] * 4)])
    # Axis (24, 21): the cell at (4, -3) touches by the second test, and the D at (-4, 3) would a fine unit higher.
    case("touch_missed_slant", -8, -8, 4, 0, 3, 3, [cubic([0, -1, 0, 3], [0, 0, -1, 3])])
    # Axis (12, -16), 20 long: the D at (4, 3) would touch by the second test a fine unit to the right.
    case("touch_missed_slant_root_whole", -8, -8, 4, 0, 1, 3, [cubic([0, 6, -1, 3], [0, 6, 0, -1])])
    # At (-2, 0) all leaves but one are away, and that one's cross product is 1 too small.
    case("touch_missed_slant_by_least", -8, -8, 4, 0, 1, 1, [cubic([-2, 3, 2, 1], [-3, 3, 0, -2])])


def by_rows():
    """Jobs drawn by rows, as 24 reaches are no longer than the plate's side, and one that just is not. They are never as long as
    the side, which is a power of two."""
    bend, slant = [20, 440, 700, 430, -300, 60, 480, 100], [40, 60, 300, 200]
    # 480 and 504 are below 512, and 528 is above it.
    case("rows_reach_one_below", 0, 0, 9, 4, 20, 2, [bend, slant])
    case("rows_reach_greatest", 0, 0, 9, 4, 21, 2, [bend, slant])
    case("rows_reach_one_above", 0, 0, 9, 4, 22, 2, [bend, slant])
    case("rows_1_column", -7, 3, 5, 5, 1, 1, [[-5, 5, 20, 30]])
    # The cell at the lower right is clear.
    case("rows_2_columns", -32, -32, 6, 5, 2, 1, [[-20, -20, -10, 25], [6, 10, 20, 3, 20, 20, 25, 25]])
    case("rows_128_columns", -512, -512, 10, 3, 42, 6, [[-400, 300, 100, -900, 200, 900, 440, -200], [-300, -420, 480, 400]])
    # The line goes from the first column to the last, and to the last row.
    case("rows_256_columns", -128, -128, 8, 0, 10, 3, [[-122, -40, 122, 122], [50, -80, 90, 10, -20, -100, 60, 70]])
    # The reach is 20 and half a cell 32: no cell can be inside.
    case("rows_reach_below_half_a_cell", -256, -256, 9, 6, 20, 3, [[-200, -180, -60, 40], [60, -40, 200, 260, 20, -260, 220, 30]])
    # Along x and along y, each both ways, on the sides of cells and off them.
    case("rows_lines_level", 0, 0, 8, 2, 10, 2, [[16, 32, 112, 32], [112, 99, 16, 99], [144, 40, 144, 216], [211, 216, 211, 40]])
    # In all four directions, steep and flat.
    case("rows_lines_slanting", -128, -128, 8, 2, 10, 2,
         [[-110, -100, -20, -60], [-30, 20, -70, 110], [20, -20, 60, -110], [110, 90, 20, 50]])
    # A line of one point: cells 5, or (3, 4), off it are clear.
    case("rows_line_of_a_point", -63, -64, 7, 1, 5, 1, [[0, 0, 0, 0]])
    # So are cells 5 off the upright line and (4, -3) or (-4, 3) off the slanting one.
    case("rows_touch", -40, -41, 7, 1, 5, 8, [[0, 0, 12, 16], [-21, -80, -21, 0]])
    case("rows_tight_bend", -128, -128, 8, 2, 10, 1, [[-100, -8, 160, 6, 160, -2, -90, 12]])
    # Where they cross, a cell is inside of one and doubtful by others.
    case("rows_edges_crossing", -128, -128, 8, 2, 10, 1,
         [[-90, -90, 90, 90], [-100, 40, 100, -30], [0, 100, 0, -100], [-80, 60, 200, 20, -200, -20, 80, -60]])
    # Over the left, the right, the lower and the upper side.
    case("rows_over_each_side", -64, -64, 7, 2, 5, 1,
         [[-40, -40, -110, -10, -110, 10, -40, 40], [40, 40, 110, 10, 110, -10, 40, -40],
          [-40, -40, -10, -100, 10, -80, 40, -40], [-90, 30, 20, 95]])
    # Left of the plate, below it, above it and off a corner, all within the reach; right of it just at the reach; and far off.
    case("rows_edges_off", -64, -64, 7, 1, 5, 1,
         [[-65, -20, -65, 20], [-30, -65, 10, -69, 20, -65, 40, -67], [-40, 65, 40, 68], [67, 67, 67, 67],
          [69, -30, 69, 30], [-1000000, 1000000, -1000000, 1000000]])
    case("rows_largest_plate", -1000000, -1000000, 20, 14, 43690, 10000,
         [[-1000000, -200000, 1000000, -900000, -1000000, 1000000, -20000, -400000], [-1000000, -1000000, 1000000, 900000]])
    # Pieces that were halved ten times: 899 nodes.
    case("rows_deepest_at_one_end", 8000, -512, 10, 4, 42, 14, [cubic([0, 0, 0, 9000], [0] * 4)])


def store(folder, names):
    data = TOP / folder / "data"
    data.mkdir(parents=True, exist_ok=True)
    for old in data.iterdir():
        old.unlink()
    for name in names:
        (data / name).write_text(cases[name])
    (data.parent / "args").write_text("".join(name + "\n" for name in names))


def main():
    for group in (shapes, plates, extremes, refused, random_jobs, lines, pads, around, first_edges):
        group()
    for_points = [name for name in cases if name not in NOT_FOR_POINTS]
    straight = [0, 0, 333333, 0, 666666, 0, 999999, 0]
    case("refused_6", 0, -8, 4, 2, 4, 489, [straight, straight])
    case("straight_longest_977", 0, -8, 4, 2, 4, 977, [[-1000000, 0, 1000000, 0]])
    case("straight_longest_976", 0, -8, 4, 2, 4, 976, [[-1000000, 0, 1000000, 0]])
    sizes()
    # These two not for points: their bounds know no reach.
    touching()
    by_rows()
    for path in sorted((TOP / "examples").glob("*.sheet")):
        cases["example_" + path.stem] = path.read_text()
    # With a finer grain its trees do not fit the lent store.
    cases["example_screen_fine"] = cases["example_screen"].replace("(grain 100)", "(grain 60)")
    store("differential/stored/maps", list(cases))
    store("crates/drawing_cases", list(cases))
    store("crates/point_cases", for_points + ["example_bracket", "example_washer"])
    store("differential/stored/points", FOR_MANY_POINTS)


main()
