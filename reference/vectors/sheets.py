#!/usr/bin/env python3
"""Writes the stored sheets of differential/stored, a file a case, and the list of their names."""

import pathlib

FOLDER = pathlib.Path(__file__).resolve().parents[2] / "differential" / "stored" / "sheets"

JOB = "(job\n"
PLATE = "(plate -8 -8 4)\n"
CELL = "(cell 1)\n"
REACH = "(reach 4)\n"
GRAIN = "(grain 1)\n"
EDGE = "(edge (0 0) (0 0) (0 0) (0 0))\n"
LINE = "(line (0 0) (0 0))\n"
END = ")\n"
SAMPLE = JOB + PLATE + CELL + REACH + GRAIN + EDGE + END

cases = {}


def case(name, text):
    assert name not in cases, name
    cases[name] = text.encode("latin-1")


def sheet(plate=PLATE, cell=CELL, reach=REACH, grain=GRAIN, edges=EDGE):
    return JOB + plate + cell + reach + grain + edges + END


def points(numbers):
    return " ".join(f"({x} {y})" for x, y in zip(numbers[::2], numbers[1::2]))


def edge(*numbers):
    return f"(edge {points(numbers)})\n"


def line(*numbers):
    return f"(line {points(numbers)})\n"


def accepted():
    case("sample", SAMPLE)
    case("grain_left_out", sheet(grain=""))
    case("grain_stated_default", sheet(grain="(grain 10)\n"))
    case("grain_just_above_default", sheet(grain="(grain 11)\n"))
    case("grain_just_below_default", sheet(grain="(grain 9)\n"))
    case("grain_hundred", sheet(grain="(grain 100)\n"))
    case("edges_1_mixed_signs", sheet(edges=edge(-1, 2, -30, 400, 5000, -60000, 700000, -1000000)))
    case("edges_2", sheet(edges=EDGE + edge(1, 2, 3, 4, 5, 6, 7, 8)))
    case("edges_64", sheet(edges="".join(edge(*range(8 * e, 8 * e + 8)) for e in range(64))))
    case("edges_64_longest", sheet("(plate -1000000 -1000000 20)\n", "(cell 20)\n", "(reach 1000000)\n",
                                   "(grain 100000)\n", edge(*[-1000000] * 8) * 64))
    case("one_cell", sheet("(plate 0 0 0)\n", "(cell 0)\n"))
    case("plate_as_cell", sheet("(plate 0 0 20)\n", "(cell 20)\n"))
    case("cells_256_a_side", sheet("(plate 0 0 8)\n", "(cell 0)\n"))
    case("cells_256_of_the_largest", sheet("(plate 0 0 20)\n", "(cell 12)\n"))


def counts():
    case("edges_0", sheet(edges=""))
    case("edges_65", sheet(edges=EDGE * 65))
    case("edges_65_one_out_of_range", sheet(edges=EDGE * 64 + edge(*[1000001] + [0] * 7)))
    case("edges_200", sheet(edges=EDGE * 200))
    case("edges_70_then_rubbish", sheet(edges=EDGE * 70 + "(rubbish)\n"))
    case("edges_0_and_range", sheet(plate="(plate 1000001 0 4)\n", edges=""))


def sizes():
    text = sheet(grain="")
    while len(text) + len(EDGE) <= 8192:
        text = text[: -len(END)] + EDGE + END
    while len(text) < 8192:
        text = lengthen(text)
    case("bytes_8192", text)
    case("bytes_8193", lengthen(text))
    case("bytes_8194", lengthen(lengthen(text)))


def lengthen(text):
    """One byte more, in a number that has room."""
    for old, new in (("(0 0)", "(10 0)"), ("(10 0)", "(10 10)"), ("(10 10)", "(100 10)")):
        if old in text:
            return text.replace(old, new, 1)
    raise ValueError("no room")


def broken_lines():
    case("empty", "")
    case("line_end_only", "\n")
    case("end_only", END)
    case("missing_job", PLATE + CELL + REACH + GRAIN + EDGE + END)
    case("missing_plate", JOB + CELL + REACH + GRAIN + EDGE + END)
    case("missing_cell", JOB + PLATE + REACH + GRAIN + EDGE + END)
    case("missing_reach", JOB + PLATE + CELL + GRAIN + EDGE + END)
    case("missing_end", JOB + PLATE + CELL + REACH + GRAIN + EDGE)
    case("missing_last_line_end", SAMPLE[:-1])
    case("order_cell_before_plate", JOB + CELL + PLATE + REACH + GRAIN + EDGE + END)
    case("order_reach_before_cell", JOB + PLATE + REACH + CELL + GRAIN + EDGE + END)
    case("order_grain_before_reach", JOB + PLATE + CELL + GRAIN + REACH + EDGE + END)
    case("order_grain_after_edge", JOB + PLATE + CELL + REACH + EDGE + GRAIN + END)
    case("order_edge_after_end", JOB + PLATE + CELL + REACH + GRAIN + END + EDGE)
    case("grain_twice", JOB + PLATE + CELL + REACH + GRAIN + GRAIN + EDGE + END)
    case("job_twice", JOB + SAMPLE)
    case("after_end_a_byte", SAMPLE + "x")
    case("after_end_a_line_end", SAMPLE + "\n")
    case("after_end_a_sheet", SAMPLE + SAMPLE)
    case("before_job_a_space", " " + SAMPLE)
    case("empty_line", SAMPLE.replace(CELL, "\n" + CELL))
    case("unknown_line", SAMPLE.replace(EDGE, "(arc (0 0) (1 1))\n" + EDGE))
    case("upper_case", SAMPLE.replace("(cell", "(CELL"))


def broken_spaces():
    case("space_doubled", SAMPLE.replace("(plate -8", "(plate  -8"))
    case("space_before_close", SAMPLE.replace("(cell 1)", "(cell 1 )"))
    case("space_at_line_end", SAMPLE.replace("(cell 1)\n", "(cell 1) \n"))
    case("space_missing", SAMPLE.replace("(cell 1)", "(cell1)"))
    case("space_missing_between_points", SAMPLE.replace("(0 0) (0 0)", "(0 0)(0 0)", 1))
    case("tab_for_space", SAMPLE.replace("(cell 1)", "(cell\t1)"))
    case("crlf", SAMPLE.replace("\n", "\r\n"))
    case("crlf_once", SAMPLE.replace("(job\n", "(job\r\n"))
    case("cr_for_line_end", SAMPLE.replace("\n", "\r"))
    case("nul_byte", SAMPLE.replace("(cell 1)", "(cell \0)"))
    case("high_byte", SAMPLE.replace("(cell 1)", "(cell \xff)"))
    case("mark_for_number", SAMPLE.replace("(cell 1)", "(cell #)"))


def broken_numbers():
    for name, number in {
        "minus_zero": "-0", "leading_zero": "01", "leading_zeros": "00", "minus_leading_zero": "-01",
        "plus": "+1", "minus_alone": "-", "minus_doubled": "--1", "no_number": "", "fraction": "1.0",
        "exponent": "1e0", "hexadecimal": "0x1", "eight_digits": "10000000", "minus_eight_digits": "-10000000",
        "letter_after": "1a", "comma": "1,000", "colon_digit": ":", "slash_digit": "/",
    }.items():
        case("number_" + name, sheet(reach=f"(reach {number})\n"))
    case("number_seven_digits", sheet(reach="(reach 9999999)\n"))
    case("number_minus_seven_digits", sheet(reach="(reach -9999999)\n"))
    case("number_one_more_in_plate", sheet(plate="(plate -8 -8 4 4)\n"))
    case("number_one_less_in_plate", sheet(plate="(plate -8 -8)\n"))
    case("edge_of_three_points", sheet(edges="(edge (0 0) (0 0) (0 0))\n"))
    case("edge_of_five_points", sheet(edges="(edge (0 0) (0 0) (0 0) (0 0) (0 0))\n"))
    case("edge_unclosed", sheet(edges="(edge (0 0) (0 0) (0 0) (0 0)\n"))
    case("edge_number_broken_in_the_last", sheet(edges=EDGE * 3 + "(edge (0 0) (0 0) (0 0) (0 00))\n"))


def ranges():
    for value in (-1000001, -1000000, 1000000, 1000001):
        tag = f"{'minus' if value < 0 else 'plus'}_{abs(value)}"
        case(f"x_{tag}", sheet(plate=f"(plate {value} 0 4)\n"))
        case(f"y_{tag}", sheet(plate=f"(plate 0 {value} 4)\n"))
        for k in range(8):
            numbers = [0] * 8
            numbers[k] = value
            if abs(value) == 1000001:
                case(f"control_{k}_{tag}", sheet(edges=EDGE + edge(*numbers)))
        case(f"controls_{tag}", sheet(edges=edge(*[value] * 8)))
    for n in (-1, 20, 21):
        case(f"n_{'minus_1' if n < 0 else n}", sheet(plate=f"(plate 0 0 {n})\n", cell="(cell 20)\n"))
    for m in (-1, 20, 21):
        case(f"m_{'minus_1' if m < 0 else m}", sheet(plate="(plate 0 0 20)\n", cell=f"(cell {m})\n"))
    for r in (-1, 0, 1, 1000000, 1000001):
        case(f"reach_{'minus_1' if r < 0 else r}", sheet(reach=f"(reach {r})\n"))
    for t in (-1, 0, 1, 100000, 100001):
        case(f"grain_{'minus_1' if t < 0 else t}", sheet(grain=f"(grain {t})\n"))


def cells():
    case("m_is_n", sheet(plate="(plate 0 0 7)\n", cell="(cell 7)\n"))
    case("m_is_n_plus_1", sheet(plate="(plate 0 0 7)\n", cell="(cell 8)\n"))
    case("n_minus_m_8", sheet(plate="(plate 0 0 15)\n", cell="(cell 7)\n"))
    case("n_minus_m_9", sheet(plate="(plate 0 0 16)\n", cell="(cell 7)\n"))
    case("cell_and_range", sheet(plate="(plate 0 0 3)\n", cell="(cell 4)\n", reach="(reach 0)\n"))


def straight():
    case("straight_1", sheet(edges=line(0, 0, 12, -7)))
    case("straight_point", sheet(edges=LINE))
    case("straight_64", sheet(edges="".join(line(*range(4 * e - 99, 4 * e - 95)) for e in range(64))))
    longest = line(-1000000, 5, 1000000, 6)
    case("straight_and_cubics", sheet(edges=line(1, 2, 3, 4) + edge(*range(8)) + longest * 2 + EDGE))
    case("straight_32_and_32_cubics", sheet(grain="", edges=(LINE + edge(1, 2, 3, 4, 5, 6, 7, 8)) * 32))
    case("straight_65", sheet(edges=LINE * 65))
    case("straight_32_after_33_cubics", sheet(edges=EDGE * 33 + LINE * 32))
    # So many lines fit 8,192 bytes, and no more.
    case("straight_428", sheet(edges=LINE * 428))
    case("straight_429", sheet(edges=LINE * 429))
    case("straight_of_one_end", sheet(edges="(line (0 0))\n"))
    case("straight_of_three_ends", sheet(edges="(line (0 0) (0 0) (0 0))\n"))
    case("straight_space_doubled", sheet(edges="(line (0 0)  (0 0))\n"))
    case("straight_upper_case", sheet(edges="(Line (0 0) (0 0))\n"))
    case("straight_minus_zero", sheet(edges="(line (0 0) (-0 0))\n"))
    case("straight_plus_1000001", sheet(edges=EDGE + line(0, 0, 0, 1000001)))


def main():
    for group in (accepted, counts, sizes, broken_lines, broken_spaces, broken_numbers, ranges, cells, straight):
        group()
    data = FOLDER / "data"
    data.mkdir(parents=True, exist_ok=True)
    for old in data.iterdir():
        old.unlink()
    for name, text in cases.items():
        (data / name).write_bytes(text)
    (FOLDER / "args").write_text("".join(name + "\n" for name in cases))


main()
