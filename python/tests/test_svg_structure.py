"""Tests of what `from` makes of an SVG drawing's structure: clones, inner viewports, lengths, and what is drawn and makes no edge.

The numbers are worked out by hand from the SVG standard.
"""

import time
import unittest
from fractions import Fraction

from clearance.bounds import outline_box
from clearance.drawings import svg
from clearance.drawings.curves import Unusable
from clearance.drawings.outline import outline_of
from clearance.drawings.reading import Wish
from clearance.drawings.svg_transforms import transform_of
from clearance.drawings.svg_windows import Window, box_of

from .test_from import needs_svgelements, svg_file

PAGE = 'width="100mm" height="100mm" viewBox="0 0 100 100"'
RECT = '<rect x="10" y="10" width="10" height="5"/>'
LINE = '<line x1="1" y1="2" x2="4" y2="6"/>'


def drawing(*shapes, root=PAGE, unit=None, leave_out=()):
    return svg.read(svg_file(*shapes, root=root).encode(), Wish(unit, frozenset(leave_out)))


@needs_svgelements
class Case(unittest.TestCase):
    def boxes(self, *shapes, each=4, **more):
        """The boxes of shapes of so many edges each, in millimetres from the left and from the top of a page 100 mm high."""
        edges = outline_of(drawing(*shapes, **more).curves, 1.0).edges
        found = [outline_box(edges[at : at + each]) for at in range(0, len(edges), each)]
        return [tuple(number / 100 for number in (left, 10000 - high, right, 10000 - low)) for left, low, right, high in found]

    def findings(self, *shapes, **more):
        """What is found in a drawing: places and messages."""
        with self.assertRaises(Unusable) as raised:
            drawing(*shapes, **more)
        return [(reason.place, str(reason)) for reason in raised.exception.all]

    def finding(self, said, *shapes, line=3, **more):
        """That there is one finding, in that line; a drawing's first shape is in line 2."""
        (((at, _), message),) = self.findings(LINE, *shapes, **more)
        self.assertEqual(at, line, message)
        self.assertIn(said, message)


class Transforms(Case):
    def test_commas(self):
        """One may stand between two functions; programs differ on more, and none stands in front or behind."""
        self.assertEqual(self.boxes(f'<g transform="translate(3) , scale(2)">{RECT}</g>'), [(23, 20, 43, 30)])
        for text in (",translate(3)", "translate(3),,scale(2)", "translate(3)scale(2),", " , translate(3)"):
            self.finding("is none that is read", f'<g transform="{text}">{RECT}</g>')


class Clones(Case):
    def test_a_clone_of_what_has_a_transform(self):
        """The clone is at x 45 to 55 mm from the left and 15 to 20 mm from the top."""
        original = f'<g id="g" transform="translate(5 5)">{RECT}</g>'
        self.assertEqual(self.boxes(original, '<use href="#g" x="30"/>'), [(15, 15, 25, 20), (45, 15, 55, 20)])
        self.assertEqual(drawing(original, '<use href="#g" x="30"/>').curves[0].doubt, 0)

    def test_the_order_of_transforms(self):
        """The transform of a <use> goes around its x and y, these around the transform of the original."""
        kept = f'<defs><g id="g" transform="scale(2)">{RECT}</g></defs>'
        used = '<use href="#g" x="10" y="1" transform="translate(5 0) scale(0.5)"/>'
        self.assertEqual(self.boxes(kept, used), [(20, 10.5, 30, 15.5)])

    def test_targets_that_stand_later_and_clones_of_clones(self):
        later = '<use href="#u" y="20"/>', f'<defs><use id="u" xlink:href="#g" x="3"/><g id="g">{RECT}</g></defs>'
        self.assertEqual(self.boxes(*later), [(13, 30, 23, 35)])
        both = '<use href="#g" xlink:href="#other"/>', f'<g id="g">{RECT}</g>'
        self.assertEqual(self.boxes(*both), [(10, 10, 20, 15)] * 2)

    def test_nothing_around_the_original_moves_its_clone(self):
        original = f'<g transform="scale(3)" display="none"><g id="g">{RECT}</g></g>'
        self.assertEqual(self.boxes(original, '<use href="#g"/>'), [(10, 10, 20, 15)])

    def test_symbols(self):
        symbol = '<symbol id="s" viewBox="0 0 20 10"{}><rect x="1" y="1" width="18" height="8"/></symbol>'
        used = '<use href="#s" x="10" y="20" width="40" height="40"/>'
        for aspect, box in (
            ("", (12, 32, 48, 48)),
            ("xMinYMin", (12, 22, 48, 38)),
            ("xMaxYMax meet", (12, 42, 48, 58)),
            ("none", (12, 24, 48, 56)),
        ):
            ratio = f' preserveAspectRatio="{aspect}"' if aspect else ""
            self.assertEqual(self.boxes(symbol.format(ratio), used), [box], aspect)
        slice_left = symbol.format(' preserveAspectRatio="xMinYMid slice" overflow="visible"')
        self.assertEqual(self.boxes(slice_left, used), [(14, 24, 86, 56)])
        self.assertEqual(self.boxes(symbol.format(""), '<use href="#s"/>'), [(5, 30, 95, 70)])
        # A symbol is not drawn where it stands.
        self.assertEqual(self.boxes(symbol.format(""), RECT), [(10, 10, 20, 15)])

    def test_a_use_gives_an_inner_svg_its_size(self):
        inner = f'<defs><svg id="s" x="2" y="3" width="50" height="50" viewBox="0 0 25 25">{RECT}</svg></defs>'
        self.assertEqual(self.boxes(inner, '<use href="#s" x="1"/>'), [(23, 23, 43, 33)])
        self.assertEqual(self.boxes(inner, '<use href="#s" x="1" width="25" height="25"/>'), [(13, 13, 23, 18)])

    def test_what_is_no_clone(self):
        for use, said in (
            ('<use href="#none"/>', "no element with the id 'none'"),
            ('<use href="other.svg#a"/>', "'other.svg#a'"),
            ("<use/>", "only elements of the same file"),
            ('<defs><linearGradient id="a"/></defs><use href="#a"/>', "of a <linearGradient>, which cannot be drawn"),
            ('<g id="a"/><g id="a"/><use href="#a"/>', "more than once"),
            ('<symbol id="a" width="5"/><use href="#a"/>', "a place or a size of its own"),
            ('<symbol id="a" display="none"/><use href="#a"/>', "display: none of a <symbol>"),
            ('<g id="a"><use href="#a"/></g>', "circle of clones"),
            ('<defs><g id="a"><use href="#b"/></g><g id="b"><use href="#a"/></g></defs><use href="#a"/>', "circle of clones"),
        ):
            self.finding(said, use)

    def test_clones_that_grow_without_bound(self):
        uses = f'<defs><g id="a0">{LINE}</g>'
        for level in range(1, 30):
            uses += f'<g id="a{level}">' + f'<use href="#a{level - 1}"/>' * 10 + "</g>"
        before = time.process_time()
        self.finding("more than 10,000 elements", uses + '</defs><use href="#a29"/>')
        self.assertLess(time.process_time() - before, 5)
        deep = f'<g id="a0">{LINE}</g>' + "".join(f'<use id="a{level}" href="#a{level - 1}"/>' for level in range(1, 53))
        (*_, (_, message)) = self.findings(f"<defs>{deep}</defs>", '<use href="#a52"/>')
        self.assertIn("deeper than 50", message)

    def test_the_end_of_what_is_cloned_many_times(self):
        many = "".join(f'<use href="#p" x="{index / 100}"/>' for index in range(3000))
        self.assertEqual(len(drawing('<defs><path id="p" d="M0 0l1 1l1 0"/></defs>', many).curves), 6000)


class Viewports(Case):
    def test_inner_viewports(self):
        for svg_tag, box in (
            ('<svg x="10" y="20">', (20, 30, 30, 35)),
            ('<svg x="10%" y="20%" width="50%" height="50%" viewBox="0 0 25 25">', (30, 40, 50, 50)),
            ('<svg x="1" width="50" height="25" viewBox="0 0 25 25">', (23.5, 10, 33.5, 15)),
            ('<svg width="50" height="25" viewBox="0 0 25 25" preserveAspectRatio="xMaxYMid">', (35, 10, 45, 15)),
            ('<svg width="50" height="25" viewBox="0 0 25 25" preserveAspectRatio="none">', (20, 10, 40, 15)),
            ('<svg width="25" height="50" viewBox="5 5 25 25">', (5, 17.5, 15, 22.5)),
            ('<svg width="96" height="96" viewBox="0 0 1in 1in">', None),
        ):
            if box:
                self.assertEqual(self.boxes(f"{svg_tag}{RECT}</svg>"), [box], svg_tag)
            else:
                self.finding("viewBox has not four numbers", f"{svg_tag}{RECT}</svg>")

    def test_viewports_in_viewports(self):
        inner = f'<svg x="50%" width="10" height="10" viewBox="0 0 100 100">{RECT}</svg>'
        self.assertEqual(self.boxes(f'<svg x="10" width="50" height="50" viewBox="0 0 25 25">{inner}</svg>'), [(37, 2, 39, 3)])

    def test_per_cents_are_of_the_nearest_viewport(self):
        for shape, box in (
            ('<rect x="10%" y="10%" width="20%" height="50%"/>', (4, 3, 12, 18)),
            ('<ellipse cx="50%" cy="50%" rx="25%" ry="50%"/>', (10, 0, 30, 30)),
        ):
            each = 4 if "rect" in shape else 100
            self.assertEqual(self.boxes(f'<svg width="40" height="30">{shape}</svg>', each=each), [box])
        # A radius is of the diagonal by the square root of 2: here of the root of (40^2 + 30^2) / 2.
        circle = drawing('<svg width="40" height="30"><circle cx="20" cy="15" r="20%"/></svg>').curves[0]
        self.assertAlmostEqual(circle.u[0], 100 * 0.2 * (1250**0.5))

    def test_units_of_lengths(self):
        root = 'width="4in" height="4in"'
        inch = {text: 2540 for text in ("1in", "2.54cm", "72pt", "6pc", "96px")}
        for text, hundredths in {**inch, "10mm": 1000, "40q": 1000, "40Q": 1000}.items():
            curve = drawing(f'<line x2="{text}"/>', root=root).curves[0]
            self.assertEqual(curve.points[1][0], hundredths, text)
        for text in ("1em", "1ex", "5vw", "calc(1px)", "1 mm", "x", "", "1,5", "nan", "infinity"):
            self.finding("no length that is read", f'<line x2="{text}"/>')

    def test_a_per_cent_of_nothing(self):
        for shape in ('<line x2="50%"/>', '<circle r="5%"/>', '<svg width="10%"/>', "<svg/>"):
            self.finding("a per cent of a viewport whose size is not known", shape, root="", unit="mm")
        symbol = '<symbol id="s"><line x2="50%"/></symbol>'
        self.finding("a per cent of a viewport whose size is not known", symbol + '<use href="#s" width="30" height="30"/>')
        self.assertEqual(len(drawing(symbol, '<use href="#s"/>').curves), 1)

    def test_what_a_viewport_cuts_off_is_a_finding(self):
        inner = '<svg x="10" y="10" width="20" height="20"{}>{}</svg>'
        for shape, out in (
            ('<line x1="0" y1="0" x2="20" y2="20"/>', False),
            ('<line x1="0" y1="0" x2="20.1" y2="20"/>', True),
            ('<circle cx="10" cy="10" r="10"/>', False),
            ('<circle cx="10.1" cy="10" r="10"/>', True),
            ('<path d="M5 15C0 -5 20 -5 15 15"/>', False),
            ('<path d="M5 15C0 -6 20 -6 15 15" transform="translate(0 -1)"/>', True),
            ('<path d="M2 10A8 8 0 0 1 18 10" transform="translate(0 -4)"/>', True),
            ('<path d="M2 10A8 8 0 0 0 18 10" transform="translate(0 -4)"/>', False),
        ):
            if out:
                self.finding("reaches out of the <svg> in line 3", inner.format("", shape))
                self.assertEqual(drawing(inner.format("", shape), leave_out=("clip",)).left_out, {"clip": 1})
            else:
                self.assertEqual(drawing(inner.format("", shape)).left_out, {})
            self.assertEqual(drawing(inner.format(' overflow="visible"', shape)).left_out, {})

    def test_a_viewport_that_is_turned(self):
        turned = '<g transform="rotate(45 50 50)"><svg x="40" y="40" width="20" height="20" viewBox="-1 -1 2 2">{}</svg></g>'
        self.assertEqual(len(drawing(turned.format('<line x1="-1" y1="-1" x2="1" y2="1"/>')).curves), 1)
        self.finding("reaches out", turned.format('<line x1="-1" y1="-1" x2="1" y2="1.01"/>'))

    def test_viewports_without_size_draw_nothing(self):
        told = drawing(LINE, f'<svg width="0" height="5">{RECT}</svg>')
        self.assertEqual((len(told.curves), len(told.remarks)), (1, 1))
        self.finding("width is below 0", '<svg width="-1" height="5"/>')
        self.finding("preserveAspectRatio 'middle'", '<svg viewBox="0 0 1 1" preserveAspectRatio="middle"/>')

    def test_windows(self):
        window = Window([(0, 0), (10, 0), (12, 10), (2, 10)])
        curves = drawing('<line x1="1" y1="95" x2="11" y2="95"/>').curves
        scaled = Window([tuple(100 * number for number in point) for point in ((0, 0), (10, 0), (12, 10), (2, 10))])
        self.assertTrue(scaled.holds(curves, box_of(curves)))
        self.assertFalse(window.holds(curves, box_of(curves)))


class Shapes(Case):
    def test_radii(self):
        for shape, box in (
            ('<ellipse cx="20" cy="20" rx="5"/>', (15, 15, 25, 25)),
            ('<ellipse cx="20" cy="20" ry="5" rx="auto"/>', (15, 15, 25, 25)),
        ):
            self.assertEqual([round(number) for number in self.boxes(shape, each=9)[0]], list(box))
        one, two = (drawing(f'<rect width="20" height="10" {radii}/>').curves for radii in ('ry="4"', 'rx="4" ry="auto"'))
        self.assertEqual(one, two)
        self.assertEqual(one[1].u, (400.0, 0.0))
        wide = drawing('<rect width="20" height="10" rx="40" ry="2"/>').curves
        self.assertEqual((wide[1].u[0], wide[1].v[1]), (1000.0, -200.0))

    def test_transforms(self):
        self.assertEqual(transform_of("rotate(90)").moved(3, 4), (-4, 3))
        self.assertEqual(transform_of("translate(1,2)scale(3)").moved(1, 1), (4, 5))
        self.assertEqual(transform_of("rotate(-180 5 5) , skewX(45)").moved(1, 2), (7, 8))
        self.assertEqual(transform_of(" matrix(1 2 3 4 5 6) ").moved(Fraction(1, 2), 1), (Fraction(17, 2), 11))
        whole = transform_of("rotate(36)" * 10).moved(1000, 0)
        self.assertEqual(whole, (1000, 0))
        for text, said in (
            ("scale(0)", "determinant is 0"),
            ("matrix(1 2 2 4 0 0)", "determinant is 0"),
            ("skewX(nan)", "none that is read"),
            ("scale(inf)", "none that is read"),
            ("translate(1e99)", "too large"),
            ("scale(1e14) scale(1e14)", "too large or too small"),
            ("rotate(1 2)", "none that is read"),
            ("translate(1,,2)", "none that is read"),
            ("translate(10px)", "none that is read"),
            ("rotate(45deg)", "none that is read"),
        ):
            self.finding(said, f'<g id="turned" transform="{text}">{RECT}</g>')

    def test_large_numbers_make_short_messages(self):
        self.finding("more than 300 digits", f'<line x2="0.{"1" * 5000}"/>')
        for shape in ('<line x2="1e308"/>', '<path d="M0 0L1e308 1"/>', '<polyline points="0 0 1e308 0"/>', '<circle r="1e308"/>'):
            ((place, message),) = self.findings(shape)
            self.assertEqual(place, (2, 1))
            self.assertLess(len(message), 80)

    def test_what_path_data_have_in_one_program_only(self):
        for data in ("M0,0,L5,5", "M,0 0", "M0 0 L5,,5", "M0 0 L5 5,", ",M0 0"):
            self.finding("path data", f'<path d="{data}"/>')


class Beside(Case):
    """What is drawn and makes no edge, or makes another one."""

    def test_findings_name_their_kind_element_and_line(self):
        marker = '<marker id="m"><path d="M0 0L1 1"/></marker>'
        for kind, element, shape in (
            ("text", "<text>", "<text>Hi</text>"),
            ("text", "<flowRoot>", "<flowRoot>Hi</flowRoot>"),
            ("image", '<image id="i">', '<image id="i" href="a.png"/>'),
            ("foreign", "<foreignObject>", "<foreignObject><p>Hi</p></foreignObject>"),
            ("switch", "<switch>", f"<switch>{RECT}</switch>"),
            ("switch", "<g>", f'<g systemLanguage="de">{RECT}</g>'),
            ("marker", "<path>", f'{marker}<path d="M0 0L5 5" marker-end="url(#m)"/>'),
            ("marker", "<line>", f'{marker}<g style="marker:url(#m)"><line x2="5"/></g>'),
            ("clip", "<g>", f'<g clip-path="url(#c)">{RECT}</g>'),
            ("clip", "<rect>", '<rect width="5" height="5" style="clip-path: circle(3px)"/>'),
            ("mask", "<g>", f'<g mask="url(#c)">{RECT}</g>'),
            ("filter", "<g>", f'<g style="filter: blur(3px)">{RECT}</g>'),
            ("pattern", "<rect>", '<pattern id="p"/><rect width="5" height="5" fill="url(#p) red"/>'),
            ("pattern", "<rect>", '<rect width="5" height="5" fill="url(other.svg#p)"/>'),
            ("animation", "<animate>", '<rect width="5" height="5"><animate attributeName="x" to="9"/></rect>'),
            ("animation", "<rect>", '<rect width="5" height="5" style="animation: turn 2s"/>'),
            ("script", "<script>", "<script>run()</script>"),
        ):
            self.finding(f"{element}: ", shape)
            self.finding(f"; --leave-out {kind} goes on without it", shape)
            told = drawing(LINE, shape, leave_out=(kind,))
            self.assertEqual(told.left_out, {kind: 1}, shape)
            self.assertIn(kind, svg.KINDS)

    def test_what_is_no_finding(self):
        for shape in (
            '<text x="5"> </text>',
            "<image/>",
            "<title>A part</title><desc/><metadata><rect/></metadata>",
            '<linearGradient id="p"/><rect width="5" height="5" fill="url(#p)"/>',
            '<pattern id="p"/><rect width="5" height="5" fill="red"/>',
            '<marker id="m"/><path d="M0 0L5 5" marker-end="url(#m)"/>',
            '<marker id="m"><path/></marker><rect width="5" height="5" marker-end="url(#m)"/>',
            '<clipPath id="c"><rect width="5" height="5"/></clipPath>',
            '<x:rect xmlns:x="urn:other" width="5"/>',
            '<g clip-path="none" mask="none" filter="none"/>',
            f'<g display="none"><text>Hi</text><use href="#none"/><g clip-path="url(#c)">{RECT}</g></g>',
        ):
            self.assertEqual(drawing(LINE, shape).left_out, {}, shape)

    def test_several_findings_at_once(self):
        found = self.findings('<text>a</text><text id="t">b</text>', '<circle r="5em"/>', "<switch><g/></switch>")
        self.assertEqual([place for place, _ in found], [(2, 1), (2, 15), (3, 1), (4, 1)])

    def test_elements_that_are_unknown(self):
        self.finding("no element of SVG 1.1 or 2", f"<shape>{RECT}</shape>")
        self.assertEqual(len(drawing(LINE, "<shape/>").curves), 1)

    def test_shapes_off_the_page_are_taken_and_said(self):
        self.assertEqual(drawing('<line x1="-5" x2="5"/>').remarks, ["1 shape reaches off the page and is taken whole"])
        self.assertEqual(drawing('<line x1="0" x2="100"/>').remarks, [])
        wide = 'width="100mm" height="50mm" viewBox="0 0 50 50"'
        self.assertEqual(drawing('<line x1="-25" x2="75" y2="50"/>', root=wide).remarks, [])
        self.assertEqual(len(drawing('<line x1="-25.01" x2="75" y2="50"/>', root=wide).remarks), 1)


class Units(Case):
    def test_the_unit_in_words(self):
        for root, words in (
            (PAGE, "mm, by width 100mm and the viewBox"),
            ('width="10cm" viewBox="0 0 100 100"', "cm, by width 10cm and the viewBox (a unit of it is 0.1 cm)"),
            ('height="4in" viewBox="0 0 4 4"', "in, by height 4in and the viewBox"),
            ('width="100mm" height="50mm" viewBox="0 0 50 50" preserveAspectRatio="none"', "(a unit of it is 2 by 1 mm)"),
            ('width="4in" height="3in"', "px (1/96 in), by width 4in without a viewBox"),
            ('height="50mm"', "px (1/96 in), by height 50mm without a viewBox"),
        ):
            self.assertIn(words, drawing(LINE, root=root).unit)
        self.assertEqual(drawing(LINE, unit="in").unit, "in, by --units")

    def test_sizes(self):
        line = '<line x2="48" y2="6"/>'
        for root, unit, across in (
            ('width="4in"', None, 1270),
            ('width="4in" height="100%"', None, 1270),
            ('width="72pt"', None, 1270),
            ("", "px", 1270),
            ('viewBox="0 0 9 9"', "px", 1270),
            ('width="90" height="90" viewBox="0 0 9 9"', "pt", 1693.333333),
            ('width="96mm" viewBox="0 0 96 48"', None, 4800),
            ('width="96mm" height="auto" viewBox="0 0 96 48"', None, 4800),
            ('width="96mm" height="48" viewBox="0 0 96 48"', None, 1270),
        ):
            self.assertAlmostEqual(float(drawing(line, root=root, unit=unit).curves[0].points[1][0]), across, 5, root)

    def test_what_states_no_size(self):
        box = 'viewBox="0 0 9 9"'
        for root in ("", box, 'width="90" height="90"', f'width="90px" height="90px" {box}', f'width="90mm" height="100%" {box}'):
            self.finding("state no physical size: give --units mm|cm|m|in|ft|px|pt|pc", root=root, line=1)
        for root, said in (
            ('width="5em"', "'5em' is no length"),
            ('width="-5mm"', "is not above 0"),
            ('style="width:90mm"', "its width in a style"),
            (f'style="width:90mm" {box}', "its width in a style"),
            (f'width="90mm" transform="scale(2)" {box}', "transform of the root"),
        ):
            self.finding(said, root=root, line=1)
        self.assertEqual(len(drawing(LINE, root=f'style="width:100%" {box}', unit="mm").curves), 1)


if __name__ == "__main__":
    unittest.main()
