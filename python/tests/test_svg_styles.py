"""Tests of the cascade of an SVG drawing's styles: what is displayed, and what of a style is not read."""

import time
import unittest
from unittest import mock

from clearance.drawings import svg, svg_styles
from clearance.drawings.curves import Unusable
from clearance.drawings.reading import Wish

from .test_from import is_there
from .test_svg_structure import LINE, Case, drawing

needs_css = unittest.skipUnless(is_there("tinycss2") and is_there("cssselect2"), "the packages tinycss2 and cssselect2 are missing")


class Shown(Case):
    def shown(self, css, attributes, around="{}"):
        """Whether a line with these attributes is drawn."""
        line = around.format(f'<line x2="5" {attributes}/>')
        told = drawing(f"<style>{css}</style>", f'<line x2="9"/>{line}')
        self.assertEqual(len(told.remarks), 2 - len(told.curves), css)
        return len(told.curves) == 2


class Displayed(Shown):
    """Without a stylesheet, so also where the packages that read one are missing."""

    def test_display(self):
        for attributes, shown in (
            ('display="none"', False),
            ('display="inline"', True),
            ('display="NONE"', False),
            ('style="display:none"', False),
            ('style="display:none;display:block"', True),
            ('style="display:none !important;display:block"', False),
            ('style="/* ; */display/**/: /*x*/ none ;"', False),
            ('style="fill:url(a;b);display:none"', False),
            ("style=\"font-family:'a;display:none'\"", True),
            ('display="none" style="display:inline"', True),
            ('style="DISPLAY: None"', False),
            ('style="display:inherit"', True),
        ):
            self.assertEqual(self.shown("", attributes), shown, attributes)

    def test_all_comes_first(self):
        self.finding("the property all in a style", f'<g style="all:initial" display="none">{LINE}</g>')

    def test_values_by_names(self):
        """What a variable stands for is not looked up: a marker or a pattern may be behind it."""
        self.finding("it has markers", '<path style="--m:url(#m);marker-end:var(--m)" d="M0 0L9 9"/>')
        filled = '<pattern id="m"><line x2="1"/></pattern><path style="--f:url(#m);fill:var(--f)" d="M0 0L9 9"/>'
        self.finding("its fill is a pattern", filled)

    def test_the_same_without_the_packages(self):
        with mock.patch.object(svg_styles, "optional", return_value=None):
            self.test_display()
            self.test_visibility()

    def test_visibility(self):
        hidden = '<g visibility="hidden">{}</g>'
        for attributes, around, shown in (
            ('visibility="hidden"', "{}", False),
            ('style="visibility: collapse"', "{}", False),
            ("", hidden, False),
            ('visibility="visible"', hidden, True),
            ('style="visibility:visible"', hidden, True),
            ('visibility="inherit"', hidden, False),
            ('visibility="initial"', hidden, True),
            ('visibility="visible"', '<g display="none">{}</g>', False),
        ):
            self.assertEqual(self.shown("", attributes, around), shown, (attributes, around))

    def test_clones_inherit_from_their_use(self):
        kept = '<defs visibility="hidden"><g id="a"><line x2="5"/></g></defs>'
        self.assertEqual(len(drawing(kept, '<use href="#a"/>').curves), 1)
        told = drawing(kept, LINE, '<use href="#a" visibility="hidden"/>')
        self.assertEqual((len(told.curves), told.remarks), (1, ["1 shape is not displayed and not taken"]))

    def test_the_originals_own_display_counts(self):
        told = drawing(LINE, '<line id="a" x2="5" display="none"/><use href="#a"/>')
        self.assertEqual((len(told.curves), told.remarks), (1, ["2 shapes are not displayed and not taken"]))
        self.assertEqual(len(drawing('<defs style="display:none"><line id="a" x2="5"/></defs><use href="#a"/>').curves), 1)

    def test_hidden_text(self):
        self.assertEqual(drawing(LINE, '<text visibility="hidden">Hi</text>').left_out, {})
        self.finding("<text>", '<text visibility="hidden">Hi <tspan visibility="visible">you</tspan></text>')

    def test_values_that_are_unknown(self):
        for attributes, said in (
            ('display="hidden"', "its display 'hidden'"),
            ('style="display: contents"', "its display 'contents'"),
            ('style="display: var(--x)"', "its display 'var(--x)'"),
            ('visibility="none"', "its visibility 'none'"),
            ('style="all: unset"', "the property all"),
        ):
            self.finding(said, f'<line x2="5" {attributes}/>')

    def test_transforms_in_styles(self):
        for attributes in (
            'style="transform: scale(2)"',
            'style="-webkit-transform: scale(2)"',
            'style="rotate: 45deg"',
            'style="translate: 5px"',
            'style="scale: 2"',
            'style="offset-path: path(\'M0 0L5 5\')"',
            'transform="rotate(5)" style="transform: none"',
            'transform="rotate(5)" style="transform-origin: center"',
            'transform="rotate(5)" transform-origin="5 5"',
            'transform="rotate(5)" style="transform-box: fill-box"',
        ):
            self.finding("is not read: write", f'<line x2="5" {attributes}/>')
        for attributes in (
            'style="transform: none"',
            'style="transform-origin: center"',
            'transform="rotate(5)" transform-origin="0 0"',
            'style="-inkscape-transform: x"',
        ):
            self.assertEqual(len(drawing(f'<line x2="5" {attributes}/>').curves), 1)

    def test_geometry_in_styles(self):
        for shape in (
            '<circle r="5" style="r: 3px"/>',
            '<rect width="5" height="5" style="width: 9px"/>',
            '<path d="M0 0L1 1" style="d: path(\'M0 0L5 5\')"/>',
            '<svg style="width: 5px"/>',
        ):
            self.finding("in a style is not read: write it as an attribute", shape)
        self.assertEqual(len(drawing('<g style="width: 5px"><line x2="5" style="r: 3px"/></g>').curves), 1)

    def test_an_empty_style(self):
        for style in ("<style/>", "<style></style>", '<style type="text/css"/>', "<style> </style>"):
            self.assertEqual(len(drawing(LINE, style).curves), 1)

    def test_stylesheets_without_the_packages(self):
        with mock.patch.object(svg_styles, "optional", return_value=None):
            spoken = "line{display:none}", "g{visibility : hidden}", "g{transform:none}", "circle{r:5px}"
            for css in (*spoken, "g{display/**/:none}", "@import 'a.css';", r"g{displa\79:none}"):
                self.finding("needs the Python packages tinycss2 and cssselect2", f"<style>{css}</style>")
            self.assertEqual(len(drawing(LINE, "<style>line{fill:none;stroke:red}</style>").curves), 1)
            self.finding("needs the Python packages tinycss2 and cssselect2", r'<line x2="5" style="displa\79:none"/>')


@needs_css
class Cascade(Shown):
    def test_specificity_order_and_importance(self):
        for css, attributes, shown in (
            ("#q{display:inline} .a{display:none}", 'id="q" class="a"', True),
            (".a{display:none} #q{display:inline}", 'id="q" class="a"', True),
            (".a{display:none} .b{display:inline}", 'class="a b"', True),
            (".b{display:inline} .a{display:none}", 'class="a b"', False),
            (".a{display:inline !important}", 'class="a" style="display:none"', True),
            (".a{display:none !important}", 'class="a" style="display:inline"', False),
            (".a{display:none !important}", 'class="a" style="display:inline !important"', True),
            (".a{display:none !important} #q{display:inline}", 'id="q" class="a"', False),
            (".a{display:inline}", 'class="a" display="none"', True),
            ("line.a{display:none} .a{display:inline}", 'class="a"', False),
            (".a{visibility:hidden}", 'class="a" visibility="visible"', False),
            ("<![CDATA[ .a{display:none} ]]>", 'class="a"', False),
            ("<!-- -->.a{display:none}", 'class="a"', False),
            ("@media print{.a{display:none}}", 'class="a"', True),
            ("@media screen{.a{display:none}}", 'class="a"', False),
            ("@media all, (min-width: 5px){.a{display:none}}", 'class="a"', False),
            ("@font-face{font-family:x}.a{display:none}", 'class="a"', False),
            (".a:hover{display:none}", 'class="a"', True),
            (".a::before{display:none}", 'class="a"', True),
            (".a, .b{display:none}", 'class="b"', False),
            ("g > .a{display:none}", 'class="a"', True),
            ("svg > .a{display:none}", 'class="a"', False),
            ("line:last-child{display:none}", "", False),
            ("[x2='5']{display:none}", "", False),
            (".a{displa\\79:none}", 'class="a"', False),
            (".a{color:red;display}", 'class="a"', True),
        ):
            self.assertEqual(self.shown(css, attributes), shown, (css, attributes))

    def test_what_of_a_stylesheet_is_not_read(self):
        for css, said in (
            ("@import 'a.css';", "an @import in a <style> is not read"),
            ("@supports (display:grid){line{display:none}}", "an @supports in a <style> is not read"),
            ("@layer a{line{display:none}}", "an @layer"),
            ("@media (min-width: 5px){line{display:none}}", "an @media"),
            ("line:has(g){display:none}", "its selector 'line:has(g)' is not read"),
            ("line:lang(de){display:none}", "its selector"),
            ("line!{display:none}", "its selector"),
            ("g{line{display:none}}", "a rule inside of a rule"),
            ("line{clip-path:url(#c)}" + "(" * 200, "deeper than"),
        ):
            self.finding(said, f"<style>{css}</style>")
        for css in ("@supports (display:grid){line{fill:red}}", "line:has(g){fill:red}", "@keyframes a{to{transform:scale(2)}}"):
            self.assertEqual(len(drawing(LINE, f"<style>{css}</style>").curves), 1)
        self.finding("for certain media", '<style media="(min-width: 5px)">line{display:none}</style>')
        self.assertEqual(len(drawing(LINE, '<style media="print">line{display:none}</style>').curves), 1)
        self.assertEqual(len(drawing(LINE, '<style type="text/x">line{display:none}</style>').curves), 1)

    def test_transforms_and_geometry_in_stylesheets(self):
        for css in (".a{transform:rotate(5deg)}", ".a{rotate:5deg}", "g{translate:5px}", ".a{x:5px}"):
            self.finding("in a style is not read", f'<style>{css}</style><g><rect class="a" width="5" height="5"/></g>')

    def test_clones_whose_style_depends_on_where_they_stand(self):
        """Programs differ in what selectors see around a clone."""
        css = "<style>#o line{display:none}</style>"
        kept = '<g id="o"><line id="a" x2="5"/></g>'
        self.finding("as a clone its style would not be that of its original", f'{css}{kept}<use href="#a"/>')
        inside = '<g id="o"><g id="b"><g class="c"><line x2="5"/></g></g></g>'
        self.assertEqual(len(drawing("<style>.c line{visibility:visible}</style>", f'{inside}<use href="#b"/>').curves), 2)

    def test_styles_that_take_long(self):
        nested = "<g>" * 90 + LINE + "</g>" * 90
        before = time.process_time()
        self.finding("too many for its elements", f"<style>{'g ' * 9}rect{{display:none}}</style>{nested * 50}")
        self.finding("more than 200,000 letters", f"<style>{'.a{display:inline}' * 20_000}</style>")
        for long in ("a" * 200_000, "a/*" * 60_000, "a " * 90_000):
            self.assertEqual(len(drawing(LINE, f'<g style="{long}"/><style>{long}</style>').curves), 1)
        self.assertLess(time.process_time() - before, 5)

    def test_styles_of_other_files(self):
        text = '<?xml-stylesheet href="a.css"?><svg xmlns="http://www.w3.org/2000/svg" width="9mm" viewBox="0 0 9 9"><line x2="5"/></svg>'
        with self.assertRaisesRegex(Unusable, "styles of another file are not read"):
            svg.read(text.encode(), Wish())


if __name__ == "__main__":
    unittest.main()
