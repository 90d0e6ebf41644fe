"""What is taken from a DXF drawing and what is not: kinds, layouts, layers, other files, and files that ezdxf mends."""

import json
import unittest

from clearance.drawings import dxf, dxf_choice, dxf_kinds

from .test_from import HAS, LINE, Case, block, dxf_file, entity, insert, newer, points, polyline, ran, spline, tags

if HAS["ezdxf"]:
    import ezdxf

EDGE = ((0, 0, 1000, 500),)
AT = points(10, (0, 0, 0))
TEXT = entity("TEXT", *points(10, (0, 0)), (40, 1), (1, "hi"))


def on(layer, text):
    """Entities on another layer than 0."""
    return text.replace("\n8\n0\n", f"\n8\n{layer}\n")


def line(y):
    return entity("LINE", *points(10, (0, y)), *points(11, (10, y)))


class Drawn(Case):
    """A drawing of the package's own making, with a line in it."""

    def setUp(self):
        super().setUp()
        if not HAS["ezdxf"]:
            self.skipTest("the package ezdxf is missing")
        self.document = ezdxf.new("R2010", setup=True, units=4)
        self.space = self.document.modelspace()
        self.space.add_line((0, 0), (10, 5))

    def saved(self):
        path = self.folder / "drawn.dxf"
        self.document.saveas(path)
        return path

    def text(self, *entities, **more):
        return self.file("part.dxf", dxf_file(*entities, **more))

    def findings(self, path, *words):
        """The messages of a drawing that is refused."""
        status, out, err = ran(path, "--reach", "2.5", *words)
        self.assertEqual((status, out), (1, b""), err)
        return err.splitlines()


class Odd(Drawn):
    """What ezdxf passes over without a word, or programs read in different ways."""

    def odd(self, said, *entities, **more):
        self.finding(self.text(*entities, **more), said)

    def test_groups_outside_of_an_entity_s_own_part(self):
        own = ((100, "AcDbPolyline"), (90, 2), (70, 0), *points(10, (0, 0), (40, 0)))
        for before, behind, group in (
            ((), ((100, "AcDbFoo"), *points(10, (40, 50))), 10),
            (((70, 1),), (), 70),
            ((), ((100, "AcDbFoo"), (210, 0), (220, 0), (230, -1)), 210),
            (((38, 7),), (), 38),
            ((), ((1001, "ACAD"), *points(10, (40, 50))), 10),
        ):
            polyline_tags = entity("LWPOLYLINE", (100, "AcDbEntity"), *before, *own, *behind)
            path = self.text(polyline_tags)
            self.assertTrue(any(f"its group {group} stands outside of AcDbPolyline" in line for line in self.findings(path)), group)

    def test_counts_that_are_not_so(self):
        self.odd("it says 3 of group 10, and has 2", newer("LWPOLYLINE", "AcDbPolyline", (90, 3), (70, 0), *points(10, (0, 0), (40, 0))))
        more = newer("SPLINE", "AcDbSpline", (70, 8), (71, 1), (72, 4), (73, 3), *[(40, at) for at in (0, 0, 1, 1)], *points(10, (0, 0, 0), (1, 3, 0)))
        self.odd("it says 3 of group 10, and has 2", more)

    def test_a_bulge_without_its_corner(self):
        early = newer("LWPOLYLINE", "AcDbPolyline", (90, 2), (70, 0), (42, 1), *points(10, (0, 0), (40, 0)))
        self.odd("its first bulge stands before its first corner", early)

    def test_sections(self):
        own = dxf_file(LINE)
        other = tags((0, "SECTION"), (2, "Entities")) + line(70) + tags((0, "ENDSEC"))
        self.finding(self.file("part.dxf", own.replace("0\nEOF\n", other + "0\nEOF\n")), "the section 'Entities' is not read")
        self.finding(self.file("part.dxf", own.replace("0\nEOF\n", line(70) + "0\nEOF\n")), "LINE stands outside of all sections")

    def test_units_twice(self):
        own = dxf_file(LINE)
        twice = own.replace("9\n$INSUNITS\n70\n4\n", "9\n$INSUNITS\n70\n4\n9\n$INSUNITS\n70\n1\n")
        self.finding(self.file("part.dxf", twice), "states $INSUNITS more than once")
        self.assertIn("the section HEADER stands there 2 times", self.findings(self.file("part.dxf", own[: own.index("0\nENDSEC")] + "0\nENDSEC\n" + own))[0])

    def test_digits(self):
        self.odd("group 10 has '1_0', which is no number", entity("LINE", (10, "1_0"), (20, 0), *points(11, (10, 5))))

    def test_arrays_of_none(self):
        for counts in ((0, 3), (3, 0), (-2, 3)):
            placed = insert("B", *AT, (70, counts[0]), (71, counts[1]), (44, 20), (45, 40))
            self.odd("which programs read in different ways", placed, blocks=block("B", LINE))
        self.assertEqual(len(self.job(self.text(insert("B", *AT, (70, 0), (71, 0)), blocks=block("B", LINE)))[0].edges), 1)

    def test_arcs(self):
        self.odd("its radius is below 0", entity("ARC", *points(10, (0, 0)), (40, -5), (50, 10), (51, 100)))
        self.odd("goes around more than once", entity("ARC", *points(10, (0, 0)), (40, 5), (50, -90), (51, 450)))
        twice = newer("ELLIPSE", "AcDbEllipse", *points(10, (20, 10, 0)), *points(11, (5, 0, 0)), (40, 0.5), (41, 0), (42, 9.0))
        self.odd("goes around more than once", twice)

    def test_splines(self):
        early = spline(3, [0, 0, 0, 0, 1, 1, 1, 1, 2, 2], *((x, x % 2, 0) for x in range(6)))
        self.odd("control points that its knots leave out", early)
        weights = [(41, weight) for weight in (1, 1e-30, 1e30, 1)]
        wild = newer("SPLINE", "AcDbSpline", (70, 8), (71, 3), *[(40, at) for at in [0] * 4 + [1] * 4], *weights, *points(10, *((x, x % 2, 0) for x in range(4))))
        self.odd("numbers too far apart to be followed", wild)

    def test_a_block_that_names_a_file(self):
        begin = newer("BLOCK", "AcDbBlockBegin", (2, "B"), (70, 0), *AT, (3, "B"), (1, "other.dwg"))
        self.odd("external reference 'other.dwg'", insert("B", *AT), blocks=begin + newer("ENDBLK", "AcDbBlockEnd"))


class Kinds(Drawn):
    def make(self, space):
        """Entities that make no edge, each with its kind."""
        space.add_hatch().paths.add_polyline_path([(0, 0), (1, 0), (1, 1)])
        space.add_solid([(0, 0), (1, 0), (1, 1)])
        space.add_trace([(0, 0), (1, 0), (1, 1)])
        space.add_3dface([(0, 0), (1, 0), (1, 1)])
        space.add_mesh()
        space.add_polymesh((2, 2))
        space.add_mline([(0, 0), (5, 5)])
        space.add_mtext("hi")
        space.add_leader([(0, 0), (5, 5)])
        space.add_ray((0, 0), (1, 0))
        space.add_xline((0, 0), (1, 0))
        space.add_wipeout([(0, 0), (1, 1)])
        space.add_region()
        space.add_3dsolid()
        space.add_shape("X")
        space.add_helix(1, 1, 1)
        return {"hatch": 1, "solid": 2, "face": 3, "mline": 1, "text": 1, "dimension": 1, "ray": 2, "image": 1, "body": 2, "other": 2}

    def test_each_is_a_finding_or_left_out_by_its_name(self):
        kinds = self.make(self.space)
        path = self.saved()
        said = self.findings(path)
        self.assertEqual(len(said), 16)
        for message in said:
            self.assertRegex(message, r"drawn\.dxf:\d+: 1 \S+ makes no edge, the first is \S+\(#[0-9A-F]+\) on layer '0': .*; --leave-out")
        for kind in kinds:
            rest = [other for other in kinds if other != kind]
            words = [word for other in rest for word in ("--leave-out", other)]
            self.assertTrue(all(f"--leave-out {kind} " in message for message in self.findings(path, *words)), kind)
        sheet = self.folder / "part.sheet"
        status, out, err = ran(path, "--reach", "2.5", "--leave-out", ",".join(kinds), "--json", "-o", sheet)
        self.assertEqual((status, json.loads(out)["left_out"]), (0, kinds), err)
        self.assertIn("no point of what was taken", err)

    def test_the_same_in_a_block(self):
        inner = self.document.blocks.new("B")
        inner.add_line((0, 0), (10, 5))
        kinds = self.make(inner)
        inner.add_attdef("TAG", (0, 0))
        self.space.add_blockref("B", (0, 0))
        self.space.add_blockref("B", (0, 0), dxfattribs={"row_count": 2, "row_spacing": 30})
        path = self.saved()
        self.assertEqual(len(self.findings(path)), 16)
        job, err = self.job(path, "--leave-out", ",".join(kinds))
        self.assertEqual(len(job.edges), 4)
        self.assertIn(f"left out: {', '.join(f'{3 * count} {kind}' for kind, count in sorted(kinds.items()))}\n", err)

    def test_types_have_one_kind(self):
        self.assertEqual(len(dxf_kinds.KIND_OF), sum(map(len, dxf_kinds.TYPES.values())))
        self.assertLessEqual(set(dxf_kinds.KIND_OF.values()), set(dxf.KINDS))

    def test_the_first_of_several_is_named_with_its_line(self):
        path = self.text(LINE, on("DIM", TEXT) * 3)
        (said,) = self.findings(path)
        self.assertRegex(said, r"part\.dxf:31: 3 TEXT make no edge, the first is TEXT\(#\w+\) on layer 'DIM'")

    def test_attributes(self):
        """Those of an insert are text that is drawn, unless they are invisible; their templates are not, unless they are constant."""
        inner = self.document.blocks.new("B")
        inner.add_line((0, 0), (10, 5))
        template = inner.add_attdef("TAG", (0, 0))
        placed = self.space.add_blockref("B", (0, 0))
        self.assertEqual(len(self.job(self.saved())[0].edges), 2)
        attribute = placed.add_attrib("TAG", "hi")
        self.finding(self.saved(), "1 ATTRIB makes no edge", "--leave-out text")
        attribute.is_invisible = True
        self.assertEqual(len(self.job(self.saved())[0].edges), 2)
        template.is_const = True
        self.finding(self.saved(), "1 ATTDEF makes no edge")

    def test_proxy_graphics_in_a_block_are_not_taken_for_it(self):
        proxy = newer("ACAD_PROXY_ENTITY", "AcDbProxyEntity", (90, 498), (91, 500))
        path = self.text(insert("B", *AT), blocks=block("B", LINE, proxy))
        self.finding(path, "1 ACAD_PROXY_ENTITY makes no edge", "--leave-out proxy")
        self.assertEqual(self.job(path, "--leave-out", "proxy")[0].edges, EDGE)

    def test_points_have_no_length(self):
        _, err = self.job(self.text(LINE, entity("POINT", *points(10, (50, 50))) * 2, polyline((70, 0), (10, 9), (20, 9))))
        self.assertIn("left out: 2 point\n", err)
        self.assertIn("1 edge without length left out\n", err)
        self.assertIn("no point of what was taken", err)


class OtherFiles(Drawn):
    def test_external_references(self):
        """An insert of another file is a finding that names it."""
        for flags in (4, 8, 4 | 32):
            begin = newer("BLOCK", "AcDbBlockBegin", (2, "BASE"), (70, flags), *AT, (3, "BASE"), (1, "parts/base.dwg"))
            path = self.text(LINE, insert("BASE", *AT), blocks=begin + newer("ENDBLK", "AcDbBlockEnd"))
            self.finding(path, "1 INSERT of the external reference 'parts/base.dwg' makes no edge", "bind it", "--leave-out xref")
            job, err = self.job(path, "--leave-out", "xref")
            self.assertEqual(job.edges, EDGE)
            self.assertIn("left out: 1 xref\n", err)

    def test_one_that_is_not_inserted(self):
        begin = newer("BLOCK", "AcDbBlockBegin", (2, "BASE"), (70, 4), *AT, (3, "BASE"), (1, "base.dwg"))
        self.assertEqual(self.job(self.text(LINE, blocks=begin + newer("ENDBLK", "AcDbBlockEnd")))[0].edges, EDGE)

    def test_one_within_a_block(self):
        begin = newer("BLOCK", "AcDbBlockBegin", (2, "BASE"), (70, 4), *AT, (3, "BASE"), (1, "base.dwg"))
        outer = block("OUTER", LINE, insert("BASE", *AT))
        self.finding(self.text(insert("OUTER", *AT), blocks=begin + newer("ENDBLK", "AcDbBlockEnd") + outer), "'base.dwg'")


class Layouts(Drawn):
    def setUp(self):
        super().setUp()
        self.paper = self.document.layout("Layout1")

    def test_paper_space_is_a_finding(self):
        self.paper.add_line((0, 0), (7, 7))
        self.paper.add_text("title")
        path = self.saved()
        self.finding(path, "the layout 'Layout1' of paper space has 2 of them (LINE, TEXT)", "--layout 'Layout1'", "--leave-out paper")
        job, err = self.job(path, "--leave-out", "paper")
        self.assertEqual(job.edges, EDGE)
        self.assertIn("left out: 2 paper\n", err)

    def test_viewports_of_a_layout_that_is_not_taken_show_the_model_space(self):
        self.paper.add_viewport((5, 5), (4, 4), (0, 0), 10)
        self.assertEqual(self.job(self.saved())[0].edges, EDGE)
        self.assertIn("no point of the drawing", self.job(self.saved())[1])

    def test_a_layout_is_chosen(self):
        self.paper.add_line((0, 0), (7, 7))
        self.document.new_layout("Second").add_line((0, 0), (9, 9))
        path = self.saved()
        job, err = self.job(path, "--layout", "layout1")
        self.assertEqual(job.edges, ((0, 0, 700, 700),))
        self.assertIn("layout taken: 1 Layout1; not taken: 1 Model, 1 Second\n", err)
        self.assertIn("no point of what was taken", err)
        job, err = self.job(path, "--layout", "Model")
        self.assertEqual(job.edges, EDGE)
        self.assertIn("layout taken: 1 Model; not taken: 1 Layout1, 1 Second\n", err)
        self.assertEqual(len(self.findings(path)), 2)
        out = ran(path, "--reach", "1", "--layout", "Model", "--layer", "0", "--json", "-o", self.folder / "part.sheet")[1]
        layers = {"taken": {"0": 1}, "not_taken": {}}
        layout = {"taken": {"Model": 1}, "not_taken": {"Layout1": 1, "Second": 1}}
        self.assertEqual(json.loads(out)["chosen"], {"layout": layout, "layers": layers})
        self.finding(path, "the layouts are 'Model', 'Layout1', 'Second'", words=("--layout", "Third"))

    def test_viewports_of_a_layout_that_is_taken_are_findings(self):
        self.paper.add_line((0, 0), (7, 7))
        self.paper.add_viewport((5, 5), (4, 4), (0, 0), 10)
        path = self.saved()
        self.finding(path, "1 VIEWPORT makes no edge", "--leave-out viewport", words=("--layout", "Layout1"))
        self.assertEqual(len(self.job(path, "--layout", "Layout1", "--leave-out", "viewport")[0].edges), 1)

    def test_paper_space_by_the_flag_of_old_releases(self):
        on_paper = entity("LINE", (67, 1), *points(10, (0, 0)), *points(11, (9, 9)))
        for text in (dxf_file(LINE, on_paper), dxf_file(LINE, on_paper).replace("AC1015", "AC1009")):
            path = self.file("part.dxf", text)
            self.finding(path, "of paper space has 1 of them (LINE)")
            self.assertEqual(self.job(path, "--layout", "Layout1")[0].edges, ((0, 0, 900, 900),))

    def test_a_paper_space_that_no_layout_names(self):
        path = self.text(LINE, blocks=block("*Paper_Space7", line(3)))
        self.finding(path, "the layout '*Paper_Space7' of paper space has 1 of them")


class Layers(Drawn):
    def test_layers_are_chosen(self):
        path = self.text(on("CUT", line(1)), on("CUT", line(2)), on("DIM", line(3)), on("DIM", TEXT), line(4))
        self.finding(path, "1 TEXT")
        for words, edges, said in (
            (["--layer", "cut"], 2, "layers taken: 2 CUT; not taken: 1 0, 2 DIM\n"),
            (["--layer", "CUT", "--layer", "0"], 3, "layers taken: 1 0, 2 CUT; not taken: 2 DIM\n"),
            (["--not-layer", "Dim"], 3, "layers taken: 1 0, 2 CUT; not taken: 2 DIM\n"),
            (["--layer", "CUT", "--layer", "DIM", "--not-layer", "DIM"], 2, "layers taken: 2 CUT; not taken: 1 0, 2 DIM\n"),
        ):
            job, err = self.job(path, *words)
            self.assertEqual(len(job.edges), edges)
            self.assertIn(said, err)
            self.assertIn("no point of what was taken", err)

    def test_all_of_them(self):
        _, err = self.job(self.text(on("CUT", line(1))), "--layer", "CUT")
        self.assertIn("layers taken: 1 CUT; not taken: none\n", err)
        self.assertIn("no point of the drawing", err)

    def test_layers_that_no_entity_has(self):
        path = self.text(on("CUT", line(1)), line(2))
        said = "--layer 'CUTS': nothing that is read is on that layer; the layers are '0', 'CUT'"
        self.finding(path, said, words=("--layer", "CUT", "--layer", "CUTS"))
        self.finding(path, "--not-layer 'DIM': nothing", words=("--not-layer", "DIM"))

    def test_layers_of_blocks(self):
        """Layer 0 of a block is the insert's; others stay what they are."""
        inner = block("B", line(1), on("DIM", line(2)))
        outer = block("C", insert("B", *AT), line(3))
        placed = on("CUT", insert("C", *AT))
        job, err = self.job(self.text(placed, blocks=inner + outer), "--layer", "CUT")
        self.assertEqual([edge[1] for edge in job.edges], [100, 300])
        self.assertIn("layers taken: 2 CUT; not taken: 1 DIM\n", err)

    def test_what_paper_space_has_on_other_layers(self):
        self.document.layout("Layout1").add_line((0, 0), (7, 7), dxfattribs={"layer": "TITLE"})
        path = self.saved()
        self.finding(path, "Layout1")
        self.assertIn("Layout1", self.findings(path, "--layer", "0", "--layer", "TITLE")[0])
        self.assertEqual(self.job(path, "--layer", "0")[0].edges, EDGE)

    def test_hidden_layers_are_taken_and_told(self):
        for name in ("freeze", "off"):
            getattr(self.document.layers.add(name), name)()
            self.space.add_line((0, 0), (1, 1), dxfattribs={"layer": name})
        inner = self.document.blocks.new("B")
        inner.add_line((0, 0), (3, 1), dxfattribs={"layer": "shown"})
        for name in ("freeze", "off"):
            self.space.add_blockref("B", (0, 0), dxfattribs={"layer": name})
        job, err = self.job(self.saved())
        self.assertEqual(len(job.edges), 5)
        self.assertIn("--not-layer leaves a layer out: 3\n", err)
        _, err = self.job(self.text(entity("LINE", (60, 1), *points(10, (0, 0)), *points(11, (10, 5)))))
        self.assertIn("--not-layer leaves a layer out: 1\n", err)

    def test_names_with_other_letters(self):
        for release in ("R2000", "R2010"):
            document = ezdxf.new(release, units=4)
            document.modelspace().add_line((0, 0), (10, 5), dxfattribs={"layer": "Höhe"})
            document.modelspace().add_line((0, 0), (1, 5))
            path = self.folder / "drawn.dxf"
            document.saveas(path)
            self.assertEqual(self.job(path, "--layer", "HÖHE")[0].edges, EDGE)
        self.assertEqual(dxf_choice.same(r"H\U+00F6he"), dxf_choice.same("HÖHE"))


class Files(Drawn):
    def test_what_may_stand_before_the_first_section(self):
        text = dxf_file(LINE)
        for before in ("\ufeff", "\n \n\t\n", "999\nmade by hand\n" * 1000, "\ufeff\n999\n0\n999\nSECTION\n\n"):
            for ends in ("\n", "\r\n", "\r"):
                path = self.file("part.dxf", (before + text).replace("\n", ends))
                self.assertEqual(self.job(path)[0].edges, EDGE, before[:20])

    def test_lines_are_counted_from_the_file_s_first(self):
        path = self.file("part.dxf", "\n\n999\nmade by hand\n" + dxf_file(LINE, TEXT))
        self.assertIn("part.dxf:35: ", self.findings(path)[0])

    def test_what_stands_behind_the_end(self):
        self.assertNotIn("behind", self.job(self.file("part.dxf", dxf_file(LINE) + "\n \x1a"))[1])
        self.assertIn("2 lines behind its end are not read", self.job(self.file("part.dxf", dxf_file(LINE) + "0\nLINE\n"))[1])

    def test_what_ezdxf_loses(self):
        section = tags((0, "SECTION"), (2, "ENTITIES")) + LINE + tags((0, "ENDSEC"))
        for text, said in (
            (dxf_file(line(1)).replace(tags((0, "EOF")), section + tags((0, "EOF"))), "the section ENTITIES stands there 2 times"),
            (dxf_file(LINE, blocks=block("B", LINE) + block("b", line(2))), "the block 'b' is defined 2 times"),
            (dxf_file(LINE, blocks=newer("BLOCK", "AcDbBlockBegin", (2, "A"), *AT) + line(1) + block("B", LINE)), "ezdxf loads 2 of its 3 LINE"),
            (dxf_file(LINE).replace("0\nENDSEC\n", "0\nENDSEC\n0\nLINE\n8\n0\n", 1), "found tags outside a SECTION"),
        ):
            self.assertTrue(any(said in message for message in self.findings(self.file("part.dxf", text))), said)

    def test_what_would_have_to_be_mended(self):
        broken = dxf_file(LINE).replace("0\nENDSEC\n", "0\nENDSEC\n0\nENDSEC\n", 1)
        said = self.findings(self.file("part.dxf", broken))
        self.assertIn("no DXF drawing that can be read", said[0])

    def test_blocks_that_are_flattened(self):
        for scale in ([(41, 0)], [(42, 0), (41, 2)]):
            self.finding(self.text(insert("B", *AT, *scale), blocks=block("B", LINE)), "its scale is 0")

    def test_places_of_faults(self):
        self.finding(self.text(LINE, entity("LINE", *points(10, (0, 0)))), "part.dxf:31: LINE(#", "has no end")

    def test_widths_and_thicknesses_are_told(self):
        wide = polyline((70, 0), (43, 3), (10, 0), (20, 0), (10, 5), (20, 5))
        thick = entity("LINE", (39, 4), *points(10, (0, 0)), *points(11, (10, 5)))
        _, err = self.job(self.text(wide, thick))
        self.assertIn("the centre line is taken: 1\n", err)
        self.assertIn("part is taken: 1\n", err)
        aside = entity("LINE", (39, 4), *points(10, (0, 0)), *points(11, (10, 5)), *points(210, (1, 0, 0)))
        self.finding(self.text(LINE, aside), "is not in the plane z = 0")

    def test_frames_of_fitted_polylines(self):
        def vertices(*flags):
            return "".join(entity("VERTEX", *points(10, (5 * at, at % 2)), (70, flag)) for at, flag in enumerate(flags)) + entity("SEQEND")

        fitted = entity("POLYLINE", (66, 1), (70, 4), *AT)
        self.assertEqual(len(self.job(self.text(fitted + vertices(16, 8, 8, 8, 16)))[0].edges), 2)
        self.finding(self.text(LINE, fitted + vertices(16, 16, 16)), "has the frame of a fitted curve, and not the curve")

    def test_polylines_above_the_plane(self):
        high = entity("POLYLINE", (66, 1), (70, 0), *points(10, (0, 0, 3)))
        vertex = entity("VERTEX", *points(10, (0, 0))) + entity("VERTEX", *points(10, (5, 5))) + entity("SEQEND")
        self.finding(self.text(high + vertex), "is not in the plane z = 0")


if __name__ == "__main__":
    unittest.main()
