"""What no contract can fix of the library from C, Rust and Python: the exported symbols are the functions of crates/exports_c/src/lib.rt, the five
entries, table four's clamps and the version, each with the whole contract that stands here, as the function of crates/exports that it calls
has it too; and the header, the Rust wrapper and the Python module declare them with the same arguments in the same order. The version is one
everywhere."""

import re
import unittest
from pathlib import Path

TOP = Path(__file__).resolve().parent.parent
# The library over rows, and the names in C over it.
LIBRARY, EXPORTS = TOP / "crates/exports/src/lib.rt", TOP / "crates/exports_c/src/lib.rt"
SOURCES = [path.read_text(encoding="utf-8") for path in (LIBRARY, EXPORTS)]
ROWS = TOP / "crates/exports/specs/Rows.antt"
# Each function with all clauses of its contract: what it returns, and what it leaves in each part of the memory that it may change. JOB is the job of
# the row lent.
CONTRACTS = {
    "clearance_version": {"number": "result ≡ version_number"},
    "clearance_read": {
        "refusal": "result ≡ (entries.read sheet.now).refusal",
        "row": "job.new ≡ read_leaves sheet.now job.old",
    },
    "clearance_write": {
        "refusal": "result ≡ (entries.write JOB out.old).refusal",
        "count": "bytes.new ≡ bytes_left JOB out.old bytes.old",
        "lent": "out.new ≡ entries.write_leaves JOB out.old",
    },
    "clearance_map": {
        "refusal": "result ≡ (entries.map JOB store.old cells.old).refusal",
        "count": "nodes.new ≡ nodes_left JOB store.old cells.old nodes.old",
        "trees": "store.new ≡ entries.map_store JOB store.old cells.old",
        "letters": "cells.new ≡ entries.map_cells JOB store.old cells.old",
        "demand3": "result ≡ 0 → MapHolds JOB cells.new",
    },
    "clearance_point": {
        "refusal": "result ≡ (entries.point JOB x y store.now).refusal",
        "numbers": "nearest.new ≡ numbers_left JOB x y store.now nearest.old",
        "bounds": "result ≡ 0 → Bounds JOB (whole_point x y) (lo_in nearest.new) (hi_in nearest.new)",
    },
    "clearance_points": {
        "refusal": "result ≡ entries.points_refusal JOB spots.now store.now reply.old",
        "lent": "reply.new ≡ entries.points_reply JOB spots.now store.now reply.old",
        "bounds": "result ≡ 0 → PointsHold JOB spots.now reply.new",
    },
    "clearance_clamps": {
        "refusal": "result ≡ (table.place JOB cells.now clamps.now).refusal",
        "numbers": "placed.new ≡ placed_left JOB cells.now clamps.now placed.old",
        "go": "result ≡ 0 → go_in placed.new ≡ 1 → MapHolds JOB cells.now → GoMeans JOB clamps.now",
    },
}
# The definitions that the clauses cite, by the module that each comes from.
CITED = {
    "Rattle.model.specs.Entries": {"entries"},
    "Rattle.model.specs.Promises": {"MapHolds", "Bounds", "whole_point", "PointsHold"},
    "Rattle.table_four.specs.Table": {"table"},
    "Rattle.table_four.specs.Promises": {"GoMeans"},
    "Rattle.flat_jobs.specs.FlatJobs": {"job_from"},
    "Rattle.exports.specs.Rows": {"read_leaves", "bytes_left", "nodes_left", "lo_in", "hi_in", "numbers_left", "go_in", "placed_left"},
    "Rattle.exports.specs.Versions": {"version_number"},
}
# What Rows says of them, entry by entry: what an accepted call leaves, and after a refused one what was there.
LEFT = {
    "read_leaves sheet row": "accepted (read sheet).refusal (numbers_of (read sheet).job) row",
    "bytes_left j out old": "accepted (write j out).refusal (write j out).bytes old",
    "nodes_left j store cells old": "accepted (map j store cells).refusal (map j store cells).nodes old",
    "lo_in numbers": "get_or numbers 0 (pos 0)",
    "hi_in numbers": "get_or numbers 1 (pos 0)",
    "edge_in numbers": "get_or numbers 2 (pos 0)",
    "numbers_left j x y store old": "accepted (point j x y store).refusal "
    "((point j x y store).lo ∷ (point j x y store).hi ∷ pos (point j x y store).edge ∷ []) old",
    "flag true": "1",
    "flag false": "0",
    "go_in numbers": "get_or numbers 0 0",
    "placed_left j cells cs old": "accepted (place j cells cs).refusal "
    "(flag (place j cells cs).go ∷ (place j cells cs).clamp ∷ (place j cells cs).column ∷ (place j cells cs).row ∷ []) old",
}
IN_C = {"u8": "uint8_t", "i32": "int32_t", "i64": "int64_t", "u64": "uint64_t", "usize": "size_t"}
IN_PYTHON = {"const uint8_t *": "_bytes", "uint8_t *": "_bytes", "const int32_t *": "_int32s", "int32_t *": "_int32s", "int64_t *": "_int64s",
             "const size_t *": "_sizes", "size_t *": "_sizes", "size_t ": "_size", "int32_t ": "ctypes.c_int32"}


def listed(text):
    """The arguments of a list, which may end with a comma."""
    return [argument.strip() for argument in re.split(r",(?![^\[]*\])", text) if argument.strip()]


def exported(text):
    """The functions by name, of the library or with their names in C, each as (its arguments, what it returns, what stands between that and its body)."""
    found = re.findall(r'^(?:#\[unsafe\(no_mangle\)\]\npub extern "C"|pub) fn (\w+)\(([^)]*)\) -> (\w+)\n((?:    .*\n)*)\{\n', text, re.M)
    return {name: (listed(arguments), IN_C[result], clauses) for name, arguments, result, clauses in found}


def contract(written):
    """The clauses of a contract by name; what is no clause of the form `ensures NAME { TEXT }` stands under its own text."""
    lines = [(line, re.fullmatch(r"    ensures (\w+) \{ (.*) \}", line)) for line in written.splitlines()]
    return {clause[1] if clause else line: clause[2] if clause else "" for line, clause in lines}


def spelled(clause):
    """A clause of the table as the source has it."""
    return clause.replace("JOB", "(job_from job.now)")


def bound(text):
    """The names that the source takes from definitions, each with its module."""
    listed_names = {name: module for module, names in re.findall(r"^ghost use (\S+)\.\{(.*)\};$", text, re.M) for name in names.split(", ")}
    return {**listed_names, **{name: module for module, name in re.findall(r"^ghost use (\S+) as (\w+);$", text, re.M)}}


def unlike(text):
    """The functions whose contract is not the one that stands here, and the names in it that mean something else."""
    functions, names = exported(text), bound(text)
    wanted = {name: {clause: spelled(said) for clause, said in clauses.items()} for name, clauses in CONTRACTS.items()}
    other = [name for name in {**wanted, **functions} if name not in functions or contract(functions[name][2]) != wanted.get(name)]
    return other + [name for module, cited in CITED.items() for name in sorted(cited) if names.get(name) != module]


def unfixed(text):
    """The memory that a function may change and no clause of its contract fixes, whatever stands in the table."""
    found = []
    for name, (arguments, _, clauses) in exported(text).items():
        changed = [argument.split(": ")[0] for argument in arguments if "&mut " in argument]
        found += [f"{name} {argument}" for argument in changed if f"{{ {argument}.new ≡ " not in clauses]
    return found


def defined(text):
    """The definitions of a file that others may cite, each head with its one equation."""
    heads = re.findall(r"^(?:unfoldable|abbrev) pub (\w+) :", text, re.M)
    return {head: said for name in heads for head, said in re.findall(rf"^({name} .*?) = (.*)$", text, re.M)}


def lent(argument):
    """An argument of the library as the header declares it: a slice is a pointer and a length."""
    name, kind = argument.split(": ")
    shape = re.fullmatch(r"(&mut |&|)(\[)?(\w+)(?:; \w+)?\]?", kind)
    mark, slice_, number = shape.groups()
    if not mark:
        return [f"{IN_C[number]} {name}"]
    pointer = ("const " if mark == "&" else "") + f"{IN_C[number]} *{name}"
    return [pointer, f"size_t {name}_len"] if slice_ and ";" not in kind else [pointer]


def declared_in_c():
    text = (TOP / "include/clearance.h").read_text(encoding="utf-8")
    functions = re.findall(r"^(\w+) (\w+)\(([^)]*)\);", text, re.M)
    return {name: ([re.sub(r"(\w+)\[\w+\]$", r"*\1", " ".join(a.split())) for a in listed(arguments) if a != "void"], result) for result, name, arguments in functions}


def declared_in_rust():
    text = (TOP / "bindings/rust/src/ffi.rs").read_text(encoding="utf-8")
    functions = re.findall(r"pub fn (\w+)\(([^)]*)\) -> (\w+);", text)
    return {name: ([in_rust(argument) for argument in listed(arguments)], IN_C[result]) for name, arguments, result in functions}


def declared_in_python():
    """The kinds of arguments alone: a call of the module has no names for them. The version is declared where it is asked."""
    text = (TOP / "python/clearance/library.py").read_text(encoding="utf-8")
    return {name: listed(kinds) for name, kinds in re.findall(r'^    "(clearance_\w+)": \(([^)]*)\),$', text, re.M)}


def in_rust(argument):
    name, kind = argument.split(": ")
    mark, number = re.fullmatch(r"(\*const |\*mut |)\[?(\w+)(?:; \w+\])?", kind).groups()
    return {"*const ": "const ", "*mut ": "", "": ""}[mark] + IN_C[number] + (" *" if mark else " ") + name


def version_parts():
    """Where the version stands, and what stands there."""
    header = (TOP / "include/clearance.h").read_text(encoding="utf-8")
    proved = (TOP / "crates/exports/specs/Versions.antt").read_text(encoding="utf-8")
    found = {
        "header": ".".join(re.search(rf"#define CLEARANCE_{part} (\d+)\n", header)[1] for part in ("MAJOR", "MINOR", "PATCH")),
        "library": ".".join(re.search(rf"^{part} = (\d+)$", proved, re.M)[1] for part in ("major", "minor", "patch")),
        "Python": re.search(r'VERSION = "(.*)"', (TOP / "python/clearance/version.py").read_text(encoding="utf-8"))[1],
    }
    for name in ("bindings/rust", "bench", "differential", "reference"):
        found[name] = re.search(r'^version = "(.*)"', (TOP / name / "Cargo.toml").read_text(encoding="utf-8"), re.M)[1]
    return found


class Exports(unittest.TestCase):
    def test_each_has_its_whole_contract(self):
        for source in SOURCES:
            self.assertEqual(unlike(source), [])
            self.assertEqual(unfixed(source), [])
            self.assertEqual(list(exported(source)), list(CONTRACTS))

    def test_each_calls_its_own(self):
        """The contracts say it too, but for what they leave open."""
        library, exports = map(exported, SOURCES)
        for name, (arguments, result, _) in exports.items():
            self.assertEqual((arguments, result), library[name][:2])
            given = ", ".join(argument.split(": ")[0] for argument in arguments)
            self.assertIn(f"\n{{\n    exports::{name}({given})\n}}\n", SOURCES[1])

    def test_clauses_cite_what_the_rows_define(self):
        text = ROWS.read_text(encoding="utf-8")
        self.assertEqual(defined(text), LEFT)
        used = set(re.findall(r"\w+", " ".join(clause for clauses in CONTRACTS.values() for clause in clauses.values())))
        self.assertLessEqual(set().union(*CITED.values()), used | {"job_from"})
        # A C function leaves an edge among a point's numbers, which only a promise reads there, and a go as a number among the clamps'.
        self.assertEqual({head.split()[0] for head in defined(text)} - used, {"edge_in", "flag"})

    def test_nothing_else_is_exported(self):
        marks = {path: path.read_text(encoding="utf-8").count("no_mangle") for path in (TOP / "crates").rglob("*.rt")}
        self.assertEqual({path: count for path, count in marks.items() if count}, {EXPORTS: len(CONTRACTS)})

    def test_arguments_are_declared_in_order(self):
        wanted = {name: (sum(map(lent, arguments), []), result) for name, (arguments, result, _) in exported(SOURCES[1]).items()}
        self.assertEqual(declared_in_c(), wanted)
        self.assertEqual(declared_in_rust(), wanted)
        kinds = {name: [IN_PYTHON[re.sub(r"\w+$", "", a)] for a in arguments] for name, (arguments, _) in wanted.items() if arguments}
        self.assertEqual(declared_in_python(), kinds)

    def test_one_version(self):
        self.assertEqual(len(set(version_parts().values())), 1, version_parts())


class PlantedFaults(unittest.TestCase):
    """Each fault is planted in a copy of a source's text, of the library's and of that with the names in C, and has to be found."""

    def planted(self, old, new, text):
        self.assertEqual(text.count(old), 1, old)
        return text.replace(old, new)

    def clause_lines(self):
        for source in SOURCES:
            for name, clauses in CONTRACTS.items():
                for clause, said in clauses.items():
                    yield source, name, clause, f"    ensures {clause} {{ {spelled(said)} }}\n"

    def planted_clauses(self, old, new):
        """One clause's text in the place of another's, in each source."""
        return [self.planted(old, new, source) for source in SOURCES]

    def test_each_clause_dropped(self):
        for source, name, clause, line in self.clause_lines():
            with self.subTest(name, clause=clause):
                self.assertEqual(unlike(self.planted(line, "", source)), [name])

    def test_each_clause_emptied_or_renamed(self):
        for source, name, clause, line in self.clause_lines():
            for other in f"    ensures {clause} {{ 0 ≡ 0 }}\n", line.replace(f" {clause} ", f" {clause}_too "):
                with self.subTest(name, other=other):
                    self.assertEqual(unlike(self.planted(line, other, source)), [name])

    def test_demands_on_the_caller(self):
        line = "    ensures refusal { result ≡ (entries.point "
        for text in self.planted_clauses(line, "    requires few { x ≡ y }\n" + line):
            self.assertEqual(unlike(text), ["clearance_point"])

    def test_arguments_exchanged_in_a_clause(self):
        for text in self.planted_clauses("(whole_point x y)", "(whole_point y x)"):
            self.assertEqual(unlike(text), ["clearance_point"])

    def test_what_was_lent_for_what_is_left(self):
        for text in self.planted_clauses("MapHolds (job_from job.now) cells.new", "MapHolds (job_from job.now) cells.old"):
            self.assertEqual(unlike(text), ["clearance_map"])

    def test_names_of_other_modules(self):
        for module, names in CITED.items():
            for source in SOURCES:
                with self.subTest(module):
                    text, count = re.subn(rf"^ghost use {re.escape(module)}(?=\.\{{| as )", rf"ghost use {module}Other", source, flags=re.M)
                    self.assertEqual((count, unlike(text)), (1, sorted(names)))

    def test_functions_added_and_left_out(self):
        mark = '#[unsafe(no_mangle)]\npub extern "C" fn clearance_map('
        self.assertEqual(unlike(self.planted(mark, "fn clearance_map(", SOURCES[1])), ["clearance_map"])
        self.assertEqual(unlike(self.planted("pub fn clearance_map(", "fn clearance_map(", SOURCES[0])), ["clearance_map"])
        body = "fn clearance_more(x: &mut usize) -> u8\n    ensures few { result ≡ 0 }\n{\n    0\n}\n"
        for source, head in zip(SOURCES, ("pub ", '#[unsafe(no_mangle)]\npub extern "C" ')):
            added = source + head + body
            self.assertEqual((unlike(added), unfixed(added)), (["clearance_more"], ["clearance_more x"]))

    def test_lent_memory_without_a_clause(self):
        for source, name, clause, line in self.clause_lines():
            left = re.search(r"\{ (\w+)\.new ≡ ", line)
            with self.subTest(name, clause=clause):
                self.assertEqual(unfixed(self.planted(line, "", source)), [f"{name} {left[1]}"] if left else [])

    def test_rows_that_say_something_else(self):
        rows = ROWS.read_text(encoding="utf-8")
        for old, new in {"pos (point j x y store).edge": "pos 7", ".nodes old": ".nodes 0", "get_or numbers 2": "get_or numbers 1"}.items():
            with self.subTest(old):
                self.assertNotEqual(defined(self.planted(old, new, rows)), LEFT)


if __name__ == "__main__":
    unittest.main()
