#!/usr/bin/env python3
"""Spells this repository's own definitions and lemmas as Rattle does: `mapOf` is `map_of` and `map-last` is `map_last`.

usage: tools/respell.py [--check]     at the top of the repository, once, after port.py

What is declared in specs/ and in the lemma files of proofs/ is turned wherever it is named: in specs/, in proofs/, in the clauses and `ghost use`
items of src/, and in the code spans of comments and pages. Names that come from a library, functions of src/, strings and answers' goals stay.
In a function's own proof its helpers and the name of its theorem are turned too. Prints each place where two names of one file would fall together.
"""
import glob
import os
import re
import sys

WORD = r"[^\s(){}.;,@\"«»]+"
DECLARED = re.compile(rf"^(\s*)((?:(?:pub|abbrev|unfoldable) )*)({WORD}(?: {WORD})*) :(?= |$)")
ITEM = re.compile(rf"^(?:pub )?use ([^\s;{{}}]+?)(?:\.\{{([^}}]*)\}})?(?: as ({WORD}))?\s*;?$", re.M | re.S)
OTHERWISE = {
    "R-E": "r_minus_e",
    "R+E": "r_plus_e",
    "getD-table": "get_or_table",
    "getD-rowMajor": "get_or_row_major",
    # these would fall together with the definition that they are about
    **{name: name.replace("-", "_") + "_is" for name in "any-long box_of digit-of excess-by in-turn is-number is-zero is_one map_of off-plate".split()},
    **{name: name.replace("-", "_") + "_is" for name in "on-plate pad-most pad-of row-long sheet-left sheet-of sheet-text span-of".split()},
    **{name: name.replace("-", "_") + "_is" for name in "store-of strip-of zero-job".split()},
}
GENERATED = re.compile(r"\.(Tie|Goals|Given|Statement|Lts|Code|Met|Reads|Kinds)$")
STANDING = set()  # what is declared and was spelled so already
PAGES = ["README.md", "CONTRIBUTING.md", "docs/*.md", "bench/README.md", "python/README.md", "bindings/*/README.md"]


def spelled(name):
    if name in OTHERWISE:
        return OTHERWISE[name]
    if "◌" in name or not re.search(r"[^\W\d_]|[≺≼≽]", name):
        return name
    out = re.sub(r"(?<=[^-])-(?=[^-])", "_", name)
    if out[0].islower() or "-" in name:
        out = re.sub(r"(?<=[a-z0-9])([A-Z])", r"_\1", out)
        out = "".join(c.lower() if "A" <= c <= "Z" else c for c in out)
    return out


def read(path):
    with open(path, encoding="utf-8", newline="") as file:
        return file.read()


def split(text, comment):
    """The text as pieces: ('code' | 'text' | 'comment', piece)."""
    out, at = [], 0
    for m in re.finditer(rf'"(?:[^"\\\n]|\\.)*"|(?<![^\s(){{}}.;,]){comment}[^\n]*', text):
        out += [("code", text[at : m.start()]), ("text" if m[0][0] == '"' else "comment", m[0])]
        at = m.end()
    return out + [("code", text[at:])]


def code_of(text, comment="--"):
    return "".join(piece if kind == "code" else re.sub(r"[^\n]", " ", piece) for kind, piece in split(text, comment))


def declared(path):
    """Names declared in a file: (name, is it a field)."""
    inside = False
    for line in code_of(read(path)).split("\n"):
        if line and not line[0].isspace():
            inside = bool(re.match(r"(pub )?record\b", line))
        m = DECLARED.match(line)
        if m:
            words = m[3].split(" ")
            if words[0] in ("use", "module", "record", "data", "let", "in", "where", "mutual"):
                continue
            for word in words:
                yield word, inside and bool(m[1])


def imports(code, crates):
    """What a file's `use` items bring: names of this repository, names of libraries, aliases of this repository's modules."""
    own, other, aliases = set(), set(), set()
    for m in ITEM.finditer(re.sub(r"(?m)^ghost use", "use", code)):
        parts = m[1].split(".")
        ours = parts[0] == "Rattle" and len(parts) > 1 and parts[1] in crates and not GENERATED.search(m[1])
        if m[2] is None:
            if ours:
                aliases.add(m[3] or parts[-1])
            continue
        for item in m[2].split(","):
            words = item.split()
            if not words:
                continue
            (own if ours else other).update(words[:1] if len(words) == 1 else [words[0]])
            if len(words) == 3 and not ours:
                other.add(words[2])
    return own, other, aliases


def turned(code, table, fields, aliases, leave, only=None):
    def one(m):
        word, head = m[0], code[: m.start()]
        new = table.get(word)
        if new is None or new == word:
            return word
        if head.endswith("."):
            before = re.search(rf"({WORD})\.$", head)
            if word in fields or (before and before[1] in aliases):
                return new
            return word
        if word in leave or (only is not None and word not in only):
            return word
        return new

    return re.sub(WORD, one, code)


def spans(text, table):
    """Code spans name what port.py had turned already, too."""
    now = STANDING.union(table.values())

    def one(w):
        return table[w[0]] if w[0] in table else spelled(w[0]) if spelled(w[0]) in now else w[0]

    return re.sub(r"`[^`\n]+`", lambda m: re.sub(WORD.replace('"', '"`'), one, m[0]), text)


def main(argv):
    check = "--check" in argv
    crates = {c for c in os.listdir("crates") if os.path.isdir(f"crates/{c}/src")}
    laws = sorted(glob.glob("crates/*/specs/**/*.antt", recursive=True) + glob.glob("crates/*/proofs/*.antt"))
    proofs = sorted(set(glob.glob("crates/*/proofs/**/*.antt", recursive=True)) - set(laws))
    sources = sorted(glob.glob("crates/*/src/**/*.rt", recursive=True))
    table, fields = {}, set()
    for path in laws:
        for name, field in declared(path):
            table[name] = spelled(name)
            if field:
                fields.add(name)
    STANDING.update(old for old, new in table.items() if old == new)
    table = {old: new for old, new in table.items() if old != new}
    fields &= set(table)
    count = 0

    def put(path, text, new):
        nonlocal count
        if new != text:
            count += 1
            if not check:
                with open(path, "w", encoding="utf-8", newline="") as file:
                    file.write(new)

    def together(path, pairs):
        seen = {}
        for old, new in pairs:
            if seen.setdefault(new, old) != old:
                print(f"together: {path}: {seen[new]} and {old} would be {new}")

    for path in laws + proofs:
        text = read(path)
        code = code_of(text)
        own, other, aliases = imports(code, crates)
        mine, only = table, None
        if path in proofs:
            mine, only = dict(table), set(own)
            for line in code.split("\n"):
                m = re.match(rf"^(\s*)((?:(?:pub|abbrev|unfoldable) )*)({WORD}(?: {WORD})*) : *(.*)$", line)
                if m and not re.match(r"(\(\w+ : [^)]*\) → )*tie\.(Need|inv|dec)", m[4]):
                    for word in m[3].split(" "):
                        mine[word] = spelled(word)
                        only.add(word)
            goals = {m[1] for m in re.finditer(rf"(?m)^\s*(?:(?:pub|abbrev) )*({WORD}) : *tie\.", code)}
            other = (other | goals) - own
        leave = other - own if path in laws else other
        new = "".join(
            turned(piece, mine, fields, aliases, leave, only) if kind == "code" else piece if kind == "text" else spans(piece, table)
            for kind, piece in split(text, "--")
        )
        words = set(re.findall(WORD, code))
        together(path, ((w, turned(w, mine, fields, aliases, leave, only)) for w in sorted(words)))
        put(path, text, new)
    for path in sources:
        text = read(path)
        own, other, aliases = imports(code_of(text, "//"), crates)
        out, at = [], 0
        code = code_of(text, "//")
        for m in re.finditer(r"ghost use\b[^;]*;|(?:requires|ensures)\*? *\w* *\{|ghost +\w+ *: *\{", code):
            if m.start() < at:
                continue
            end = m.end()
            if not m[0].endswith(";"):
                deep = 1
                while deep:
                    deep += {"{": 1, "}": -1}.get(code[end], 0)
                    end += 1
            out += [spans(text[at : m.start()], table), turned(text[m.start() : end], table, fields, aliases, other - own, own)]
            at = end
        put(path, text, "".join(out) + spans(text[at:], table))
    for path in sorted(p for page in PAGES for p in glob.glob(page)):
        text = read(path)
        new = spans(text, table)
        for a, b in zip(text.split("\n"), new.split("\n")):
            if a != b and check:
                print(f"page: {path}: {b[:160]}")
        put(path, text, new)
    print(f"respell: {len(table)} names, {count} files" + (" would change" if check else " changed"))


main(sys.argv[1:])
