#!/usr/bin/env python3
"""Compares the documents with the tree.

Usage: bench/documents.py

Of docs/ARCHITECTURE.md: each crate of crates/ and no other is to stand in crates.txt, in the drawing, there once, in the
table of the crates and in that of the sizes. The layers of crates.txt, lowest first, are those of the drawing,
and a crate stands on others of its own layer or of lower ones. The crates of tests in the drawing are those that are named so,
with others on which they alone stand. A crate's last column of the first table names exactly what crates.txt
has; where it ends with "and what they stand on", the others are to be reached from those that it names. In
the second table the number of edits is that of the crate's files, the lines of code are those of src/ without
tests and blank lines, within a tenth, for a crate that has other than tests, and the last row has the sums.

Of docs/PROVED.md: a heading or a line of its own names a crate, and the heading a function too. In a table
below a heading the first cell names clauses of that function, and what is bold is a field of a record that the
row names. In an item below a crate each name in parentheses is a clause of a function that the item names, or
that one before it does, or a field of a record that it names; each other name is a function, a member, a
definition or a law. All stand in the crate or in one that the item names; a definition may stand below.

Of docs/DEFINITIONS.md: a row's last cell names files of specs/, in the crate named before them or else in those
of the heading, and the row's definitions stand there.

Of each document: a crate or a file that it names is there.

Prints one line for each difference, and ends with status 1 where there is one.
"""

import re
import sys
from functools import cache
from pathlib import Path

TOP = Path(__file__).resolve().parent.parent
CRATE = re.compile(r"\b(?:dv_\w+|sdbox)\b")
OTHERS = " and what they stand on"
NONE = "–"

FUNCTION = re.compile(r"\bfn (\w+)")
CLAUSE = re.compile(r"\b(?:ensures|requires)\*? (\w+) \{")
MEMBER = re.compile(r"\bghost (\w+)\s*[:=]")
DEFINITION = re.compile(r"^(?: *\w+ pub | *pub (?:record|data) |pub )(?:record |data )?(\w+)", re.MULTILINE)
LAW = re.compile(r"^ *(?:abbrev )?pub (\w+) :", re.MULTILINE)
RECORD = re.compile(r"^pub record (\w+)(.*(?:\n[ -].*)*)", re.MULTILINE)
FIELD = re.compile(r"^ +pub (\w+) :", re.MULTILINE)
BOLD = re.compile(r"\*\*`(\w+)`\*\*")
NAME = re.compile(r"`(?:\w+::)?([A-Za-z_]\w*)`")
PLACE = re.compile(r"`[^`]*`|[()]")
OVER_CRATES = re.compile(r"((?:dv_\w+|sdbox)(?:, dv_\w+)*)(?:, on which .*)?")
OVER_FUNCTION = re.compile(r"## .*: `(\w+)` of (dv_\w+) \(`(src/[\w/]+\.rt)`\)")
FILE = re.compile(r"`((?:bench|docs|src|specs|proofs)/[\w/.]+\.\w+|[\w/]+\.rt)`")


# ---- the tree


@cache
def listed_crates():
    """What crates.txt has each crate stand on."""
    crates = {}
    for line in (TOP / "crates.txt").read_text().splitlines():
        name, found, others = line.partition("#")[0].partition(":")
        if found:
            crates[name.split()[0]] = others.split()
    return crates


def reached(names):
    """These crates and all that they stand on."""
    known, left = set(), list(names)
    while left:
        name = left.pop()
        if name not in known:
            known.add(name)
            left += listed_crates().get(name, [])
    return known


@cache
def texts_of(crate, *folders):
    """The texts of a crate's files in these folders."""
    files = [path for folder in folders for path in (TOP / "crates" / crate / folder).rglob("*")]
    return [path.read_text() for path in files if path.suffix in (".rt", ".antt")]


@cache
def functions_of(crate):
    """The names of the clauses of a crate's functions, by their names."""
    functions = {}
    for text in texts_of(crate, "src"):
        parts = FUNCTION.split(text)
        for name, behind in zip(parts[1::2], parts[2::2]):
            functions.setdefault(name, set()).update(CLAUSE.findall(behind))
    return functions


@cache
def members_of(crate):
    """The names of the ghost members of a crate's traits."""
    return {name for text in texts_of(crate, "src") for name in MEMBER.findall(text)}


@cache
def definitions_of(crate):
    return {name for text in texts_of(crate, "specs") for name in DEFINITION.findall(text)}


@cache
def laws_of(crate):
    return {name for text in texts_of(crate, "proofs") for name in LAW.findall(text)}


@cache
def records_of(crate):
    """The names of the fields of a crate's records, by their names."""
    found = [match for text in texts_of(crate, "specs") for match in RECORD.findall(text)]
    return {name: set(FIELD.findall(body)) for name, body in found}


@cache
def words_of(crate):
    return {word for text in texts_of(crate, "src", "specs", "proofs") for word in re.findall(r"\w+", text)}


# ---- docs/ARCHITECTURE.md


def rows_of(text, columns):
    """The cells of a table's rows with so many columns, by their first cell."""
    rows = {}
    for line in text.splitlines():
        cells = [cell.strip() for cell in line.strip("|").split("|")]
        if len(cells) == columns and (CRATE.fullmatch(cells[0]) or cells[0] == "sum"):
            rows[cells[0]] = cells[1:]
    return rows


def name_differences(place, names, tree):
    for name in sorted(tree - names):
        yield f"{place}: {name} is missing"
    for name in sorted(names - tree):
        yield f"{place}: there is no {name}"


def twice(place, names):
    for name in sorted({name for name in names if names.count(name) > 1}):
        yield f"{place}: {name} stands there twice"


def listed_layers():
    """The layers of crates.txt, lowest first: their names, each with its crates."""
    layers = {}
    for line in (TOP / "crates.txt").read_text().splitlines():
        name, found, _ = line.partition(":")
        if line.startswith("# "):
            crates = layers.setdefault(line[2:], [])
        elif found:
            crates.append(name.split()[0])
    return layers


def layer_differences(drawn):
    layers = listed_layers()
    below = set()
    for layer, crates in layers.items():
        below |= set(crates)
        for name in crates:
            for other in sorted(set(listed_crates()[name]) & set(listed_crates()) - below):
                yield f"crates.txt: {name} of {layer} stands on {other}, which is above it"
        told = re.search(rf"^    {layer}  .*\n(?:     +.*\n)*", drawn, re.MULTILINE)
        if sorted(CRATE.findall(told[0] if told else "")) != sorted(crates):
            yield f"the drawing: {layer} isn't as in crates.txt"


def test_differences(tests, tree):
    for name in sorted(tree):
        if name.startswith("dv_tests") and name not in tests:
            yield f"the drawing: {name} isn't among the tests"
        for other in sorted(set(listed_crates().get(name, [])) & tests):
            if name not in tests:
                yield f"the drawing: {other} is among the tests, and {name} stands on it"


def dependency_differences(rows):
    for name, cells in rows.items():
        wanted, told = set(listed_crates().get(name, [])), cells[-1]
        named = {other for other in told.removesuffix(OTHERS).split(", ") if other}
        for other in sorted(named - wanted):
            yield f"the crates: {name} doesn't stand on {other}"
        known = reached(named) if told.endswith(OTHERS) else named
        for other in sorted(wanted - known):
            yield f"the crates: {name} stands on {other} too"


def lines_of(crate):
    """How many lines a crate's sources have without tests and blank lines."""
    source = TOP / "crates" / crate / "src"
    texts = [path.read_text() for path in source.rglob("*.rt") if "test" not in str(path.relative_to(source))]
    return sum(1 for text in texts for line in text.splitlines() if line.strip())


def size_differences(rows):
    sums = rows.pop("sum", None)
    for name, cells in rows.items():
        lines, told = lines_of(name), int(cells[0])
        if told and abs(lines - told) > max(10, told / 10):
            yield f"the sizes: {name} has {lines} lines, not {told}"
        edits = len(list((TOP / "crates" / name / "must-fail").glob("*.edit")))
        if cells[1] != str(edits):
            yield f"the sizes: {name} has {edits} edits, not {cells[1]}"
    if sums is None:
        yield "the sizes: the row of sums is missing"
        return
    for column, told in enumerate(sums):
        if told:
            numbers = [cells[column] for cells in rows.values() if cells[column] != NONE]
            whole = sum(map(float, numbers))
            if abs(whole - float(told)) > 0.05:
                yield f"the sizes: column {column + 2} sums to {whole:g}, not {told}"


def architecture_differences():
    tree = {path.name for path in (TOP / "crates").iterdir() if path.is_dir()}
    text = (TOP / "docs" / "ARCHITECTURE.md").read_text()
    drawing, _, behind = text.partition("\n## The crates\n")
    drawn = "".join(line for line in drawing.splitlines(True) if line.startswith("    "))
    tests = drawn.partition("    tests, by layer")[2]
    table = rows_of(behind.partition("\n## ")[0], 3)
    sizes = rows_of(text.partition("\n## Sizes and times\n")[2], 7)
    yield from name_differences("crates.txt", set(listed_crates()), tree)
    yield from name_differences("the drawing", set(CRATE.findall(drawn)), tree)
    yield from twice("the drawing", CRATE.findall(drawn))
    yield from layer_differences(drawn)
    yield from test_differences(set(CRATE.findall(tests)), tree)
    yield from name_differences("the crates", set(table), tree)
    yield from name_differences("the sizes", set(sizes) - {"sum"}, tree)
    yield from dependency_differences(table)
    yield from size_differences(sizes)


# ---- docs/PROVED.md


def functions_in(crates):
    functions = {}
    for crate in crates:
        for name, clauses in functions_of(crate).items():
            functions.setdefault(name, set()).update(clauses)
    return functions


def fields_named(crates, text):
    """The fields of the records that a text names."""
    records = [records_of(crate).get(name, set()) for crate in crates for name in NAME.findall(text)]
    return set().union(*records)


def item_differences(crates, item, before):
    """The differences of an item below these crates, behind items that named these functions."""
    known = set(crates) | set(CRATE.findall(item)) & set(listed_crates())
    functions = functions_in(known)
    words = set().union(*map(words_of, known))
    others = set(functions).union(*map(members_of, known), *map(laws_of, known), *map(definitions_of, reached(known)))
    depth, named, clauses = 0, [], []
    for token in PLACE.findall(item):
        depth += {"(": 1, ")": -1}.get(token, 0)
        found = NAME.fullmatch(token)
        if found:
            (clauses if depth else named).append(found.group(1))
    here = [name for name in named + clauses if name in functions]
    said = set().union(*(functions.get(name, set()) for name in here + before))
    for name in named + clauses:
        if name not in (others if name in named and name.islower() else words | others):
            yield f"PROVED.md, {', '.join(crates)}: nothing is called {name}"
    for name in filter(str.islower, clauses):
        if name not in said | others | fields_named(known, item):
            yield f"PROVED.md, {', '.join(crates)}: no clause {name} of {', '.join(here + before)}"
    before += here


def table_differences(crate, function, row):
    clauses = functions_of(crate).get(function, set())
    known = reached([crate])
    for name in filter(str.islower, NAME.findall(row.split("|")[1])):
        if name not in clauses:
            yield f"PROVED.md, {function} of {crate}: no clause {name}"
    words = set().union(*map(words_of, known))
    for name in NAME.findall(row):
        if name not in words:
            yield f"PROVED.md, {function} of {crate}: nothing is called {name}"
    for name in set(BOLD.findall(row)) - fields_named(known, row):
        yield f"PROVED.md, {function} of {crate}: no record that is named has the field {name}"


def proved_items():
    """The crates, or the crate, the function and its file, that each item or row stands below."""
    crates, over, item = [], None, []
    for line in (TOP / "docs" / "PROVED.md").read_text().splitlines() + ["#"]:
        below, table = OVER_CRATES.fullmatch(line), OVER_FUNCTION.fullmatch(line)
        if item and not line.startswith("  "):
            yield crates, None, " ".join(item)
            item = []
        if below:
            crates, over = CRATE.findall(below.group(1)), None
        elif line.startswith("#"):
            crates, over = [], table and (table.group(2), table.group(1), table.group(3))
        elif crates and line.startswith("- ") or item:
            item.append(line.strip())
        elif over and line.startswith("| ") and not line.startswith("| Clause |"):
            yield [], over, line


def proved_differences():
    last, before = None, []
    for crates, over, text in proved_items():
        if over:
            crate, function, file = over
            if not (TOP / "crates" / crate / file).exists():
                yield f"PROVED.md: {crate} has no {file}"
            yield from table_differences(crate, function, text)
            continue
        if crates != last:
            last, before = crates, []
        yield from item_differences(crates, text, before)


# ---- docs/DEFINITIONS.md


def row_differences(crates, cells):
    defined = set()
    for place in cells[-1].split("; "):
        named = CRATE.findall(place) or crates
        for file in [part for part in place.split(", ") if not CRATE.fullmatch(part)]:
            found = [TOP / "crates" / crate / "specs" / f"{file}.antt" for crate in named]
            texts = [path.read_text() for path in found if path.exists()]
            if not texts:
                yield f"DEFINITIONS.md: {', '.join(named)} has no specs/{file}.antt"
            defined.update(name for text in texts for name in DEFINITION.findall(text))
    for name in NAME.findall(cells[0]):
        if name not in defined:
            yield f"DEFINITIONS.md: {name} isn't defined in {cells[-1]}"


def definition_differences():
    crates = []
    for line in (TOP / "docs" / "DEFINITIONS.md").read_text().splitlines():
        if line.startswith("## "):
            crates = CRATE.findall(line)
        elif line.startswith("| `"):
            yield from row_differences(crates, [cell.strip() for cell in line.strip("|").split("|")])


# ---- each document


def is_there(file, crates):
    places = [TOP / file]
    for crate in crates:
        places += [TOP / "crates" / crate / file, TOP / "crates" / crate / "src" / file]
    return any(place.exists() for place in places)


def document_differences(document):
    text = document.read_text()
    for name in sorted(set(CRATE.findall(text)) - set(listed_crates())):
        yield f"{document.name}: there is no crate {name}"
    over = []
    # A row of a table names its own crates, and so do a paragraph, and an item below a crate's name.
    for part in re.split(r"\n\n|\n(?=[|-])", text):
        below = OVER_CRATES.fullmatch(part.strip())
        over = CRATE.findall(below.group(1)) if below else [] if part.startswith("#") else over
        crates = (set(CRATE.findall(part)) & set(listed_crates())).union(over)
        for file in FILE.findall(part):
            if not is_there(file, crates):
                yield f"{document.name}: there is no {file} in {', '.join(sorted(crates)) or 'the tree'}"


def differences():
    yield from architecture_differences()
    yield from proved_differences()
    yield from definition_differences()
    for document in [TOP / "README.md", *sorted((TOP / "docs").glob("*.md"))]:
        yield from document_differences(document)


def main():
    found = list(differences())
    for difference in found:
        print(difference)
    sys.exit(1 if found else 0)


if __name__ == "__main__":
    main()
