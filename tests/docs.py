#!/usr/bin/env python3
"""Checks that README.md and docs/ tell what is there: tests/docs.py. It prints a line for each thing that isn't, and a count.

- Each link leads to a page and a heading. Each path in backticks, and each path in a block of commands, is there.
- A name in backticks stands in the file or crate beside it: `name` (`file`), `name` in `file`, `name` of `crate`; in the file at the end of
  a row of lemmas; in the crate at the beginning of a row or of an item (`- **crate** ..`). A function has the clauses that stand after it:
  `function`, clauses `name`, `name`. A call `Type::name` of a type of ours is there. Any other name stands somewhere in the repository.
- Each claim of docs/CLAIMS.md names a function of its crate, its clauses, a test and an edit of must-fail/ or edits/, or has a dash. Each
  crate has claims.
- Each edit stands in a claim, in one of its crate's two folders alone, and can be made: the text that it takes away stands in its file once.
  The edits of must-fail/, which the gate tries, are few (`MOST_EDITS`, `MOST_CRATES`).

A table whose first heading is `was` has names of old in its first column: these aren't looked for. `checks_itself` asks made-up pages, each
with one wrong name, and made-up edits, so that the check is known to fail.
"""
import functools, glob, os, re, sys

import sources
from sources import CRATES, TOP, read

PAGES = ["README.md"] + sorted("docs/" + page for page in os.listdir(os.path.join(TOP, "docs")) if page.endswith(".md"))
TICKED = re.compile(r"`([^`]+)`")
NAME = re.compile(r"[A-Za-z_][\w'-]*(?:::[A-Za-z_]\w*)*")
PATH = re.compile(r"(?:\.?[\w*-]+/)*\.?[\w*-]+(?:\.(?:rt|antt|md|py|rs|c|script|replies|blocks|edit|txt))?/?")
FILE = re.compile(r".*\.(?:rt|antt|md|py|rs|c|script|replies|blocks|edit|txt)")
LIST = r"`[^`]+`(?:(?:,| and|, and) `[^`]+`)*"
BESIDE = re.compile(r"(%s),? \(([^()]+)\)" % LIST)
WITHIN = re.compile(r"(%s) (?:in|of) `([^`]+)`" % LIST)
CLAUSED = re.compile(r"`([\w:]+)`, clauses? (%s)" % LIST)
CLAIMS = "| claim | clauses | tests | edits |"
# Each edit of must-fail/ costs the gate a check, and each crate with such edits one more proof of it.
MOST_EDITS, MOST_CRATES = 110, 22
# Names of the toolchain, the systems' libraries and the formats, which stand in no file of the repository.
FOREIGN = {"rt", "gcc", "malloc", "realloc"}


# Where a name stands.

@functools.cache
def words_of(path):
    text = read(os.path.join(TOP, path))
    return set(re.findall(r"[^\W\d][\w']*", text)) | set(re.findall(r"[^\W\d][\w'-]*", text))


@functools.cache
def files_of(crate):
    return [path for path in sources.tracked() if path.startswith("crates/%s/" % crate)]


@functools.cache
def calls():
    """The files of each call `Type::name` of the crates, and the types that have calls."""
    found = [(f.name, f.file) for crate in sources.crates() for f in sources.functions(crate) if "::" in f.name]
    return {name: {file for other, file in found if other == name} for name, _ in found}, {name.split("::")[0] for name, _ in found}


def stands_in(name, paths):
    """The name stands in one of the files. A call of a type of ours is there; otherwise both parts of `Type::Name` stand in one and the same."""
    parts = name.split("::")
    known, types = calls()
    if len(parts) == 2 and parts[0] in types and parts[1][0].islower():
        return not known.get(name, set()).isdisjoint(paths)
    return any(all(part in words_of(path) for part in parts) for path in paths if not path.endswith(".md"))


def stands_anywhere(name):
    """In a file, but for this one with its made-up names, or as an edit."""
    others = [path for path in sources.tracked() if path != "tests/docs.py"]
    return name in FOREIGN or stands_in(name, others) or any(name in sources.edits(crate) for crate in sources.crates())


def paths_of(told, near=(), letters={}, folder=None):
    """The files that a text stands for: from the top, in crates/, after a letter of the page, or in one of the crates near by."""
    letter, _, rest = told.partition("/")
    told = letters[letter] + "/" + rest if rest and letter in letters else told
    told = re.sub(r"\bNAME\b", "*", told)
    places = [TOP, CRATES] + [os.path.join(CRATES, crate, part) for crate in near for part in ("", "src", "specs", "proofs", sources.GATE, sources.ASIDE)]
    if not near and "/" not in told:
        places += glob.glob(os.path.join(CRATES, "*", "src")) + [os.path.join(TOP, "docs"), os.path.join(TOP, "tests")]
    places += [os.path.join(TOP, folder)] if folder else []
    found = [path for place in places for end in ("", ".antt", ".rt") for path in glob.glob(os.path.join(place, told.rstrip("/") + end))]
    return [os.path.relpath(path, TOP) for path in found]


def is_file(told):
    return FILE.fullmatch(told) is not None


def is_path(told):
    return PATH.fullmatch(told) is not None and "/" in told.strip("/") or is_file(told) and PATH.fullmatch(told) is not None


# What a page says.

def letters_of(text):
    """Letters that stand for folders, as in `S` is `db_store/specs`."""
    return dict(re.findall(r"`([A-Z])` is `(\w+/\w+)`", text))


def parts_of(text):
    """Paragraphs, items and rows, each on one line with the number of its first one; blocks are left out."""
    parts, block, header = [], False, None
    for number, line in enumerate(text.split("\n"), 1):
        if line.startswith("```"):
            block = not block
            parts.append((number, "", None))
            continue
        if block:
            continue
        is_row = line.startswith("|")
        header = (line if header is None else header) if is_row else None
        if is_row or not line.strip() or line.startswith(("#", "- ", "1. ")) or not parts or parts[-1][1].startswith(("|", "#")) or not parts[-1][1]:
            parts.append((number, line, header))
        else:
            parts[-1] = (parts[-1][0], parts[-1][1] + " " + line.strip(), None)
    return [part for part in parts if part[1].strip()]


def cells(row):
    return [cell.strip() for cell in re.split(r"(?<!\\)\|", row)[1:-1]]


def crates_near(part):
    """The crate that a row or an item is about, with those that it names; no crate if it is about none."""
    about = re.match(r"- \*\*(\w+)\*\*|\| `?(\w+)`? \|", part)
    crate = about and (about[1] or about[2])
    if crate not in sources.crates():
        return []
    return [crate] + [name for name in TICKED.findall(part) if name in sources.crates()]


def names_in(text):
    return [name for name in TICKED.findall(text) if NAME.fullmatch(name) and not is_path(name)]


def files_beside(told, near, letters):
    """The files of a list in parentheses, or nothing if it is no list of files."""
    pieces, found, folder = [piece.strip("` ") for piece in told.split(",")], [], None
    if not all(PATH.fullmatch(piece) for piece in pieces) or not (is_path(pieces[0]) or pieces[0].split("/")[0] in letters):
        return None
    for piece in pieces:
        paths = paths_of(piece, near, letters, folder)
        found.append((piece, paths))
        folder = os.path.dirname(paths[0]) if paths else folder
    return found


def beside_files(part, header, near, letters):
    """(names, the files in which they have to stand) of a part."""
    row = cells(part) if part.startswith("|") else []
    if header and cells(header)[-1:] == ["file"] and len(row) == 3 and names_in(row[1]):
        yield names_in(row[1]), files_beside(row[2], near, letters) or []
    for names, told in BESIDE.findall(part):
        files = files_beside(told, near, letters)
        if files:
            yield names_in(names), files
    for names, told in WITHIN.findall(part):
        if told in sources.crates():
            yield names_in(names), [(told, files_of(told))]
        elif is_path(told):
            yield names_in(names), [(told, paths_of(told, near, letters))]


def check_part(part, header, letters):
    """What isn't there of a paragraph, an item or a row."""
    near = crates_near(part)
    if header and cells(header)[0] == "was":
        part = "|" + "|".join(cells(part)[1:]) + "|"
    if header == CLAIMS:
        part = cells(part)[0]  # the others are looked up as claims
    for told in TICKED.findall(part):
        if is_path(told) and not paths_of(told, near, letters):
            yield "no file `%s`" % told
    known = set()
    for names, files in beside_files(part, header, near, letters):
        missing = [told for told, paths in files if not paths]
        for told in missing:
            yield "no file `%s`" % told
        for name in names:
            known.add(name)
            if not missing and not stands_in(name, [path for _, paths in files for path in paths if os.path.isfile(os.path.join(TOP, path))]):
                yield "no `%s` in %s" % (name, ", ".join(told for told, _ in files))
    for function, clauses in CLAUSED.findall(part):
        promised = {clause for crate in sources.crates() for f in sources.functions(crate) if f.name == function for clause in f.promises()}
        for clause in names_in(clauses):
            known.add(clause)
            if clause not in promised:
                yield "no clause `%s` of `%s`" % (clause, function)
    for name in names_in(part):
        if name in known or name in sources.crates() or not looks_like_code(name):
            continue
        if near and not stands_in(name, [path for crate in near for path in files_of(crate)]):
            yield "no `%s` in %s" % (name, ", ".join(near))
        elif not near and not stands_anywhere(name):
            yield "no `%s` anywhere" % name


def looks_like_code(name):
    return re.search(r"[a-z][A-Z]|_|::|^[A-Z][a-z]", name) is not None


def headings(text):
    """The anchors of a page."""
    return {re.sub(r"[^\w\- ]", "", line.lstrip("#").strip().lower()).replace(" ", "-") for line in text.split("\n") if line.startswith("#")}


def check_links(page, text):
    for told, anchor in re.findall(r"\]\(([^)#\s:]*)(?:#([^)\s]*))?\)", text):
        path = os.path.normpath(os.path.join(TOP, os.path.dirname(page), told)) if told else os.path.join(TOP, page)
        if not os.path.exists(path):
            yield "no page %s" % told
        elif anchor and anchor not in headings(read(path) if told else text):
            yield "no heading #%s in %s" % (anchor, told or page)


def check_commands(text):
    for block in re.findall(r"^```sh\n(.*?)^```$", text, re.M | re.S):
        for told in re.findall(r"(?<![\w/.])(?:\./)?((?:examples|tests|bench|docs|crates)/[\w./-]+)", block):
            if "/out/" not in told and not os.path.exists(os.path.join(TOP, told)):
                yield "no file %s" % told


def check_page(page, text):
    letters = letters_of(text)
    yield from check_links(page, text)
    yield from check_commands(text)
    for number, part, header in parts_of(text):
        for what in check_part(part, header, letters):
            yield "line %d: %s" % (number, what)


# The claims.

def items(cell):
    """`head`: `name`, `name`; `head` .. of a cell, or nothing of a dash."""
    if cell == "-":
        return []
    found = []
    for item in cell.split("; "):
        names = TICKED.findall(item)
        if not names or re.sub(r"`[^`]+`(?:: |, )?", "", item):
            return None
        found.append((names[0], names[1:]))
    return found


def check_function(crate, name, clauses):
    found = [f for f in sources.functions(crate) if f.name == name]
    if not found:
        yield "no function `%s` in %s" % (name, crate)
    elif not found[0].is_law and not any(f.promises() for f in found):
        yield "`%s` of %s promises nothing" % (name, crate)
    for clause in clauses:
        if not any(clause in f.promises() for f in found):
            yield "no clause `%s` of `%s`" % (clause, name)


def check_test(name, parts):
    path = os.path.join(TOP, name)
    if "/" in name and os.path.isfile(path):
        for part in parts:
            if not re.search(r"^def %s\(" % re.escape(part), read(path), re.M):
                yield "no `%s` in %s" % (part, name)
    elif name not in sources.tests() or parts:
        yield "no test `%s`" % name


def check_edit(crate, name, more):
    at, _, edit = name.rpartition("/")
    if edit not in sources.edits(at or crate) or more:
        yield "no edit `%s` of %s" % (edit, at or crate)


def check_claim(crate, row):
    """A claim's cells are the claim, its functions and clauses, its tests, and its edits."""
    if len(row) != 4 or None in map(items, row[1:]):
        yield "no claim with clauses, tests and edits"
        return
    for name, clauses in items(row[1]):
        home, _, function = name.rpartition("/")
        yield from check_function(home or crate, function, clauses)
    for name, parts in items(row[2]):
        yield from check_test(name, parts)
    for name, more in items(row[3]):
        yield from check_edit(crate, name, more)


def claims_of(text):
    """(line, crate, cells) of each claim: the crate is that of the heading above."""
    crate = None
    for number, line in enumerate(text.split("\n"), 1):
        heading = re.match(r"## (\w+)$", line)
        if line.startswith("#"):
            crate = heading[1] if heading and heading[1] in sources.crates() else None
        elif crate and line.startswith("| ") and line != CLAIMS:
            yield number, crate, cells(line)


def check_claims(text):
    told = set()
    for number, crate, row in claims_of(text):
        told.add(crate)
        for what in check_claim(crate, row):
            yield "line %d: %s" % (number, what)
    for crate in sources.crates():
        if crate not in told:
            yield "no claim of %s" % crate


# The edits.

def check_edits(gate, aside, claimed):
    """What is wrong with the edits of must-fail/, those of edits/, and those that stand in claims, each as pairs of a crate and a name."""
    for crate, name in sorted(gate & aside):
        yield "edit `%s` of %s stands in both folders" % (name, crate)
    for crate, name in sorted((gate | aside) - claimed):
        yield "edit `%s` of %s stands in no claim" % (name, crate)
    if len(gate) > MOST_EDITS:
        yield "%d edits in must-fail/, at most %d" % (len(gate), MOST_EDITS)
    if len({crate for crate, _ in gate}) > MOST_CRATES:
        yield "%d crates with must-fail/, at most %d" % (len({crate for crate, _ in gate}), MOST_CRATES)


def edits_in(folder):
    return {(crate, name) for crate in sources.crates() for name in sources.edits_in(crate, folder)}


def edits_claimed(text):
    """The edits that stand in claims."""
    named = [(crate, name) for _, crate, row in claims_of(text) for name, _ in items(row[-1]) or []]
    return {(at or crate, edit) for crate, (at, _, edit) in ((crate, name.rpartition("/")) for crate, name in named)}


def check_made(crate, text):
    """What hinders an edit from being made: each text that it takes away stands once in its file."""
    path, old, changed = None, None, {}
    for line in text.split("\n"):
        word, _, told = line.partition(" ")
        if word == "file:":
            path = os.path.join(CRATES, crate, told)
        elif word == "old:":
            old = told
        elif word == "new:":
            file = changed.get(path) or read(path) if os.path.isfile(path) else ""
            if file.count(old) != 1:
                yield "its text stands %d times in its file: %s" % (file.count(old), old.strip())
            changed[path] = file.replace(old, told)


# The pages.

def findings():
    for page in PAGES:
        text = read(os.path.join(TOP, page))
        for what in [*check_page(page, text), *(check_claims(text) if page == "docs/CLAIMS.md" else ())]:
            yield "%s: %s" % (page, what)
    yield from check_edits(edits_in(sources.GATE), edits_in(sources.ASIDE), edits_claimed(read(os.path.join(TOP, "docs/CLAIMS.md"))))
    for path in sources.tracked():
        for what in check_made(path.split("/")[1], read(os.path.join(TOP, path))) if path.endswith(".edit") else ():
            yield "%s: %s" % (path, what)
    for page in ("README.md", "docs/ARCHITECTURE.md", "docs/PROOFS.md"):
        for crate in sources.crates():
            if not re.search(r"^\|.*\b%s\b" % crate, read(os.path.join(TOP, page)), re.M):
                yield "%s: no row of %s" % (page, crate)


WRONG = (
    ("[a page](NOWHERE.md)\n", "no page NOWHERE.md"),
    ("[a heading](GLOSSARY.md#nowhere)\n", "no heading #nowhere in GLOSSARY.md"),
    ("```sh\ntests/nowhere < examples/curation.script\n```\n", "no file tests/nowhere"),
    ("A file, `db_store/specs/Nowhere.antt`.\n", "line 1: no file `db_store/specs/Nowhere.antt`"),
    ("`S` is `db_store/specs`. It is `fits`, `no_such_word` (S/Fits).\n", "line 1: no `no_such_word` in S/Fits"),
    ("`S` is `db_store/specs`. It is `fits` (S/Nowhere).\n", "line 1: no file `S/Nowhere`"),
    ("By `Store::view`, clauses `table`, `nowhere`.\n", "line 1: no clause `nowhere` of `Store::view`"),
    ("It calls `View::install` of `db_store`.\n", "line 1: no `View::install` in db_store"),
    ("It calls `no_such_word` of `db_store`.\n", "line 1: no `no_such_word` in db_store"),
    ("- **key_index** has `common_ancestors`.\n", "line 1: no `common_ancestors` in key_index"),
    ("| for | lemma | file |\n|---|---|---|\n| x | `no_such_word` | `db_store/proofs/RowLemmas` |\n", "line 3: no `no_such_word` in db_store/proofs/RowLemmas"),
    ("It is a `NoSuchWord`.\n", "line 1: no `NoSuchWord` anywhere"),
)
WRONG_CLAIMS = (
    ("| x | `Store::nowhere` | - | - |", "no function `Store::nowhere` in db_store"),
    ("| x | `Store::view`: `nowhere` | - | - |", "no clause `nowhere` of `Store::view`"),
    ("| x | `View::rows_are` | `no_such_test` | - |", "no test `no_such_test`"),
    ("| x | `View::rows_are` | `tests/run`: `nowhere` | - |", "no `nowhere` in tests/run"),
    ("| x | `View::rows_are` | - | `no_such_edit` |", "no edit `no_such_edit` of db_store"),
    ("| x | the view | - | - |", "no claim with clauses, tests and edits"),
)
# (edits of must-fail/, of edits/, and of claims)
ONE, MANY = {("db_store", "one")}, {("db_store", "edit_%d" % n) for n in range(MOST_EDITS + 1)}
WRONG_EDITS = (
    (ONE, ONE, ONE, "edit `one` of db_store stands in both folders"),
    (ONE, set(), set(), "edit `one` of db_store stands in no claim"),
    (set(), ONE, set(), "edit `one` of db_store stands in no claim"),
    (MANY, set(), MANY, "%d edits in must-fail/, at most %d" % (MOST_EDITS + 1, MOST_EDITS)),
    ({("crate_%d" % n, "one") for n in range(MOST_CRATES + 1)}, set(), {("crate_%d" % n, "one") for n in range(MOST_CRATES + 1)},
     "%d crates with must-fail/, at most %d" % (MOST_CRATES + 1, MOST_CRATES)),
)
UNMADE = "file: src/work.rt\nold: no such text\nnew: a text\n"


def checks_itself():
    """(name, holds, found) of each made-up page: it is told what is wrong with it, and nothing else."""
    for text, expected in WRONG:
        found = list(check_page("docs/PAGE.md", text))
        yield expected, found == [expected], found
    for row, expected in WRONG_CLAIMS:
        found = list(check_claim("db_store", cells(row)))
        yield expected, found == [expected], found
    found = list(check_claim("db_store", cells("| x | `Store::view`: `table`; `View::rows_are` | `entries_fit_by_the_table` | `one_key_too_many` |")))
    yield "a claim that holds", found == [], found
    for *edits, expected in WRONG_EDITS:
        found = list(check_edits(*edits))
        yield expected, found == [expected], found
    found = list(check_made("db_store", UNMADE))
    yield "an edit that can't be made", found == ["its text stands 0 times in its file: no such text"], found


def main():
    wrong = ["docs.py itself: %s: %r" % (name, found) for name, holds, found in checks_itself() if not holds] + list(findings())
    for what in wrong:
        print("tests/docs.py: " + what)
    print("tests/docs.py: %d pages, %d claims, %d untrue" % (len(PAGES), len(list(claims_of(read(os.path.join(TOP, "docs/CLAIMS.md"))))), len(wrong)))
    return 1 if wrong else 0


if __name__ == "__main__":
    sys.exit(main())
