"""Worked blocks: lines that a new dataset is asked, each with its reply, written by hand in the files of tests/blocks/ and in docs/.

A block of tests/blocks/ stands after a line `## ` with its name. Its schema stands before its first echoed line, or is USUAL. Blocks of the
file of a stage (`STAGES` in tests/model.py) are asked of the program if that stage is built, and those of `first` and `texts` always. In a page of docs/
each fenced block with an echoed line is a block; in a story each goes on where the one before it ended, from the table that the story imports,
and the table that it shows as exported is what is there at its end.
"""
import csv, io, os, re

USUAL = b"relation items a b\nend\n"
FIRST, TEXTS = "first", "texts"
STORIES = ("TUTORIAL.md",)


def blocks_of(stage):
    """Names and blocks."""
    with open(os.path.join(os.path.dirname(os.path.abspath(__file__)), "blocks", stage + ".blocks"), "rb") as f:
        return [(name.decode(), block.strip(b"\n") + b"\n") for name, block in re.findall(rb"^## (.*)\n((?:(?!## ).*\n)*)", f.read(), re.MULTILINE)]


def parts_of(block):
    """A block's input, and its output."""
    schema, echo, rest = block.partition(b"> ")
    output = echo + rest
    return (schema or USUAL) + b"".join(line[2:] + b"\n" for line in output.split(b"\n") if line.startswith(b"> ")), output


def fenced(text):
    """The fenced blocks of a page."""
    return re.findall(rb"^```[a-z]*\n(.*?)^```$", text, re.MULTILINE | re.DOTALL)


def of_kind(kind, text):
    """The first fenced block of a kind on a page."""
    return re.search(rb"^```%s\n(.*?)^```$" % kind, text, re.MULTILINE | re.DOTALL).group(1)


def imported(text):
    """The schema that a story shows, the relation into which it imports, and its table."""
    return of_kind(b"schema", text), re.search(rb"^./decibel import \w+ (\w+) <", text, re.MULTILINE).group(1), of_kind(b"csv", text)


def lines_of_import(schema, relation, table):
    """What an import runs, as lines with their replies, where it makes the first version. A cell of a column with a width is a text."""
    columns, = (line.split()[2:] for line in schema.split(b"\n") if line.split()[1:2] == [relation])
    lines = b""
    for key, *cells in csv.reader(io.StringIO(table.decode())):
        values = [b'"%s"' % cell.encode() if b":" in column else cell.encode() for cell, column in zip(cells, columns, strict=True)]
        lines += b"> 1 insert %s %s %s\nok\n" % (relation, key.encode(), b" ".join(values))
    return b"> 1 begin 65536\nok\n" + lines + b"> 1 commit\nok master@1\n"


def shown_in(page, text):
    """The worked blocks of a page of docs/. Those of a story are put together, behind its import."""
    shown = [block for block in fenced(text) if re.search(rb"^> ", block, re.MULTILINE)]
    if page not in STORIES:
        return shown
    schema, relation, table = imported(text)
    return [schema + lines_of_import(schema, relation, table) + b"".join(shown)]
