"""The bytes that docs/FORMATS.md shows in hexadecimal digits, by what tests/files.py and tests/images.py write; tests/on_files.py compares these with the program's files.

A block of bytes belongs to the paragraph in front of it, which begins as a row of `SHOWN` says. A block may be a dump: the place of the first byte of each line in front of
at most 16 bytes, and words behind them.
"""
import re

import files, images, on_files, worked

DUMPED = re.compile(r"[0-9a-f]{4}  ((?:[0-9a-f]{2} ?){1,16})(?:  .*)?")
PLAIN = re.compile(r"[0-9a-f ]+")


def page(widths, records):
    first, = images.pages_of(widths, records)
    return first


def shown_bytes():
    """How the paragraph begins, and the bytes behind it."""
    items, tags = on_files.RELATIONS, on_files.TAGGED
    text = files.commit(0, [(0, 1, (files.Text(b"ab", 8), 5))])
    yield "The entry of `insert items 1 1 1`", files.commit(0, [(0, 1, (1, 1))])
    yield "Its record", on_files.ONE
    yield "The entry of `insert tags 1 \"ab\" 5`", text
    yield "The entry of the deletion of key 2", files.commit(0, [(0, 1, (files.Text(b"ab", 8), 5)), (0, 2, ())])
    yield "File 0 after `create`", files.new_file(items)[:-1] + on_files.ONE + b"\0"
    yield "The relations of an image", files.image_of(tags)[:16]
    yield "The first 64 bytes of a page", page([0, 0], [(1, (2, -1)), (2**64 - 1, (-2**63, 5))])[:64]
    yield "The first 60 bytes of a page", page([6, 0], [(1, (b"ab", 5)), (2, (b"x, y~ ", -2))])[:60]


def bytes_of(block):
    """The bytes of a block, or nothing if it shows none."""
    lines = block.split("\n")
    dumped = [DUMPED.fullmatch(line) for line in lines]
    if all(dumped):
        return bytes.fromhex("".join(found[1] for found in dumped))
    if all(PLAIN.fullmatch(line) for line in lines):
        return bytes.fromhex("".join(lines))
    return None


def places_of(block):
    """The places that a dump tells in front of its lines."""
    return [int(line[:4], 16) for line in block.split("\n")] if DUMPED.fullmatch(block.split("\n")[0]) else []


def blocks_in(text):
    """Each fenced block with the paragraph in front of it."""
    pieces = re.split(r"^```(?:[a-z]*)\n(.*?)\n```$", text, flags=re.MULTILINE | re.DOTALL)
    for before, block in zip(pieces[::2], pieces[1::2]):
        yield before.strip().split("\n\n")[-1], block


def checks(text):
    """Names with what was found on the page and what should be there."""
    wanted, left = dict(shown_bytes()), []
    for paragraph, block in blocks_in(text):
        found = bytes_of(block)
        if found is None:
            continue
        begins = next((words for words in wanted if paragraph.startswith(words)), None)
        if begins is None:
            left.append(paragraph[:60])
            continue
        yield "the bytes of FORMATS: " + begins, found, wanted.pop(begins)
        told = places_of(block)
        yield "the places of FORMATS: " + begins, told, [16 * n for n in range(len(told))]
    yield "bytes of FORMATS that nobody knows", left, []
    yield "bytes that FORMATS doesn't show", list(wanted), []
    written = worked.of_kind(b"csv", text.encode())
    yield "the table that FORMATS shows", written, b'1,b=c,5\n2,"x, y",0\n'
