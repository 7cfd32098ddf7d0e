"""The script of `load N` by docs/FORMATS.md alone, and the summary of what `try` writes for it."""
import re


def script(n):
    """The schema, n lines, and a scan of all heads."""
    lines, drawn = [], n
    for i in range(1, n + 1):
        drawn = (drawn * 6364136223846793005 + 1442695040888963407) % 2 ** 64
        d = drawn // 2 ** 33
        key, value, session = d % 10000, d % 1000, 1 + i % 4
        if i % 512 == 0:
            lines.append(b"1 branch b%d of master" % (i // 512))
        elif i % 8 == 0:
            lines.append(b"%d get items %d" % (session, key))
        elif i % 8 == 6:
            lines.append(b"%d update items %d a=%d" % (session, key, value))
        elif i % 8 == 7:
            lines.append(b"%d delete items %d" % (session, key))
        else:
            lines.append(b"%d insert items %d %d 0" % (session, key, value))
    return b"relation items a b\nend\n" + b"".join(line + b"\n" for line in lines) + b"1 scan items in heads\n"


def summary(n, output):
    """The five lines, by the echoes and replies of the script of n lines."""
    replies = re.findall(rb"^> .*\n((?:(?!> ).*\n)*)", output, re.MULTILINE)
    assert len(replies) == n + 1, len(replies)
    refused = sum(reply.startswith(b"refused ") for reply in replies[:n])
    branches = 1 + len(re.findall(rb"^ok b\d+@0\n", output, re.MULTILINE))
    rows = re.fullmatch(rb"(?:.*\n)*?rows (\d+)\n", replies[n]).group(1)
    return b"lines %d\nok %d\nrefused %d\nbranches %d\nrows %s\n" % (n, n - refused, refused, branches, rows)
