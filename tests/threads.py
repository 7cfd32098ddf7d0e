"""`sessions` on real files: each session's lines on a thread of its own, and the program killed while threads run.

Which interleaving comes is not known, so it is read off the echo. What is written for it is compared with what `script` and the model give for the echoed
lines, and the entries of the files with those that `script` leaves: lines that commit at the same time share a record.
"""
import os, random, re, subprocess, tempfile, time

import files, model, on_files, random_scripts, worked

SCHEMA = worked.USUAL
KILLED, SESSIONS, COMMITS = 50, 8, 100
SCRIPTS = ((8, None, 300), (64, 320, 100))  # of so many sessions and lines, so many scripts


def session_of(line):
    return model.read(line)[0]


def sections_of(lines):
    """The lines of each session, in order."""
    sections = {}
    for line in lines:
        sections.setdefault(session_of(line), []).append(line)
    return sections


def lines_run(given):
    return [line for line in given.split(b"\n") if line and not line.startswith(b"#")]


def echoed(written):
    """The lines that an output echoes: no line of a reply begins so."""
    return [line[2:] for line in written.split(b"\n") if line.startswith(b"> ")]


def as_input(lines):
    return b"".join(line + b"\n" for line in lines)


def unlike(given, echo):
    """The sessions whose echoed lines aren't their section, or their section and an abort."""
    wanted, found = sections_of(lines_run(given)), sections_of(echo)
    return [session for session in sorted(set(wanted) | set(found))
            if found.get(session, []) not in (wanted.get(session, []), wanted.get(session, []) + [b"%d abort" % session])]


def by_model(schema, lines):
    """What the model writes for lines, and the sessions whose transactions they leave open."""
    said = model.Model(schema)
    for line in lines:
        said.line(line)
    left = [session for session in sorted(said.desks) if said.desks[session].lines]
    return said.output(), left


def aborted_for_nothing(given, written):
    """The sessions whose added abort isn't answered `ok`."""
    sections, found = sections_of(lines_run(given)), []
    for session, lines in sections_of(echoed(written)).items():
        if len(lines) > len(sections.get(session, [])):
            last = b"\n> %d abort\n" % session
            if not (b"\n" + written).rpartition(last)[2].startswith(b"ok\n"):
                found.append(session)
    return found


def alone(base):
    """The whole input of one session that leaves its transaction open, and files that are none."""
    yield "sessions on no files", base.run("sessions", b"1 begin\n"), (3, b"", b"decibel: not a dataset\n")
    base.made()
    yield "sessions of no line", base.run("sessions", b"# none\n\n"), (0, b"", b"")
    yield "an open transaction is aborted at its end", base.run("sessions", b"1 begin\n1 get items 1\n"), (0, on_files.answered(
        (b"1 begin", b"ok"), (b"1 get items 1", b"none"), (b"1 abort", b"ok")), b"")
    yield "sessions of a bad line", base.run("sessions", b"hello\n"), (0, b"> hello\nrefused 1 bad line\n", b"")
    yield "none of them stored anything", base.run("check"), (0, b"ok generation 1 branches 1 versions 1 entries 0\n", b"")
    base.run("script", b"1 insert items 1 1 1\n")
    for name, data, status, text in (("empty files", b"", 3, b"not a dataset"), ("a damaged file", base.read(0)[:152], 4, b"damaged file 0 at 126")):
        base.write(0, data)
        yield "sessions on " + name, base.run("sessions", b"1 begin\n"), (status, b"", b"decibel: %s\n" % text)
        yield "the files of sessions on " + name, (base.read(0), base.read(1)), (data, b"")


# Two sessions on branches of their own, one that leaves its transaction open, and a line that belongs to none of them.
THREE = (b"# three sessions\n3 begin\n1 branch ann of master@0\n2 branch bob of master@0\n3 get items 1\n1 on ann\n2 on bob\n"
         b"1 insert items 1 1 1\n2 insert items 1 2 2\nno session\n")
THREE_ECHOED = (b"3 begin", b"3 get items 1", b"3 abort", b"1 branch ann of master@0", b"1 on ann", b"1 insert items 1 1 1",
                b"2 branch bob of master@0", b"2 on bob", b"2 insert items 1 2 2", b"no session")


def three(base):
    """Each line of three sessions is answered once, and a transaction that is left open is aborted."""
    base.made()
    status, written, said = base.run("sessions", THREE)
    yield "three sessions", (status, sorted(echoed(written)), said), (0, sorted(THREE_ECHOED), b"")
    yield "a line of no session", written.count(b"> no session\nrefused 1 bad line\n"), 1
    yield "an abort of what is left open", written.count(b"> 3 abort\nok\n"), 1
    yield "check of three sessions", base.run("check"), base.told()


def told_by_session(written):
    """Each session's lines with their replies of one line, in order. A line of no session is of session 0."""
    found = {}
    for line, reply in zip(written.split(b"\n")[0:-1:2], written.split(b"\n")[1::2]):
        found.setdefault(session_of(line[2:]), []).append((line[2:], reply))
    return found


def beside(base):
    """Sections beside each other, in whatever order their lines come. Of two open transactions the one that no line ends is aborted; and each of three sections makes a version."""
    base.made()
    status, written, said = base.run("sessions", b"1 begin\n2 begin\n1 get items 1\n2 get items 1\n2 commit\n")
    yield "two sections, of which one ends its transaction", (status, told_by_session(written), said), (0, {
        1: [(b"1 begin", b"ok"), (b"1 get items 1", b"none"), (b"1 abort", b"ok")],
        2: [(b"2 begin", b"ok"), (b"2 get items 1", b"none"), (b"2 commit", b"ok")]}, b"")
    status, written, said = base.run("sessions", b"3 insert items 3 3 3\n1 insert items 1 1 1\n2 insert items 2 2 2\nnonsense\n")
    found = told_by_session(written)
    yield "the lines of three sections and a bad one", (status, {session: [line for line, _ in lines] for session, lines in found.items()}, said), (0, {
        0: [b"nonsense"], 1: [b"1 insert items 1 1 1"], 2: [b"2 insert items 2 2 2"], 3: [b"3 insert items 3 3 3"]}, b"")
    yield "each of three sections makes a version", sorted(reply for lines in found.values() for _, reply in lines), [
        b"ok master@1", b"ok master@2", b"ok master@3", b"refused 1 bad line"]
    yield "check of the three sections", base.run("check"), (0, b"ok generation 1 branches 1 versions 4 entries 3\n", b"")
    yield "the rows of the three sections", base.run("script", b"1 scan items\n"), (0, on_files.answered((b"1 scan items", b"row 1 1 1\nrow 2 2 2\nrow 3 3 3\nrows 3")), b"")


def one_script(base, other, given):
    """What is wrong with a script whose sessions run on threads, in words, and how many lines changed their places."""
    schema, end, script = given.partition(b"\nend\n")
    for at in base, other:
        for file in (0, 1):
            if os.path.exists(at.path(file)):
                os.unlink(at.path(file))
        at.run("create", schema + end)
    status, written, said = base.run("sessions", script)
    if (status, said) != (0, b""):
        return ["status %d, %s" % (status, said.decode())], 0
    echo, wrong = echoed(written), []
    if unlike(script, echo):
        wrong.append("the lines of sessions %s" % unlike(script, echo))
    if aborted_for_nothing(script, written):
        wrong.append("aborts of sessions %s" % aborted_for_nothing(script, written))
    output, left = by_model(model.lines_of(given)[0], echo)
    if output != written:
        wrong.append("the replies, by the model")
    if left:
        wrong.append("sessions %s are left open" % left)
    if other.run("script", as_input(echo)) != (0, written, b""):
        wrong.append("the replies, by `script`")
    if [files.with_entries(base.read(file)) for file in (0, 1)] != [files.with_entries(other.read(file)) for file in (0, 1)]:
        wrong.append("the files")
    if base.run("check") != base.told() or base.run("check") != other.run("check"):
        wrong.append("what `check` tells")
    lines = lines_run(script)
    return wrong, sum(one != two for one, two in zip(lines, echo))


def at_random(base):
    """Random scripts of eight and of 64 sessions, three of four with texts."""
    place = os.path.join(base.folder, "other")
    os.mkdir(place)
    other = on_files.Base(base.program, place)
    source, moved = random.Random(14), 0
    for sessions, lines, count in SCRIPTS:
        for script in range(count):
            given = random_scripts.random_script(source, model.BUILT, sessions, lines, texts=script % 4 > 0)
            wrong, places = one_script(base, other, given)
            moved += places
            yield "random script %d of %d sessions on threads" % (script, sessions), wrong, []
    print("tests/run: in %d random scripts on threads %d lines stood at another place than in the input" % (sum(count for _, _, count in SCRIPTS), moved), flush=True)


def comments_and_bad_lines(base):
    """A comment and an empty line belong to no section, and a bad line without a session to one of its own. No line end stands at the end."""
    place = os.path.join(base.folder, "odd")
    os.mkdir(place)
    given = SCHEMA + b"# sections\n2 begin\n\n1 get items 1\nx\n65 commit\n64 log master\n2 hello\n2 insert items 1 1 1\n2 commit"
    wrong, _ = one_script(base, on_files.Base(base.program, place), given)
    yield "comments and bad lines of sessions on threads", wrong, []


def branch_of(session):
    return b"of%d" % session


def long_section(session):
    """A session's lines: twelve transactions of a hundred inserts of names, each read again, on a branch of its own."""
    lines = [b"branch " + branch_of(session) + b" of master", b"on " + branch_of(session)]
    for n in range(12):
        keys = range(100 * n, 100 * n + 100)
        lines += [b"begin", *(b'insert items %d "%d, of %d" 0' % (key, key, session) for key in keys), *(b"get items %d" % key for key in keys), b"commit"]
    return [b"%d " % session + line for line in lines]


def names(base):
    """Names that two sessions give one record, each on a branch of its own, and that a third one merges afterwards; quotes that a section leaves open are a bad line of its own."""
    base.made(b'1 insert tags 1 "fern" 1\n1 branch ann of master\n1 branch bob of master\n', on_files.TAGS)
    status, written, said = base.run("sessions", b'2 on ann\n3 on bob\n2 update tags 1 name="a fern"\n3 update tags 1 name="b, fern" n=2\n2 get tags 1\n3 insert tags 2 "no end 1\n3 get tags 1\n')
    yield "names of two sessions", (status, told_by_session(written), said), (0, {
        2: [(b"2 on ann", b"ok"), (b'2 update tags 1 name="a fern"', b"ok ann@1"), (b"2 get tags 1", b'row 1 "a fern" 1')],
        3: [(b"3 on bob", b"ok"), (b'3 update tags 1 name="b, fern" n=2', b"ok bob@1"), (b'3 insert tags 2 "no end 1', b"refused 1 bad line"), (b"3 get tags 1", b'row 1 "b, fern" 2')]}, b"")
    yield "check of their names", base.run("check"), base.told()
    yield "a merge of names", base.run("script", b"1 merge ann\n1 merge bob\n1 merge bob right\n1 get tags 1\n"), (0, on_files.answered(
        (b"1 merge ann", b"ok master@2"), (b"1 merge bob", b"refused 9 conflict tags 1 name"), (b"1 merge bob right", b"ok master@3"), (b"1 get tags 1", b'row 1 "b, fern" 2')), b"")


def at_length(base):
    """An input and a list that are longer than one thread takes: the sections are gathered, and the replies spelled, on several."""
    place = os.path.join(base.folder, "long")
    os.mkdir(place)
    sections = [long_section(session) for session in range(1, SESSIONS + 1)]
    script = as_input(line for lines in zip(*sections) for line in lines)
    assert len(script) > 262144 and sum(map(len, sections)) > 16384
    wrong, _ = one_script(base, on_files.Base(base.program, place), b"relation items name:12 n\nend\n" + script)
    yield "a long input of %d sessions on threads" % SESSIONS, wrong, []


def pairs_of(session):
    """A session's lines: transactions of two keys each, on a branch of its own."""
    lines = [b"on " + branch_of(session)]
    for n in range(COMMITS):
        lines += [b"begin", b"insert items %d %d 0" % (2 * n, session), b"insert items %d %d 1" % (2 * n + 1, session), b"commit"]
    return [b"%d " % session + line for line in lines]


def pairs_there(base):
    """How many transactions of each session are there, and what isn't as a beginning of its lines leaves it."""
    there, wrong = 0, []
    for session in range(1, SESSIONS + 1):
        question = b"1 scan items in " + branch_of(session)
        status, written, _ = base.run("script", question + b"\n")
        count = max(written.count(b"\nrow ") // 2, 0)
        rows = b"".join(b"row %d %d %d in %s\n" % (key, session, key % 2, branch_of(session)) for key in range(2 * count))
        if (status, written) != (0, b"> " + question + b"\n" + rows + b"rows %d\n" % (2 * count)):
            wrong.append((session, written[-200:]))
        there += count
    return there, wrong


def killed(base):
    """The program killed at a random moment under eight sessions: the files open to whole transactions, of each session the first ones, and to no other."""
    source, wrong, cut = random.Random(15), [], 0
    given = as_input(line for lines in zip(*(pairs_of(session) for session in range(1, SESSIONS + 1))) for line in lines)
    begun = as_input(b"1 branch %s of master@0" % branch_of(session) for session in range(1, SESSIONS + 1))
    base.made(begun)
    started = time.monotonic()
    status, written, _ = base.run("sessions", given)
    whole = time.monotonic() - started
    yield "eight sessions on branches of their own", (status, len(re.findall(rb"^ok of\d@\d+$", written, re.MULTILINE))), (0, SESSIONS * COMMITS)
    yield "all that they stored", pairs_there(base), (SESSIONS * COMMITS, [])
    for turn in range(KILLED):
        for file in (0, 1):
            os.unlink(base.path(file))
        base.made(begun)
        program = subprocess.Popen([base.program, "sessions", base.name], stdin=subprocess.PIPE, stdout=subprocess.PIPE, stderr=subprocess.DEVNULL)
        program.stdin.write(given)
        program.stdin.close()
        time.sleep(source.random() * whole)
        program.kill()
        program.stdout.read()
        program.wait()
        status, line, _ = base.run("check")
        found = re.fullmatch(rb"ok generation 1 branches %d versions \d+ entries (\d+)\n" % (SESSIONS + 1), line)
        stored = int(found.group(1)) - SESSIONS if found else -1
        there, unlike_any = pairs_there(base)
        cut += 0 < stored < SESSIONS * COMMITS
        if status or stored != there or unlike_any:
            wrong.append((turn, status, line, there, unlike_any))
    print("tests/run: killed %d times under %d sessions of %d commits each, %d times among their commits" % (KILLED, SESSIONS, COMMITS, cut), flush=True)
    yield "killed at a random moment under eight sessions", wrong, []
    yield "killed among the commits of eight sessions", cut > 0, True


def checks(program):
    """Names with what was found and what should be; none if the program has no `sessions`."""
    with tempfile.TemporaryDirectory() as folder:
        if on_files.Base(program, folder).run("sessions")[0] == 2:
            print("tests/run: the program has no `sessions` yet, so nobody ran sessions on threads")
            return
    for part in (alone, three, beside, names, at_random, comments_and_bad_lines, at_length, killed):
        with tempfile.TemporaryDirectory() as folder:
            yield from part(on_files.Base(program, folder))
