"""A second model, which is no definition: a machine that answers each line at once, under locks that nobody waits for.

It shares nothing with tests/model.py. A line is read by one regular expression a form. A branch keeps, for each record, the positions
at which it changed; a transaction keeps its changes over the head, and has its needs in a table of locks. That both give the same bytes
is what is claimed of the program: its replies line by line are those of whole transactions run one after another.
"""
import bisect, re

NAMED = r"(?!(?:all|and|catalogue|heads|in|key|left|of|right|where)(?![a-z0-9_]))[a-z][a-z0-9_]{0,31}(?![a-z0-9_])"
COUNT, SIGNED = r"(?:0|[1-9][0-9]*)", r"(?:0|-?[1-9][0-9]*)"
VALUE = r'(?:%s|"[ !#-~]{0,64}")' % SIGNED
OF = r"%s(?:@%s)?" % (NAMED, COUNT)
TERM = r"(?:%s (?:=|!=|<=?|>=?) %s|key (?:=|!=|<=?|>=?) %s)" % (NAMED, VALUE, COUNT)
WHERE = r"(?: where (%s(?: and %s){0,15}))?" % (TERM, TERM)
FORMS = [(kind, re.compile(form), stage) for kind, form, stage in (
    ("begin", r"begin(?: (%s))?" % COUNT, 0),
    ("end", r"(commit|abort)", 0),
    ("on", r"on (%s)" % NAMED, 0),
    ("log", r"log (%s)" % NAMED, 0),
    ("insert", r"insert (%s) (%s)((?: %s){1,15})" % (NAMED, COUNT, VALUE), 0),
    ("update", r"update (%s) (%s)((?: %s=%s){1,15})" % (NAMED, COUNT, NAMED, VALUE), 0),
    ("delete", r"delete (%s) (%s)" % (NAMED, COUNT), 0),
    ("get", r"get (%s) (%s)(?: in (%s))?" % (NAMED, COUNT, OF), 0),
    ("scan", r"scan (%s)" % NAMED, 0),
    ("branch", r"branch (%s) of (%s)" % (NAMED, OF), 0),
    ("scan", r"scan (%s)()%s" % (NAMED, WHERE), "questions"),
    ("scan", r"scan (%s) in (heads|%s(?:,%s){0,63})%s" % (NAMED, OF, OF, WHERE), "questions"),
    ("join", r"join (%s) (%s) (%s) (%s)%s" % (NAMED, NAMED, OF, OF, WHERE), "questions"),
    ("minus", r"minus (%s) (%s) (%s)" % (NAMED, OF, OF), "questions"),
    ("graph", r"graph", "merges"),
    ("segments", r"segments", "segments"),
    ("checkpoint", r"checkpoint", 0),
    ("merge", r"merge (%s)(?: (left|right))?" % NAMED, "merges"),
)]
HOLDS = {"=": (0,), "!=": (-1, 1), "<": (-1,), "<=": (-1, 0), ">": (1,), ">=": (0, 1)}
CATALOGUE, SHARED, EXCLUSIVE = 0, 1, 2
BODY = 16777216


class No(Exception):
    pass


def small(text, least=0, most=2**64 - 1):
    if not least <= int(text) <= most:
        raise No("1 bad line")
    return int(text)


def signed(text):
    """A text is a str, and a number an int."""
    return text[1:-1] if text.startswith('"') else small(text, -2**63, 2**63 - 1)


def told(key, fields):
    return " ".join([str(key)] + ['"%s"' % field if isinstance(field, str) else str(field) for field in fields])


def place_name(text):
    branch, at, position = text.partition("@")
    return branch, small(position) if at else None


def terms_of(text):
    found = []
    for part in re.findall(TERM, text or ""):
        column, sign, number = part.split(" ", 2)
        found.append((column, sign, small(number) if column == "key" else signed(number)))
    return found


class Session:
    def __init__(self):
        self.branch, self.skips = 0, False
        self.drop()

    def drop(self):
        self.begun, self.room, self.changes, self.second = False, 1024, {}, None
        self.bytes = 0, 0, 0  # of the changes without a text and with one, and how many of them have texts
        self.more = {}  # by relation, how many keys it has more than the head


class Machine:
    def __init__(self, schema, built):
        self.built = built
        self.relations = [relation.decode() for relation in schema]
        self.columns = [[column.decode().split(":")[0] for column in columns] for columns in schema.values()]
        self.widths = [[int((column.decode() + ":0").split(":")[1]) for column in columns] for columns in schema.values()]
        self.names, self.numbers = ["master"], {"master": 0}
        self.origins = [None]  # of a branch the place of which its position 0 is another name
        self.versions = [[0]]  # of a branch the numbers of its versions, from its origin's
        self.sizes = [[[0] * len(self.columns)]]  # of a branch by position, how many keys each relation has
        self.cells = [{}]  # of a branch, by relation and key, the positions of its changes, and the fields
        self.spelled, self.parents, self.reached = ["master@0"], [()], [1]  # of a version; reached is a set of bits
        self.sessions, self.locks = {}, {}
        self.pieces = [[[0, 0]] for _ in self.columns]  # of a relation its segments: the branch whose head one is, and how many records it has
        self.homes = [[[{}] for _ in self.columns]]  # of a branch, by relation and position, the segment of each key's record
        self.seen = [[[0] for _ in self.columns]]  # of a branch and relation, the segments that it has a row of; the last one is its head

    # One line.

    def answer(self, line):
        text = line.decode("latin-1")
        head = re.match(r"([1-9]|[1-5][0-9]|6[0-4]) ", text)
        number = int(head[1]) if head else 0
        if number > 1 and "sessions" not in self.built:
            return "refused 1 bad line\n"
        session = self.sessions.setdefault(number, Session())
        self.now, self.number = session, number
        kind, parts = self.read(text[head.end():] if head and len(line) <= 4096 else "")
        if session.skips:
            session.skips = kind != "end"
            return "refused 18 skipped\n"
        try:
            said = getattr(self, "do_" + kind)(*parts)
        except No as no:
            said = "refused %s\n" % no
        if not session.begun:
            session.drop()
            self.release()
        return said

    def read(self, text):
        for kind, form, stage in FORMS:
            match = form.fullmatch(text)
            if match and (stage == 0 or stage in self.built):
                try:
                    return kind, getattr(self, "read_" + kind, lambda *parts: parts)(*match.groups())
                except No:
                    break
        return "nothing", ()

    def read_begin(self, room):
        return (small(room, 1, 65536) if room else 1024,)

    def read_insert(self, relation, key, values):
        return relation, small(key), tuple(signed(word) for word in re.findall(VALUE, values))

    def read_update(self, relation, key, sets):
        sets = [word.split("=", 1) for word in re.findall(r"%s=%s" % (NAMED, VALUE), sets)]
        if len(dict(sets)) < len(sets):
            raise No
        return relation, small(key), {column: signed(number) for column, number in sets}

    def read_delete(self, relation, key):
        return relation, small(key)

    def read_get(self, relation, key, of):
        return relation, small(key), of and place_name(of)

    def read_branch(self, branch, of):
        return branch, place_name(of)

    def read_scan(self, relation, over="", where=None):
        return relation, over if over in ("", "heads") else [place_name(of) for of in over.split(",")], terms_of(where)

    def read_join(self, left, right, first, second, where):
        return left, right, place_name(first), place_name(second), terms_of(where)

    def read_minus(self, relation, first, second):
        return relation, place_name(first), place_name(second)

    # Locks: 0 is the catalogue, and a branch has its number and 1.

    def lock(self, *asked):
        for lock, mode in sorted(asked):
            others = [number for number, kept in self.locks.get(lock, {}).items() if number != self.number and (mode == EXCLUSIVE or kept == EXCLUSIVE)]
            if others:
                self.now.skips = self.now.begun
                self.now.drop()
                self.release()
                raise No("8 held %s by %d" % ("catalogue" if lock == CATALOGUE else self.names[lock - 1], min(others)))
        for lock, mode in asked:
            held = self.locks.setdefault(lock, {})
            held[self.number] = max(mode, held.get(self.number, 0))

    def release(self):
        for held in self.locks.values():
            held.pop(self.number, None)

    def asks(self, *names):
        """The locks that names of versions ask for."""
        asked = []
        for branch, position in names:
            number = self.numbers.get(branch)
            if number is None:
                asked.append((CATALOGUE, SHARED))
            elif position is None or position >= len(self.versions[number]):
                asked.append((number + 1, SHARED))
        return asked

    def all_heads(self):
        return [(lock, SHARED) for lock in range(len(self.names) + 1)]

    # What stands at a place, and what the transaction sees.

    def place(self, branch, position):
        """A branch's number and a position, which is None for the working table."""
        number = self.numbers.get(branch)
        if number is None:
            raise No("4 no branch %s" % branch)
        if position is None:
            return number, None if number == self.now.branch else len(self.versions[number]) - 1
        if position >= len(self.versions[number]):
            raise No("5 no version %s@%d" % (branch, position))
        return number, position

    def look(self, place, relation, key):
        branch, position = place
        if position is None:
            if (relation, key) in self.now.changes:
                return self.now.changes[relation, key]
            position = len(self.versions[branch]) - 1
        while True:
            changed = self.cells[branch].get((relation, key), ([], []))
            at = bisect.bisect_right(changed[0], position)
            if at:
                return changed[1][at - 1]
            if self.origins[branch] is None:
                return None
            branch, position = self.origins[branch]

    def keys(self, place, relation):
        """The keys that a table may have."""
        branch, position = place
        found = {key for r, key in self.now.changes if r == relation} if position is None else set()
        while True:
            found.update(key for r, key in self.cells[branch] if r == relation)
            if self.origins[branch] is None:
                return sorted(found)
            branch = self.origins[branch][0]

    def records(self, place, relation, terms=()):
        for key in self.keys(place, relation):
            fields = self.look(place, relation, key)
            if fields is None:
                continue
            for column, sign, number in terms:
                found = key if column == "key" else fields[self.columns[relation].index(column)]
                if (found > number) - (found < number) not in HOLDS[sign]:
                    break
            else:
                yield key, fields

    def size(self, relation):
        return self.sizes[self.now.branch][-1][relation] + self.now.more.get(relation, 0)

    def full(self, relation, size):
        if size > 262144:
            raise No("17 table full %s" % self.relations[relation])

    def working(self):
        return self.now.branch, None

    def relation(self, name):
        if name not in self.relations:
            raise No("2 no relation %s" % name)
        return self.relations.index(name)

    def checked(self, terms, relation):
        for column in terms:
            if column != "key" and column not in self.columns[relation]:
                raise No("3 no column %s" % column)

    def fits(self, given, relation, is_stored):
        """Values by column from left to right: each has its column's kind, and one that is stored isn't too long."""
        for column, one in given:
            if column == "key":
                continue
            width = self.widths[relation][self.columns[relation].index(column)]
            if (width == 0) == isinstance(one, str):
                raise No("22 wrong kind %s" % column)
            if is_stored and width and len(one) > width:
                raise No("23 text too long %s" % column)

    def weigh(self, cell, fields):
        """The bytes of a change, in an entry without a text and in one with texts, and whether it has one."""
        widths = self.widths[cell[0]] if fields is not None else []
        return 10 + 8 * len(widths), 10 + sum(9 if width == 0 else 1 + width for width in widths), int(any(widths))

    def heavy(self, weights, has_second):
        narrow, wide, texts = weights
        if 10 + 8 * has_second + (wide if texts else narrow) > BODY:
            raise No("20 body full")

    # Statements.

    def do_nothing(self):
        return "refused 1 bad line\n"

    def do_begin(self, room):
        if self.now.begun:
            raise No("10 in transaction")
        self.now.begun, self.now.room = True, room
        return "ok\n"

    def do_end(self, word):
        if not self.now.begun:
            raise No("11 no transaction")
        said = self.store() if word == "commit" else "ok\n"
        self.now.begun = False
        return said

    def store(self):
        """Makes a version of what the transaction changed or merged."""
        now, branch = self.now, self.now.branch
        if not now.changes and now.second is None:
            return "ok\n"
        position, version = len(self.versions[branch]), len(self.spelled)
        for cell, fields in now.changes.items():
            positions, states = self.cells[branch].setdefault(cell, ([], []))
            positions.append(position)
            states.append(fields)
        parents = (self.versions[branch][-1],) + (() if now.second is None else (now.second,))
        self.house(branch, now.changes)
        self.sizes[branch].append([self.size(r) for r in range(len(self.columns))])
        self.versions[branch].append(version)
        self.spelled.append("%s@%d" % (self.names[branch], position))
        self.parents.append(parents)
        self.reached.append(1 << version | self.reached[parents[0]] | self.reached[parents[-1]])
        return "ok %s\n" % self.spelled[-1]

    def house(self, branch, changes):
        """Each record that a commit puts goes to the head of its branch."""
        for r, homes in enumerate(self.homes[branch]):
            head, new = self.seen[branch][r][-1], dict(homes[-1])
            for (_, key), fields in (change for change in changes.items() if change[0][0] == r):
                new.pop(key, None)
                if fields is not None:
                    new[key] = head
                    self.pieces[r][head][1] += 1
            homes.append(new)

    def move_in(self, origin, position):
        """A new branch gets a head; and so does its origin, if the branch is made of its last version."""
        new = len(self.homes)
        self.homes.append([])
        self.seen.append([])
        for r, pieces in enumerate(self.pieces):
            homes = self.homes[origin][r][position]
            if position == len(self.homes[origin][r]) - 1:
                pieces[self.seen[origin][r][-1]][0] = None
                self.seen[origin][r].append(len(pieces))
                pieces.append([origin, 0])
            self.homes[new].append([homes])
            self.seen[new].append([*sorted(set(homes.values())), len(pieces)])
            pieces.append([new, 0])

    def do_segments(self):
        self.lock(*self.all_heads())
        lines = []
        for r, pieces in enumerate(self.pieces):
            for number, (head, count) in enumerate(pieces):
                live = ["%s=%d" % (name, list(self.homes[branch][r][-1].values()).count(number)) for branch, name in enumerate(self.names) if number in self.seen[branch][r]]
                lines.append("segment %s %d %s records %d live %s\n" % (self.relations[r], number, "internal" if head is None else "head " + self.names[head], count, ",".join(live)))
        return "%ssegments %d\n" % ("".join(lines), len(lines))

    def do_checkpoint(self):
        if self.now.begun:
            raise No("10 in transaction")
        return "ok\n"

    def changed(self):
        return "ok\n" if self.now.begun else self.store()

    def do_on(self, branch):
        if self.now.begun:
            raise No("10 in transaction")
        if branch not in self.numbers:
            self.lock((CATALOGUE, SHARED))
        self.now.branch = self.place(branch, None)[0]
        return "ok\n"

    def do_branch(self, branch, of):
        if self.now.begun:
            raise No("10 in transaction")
        self.lock((CATALOGUE, EXCLUSIVE), *self.asks(of))
        number, position = self.place(*of)
        if branch in self.numbers:
            raise No("14 branch there %s" % branch)
        if len(self.names) == 1024:
            raise No("15 branches full")
        position = len(self.versions[number]) - 1 if position is None else position
        self.numbers[branch] = len(self.names)
        self.names.append(branch)
        self.origins.append((number, position))
        self.versions.append([self.versions[number][position]])
        self.sizes.append([self.sizes[number][position]])
        self.move_in(number, position)
        self.cells.append({})
        return "ok %s@0\n" % branch

    def log_lines(self, branch):
        for position in reversed(range(1, len(self.versions[branch]))):
            parents = self.parents[self.versions[branch][position]]
            yield "%s@%d of %s\n" % (self.names[branch], position, " and ".join(self.spelled[parent] for parent in parents))
        yield "%s@0 is %s\n" % (self.names[branch], self.spelled[self.versions[branch][0]]) if branch else "master@0 root\n"

    def do_log(self, branch):
        self.lock(*self.asks((branch, None)))
        lines = list(self.log_lines(self.place(branch, None)[0]))
        return "%spositions %d\n" % ("".join(lines), len(lines))

    def do_graph(self):
        self.lock(*self.all_heads())
        lines = [line for branch in range(len(self.names)) for line in self.log_lines(branch)]
        return "%sversions %d\n" % ("".join(lines), len(self.spelled))

    def do_get(self, relation, key, of):
        r = self.relation(relation)
        self.lock(*(self.asks(of) if of else [(self.now.branch + 1, SHARED)]))
        fields = self.look(self.place(*of) if of else self.working(), r, key)
        return "none\n" if fields is None else self.shown("row", [(key, fields)])[0]

    def shown(self, word, found):
        return ["%s %s\n" % (word, told(key, fields)) for key, fields in found]

    def listed(self, lines):
        return "%srows %d\n" % ("".join(lines), len(lines))

    def do_scan(self, relation, over, terms):
        r = self.relation(relation)
        self.checked([column for column, _, _ in terms], r)
        self.fits([(column, one) for column, _, one in terms], r, False)
        if over == "":
            self.lock((self.now.branch + 1, SHARED))
            return self.listed(self.shown("row", self.records(self.working(), r, terms)))
        self.lock(*(self.all_heads() if over == "heads" else self.asks(*over)))
        names = [(branch, None) for branch in self.names] if over == "heads" else over
        where = {}
        for (branch, position), place in [(of, self.place(*of)) for of in names]:
            for record in self.records(place, r, terms):
                where.setdefault(record, []).append(branch if position is None else "%s@%d" % (branch, position))
        return self.listed(["row %s in %s\n" % (told(key, fields), ",".join(where[key, fields])) for key, fields in sorted(where)])

    def do_join(self, left, right, first, second, terms):
        r, s = self.relation(left), self.relation(right)
        self.checked([column for column, _, _ in terms], r)
        self.fits([(column, one) for column, _, one in terms], r, False)
        self.lock(*self.asks(first, second))
        one, other = self.place(*first), self.place(*second)
        both = [(key, fields, self.look(other, s, key)) for key, fields in self.records(one, r, terms)]
        return self.listed(["pair %s | %s\n" % (told(key, a), told(key, b).partition(" ")[2]) for key, a, b in both if b is not None])

    def do_minus(self, relation, first, second):
        r = self.relation(relation)
        self.lock(*self.asks(first, second))
        one, other = self.place(*first), self.place(*second)
        return self.listed(self.shown("row", [(key, fields) for key, fields in self.records(one, r) if self.look(other, r, key) != fields]))

    def writes(self):
        if len(self.versions[self.now.branch]) == 65536:
            raise No("16 versions full %s" % self.names[self.now.branch])

    def old(self, relation, key, is_there):
        self.lock((self.now.branch + 1, EXCLUSIVE))
        self.writes()
        fields = self.look(self.working(), self.relation(relation), key)
        if is_there != (fields is not None):
            raise No("%s %s %d" % ("7 key missing" if is_there else "6 key there", relation, key))
        return fields

    def put(self, relation, key, fields, more=0):
        cell = self.relation(relation), key
        if more > 0:
            self.full(cell[0], self.size(cell[0]) + more)
        if cell not in self.now.changes and len(self.now.changes) >= self.now.room:
            raise No("12 room %d" % self.now.room)
        gone = self.weigh(cell, self.now.changes[cell]) if cell in self.now.changes else (0, 0, 0)
        weights = tuple(map(lambda all_, was, is_: all_ - was + is_, self.now.bytes, gone, self.weigh(cell, fields)))
        self.heavy(weights, self.now.second is not None)
        self.now.bytes = weights
        self.now.changes[cell] = fields
        self.now.more[cell[0]] = self.now.more.get(cell[0], 0) + more
        return self.changed()

    def do_insert(self, relation, key, values):
        count = len(self.columns[self.relation(relation)])
        if len(values) != count:
            raise No("21 value count %s %d" % (relation, count))
        self.fits(zip(self.columns[self.relation(relation)], values), self.relation(relation), True)
        self.old(relation, key, False)
        return self.put(relation, key, values, 1)

    def do_update(self, relation, key, sets):
        columns = self.columns[self.relation(relation)]
        self.checked(sets, self.relation(relation))
        self.fits(sets.items(), self.relation(relation), True)
        fields = self.old(relation, key, True)
        return self.put(relation, key, tuple(sets.get(column, was) for column, was in zip(columns, fields)))

    def do_delete(self, relation, key):
        self.relation(relation)
        self.old(relation, key, True)
        return self.put(relation, key, None, -1)

    def do_merge(self, branch, prefer):
        now = self.now
        if now.changes or now.second is not None:
            raise No("13 not first")
        self.lock(*self.asks((branch, None)), *([(now.branch + 1, EXCLUSIVE)] if branch in self.numbers else []))
        right = self.place(branch, None)[0], len(self.versions[self.place(branch, None)[0]]) - 1
        self.writes()
        heads = self.versions[now.branch][-1], self.versions[right[0]][-1]
        last = (self.reached[heads[0]] & self.reached[heads[1]]).bit_length() - 1
        base = next((b, self.versions[b].index(last)) for b in range(len(self.names)) if last in self.versions[b])
        changes, conflicts, more = {}, [], {}
        for r in range(len(self.relations)):
            for key in {*self.keys(base, r), *self.keys(self.working(), r), *self.keys(right, r)}:
                kept, mine = self.three([self.look(place, r, key) for place in (base, self.working(), right)], prefer, conflicts, (r, key)), self.look(self.working(), r, key)
                if kept != mine:
                    changes[r, key] = kept
                    more[r] = more.get(r, 0) + (kept is not None) - (mine is not None)
        if conflicts:
            r, key, field = min(conflicts)
            raise No("9 conflict %s %d %s" % (self.relations[r], key, "*" if field < 0 else self.columns[r][field]))
        for r in sorted(more):
            self.full(r, self.size(r) + more[r])
        if len(changes) > now.room:
            raise No("12 room %d" % now.room)
        weights = tuple(map(sum, zip((0, 0, 0), *(self.weigh(cell, fields) for cell, fields in changes.items()))))
        self.heavy(weights, True)
        now.changes, now.second, now.more, now.bytes = changes, heads[1], more, weights
        return self.changed()

    def three(self, sides, prefer, conflicts, cell):
        """By what each side changed: a record where one side alone did, and fields where both have it."""
        base, left, right = sides
        if (left is None) != (right is None):
            if base in (left, right):
                return right if base == left else left
            if not prefer:
                conflicts.append((*cell, -1))
            return right if prefer == "right" else left
        if left is None:
            return None
        kept = list(left)
        for at, (mine, other) in enumerate(zip(left, right)):
            has_changed, other_has = base is None or mine != base[at], base is None or other != base[at]
            if mine != other and other_has:
                if has_changed and not prefer:
                    conflicts.append((*cell, at))
                if not has_changed or prefer == "right":
                    kept[at] = other
        return tuple(kept)


def output_of(schema, lines, built):
    machine = Machine(schema, built)
    return b"".join(b"> " + line + b"\n" + machine.answer(line).encode() for line in lines)
