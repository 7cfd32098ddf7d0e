"""The crates as text: their files, their functions with the names of their clauses, their tests and their edits."""
import functools, os, re, subprocess
from dataclasses import dataclass, field

TOP = os.path.dirname(os.path.dirname(os.path.abspath(__file__)))
CRATES = os.path.join(TOP, "crates")
FUNCTION = re.compile(r"\s*(?:pub(?:\([a-z]+\))? )?(?:const |unsafe |final )*fn (\w+)")
CLAUSE = re.compile(r"\s*(ensures|requires|durable|takes)\b\s*(\w*)")
OWNER = re.compile(r"(?:pub(?:\([a-z]+\))? )?(impl|trait)\b(.*)")
GHOST = re.compile(r"\s*ghost (\w+)\s*:")
TEST = re.compile(r"#\[test\]\n(?:\s*#\[[^\n]*\n)*\s*(?:pub )?fn (\w+)")
GATE, ASIDE = "must-fail", "edits"  # the folders of a crate's edits: those that the gate tries, and those that tests/edits tries


@dataclass
class Function:
    file: str
    line: int
    name: str  # `Type::name` inside of an `impl` or a `trait`
    is_law: bool = False  # a law of a trait, which has no clause
    clauses: list = field(default_factory=list)  # (`ensures` or another word, the clause's name or nothing, its lines)

    def promises(self):
        return [name for word, name, _ in self.clauses if word == "ensures"]


def read(path):
    with open(path, encoding="utf-8") as f:
        return f.read()


@functools.cache
def crates():
    """The crates of crates.txt, the lowest first."""
    return re.findall(r"^(\w+)(?: [^:\n]*)?:", read(os.path.join(TOP, "crates.txt")), re.M)


@functools.cache
def tracked():
    """The files of the repository, by their paths from the top, without what is made from them: those that git knows, if there is git."""
    if os.path.exists(os.path.join(TOP, ".git")):
        listed = subprocess.run(["git", "ls-files", "-z"], cwd=TOP, stdout=subprocess.PIPE)
        if listed.returncode == 0:
            return sorted(path for path in listed.stdout.decode().split("\0") if os.path.isfile(os.path.join(TOP, path)))
    found = []
    for folder, folders, files in os.walk(TOP):
        folders[:] = [name for name in folders if name not in (".git", "out", "__pycache__")]
        found += [os.path.relpath(os.path.join(folder, name), TOP) for name in files]
    return sorted(found)


def without_generics(text):
    """A text without what stands between < and >."""
    depth, kept = 0, ""
    for at, letter in enumerate(text):
        depth += letter == "<"
        if depth == 0:
            kept += letter
        depth -= letter == ">" and text[at - 1] != "-"
    return kept


def owner_of(line):
    """The type of an `impl`, or the name of a trait, where a line begins one."""
    begins = OWNER.match(line)
    if not begins:
        return None
    words = without_generics(begins[2]).split(" for ")[-1].split()
    return re.match(r"\w*", words[0])[0] if words else None


@functools.cache
def functions(crate):
    """The functions of a crate, and the laws of its traits."""
    found = []
    for path in tracked():
        if not (path.startswith("crates/%s/src/" % crate) and path.endswith(".rt")):
            continue
        owner, now = None, None
        for number, line in enumerate(read(os.path.join(TOP, path)).split("\n"), 1):
            if line[:1] not in ("", " ", "/", "#"):
                owner = owner_of(line)
            function, ghost, clause = FUNCTION.match(line), GHOST.match(line), CLAUSE.match(line)
            if function or (ghost and owner):
                name = (function or ghost)[1]
                now = Function(path, number, "%s::%s" % (owner, name) if owner and line.startswith(" ") else name, is_law=not function)
                found.append(now)
            elif clause and now:
                now.clauses.append((clause[1], clause[2], [line]))
            elif now and now.clauses and is_open(now.clauses[-1][2]):
                now.clauses[-1][2].append(line)
    return found


def is_open(lines):
    """A clause goes on behind these lines of it."""
    text = "".join(lines)
    return text.count("{") > text.count("}")


@functools.cache
def tests():
    """The names of all proved tests."""
    return {name for path in tracked() if path.startswith("crates/") and path.endswith(".rt") for name in TEST.findall(read(os.path.join(TOP, path)))}


@functools.cache
def edits_in(crate, folder):
    """The names of a crate's edits in one of its two folders."""
    files = [path for path in tracked() if path.startswith("crates/%s/%s/" % (crate, folder)) and path.endswith(".edit")]
    return {os.path.basename(path)[:-len(".edit")] for path in files}


def edits(crate):
    """The names of all of a crate's edits: its contracts refuse each."""
    return edits_in(crate, GATE) | edits_in(crate, ASIDE)
