"""The lock of the statements: every definition, contract, ghost member, theorem, worked row and edit by its name, with a sum of what it says.

A proof holds whatever its statement says, so nothing else refuses a statement that came to say less where no one uses what was lost. The lock,
tests/statements.lock, has a line for each, and a statement that moved, is new or went is told by its name. A sum is of the tokens alone: comments and layout
do not count, and a name counts with the module that it comes from.
"""
import hashlib
import re
from collections import Counter

import antt
import rattle

LOCK = "tests/statements.lock"
HEAD = "# What is stated, by name: sum, crate, name. `python3 tests/statements.py --accept` writes this file anew.\n"

# The crates of which every clause of every function is a statement of its own account, and not only what another crate can call.
WHOLE = ("client", "listing")

# The page of what is delivered: its definitions and its laws.
PAGE = "delivery"

# The theorems of the documents that stand in proofs/, by the file and the name.
THEOREMS = {
    "alike/proofs/Scribbles": ["scribbled-power-cuts"],
    "alike/proofs/Views": ["mean-nothing"],
    "anchor/proofs/Theorems": ["tagged-anchor", "anchor-no-table", "zeros-no-table"],
    "archive/proofs/Theorem": ["earlier-entries"],
    "calls/proofs/Outcomes": ["write-12", "write-13", "write-tested"],
    "disc/proofs/Fresh": ["fresh-neither"],
    "disc/proofs/Told": ["other-kind"],
    "history/proofs/Closed": ["closed-discs"],
    "history/proofs/Theorem": ["power-cuts", "remounts", "save-then-mount"],
    "history/proofs/Times": ["retells", "save-then-time", "save-times"],
    "le/proofs/Bytes": ["get_d-sets-other"],
    "le/proofs/Fields": ["read-put", "read-sets-apart"],
    "run/proofs/Theorems": ["reads-back", "recognised"],
    "space/proofs/Theorem": ["space"],
    "timestamp/proofs/Stamps": ["told-minutes", "told-mark"],
    "timestamp/proofs/Theorems": ["starts", "rises", "utc-rises"],
    "vat/proofs/Theorems": ["reads-back", "not-elsewhere", "at-one-block", "tells", "all-unused-at-zero"],
    "volume/proofs/State": ["unpack-pack", "pack-unpack"],
}

# What is written for the proof of one function, in a folder of its own: no one else's statement.
OF_ONE_FUNCTION = ("Proof", "Invariants", "Answers")

# Where rows and lists are worked out: all that is defined there and every claim.
WORKED = ["bench/proofs/*", "cuts/proofs/Dated", "cuts/proofs/Drawn", "cuts/proofs/Lists", "cuts/proofs/Viewed", "cuts/proofs/Worked", "days/proofs/*", "space/proofs/Worked"]


def summed(words):
    return hashlib.sha256(" ".join(words).encode()).hexdigest()[:16]


def numbered(name, counted):
    """A name, and behind it how many of it there are up to here, if it is not the first."""
    return name + (f" {counted[name]}" if counted[name] > 1 else "")


def homes(brought, block):
    """From each name that serves in a block, or outside of every block, to the modules that bring it: the file's, and the block's own."""
    found = {}
    for use in brought:
        if use.block in (None, block):
            for part in {part for name in use.names for part in [name, *antt.parts_of(name)]}:
                found[part] = list(dict.fromkeys([*found.get(part, []), use.home]))
    return found


def resolved(text, known):
    """The tokens of a text of the prover's, each name that a module brings with that module, and with both where two do."""
    return ["@".join([token, *known.get(token, [])]) for token in antt.tokens(text)]


class Lock:
    """What the sources state: `lines`, from crate and name to the sum; `counts`; and `faults`, what cannot be read, as pairs of file and text."""

    def __init__(self, root):
        self.root = root
        self.lines, self.counts, self.faults = {}, {"worked rows": 0, "worked lists": 0, "edits": 0}, []
        self.modules = {}
        for path in sorted((root / "crates").glob("*/specs/**/*.antt")):
            self.definitions(path)
        for path in sorted((root / "crates").glob("*/src/**/*.rt")):
            self.contracts(path)
        for file, names in THEOREMS.items():
            for name in names:
                self.law(file, name)
        for path in sorted((root / "crates" / PAGE).glob("proofs/**/*.antt")):
            if path.parent.name == "proofs" or path.stem not in OF_ONE_FUNCTION:
                self.all_laws(path)
        for pattern in WORKED:
            for path in sorted((root / "crates").glob(f"{pattern}.antt")):
                self.worked(path)
        self.edits()

    def add(self, crate, name, words):
        self.lines[(crate, name)] = summed(words)

    def module(self, file):
        """The module of a file under crates/, without its ending; nothing where there is none."""
        path = self.root / "crates" / f"{file}.antt"
        if file not in self.modules and path.is_file():
            # In specs/ what is neither unfolded by itself nor opened by a proof is a definition all the same.
            module = self.modules[file] = antt.module(path.read_text(), "definition" if "/specs/" in file else "law")
            self.faults += [(f"crates/{file}.antt", fault) for fault in module.faults]
        return self.modules.get(file)

    def file_of(self, path):
        return str(path.relative_to(self.root / "crates")).removesuffix(".antt")

    def definitions(self, path):
        """Every declaration of specs/."""
        file = self.file_of(path)
        for name in self.module(file).declared:
            self.put(file, name)

    def put(self, file, name):
        """A declaration's lines: a law's is what it says, a definition's how it is defined too, and a field or constructor has one of its own."""
        crate, _, place = file.partition("/")
        module = self.module(file)
        declared = module.declared[name]
        body = declared.body if declared.is_definition() else []
        self.add(crate, f"{place}.{name}", module.resolved([*declared.around, *declared.says, "=", *body]))
        for part, words in declared.parts:
            self.add(crate, f"{place}.{name}.{part}", module.resolved(words))
        self.cited(file, declared, [*declared.around, *declared.says, *body, *(word for _, words in declared.parts for word in words)])

    def cited(self, file, citing, words):
        """What a statement cites of proofs/ is part of it. What stands in a module of parameters is known to what stands there too."""
        module = self.module(file)
        for word in dict.fromkeys(words):
            home = self.home(file, module.homes.get(word))
            target = self.module(home) if home else None
            found = target.declared.get(word) if target else None
            if found and found.is_definition() and (citing.around or not found.around or found.public):
                crate, _, place = home.partition("/")
                if (crate, f"{place}.{word}") not in self.lines:
                    self.put(home, word)

    def home(self, file, module):
        """The file of a module of some crate's proofs/; of a name that no `use` brings, the file itself."""
        if module is None:
            return file
        found = re.fullmatch(r"Rattle\.(\w+)\.proofs\.(.*)", module)
        return f"{found[1]}/proofs/{found[2].replace('.', '/')}" if found else None

    def law(self, file, name):
        """A theorem, which must stand there."""
        module = self.module(file)
        if module and name in module.declared:
            self.put(file, name)
        else:
            self.faults.append((f"crates/{file}.antt", f"has no theorem {name}, which tests/lock.py names"))

    def all_laws(self, path):
        file = self.file_of(path)
        for name, declared in self.module(file).declared.items():
            if declared.public:
                self.put(file, name)

    def worked(self, path):
        """The rows and lists of a file, and the claims about them. `T` of a test is a claim that the checker works out."""
        file = self.file_of(path)
        module = self.module(file)
        own = {name for name, declared in module.declared.items() if declared.word in ("record", "data")}
        for name, declared in module.declared.items():
            test = declared.says[:1] == ["T"]
            if declared.public or declared.is_definition() and not declared.around or test:
                self.put(file, name)
            if declared.says[:1] == ["List"] and declared.says[1] in own and declared.is_definition():
                self.counts["worked rows"] += elements(declared.body)
            if file.startswith(("cuts/", "days/")) and declared.word == "law" and declared.says[:1] in (["T"], ["Begun"], ["Mounted"]):
                self.counts["worked lists"] += 1

    def contracts(self, path):
        """What a file of code states: its declared types, its impls and traits, each ghost member, and of each function the parameters and each clause. A
        promise without a precondition has no line for one."""
        crate, _, place = str(path.relative_to(self.root / "crates")).removesuffix(".rt").partition("/")
        source = path.read_text()
        brought, members, others = rattle.ghosts(source)
        self.faults += [(f"crates/{crate}/{place}.rt", f"`{item}` is of no known form") for item in others]
        for name, text in rattle.types(source):
            self.one(crate, place, name, (text or "").split(), "" if text else "its fields cannot be read")
        self.blocks(crate, place, source)
        for member in members:
            self.one(crate, place, f"{member.block.name}.{member.name}", resolved(member.text, homes(brought, member.block)), "")
        functions = [function for function in rattle.functions(source) if function.public or crate in WHOLE]
        named = Counter(function.name for function in functions)
        for function in functions:
            # In a block it stands under the block's name too where the file has another of its name.
            name = f"{function.block.name}.{function.name}" if function.block and named[function.name] > 1 else function.name
            self.function(crate, place, name, function, homes(brought, function.block))

    def blocks(self, crate, place, source):
        """The impls and traits: a method's promise is about the type that its impl is of. What a struct says is said with the types."""
        of_name = Counter()
        for block in rattle.blocks(source):
            if block.word != "struct":
                of_name[block.name] += 1
                fault = "" if block.start < block.end else "its header cannot be read"
                self.one(crate, place, numbered(block.name, of_name), antt.tokens(rattle.said_by(source, block, crate in WHOLE)), fault)

    def function(self, crate, place, name, function, known):
        fault = "" if function.whole else "something else than `requires {..}` and `ensures {..}` stands between its result and its body"
        self.one(crate, place, name, antt.tokens(f"{function.kinds} {function.parameters} -> {function.result}"), fault)
        of_word = Counter()
        for clause in function.clauses:
            # A clause that is named stands under its name, and another by how many of its word stand before it.
            key = clause.name and f"{clause.word} {clause.name}" or clause.word
            of_word[key] += 1
            self.add(crate, f"{place}.{name} {numbered(key, of_word)}", resolved(clause.text, known))

    def one(self, crate, place, name, words, fault):
        """A line of its own for what the code declares: two of one name would have one line."""
        if (crate, f"{place}.{name}") in self.lines:
            fault = "is declared twice"
        if fault:
            self.faults.append((f"crates/{crate}/{place}.rt", f"{name}: {fault}"))
        self.add(crate, f"{place}.{name}", words)

    def edits(self):
        """Each edit that must be refused: by which crate, and what it puts in definitions and code. What it mends in proofs, and at which law it is refused,
        moves with the proofs and is no part of it."""
        for path in [*self.root.glob("crates/*/must-fail/*.edit"), *self.root.glob("tests/must-fail/*.edit")]:
            words, kept = [], True
            for line in path.read_text().splitlines():
                word, _, text = line.removeprefix("# ").partition(": ")
                kept = not re.search(r"(^|/)proofs/", text) if word == "file" else kept
                if word == "refused" or word in ("file", "old", "new") and kept:
                    words += [word, *antt.tokens(text)]
            parent = path.parent.parent
            self.add("tests" if parent.name == "tests" else parent.name, f"must-fail/{path.stem}", words)
            self.counts["edits"] += 1


def elements(body):
    """How many elements a list has that is written out: the `∷` outside of brackets."""
    depth = count = 0
    for word in body:
        depth += (word in "({") - (word in ")}")
        count += word == "∷" and depth == 0
    return count


def written(lock):
    lines = [f"{number} {what}\n" for what, number in lock.counts.items()]
    lines += [f"{total} {crate} {name}\n" for (crate, name), total in sorted(lock.lines.items())]
    return HEAD + "".join(lines)


def read(root):
    """The lock as it is written: the counts and the lines."""
    counts, lines = {}, {}
    path = root / LOCK
    for line in path.read_text().splitlines() if path.is_file() else []:
        if found := re.fullmatch(r"([0-9a-f]{16}) (\S+) (.+)", line):
            lines[(found[2], found[3])] = found[1]
        elif found := re.fullmatch(r"(\d+) ([a-z ]+)", line):
            counts[found[2]] = int(found[1])
    return counts, lines


def differences(root, lock):
    """What moved, is new or went, a line each."""
    counts, lines = read(root)
    found = []
    for key in sorted({*lines, *lock.lines}):
        if lines.get(key) != lock.lines.get(key):
            word = "is new" if key not in lines else "went" if key not in lock.lines else "moved"
            found.append(f"{' '.join(key)} {word}")
    for what in {**counts, **lock.counts}:
        if counts.get(what) != lock.counts.get(what):
            found.append(f"{lock.counts.get(what, 'no')} {what}, and the lock has {counts.get(what, 'no')}")
    return found
