"""Rattle's text: the functions of a file with their clauses, its declared types, its impls and traits, and its ghost items: the names that it brings for
contracts, and the members that only contracts and proofs see."""
import re
from dataclasses import dataclass
from functools import cache

COMMENT = r"/\*.*?\*/|//[^\n]*"
# What stands between quotes: a raw text, a text or a character. A prime behind a letter is part of one of the prover's names.
QUOTED = r"""\bb?r(?P<fence>#*)".*?"(?P=fence)|"(?:[^"\\]|\\.)*"|(?<!\w)b?'(?:\\(?:u\{[^}]*\}|x\w\w|.)|[^'\\\n])'"""
SKIPPED = re.compile(f"(?P<quoted>{QUOTED})|{COMMENT}", re.DOTALL)


def folded(text):
    return " ".join(text.split())


def blank(found):
    return re.sub(r"[^\n]", " ", found[0])


@cache
def without_comments(text):
    """Rattle's and C's, from // to the end of the line and from /* to */, made blank: every other place stays."""
    return SKIPPED.sub(lambda found: found[0] if found["quoted"] else blank(found), text)


@cache
def bare(text):
    """Without what stands between quotes either: a bracket that is left opens or closes something."""
    return SKIPPED.sub(blank, text)


def closing(text, at):
    """The place of the bracket that closes the one at a place."""
    opens = text[at]
    closes = {"{": "}", "(": ")"}[opens]
    depth = 0
    for place in range(at, len(text)):
        depth += {opens: 1, closes: -1}.get(text[place], 0)
        if depth == 0:
            return place
    return len(text)


@dataclass
class Block:
    """An impl, a trait or a struct: its name, which is an impl's header, its whole header with its marks, whether it is of a trait, so that each function in
    it can be called by whoever has the trait, and the places of its braces."""
    word: str
    name: str
    header: str
    of_trait: bool
    start: int
    end: int


BLOCK = re.compile(r"(?:\A|[;{}\]])\s*(?P<marks>(?:pub(?:\([^()]*\))?\s+)?(?:(?:unsafe|default|const|auto)\s+)*)(?P<word>impl|trait|struct)\b")


def opening(text, at):
    """The place of the brace that opens a block, the header of which goes on at a place, or of the `;` that ends it without one."""
    depth = 0
    for found in re.compile(r"->|[<>()\[\]{};]").finditer(text, at):
        if depth == 0 and found[0] in ("{", ";"):
            return found.start()
        depth += (found[0] in ("<", "(", "[", "{")) - (found[0] in (">", ")", "]", "}"))
    return len(text)


def block_from(source, head):
    """The block that begins so, if it has braces. One whose header cannot be read has its word for a name, and holds nothing."""
    text, word, start = bare(source), head["word"], opening(bare(source), head.end())
    if start == len(text):
        return Block(word, word, "", False, start, start)
    if text[start] == ";":
        return None
    header = without_comments(source)[head.end():start]
    kinds = header[:behind_kinds(header, 0)]
    own = folded(re.split(r"\swhere\b", header[len(kinds):], maxsplit=1)[0])
    name = f"impl{folded(kinds)} {own}" if word == "impl" else re.match(r"\w*", own)[0]
    return Block(word, name, folded(f"{head['marks']}{word}{header}"), word == "trait" or word == "impl" and " for " in own, start, closing(text, start))


@cache
def blocks(source):
    """The blocks of a file, in their order."""
    return [found for head in BLOCK.finditer(bare(source)) if (found := block_from(source, head))]


def block_of(source, place):
    """The innermost block around a place."""
    return next((block for block in reversed(blocks(source)) if block.start < place < block.end), None)


@dataclass
class Clause:
    """A clause: its word, the name that it has beside others of its word, or none, and what stands in its braces."""
    word: str
    name: str
    text: str


@dataclass
class Function:
    """A function: whether others can call it, its type parameters with what is asked of them, its parameters and its result as they stand, its clauses,
    whether its body follows these directly, the block that it stands in, and the places where it begins and ends."""
    name: str
    public: bool
    exported: bool
    kinds: str
    parameters: str
    result: str
    clauses: list
    whole: bool
    block: Block | None
    start: int
    end: int


FUNCTION = re.compile(r'(?P<export>#\[unsafe\(no_mangle\)\]\s*(?:#\[tactic\([^\]]*\)\]\s*)*)?(?P<public>\bpub(?:\([^()]*\))? )?(?P<marks>(?:const |unsafe )*)(?P<c>extern "C" )?\bfn (?P<name>\w+)\s*')
CLAUSE = re.compile(r"\s*(?P<word>(?:requires|ensures)\*?)(?:\s+(?P<name>\w+))?\s*\{")
RESULT = re.compile(rf"\s*->\s*(?P<result>(?:\[[^\]]*\]|[^;{{])*?)(?=\s{CLAUSE.pattern}|\s+where\b|\s*[{{;]|\s*\Z)")
ASKED = re.compile(rf"\s*(?P<asked>where\b[^;{{]*?)(?=\s{CLAUSE.pattern}|\s*[{{;])")


def behind_kinds(text, at):
    """The place behind the type parameters that begin at a place, if any do: an arrow closes nothing."""
    if text[at:at + 1] != "<":
        return at
    depth = 0
    for found in re.compile(r"->|[<>]").finditer(text, at):
        depth += {"<": 1, ">": -1}.get(found[0], 0)
        if depth == 0:
            return found.end()
    return len(text)


@cache
def functions(source):
    """The functions of a file. A clause is read with all that stands in it: what it says is not Rattle's text but the prover's."""
    text, plain, found = bare(source), without_comments(source), []
    for head in FUNCTION.finditer(plain):
        if text[head.start("name")].isspace():
            continue
        around = block_of(source, head.start())
        opens = at = behind_kinds(text, head.end())
        kinds, parameters, result, clauses, body = plain[head.end():opens], "", "", [], None
        if text[opens:opens + 1] == "(":
            end = closing(text, opens)
            parameters, at = plain[opens + 1:end], end + 1
            if told := RESULT.match(text, at):
                at, result = told.end(), plain[told.start("result"):told.end("result")]
            if told := ASKED.match(text, at):
                at, kinds = told.end(), kinds + plain[told.start("asked"):told.end("asked")]
            while word := CLAUSE.match(text, at):
                end = closing(text, word.end() - 1)
                clauses.append(Clause(word["word"], word["name"] or "", folded(source[word.end():end])))
                at = end + 1
            body = re.compile(r"\s*[{;]" if around and around.word == "trait" else r"\s*\{").match(text, at)
        if body:
            at = body.end() if text[body.end() - 1] == ";" else closing(text, body.end() - 1) + 1
        public = bool(head["public"] or around and around.of_trait)
        exported = bool(head["export"] and head["public"] == "pub " and head["c"] and not head["marks"] and not around)
        found.append(Function(head["name"], public, exported, folded(kinds), parameters, folded(result), clauses, bool(body), around, head.start(), at))
    return found


TYPE = re.compile(r"(?P<marks>(?:#\[[^\]]*\]\s*)*(?:\bpub(?:\([^()]*\))?\s+)?)\b(?:struct|enum) (?P<name>\w+)")
FIELDS = re.compile(r"\s*(?:where\b[^{;]*(?=[{;]))?[{(;]")


def types(source):
    """The declared types of a file as pairs of name and text, or of name and None where it cannot be read: the definitions name them. What a mark makes of
    a type, as one that may be copied, is said too."""
    text = bare(source)
    for found in TYPE.finditer(text):
        fields = FIELDS.match(text, behind_kinds(text, found.end()))
        if not fields:
            yield found["name"], None
            continue
        last = fields.end() - 1
        yield found["name"], folded(without_comments(source)[found.start():(last if text[last] == ";" else closing(text, last)) + 1])


@dataclass
class Brought:
    """A `ghost use`: the block in which alone it holds, or none where it holds in the whole file, the module, and the names that come from it."""
    block: Block | None
    home: str
    names: list
    start: int
    end: int


@dataclass
class Member:
    """A ghost member: its block, its name, and what is said of it."""
    block: Block
    name: str
    text: str
    start: int
    end: int


USE = re.compile(r"ghost\s+use\s+(?P<home>[^{}\s]+)\.\{\s*(?P<names>[^{}\s.,]+(?:,\s*[^{}\s.,]+)*),?\s*\}\s*;")
MEMBER = re.compile(r"ghost\s+(?P<name>\w+)(?=\s*[:=])")
PART = re.compile(r"\s*(?P<mark>:|=|\bby\b)\s*\{")

# By the block that a ghost item stands in, or none: what it stands behind, and how the parts of a member are marked, with what ends it. An impl defines, a
# trait declares and may define too, and what a struct declares may have a proof that it is a fact.
BEHIND = {"": ("", ";", "}", "]"), "impl": ("{", ";", "}"), "trait": ("{", ";", "}"), "struct": ("{", ",")}
MARKED = {"impl": {"=": ";"}, "trait": {":": ";", ":=": ";"}, "struct": {":": ",}", ":by": ",}"}}


def ghost_use(source, around, at):
    """The `ghost use` that begins at a place, if it is one: none that renames or takes more than names."""
    found = USE.match(without_comments(source), at)
    names = [name.strip() for name in found["names"].split(",")] if found else []
    if not names or "*" in names or around and around.word == "struct":
        return None
    return Brought(around, found["home"], names, at, found.end())


def ghost_member(source, around, at):
    """The ghost member that begins at a place, if it is one, with all that stands in it: like a clause it is the prover's text."""
    text, head = bare(source), MEMBER.match(bare(source), at)
    if not around or not head:
        return None
    marks, end = "", head.end()
    while part := PART.match(text, end):
        marks, end = marks + part["mark"], closing(text, part.end() - 1) + 1
    ended = re.compile(r"\s*(\S)").match(text, end)
    if not ended or ended[1] not in MARKED[around.word].get(marks, ""):
        return None
    return Member(around, head["name"], folded(source[head.end():end]), at, end if ended[1] == "}" else ended.end())


def ghost_item(source, at):
    """The ghost item that begins at a place, if it is of a known form: it stands in its block itself, and in no body or clause. Only a struct's is public."""
    around = block_of(source, at)
    word = around.word if around else ""
    before = bare(source)[around.start if around else 0:at]
    if word == "struct":
        before = re.sub(r"\bpub(?:\([^()]*\))?\s+\Z", "", before)
    if before.count("{") - before.count("}") != (1 if around else 0) or before.rstrip()[-1:] not in BEHIND[word]:
        return None
    return ghost_use(source, around, at) or ghost_member(source, around, at)


@cache
def ghosts(source):
    """The file's ghost items: what it brings, its members, and the items of another form, of which nobody could say what they mean."""
    found, others = [], []
    for word in re.finditer(r"\bghost\b", bare(source)):
        if item := ghost_item(source, word.start()):
            found.append(item)
        else:
            text = re.compile(r"ghost\s+use\b[^;]*|ghost\b[^;\n]*").match(without_comments(source), word.start())[0]
            others.append(folded(text).rstrip(","))
    return [item for item in found if isinstance(item, Brought)], [item for item in found if isinstance(item, Member)], others


def said_by(source, around, whole):
    """What an impl or a trait says of its own: its header, and of what stands in it, in that order, the functions that others can call, or all of them, and
    the ghost items by their names, and all else as it stands. No mark that may stand there says anything (contracts.py)."""
    brought, members, _ = ghosts(source)
    parts = [(one, f"fn {one.name}" if one.public or whole else "") for one in functions(source)]
    parts += [(one, "ghost use") for one in brought] + [(one, f"ghost {one.name}") for one in members]
    said, at = [around.header], around.start + 1
    for one, name in sorted(parts, key=lambda part: part[0].start):
        # A function in the body of another is none of the block's own.
        if one.block == around and at <= one.start:
            said += [without_comments(source)[at:one.start], name]
            at = one.end
    return re.sub(r"#!?\[[^\]]*\]", " ", " ".join([*said, without_comments(source)[at:around.end]]))
