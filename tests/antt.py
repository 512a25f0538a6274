"""antt's text: its tokens, and a module as what it imports and what it declares.

A text is read as its tokens alone, without comments and layout, and each name that a `use` brings stands with the module that it comes from: so two texts
that read alike mean the same, and a name that comes from elsewhere makes another text.
"""
import re
from dataclasses import dataclass, field
from functools import cache

TOKEN = re.compile(r'"(?:[^"\\]|\\.)*"|«[^»]*»|[(){}.;,@]|[^\s(){}.;,@"«»]+')
COMMENT = re.compile(r'("(?:[^"\\\n]|\\.)*")|(?<![^\s(){}.;,@"«»])--(?=[\s-]|\Z)[^\n]*')
SIGNATURE = re.compile(r"(?P<marks>(?:(?:unfoldable|abbrev|pub) )*)(?P<name>[^\s(){}]+)(?P<levels> \{[^}]*\})?\s:\s(?P<kind>.*)", re.DOTALL)
TYPE = re.compile(r"(?P<marks>(?:pub )?)(?P<word>record|data) (?P<name>\S+)(?P<kind>.*?)\bwhere\b(?P<parts>.*)", re.DOTALL)
PART = re.compile(r"(?:pub )?(?P<names>[^\s:]+(?: [^\s:]+)*)\s:\s(?P<kind>.*)", re.DOTALL)
USE = re.compile(r"use (?P<home>[^\s{}]+)\.\{ ?(?P<names>[^{}]*?),? ?\}")


def tokens(text):
    return TOKEN.findall(text)


def without_comments(text):
    return COMMENT.sub(lambda found: found[1] or "", text)


def chunks(text):
    """The lines that begin at the left edge, each with what is indented below it, and with a bracket that is closed at the edge."""
    found = []
    for line in text.splitlines():
        if not line.strip():
            continue
        if line[0] in " \t)}" and found:
            found[-1] += "\n" + line
        else:
            found.append(line)
    return found


def dedented(text):
    lines = [line for line in text.splitlines() if line.strip()]
    edge = min((len(line) - len(line.lstrip()) for line in lines), default=0)
    return "\n".join(line[edge:] for line in lines)


def parts_of(name):
    """The words of an operator, between the places of its arguments; a name without places is its own."""
    return list(filter(None, name.split("◌")))


@dataclass
class Declared:
    """One declaration: what it says, and how it is defined. `parts` are a record's fields or a type's constructors, each with its type."""
    name: str
    word: str  # definition, law, record or data
    public: bool
    around: list  # what a module of parameters around it takes
    says: list
    body: list = field(default_factory=list)
    parts: list = field(default_factory=list)

    def is_definition(self):
        return self.word != "law"


class Module:
    """A file of antt. `faults` are the lines of a form that is not known here, of which nobody could say what they mean."""

    def __init__(self, text, law_word="law"):
        self.homes, self.declared, self.faults = {}, {}, []
        self.law_word = law_word
        text = without_comments(text)
        if "{-" in text or re.search(r"(?<!\S)--\S", text):
            self.faults.append("a comment that is not `-- ` to the end of its line")
        self.read(text, [])

    def read(self, text, around):
        last = None
        for chunk in chunks(text):
            if chunk.startswith(("use ", "pub use ", "unfoldable pub use ")):
                self.bring(chunk)
            elif re.fullmatch(r"(pub )?mod \w+", chunk.strip()):
                continue
            elif inner := re.match(r"module _(.*?)\bwhere\b(.*)", chunk, re.DOTALL):
                self.read(dedented(inner[2]), [*around, *tokens(inner[1])])
            elif found := TYPE.fullmatch(chunk):
                last = self.add(Declared(found["name"], found["word"], bool(found["marks"]), around, tokens(found["kind"])))
                self.divide(last, found["parts"])
            elif chunk.startswith("unfolding ") and last:
                continue
            elif found := self.signature(chunk):
                marks = found["marks"].split()
                word = "definition" if {"abbrev", "unfoldable"} & {*marks} else self.law_word
                last = self.add(Declared(found["name"], word, "pub" in marks, around, tokens((found["levels"] or "") + found["kind"])))
            elif last and last.word in ("definition", "law") and re.match(r"\S.*?\s=(\s|$)", chunk, re.DOTALL):
                last.body += tokens(chunk)
            else:
                self.faults.append(f"`{chunk.splitlines()[0]}` is of no known form")

    def signature(self, chunk):
        """The chunk as a signature. A clause has a `=` before any `:` that stands outside of brackets."""
        found = SIGNATURE.fullmatch(chunk)
        return found if found and found["name"] not in ("record", "data", "use", "mod", "module", "axiom", "open", "infix", "infixl", "infixr") else None

    def divide(self, declared, parts):
        for part in chunks(dedented(parts)):
            found = PART.fullmatch(part)
            if not found:
                self.faults.append(f"`{part.splitlines()[0]}` is of no known form in {declared.name}")
                continue
            declared.parts += [(name, tokens(found["kind"])) for name in found["names"].split()]

    def add(self, declared):
        if declared.name in self.declared:
            self.faults.append(f"{declared.name} is declared twice")
        self.declared[declared.name] = declared
        return declared

    def bring(self, chunk):
        """A `use` of names. What is passed on, renamed or taken whole would hide where a name comes from; a module's short name only heads a path."""
        words = " ".join(chunk.split())
        if found := USE.fullmatch(words):
            for name in filter(None, map(str.strip, found["names"].split(","))):
                if name == "*" or re.search(r"[\s.]", name):
                    self.faults.append(f"`{words}` renames or takes more than names")
                for part in {name, *parts_of(name)}:
                    self.homes[part] = found["home"]
        elif found := re.fullmatch(r"use ([^\s{}*]+?)(?: as (\S+))?", words):
            self.homes[found[2] or found[1].split(".")[-1]] = found[1]
        else:
            self.faults.append(f"`{words}` is not of the form `use MODULE.{{names}}`")

    def resolved(self, words):
        """The tokens, each imported name with its home."""
        return [f"{word}@{self.homes[word]}" if word in self.homes else word for word in words]


@cache
def module(text, law_word):
    """A text that is read again is the same module."""
    return Module(text, law_word)
