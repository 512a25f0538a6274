"""The contracts of the exported functions, and the header that declares them.

The contract that a function's signature calls for is written out from the signature and compared, and each symbol in it must come from the one module that
defines it.
"""
import re

import antt
import rattle
from rattle import folded, without_comments

HEADER = "host/include/station.h"
CALLS = "crates/recorder/specs/Calls.antt"
VIEW = "crates/run/specs/View.antt"
STATION = "crates/station/src/"
DISC_AND_LEDGER = ["image", "kinds", "ledger"]
ALL_THREE = ["image", "kinds", "roles", "ledger"]
BUFFERS = ["block", "stamp", "answer", "buffer"]
SLICES = {"&[u8]": "const uint8_t", "&mut [u8]": "uint8_t"}
NUMBERS = {"u32": "uint32_t", "u64": "uint64_t"}

# A call that has two forms: its constructor, the type of which this takes an option first, and the parameter that the form has for it, or none.
FORMS = {
    "commit": ("commit", "List ℕ", None),
    "commit_at": ("commit", "List ℕ", "stamp"),
    "write": ("write", "ℕ", "v"),
    "write_unnumbered": ("write", "ℕ", None),
}

# What is no call of the log but promised by a definition of its own, and where that stands.
OWN = {"view": (VIEW, "Rattle.run.specs.View")}

# Where the symbols of a contract are defined. The calls' names are added from the contracts themselves.
HOMES = {
    "◌≡◌": "Rattle.std.specs.Prelude",
    "[]": "Rattle.std.specs.Prelude",
    "None": "Rattle.std.specs.Prelude",
    "Some": "Rattle.std.specs.Prelude",
    "extent": "Rattle.extent.specs.Extents",
    "lent": "Rattle.disc.specs.Disc",
    "left": "Rattle.recorder.specs.Effects",
    "after": "Rattle.recorder.specs.Effects",
    "left_roles": "Rattle.roles.specs.Keeping",
    "after_roles": "Rattle.roles.specs.Keeping",
}
CALLS_HOME = "Rattle.recorder.specs.Calls"

# What Rattle itself says in a contract: the answer, and what a slice holds at the entry and at the exit.
OF_RATTLE = ["result", "now", "old", "new"]

# The marks that export nothing and leave nothing out: which proofs are tried, which functions are proved together, and what std makes of a type. Where no
# proof is tried, goals are left to what is written by hand: that is none of these.
TRIED = r"tactic\(\s*auto\s*(?:,\s*(?:using|unfolding)\([\w\s:,]*\)\s*)*,?\s*\)"
MARKS = re.compile(rf"#!?\[{TRIED}\]|#\[cycle\(\w+\)\]|#\[derive\((?:Clone|Copy|Drop|Debug|Default|PartialEq|Eq|PartialOrd|Ord|Hash|,\s*)+\)\]")

# The header's lines for the preprocessor, beside its macros: nothing is declared for some compilers alone.
GUARD = ["#ifndef STATION_H", "#define STATION_H", "#include <stddef.h>", "#include <stdint.h>", "#endif"]
FOR_C_PLUS_PLUS = re.compile(r'^#ifdef __cplusplus\n(?:extern "C" \{|\})\n#endif$', re.MULTILINE)


class Exported:
    """An exported function: its name, its parameters as pairs of name and type, and its clauses."""

    def __init__(self, file, function):
        self.file, self.name, self.result, self.clauses = file, function.name, function.result, function.clauses
        self.whole = function.whole and not function.kinds
        self.where = f"{file}: {self.name}"
        self.parameters = []
        for parameter in filter(None, map(folded, function.parameters.split(","))):
            name, _, kind = parameter.partition(":")
            self.parameters.append((name.strip(), kind.strip()))

    def form(self):
        """Its call, by its name: station_close_packet_roles is close_packet."""
        return self.name.removeprefix("station_").removesuffix("_roles")

    def lent(self):
        """What it is lent first: the roles too, if its name says so."""
        return ALL_THREE if self.name.endswith("_roles") else DISC_AND_LEDGER

    def call(self):
        """Its call's constructor."""
        return FORMS[self.form()][0] if self.form() in FORMS else self.form()

    def at_entry(self, name):
        """A slice's bytes at the entry, as a contract writes them. What is not lent for change has the same all along."""
        return f"{name}.{'old' if dict(self.parameters)[name] == '&mut [u8]' else 'now'}"

    def at_exit(self, name):
        """A slice's bytes at the exit."""
        return f"{name}.{'new' if dict(self.parameters)[name] == '&mut [u8]' else 'now'}"

    def own(self):
        """What its call is about, behind the ledger: each as its type and as the contract writes it. A length and directly behind it the location of the
        same name are one extent."""
        found, parameters = [], self.parameters[len(self.lent()):]
        while parameters:
            (name, kind), *parameters = parameters
            location = name.removesuffix("_length") + "_location"
            if kind in SLICES:
                found.append(("List ℕ", self.at_entry(name)))
            elif name.endswith("_length") and parameters[:1] == [(location, "u32")]:
                found.append(("Extent", f"(extent {name} {location})"))
                parameters = parameters[1:]
            else:
                found.append(("ℕ", name))
        return found

    def given(self):
        """What its call is given: what it is about, the first of which is an option where the call has two forms."""
        own = self.own()
        if self.form() not in FORMS:
            return own
        _, kind, name = FORMS[self.form()]
        option = f"Option {kind}" if " " not in kind else f"Option ({kind})"
        return [(option, "None"), *own] if name is None else [(option, f"(Some {text})") for _, text in own[:1]] + own[1:]

    def takes(self):
        """The types that its constructor takes."""
        return [kind for kind, _ in self.given()]

    def declared(self):
        """What the header must say of it: each slice is a pointer and then a length."""
        words = []
        for name, kind in self.parameters:
            words.append(f"{SLICES[kind]} *{name}, size_t {name}_length" if kind in SLICES else f"{NUMBERS[kind]} {name}")
        return f"uint64_t {self.name}({', '.join(words)})"

    def contract(self):
        """The one equation that it must promise: what it leaves is what `after` says of what it was lent, with roles `after_roles`, or its own definition."""
        kinds = dict(self.parameters)
        left, after = ("left_roles", "after_roles") if self.lent() is ALL_THREE else ("left", "after")
        given = [text for _, text in self.given()]
        call = f"({' '.join([self.call(), *given])})" if given else self.call()
        buffers = [self.at_exit(name) for name in BUFFERS if name in kinds]
        leaves = " ".join([left, "result", *map(self.at_exit, self.lent()), *(buffers or ["[]"])])
        disc = f"(lent {self.at_entry('image')} {self.at_entry('kinds')})"
        lent = " ".join([disc, *map(self.at_entry, self.lent()[2:])])
        said = f"{self.form()} {lent} {' '.join(given)}" if self.form() in OWN else f"{after} {lent} {call}"
        return f"{leaves} ≡ {said}"


def exported_functions(sources):
    """Of all crates. Whatever else is exported, or in another way, is a failure."""
    exported = []
    for file in sources.files("crates/*/src/**/*.rt"):
        text = without_comments(sources.text(file))
        found = [Exported(file, one) for one in rattle.functions(sources.text(file)) if one.exported]
        marks = max(len(re.findall(r"no_mangle|export_name", text)), len(re.findall(r"\bextern\b", text)))
        if marks != len(found):
            sources.fail(file, f'{marks} marks of an exported function, and {len(found)} of the form `#[unsafe(no_mangle)] pub extern "C" fn`')
        for attribute in re.findall(r"#\s*!?\s*\[[^\]]*\]", text):
            if attribute != "#[unsafe(no_mangle)]" and "export_name" not in attribute and not MARKS.fullmatch(attribute):
                sources.fail(file, f"`{attribute}`: what it makes of the code is not known here")
        exported += found
    return exported


def constructors(sources):
    """The calls' constructors with the types that they take."""
    text = antt.without_comments(sources.text(CALLS))
    calls = re.search(r"^pub data Call : Type 0 where\n((?:[ \t]+\S.*\n|\n)*)", text, re.MULTILINE)
    found = re.findall(r"^\s+(\w+) : (.*)$", calls[1] if calls else "", re.MULTILINE)
    return {name: [folded(t) for t in kind.split("→")] for name, kind in found}


def altering(sources):
    """The calls that alter disc or ledger: by the first two columns of their manner, which restore the ledger or may record."""
    rows = re.findall(r"^manner_of \(?(\w+).*= manner (true|false) (true|false) ", sources.text(CALLS), re.MULTILINE)
    return {name for name, *columns in rows if "true" in columns}


def defined(sources, name, file):
    """The type of a definition."""
    found = re.search(rf"^(?:\w+ )*pub {name} : (.*)$", sources.text(file), re.MULTILINE)
    return folded(found[1]) if found else "nothing"


def check_call(sources, function, calls):
    """Its call's constructor, or its own definition, takes what it is given."""
    form, names = function.form(), [name for name, _ in function.parameters]
    if form in OWN:
        file, _ = OWN[form]
        wanted = " → ".join(["Disc", "List ℕ", *function.takes(), "After"])
        if defined(sources, form, file) != wanted:
            sources.fail(function.where, f"{file} defines {form} : {defined(sources, form, file)}, not {wanted}")
        return
    behind = names[len(function.lent()):][:1]
    if form in FORMS and FORMS[form][2] and behind != [FORMS[form][2]]:
        sources.fail(function.where, f"its parameter behind the ledger is {behind}, not {[FORMS[form][2]]}")
    if (function.call() in altering(sources)) != (function.lent() is ALL_THREE):
        sources.fail(function.where, "a call is lent the roles, and named so, exactly if it alters disc or ledger")
    if calls.get(function.call()) != [*function.takes(), "Call"]:
        sources.fail(function.where, f"{CALLS} has no constructor {function.call()} : {' → '.join([*function.takes(), 'Call'])}")


def check_signature(sources, function, calls):
    """Its crate, its parameters and its call. The answer is whether a contract can be written out for it."""
    if not function.file.startswith(STATION):
        sources.fail(function.where, "exported from another crate than station")
    if not function.whole:
        sources.fail(function.where, "something else than `requires {..}` and `ensures {..}` stands between its result and its body")
    if function.result != "u64":
        sources.fail(function.where, f"answers {function.result or 'nothing'}, not u64")
    names = [name for name, _ in function.parameters]
    before = len(sources.failures)
    if names[:len(function.lent())] != function.lent():
        sources.fail(function.where, f"its parameters do not begin with {', '.join(function.lent())}")
    for name, kind in function.parameters:
        slice_of_bytes = name in [*ALL_THREE, *BUFFERS]
        wanted = [*SLICES] if slice_of_bytes else ["u64" if name == "offset" else "u32"]
        if kind not in wanted:
            sources.fail(function.where, f"its parameter {name} is of type {kind}, not {' or '.join(wanted)}")
        if name in [*HOMES, *calls, *OWN, *OF_RATTLE]:
            sources.fail(function.where, f"its parameter {name} hides a symbol of the contract")
    check_call(sources, function, calls)
    return len(sources.failures) == before


def check_contract(sources, function):
    ensures = [clause.text for clause in function.clauses if clause.word == "ensures"]
    for clause in function.clauses:
        if clause.word != "ensures":
            sources.fail(function.where, f"has a {clause.word}: {clause.text}")
    if len(ensures) != 1:
        sources.fail(function.where, f"has {len(ensures)} ensures, not one")
    elif ensures[0] != function.contract():
        sources.fail(function.where, f"its ensures is not `{function.contract()}`")


def check_symbols(sources, file, homes):
    """Every symbol of the file's contracts is imported once, from its home, which defines it; nothing is renamed or taken whole, and nothing else comes."""
    brought, members, others = rattle.ghosts(sources.text(file))
    named = [(use.home, name) for use in brought for name in use.names]
    for item in others:
        sources.fail(file, f"`{item}` is not of the form `ghost use MODULE.{{names}}`, without `as`")
    for item in [*members, *(use for use in brought if use.block)]:
        sources.fail(file, f"a ghost item stands in `{item.block.name}`, which no contract here is of")
    for symbol, home in homes.items():
        if (home, symbol) not in named:
            sources.fail(file, f"no ghost use brings {symbol} from {home}")
        check_home(sources, symbol, home)
    # An operator that shares a part with a symbol could be read in its place.
    parts = {part: symbol for symbol in [*homes, *OF_RATTLE] for part in antt.parts_of(symbol)}
    for module, name in named:
        meant = {parts[part] for part in antt.parts_of(name) if part in parts}
        for symbol in meant:
            if (name, module) != (symbol, homes.get(symbol)):
                sources.fail(file, f"{name} from {module} stands in for {symbol} from {homes.get(symbol, 'the logic')}")
        if not meant:
            sources.fail(file, f"a ghost use brings {name} from {module}, which no contract here has")


def check_home(sources, symbol, home):
    """A home in this repository declares the symbol itself: what it passed on under that name could be another's."""
    found = re.fullmatch(r"Rattle\.(\w+)\.specs\.(\w+)", home)
    if not found or found[1] == "std":
        return
    file = f"crates/{found[1]}/specs/{found[2]}.antt"
    module = antt.module(sources.text(file), "definition")
    if symbol not in {*module.declared, *(part for one in module.declared.values() if one.word == "data" for part, _ in one.parts)}:
        sources.fail(file, f"does not declare {symbol}, which the contracts take from it")


def header_declarations(sources):
    """The header's declarations, one text each, beside its macros and its enums of outcomes and roles."""
    text = FOR_C_PLUS_PLUS.sub("", re.sub(r"[ \t]+$", "", without_comments(sources.text(HEADER)), flags=re.MULTILINE)).replace("\\\n", " ")
    for line in re.findall(r"^\s*#.*$", text, re.MULTILINE):
        if name := re.match(r"\s*#\s*define\s+(\w+)", line):
            if not name[1].startswith("STATION_"):
                sources.fail(HEADER, f"defines {name[1]}, which is not a STATION_ name")
        elif folded(line) not in GUARD:
            sources.fail(HEADER, f"`{folded(line)}`: what stands behind it may be declared or not")
    text = re.sub(r"^\s*#.*\n", "\n", text, flags=re.MULTILINE)
    text = re.sub(r"\benum station_(outcome|role) \{[^{}]*\};", " ", text)
    declarations = [re.sub(r" ?([(),*]) ?", r"\1", folded(one)) for one in text.split(";")]
    return [one for one in declarations if one]


def declared_name(declaration):
    found = re.match(r"[\w\s*]*?(\w+)\(", declaration)
    return found[1] if found else declaration


def check_header(sources, functions):
    declared = header_declarations(sources)
    expected = {f.name: re.sub(r" ?([(),*]) ?", r"\1", f.declared()) for f in functions}
    names = [declared_name(one) for one in declared]
    for name, one in zip(names, declared):
        if name not in expected:
            sources.fail(HEADER, f"declares {name}, which is not exported")
        elif one != expected[name]:
            sources.fail(HEADER, f"{name} is declared as `{one}`, not as `{expected[name]}`")
    for name in expected:
        if names.count(name) != 1:
            sources.fail(HEADER, f"{name} is declared {names.count(name)} times, not once")


def check_exported(sources):
    """All of this; the answer is the functions."""
    functions = exported_functions(sources)
    calls = constructors(sources)
    if not functions:
        sources.fail(STATION, "no function is exported")
    for function in functions:
        if check_signature(sources, function, calls):
            check_contract(sources, function)
        elif any(clause.word.startswith("requires") for clause in function.clauses):
            sources.fail(function.where, "has a requires")
    for file in sorted({function.file for function in functions}):
        own = {f.call(): OWN[f.form()][1] if f.form() in OWN else CALLS_HOME for f in functions if f.file == file}
        check_symbols(sources, file, {**HOMES, **own})
    check_header(sources, functions)
    return functions
