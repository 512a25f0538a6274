#!/usr/bin/env python3
"""What the station promises, pinned: the exported functions, the header that declares them, the one form of their contracts, and the lock of all that is stated.

    python3 tests/statements.py                            the sources
    python3 tests/statements.py --accept                   the same, and the lock written anew
    python3 tests/statements.py --archive "LINE" [FILE.a]  the line that `rt lib` ends in for it ('-': from standard input), and the archive

Every function is proved against its contract, and every theorem against its statement, whatever that says. So that none comes to say less unseen, the
contract that a signature calls for is written out and compared (contracts.py), and all statements are held by name (lock.py). Each failure is one line;
the exit status is then 1.
"""
import re
import subprocess
import sys
from pathlib import Path

import contracts
import lock
import rattle

ROOT = Path(__file__).resolve().parent.parent
FLOORS = "crates.txt"
CLIENT = "crates/client/src/"


class Sources:
    """The repository that is looked at, and what is wrong with it, a line each."""

    def __init__(self, root):
        self.root, self.failures = root, []

    def text(self, file):
        return (self.root / file).read_text()

    def files(self, pattern):
        return [str(path.relative_to(self.root)) for path in sorted(self.root.glob(pattern))]

    def fail(self, where, what):
        self.failures.append(f"{where}: {what}")


def check_client(sources):
    """A host program's days are for every input too: what asks for something promises less."""
    for file in sources.files(CLIENT + "**/*.rt"):
        for _ in re.finditer(r"\brequires\b", rattle.without_comments(sources.text(file))):
            sources.fail(file, "has a requires: its promises are for every input")


def check_floors(sources):
    """The viewer imports none of the code behind the log's promises, only what lies below both; and nothing imports the exporting crate."""
    lines = [line.partition("#")[0].partition(":") for line in sources.text(FLOORS).splitlines()]
    imports = {head.split()[0]: words.split() for head, _, words in lines if head.strip()}
    if "calls" in imports.get("viewer", ["calls"]):
        sources.fail(FLOORS, "viewer imports calls: of the calls it is to know only the log's promises")
    for name, words in imports.items():
        if "station" in words:
            sources.fail(FLOORS, f"{name} imports station, which only exports")


def check_lock(sources, accept):
    """All that is stated is as the lock has it; accepted, the lock is written anew."""
    stated = lock.Lock(sources.root)
    for file, fault in stated.faults:
        sources.fail(file, fault)
    if accept:
        (sources.root / lock.LOCK).write_text(lock.written(stated))
    differences = lock.differences(sources.root, stated)
    for difference in differences:
        sources.fail(lock.LOCK, difference)
    if differences:
        sources.fail(lock.LOCK, "if each of these is meant, `python3 tests/statements.py --accept` writes the lock anew")
    return f"{len(stated.lines)} statements and {', '.join(f'{number} {what}' for what, number in stated.counts.items())}, as the lock has them"


def check_sources(sources, accept):
    functions = contracts.check_exported(sources)
    check_client(sources)
    check_floors(sources)
    told = check_lock(sources, accept)
    return f"{len(functions)} exported functions, each with the contract of its signature, as the header declares them\n{told}"


# How each line begins by which rattle judges a crate: those of the crates below stand before the archive's own.
JUDGED = ("logic=", "holes=", "rattle: no verdict")

# What the line of an archive says where nothing is only assumed. What else it could say is that something is: a function of C, an axiom, a hole, a contract
# that may say nothing, a function that may not return or a processor of a later kind, at which a static library does not look when it runs.
SAID = {"logic", "functions", "target", "sum", "native", "logic-built", "libraries-built", "statements", "incremental"}


def check_archive(sources, said, path):
    lines = [line for line in said.splitlines() if line.startswith(JUDGED)]
    line = lines[-1] if lines else said.strip()
    words = dict(word.partition("=")[::2] for word in line.split())
    texts = map(sources.text, sources.files(contracts.STATION + "**/*.rt"))
    count = sum(len(re.findall(r"\bfn\s+\w+", rattle.without_comments(text))) for text in texts)
    if words.get("logic") != "proved":
        sources.fail("archive", f"`{line}` does not say logic=proved")
    if words.get("functions") != str(count):
        sources.fail("archive", f"`{line}` does not say functions={count}, as many as {contracts.STATION} has")
    if "target" not in words:
        sources.fail("archive", f"`{line}` names no target, as the line of an archive does")
    for one in lines:
        for word, equals, said_of_it in (word.partition("=") for word in one.split()):
            if equals and word not in SAID:
                sources.fail("archive", f"`{one}` says {word}={said_of_it}: something is only assumed")
    if path:
        check_defined(sources, path)
    return f"archive: {line}"


def check_defined(sources, path):
    """The archive defines the functions that the header declares, and no other."""
    told = subprocess.run(["nm", "--defined-only", "--extern-only", "--format=posix", path], capture_output=True, text=True)
    if told.returncode != 0:
        sources.fail(path, f"nm: {told.stderr.strip()}")
    defined = sorted(re.findall(r"^(station_\w*) ", told.stdout, re.MULTILINE))
    declared = sorted(map(contracts.declared_name, contracts.header_declarations(sources)))
    for name in sorted({*defined, *declared}):
        if defined.count(name) != declared.count(name):
            sources.fail(path, f"{name} is defined {defined.count(name)} times and declared {declared.count(name)} times in {contracts.HEADER}")


def said_of(root, words, given=None):
    """What is said of the repository at a root, and the exit status."""
    sources = Sources(root)
    if words[:1] == ["--archive"]:
        said = words[1] if len(words) > 1 and words[1] != "-" else given or sys.stdin.read()
        told = check_archive(sources, said, words[2] if len(words) > 2 else None)
    else:
        told = check_sources(sources, words == ["--accept"])
    return ("\n".join(sources.failures), 1) if sources.failures else (told, 0)


if __name__ == "__main__":
    text, status = said_of(ROOT, sys.argv[1:])
    print(text)
    sys.exit(status)
