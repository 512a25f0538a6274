#!/usr/bin/env python3
"""Brings the repository's own definitions, lemmas, fields and constructors to snake case.

usage: respell.py [--check] [FOLDER]

Types and modules keep their upper camel case; everything else that specs/ and proofs/ declare is in snake case, each part between dashes by itself:
`entryCount` becomes `entry_count`, `length-leWords` becomes `length-le_words`. The names are replaced in every .antt and .rt file below crates/, in clauses, proofs
and comments alike. Functions of src/ and strings have no such names. A name that would fall together with another stops the script before it writes anything.
The crate `log` becomes `sector_log`, since the kit has a library of that name. It runs once, on what port.py left.
--check prints the table alone.
"""
import glob
import os
import re
import sys

DECLARED = re.compile(r"^\s*(?:(?:abbrev|unfoldable|opaque|pub|data|record|instance)\s+)*([^\s(){}\[\].,;:=|]+)\s+:(?![=:])")
# a name that is no member of another and no module of a path
BARE = re.compile(r"(?<![\w'.-])[a-z_]+(?![\w'-]|\.Goals|\.Tie|\.Statement)")
TOKEN = re.compile(r"[A-Za-z_\u00c0-\uffff][\w'\u2080-\u2089-]*")
# Lemmas that would have their function's name once both are in snake case.
LEMMAS = {
    "byte_step": "byte_step_lem",
    "in_use": "in_use_lem",
    "length_before": "length_before_lem",
    "map_of": "map_of_lem",
    "no_room": "no_room_lem",
    "seen_back": "seen_back_lem",
    "shown_of": "shown_place",
    "view_tells": "view_tells_lem",
    "whole_before": "whole_before_lem",
}
# Names of src/ that a definition of specs/ has too, once it is in snake case: each stands in its own part of a crate, and neither hides the other.
ALSO_IN_SRC = """
    attribute_length body_crc close_packet close_session cut_short days_of_month days_of_years described_length digit_or_blank entry_count extent_count
    file_type forbidden_at go_back holds_text in_order in_use is_again is_entry is_kind_digit is_table ledger_after look_back map_of mode_fits named_again
    no_room not_given not_in_use own_blocks own_count own_recorded own_sector sector_at seen_back shown_of time_at time_of total_length total_sectors
    view_tells byte_step length_before whole_before
""".split()
HUMP = re.compile(r"(?<=[a-z0-9])([A-Z])")


def snake_part(part):
    if not part or not part[0].islower():
        return part
    return HUMP.sub(lambda m: "_" + m.group(1).lower(), part)


def snake(name):
    return "-".join(snake_part(p) for p in name.split("-"))


def files(root, *ends):
    out = []
    for end in ends:
        out += glob.glob(os.path.join(root, "crates", "*", "**", "*" + end), recursive=True)
    return sorted(p for p in out if "/out/" not in p)


def read(p):
    with open(p, encoding="utf-8") as f:
        return f.read()


def rename_crate(root, old, new):
    """The crate's folder, its name in crates.txt, and its paths in code, clauses, proofs and comments."""
    folder = os.path.join(root, "crates", old)
    if not os.path.isdir(folder):
        return
    os.rename(folder, os.path.join(root, "crates", new))
    floors = os.path.join(root, "crates.txt")
    lines = read(floors).splitlines()
    lines = [line if line.startswith("#") else re.sub(rf"\b{old}\b", new, line) for line in lines]
    with open(floors, "w", encoding="utf-8") as f:
        f.write("\n".join(lines) + "\n")
    for p in files(root, ".antt", ".rt"):
        text = read(p)
        turned = re.sub(rf"(?<![\w:.]){old}::", new + "::", text)
        turned = re.sub(rf"\bRattle\.{old}\.", f"Rattle.{new}.", turned)
        if turned != text:
            with open(p, "w", encoding="utf-8") as f:
                f.write(turned)


def main(argv):
    check = "--check" in argv
    rest = [a for a in argv if not a.startswith("--")]
    root = rest[0] if rest else "."
    if not os.path.isdir(os.path.join(root, "crates", "log")):
        print("respell: it ran here already, and must not run twice", file=sys.stderr)
        return 1
    antt, rt = files(root, ".antt"), files(root, ".rt")
    names = set()
    for p in antt:
        for line in read(p).splitlines():
            m = DECLARED.match(line)
            if m:
                names.add(m.group(1))
    table = {n: snake(n) for n in sorted(names) if snake(n) != n}
    used = set()
    for p in antt + rt:
        used |= set(TOKEN.findall(read(p)))
    falls = sorted(n for n in table if table[n] in used and table[n] not in ALSO_IN_SRC)
    twice = sorted(n for n in table if list(table.values()).count(table[n]) > 1)
    if check:
        for n, m in table.items():
            print(f"{n} {m}" + ("   FALLS TOGETHER" if n in falls or n in twice else ""))
        return 0
    if falls or twice:
        print("respell: these would fall together with another name: " + ", ".join(sorted(set(falls + twice))), file=sys.stderr)
        return 1
    changed = 0
    for p in antt + rt:
        old = read(p)
        lemmas = LEMMAS if p.endswith(".antt") else {}
        new = BARE.sub(lambda m: lemmas.get(m.group(0), m.group(0)), old)
        new = TOKEN.sub(lambda m: table.get(m.group(0), m.group(0)), new)
        if new != old:
            with open(p, "w", encoding="utf-8") as f:
                f.write(new)
            changed += 1
    rename_crate(root, "log", "sector_log")
    print(f"respell: {len(table)} names, {changed} files")
    return 0


if __name__ == "__main__":
    raise SystemExit(main(sys.argv[1:]))
