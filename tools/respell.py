#!/usr/bin/env python3
"""Brings the names of this repository's own definitions and lemmas to today's spelling.

usage: python3 tools/respell.py [--dry] [FOLDER]

A name with dashes is written in snake case, and in upper camel case where it begins with a capital: `within-limits` becomes
`within_limits`, and `Walks-read-permitted` becomes `WalksReadPermitted`. Some names get another one: `ground` is a tactic today (as
a field it becomes `basis`), three would fall together with names that stand beside them, four the kit's script had left half
respelled, and a few lemmas name functions that are called otherwise today. Touched are the names that a line of specs/ or
proofs/ declares and the names given by `as`, wherever they stand in .antt files, in ghost lines and clauses of .rt files, and in
must-fail edits; names of src/, of std and of goals stay.
It is for what the kit's own script for older repositories leaves, and was run once; where it had missed a name then, the name was
mended by hand and the script too, so that it gives today's names.
"""

import collections
import glob
import os
import re
import sys

SEP = re.compile(r'([\s(){}\[\],;.:"`]+)')
DECLARES = re.compile(r"^\s*(?:abbrev |unfoldable )*(?:pub )?(?:data |record )?([^\s:{}().=]+)(?:\s*[({][^)}]*[)}])*\s*:\s")
USES = re.compile(r"^\s*(?:ghost )?use ([^\s{]+)\.\{([^}]*)\}")
GHOST = re.compile(r"^\s*(?:ghost|requires|ensures|old:|new:)\b")
# a name of std's that a file here declares as well
KEPT = {"drop-drop"}
# names that cannot be spelled by the rule
OTHER = {
    "ground": "ground_over",
    "bit-and": "bit-bit_and",
    "bit-or": "bit-bit_or",
    "No-name": "HasNoName",
    "a-plan": "a_plan",
    "Lines-served": "LinesServed",
    "Laid_out": "LaidOut",
    "Goes_on": "GoesOn",
    "Bytes_of": "BytesOf",
    "Item_at": "ItemAt",
    "pairwise-getD": "pairwise-get_or",
    "row-getD": "row-get_or",
    "getD-mem": "get_or-mem",
    "getD-end": "get_or-end",
    "mem-getD": "mem-get_or",
    "get_d_map": "get_or-map",
    "get_d_drop": "get_or-drop",
    "get_d_front": "get_or-front",
    "minZ-turned": "int_min-turned",
    "minZ-self": "int_min-self",
    "minZ-spreads": "int_min-spreads",
    "minZ-assoc": "int_min-assoc",
    "maxZ-turned": "int_max-turned",
    "maxZ-self": "int_max-self",
    "maxZ-spreads": "int_max-spreads",
    "maxZ-assoc": "int_max-assoc",
}


# `ground` as a field of a record: its projection, its declaration, and where it is given
FIELD = re.compile(r"(?<=\w\.)ground\b|(?<=^  pub )ground(?= :)|(?<=\{ )ground(?= =)|(?<=^  )ground(?= =)")


def parts_of(line):
    """The code of a line, and its comment."""
    at = re.search(r"(?:^|\s)--(?:\s|$)", line)
    return (line[: at.start()], line[at.start() :]) if at else (line, "")


def spelled(name):
    if name in OTHER:
        return OTHER[name]
    if name[:1].isupper():
        return "".join(p[:1].upper() + p[1:] for p in name.split("-"))
    return name.replace("-", "_")


def files(top, pattern):
    return sorted(f for f in glob.glob(os.path.join(top, "crates", pattern), recursive=True) if "/out/" not in f and "/target/" not in f)


def own(top, path):
    return path.startswith("Rattle.") and os.path.isdir(os.path.join(top, "crates", path.split(".")[1]))


def names(top):
    """The names to respell: declared here, or given by `as`, and not imported from elsewhere."""
    found, foreign = set(), set()
    for f in files(top, "**/*.antt") + files(top, "**/*.rt"):
        antt = f.endswith(".antt")
        with open(f, encoding="utf-8") as it:
            for line in it:
                code = parts_of(line)[0] if antt else line
                m = DECLARES.match(code) if antt else None
                if m and "-" in m[1] and not re.search(r":\s*goal\.", code):
                    found.add(m[1])
                m = USES.match(code)
                for item in m[2].split(",") if m else []:
                    name, _, alias = item.strip().partition(" as ")
                    if "-" in alias:
                        found.add(alias)
                    if "-" in name and not own(top, m[1]):
                        foreign.add(name)
    return (found - foreign - KEPT) | set(OTHER), found & foreign


def respelled(line, which, ghost_only):
    if ghost_only and not GHOST.match(line):
        return line
    code, comment = (line, "") if ghost_only else parts_of(line)
    code = FIELD.sub("basis", code)
    code = "".join(spelled(t) if t in which else t for t in SEP.split(code))
    comment = re.sub(r"`([^`]*)`", lambda m: "`" + "".join(spelled(t) if t in which and "-" in t else t for t in SEP.split(m[1])) + "`", comment)
    return code + comment


def main(argv):
    dry = "--dry" in argv
    rest = [a for a in argv if a != "--dry"]
    top = rest[0] if rest else "."
    which, both = names(top)
    made = collections.defaultdict(set)
    for n in which:
        made[spelled(n)].add(n)
    for new, olds in sorted(made.items()):
        if len(olds) > 1:
            print("fall together:", new, sorted(olds))
    print(len(which), "names; also std's, kept:", sorted(both))
    changed = 0
    for f in files(top, "**/*.antt") + files(top, "**/*.rt") + files(top, "*/must-fail/*.edit"):
        ghost_only = not f.endswith(".antt")
        with open(f, encoding="utf-8") as it:
            lines = it.readlines()
        new = [respelled(l, which, ghost_only) for l in lines]
        if not ghost_only:
            before = {t for l in lines for t in SEP.split(parts_of(l)[0])}
            for t in sorted(before & which):
                if spelled(t) in before:
                    print("stands beside:", f, t, spelled(t))
        if new != lines:
            changed += 1
            if not dry:
                with open(f, "w", encoding="utf-8") as it:
                    it.writelines(new)
    print(changed, "files")


if __name__ == "__main__":
    main(sys.argv[1:])
