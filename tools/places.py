#!/usr/bin/env python3
"""Counts places in src/ where the code may be written in a form that today's Rattle has.

usage: python3 tools/places.py [-v] [POINT]

Each rule is a pattern over a whole file of src/. A place that the page docs/DESIGN-PASS.md keeps has a line beside it that
begins with `// kept:`; it counts as kept, the others as open. With -v each place is printed.
"""

import collections
import glob
import re
import sys

RULES = {
    "1": [
        ("an arm that hands None on", r"None => (?:return )?None\b"),
        ("an arm that hands an Err on", r"Err\((\w+)\) => (?:return )?Err\((?:\1\b|\w+::\w+\()"),
        ("a match that makes an Err of None", r"None => (?:return )?Err\("),
        ("a match that drops an Err", r"Err\(_\) => (?!println)"),
        ("a match on what an Err holds", r"Err\(\w+\) => match "),
        ("an else that returns None", r"let Some\([^\n]*\) = [^;]*? else \{\s*return None;"),
        ("an else that returns an Err", r"let (?:Some|Ok)\([^\n]*\) = [^;]*? else \{\s*return Err\("),
        ("an else that drops an Err for None", r"let Ok\([^\n]*\) = [^;]*? else \{\s*return None;"),
        ("a test of a result with a return", r"if \w[\w.]*\([^\n]*\)\.is_err\(\) \{"),
        ("an arm true or false by Some or None", r"(?:Some\(_\)|None|Ok\(\(\)\)|Err\(_\)) => (?:true|false|\{\}),"),
        ("an own enum of one error", r"pub enum \w+ \{\s*(?:///[^\n]*\n\s*)*\w+,\s*\}"),
        ("an own enum of nothing, a value or an error", r"pub enum Request<K>|    Opened,"),
        ("a yes beside a list", r"\) -> bool\n(?:    requires[^\n]*\n)*    ensures \{ LeavesFirst"),
        ("a flag for a kind", r"Leaf\(bool\)|named: bool|minus: bool"),
        ("two marks for dead and live", r"const (?:DEAD|LIVE): u16"),
        ("an error made by hand", r"Err\(AllocError\)"),
        ("a number returned that says nothing", r"^pub fn \w+(?:<[^>]*>)?\(\) -> (?:u8|bool)$"),
    ],
    "2": [
        ("an own search for the end of a run", r"let mut end = \w+;\s*while end < "),
        ("a front of a list by an own function", r"^(?:pub )?fn front\b"),
        ("a function for words beside one for badges", r"^fn \w+_(?:words|badges)\b|^fn is_(?:word|badge)\b"),
        ("a program's text that differs in its kind", r"let Some\(name\) = (?:Word|Badge)::of_text"),
        ("a function for numbers beside one for a list", r"fn (?:push_numbers|push_list)\b"),
        ("a line of numbers beside one of a list", r"fn (?:number_line|list_line)\b"),
        ("a printed line that is made twice", r'out,\s*b"(span|bays|reading|plan|stamps|refused)"'),
        ("a call that lays rows beside another", r"pub fn (?:lay|laid)\b"),
        ("an answer copied from a list", r"fn list_(?:next|reading)\b"),
        ("an arm like the one before it", r"=> ([^\n{]+),\n\s*[\w:]+(?:\([^)]*\))? => \1,|Sort::Choice => (\w+ \{[^}]*\}|bracket_part\([^;]*?\)),\s*Sort::Interleave => \2,"),
        ("the least or most of what there may be", r"fn (?:lesser|with_range)\b"),
        ("a type of a line beside another", r"pub struct Line<'a>"),
        ("the bytes of a name printed", r"fn print_(?:name|word)\b"),
        ("the counts of a plan printed", r"println!\(rt; \"plan "),
        ("a refusal of a plan printed", r"println!\(rt; \"refused \{number\} \{place\}\""),
    ],
    "3": [
        ("a for over indices", r"for (?!_)\w+ in 0\.\.(?!BAYS|64u8|8usize)[^{]*\{"),
        ("a while over indices", r"while \w+ < [^{]*\{"),
        ("a while let with a place", r"while let Some\([^{]*\{"),
        ("a place carried along a for", r"let mut at = 0;\s*for "),
        ("a search by hand", r"for [^{]*\{\s*if [^{]*\{\s*return (?:Some\(\w+\)|true);"),
        ("a buffer filled by a count", r"(\w+)\[(\w+)\] = [^;]*;\s*\2 \+= 1;"),
        ("an array filled item by item", r"for _ in 0\.\.\d+\w* \{\s*\w+\.push"),
    ],
    "4": [
        ("a conversion by a function", r"fn (?:sign_of|byte|sort_of|bracket_sign|separator|link_in)\b"),
        ("equality by a function", r"fn same\(&self"),
        ("a number's digits by hand", r"b'0' \+ |10 \* n|fn digits\("),
        ("a number and a place by a function", r"fn (?:number_and_place|code)\b"),
        ("a range of bytes by comparisons", r"b >= b'\w' && b <= b'\w'"),
        ("a conversion of an error by hand", r"PlanError::Refused\(\w[^)]*\)\)?;|LoadError::Refused\(LoadRefusal|Err\(PlanError::Memory\)"),
        ("bytes printed by hand", r"print!\(rt; \"\\\\x|utf8\("),
    ],
    "6": [
        ("an array with its length beside", r"(?:letters|stamps|drafts|columns|numbers|list): \[\w+; \w+\],"),
        ("an array of 256 numbers for a set", r"-> \[u16; 256\]"),
        ("lent numbers as a table", r"^(?:pub )?fn (?:range|meet|wipe|shift|holds_row|put_row|empty_set)\b"),
        ("marks and amounts in parallel", r"amounts: &mut \[S\],?\s*\)(?: -> [^\n]*)?\n(?:    )?    requires (?:ready|live_room)"),
        ("a buffer with a place in it", r"buffer: &mut \[u8\],\s*(?:at: usize|from: Place)"),
    ],
    "7": [
        ("a switch on what to do with each item", r"turn: Turn|pub enum Turn"),
        ("a switch on which kind's step", r"enum Names\b"),
    ],
}

# rules of point 2 whose places are twins only where two or more stand: by what the pattern's group holds, or all together
ALONE = {
    "a front of a list by an own function",
    "a program's text that differs in its kind",
    "a function for numbers beside one for a list",
    "a line of numbers beside one of a list",
    "a printed line that is made twice",
    "a call that lays rows beside another",
    "a type of a line beside another",
    "the bytes of a name printed",
    "the counts of a plan printed",
    "a refusal of a plan printed",
}


FN = re.compile(r"\bfn (\w+)[^(]*\((.*?)\n?\s*\)(?: -> [^\n{]*)?((?:\n\s*(?:requires|ensures)\b[^\n]*)*)", re.S)


def functions(path):
    """Name, parameters and clauses of each function of a file, and whether a line above it says why a place is kept."""
    text = open(path).read()
    for m in FN.finditer(text):
        params = [" ".join(p.split()) for p in re.split(r",\s", m.group(2)) if ":" in p]
        clauses = re.findall(r"(?:requires|ensures)(?: \w+)? (\{.*\})", m.group(3))
        kept = any("// kept:" in l for l in text[: m.start()].rsplit("\n", 10)[1:])
        yield m.group(1), params, clauses, kept


def point5(loud):
    """Facts that stand in the contracts of three functions of a crate or more, and parameters that three functions share."""
    crates = collections.defaultdict(list)
    for path in sources():
        crates[path.split("/")[1]].extend((path, *f) for f in functions(path))
    count = collections.Counter()
    for crate, fs in crates.items():
        said = collections.defaultdict(set)
        shared = collections.defaultdict(set)
        for path, name, params, clauses, kept in fs:
            for c in clauses:
                said[c.replace(".old", ".now").replace(".new", ".now")].add((path, name, kept))
            params = [p.rstrip(",") for p in params]
            for a, b in zip(params, params[1:]):
                shared[(a, b)].add((path, name, kept))
        for what, table in (("say", said), ("take", {", ".join(k): v for k, v in shared.items()})):
            for c, where in table.items():
                if len(where) >= 3:
                    count[what] += 1
                    why = any(k for _, _, k in where)
                    count["kept " + what] += why
                    if loud:
                        print(f"      {crate}: {len(where)} functions {what} {c[:140]}{' kept' if why else ''}")
    print(f"  5 a fact in the contracts of three functions of a crate: {count['say']} ({count['kept say']} kept)")
    print(f"  5 neighbouring parameters that three functions of a crate share: {count['take']} ({count['kept take']} kept)")
    print(f"point 5: {count['say'] + count['take']} places, {count['kept say'] + count['kept take']} kept")


def sources():
    return sorted(glob.glob("crates/*/src/**/*.rt", recursive=True))


def main():
    args = [a for a in sys.argv[1:] if not a.startswith("-")]
    loud = "-v" in sys.argv
    if not args or "5" in args:
        point5(loud)
    for point, rules in RULES.items():
        if args and point not in args:
            continue
        total = collections.Counter()
        for name, pattern in rules:
            found = collections.Counter()
            lines = []
            matches = [(path, m) for path in sources() for m in re.finditer(pattern, open(path).read(), re.M)]
            if name in ALONE:
                keys = collections.Counter(m.group(m.lastindex or 0) if m.lastindex else "" for _, m in matches)
                matches = [(p, m) for p, m in matches if keys[m.group(m.lastindex) if m.lastindex else ""] > 1]
            for path, m in matches:
                text = m.string
                n = text.count("\n", 0, m.start()) + 1
                before = text[: m.start()].rsplit("\n", 5)[1:]
                kept = any("// kept:" in l for l in before) or "// kept:" in m.group(0)
                found["kept" if kept else "open"] += 1
                lines.append(f"      {path}:{n}{' kept' if kept else ''}")
            total.update(found)
            print(f"  {point} {name}: {sum(found.values())} ({found['kept']} kept)")
            if loud and lines:
                print("\n".join(lines))
        print(f"point {point}: {sum(total.values())} places, {total['kept']} kept")


main()
