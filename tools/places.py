#!/usr/bin/env python3
"""Lists the places in crates/*/src that read like the older language, by the points of docs/DESIGN-PASS.md.

usage: tools/places.py [POINT..]      each point's places with their count; without points, the counts alone

A place is a function, a type or a constant that has a line of the kind looked for, or the top of a file.
It reads text and judges nothing: a place that it lists may be right as it stands.
"""
import re
import sys
from collections import defaultdict
from pathlib import Path

ROOT = Path(__file__).resolve().parent.parent
CRATES = ROOT / "crates"
FILES = sorted(CRATES.glob("*/src/**/*.rt"))
ITEM = re.compile(r"^\s*(?:pub(?:\([a-z]+\))? )?(?:final )?(fn|struct|enum|const|trait|type) (\w+)")
IMPL = re.compile(r"^impl(?:<.*?>)? (?:(\w+)(?:<.*>)? for )?&?(\w+)")


def lines():
    """Each line that is no comment and no test, with the item that it belongs to."""
    for path in FILES:
        owner, item, tests = "", "top", False
        for n, line in enumerate(path.read_text().split("\n"), 1):
            tests = tests or line == "mod tests {"
            m = IMPL.match(line)
            if m:
                owner = m.group(2) + "::"
            elif re.match(r"^\S", line) and not line.startswith("}"):
                owner = "" if not owner or not line.startswith(" ") else owner
            m = ITEM.match(line)
            if m:
                item = (owner if line.startswith(" ") else "") + m.group(2)
            if not line.lstrip().startswith("//"):
                yield path.relative_to(CRATES), n, line, item, tests


def places(*patterns, tests=False):
    """The items with a line that one of the patterns matches: place -> its first such line."""
    found = {}
    for path, n, line, item, in_tests in lines():
        if in_tests and not tests:
            continue
        if any(re.search(p, line) for p in patterns):
            found.setdefault(f"{path.parts[0]}: {item}", f"{path}:{n}: {line.strip()}")
    return [f"{place}   ({where})" for place, where in found.items()]


def functions():
    """Each function outside of tests: its place, parameters, clauses and body."""
    for path in FILES:
        text = path.read_text()
        text = text.split("#[cfg(test)]\nmod tests {")[0]
        for m in re.finditer(r"^( *)(?:pub(?:\([a-z]+\))? )?(?:final )?fn (\w+)", text, re.M):
            indent = m.group(1)
            rest = text[m.end() :]
            end = re.search(rf"^{indent}(\}}|\{{\}})$", rest, re.M)
            declared = re.match(r"[^{}]*(?:\{[^{}]*\}\s*)*?;\n", rest)
            if declared and (not end or declared.end() < end.start()) and f"\n{indent}{{\n" not in declared.group(0):
                end = declared
            whole = text[m.start() : m.end() + end.end()] if end else text[m.start() :]
            head, _, body = whole.partition(f"\n{indent}{{\n")
            if not body and whole.split("\n")[0].endswith("{"):
                head, _, body = whole.partition("\n")
            inside = re.search(r"\((.*?)\)(?= ->|\n|$| \{|;)", head, re.S)
            params = re.sub(r"\s+", " ", inside.group(1)) if inside else ""
            clauses = re.findall(r"^\s*(?:requires|ensures)\*? ?(?:\w+ )?\{(.*)\}$", head, re.M)
            yield f"{path.relative_to(CRATES).parts[0]}: {m.group(2)}", params, clauses, body


def shape(body):
    body = re.sub(r"//.*", "", body)
    body = re.sub(r"b?'[^']*'|\"[^\"]*\"|\b[0-9_]+\b", "0", body)
    kept = "if|else|return|let|mut|for|in|match|while|Some|None|Ok|Err|self"
    return re.sub(r"\s+", " ", re.sub(rf"\b(?!(?:{kept})\b)[A-Za-z_]\w*\b", "x", body)).strip()


def twins():
    """Functions whose bodies have one shape, and structs whose fields have the same names."""
    alike = defaultdict(list)
    for place, _, _, body in functions():
        if len(shape(body)) >= 24 and not place.endswith(": main"):
            alike[shape(body)].append(place)
    for path in FILES:
        for m in re.finditer(r"^(?:pub(?:\([a-z]+\))? )?struct (\w+)[^\n]*\{\n(.*?)^\}", path.read_text(), re.M | re.S):
            fields = re.findall(r"^\s*(?:pub(?:\([a-z]+\))? )?(\w+): ", m.group(2), re.M)
            alike[", ".join(fields)].append(f"{path.relative_to(CRATES).parts[0]}: struct {m.group(1)}")
    return [f"{p}   (with {', '.join(q for q in g if q is not p)})" for g in alike.values() if len(g) > 1 for p in g]


def repeated_facts():
    """Facts that the clauses of three or more functions state of one value, and parameters that three or more functions take together."""
    facts, together = defaultdict(set), defaultdict(set)
    for place, params, clauses, _ in functions():
        for clause in clauses:
            for part in re.split(r" × |[()]", re.sub(r"\.(old|new|now|entry|exit)\b", "", clause)):
                part = re.sub(r"\s+", " ", part).strip()
                if re.search(r"\w [≤<] \w", part) or re.fullmatch(r"[A-Z]\w+ \w+", part):
                    facts[part].add(place)
        names = [re.sub(r"^mut ", "", p.strip()) for p in re.split(r",(?![^<\[(]*[>\])])", params) if ":" in p]
        for i, a in enumerate(names):
            for b in names[i + 1 :]:
                together[f"{a}, {b}"].add(place)
    both = [(f"fact `{f}`", w) for f, w in facts.items()] + [(f"parameters `{p}`", w) for p, w in together.items()]
    return [f"{what}   ({len(w)}: {', '.join(sorted(w))})" for what, w in sorted(both) if len(w) >= 3]


def answers():
    files = sorted(CRATES.glob("*/proofs/**/Answers.antt"))
    blocks = [(f, re.findall(r"^pub (\S+) : goal\.", f.read_text(), re.M)) for f in files]
    return [f"{f.relative_to(CRATES).parent}: {b}" for f, found in blocks for b in found]


POINTS = {
    "1": lambda: places(
        r"^\s*(pub(\([a-z]+\))? )?enum ",  # own enums
        r"^\s*(pub(\([a-z]+\))? )?\w+: bool,",  # flags
        r"=> [0-9]+,$",  # a number for each case
        r"fn \w+\(\) -> u8$",  # a number that means nothing
        r"& \w+ [!=]= 0",  # kinds as bits
        r"\bNone => (None|0|return)\b|=> Ok\(\w+\),|=> Err\(",  # an Option or a Result taken apart and put together again
    ),
    "2": twins,
    "3": lambda: places(r"\bwhile\b", r"\bfor \w+ in .*\.\.", r"\bloop\b", r"\w+ \+= 1;"),
    "4": lambda: places(
        r"^\s*impl.* (PartialEq|Eq|PartialOrd|Ord|Clone|Copy|Display|Debug|Default|From|TryFrom)(<.*>)? for ",
        r"\bfn (number|blank|print|compare|is_before|posed|of_count|of_track|letter_byte)\b",
        r"^\s*(\w+): \w+(\.\w+)*\.\1(,| as )",  # a field copied to its namesake
        r"text\.(byte|number)\(",
    ),
    "5": repeated_facts,
    "6": lambda: places(r"\[[A-Za-z_]\w*(<.*>)?; ?\w+\]", r"^\s*(pub(\([a-z]+\))? )?len: (usize|u16)", r"^\s*(pub(\([a-z]+\))? )?\w+: &'\w+ mut \["),
    "7": lambda: places(r"\bfn\(", r"\bdyn\b"),
    "8": answers,
}


def main():
    wanted = sys.argv[1:]
    for point, find in POINTS.items():
        if not wanted or point in wanted:
            found = find()
            print(f"point {point}: {len(found)}")
            for f in found if wanted else []:
                print("  " + f)


main()
