#!/usr/bin/env python3
"""Lists the places in src/ where an older form may stand, by the point of docs/DESIGN-PASS.md that they fall under.

usage: python3 tools/places.py [POINT ..]        at the top of a checkout; all points where none is named

It only finds where to look: a line `N. total: M` closes each point, and the page says of each place what became of it.
"""

import collections
import itertools
import pathlib
import re
import sys

PATTERNS = {
    1: [
        r"Err\((fault|below)\) (=>|= )",
        r"let Ok\(.*\) = .*",
        r"(Result|Option)<bool\b",
        r"-> \(u8, u8\)",
        r"^\s*(pub(\(crate\))? )?enum \w+",
        r"if i < self\.count",
        r"\.is_(err|ok)\(\)",
        r"Err\(_\) =>",
    ],
    3: [
        r"^\s*while (?!let)",
        r"\bfor \w+ in [\w.]+\.\.",
        r"\.enumerate\(\)",
        r"^\s*\w+ (\|=|= \w+ &) ",
    ],
    4: [
        r"\bimpl\b.*\bfmt::Display for",
        r"\bfn (is|of|number|words|label|wholeness|plus|minus|first_of|begun_lines|has_key|hex_digit|decimal_digit)\b",
        r"\bas (u|i)(8|16|32|64|size)\b",
        r"const BLANK",
        r"^\s*_ => Some\(self\)",
    ],
    6: [
        r"^\s*(pub(\(crate\))? )?\w+: (\[.*; \w+\]|Vec<.*>),",
        r"^\s*(pub(\(crate\))? )?(count|written|room): usize,",
        r"-> \(Vec<",
    ],
    7: [
        r"\bmatch (self|pick|act|row|line|ControlUse::of\(\w+\)|Command::named\(\w+\)) \{",
        r"\bfn\(|dyn |impl Fn|: Fn",
    ],
}

FUNCTION = re.compile(r"(?m)^([ \t]*)(?:pub(?:\(crate\))? )?(?:const )?fn (\w+)")
LITERAL = re.compile(r"(?m)^ +(?:\w+(?:: [^,{}]+)?,\n){3,}")


def sources(root):
    for p in sorted(root.glob("crates/*/src/**/*.rt")):
        yield p, p.read_text()


def functions(text):
    """(name, line, head, clauses, body) of each function with a body."""
    for m in FUNCTION.finditer(text):
        indent = m.group(1)
        rest = text[m.start():]
        end = re.search(r"(?m)^%s(\}|\{\})$" % indent, rest[len(m.group(0)):])
        if not end:
            continue
        whole = rest[: len(m.group(0)) + end.end()]
        clauses = re.findall(r"(?m)^\s*(?:requires|ensures)\b[^\n]*", whole)
        plain = re.sub(r"(?m)^\s*(?:requires|ensures)\b[^\n]*\n", "", whole)
        head, _, body = plain.partition("{")
        yield m.group(2), text[: m.start()].count("\n") + 1, head, clauses, body


def show(point, found):
    for line in found:
        print(f"{point}. {line}")
    print(f"{point}. total: {len(found)}")


def by_pattern(root, point):
    found = []
    for p, text in sources(root):
        for n, line in enumerate(text.split("\n"), 1):
            code = line.split("//")[0]
            if any(re.search(r, code) for r in PATTERNS[point]):
                found.append(f"{p.relative_to(root)}:{n}: {line.strip()}")
    if point == 4:
        for p, text in sources(root):
            for m in LITERAL.finditer(text):
                if "let " not in text[max(0, m.start() - 60): m.start()] and "->" not in m.group(0):
                    found.append(f"{p.relative_to(root)}:{text[:m.start()].count(chr(10)) + 1}: fields written one by one")
    return found


def twins(root):
    groups = collections.defaultdict(list)
    for p, text in sources(root):
        if "tests" in p.parts[-3]:
            continue
        for name, line, head, _, body in functions(text):
            body = re.sub(r"//[^\n]*", "", body)
            shape = re.sub(r"\b[A-Z]\w*(::<[^>]*>)?\b|\b0x\w+\b|\b\d[\d_]*\b|b?'[^']*'|b?\"[^\"]*\"", "#", body)
            shape = re.sub(r"\bself\.(rolled\.)?below\b|\bself\.rolled\b", "below", re.sub(r"\s+", " ", shape)).strip()
            if len(shape) > 6:
                groups[shape].append(f"{p.relative_to(root)}:{line}: {name}")
    return [" | ".join(g) for _, g in sorted(groups.items()) if len(g) > 1]


def together(root):
    clauses, groups = collections.defaultdict(set), collections.defaultdict(set)
    for p, text in sources(root):
        crate = p.relative_to(root).parts[1]
        for name, line, head, own, _ in functions(text):
            for c in own:
                fact = re.sub(r"^\s*(requires|ensures) ?\w* ?", "", c)
                fact = re.sub(r"\b2 \^ \d+\b|\+ \d+|≤ \d+", "#", fact)
                if len(fact) > 8 and "result ≡" not in fact:
                    clauses[(crate, fact.strip())].add(f"{p.name}:{line} {name}")
            head = head[head.find("(") :]
            names = [n.lstrip("_") for n in re.findall(r"(\w+): (?:&(?:mut )?)?[\w:]+", head)]
            for g in itertools.combinations(names, 3):
                groups[g].add(f"{crate}/{p.name}:{line} {name}")
    found = [f"clause in {len(w)} functions of {c}: {f}" for (c, f), w in sorted(clauses.items()) if len(w) > 2]
    full = {g: w for g, w in groups.items() if len(w) > 2}
    for g, w in sorted(full.items()):
        found.append(f"parameters in {len(w)} functions: {', '.join(g)}")
    return found


def proofs(root):
    found = []
    for p in sorted(root.glob("crates/*/proofs/**/*.antt")):
        n = len(re.findall(r"(?m)^(?:abbrev )?pub \S+ : goal\.", p.read_text()))
        if n and p.name == "Answers.antt":
            found += [f"{p.relative_to(root)}: {a}" for a in re.findall(r"(?m)^(?:abbrev )?pub (\S+) : goal\.", p.read_text())]
    return found


def main():
    root = pathlib.Path(__file__).resolve().parent.parent
    points = [int(a) for a in sys.argv[1:]] or range(1, 9)
    other = {2: twins, 5: together, 8: proofs}
    for point in points:
        show(point, other[point](root) if point in other else by_pattern(root, point))


if __name__ == "__main__":
    main()
