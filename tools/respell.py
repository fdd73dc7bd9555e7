#!/usr/bin/env python3
"""Respells the definitions and lemmas of this repository: words in snake case, types and facts in camel case.

usage: python3 tools/respell.py        at the top of a checkout that port.py has just turned
       python3 tools/respell.py --look  prints what falls together, and writes nothing

A name is respelled where specs/ or proofs/*.antt define it and it has a dash. Functions of src/, strings, comments,
inputs and outputs are left alone. What a name becomes goes by the name alone, so that every checkout gives the same.
"""

import pathlib
import re
import sys

NAME = re.compile(r"[A-Za-z_\u0370-\u03ff\u2080-\u2089][\w'\u2080-\u2089\u00b7-]*")
DEFINED = re.compile(r"^[ ]*(?:(?:pub|abbrev|unfoldable|data|record|private) )*([^\s:(){}\[\]|]+)[^\n]*?:(?: |$)", re.M)

# relations and facts that were spelled as words
FACTS = """latched-sound windless-sound log-does writer-does if-ready if-owed end-does held-does stack-sound stack-does
hold-does mono-does mono-sound quota-does split-does split-sound transposer-does transposer-sound all-zero is-ticket""".split()

# where the plain respelling would be a name of src/
OTHERWISE = {
    "answers-stand": "answers_stand_lem",
    "hex-digit": "hex_digit_of",
    "hush-next": "hush_next_lem",
    "hush-one": "hush_one_lem",
    "is-on": "is_on_lem",
    "is-under": "is_under_pedal",
    "line-text": "line_text_of",
    "note-on": "note_on_of",
    "note-ons": "note_ons_of",
    "octave-off": "an_octave_off",
    "octave-on": "an_octave_on",
    "refusal-number": "refusal_number_lem",
    "with-digit": "with_digit_of",
}


def spelled(name):
    if name in OTHERWISE:
        return OTHERWISE[name]
    if name[0].isupper() or name in FACTS:
        return "".join(w[:1].upper() + w[1:] for w in re.split(r"[-_]", name))
    return name.replace("-", "_")


def uncommented(text):
    return re.sub(r"--[^\n]*", "", text)


def definitions(root):
    for p in sorted([*root.glob("crates/*/specs/*.antt"), *root.glob("crates/*/proofs/*.antt")]):
        for m in DEFINED.finditer(uncommented(p.read_text())):
            yield p, m.group(1)


def own_names(root):
    found = {}
    for p, name in definitions(root):
        if NAME.fullmatch(name) and spelled(name) != name and ("-" in name or name[0].isupper()):
            found[name] = spelled(name)
    return found


def turn_words(text, names):
    """A text of antt, outside comments and strings."""
    out = []
    for part in re.split(r'(--[^\n]*|"[^"\n]*")', text):
        if part.startswith("--") or part.startswith('"'):
            out.append(part)
        else:
            out.append(NAME.sub(lambda m: names.get(m.group(0), m.group(0)), part))
    return "".join(out)


def ghost_parts(text):
    """The places of a .rt file that hold antt: from the first brace of a ghost item or a clause to the last."""
    for m in re.finditer(r"(?m)^[ \t]*(?:pub )?(?:ghost|requires|ensures|#\[tactic)\b[^{;\n]*", text):
        at = m.end()
        if text[m.start():at].lstrip().startswith("#[tactic"):
            yield m.start(), text.index("\n", at)
            continue
        if text[at:at + 1] != "{":
            continue
        depth, i = 0, at
        while True:
            c = text[i]
            if c == '"':
                i = text.index('"', i + 1)
            depth += (c == "{") - (c == "}")
            i += 1
            if depth == 0:
                break
        yield m.start(), i


def turn_source(text, names):
    out, last = [], 0
    for a, b in ghost_parts(text):
        if a < last:
            continue
        out.append(text[last:a])
        out.append(turn_words(text[a:b], names))
        last = b
    return "".join(out) + text[last:]


def main(argv):
    root = pathlib.Path(".")
    names = own_names(root)
    if argv == ["--look"]:
        look(root, names)
        return
    for p in sorted([*root.glob("crates/**/*.antt"), *root.glob("crates/**/*.rt")]):
        if "out" in p.parts:
            continue
        text = p.read_text()
        turned = (turn_words if p.suffix == ".antt" else turn_source)(text, names)
        if turned != text:
            p.write_text(turned)


def look(root, names):
    every = {}
    for p, name in definitions(root):
        every.setdefault(name, set()).add(str(p.relative_to(root / "crates")))
    for old, new in sorted(names.items()):
        if new in every:
            print("own:", old, sorted(every[old]), "and", new, sorted(every[new]))
    source = {}
    for p in root.glob("crates/*/src/**/*.rt"):
        for w in re.findall(r"\b(?:fn|struct|enum|const|mod|let|let mut|trait) ([A-Za-z_]\w*)|\b([a-z_]\w*):", p.read_text()):
            for n in w:
                source.setdefault(n, set()).add(str(p.relative_to(root / "crates")))
    for old, new in sorted(names.items()):
        if new in source:
            print("source:", old, "->", new, sorted(every[old])[:2], sorted(source[new])[:3])


if __name__ == "__main__":
    main(sys.argv[1:])
