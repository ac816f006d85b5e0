#!/usr/bin/env python3
"""Brings the repository's own names in specs/, proofs/ and clauses to snake case: `rule-tree` becomes `rule_tree`.

usage: tools/respell.py          rewrites the files below crates/ in place
       tools/respell.py --look   lists what it would rename, and names that would fall together

A name is taken when a file of specs/ or proofs/ of this repository defines it: at the head of a definition, as a
constructor or a field, or bound on the left, in a `let`, a lambda or a signature. Names that Rattle makes for goals and
steps keep their dashes, and so do names of the library. Functions, strings, inputs and outputs are left alone.
It was run once, when the repository was brought to a newer Rattle; a second run changes nothing.
"""

import collections
import glob
import re
import sys

NAME = r"[A-Za-z_][\w'₀-₉]*(?:-[\w'₀-₉]+)+\??"
TOKEN = re.compile(r"(?<![\w'₀-₉-])" + NAME + r"(?![\w'₀-₉-])")
# In snake case each of these would be the name of a function or a word of the library in a file that cites it.
OTHERWISE = {
    "first-day": "first_day_of",
    "bit-or": "bit_of_or",
    "with-sign": "signed_by",
    "one-byte-mark": "mark_of_byte",
    "two-byte-mark": "mark_of_bytes",
    "of-claim": "summary_of_claim",
    "of-empty": "summary_of_empty",
    "of-alternative": "summary_of_alternative",
    "of-sequence": "summary_of_sequence",
    "of-star": "summary_of_star",
    "next-line": "next_line_cut",
    "six-shows": "page_calls",
    "order-calls": "calls_of_order",
    # A fact is spelled as a type.
    "no-star": "NoStar",
    "no-dot": "NoDot",
    "Kept-same": "kept_same",
    "of-month": "of_month",
}


def own(path):
    return "/out/" not in path


def files():
    found = glob.glob("crates/**/*.antt", recursive=True) + glob.glob("crates/**/*.rt", recursive=True)
    return sorted(p for p in found if own(p))


def read(path):
    with open(path, encoding="utf-8") as f:
        return f.read()


def is_answers(path):
    return path.rsplit("/", 1)[1] in ("Answers.antt", "Invariants.antt", "Proof.antt")


def library_names(text):
    """The names that a file imports from outside the repository."""
    out = set()
    for path, names in re.findall(r"use\s+([^\s{;]+?)\.\{([^}]*)\}", text):
        if re.match(r"Rattle\.(std|core|io)\b", path) or not path.startswith("Rattle."):
            out |= {w.split(" as ")[0].strip() for w in names.split(",")}
    return out


def imported(text):
    """All that a file imports, by the name it goes by there."""
    out = set()
    for _, names in re.findall(r"use\s+([^\s{;]+?)\.\{([^}]*)\}", text):
        out |= {w.split(" as ")[-1].strip() for w in names.split(",")}
    return out


def goals(text):
    """The names of goals and steps that a file of answers answers or cites."""
    cited = set(re.findall(r"\b(?:goal|need|rule)\.(" + NAME + ")", text))
    return cited | {m for m in TOKEN.findall(text) if re.search(r"\." + re.escape(m) + r"\b", text)}


def defined():
    """Every dashed name that some file of ours defines or binds."""
    out = set()
    for path in files():
        if not path.endswith(".antt"):
            continue
        text = read(path)
        made = goals(text) if is_answers(path) else set()
        code = re.sub(r"--[^\n]*", "", text)
        heads = re.findall(r"(?m)^\s*(?:pub |abbrev |unfoldable |data |record |module )*(" + NAME + r")\s*(?:[:({]|$)", code)
        binders = re.findall(r"[({]\s*((?:[\w'₀-₉-]+\s+)+):", code)
        bound = [w for group in binders for w in group.split()]
        lets = re.findall(r"\blet\s+(" + NAME + r")\s*[:=]", code)
        lambdas = [w for group in re.findall(r"λ\s*([^.]*)\.", code) for w in re.split(r"[\s(){}:]+", group)]
        aliases = [w for w in re.findall(r"\bas\s+(" + NAME + r")", code)]
        names = set(heads) | set(bound) | set(lets) | set(lambdas) | set(aliases)
        out |= {n for n in names if "-" in n and TOKEN.fullmatch(n) and n not in made}
    for path in files():
        if path.endswith(".rt"):
            out |= set(re.findall(r"\bas\s+(" + NAME + r")", read(path)))
    return out | set(OTHERWISE)


def spelled(name):
    return OTHERWISE.get(name, name.replace("-", "_"))


def record_fields():
    """The dashed fields of our own records and modules of lemmas."""
    out = set()
    for path in files():
        if path.endswith(".antt") and not is_answers(path):
            out |= set(re.findall(r"(?m)^ +(?:pub )?(" + NAME + r")\s*:", re.sub(r"--[^\n]*", "", read(path))))
    return out


def main(argv):
    ours = defined()
    fields = record_fields()
    looks = collections.defaultdict(set)
    for path in files():
        text = read(path)
        foreign = library_names(text)
        here = imported(text)
        made = goals(text) if is_answers(path) else set()
        words = set(re.findall(r"[A-Za-z_][\w']*", re.sub(r"(?m)(--|//)[^\n]*$", "", text)))

        def turned(match):
            name = match.group(0)
            before = match.string[: match.start()]
            if name not in ours or name in foreign:
                return name
            # a name that Rattle makes: a goal, or a step of a place
            if is_answers(path) and name not in here and name in made and name not in fields and before.endswith("."):
                return name
            if is_answers(path) and name in made and name not in here and re.search(r"(?m)^(pub |abbrev )*$", before[before.rfind("\n") + 1 :]):
                return name
            if spelled(name) in words:
                looks[path].add(name)
            return spelled(name)

        new = TOKEN.sub(turned, text)
        if "--look" not in argv and new != text:
            with open(path, "w", encoding="utf-8") as f:
                f.write(new)
    if "--look" in argv:
        print(len(ours), "names")
        for path, names in sorted(looks.items()):
            print(path, *sorted(names))


if __name__ == "__main__":
    main(sys.argv[1:])
