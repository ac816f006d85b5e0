#!/usr/bin/env python3
"""Writes the files stdin and stdout beside this one: a table of rules and rows, and the answers to them.

The answers come from the matcher below, which shares no code with the crates. A line of stdin is a rule's text and then
the rows, oldest first, each after a `;`. A row is an order from 0 to 3 and seven values, parted by single spaces; `-` is a
missing value. The answer has a letter for each beginning of the rows, from none to all: P if those rows pass, F if not.
Where a line begins with `=`, the answer is the letter for all rows alone.
"""

import importlib.util
import operator
import pathlib
import random
import re
import sys

sys.dont_write_bytecode = True
FOLDER = pathlib.Path(__file__).resolve().parent
SPEC = importlib.util.spec_from_file_location("readings", FOLDER.parent / "readings" / "cases.py")
readings = importlib.util.module_from_spec(SPEC)
SPEC.loader.exec_module(readings)

NAMES = readings.NAMES
MOST = 1_000_000_000
MOST_ROWS = 400

# --- Trees of rules ---------------------------------------------------------------------------------------------


class Trees(readings.Reader):
    """The reader of rule texts, with a tree for each thing read: a tuple of its kind and its parts."""

    def joined(self, sign, part):
        tree = part()
        while self.sees([sign]):
            tree = (self.take([sign]), tree, part())
        return tree

    def piece(self):
        tree = self.base()
        while self.sees(["*"]):
            tree = (self.take(["*"]), tree)
        return tree

    def base(self):
        first = self.take(["_", "(", "["])
        if first == "_":
            return (first,)
        tree = self.rule() if first == "(" else (first, self.claim())
        self.take([")"] if first == "(" else ["]"])
        return tree

    def claim(self):
        tree = self.either()
        return (self.take(["=>"]), tree, self.either()) if self.sees(["=>"]) else tree

    def single(self):
        if not self.sees(["not", "(", "true", "has"]):
            left, sign, right = self.sum(), self.take(readings.COMPARISONS), self.sum()
            return (sign, left, right)
        first = self.take(["not", "(", "true", "has"])
        if first == "true":
            return (first,)
        if first == "not":
            return (first, self.single())
        if first == "has":
            return (first, self.name())
        tree = self.claim()
        self.take([")"])
        return tree

    def sum(self):
        """A list of signs and terms."""
        terms = [(self.take(["-"]) if self.sees(["-"]) else "+", self.term())]
        while len(terms) < 8 and self.sees(readings.SIGNS):
            terms.append((self.take(readings.SIGNS), self.term()))
        return terms

    def term(self):
        token = self.tokens[self.next][0]
        return int(self.take([token])) if token.isdigit() else self.name()

    def name(self):
        """A name, and whether it reads the newest row."""
        name = self.take(NAMES)
        return name, self.sees(["'"]) and bool(self.take(["'"]))


def tree_of(text):
    """The tree of a rule's text, or a refusal as of watch 1."""
    readings.read(1, text)
    return Trees(readings.tokens_of(text), len(text)).text()


# --- What a rule means ------------------------------------------------------------------------------------------

RELATIONS = dict(zip(readings.COMPARISONS, [operator.eq, operator.ne, operator.lt, operator.le, operator.gt, operator.ge]))


def value(term, newest, row):
    """The number that a term has, or None."""
    if isinstance(term, int):
        return term
    name, is_newest = term
    return (newest if is_newest else row)[name]


def total(terms, newest, row):
    """The number that a sum has, or None."""
    values = [(sign, value(term, newest, row)) for sign, term in terms]
    if any(number is None for _, number in values):
        return None
    return sum(number if sign == "+" else -number for sign, number in values)


def is_true(claim, newest, row):
    kind, *parts = claim
    match kind:
        case "true":
            return True
        case "has":
            return value(parts[0], newest, row) is not None
        case "not":
            return not is_true(parts[0], newest, row)
        case "and":
            return all(is_true(part, newest, row) for part in parts)
        case "or":
            return any(is_true(part, newest, row) for part in parts)
        case "=>":
            return is_true(parts[1], newest, row) if is_true(parts[0], newest, row) else True
    left, right = (total(part, newest, row) for part in parts)
    return left is not None and right is not None and RELATIONS[kind](left, right)


def members(places):
    """The numbers in a set that is the bits of a number."""
    while places:
        lowest = places & -places
        yield lowest.bit_length() - 1
        places ^= lowest


def ends(pattern, rows):
    """For each place in the rows, newest first, the set of places where a part that starts there and fits may end."""
    kind, *parts = pattern
    starts = range(len(rows) + 1)
    if kind == "_":
        return [1 << start for start in starts]
    if kind == "[":
        return [2 << start if is_true(parts[0], rows[0], row) else 0 for start, row in enumerate(rows)] + [0]
    first, *second = (ends(part, rows) for part in parts)
    if kind == "|":
        return [one | other for one, other in zip(first, *second)]
    found = [0 for _ in starts]
    for start in reversed(starts):
        if kind == ".":
            for middle in members(first[start]):
                found[start] |= second[0][middle]
        else:
            found[start] = 1 << start
            # What can be reached from a place that was reached is there already.
            while beyond := first[start] & ~found[start]:
                found[start] |= found[next(members(beyond))]
    return found


def letter(tree, rows):
    """Whether some beginning of the rows, newest first, fits; these are the oldest first."""
    return "P" if ends(tree, rows[::-1])[0] else "F"


# --- Lines ------------------------------------------------------------------------------------------------------

ROW = re.compile(r"[0-3]( (-|-?[0-9]+)){7}")


def row_of(text):
    """The row that a text is, or None."""
    if not ROW.fullmatch(text):
        return None
    row = {name: None if field == "-" else int(field) for name, field in zip(NAMES, text.split(" "))}
    return row if all(number is None or abs(number) <= MOST for number in row.values()) else None


def answer(line):
    """The answer to a line."""
    text, *rows = line.removeprefix("=").split(";")
    rows = [row_of(row) for row in rows]
    if None in rows or len(rows) > MOST_ROWS:
        return "bad line"
    try:
        tree = tree_of(text.encode("latin-1"))
    except readings.Refused as refused:
        return "refused {} at {}".format(*refused.args)
    first = len(rows) if line.startswith("=") else 0
    return "".join(letter(tree, rows[:count]) for count in range(first, len(rows) + 1))


def row(op, **values):
    """The text of a row in which these values are not missing."""
    return " ".join(str(field) for field in [op, *(values.get(name, "-") for name in NAMES[1:])])


def column(name, text):
    """Rows with numbers in one column; the first of the rows has order 0, and the others have 1."""
    numbers = [{} if number == "-" else {name: number} for number in text.split()]
    return [row(min(count, 1), **number) for count, number in enumerate(numbers)]


def line(rule, rows):
    return ";".join([rule, *rows])


# --- The cases that are written out: a line, and what is wanted of it -------------------------------------------


def stars():
    """How many rows a star takes."""
    rows = column("c1", "5 2 1 0 7 3")
    yield line("[op = 0] | [true].[c1 >= 1]*.[op = 0]", rows), "FPPPPFF"
    yield line("[op = 0] | [true].[true]*.[op = 0]", rows), "FPPPPPP"
    yield line("[c1 >= 1]*.[op = 0]", rows), "FPPPFFF"
    yield line("[true]*.[c1 >= 1]", rows), "FPPPPPP"
    yield line("[true]*.[c1 = 2].[c1 = 5]", rows), "FFPPPPP"
    yield line("[true]*.[c1 = 5].[c1 = 2]", rows), "FFFFFFF"
    yield line("[c1 < 3]*.[c1 < 3].[c1 < 3]*.[c1 = 5]", rows), "FFPPPFF"
    yield line("[c1 <> 0]*.[c1 = 0]", rows), "FFFFPPP"
    yield line("([true].[true])*.[op = 0]", rows), "FPFPFPF"
    yield line("[true].([true].[true])*.[op = 0]", rows), "FFPFPFP"
    yield line("([true].[true].[true] | [true].[true])*.[op = 0]", rows), "FPFPPPP"
    yield line("([c1 = 3] | [c1 = 7])*.([c1 = 0] | [c1 = 1])*.[c1 = 2]", rows), "FFPPPPP"
    yield line("([c1 = 3].[c1 = 7] | [c1 = 0].[c1 = 1])*.[c1 = 2]", rows), "FFPFPFP"
    yield line("([c1 = 7] | [c1 = 0])*.([c1 = 3] | [c1 = 1])*.[c1 = 2]", rows), "FFPPPPF"
    # nothing, or parts of nothing
    one = column("c1", "1 1 2 1")
    for rule, wanted in [
        ("_", "PPPPP"),
        ("_*", "PPPPP"),
        ("(_ | [c1 = 1])*", "PPPPP"),
        ("(_*)*", "PPPPP"),
        ("(_*)*.[c1 = 1]", "FPPFP"),
        ("[c1 = 1].(_*)*", "FPPFP"),
        ("(_ | [c1 = 1])*.[c1 = 2]", "FFFPP"),
        ("([c1 = 1] | _)*.[c1 = 2]", "FFFPP"),
        ("([c1 = 1]* | _)*.[op = 0]", "FPPFF"),
        ("([c1 = 1]*.[c1 = 2]*)*.[op = 0]", "FPPPP"),
        ("([c1 = 1]*.[c1 = 2]*).[op = 0]", "FPPFF"),
        ("(_._)*.[c1 = 2]", "FFFPF"),
        ("_.[c1 = 2]", "FFFPF"),
        ("[c1 = 2]._", "FFFPF"),
        ("_ | [c1 = 2]", "PPPPP"),
        ("[c1 = 2] | _", "PPPPP"),
        ("[c1 = 2]*.[c1 = 2]*", "PPPPP"),
        ("[c1 = 2]*.[c1 = 2]", "FFFPF"),
        ("[c1 = 2]**", "PPPPP"),
        ("[c1 = 1]**.[c1 = 2]", "FFFPP"),
        ("[true]", "FPPPP"),
        ("[not true]", "FFFFF"),
        ("[true].[true].[true]", "FFFPP"),
        ("_.[true]._.[true]._", "FFPPP"),
        ("([not true]*)*.[c1 = 2]", "FFFPF"),
        ("([not true]* | [c1 = 1])*.[c1 = 2]", "FFFPP"),
    ]:
        yield line(rule, one), wanted


def orders():
    """Alternatives and sequences, in both orders."""
    rows = column("c1", "1 2 3 1")
    yield line("[c1 = 1] | [c1 = 2]", rows), "FPPFP"
    yield line("[c1 = 2] | [c1 = 1]", rows), "FPPFP"
    yield line("[c1 = 2].[c1 = 1]", rows), "FFPFF"
    yield line("[c1 = 1].[c1 = 2]", rows), "FFFFF"
    yield line("[c1 = 1].[c1 = 3]", rows), "FFFFP"
    yield line("[c1 = 1] | [c1 = 2].[c1 = 2]", rows), "FPFFP"
    yield line("([c1 = 1] | [c1 = 2]).[c1 = 1]", rows), "FFPFF"
    yield line("[c1 = 2].[c1 = 1] | [c1 = 1].[c1 = 3]", rows), "FFPFP"
    yield line("[c1 = 1].[c1 = 3] | [c1 = 2].[c1 = 1]", rows), "FFPFP"
    yield line("[c1 = 3].([c1 = 2].[c1 = 1])", rows), "FFFPF"
    yield line("([c1 = 3].[c1 = 2]).[c1 = 1]", rows), "FFFPF"
    yield line("[c1 = 3].([c1 = 1] | [c1 = 2])", rows), "FFFPF"
    yield line("[c1 = 3].([c1 = 2] | [c1 = 1])", rows), "FFFPF"
    yield line("([c1 = 1] | [c1 = 1].[c1 = 3]).[c1 = 2]", rows), "FFFFP"
    yield line("([c1 = 1].[c1 = 3] | [c1 = 1]).[c1 = 2]", rows), "FFFFP"
    yield line("[c1 = 1].([c1 = 3] | _).[c1 = 3]", rows), "FFFFP"
    yield line("[c1 = 1].(_ | [c1 = 3]).[c1 = 2]", rows), "FFFFP"
    yield line("[c1 = 3] | [c1 = 2] | [c1 = 1].[true]", rows), "FFPPP"


def newest():
    """A name with `'` reads the newest row: neither the neighbour nor the oldest."""
    rising = "[op = 0] | [true].[c1 < c1']*.[op = 0]"
    yield line(rising, column("c1", "1 2 1")), "FPPF"
    yield line(rising, column("c1", "1 3 2 4")), "FPPFP"
    yield line(rising, column("c1", "1 3 2 4 4")), "FPPFPF"
    yield line(rising, column("c1", "9 3 2 4 5")), "FPPFPP"
    yield line(rising, column("c1", "1 2 - 3")), "FPPFF"
    differing = "[op = 0] | [true].[c1 <> c1']*.[op = 0]"
    yield line(differing, column("c1", "5 1 2 1")), "FPPPF"
    yield line(differing, column("c1", "5 1 1 2")), "FPPFP"
    yield line("[c1 = c1']", column("c1", "1 2 -")), "FPPF"
    yield line("[c1 = 2].[c1' = 2]", column("c1", "1 2 2 1")), "FFPPF"
    yield line("[true].[c1' = 2]", column("c1", "2 1 2")), "FFFP"
    yield line("[true].[c1' - c1 = 1]", column("c1", "1 2 4 5 3")), "FFPFPF"
    yield line("[true].[c1 - c1' = 1]", column("c1", "1 2 4 3 2")), "FFFFPP"
    yield line("[true].[true].[c1 + 1 = c1']", column("c1", "1 7 2 8")), "FFFPP"
    yield line("[c1' = c1].[c1' > c1].[c1' > c1].[c1' = c1]", column("c1", "4 3 2 4")), "FFFFP"
    yield line("[true].[has c1']", column("c1", "- 1 - -")), "FFPFF"
    yield line("[true].[not has c1']", column("c1", "1 1 - 2")), "FFFPF"
    yield line("[true].[has c1 and not has c1']", column("c1", "1 1 - -")), "FFFPF"
    yield line("[true].[c1 = c1' or not c1' = 0]", column("c1", "0 0 - 1 -")), "FFPPPP"
    orders = [row(0, arg=1), row(2, arg=2), row(1, arg=1), row(2, arg=0)]
    yield line("[op = 0] | [true].[op < op']*.[op = 0]", orders), "FPPFF"
    yield line("[op' = 2].[op = 0 or op' = 2 and op = 1]", orders), "FFPFP"
    yield line("[true].[arg = arg' + 1]", orders), "FFFPP"
    yield line("[true].[true].[arg = arg']", orders), "FFFPF"
    pairs = [row(0, c1=1, c2=9), row(1, c1=2, c2=1), row(1, c1=8, c2=0), row(1, c1=3, c2=5)]
    yield line("[true].([c1 < c1'] | [c2 < c2'])*.[op = 0]", pairs), "FFPPP"
    yield line("[true].([c1 < c1'] | [c2 > c2'])*.[op = 0]", pairs), "FFPPF"
    for name in NAMES[1:]:
        one = [row(0, **{name: 1}), row(1, **{name: 2}), row(1), row(1, **{name: 1})]
        yield line(f"[{name} = 2] | [{name}' = 1].[not has {name}].[{name} > {name}']", one), "FFPFP"


CLAIMS = """
    P true
    F not true
    P not not true
    P has op
    P has arg
    F has c4
    P not has c4
    P has c5
    P has c1'
    F has c4'
    P op = 2
    F op = 1
    P op + 1 = 3
    P arg = 7
    P c1 = 3
    P c1 = 003
    P -c1 = c2
    P c1 + c2 = c3
    P c1 - c1 = c3
    P -c3 = c3
    P 0 = -0
    P c2 < c3
    P -c2 > -c3
    P c1 - 1 + 2 - 3 + 4 - 5 + 6 - 7 = -1
    P -c1 - c2 - arg + op' = 0 - 5
    F c4 < 3
    F c4 >= 3
    F not (c4 < 3 or not c4 < 3)
    P not c4 < 3
    P not c4 = 1
    F c4 = 1
    F c4 <> 1
    F 1 = c4
    F 1 <> c4
    F c4 = c4
    F c4 <> c4
    F c4 <= c4
    P not c4 = c4
    F c4 + 1 > 0
    F 1 + c4 > 0
    F 1 - c4 > 0
    F -c4 < 1
    F c4 - c4 = 0
    F c1 + c1 + c1 + c1 + c1 + c1 + c1 + c4 > 0
    F 0 < c4 + c1 + c1 + c1 + c1 + c1 + c1 + c1
    F c1 = c1 + c4
    F c1 + c4' = c1
    P not c1 + c4 = c1
    F not not c1 + c4 = c1
    P true and true
    F true and not true
    F not true and true
    F not true and not true
    P true or true
    P true or not true
    P not true or true
    F not true or not true
    P true => true
    F true => not true
    P not true => true
    P not true => not true
    F c1 = 3 => c4 = 3
    P c4 = 3 => c1 = 3
    P c4 = 3 => c4 = 3
    P c4 = 3 => not true
    F (c4 = 3 => not true) => not true
    P (true => not true) => not true
    P true or true and not true
    F (true or true) and not true
    F not true and true or not true
    P not true and not true or true
    P not (true and not true)
    P not true or c1 = 3 and has arg
    F not (true or c1 = 3) and has arg
    F true and true and not true
    F not true or not true or not true
    P not true or not true or true
    F true or true => not true and true
    P c1 = 3 and not has c4 => c5 > c6
    P c5 = 1000000000
    P c6 = -1000000000
    P c5 + c6 = 0
    P c5 - c6 = 1000000000 + 1000000000
    P c5 + c5 + c5 > 999999999 + 999999999 + 999999999
    F c5 + c5 + c5 < 0
    F c6 + c6 + c6 > 0
    F c5 + c5 + c5 + c5 + 294967296 = 0
    F c5 + c5 + 147483648 = c6 + c6 - 147483648
"""


def claims():
    """Claims of one row."""
    one = [row(2, arg=7, c1=3, c2=-3, c3=0, c5=MOST, c6=-MOST)]
    for text in CLAIMS.strip().splitlines():
        wanted, claim = text.strip().split(" ", 1)
        yield line(f"[{claim}]", one), "F" + wanted
        yield line(f"[not ({claim})]", one), "F" + {"P": "F", "F": "P"}[wanted]
    yield line("[c4 < 3]", column("c4", "2 3 4 - -1")), "FPFFFP"
    yield line("[not c6 = 1]", column("c6", "1 2 -")), "FFPP"
    yield line("[c6 <> 1]", column("c6", "1 2 -")), "FFPF"
    yield line("[op = 0] | [op = 1]", [row(op) for op in [0, 1, 2, 3]]), "FPPFF"
    yield line("[op = 3] | [op = 2]", [row(op) for op in [0, 1, 2, 3]]), "FFFPP"


# Pairs of numbers, and how the first compares with the second.
PAIRS = """
    1 < 2, 2 = 2, 2 > 1, -2 < -1, -2 = -2, -1 > -2, -1 < 1, 1 > -1, 0 > -1, -1 < 0, 0 = 0, 0 < 1, 1 > 0,
    1000000000 > -1000000000, -1000000000 < 1000000000, 1000000000 > 999999999, -1000000000 < -999999999,
    1000000000 = 1000000000, -1000000000 = -1000000000, - ? 1, 1 ? -, - ? -
"""


def comparisons():
    """Each comparison of each pair: as they are, with the signs changed, in sums, and of an older row with the newest."""
    pairs = [pair.split() for pair in PAIRS.strip().split(",")]
    rows = [row(1, c1=one, c2=other) for one, _, other in pairs]
    turned = {"<": ">", ">": "<"}
    for sign in readings.COMPARISONS:
        wanted = "F" + "".join("P" if order in sign else "F" for _, order, _ in pairs)
        changed = "F" + "".join("P" if turned.get(order, order) in sign else "F" for _, order, _ in pairs)
        yield line(f"[c1 {sign} c2]", rows), wanted
        yield line(f"[c2 {sign} c1]", rows), changed
        yield line(f"[-c1 {sign} -c2]", rows), changed
        yield line(f"[c1 - c2 {sign} 0]", rows), wanted
        yield line(f"[5 + c1 {sign} c2 - 0 + 5]", rows), wanted
        for one, order, other in pairs:
            two = [row(0, c1=one), row(1, c1=other)]
            yield line(f"=[true].[c1 {sign} c1']", two), "P" if order in sign else "F"


def sums():
    """Sums of eight terms, as large and as small as they get."""
    high, low = "+".join(["c1"] * 8), "-" + "-".join(["c1"] * 8)
    named, numbers = "+".join(["c2"] * 8), "+".join(["1000000000"] * 8)
    rows = [row(0, c1=MOST, c2=MOST), row(1, c1=MOST, c2=-MOST), row(1, c1=-MOST, c2=-MOST), row(1, c1=-MOST, c2=MOST)]
    rows += [row(1, c1=MOST, c2=MOST - 1), row(1, c1=-MOST, c2=1 - MOST), row(1, c1=MOST), row(1, c2=MOST)]
    for sign, wanted in zip(readings.COMPARISONS, ["PFPFFF", "FPFPPP", "FFFPFP", "PFPPFP", "FPFFPF", "PPPFPF"]):
        yield line(f"[{high}{sign}{named}]", rows), f"F{wanted}FF"
    for sign, wanted in zip(readings.COMPARISONS, ["FPFPFF", "PFPFPP", "PFFFPF", "PPFPPF", "FFPFFP", "FPPPFP"]):
        yield line(f"[{low}{sign}{named}]", rows), f"F{wanted}FF"
    yield line(f"[{high}={numbers}]", rows), "FPPFFPFPF"
    yield line(f"[{low}={numbers}]", rows), "FFFPPFPFF"
    yield line(f"[{high}>{low}]", rows), "FPPFFPFPF"
    yield line(f"[{high}<{low}]", rows), "FFFPPFPFF"
    newest = "+".join(["c1'"] * 8)
    yield line(f"[true].[{high}={newest}]", rows), "FFPFPFFFF"
    fields = [row(3, **dict.fromkeys(NAMES[1:], number)) for number in [MOST, -MOST]]
    added, taken = "+".join(NAMES), "-" + "-".join(NAMES)
    for three, is_right in [("3", True), ("2", False), ("4", False)]:
        first, second = ("FPF", "FFP") if is_right else ("FFF", "FFF")
        yield line(f"[{added}={'1000000000+' * 7}{three}]", fields), first
        yield line(f"[{added}={'-1000000000' * 7}+{three}]", fields), second
        yield line(f"[{'-1000000000' * 7}-{three}={taken}]", fields), first
        yield line(f"[{'1000000000+' * 6}1000000000-{three}={taken}]", fields), second


# The history of a stack of numbers: c1 is its length and c2 its top. Order 0 makes it, 1 pushes arg, and 2 pops.
STACK = [
    row(0, c1=0),
    row(1, arg=5, c1=1, c2=5),
    row(2, c1=0),
    row(1, arg=3, c1=1, c2=3),
    row(1, arg=8, c1=2, c2=8),
    row(1, arg=6, c1=3, c2=6),
    row(2, c1=2, c2=8),
    row(1, arg=6, c1=3, c2=6),
    row(2, c1=2, c2=8),
    row(2, c1=1, c2=5),
]


def stack():
    """A push lies on what was there, and a pop goes back to the newest row of its length; the tenth row shows an older top."""
    made, push = "[op = 0 and c1 = 0 and not has c2]", "[op = 1 and c2 = arg].[c1 = c1' - 1]"
    same = "(c2 = c2' or not has c2 and not has c2')"
    pop = f"[op = 2].[c1 > c1']*.[c1 = c1' and {same}]"
    once = f"[op = 2].[c1 = c1' + 1].[c1 > c1']*.[c1 = c1' and {same}]"
    yield line(f"{made} | {push} | {pop}", STACK), "FPPPPPPPPPF"
    yield line(f"{made} | {push} | {once}", STACK), "FPPPPPPPPPF"
    yield line(f"{once} | {push} | {made}", STACK), "FPPPPPPPPPF"
    # what was there
    right = [*STACK[:9], row(2, c1=1, c2=3)]
    yield line(f"{made} | {push} | {once}", right), "FPPPPPPPPPP"
    # an older row of that length has the top shown
    yield line(f"[op = 2].[true]*.[c1 = c1' and {same}]", STACK), "FFFPFFFPFPP"
    # a push of something else than the top, and onto another length
    yield line(f"{made} | {push} | {pop}", [*STACK[:3], row(1, arg=4, c1=1, c2=3)]), "FPPPF"
    yield line(f"{made} | {push} | {pop}", [*STACK[:3], row(1, arg=3, c1=2, c2=3)]), "FPPPF"
    yield line(f"{made} | {push} | {pop}", [*STACK[:2], row(2, c1=0, c2=5)]), "FPPF"


def many_rows():
    """As many rows as a line may have, under rules with which a search that goes back could take for ever."""
    plain = [row(1, c1=1)] * MOST_ROWS
    last = [row(0, c1=-1), *plain[1:]]
    nested = "[true]"
    for level in range(1, 17):
        nested = f"({nested}*.[c1 < 0] | [true])"
        if level in [2, 16]:
            yield line(f"={nested}*.[c1 < 0]", plain), "F"
            yield line(f"={nested}*.[c1 < 0]", last), "P"
    starred = "[true]" + "*" * 490
    yield line(f"={starred}", plain[:2]), "P"
    yield line(f"={starred}.[c1<0]", plain), "F"
    yield line(f"={starred}.[c1<0]", last), "P"
    deep = "[true]"
    for _ in range(16):
        deep = f"({deep}*.[c1 < 0])"
    for count, wanted in [(16, "F"), (17, "P")]:
        yield line(f"={deep}*.[c1 < 0]", [row(0, c1=-1)] * count + plain[count:]), wanted
    both = "(([true] | [true])* | [true]*)*"
    yield line("=" + ".".join([both] * 18) + ".[c1 < 0]", last), "P"
    yield line("=" + ".".join(["[true]*"] * 59) + ".[c1 < 0]", plain), "F"
    yield line("=([true].[true])*.[c1 < 0]", last), "F"
    yield line("=([true].[true].[true])*.[c1 < 0]", last), "P"
    numbers = [place // 3 + place * 7 % 11 for place in range(MOST_ROWS)]
    highest = ["P" if max(numbers[1:place], default=-1) < numbers[place] else "F" for place in range(1, MOST_ROWS)]
    rows = column("c1", " ".join(map(str, numbers)))
    yield line("[op = 0] | [true].[c1 < c1']*.[op = 0]", rows), "FP" + "".join(highest)


def bad_lines():
    """Lines that are no case, and rules that are refused."""
    good = row(0, c1=1)
    for rows in ["", "0", "0 ", "0 - - - - - -", "0 - - - - - - - -", "0 - - - - - - - ", " 0 - - - - - - -"]:
        yield line("_", [rows]), "bad line"
    for rows in ["0  - - - - - -", "4 - - - - - - -", "- - - - - - - -", "-1 - - - - - - -", "00 - - - - - - -"]:
        yield line("_", [rows]), "bad line"
    for field in ["1000000001", "-1000000001", "99999999999999999999", "4294967297", "x", "1x", "--1", "1.", "_", ""]:
        yield line("_", [good, f"0 - {field} - - - - -"]), "bad line"
        yield line("[", [f"0 - - - - - - {field}", good]), "bad line"
    yield line("_", [good, "", good]), "bad line"
    yield line("_", [good, ""]), "bad line"
    yield ";" + good, "refused 7 at 0"
    yield "", "refused 7 at 0"
    yield "=", "refused 7 at 0"
    yield "==_", "refused 7 at 0"
    yield "_", "P"
    yield "=_", "P"
    yield "[true]", "F"
    yield "=[true]", "F"
    yield "[true]*", "P"
    yield line("[c1 < ", [good]), "refused 7 at 6"
    yield line("[c7 = 1]", [good]), "refused 3 at 1"
    yield line("(" * 17 + "_" + ")" * 17, [good]), "refused 5 at 16"
    yield line("|".join(["[true]"] * 61), [good]), "refused 6 at 420"
    yield line("_" + "|_" * 250, [good]), "refused 4 at 500"
    yield line("=_", [row(0)] * (MOST_ROWS + 1)), "bad line"


# --- The random cases -------------------------------------------------------------------------------------------

dice = random.Random(20_241)


def a_pattern(depth):
    kind = dice.random() if depth else 1
    if kind < 0.25:
        return f"{a_pattern(depth - 1)} | {a_pattern(depth - 1)}"
    if kind < 0.6:
        return ".".join(f"({part})" if "|" in part else part for part in [a_pattern(depth - 1), a_pattern(depth - 1)])
    if kind < 0.85:
        part = a_pattern(depth - 1)
        is_base = part == "_" or part[0] == "[" and part.index("]") == len(part) - 1
        return (part if is_base else f"({part})") + dice.choice(["*", "*", "*", "**"])
    return "_" if dice.random() < 0.08 else f"[{a_claim(dice.choice([0, 0, 1, 2]))}]"


def a_claim(depth):
    kind = dice.random() if depth else dice.uniform(0.6, 1)
    if kind < 0.4:
        signs = ["and", "or", "=>"]
        return f"({a_claim(depth - 1)}) {dice.choice(signs)} ({a_claim(depth - 1)})"
    if kind < 0.6:
        return f"not ({a_claim(depth - 1)})"
    if kind < 0.68:
        return f"has {a_name()}"
    return "true" if kind < 0.72 else f"{a_sum()} {dice.choice(readings.COMPARISONS)} {a_sum()}"


def a_sum():
    terms = [dice.choice(["", "", "-"]) + a_term()]
    while dice.random() < 0.2:
        terms.append(f"{dice.choice('+-')} {a_term()}")
    return " ".join(terms)


def a_term():
    return a_name() if dice.random() < 0.7 else str(dice.randrange(3))


def a_name():
    return dice.choice(["op", "c1", "c1", "c1", "c2", "c2", dice.choice(NAMES)]) + dice.choice(["", "", "'"])


def a_row(count):
    """A row with small numbers, and missing ones."""
    likely = {"arg": 0.15, "c1": 0.9, "c2": 0.8}
    values = {name: dice.randint(-1, 2) for name in NAMES[1:] if dice.random() < likely.get(name, 0.1)}
    return row(min(count, dice.randint(1, 3)), **values)


def random_cases(count):
    """Most of them with a star, and with letters of both kinds for one row and more."""
    while count:
        case = line(a_pattern(dice.choice([1, 2, 2, 3, 3, 4])), [a_row(place) for place in range(dice.randint(0, 6))])
        if len(case) > 140 or "*" not in case and dice.random() < 0.8:
            continue
        letters = answer(case)[1:]
        if "P" in letters and "F" in letters or dice.random() < 0.02:
            yield case, None
            count -= 1


def main():
    sys.setrecursionlimit(20_000)
    parts = [stars, orders, newest, claims, comparisons, sums, stack, bad_lines, many_rows]
    lines, answers = [], []
    for case, wanted in [*(case for part in parts for case in part()), *random_cases(1_000)]:
        got = answer(case)
        assert wanted in [None, got], (case[:400], wanted, got)
        lines.append(case + "\n")
        answers.append(got + "\n")
    assert not any("\n" in case[:-1] for case in lines)
    assert sum(map(len, lines)) < 250_000, sum(map(len, lines))
    FOLDER.joinpath("stdin").write_text("".join(lines), "latin-1")
    FOLDER.joinpath("stdout").write_text("".join(answers), "ascii")


if __name__ == "__main__":
    main()
