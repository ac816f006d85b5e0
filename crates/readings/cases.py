#!/usr/bin/env python3
"""Writes the files stdin and stdout beside this one: a table of rule texts, and the answers to them.

The answers come from the reader of rule texts below, which shares no code with the crates. A line of stdin is a
watch number, a space and a text. One place for a rule takes the cases in turn, and at first holds `[true]` under
watch 1.
"""

import itertools
import pathlib
import random
import re
import sys

# --- The reader -------------------------------------------------------------------------------------------------

LEXEME = re.compile(rb"(?P<number>[0-9]+)|(?P<word>[A-Za-z][A-Za-z0-9]*)|=>|<>|<=|>=|[]\[()|.*_'+=<>-]")
NAMES = ["op", "arg", "c1", "c2", "c3", "c4", "c5", "c6"]
WORDS = NAMES + ["and", "or", "not", "has", "true"]
COMPARISONS = ["=", "<>", "<", "<=", ">", ">="]
SIGNS = ["+", "-"]


class Refused(Exception):
    """A text is refused, by a number and at a place."""


def tokens_of(text):
    """The tokens of a text, each with its place; refusal 3."""
    found, place = [], 0
    while place < len(text):
        if text[place] == 32:
            place += 1
            continue
        lexeme = LEXEME.match(text, place)
        if lexeme is None:
            raise Refused(3, place)
        token = lexeme.group().decode()
        if lexeme["word"] and token not in WORDS or lexeme["number"] and int(token) > 1_000_000_000:
            raise Refused(3, place)
        found.append((token, place))
        place = lexeme.end()
    return found


def check_limits(tokens):
    """Refusals 4 to 6, each over all tokens before the next is tried."""
    if len(tokens) > 500:
        raise Refused(4, tokens[500][1])
    depth = 0
    for token, place in tokens:
        depth += {"(": 1, ")": -1}.get(token, 0)
        if token == "(" and depth > 16:
            raise Refused(5, place)
    claims = [place for token, place in tokens if token == "["]
    if len(claims) > 60:
        raise Refused(6, claims[60])


class Reader:
    """Recursive descent with one token of look-ahead; each method gives the canonical form of what it read."""

    def __init__(self, tokens, length):
        self.tokens = tokens + [("", length)]
        self.next = 0

    def sees(self, wanted):
        return self.tokens[self.next][0] in wanted

    def take(self, wanted):
        """The next token, if it is one of the wanted ones; refusal 7."""
        token, place = self.tokens[self.next]
        if token not in wanted:
            raise Refused(7, place)
        self.next += 1
        return token

    def joined(self, sign, part):
        """Parts joined by a sign, grouped from the left."""
        form = part()
        while self.sees([sign]):
            self.take([sign])
            form = f"({form} {sign} {part()})"
        return form

    def text(self):
        form = self.rule()
        self.take([""])
        return form

    def rule(self):
        return self.joined("|", lambda: self.joined(".", self.piece))

    def piece(self):
        form = self.base()
        while self.sees(["*"]):
            form += self.take(["*"])
        return form

    def base(self):
        first = self.take(["_", "(", "["])
        if first == "_":
            return first
        form = self.rule() if first == "(" else f"[{self.claim()}]"
        self.take([")"] if first == "(" else ["]"])
        return form

    def claim(self):
        form = self.either()
        if self.sees(["=>"]):
            self.take(["=>"])
            form = f"({form} => {self.either()})"
        return form

    def either(self):
        return self.joined("or", lambda: self.joined("and", self.single))

    def single(self):
        if not self.sees(["not", "(", "true", "has"]):
            return f"{self.sum()} {self.take(COMPARISONS)} {self.sum()}"
        first = self.take(["not", "(", "true", "has"])
        if first == "true":
            return first
        if first == "not":
            return f"not {self.single()}"
        if first == "has":
            return f"has {self.name()}"
        form = self.claim()
        self.take([")"])
        return form

    def sum(self):
        form = self.take(["-"]) if self.sees(["-"]) else ""
        form += self.term()
        for _ in range(7):
            if self.sees(SIGNS):
                form += f" {self.take(SIGNS)} {self.term()}"
        return form

    def term(self):
        token = self.tokens[self.next][0]
        return str(int(self.take([token]))) if token.isdigit() else self.name()

    def name(self):
        form = self.take(NAMES)
        return form + self.take(["'"]) if self.sees(["'"]) else form


def read(watch, text):
    """The counts of tokens and claims of a text and its canonical form, or a refusal: the lowest number that fits."""
    if not 1 <= watch <= 65_535:
        raise Refused(1, 0)
    if len(text) > 4_096:
        raise Refused(2, 0)
    tokens = tokens_of(text)
    check_limits(tokens)
    form = Reader(tokens, len(text)).text()
    again = form.encode()
    assert Reader(tokens_of(again), len(again)).text() == form, "a canonical form is its own canonical form"
    return len(tokens), sum(token == "[" for token, _ in tokens), form


def answers(cases):
    """The answer lines, of one place that takes the cases in turn; each is what the case wants."""
    holds = "1: [true]"
    for watch, text, wanted in cases:
        try:
            tokens, claims, form = read(watch, text)
            got, holds = ("read", form), f"{watch}: {form}"
            yield f"read {watch}: {tokens} tokens, {claims} claims, {form}"
        except Refused as refused:
            got = refused.args
            yield f"refused {got[0]} at {got[1]}; holds {holds}"
        assert got[: len(wanted)] == wanted, (watch, text, wanted, got)


# --- The cases that are written out: a text, and what is wanted of it (the beginning of what it gives) ----------

def limits():
    """Just within each limit and just past it."""
    yield "(" * 16 + "_" + ")" * 16, ("read", "_")
    yield "(" * 17 + "_" + ")" * 17, (5, 16)
    yield "[" + "(" * 16 + "true" + ")" * 16 + "]", ("read", "[true]")
    yield "(" * 9 + "[" + "(" * 8 + "true" + ")" * 8 + "]" + ")" * 9, (5, 17)
    yield "(_)." * 20 + "(_)", ("read",)
    yield "|".join(["[true]"] * 60), ("read",)
    yield "|".join(["[true]"] * 61), (6, 420)
    yield "[" * 60, (7, 1)
    yield "[" * 61, (6, 60)
    yield "_" + " " * 4_095, ("read", "_")
    yield "_" + " " * 4_096, (2, 0)
    yield "[c1 = " + "1".rjust(4_089, "0") + "]", ("read", "[c1 = 1]")
    yield "_*" + "|_" * 249, ("read",)
    yield "_" + "|_" * 250, (4, 500)
    yield "_" + " | _" * 250 + " |", (4, 1_000)
    yield "_" + "|_" * 250 + "|_ ?", (3, 504)
    yield "[" + "not " * 497 + "true]", ("read", "[" + "not " * 497 + "true]")
    yield "[1000000000 = c1]", ("read", "[1000000000 = c1]")
    yield "[1000000001 = c1]", (3, 1)
    yield "[c1 < 0001000000000]", ("read", "[c1 < 1000000000]")
    for number in ["0001000000001", "4294967297", "18446744073709551617"]:
        yield f"[c1 < {number}]", (3, 6)
    yield "[c1 = " + "0" * 1_000 + "]", ("read", "[c1 = 0]")
    for long in ["1+2-3+4-5+6-7+8", "-1+2-3+4-5+6-7+8"]:
        form = long.replace("+", " + ").replace("-", " - ").replace(" - ", "-", long[0] == "-")
        yield f"[{long} = {long}]", ("read", f"[{form} = {form}]")
        for sign in SIGNS:
            yield f"[{long}{sign}9 = 1]", (7, 1 + len(long))
            yield f"[1 = {long}{sign}9]", (7, 5 + len(long))
            yield f"[{long} = {long}{sign}9]", (7, 4 + 2 * len(long))


def spellings():
    """How texts are cut into tokens, and where they stop to fit."""
    yield "[true => true => true]", (7, 14)
    yield "[c1=1=>c1=2=>true]", (7, 11)
    yield "[(true => true => true) => true]", (7, 15)
    yield "[true => (true => true)]", ("read", "[(true => (true => true))]")
    yield "[(true => true) => true]", ("read", "[((true => true) => true)]")
    yield "[c1 < = 1]", (7, 6)
    yield "[true = > true]", (7, 6)
    yield "[1c1 = 2]", (7, 2)
    yield "[12ab = 1]", (3, 3)
    for word in ["c12 = 1", "nottrue", "C1 = 1", "c7 = 1", "c0 = 1", "c = 1", "True", "o = 1", "args = 1", "x"]:
        yield f"[{word}]", (3, 1)
    yield "[c1_=1]", (7, 3)
    yield "[1000000001or]", (3, 1)
    yield "[c1=1andc2=2]", (3, 5)
    yield "[c1=1and c2=2]", ("read", "[(c1 = 1 and c2 = 2)]")
    yield "[c1=1and not(true)or(has op)]", ("read", "[((c1 = 1 and not true) or has op)]")
    yield "  [ c1  '=  -  007 ]  *  ", ("read", "[c1' = -7]*")
    yield "   ", (7, 3)
    yield "[c1 ", (7, 4)
    yield "", (7, 0)
    yield "[c1]", (7, 3)
    for byte in "\t\r\0\x1f\x7f\x80\xa0\xe9\xff!\"#$%&,/:;?@\\^`{}~":
        yield byte + "_", (3, 0)
        yield f"[c1{byte} = 1]", (3, 3)
    yield ")" * 5 + "(" * 21, (7, 0)
    yield ")" * 5 + "(" * 22, (5, 26)


def trees():
    """Which tree a text has."""
    for sign in COMPARISONS:
        yield f"[c1{sign}1]", ("read", f"[c1 {sign} 1]")
        yield f"[ -op' {sign} -arg ]", ("read", f"[-op' {sign} -arg]")
    yield "[true=>true]", ("read", "[(true => true)]")
    for name in NAMES:
        yield f"[{name}'={name}]", ("read", f"[{name}' = {name}]")
        yield f"[has {name}' or has {name}]", ("read", f"[(has {name}' or has {name})]")
    yield "[true]***", ("read", "[true]***")
    yield "(_|_)*.(_*)*", ("read", "((_ | _)* . _**)")
    yield "_|_|_*|_", ("read", "(((_ | _) | _*) | _)")
    yield "_._.[true]._", ("read", "(((_ . _) . [true]) . _)")
    yield "_._|_.(_|_)._", ("read", "((_ . _) | ((_ . (_ | _)) . _))")
    yield "_|(_|_)", ("read", "(_ | (_ | _))")
    yield "[true or true or has c1 or true]", ("read", "[(((true or true) or has c1) or true)]")
    yield "[true and true and has c1 and true]", ("read", "[(((true and true) and has c1) and true)]")
    yield "[true or true and not true or true]", ("read", "[((true or (true and not true)) or true)]")
    yield "[(true or true) and true]", ("read", "[((true or true) and true)]")
    yield "[true or true => has op and true]", ("read", "[((true or true) => (has op and true))]")
    yield "[-1+c2-c3'-0+5<>op-arg+2]", ("read", "[-1 + c2 - c3' - 0 + 5 <> op - arg + 2]")
    yield "[not not true]", ("read", "[not not true]")
    yield "[not c1=1 and c2=2]", ("read", "[(not c1 = 1 and c2 = 2)]")
    yield "[not (true and true) and true]", ("read", "[(not (true and true) and true)]")
    yield "[has c1']", ("read", "[has c1']")
    yield "_", ("read", "_")


UNFINISHED = """
    _| _. ( (_ (_| [ [true [(true)or [(true)and [true=> [not [has [- [c1 [c1' [c1= [c1+ [c1- [c1=- [c1=1 [c1=1+ [(
    [(true [(true)
"""

# The mark `#` stands for a space, and the next byte is the first that does not fit.
MISFITS = """
    #|_ #._ #* #) #] #true #c1 #1 #' #- #= #=> #and _|#| _|#. _|#* _.#| _.#) _|#] _#_ _#( _#[true] _*#_ _#) _#] _#or
    _#= _#' (#) (_#] (_)#(_) (_)#) (_#[ [#] [#) [#[ [#_ [#. [#* [#+ [#' [#and [#or [#=> [#= [true#) [true#[ [true#|
    [true#. [true#* [true#' [true#= [true#+ [true#true [true#not [true#( [true]#[ [true]#] [true]#true [(true)or#]
    [(true)and#] [true=>#] [not#] [not#= [not#and [has#] [has#1 [has#- [has#true [has#( [has#has [-#- [1#' [1#2=3]
    [c1'#' [c1+#- [c1-#+ [c1-#= [c1=#] [c1=#= [c1=#+ [c1=-#- [c1=1#= [c1=1#c2 [c1=1#' [c1#and [c1#) [c1#] [c1#=>
    [c1=#true [(#) [(#] [(c1#) [(c1=1)#= [(c1=1)#+ [(true#] [(true)#( [(true)#* [(#_ [1#( [1+#( [1=#( [c1<>#=1]
    [true=>#=1] [c1<=#>1] [c1=#=1] [c1=#<1] [c1>#<1] [c1>=#>1] [c1<#<>1]
"""


def misfits():
    """Rules that break off, and tokens with which no rule goes on."""
    for text in UNFINISHED.split():
        yield text, (7, len(text))
    for marked in MISFITS.split():
        yield marked.replace("#", " "), (7, marked.index("#") + 1)
    for run, place in [("c1<>=1", 5), ("true=>=1", 7), ("c1<=>1", 5), ("c1=>1", 3), ("c1=>=>1", 3), ("1=1=>=>true", 6)]:
        yield f"[{run}]", (7, place)


def several_faults():
    """Texts with faults of several kinds: each two, in both orders where they have one, and more."""
    faults = {3: "?", 4: "_" + "|_" * 250, 5: "(" * 17 + "_" + ")" * 17, 6: "|".join(["[true]"] * 61), 7: "_ _"}
    pairs = [pair for pair in itertools.permutations(range(1, 8), 2) if pair[0] < pair[1] or min(pair) > 2]
    for kinds in pairs + [range(least, 8) for least in range(1, 6)]:
        text = "|".join(faults.get(kind, "_") for kind in kinds)
        yield 0 if 1 in kinds else 7, text.ljust(4_097) if 2 in kinds else text, (min(kinds),)


def written_out():
    """All cases above, each with a watch number."""
    for watch, (text, wanted) in enumerate([*limits(), *spellings()], 2):
        yield watch, text, wanted
    for watch in [1, 65_535]:
        yield watch, "[c1 = 1]", ("read", "[c1 = 1]")
    for watch in [-1, 0, 65_536, -2_147_483_648, 2_147_483_647]:
        yield watch, "[c1 = 2]", (1, 0)
    yield from several_faults()
    for watch, (text, wanted) in enumerate([*trees(), *misfits()], 1_001):
        yield watch, text, wanted


# --- The random cases -------------------------------------------------------------------------------------------

dice = random.Random(20_240)


def a_run(part, signs, depth, more=0.25):
    """Parts joined by signs, as tokens."""
    tokens = part(depth)
    while dice.random() < more:
        tokens = tokens + [dice.choice(signs)] + part(depth)
    return tokens


def a_rule(depth):
    return a_run(a_piece, ["|", "."], depth)


def a_piece(depth):
    kind = dice.random()
    if kind < 0.2:
        base = ["_"]
    elif kind < 0.5 and depth > 0:
        base = ["(", *a_rule(depth - 1), ")"]
    else:
        base = ["[", *a_run(a_junction, ["=>"], depth, 0.15), "]"]
    return base + ["*"] * dice.choice([0, 0, 0, 1, 2])


def a_junction(depth):
    return a_run(a_single, ["and", "or"], depth)


def a_single(depth):
    kind = dice.choice(["not", "(", "true", "has", "sums", "sums", "sums"])
    if kind == "not":
        return ["not", *a_single(depth)]
    if kind == "(" and depth > 0:
        return ["(", *a_run(a_junction, ["=>"], depth - 1, 0.15), ")"]
    if kind == "has":
        return ["has", *a_name()]
    return [*a_sum(), dice.choice(COMPARISONS), *a_sum()] if kind == "sums" else ["true"]


def a_sum(more=0.3):
    return ["-"] * dice.choice([0, 0, 1]) + a_run(a_term, SIGNS, 0, more)


def a_term(_depth):
    number = dice.choice([dice.randrange(10), dice.randrange(1_000), dice.randrange(1_000_000_001)])
    return dice.choice([a_name(), [str(number).zfill(dice.choice([1, 1, 4]))]])


def a_name():
    return [dice.choice(NAMES)] + ["'"] * dice.choice([0, 0, 1])


def near_limits():
    """A rule near one of the limits, on either side."""
    depth, claims, tokens = dice.randint(15, 18), dice.randint(58, 62), dice.randint(497, 503)
    rule = a_rule(1)
    match dice.randrange(5):
        case 0:
            return ["("] * depth + rule + [")"] * depth
        case 1:
            return ["[", *"(" * depth, *a_single(0), *")" * depth, "]"]
        case 2:
            return [token for _ in range(claims) for token in [dice.choice("|."), "[", "has", *a_name(), "]"]][1:]
        case 3:
            while len(rule) < tokens - 20:
                rule += [dice.choice("|."), *a_piece(1)]
            return rule + ["*"] * (tokens - len(rule))
    return ["[", *a_sum(0.87), dice.choice(COMPARISONS), *a_sum(0.87), "]"]


def spaced(tokens):
    """Tokens as a text: spaces as wished, and where two would run together."""
    most = dice.choice([0, 0, 1, 2])
    text, last = "", ""
    for token in tokens:
        meets = last.isalnum() and token.isalnum() and (last[0].isalpha() or token[0].isdigit())
        text += " " * max(meets, dice.randint(0, most)) + token
        last = token
    return text + " " * dice.randint(0, most)


def damaged(tokens):
    """A text of these tokens, with two of them swapped or a byte changed, dropped or doubled."""
    tokens = list(tokens)
    way = dice.randrange(4)
    if way == 0:
        one, other = dice.randrange(len(tokens)), dice.randrange(len(tokens))
        tokens[one], tokens[other] = tokens[other], tokens[one]
    text = spaced(tokens)
    at = dice.randrange(len(text))
    byte = dice.choice([dice.choice(" []()|.*_'+-=<>01acdnort"), chr(dice.choice([*range(10), *range(11, 256)]))])
    return [text, text[:at] + byte + text[at + 1 :], text[:at] + text[at + 1 :], text[: at + 1] + text[at:]][way]


def a_soup():
    """Tokens in any order, and now and then what is none."""
    odd = [dice.choice(["1000000001", "c7", "Op", "#", "\t", "\xff"])] if dice.random() < 0.2 else []
    common = [*"[]()|.*_'+-=<>07", "=>", "<>", "<=", ">=", *WORDS]
    return spaced(dice.choices(common + odd, k=dice.randint(1, 12)))


def random_cases(count):
    for number in range(count):
        tokens = near_limits() if number % 25 == 0 else a_rule(dice.randrange(4))
        kind = number % 10
        text = spaced(tokens) if kind < 4 else damaged(tokens) if kind < 9 else a_soup()
        if number % 400 == 75:
            text = text.ljust(dice.randint(4_095, 4_098))
        watch = dice.choice([-7, 0, 65_536, 70_000]) if dice.random() < 0.02 else dice.randint(1, 65_535)
        yield watch, text, ()


def main():
    sys.setrecursionlimit(20_000)
    cases = [(watch, text.encode("latin-1"), wanted) for watch, text, wanted in [*written_out(), *random_cases(800)]]
    assert not any(b"\n" in text for _, text, _ in cases)
    folder = pathlib.Path(__file__).parent
    lines = b"".join(b"%d %s\n" % (watch, text) for watch, text, _ in cases)
    assert len(lines) < 150_000, len(lines)
    folder.joinpath("stdin").write_bytes(lines)
    folder.joinpath("stdout").write_text("".join(line + "\n" for line in answers(cases)), "ascii")


if __name__ == "__main__":
    main()
