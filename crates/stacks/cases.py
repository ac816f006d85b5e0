#!/usr/bin/env python3
"""Writes the files stdin and stdout beside this one: a table of cases for piles of watches, and the answers to them.

The answers come from the engines and the ledger below, which share no code with the crates: a pile is one engine, a list of
watches and one list of rows, with nothing nested. Rules are read and tried by the programs in Python beside `readings` and
`trials`, and the days are those of `days`.

A line of stdin is an engine, calls, and up to three watches, the innermost first, with a `;` between them. An engine is
`calendar`, `file` and the words of a column file, or `halting` with the count of orders at which it halts and the watch, the
row and the rise of its fault. A call is `o` (open) or `s` (skip) and an argument, `t` (turn), one of these after `?` (what
would be answered), or `c` and a column (show). A watch is a number, a space and a rule's text.

The answer has the replies of the pile in one line and those of the reversed stacking in the next: the number, and after it
the value shown, as `0=5` or `0=-`, or the watch, the row and the rise of a fault, as `20(7,3,0)`.
"""

import importlib.util
import itertools
import pathlib
import random
import sys

sys.dont_write_bytecode = True
FOLDER = pathlib.Path(__file__).resolve().parent


def script(crate, name):
    spec = importlib.util.spec_from_file_location(crate, FOLDER.parent / crate / name)
    module = importlib.util.module_from_spec(spec)
    spec.loader.exec_module(module)
    return module


trials = script("trials", "cases.py")
readings = trials.readings
DATES = list(script("days", "table.py").dates())

COLUMNS = ["c1", "c2", "c3", "c4", "c5", "c6"]
MOST = 1_000_000_000
LOWEST, HIGHEST = -(2**31), 2**31 - 1
MISSING = LOWEST
MOST_ROWS = 400
NO_COLUMN, BAD_ARGUMENT, PAST_THE_END, HALTED, FULL = 11, 12, 13, 20, 21

# --- Engines ----------------------------------------------------------------------------------------------------


class Refused(Exception):
    """A column file is refused, by a number and at a place."""


class Places:
    """An engine that stands at one of the places 1, 2, .. and never halts."""

    fault = None

    def __init__(self, last):
        self.last, self.place = last, 1

    def target(self, kind, argument):
        """Where an order leads; past the last place too. None where the argument is out of range."""
        if kind == "o":
            return self.opening(argument)
        if kind == "s" and argument not in range(1, 401):
            return None
        return self.place + (1 if kind == "t" else argument)

    def refusal(self, kind, argument):
        target = self.target(kind, argument)
        return BAD_ARGUMENT if target is None else PAST_THE_END if target > self.last else 0

    def take(self, kind, argument):
        self.place = self.target(kind, argument)


class Calendar(Places):
    def __init__(self):
        super().__init__(len(DATES))

    def opening(self, year):
        return 1 + DATES.index((year, 1, 1, 30)) if year in range(1, 31) else None

    def values(self):
        return [self.place, *DATES[self.place - 1], None]


class File(Places):
    def __init__(self, words):
        if len(words) < 2 or words[0] not in range(1, 7) or words[1] not in range(1, 20_001) or len(words) < 2 + words[0]:
            raise Refused(16, 0)
        count, rows = words[:2]
        self.columns = []
        for place in range(2, 2 + count):
            if words[place] < 2 + count or words[place] + rows > len(words):
                raise Refused(17, place)
            self.columns.append(range(words[place], words[place] + rows))
        for place in itertools.chain(*self.columns):
            if abs(words[place]) > MOST and words[place] != MISSING:
                raise Refused(18, place)
        super().__init__(rows)
        self.words = words

    def opening(self, row):
        return row if row in range(1, self.last + 1) else None

    def values(self):
        shown = [self.words[column[self.place - 1]] for column in self.columns]
        return [None if word == MISSING else word for word in shown] + [None] * (6 - len(shown))


class Halting:
    """Takes every order, counts them, and halts at the one that a limit names; at limit 0 it is halted from the start."""

    def __init__(self, limit, *fault):
        self.limit, self.own, self.count = limit, fault, 0

    @property
    def fault(self):
        return self.own if self.count == self.limit else None

    def refusal(self, kind, argument):
        return 0

    def take(self, kind, argument):
        self.count += 1

    def values(self):
        return [self.count, None, None, None, None, None]


def engine_of(text):
    name, *numbers = text.split()
    numbers = [int(number) for number in numbers]
    return {"calendar": Calendar, "halting": Halting, "file": lambda *words: File(words)}[name](*numbers)


# --- The ledger of a pile ---------------------------------------------------------------------------------------


class Pile:
    """An engine and watches over it, the innermost first, each a number and the tree of a rule."""

    def __init__(self, engine, watches):
        self.engine, self.watches = engine, watches
        self.rows, self.fault = [], None
        self.enter(0, None)

    def enter(self, op, argument):
        """What comes of making, or of an order that the engine has taken."""
        if self.engine.fault:
            watch, row, rise = self.engine.fault
            self.fault = watch, row, min(255, rise + len(self.watches))
            return
        is_value = argument is not None and abs(argument) <= MOST
        row = dict(zip(readings.NAMES, [op, argument if is_value else None, *self.engine.values()], strict=True))
        self.rows.append(row)
        failing = [place for place, (_, tree) in enumerate(self.watches) if trials.letter(tree, self.rows) == "F"]
        if failing:
            innermost = failing[0]
            self.fault = self.watches[innermost][0], len(self.rows) - 1, len(self.watches) - 1 - innermost

    def halted(self):
        return "{}({},{},{})".format(HALTED, *self.fault)

    def foretold(self, kind, argument):
        if self.fault:
            return self.halted()
        if self.watches and len(self.rows) == MOST_ROWS:
            return str(FULL)
        return str(self.engine.refusal(kind, argument))

    def give(self, kind, argument):
        answer = self.foretold(kind, argument)
        if answer == "0":
            self.engine.take(kind, argument)
            self.enter(1 + "ots".index(kind), argument)
        return self.halted() if self.fault else answer

    def show(self, column):
        if self.fault:
            return self.halted()
        if column not in range(1, 7):
            return str(NO_COLUMN)
        value = self.engine.values()[column - 1]
        return "0=-" if value is None else f"0={value}"

    def reply(self, call):
        kind = call.removeprefix("?")[0]
        argument = call.removeprefix("?")[1:]
        argument = int(argument) if argument else None
        if kind == "c":
            return self.show(argument)
        return self.foretold(kind, argument) if call.startswith("?") else self.give(kind, argument)


def answer(line):
    """The answer to a line: its lines."""
    engine, calls, *watches = line.split(";")
    try:
        engine_of(engine)
        watches = [(int(number), text) for number, text in (watch.split(" ", 1) for watch in watches)]
        for number, text in watches:
            readings.read(number, text.encode())
        watches = [(number, trials.tree_of(text.encode())) for number, text in watches]
        piles = {"pile": Pile(engine_of(engine), watches), "twin": Pile(engine_of(engine), watches[::-1])}
    except Refused as refused:
        return ["file refused {} at {}".format(*refused.args)]
    except readings.Refused as refused:
        return ["rule refused {} at {}".format(*refused.args)]
    return [" ".join([name, *(pile.reply(call) for call in calls.split())]) for name, pile in piles.items()]


# --- The cases that are written out: an engine, calls, the watches, and what is wanted of each pile -------------


def case(engine, calls, *watches, pile, twin=None):
    """A case, and the answer wanted; both piles are to answer the same where only one answer is given."""
    return ";".join([engine, calls, *watches]), [f"pile {pile}".rstrip(), f"twin {twin or pile}".rstrip()]


def refused(engine, calls, *watches, wanted):
    return ";".join([engine, calls, *watches]), [wanted]


def arguments():
    """The edges of arguments and columns, on a bare engine and under a watch."""
    for watches in [[], ["1 [true]"]]:
        yield case("calendar", "s401 s0 s-1 c1 s1 c1 s400 c1", *watches, pile="12 12 12 0=1 0 0=2 0 0=402")
        yield case("calendar", "?s401 ?s0 ?s1 ?s400 ?t c1", *watches, pile="12 12 0 0 0 0=1")
        yield case("calendar", f"s{LOWEST} s{HIGHEST} ?s{LOWEST} ?s{HIGHEST}", *watches, pile="12 12 12 12")
        yield case("calendar", "o0 o31 o-1 c1 o30 c1 c2 o1 c1 c2", *watches, pile="12 12 12 0=1 0 0=10278 0=30 0 0=1 0=1")
        yield case("calendar", f"o{LOWEST} o{HIGHEST} o2 c1 o3 c1", *watches, pile="12 12 0 0=355 0 0=710")
        yield case("calendar", f"?o0 ?o1 ?o30 ?o31 ?o-1 ?o{LOWEST} ?o{HIGHEST} c1", *watches, pile="12 0 0 12 12 12 12 0=1")
        yield case("calendar", "c0 c1 c2 c3 c4 c5 c6 c7 c-1", *watches, pile="11 0=1 0=1 0=1 0=1 0=30 0=- 11 11")
        yield case("calendar", f"c{HIGHEST} c{LOWEST} c{2**16 + 1} c-6", *watches, pile="11 11 11 11")
        # the last day, and skips that come to it and past it
        last = "0=10631 0=30 0=12 0=29 0=29"
        yield case("calendar", "o29 s308 c1 ?s400 s400 c1 c2 c3 c4 c5", *watches, pile=f"0 0 0=10231 0 0 {last}")
        yield case("calendar", "o29 s309 c1 ?s400 s400 c1 s399 c1", *watches, pile="0 0 0=10232 13 13 0=10232 0 0=10631")
        yield case("calendar", "o30 s354 s353 c1 t ?t t c1", *watches, pile="0 13 0 0=10631 13 13 13 0=10631")
        yield case("calendar", "o30 s353 s1 s400 s401 s0 ?s1 ?s401 o1 c1", *watches, pile="0 0 13 13 12 12 13 12 0 0=1")
        yield case("calendar", "", *watches, pile="")


def questions():
    """Questions change nothing, and refused orders add no row."""
    calls = "?t ?o5 ?s7 c1 t ?t c1 o0 s0 s401 t c1"
    yield case("calendar", calls, pile="0 0 0 0=1 0 0 0=2 12 12 12 0 0=3")
    yield case("calendar", calls, "8 [true].[true] | [op = 0]", pile="0 0 0 0=1 0 0 0=2 12 12 12 0 0=3")
    # three rows at most, of which refused orders make none
    three = "8 [op = 0] | [true].[op = 0] | [true].[true].[op = 0]"
    yield case("calendar", "o0 t s0 ?t s401 t o31 c1 ?t t", three, pile="12 0 12 0 12 0 12 0=3 0 20(8,3,0)")


def rows():
    """What rows hold: op, arg and the columns."""
    led = "3 [op = 0 and not has arg] | [op = 1 and c2 = arg]"
    led += " | [op = 2 and not has arg].[c1 + 1 = c1'] | [op = 3].[c1 + arg' = c1']"
    yield case("calendar", "t s5 o30 t s353 t o1 c1", led, pile="0 0 0 0 13 0 0 0=1")
    yield case("calendar", "t s5 o30 t s352 t o1 c1", led, pile="0 0 0 0 0 13 0 0=1")
    for op, calls in enumerate(["c1", "o1", "t", "s1"]):
        for other in range(4):
            fails = op == other or other == 0
            fault = f"20(4,{0 if other == 0 else 1},0)"
            yield case("halting 9 0 0 0", calls, f"4 [op <> {other}]", pile=fault if fails else "0=0" if op == 0 else "0")
    # an argument that no value may have is missing
    kept = "4 [op = 0] | [has arg]"
    for argument in [MOST, -MOST, 0, 1, -1]:
        for kind in "os":
            yield case("halting 9 0 0 0", f"{kind}{argument} c1", kept, pile="0 0=1")
            exact = f"4 [op = 0] | [arg = {'-' if argument < 0 else ''}{abs(argument)}]"
            yield case("halting 9 0 0 0", f"{kind}{argument} c1", exact, pile="0 0=1")
    for argument in [MOST + 1, -MOST - 1, LOWEST, HIGHEST]:
        for kind in "os":
            yield case("halting 9 0 0 0", f"{kind}{argument} c1", kept, pile="20(4,1,0) 20(4,1,0)")
    yield case("halting 9 0 0 0", "t c1", kept, pile="20(4,1,0) 20(4,1,0)")
    shown = "4 [has c1 and not has c2 and not has c6]"
    yield case("halting 9 0 0 0", "c1 c2 c3 c4 c5 c6 c7", shown, pile="0=0 0=- 0=- 0=- 0=- 0=- 11")


def full():
    """The row that fills a watch, and the order after it."""
    orders = " ".join(["t"] * 399)
    taken = " ".join(["0"] * 399)
    after = "t ?t c1 c7 ?s401 s401 o0 o1 ?o1"
    for count in [1, 2, 3]:
        watches = [f"{number} [true]" for number in range(1, count + 1)]
        yield case("calendar", f"{orders} {after}", *watches, pile=f"{taken} 21 21 0=400 11 21 21 21 21 21")
    yield case("calendar", f"{orders} {after}", pile=f"{taken} 0 0 0=401 11 12 12 12 0 0")
    # refused orders fill no watch; at the end of the calendar, what is full comes before what is past the end
    refusals = " ".join(["s0 o31 s401"] * 30)
    twelves = " ".join(["12"] * 90)
    yield case("calendar", f"{refusals} {orders} t c1", "1 [true]", pile=f"{twelves} {taken} 21 0=400")
    ending = " ".join(["o30 s353"] * 199)
    yield case("calendar", f"{ending} ?t t s400 o1 t ?t c1", "1 [true]", pile=f"{taken[2:]} 13 13 13 0 21 21 0=1")
    # one row fewer
    yield case("calendar", f"{orders[2:]} ?t t ?t t", "1 [true]", pile=f"{taken[2:]} 0 0 21 21")
    # a fault at the last row there is room for: the fault comes before the full watch
    inner, outer = (" ".join([taken[2:], *[f"20(2,399,{rise})"] * 4]) for rise in [1, 0])
    fails = "2 [c1 < 400]"
    yield case("calendar", f"{orders} ?t t c1", fails, pile=outer)
    yield case("calendar", f"{orders} ?t t c1", fails, "3 [true]", pile=inner, twin=outer)
    yield case("calendar", f"{orders} t", "2 [c1 < 401]", pile=f"{taken} 21")
    # an engine that would halt at the order that is refused, and one that halts at the order before
    yield case("halting 400 0 9 0", f"{orders} ?t t c1", "1 [true]", "2 [true]", pile=f"{taken} 21 21 0=399")
    yield case("halting 400 0 9 0", f"{orders} ?t t c1", pile=f"{taken} 0 20(0,9,0) 20(0,9,0)")
    yield case("halting 399 0 9 0", f"{orders} ?t t c1", "1 [true]", pile=" ".join([taken[2:], *["20(0,9,1)"] * 4]))
    # all rows count, the oldest too
    yield case("calendar", f"{orders} t", "1 [true]*.[op = 0]", "2 [c1 <= c1']*.[c1 = 1]", pile=f"{taken} 21")
    yield case("calendar", f"o2 {orders[2:]} t", "1 [c1 <= c1' and op > 0]*.[op = 0 and c1 = 1]", pile=f"{taken} 21")


def own_faults():
    """Faults of the engine itself, which rise by one at each watch and stay at 255."""
    all_true = ["1 [true]", "2 [true]", "3 [true]"]
    for rise in [0, 1, 251, 252, 253, 254, 255]:
        for count in range(4):
            watches, faults = all_true[:count], " ".join([f"20(0,77,{min(255, rise + count)})"] * 6)
            yield case(f"halting 2 0 77 {rise}", "c1 t ?t c1 t c1 t ?t ?s0 o1", *watches, pile=f"0=0 0 0 0=1 {faults}")
            yield case(f"halting 0 0 77 {rise}", "c1 c9 t ?t s401 o0", *watches, pile=faults)
    yield case("halting 1 0 0 254", "t c1", *all_true, pile="20(0,0,255) 20(0,0,255)")
    yield case("halting 1 0 0 0", "t c1", *all_true, pile="20(0,0,3) 20(0,0,3)")
    yield case("halting 1 65535 4294967295 255", "t c1", *all_true, pile="20(65535,4294967295,255) 20(65535,4294967295,255)")
    # a halted engine comes before a rule that fails at all rows, and a rule that failed earlier before a halting engine
    yield case("halting 0 0 5 0", "c1 t", "6 [not true]", "7 [not true]", pile="20(0,5,2) 20(0,5,2)")
    yield case("halting 2 0 5 0", "t t t", "6 [c1 < 2]", "7 [c1 < 2]", pile="0 20(0,5,2) 20(0,5,2)")
    pile, twin = "20(6,1,1) 20(6,1,1) 20(6,1,1)", "20(6,1,0) 20(6,1,0) 20(6,1,0)"
    yield case("halting 2 0 5 0", "t t t", "6 [c1 < 1]", "7 [c1 < 2]", pile=pile, twin=twin)
    # whatever the arguments are
    yield case("halting 4 0 5 9", f"o{LOWEST} s{HIGHEST} ?o0 s0 c1 t", "6 [true]", pile="0 0 0 0 0=3 20(0,5,10)")


def same_row():
    """Every set of watches out of two and of three that fail at making, and at row 2."""
    calls, live = "c1 t c1 t c1 t ?t", ["0=1", "0", "0=2", "0", "0=3", "0", "0"]
    for fails, row, lived in [("[not true]", 0, live[:0]), ("[c1 < 3]", 2, live[:3])]:
        for failing in [one for count in [1, 2, 3] for one in itertools.product([False, True], repeat=count)]:
            watches = [f"{10 + place} {fails if is_failing else '[true]'}" for place, is_failing in enumerate(failing)]
            if not any(failing):
                yield case("calendar", calls, *watches, pile=" ".join(live))
                continue
            low = failing.index(True)
            high = max(place for place, is_failing in enumerate(failing) if is_failing)
            pile = lived + [f"20({10 + low},{row},{len(failing) - 1 - low})"] * (7 - len(lived))
            twin = lived + [f"20({10 + high},{row},{high})"] * (7 - len(lived))
            yield case("calendar", calls, *watches, pile=" ".join(pile), twin=" ".join(twin))
    # the same, written out
    yield case("calendar", "t t", "5 [true]", "6 [c1 < 3]", "7 [c1 < 3]", pile="0 20(6,2,1)", twin="0 20(7,2,2)")
    yield case("calendar", "t t", "5 [c1 < 3]", "6 [true]", "7 [c1 < 3]", pile="0 20(5,2,2)", twin="0 20(7,2,2)")
    yield case("calendar", "t t", "5 [c1 < 3]", "6 [c1 < 2]", "7 [c1 < 3]", pile="20(6,1,1) 20(6,1,1)")
    yield case("calendar", "t t", "5 [c1 < 2]", "6 [c1 < 3]", pile="20(5,1,1) 20(5,1,1)", twin="20(5,1,0) 20(5,1,0)")
    # one that fails at making, one at the next row
    yield case("calendar", "c1 t", "5 [c1 < 2]", "6 [op <> 0]", pile="20(6,0,0) 20(6,0,0)", twin="20(6,0,1) 20(6,0,1)")
    yield case("calendar", "c1 t", "5 [op <> 0]", "6 [op <> 0]", pile="20(5,0,1) 20(5,0,1)", twin="20(6,0,1) 20(6,0,1)")
    yield case("calendar", "c1 t", "5 [op <> 0]", "5 [true]", "5 [op <> 0]", pile="20(5,0,2) 20(5,0,2)")
    # the numbers that watches may have, and twice the same
    yield case("calendar", "t", "65535 [c1 < 2]", "1 [c1 < 2]", pile="20(65535,1,1)", twin="20(1,1,1)")
    yield case("calendar", "t", "9 [true]", "9 [c1 < 2]", pile="20(9,1,0)", twin="20(9,1,1)")


def files():
    """Column files: what they show and where orders lead."""
    yield case("file 1 1 3 5", "c1 c2 c6 c7 c0 t s1 o1 o2 o0", pile="0=5 0=- 0=- 11 11 13 13 0 12 12")
    yield case("file 1 3 3 10 20 30", "c1 t c1 t c1 t c1 ?t", pile="0=10 0 0=20 0 0=30 13 0=30 13")
    three = "file 1 3 3 10 20 30"
    for watches in [[], ["1 [true]"]]:
        yield case(three, f"o0 o4 o-1 o{LOWEST} o{HIGHEST} o3 c1 o1 c1", *watches, pile="12 12 12 12 12 0 0=30 0 0=10")
        yield case(three, "s0 s-1 s401 s3 s400 c1 s2 c1 s1 s400 s401", *watches, pile="12 12 12 13 13 0=10 0 0=30 13 13 12")
        yield case(three, "?s0 ?s2 ?s3 ?s401 ?o3 ?o4 ?o0 ?t c1", *watches, pile="12 0 13 12 0 12 12 0 0=10")
    # columns that lie over one another, in any order, and words that are in none
    yield case("file 2 3 4 5 10 20 30 40", "c1 c2 c3 t c1 c2 t c1 c2 t", pile="0=10 0=20 0=- 0 0=20 0=30 0 0=30 0=40 13")
    yield case("file 2 3 5 4 10 20 30 40", "c1 c2 o3 c1 c2", pile="0=20 0=10 0 0=40 0=30")
    yield case("file 2 2 4 4 7 8", "c1 c2 t c1 c2", pile="0=7 0=7 0 0=8 0=8")
    yield case(f"file 1 2 4 {HIGHEST} 7 8 {-MOST - 1}", "c1 t c1 t", pile="0=7 0 0=8 13")
    six = "file 6 2 8 9 10 11 12 13 1 2 3 4 5 6 7"
    yield case(six, "c1 c2 c3 c4 c5 c6 t c1 c2 c3 c4 c5 c6", pile="0=1 0=2 0=3 0=4 0=5 0=6 0 0=2 0=3 0=4 0=5 0=6 0=7")
    yield case("file 6 1 8 8 8 8 8 8 -3", "c1 c6 c7 t", pile="0=-3 0=-3 11 13")
    # the largest and the smallest values, and missing ones
    edges = f"file 2 3 4 7 {MOST} {-MOST} {MISSING} {MISSING} 0 -1"
    yield case(edges, "c1 c2 t c1 c2 t c1 c2", pile=f"0={MOST} 0=- 0 0={-MOST} 0=0 0 0=- 0=-1")
    yield case(edges, "t t", "1 [has c1]", "2 [has c2 or op = 0]", pile="0 20(1,2,1)", twin="0 20(1,2,0)")
    yield case(edges, "t t", "1 [c1 + c1 <> 0]", pile="0 20(1,2,0)")
    # as many rows as a file may have
    words = ["0"] * 20_000
    words[0], words[400], words[19_599], words[19_600], words[19_999] = "1", "2", "3", "4", "5"
    calls = "c1 s400 c1 o20001 o20000 c1 t o19600 c1 s400 c1 o19601 c1 s400 s399 c1"
    yield case(f"file 1 20000 3 {' '.join(words)}", calls, pile="0=1 0 0=2 12 0 0=5 13 0 0=3 0 0=5 0 0=4 13 0 0=5")


def bad_files():
    """Each refusal of a column file at its edge."""

    def bad(words, number, place):
        return refused(" ".join(["file", words]), "c1 t", wanted=f"file refused {number} at {place}")

    for words in ["", "1", "6", "0 1 3 5", "7 1 9 9 9 9 9 9 9 5", "-1 1 3 5", f"{LOWEST} 1 3 5", f"{HIGHEST} 1 3 5"]:
        yield bad(words, 16, 0)
    for words in ["1 0 3 5", "1 -1 3 5", "1 20001 3 5", f"1 {LOWEST} 3 5", f"1 {HIGHEST} 3 5", "0 0", "1 0 2"]:
        yield bad(words, 16, 0)
    for words in ["1 1", "2 1 4", "6 1 8 8 8 8 8", "1 20001 3 " + "0 " * 20_001, "2 1 -1"]:
        yield bad(words.strip(), 16, 0)
    # the header in order, and the first offset not
    for words in ["1 1 3", "1 1 2 5", "1 1 4 5", "1 2 4 5 6", "1 2 3 5"]:
        yield bad(words, 17, 2)
    for offset in [-1, 0, LOWEST, HIGHEST]:
        yield bad(f"1 1 {offset} 5", 17, 2)
    yield bad("1 20000 3 0", 17, 2)
    yield bad("2 1 3 4 5", 17, 2)
    yield bad("2 1 4 3 5", 17, 3)
    yield bad("2 1 4 9 5", 17, 3)
    yield bad("2 1 4 5 5", 17, 3)
    yield bad("2 1 4 -4 5", 17, 3)
    yield bad("2 1 3 3 5", 17, 2)
    yield bad("6 1 8 8 8 8 8 7 5", 17, 7)
    yield bad("6 1 8 8 8 8 8 9 5", 17, 7)
    yield bad(f"2 1 4 9 {MOST + 1}", 17, 3)
    # offsets in order, and values not
    for word in [MOST + 1, -MOST - 1, LOWEST + 1, HIGHEST]:
        yield bad(f"1 1 3 {word}", 18, 3)
        yield bad(f"1 3 3 1 2 {word}", 18, 5)
        yield bad(f"2 2 6 4 {word} {word} 1 {word}", 18, 7)
        yield bad(f"2 2 4 6 1 1 {word} {word}", 18, 6)
        yield bad(f"2 2 5 4 1 {word} 1", 18, 5)
        yield bad(f"2 2 4 5 1 {word} {word}", 18, 5)
        yield case(f"file 1 1 4 {word} 7 {word}", "c1 t", pile="0=7 13")
    for word in [MOST, -MOST, MISSING]:
        yield case(f"file 1 1 3 {word}", "c1 t", pile=f"0={'-' if word == MISSING else word} 13")


def bad_rules():
    """Rules that are refused, and what comes first where several things are."""
    for number in [0, -1, 65_536, LOWEST, HIGHEST]:
        yield refused("calendar", "t", f"{number} [true]", wanted="rule refused 1 at 0")
    yield refused("calendar", "t", "1 [c7 = 1]", wanted="rule refused 3 at 1")
    yield refused("calendar", "t", "1 [true]", "2 [c1 < ", wanted="rule refused 7 at 6")
    yield refused("calendar", "t", "1 [true]", "2 [true]", "3 ", wanted="rule refused 7 at 0")
    yield refused("calendar", "t", "1 [c7 = 1]", "0 [true]", wanted="rule refused 3 at 1")
    yield refused("calendar", "t", "1 [true]", "0 [true]", "3 [c1", wanted="rule refused 1 at 0")
    yield refused("halting 0 0 0 0", "t", "0 [true]", wanted="rule refused 1 at 0")
    yield refused("file 1 1 2 5", "t", "0 [true]", wanted="file refused 17 at 2")
    yield refused("file 1 1 3 5", "t", "0 [true]", wanted="rule refused 1 at 0")


BAD_LINES = [
    "",
    "calendar",
    "calender;t",
    ";t",
    "calendar;x",
    "calendar;t1",
    "calendar;o",
    "calendar;?c1",
    "calendar;c",
    "calendar;s2147483648",
    "calendar;t;1",
    "calendar;t;x [true]",
    "calendar;t;1 [true];",
    "calendar;t;1 [true];2 [true];3 [true];4 [true]",
    "file 1 1 3 x;t",
    "file 1 1 3 2147483648;t",
    "halting 1 0 0;t",
    "halting 65536 0 0 0;t",
    "halting 1 65536 0 0;t",
    "halting 1 0 0 256;t",
]

# --- The random cases -------------------------------------------------------------------------------------------

dice = random.Random(31_415)
trials.dice = dice


def a_file():
    count, rows = dice.choice([1, 2, 2, 3, 6]), dice.randint(2, 9)
    room = rows + dice.randint(0, 4)
    words = [count, rows, *(2 + count + dice.randint(0, room - rows) for _ in range(count))]
    words += [MISSING if dice.random() < 0.15 else dice.randint(-1, 2) for _ in range(room)]
    if dice.random() < 0.08:
        words[dice.randrange(len(words))] = dice.choice([-1, 0, 7, 12, MOST + 1, -MOST - 1, LOWEST, HIGHEST])
    return " ".join(map(str, ["file", *words]))


def an_engine():
    kind = dice.random()
    if kind < 0.55:
        return a_file()
    if kind < 0.75:
        limit = dice.choice([0, 1, 2, 3, 4, 5, 6, 40])
        return f"halting {limit} {dice.choice([0, 0, 7])} {dice.randrange(99)} {dice.choice([0, 0, 5, 252, 253, 254, 255])}"
    return "calendar"


def an_argument():
    return dice.choice([1, 1, 2, 2, 3, 4, 5, 9, 0, -1, 29, 30, 31, 353, 399, 400, 401, MOST, MOST + 1])


def an_order():
    kind = dice.choice(["t", "t", "t", "o", "s"])
    return kind if kind == "t" else f"{kind}{an_argument()}"


def a_call():
    kind = dice.random()
    if kind < 0.82:
        return an_order() if kind < 0.7 else f"?{an_order()}"
    return f"c{dice.choice([0, 1, 1, 1, 2, 2, 3, 5, 6, 7])}"


CALENDAR_RULES = [
    "[op = 0] | [true].[c1 < c1']*.[op = 0]",
    "[c4 < c5]",
    "[c4 <= c5]",
    "[c1 - c4 + 1 <= c1 and c4 >= 1]",
    "[op = 0] | [c1 <> 3]",
    "[op = 0] | [op = 2] | [c2 > 1].[true]",
    "[c2 < 30]",
    "[c3 < 12 or c5 = 29]",
    "[true]*.[c1 = 1]",
    "[op <> 1].[op <> 1]* | [op = 1].[c1 < c1']*",
    "[c1 > 1]*.[op = 0]",
    "[op = 0] | [op = 3 => arg < 300]",
]


def a_rule(engine):
    if engine == "calendar" and dice.random() < 0.7:
        return dice.choice(CALENDAR_RULES)
    while True:
        rule = trials.a_pattern(dice.choice([1, 2, 2, 3]))
        if len(rule) < 90:
            return f"[op = 0] | {rule}" if dice.random() < 0.5 else rule


def random_cases(count):
    """Most of them with a pile that halts after some orders, or of which the two stackings answer differently."""
    while count:
        engine = an_engine()
        calls = [a_call() for _ in range(dice.randint(4, 12))]
        watches = [f"{dice.randint(1, 9)} {a_rule(engine)}" for _ in range(dice.choice([0, 1, 2, 2, 3, 3, 3]))]
        line = ";".join([engine, " ".join(calls), *watches])
        found = answer(line)
        halts_at_once = len(found) == 2 and found[0].split(" ")[1].startswith(f"{HALTED}(")
        is_wanted = len(found) == 2 and f" {HALTED}(" in found[0] and not halts_at_once
        differ = len(found) == 2 and found[0][4:] != found[1][4:]
        if dice.random() < (0.9 if is_wanted or differ and not halts_at_once else 0.08 if halts_at_once else 0.12):
            yield line, None
            count -= 1


def main():
    parts = [arguments, questions, rows, full, own_faults, same_row, files, bad_files, bad_rules]
    written = [one for part in parts for one in part()]
    lines, answers = [], []
    for line, wanted in [*written, *random_cases(300)]:
        got = answer(line)
        assert wanted in [None, got], (line[:400], wanted, got)
        lines.append(line)
        answers.extend(got)
    lines.extend(BAD_LINES)
    answers.extend(["bad line"] * len(BAD_LINES))
    assert all(line.isascii() and line.isprintable() for line in lines)
    FOLDER.joinpath("stdin").write_text("".join(f"{line}\n" for line in lines), "ascii")
    FOLDER.joinpath("stdout").write_text("".join(f"{line}\n" for line in answers), "ascii")


if __name__ == "__main__":
    main()
