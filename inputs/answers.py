"""Makes the stored output of each input here, by the ledger in Python of crates/stacks/cases.py. Run it with no arguments.

It shares no code with the crates. What daylog adds to the ledger is written out below: lines, orders and text.
"""

import importlib.util
import pathlib
import re
import sys

sys.dont_write_bytecode = True
FOLDER = pathlib.Path(__file__).resolve().parent
SPEC = importlib.util.spec_from_file_location("stacks", FOLDER.parent / "crates" / "stacks" / "cases.py")
stacks = importlib.util.module_from_spec(SPEC)
SPEC.loader.exec_module(stacks)

LIMIT = 60_000
HEADER = "answer row c1 c2 c3 c4 c5 c6"
ORDER = re.compile(rb"T|([OS]) (-?[0-9]{1,9})")


def page(pile):
    if pile.fault:
        return "20 {} {} {}".format(*pile.fault)
    values = ["-" if value is None else str(value) for value in pile.engine.values()]
    return " ".join(["0", str(len(pile.rows) - 1), *values])


def answer(pile, line):
    order = ORDER.fullmatch(line)
    if not order:
        return "14"
    letter, argument = order.groups()
    number = pile.give(letter.decode().lower(), int(argument)) if letter else pile.give("t", None)
    return number if number in ["12", "13", "21"] else page(pile)


def printed(text):
    """What daylog prints, as lines."""
    if len(text) > LIMIT:
        return ["15"]
    lines = text.removesuffix(b"\n").split(b"\n") if text else []
    watches = []
    for number, rule in enumerate([*lines, b"", b""][:2], 1):
        try:
            stacks.readings.read(number, rule)
        except stacks.readings.Refused as refused:
            return ["rule {} {} {}".format(number, *refused.args)]
        watches.append((number, stacks.trials.tree_of(rule)))
    pile = stacks.Pile(stacks.Calendar(), watches)
    return [HEADER, page(pile), *(answer(pile, line) for line in lines[2:])]


for path in sorted(FOLDER.glob("*.txt")):
    path.with_suffix(".out").write_text("".join(line + "\n" for line in printed(path.read_bytes())))
