#!/usr/bin/env python3
"""Checks what `factoplan prove` printed, without any code of factoplan: by plain fractions, in Python 3.8 and its library.

    tools/certify.py --ask SCRIPT REPORT                                prints the script with a `rate` line for each row before each `solve`
    tools/certify.py SCRIPT REPORT CERTIFICATE CATALOG [--dump DUMP]    says of each `solve` whether its answer is proved

REPORT is what `factoplan run` printed of SCRIPT, CERTIFICATE what `prove` printed of it, CATALOG what `catalog` printed of the game. Each table is
made of the lines of the script, its columns of the recipes in the catalog and of the replies to `rate`. Of a fluid that a generator takes both say
too little: its row wants the game's own DUMP. The verdicts are those of `factoplan check` (docs/CERTIFICATES.md), and two more: `rejected goods`, where
the table mentions a good of which the report has no price, and `rejected report`, where the report tells another answer. It ends with 0 where all
is proved, with 1 where not, and with 2 where the files don't belong together.
"""
import argparse
import collections
import decimal
import json
import re
import sys
from fractions import Fraction
from typing import Any, Dict, Iterator, List, NamedTuple, Optional, Tuple

ESCAPES = {"\n": "n", "\t": "t", "\r": "r"}
PLAIN = {short: char for char, short in ESCAPES.items()}
# How many words stand behind each part of a row.
PARTS = {"fuel": 1, "module": 2, "beacon": 3, "in": 2, "at": 1}
# A text of JSON; and what the game writes in place of a number and JSON hasn't.
NO_JSON = re.compile(r'("(?:[^"\\]|\\.)*")|-?(?:inf|nan)\b')
QUESTIONS = ("reach", "why", "missing", "mask", "list", "milestones", "summary", "rate", "solve", "quiet")
Numbers = Dict[str, Fraction]


class Unfit(Exception):
    """Files that don't belong together."""


# ---- words and numbers of scripts and reports
def plain(escape: "re.Match[str]") -> str:
    return PLAIN.get(escape[1], escape[1])


def escaped(char: "re.Match[str]") -> str:
    return "\\" + ESCAPES.get(char[0], char[0])


def words_of(line: str) -> List[str]:
    found = re.finditer(r'"((?:[^"\\]|\\.)*)"|([^ \t"]+)', line)
    return [it[2] if it[1] is None else re.sub(r"\\(.)", plain, it[1]) for it in found]


def quoted(word: str) -> str:
    if word and word[0] != "#" and not re.search(r'[ \t\n\r"\\]', word):
        return word
    return '"%s"' % re.sub(r'[\n\t\r"\\]', escaped, word)


def number(text: str) -> Fraction:
    """A number of a script: a fraction, or a decimal, rounded to 15 digits and 15 places, halves away from 0."""
    if "/" in text:
        return Fraction(text)
    exact = decimal.Decimal(text)
    place = decimal.Decimal((0, (1,), max(exact.adjusted() - 14, -15)))
    return Fraction(exact.quantize(place, decimal.ROUND_HALF_UP))


def lines_of(name: str) -> List[str]:
    with open(name, "rb") as file:
        lines = file.read().decode("utf-8", "surrogateescape").split("\n")
    return lines if lines[-1] else lines[:-1]


def replies_of(report: List[str]) -> Dict[int, List[List[str]]]:
    """The words of each line of each reply, by the number of the line that it answers."""
    replies: Dict[int, List[List[str]]] = {}
    last = 0
    for line in report:
        if line.startswith("  "):
            replies[last].append(words_of(line))
        else:
            first, _, rest = line.partition(" ")
            last = int(first)
            replies[last] = [words_of(rest)]
    return replies


# ---- tables
class Table(NamedTuple):
    rows: Dict[str, List[str]]
    prices: Numbers
    wants: Numbers
    imports: Numbers
    surpluses: Numbers
    power: bool


class State(NamedTuple):
    tables: Dict[str, Table]
    # of each recipe that was edited, what is taken and what is given
    recipes: Dict[Tuple[str, str], List[Dict[str, str]]]


def but(old: Dict[str, Any], key: str, value: Any = None) -> Dict[str, Any]:
    """The same with another value of a key; without it where there is none."""
    if value is None:
        return {other: it for other, it in old.items() if other != key}
    return {**old, key: value}


def edited(state: State, words: List[str], catalog: "Catalog") -> State:
    command, name, *rest = words
    if command in ("ingredient", "product"):
        side = "in" if command == "ingredient" else "out"
        good, amount = rest
        old = catalog.parts(state, name, side)
        place = next((at for at, part in enumerate(old) if part["good"] == good), len(old))
        text = "" if amount == "drop" else str(number(amount))
        new = [{"good": good, "amount": text, "free": text}] if text else []
        new = old[:place] + new + [part for part in old[place:] if part["good"] != good]
        return state._replace(recipes={**state.recipes, (name, side): new})
    if command in ("table", "untable"):
        empty = Table({}, {}, {}, {}, {}, False)
        return state._replace(tables=but(state.tables, name, empty if command == "table" else None))
    if command not in ("row", "unrow", "price", "want", "import", "surplus", "power"):
        return state
    table = state.tables[name]
    if command == "row":
        table = table._replace(rows={**table.rows, rest[0]: rest[1:]}, prices={**table.prices, rest[0]: Fraction(0)})
    elif command == "unrow":
        table = table._replace(rows=but(table.rows, rest[0]), prices=but(table.prices, rest[0]))
    elif command == "price":
        table = table._replace(prices={**table.prices, rest[0]: number(rest[1])})
    elif command == "want":
        table = table._replace(wants=but(table.wants, rest[0], number(rest[1]) or None))
    elif command == "import":
        table = table._replace(imports=but(table.imports, rest[0], None if rest[1] == "off" else number(rest[1])))
    elif command == "surplus":
        table = table._replace(surpluses=but(table.surpluses, rest[0], None if rest[1] == "off" else number(rest[1])))
    else:
        table = table._replace(power=rest[0] == "on")
    return state._replace(tables={**state.tables, name: table})


class Solve(NamedTuple):
    """A line that had a table solved, and the replies to the questions about its rows that stand before it."""

    line: int
    name: str
    state: State
    rates: Dict[Tuple[str, str], Numbers]
    reply: List[List[str]]

    @property
    def table(self) -> Table:
        return self.state.tables[self.name]


def solves_of(script: List[str], replies: Dict[int, List[List[str]]], catalog: "Catalog") -> Iterator[Solve]:
    """Carries out the lines that were accepted."""
    state = State({}, {})
    done: List[State] = []
    undone: List[State] = []
    held: Optional[List[List[str]]] = None
    rates: Dict[Tuple[str, str], Numbers] = {}
    quiet = False
    for line, text in enumerate(script, 1):
        words = words_of(text[:-1] if text.endswith("\r") else text)
        if line not in replies and (not words or text.lstrip(" \t").startswith("#")):
            continue
        command = words[0] if words else ""
        reply = replies.get(line, [["held" if held is not None else "ok"]])
        if line not in replies and not (quiet or command == "quiet"):
            raise Unfit(f"the report has no reply to line {line}")
        if reply[0][0] == "refused" and reply[0][1] not in ("V1", "V2"):
            held = None if command == "end" and reply[0][1] != "H4" else held
        elif command == "solve":
            yield Solve(line, words[1], state, rates, reply)
        elif command == "rate":
            told = reply[0][3:]
            rates = {
                **rates,
                (words[1], words[2]): {k: Fraction(v) for k, v in zip(told[::2], told[1::2]) if v != "wide"},
            }
        elif command == "quiet":
            quiet = words[1] == "on"
        elif command in ("batch", "cancel"):
            held = [] if command == "batch" else None
        elif command == "undo":
            undone.append(state)
            state, rates = done.pop(), {}
        elif command == "redo":
            done.append(state)
            state, rates = undone.pop(), {}
        elif command not in QUESTIONS and held is not None and command != "end":
            held.append(words)
        elif command not in QUESTIONS and (command != "end" or held):
            done.append(state)
            for edit in held or [words]:
                state = edited(state, edit, catalog)
            undone, held, rates = [], None, {}
        elif command == "end":
            held = None


# ---- columns
class Catalog:
    """The game, as `factoplan catalog` prints it."""

    def __init__(self, catalog: Optional[Dict[str, Any]], dump: Optional[str]) -> None:
        kinds = ("special", "item", "fluid", "recipe", "source", "machine", "tech")
        self.things = {thing["id"]: thing for kind in kinds for thing in (catalog or {}).get(kind, [])}
        self.dump = dump
        self.game: Optional[Dict[str, Any]] = None

    def parts(self, state: State, name: str, side: str) -> List[Dict[str, str]]:
        return state.recipes.get((name, side), self.things.get(name, {}).get(side, []))

    def choice(self, part: Dict[str, str], own: List[str]) -> str:
        """The good that is taken for a part: of a fluid with variants the row's own, or else the coolest that is within its bounds."""
        fits = []
        for name in self.things[part["good"]].get("variants", []):
            degrees = Fraction(self.things[name]["temperature"])
            if Fraction(part.get("low", degrees)) <= degrees <= Fraction(part.get("high", degrees)):
                fits.append((degrees, name))
        if not fits:
            return part["good"]
        return next((name for name in own if name in [it for _, it in fits]), min(fits)[1])

    def joules(self, machine: str, fluid: str) -> Any:
        """What a generator makes of one unit of a fluid, by the dump."""
        if self.dump is None:
            raise Unfit(f"{machine} takes a fluid: how much, only the dump says (--dump)")
        if self.game is None:
            with open(self.dump, encoding="utf-8") as file:
                text = NO_JSON.sub(lambda it: it[1] or "null", file.read())
            self.game = json.loads(text, parse_float=number, parse_int=number)
        made, of = self.game["generator"][machine.partition(":")[2]], self.things[fluid]
        effectivity = made.get("effectivity", Fraction(1))
        if made.get("burns_fluid"):
            return Fraction(of["fuel"]["value"]) * effectivity
        usual = self.game["fluid"][of.get("base", fluid).partition(":")[2]].get("default_temperature", Fraction(15))
        degrees = min(made["maximum_temperature"], Fraction(of["temperature"])) - usual
        return degrees * Fraction(of["heat"]) * effectivity

    def column(self, state: State, setup: List[str], rate: Numbers, power: bool) -> Numbers:
        """What one craft a second of a row adds to each good."""
        activity, _, by, *rest = setup
        machine, own, fuel, at = self.things[by], [], "", 0
        while at < len(rest):
            own += [rest[at + 1]] if rest[at] == "at" else []
            fuel = rest[at + 1] if rest[at] == "fuel" else fuel
            at += 1 + PARTS[rest[at]]
        made: Numbers = collections.defaultdict(Fraction)
        kind = activity.partition(":")[0]
        if kind in ("recipe", "source"):
            for part in self.parts(state, activity, "out"):
                made[part["good"]] += Fraction(part["amount"]) + rate["productivity"] * Fraction(part["free"])
        else:
            made[activity] += 1 + (rate["productivity"] if kind == "tech" else Fraction(0))
        for part in self.parts(state, activity, "in"):
            made[self.choice(part, own)] -= Fraction(part["amount"])
        if machine["kind"] in ("boiler", "generator"):
            fluid = self.choice({"good": machine["takes"]}, own) if "takes" in machine else own[0]
            made[fluid] -= Fraction(1) if machine["kind"] == "boiler" else 1 / self.joules(by, fluid)
        if fuel:
            made[fuel] -= rate["fuel"]
            burnt = self.things[fuel].get("burnt")
            if burnt:
                made[burnt] += rate["fuel"]
        if power:
            made["special:electricity"] -= rate["power"] + rate["machines"] * (rate["drain"] + rate["beacons"])
        return made


# ---- verdicts
def dot(xs: List[Fraction], ys: List[Fraction]) -> Fraction:
    return sum((x * y for x, y in zip(xs, ys)), Fraction(0))


def exact(text: object) -> Fraction:
    """A number of a certificate."""
    if not isinstance(text, str) or not re.fullmatch(r"-?\d+(/\d+)?", text) or str(Fraction(text)) != text:
        raise Unfit(f"the certificate has {text!r} in place of a number")
    return Fraction(text)


def verdict(solve: Solve, answer: Dict[str, Any], catalog: Catalog) -> str:
    """Whether an answer proves itself: the first test that fails, or what is proved."""
    table, first = solve.table, solve.reply[0]
    if first[0] == "refused" or answer.get("open"):
        return "open"
    for label in table.rows:
        if (solve.name, label) not in solve.rates:
            raise Unfit(f"line {solve.line}: no line before it asks rate {solve.name} {label} (--ask)")
    made = [
        (catalog.column(solve.state, setup, solve.rates[solve.name, label], table.power), table.prices[label])
        for label, setup in table.rows.items()
    ]
    goods = [words[1] for words in solve.reply if words[0] == "price"]
    for sign, priced in ((1, table.imports), (-1, table.surpluses)):
        made += [({good: Fraction(sign)}, priced[good]) for good in goods if good in priced]
    named = {good for gives, _ in made for good in gives if gives[good]}
    if len(set(goods)) < len(goods) or not {*named, *table.wants, *table.imports, *table.surpluses} <= set(goods):
        return "rejected goods"
    columns = [([gives.get(good, Fraction(0)) for good in goods], price) for gives, price in made]
    wants = [table.wants.get(good, Fraction(0)) for good in goods]
    has_plan = "plan" in answer
    prices = [exact(it) for it in (answer["plan"]["prices"] if has_plan else answer["infeasible"])]
    cost = Fraction(0)
    if has_plan:
        rates, cost = [exact(it) for it in answer["plan"]["rates"]], exact(answer["plan"]["cost"])
        if len(rates) != len(columns):
            return "rejected length"
        if any(rate < 0 for rate in rates):
            return "rejected negative"
        if any(dot([gives[place] for gives, _ in columns], rates) != want for place, want in enumerate(wants)):
            return "rejected unbalanced"
        if dot([price for _, price in columns], rates) != cost:
            return "rejected value"
    if len(prices) != len(goods):
        return "rejected length"
    if any(dot(gives, prices) > (price if has_plan else 0) for gives, price in columns):
        return "rejected gains"
    if dot(wants, prices) != cost if has_plan else dot(wants, prices) <= 0:
        return "rejected value"
    if first != (["plan", solve.name, "cost", str(cost)] if has_plan else ["infeasible", solve.name]):
        return "rejected report"
    return "proved plan" if has_plan else "proved infeasible"


def verdicts(solves: List[Solve], certificate: Dict[str, Any], catalog: Catalog) -> List[str]:
    if certificate["version"] != 1:
        raise Unfit(f"the certificate is of version {certificate['version']}")
    answers = {answer["line"]: answer for answer in reversed(certificate["answers"])}
    lines = []
    for solve in solves:
        word = verdict(solve, answers.get(solve.line, {"open": True}), catalog)
        lines.append(f"{solve.line} {word} {quoted(solve.name)}")
    return [*lines, f"proved {sum(line.split()[1] == 'proved' for line in lines)} of {len(solves)}"]


def asked(script: List[str], solves: List[Solve]) -> Iterator[str]:
    rows = {solve.line: (solve.name, list(solve.table.rows)) for solve in solves}
    for line, text in enumerate(script, 1):
        name, labels = rows.get(line, ("", []))
        yield from (f"rate {quoted(name)} {quoted(label)}" for label in labels)
        yield text


def main() -> int:
    parser = argparse.ArgumentParser(description=__doc__, formatter_class=argparse.RawDescriptionHelpFormatter)
    parser.add_argument("--ask", action="store_true")
    parser.add_argument("--dump")
    parser.add_argument("files", nargs="+", metavar="FILE")
    given = parser.parse_args()
    if len(given.files) != (2 if given.ask else 4):
        parser.error("--ask takes SCRIPT and REPORT, a check SCRIPT, REPORT, CERTIFICATE and CATALOG")
    try:
        script, replies = lines_of(given.files[0]), replies_of(lines_of(given.files[1]))
        if given.ask:
            text = "".join(line + "\n" for line in asked(script, list(solves_of(script, replies, Catalog(None, None)))))
            sys.stdout.buffer.write(text.encode("utf-8", "surrogateescape"))
            return 0
        with open(given.files[2], encoding="utf-8") as file:
            certificate = json.load(file)
        with open(given.files[3], encoding="utf-8") as file:
            catalog = Catalog(json.load(file), given.dump)
        lines = verdicts(list(solves_of(script, replies, catalog)), certificate, catalog)
    except (Unfit, OSError, ValueError, KeyError, IndexError) as fault:
        print(f"certify: {fault if isinstance(fault, (Unfit, OSError)) else repr(fault)}", file=sys.stderr)
        return 2
    print("\n".join(lines))
    return int(lines[-1] != f"proved {len(lines) - 1} of {len(lines) - 1}")


if __name__ == "__main__":
    sys.exit(main())
