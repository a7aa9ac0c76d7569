#!/usr/bin/env python3
"""Writes the table of numerals that crates/base_tests tests fractions on: a numeral, a blank, and its value as a
fraction, or F1 (no numeral) or F2 (too large).

The values are computed here from the decimal that the text writes, with the exact fractions of the standard library,
and share no code with the crate.  `numerals.py energy` writes the table of energies likewise.
"""
import random
import re
import sys
from fractions import Fraction

NUMERAL = re.compile(r"-?(0|[1-9][0-9]*)(\.[0-9]+)?([eE][-+]?[0-9]+)?\Z")


def first_place(size):
    """The exponent of ten of the first nonzero digit of a positive fraction."""
    place = len(str(size.numerator)) - len(str(size.denominator))
    return place if size >= Fraction(10) ** place else place - 1


def rounded(size):
    """A positive fraction, rounded half away from zero at its place."""
    unit = Fraction(10) ** max(first_place(size) - 14, -15)
    quotient = size / unit
    whole = quotient.numerator // quotient.denominator
    if quotient - whole >= Fraction(1, 2):
        whole += 1
    return whole * unit


def show(value):
    return str(value.numerator) if value.denominator == 1 else "%d/%d" % (value.numerator, value.denominator)


def read(text):
    if not NUMERAL.match(text):
        return "F1"
    mantissa, _, power = text.lower().partition("e")
    if Fraction(mantissa) == 0:
        return "0"
    if abs(int(power or "0")) > 10**5 > len(text):
        return "0" if int(power) < 0 else "F2"
    exact = Fraction(text)
    size = rounded(abs(exact))
    if size >= 10**18:
        return "F2"
    return show(-size if exact < 0 else size)


FIXED = """0.29999999999999998 1e-05 0.333333333333333315 0.0000000000000005 0.0000000000000004999 -0 1e18 999999999999999999
1. .5 00 01 -01 + +1 1e 1e+ 1e- e5 - 1.5.5 1e5.0 0x10 1,5 Infinity NaN inf 1a --1 0e5 -0.0e-7 0 1 -1 10 100 0.1 0.10
0.5 2.5 1.25 0.125 -0.125 123456789012345 1234567890123455 1234567890123445 123456789012344.5 -123456789012344.5
999999999999999 9999999999999994 9999999999999995 99999999999999949 99999999999999950 999999999999999499 999999999999999500
1e17 9.99999999999999e17 9.999999999999994e17 9.999999999999995e17 1E-15 4e-16 5e-16 4.9999999999999999999e-16
1e-16 0.5e-15 0.05e-14 -5e-16 123e-2 123e+2 123E2 0.000001e6 1000000e-6 12345678901234567890e-5 1.7976931348623157e308
0.30000000000000004 3.0000000000000004 0.1e1 1e0 1e00 1e-0 1.0000000000000005 1.00000000000000049999 2.00000000000000050001
1e99999999999999999999999999 1e-99999999999999999999999999 0e99999999999999999999999999 -7.5e18446744073709551616""".split()
FIXED += [
    "0." + "0" * 300 + "25e300",
    "1" + "0" * 400 + "e-400",
    "12" + "0" * 400 + "e-430",
    "0." + "9" * 200,
    "9" * 17 + "." + "9" * 60,
]


def rows():
    random.seed(4)
    table = list(FIXED)
    while len(table) < 120:
        digits = "".join(random.choice("0123456789") for _ in range(random.randint(1, 22)))
        part = "".join(random.choice("0123456789") for _ in range(random.randint(0, 22)))
        text = random.choice(["", "-"]) + (digits.lstrip("0") or "0") + ("." + part if part else "")
        if random.random() < 0.5:
            text += random.choice("eE") + random.choice(["", "+", "-"]) + str(random.randint(0, 25))
        table.append(text)
    return [(text, read(text)) for text in table]


def energy_rows():
    prefixes = dict(zip(["", "k", "K", "M", "G", "T", "P", "E", "Z", "Y"], [0, 3, 3, 6, 9, 12, 15, 18, 21, 24]))
    random.seed(5)
    table = "0.2KJ 4MW 75kW 1250J 4 kJ J W 4MJ 07kJ 1.kJ 1e3J -1J 0J 0W 1kkJ 1mJ 1kJ/s 999999999999999YJ 1000000YJ 999999YJ".split()
    table += "1e0W 123.456MW 0.0000000000000004YW 999999999999999999J 0.333333333333333333MJ 10.5kj 10.5KW 1.5.5kJ 16.666666666666666kJ".split()
    while len(table) < 60:
        digits = str(random.randint(0, 10 ** random.randint(1, 19)))
        part = "".join(random.choice("0123456789") for _ in range(random.randint(0, 18)))
        table.append(digits + ("." + part if part else "") + random.choice(list(prefixes)) + random.choice("JW"))
    out = []
    for text in table:
        answers = []
        for units in ({"J": 1}, {"W": 1, "J": 60}):
            m = re.match(r"(0|[1-9][0-9]*)(\.[0-9]+)?", text)
            if not m:
                answers.append("E1")
                continue
            rest = text[m.end() :]
            prefix = rest[:-1]
            if prefix not in prefixes or rest[-1:] not in units:
                answers.append("E2")
                continue
            number = read(m.group())
            if number == "F2" or Fraction(number) * 10 ** prefixes[prefix] >= 10**30:
                answers.append("E3")
            else:
                answers.append(show(Fraction(number) * 10 ** prefixes[prefix] * units[rest[-1]]))
        out.append((text, " ".join(answers)))
    return out


for row in energy_rows() if sys.argv[1:] == ["energy"] else rows():
    print(*row)
