#!/usr/bin/env python3
"""Times the calls of crates/fractions beside the same in C, by the clock.

    bench/fractions/run.py [--bits 20,40,60,100]

The program, speed.rt.txt over copies of crates/plan_base and crates/fractions, is proved and built before; the peer is speed.c by gcc. Both print a
sum of all results, and the script stops where the two differ. Of the sizes of BITS figures are told.
"""
import argparse
import os
import sys

sys.dont_write_bytecode = True
sys.path.insert(1, os.path.join(sys.path[0], ".."))
import programs  # noqa: E402
from table import beside, tell, without_peer  # noqa: E402

CALLS = {"mul": "products", "add": "sums", "sub": "differences", "sub_mul": "products subtracted", "cmp": "comparisons"}


def rows(text):
    """Of each call and number of bits the nanoseconds of a call, and the sum."""
    table = {}
    for line in text.splitlines():
        words = line.split()
        if len(words) == 4 and words[0] in CALLS:
            table[words[0], int(words[1])] = (int(words[2]) / 10, words[3])
    return table


def main() -> None:
    options = argparse.ArgumentParser(description=__doc__, formatter_class=argparse.RawDescriptionHelpFormatter)
    options.add_argument("--bits", type=lambda text: [int(bits) for bits in text.split(",")], default=[20, 60])
    given = options.parse_args()
    program = programs.built_copy("fraction_speed", "fractions/speed.rt.txt", ["plan_base", "fractions"])
    peer = programs.compiled("fractions/speed.c", "fraction_speed_c")
    ours, theirs = rows(programs.well([program]).said), rows(programs.well([peer]).said) if peer else {}
    for key, (mine, result) in ours.items():
        call, bits = key
        what = "%s of fractions of %d bits" % (CALLS[call], bits)
        if not peer:
            print("%-40s %10.1f ns" % (what, mine))
            if bits in given.bits:
                tell(without_peer(what, [mine / 1e9], "gcc"))
            continue
        its, its_result = theirs[key]
        if result != its_result:
            sys.exit("%s at %d bits: the results differ" % key)
        print("%-40s %10.1f ns, C %10.1f ns" % (what, mine, its))
        if bits in given.bits:
            tell(beside(what, [mine / 1e9], "C", [its / 1e9], "gcc's __int128, the same steps; nothing is read"))


main()
