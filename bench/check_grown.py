#!/usr/bin/env python3
"""Compares `grow` with another calculation of the same network and its plan, by docs/FORMATS.md.

    check_grown.py [--program PATH] [--workers N] [--write] SEED..

The line of each seed is calculated here in a way that needs no sets of headers. At an edge the rule of the longest prefix acts, and
no rule changes the first 33 bits, which are all that rules ask for. So the numbers from 0 to 2^33 fall into intervals, in each of
which all headers meet the same three rules: one outward, one of the core, one inward. The line must be what `grow` writes, and
the plan of the network's text must end with the same counts. With --write the text of the first seed is written, and nothing
is compared.

Build the program first: (cd crates/atpg && rt run -- plan < ../../examples/one_box.net)
"""
import argparse
import bisect
import os
import subprocess
import sys

HERE = os.path.dirname(os.path.abspath(__file__))
BITS = 128
ASKED = 33
EDGES = 16


def words_of(seed, stream=1):
    """The outputs of PCG XSH RR 64/32 (O'Neill, 2014), one after the other."""
    most = 2**64 - 1
    increment = (stream * 2 + 1) & most

    def after(state):
        return (state * 6364136223846793005 + increment) & most

    state = after((seed + increment) & most)
    while True:
        shifted = ((state >> 18 ^ state) >> 27) & 0xFFFFFFFF
        turn = state >> 59
        yield (shifted >> turn | shifted << (32 - turn)) & 0xFFFFFFFF
        state = after(state)


class Rule:
    def __init__(self, number, box, priority, inp, prefix, out, byte=None):
        self.number, self.box, self.priority, self.inp, self.prefix, self.out, self.byte = number, box, priority, inp, prefix, out, byte

    def __str__(self):
        pattern = self.prefix + "x" * (BITS - len(self.prefix))
        rewrite = "" if self.byte is None else f" {'-' * (BITS - 8)}{self.byte:08b}"
        return f"rule {self.number} {self.box} {self.priority} {self.inp} {pattern} {self.out}{rewrite}"


def rules_of(seed):
    """The rules outward, edge by edge, those of the core, and those inward, edge by edge."""
    word = words_of(seed)
    outward, inward = [], []
    for e in range(EDGES):
        rules = []
        for j in range(63):
            a, b, c, f = (next(word) for _ in range(4))
            size = 4 + a % 30
            out, byte = ("drop", None) if j % 8 == 0 else (200 + e, f & 255 if j % 2 == 1 else None)
            rules.append(Rule(1000 + 64 * e + j, e, size, 100 + e, f"{b:032b}{c:032b}"[:size], out, byte))
        outward.append(rules + [Rule(1000 + 64 * e + 63, e, 0, 100 + e, "", 200 + e)])
    core = [Rule(3000 + d, 16, 10, "*", f"{d:04b}", 300 + d) for d in range(EDGES)]
    for e in range(EDGES):
        rules = []
        for j in range(31):
            a, b = (next(word) for _ in range(2))
            size = 4 + a % 20
            rules.append(Rule(4000 + 32 * e + j, e, size, 200 + e, f"{e:04b}" + f"{b:032b}"[: size - 4], 100 + e))
        inward.append(rules + [Rule(4000 + 32 * e + 31, e, 0, 200 + e, "", 100 + e)])
    return outward, core, inward


def text_of(outward, core, inward):
    lines = [f"atpg-net 1 {BITS}"] + [f"box {box}" for box in range(17)]
    for e in range(EDGES):
        lines += [f"port {100 + e} {e}", f"port {200 + e} {e}", f"port {300 + e} 16", f"link {200 + e} {300 + e}"]
        lines += [f"term {e} {100 + e} both", f"permit {e} {'x' * BITS}"]
    lines += [str(rule) for rules in outward + [core] + inward for rule in rules]
    return "\n".join(lines) + "\n"


def interval(prefix):
    rest = ASKED - len(prefix)
    start = int(prefix or "0", 2) << rest
    return start, start + (1 << rest)


def by_interval(rules):
    """Where the acting rule may change, and the rule from each such place on: the longest prefix, and the least number of equals."""
    places = sorted({place for rule in rules for place in interval(rule.prefix)} | {0})
    acting = []
    for place in places[:-1]:
        there = [rule for rule in rules if interval(rule.prefix)[0] <= place < interval(rule.prefix)[1]]
        acting.append(min(there, key=lambda rule: (-rule.priority, rule.number)))
    return places, acting


def line_of(seed, outward, core, inward):
    inward_at = [by_interval(rules) for rules in inward]
    prefixes, entries = set(), []
    for e in range(EDGES):
        places, acting = by_interval(outward[e])
        cuts = sorted(set(places).union(*(set(places_in) for places_in, _ in inward_at), (d << ASKED - 4 for d in range(EDGES))))
        for place in cuts[:-1]:
            first = acting[bisect.bisect_right(places, place) - 1]
            # a rule that drops stands in no list
            if first.out == "drop":
                continue
            d = place >> ASKED - 4
            places_in, acting_in = inward_at[d]
            last = acting_in[bisect.bisect_right(places_in, place) - 1]
            prefixes |= {(e, first.number), (e, first.number, 3000 + d), (e, first.number, 3000 + d, last.number)}
    entries = sorted(each for each in prefixes if len(each) == 4)
    left = {rule for entry in entries for rule in entry[1:]}
    count = sum(len(rules) for rules in outward + [core] + inward)
    idle, probes = count - len(left), 0
    while left:
        gain, first = max((len(left.intersection(entry[1:])), -place) for place, entry in enumerate(entries))
        left.difference_update(entries[-first][1:])
        probes += 1
    numbers = [seed, 17, count, len(entries), probes, len(entries) - probes, idle, EDGES + len(prefixes)]
    return "grown " + " ".join(str(number) for number in numbers) + "\n"


def wrote(program, words, text=""):
    return subprocess.run([program, *words], input=text, capture_output=True, text=True, check=True).stdout


def agrees(program, seed, workers):
    rules = rules_of(seed)
    wanted = line_of(seed, *rules)
    how = ["--workers", str(workers)]
    line = wrote(program, ["grow", "--seed", str(seed), *how])
    end = wrote(program, ["plan", *how], text_of(*rules)).splitlines()[-1]
    same = line == wanted and end.split()[1:] == wanted.split()[4:8]
    print(f"{'same' if same else 'DIFFERS'}: calculated {wanted.strip()}; grow wrote {line.strip()}; the plan ends with {end}")
    return same


def main():
    asked = argparse.ArgumentParser(description=__doc__, formatter_class=argparse.RawDescriptionHelpFormatter)
    asked.add_argument("--program", default=os.path.join(HERE, "../crates/atpg/out/atpg"))
    asked.add_argument("--workers", type=int, default=1)
    asked.add_argument("--write", action="store_true")
    asked.add_argument("seeds", type=int, nargs="+", metavar="SEED")
    given = asked.parse_args()
    if given.write:
        print(text_of(*rules_of(given.seeds[0])), end="")
        return 0
    return 0 if all([agrees(given.program, seed, given.workers) for seed in given.seeds]) else 1


if __name__ == "__main__":
    sys.exit(main())
