#!/usr/bin/env python3
"""Times sessions of the built program, and shows that their replies are the wanted ones.

    sessions.py [--program PATH] [--workers N] [KIND..]

KIND is one of these; all of them where none is given:

    outcomes    100,000 lines `depart` and `arrive`, in rounds over the plan of the network that `grow --seed 7` plans
    changes     1,000 lines `add` on a network of 64,000 rules
    replans     a change of that grown network, a round and its plan, 100 times

Each session is also run without its last kind of lines, and printed is the difference by the line: wall time, least of three runs.

Build the program first: (cd crates/atpg && rt run -- plan < ../../examples/one_box.net)
"""
import argparse
import os
import subprocess
import sys
import tempfile
import time

HERE = os.path.dirname(os.path.abspath(__file__))
sys.path.insert(0, HERE)
import check_grown
import generate


def grown(seed=7):
    return check_grown.text_of(*check_grown.rules_of(seed))


def entries_of(program, net, workers):
    wrote = subprocess.run([program, "plan", "--workers", str(workers)], input=net.encode(), capture_output=True, check=True).stdout
    return int(wrote.splitlines()[-1].split()[1])


def outcomes(program, workers):
    """Rounds of one plan each, and then the same with an outcome of each entry until there are 100,000 lines."""
    net = grown()
    entries = entries_of(program, net, workers)
    short, long, wanted, lines, number = [], [], [], 0, 0
    while lines < 100_000:
        number += 1
        short += ["open", f"plan {number}", f"close {number}"]
        long += ["open", f"plan {number}"]
        for entry in range(1, min(entries, (100_000 - lines) // 2) + 1):
            long += [f"depart {number} {entry}", f"arrive {number} {entry} pass"]
            wanted += [f"departed {number} {entry}", f"counted {number} {entry} pass"]
            lines += 2
        long.append(f"close {number}")
    return net, short, long, lines, wanted, ("departed", "counted")


def changes(program, workers):
    net = "".join(generate.rules(64_000))
    long = [f"add {100_000 + n} {n % 4096} 9 * xxxxxxxxxx{n % 4:02b} {4 * (n % 4096) + 1}" for n in range(1000)]
    return net, [], long, 1000, [f"version {n + 1}" for n in range(1000)], ("version",)


def replans(program, workers):
    """Each change moves the packets of one edge, so that what the others send over the core is as before but for those to it."""
    net = grown()
    change = [f"add {10_000 + n} {n % 16} 40 {100 + n % 16} {n:08b}{'x' * 120} drop" for n in range(100)]
    long = []
    for n, line in enumerate(change):
        long += [line, "open", f"plan {n + 1}", f"close {n + 1}"]
    return net, change, long, 100, [f"planned {n + 1} {n + 1}" for n in range(100)], ("planned",)


def run(program, workers, net, lines):
    with tempfile.TemporaryFile() as given, tempfile.TemporaryFile() as wrote:
        given.write(net.encode() + b"session\n" + "".join(line + "\n" for line in lines).encode())
        best = None
        for _ in range(3):
            given.seek(0), wrote.seek(0), wrote.truncate()
            begin = time.perf_counter()
            subprocess.run([program, "run", "--log", "4194304", "--workers", str(workers)], stdin=given, stdout=wrote, check=True)
            took = time.perf_counter() - begin
            best = took if best is None else min(best, took)
        wrote.seek(0)
        return best, wrote.read().decode().splitlines()


def main():
    kinds = {"outcomes": outcomes, "changes": changes, "replans": replans}
    asked = argparse.ArgumentParser(description=__doc__, formatter_class=argparse.RawDescriptionHelpFormatter)
    asked.add_argument("--program", default=os.path.join(HERE, "../crates/atpg/out/atpg"))
    asked.add_argument("--workers", type=int, default=1)
    asked.add_argument("kinds", nargs="*", metavar="KIND")
    given = asked.parse_args()
    unknown = [kind for kind in given.kinds if kind not in kinds]
    if unknown:
        asked.error(f"no kind {unknown[0]}")
    failed = False
    for kind in given.kinds or kinds:
        net, short, long, count, wanted, words = kinds[kind](given.program, given.workers)
        without, _ = run(given.program, given.workers, net, short)
        whole, replies = run(given.program, given.workers, net, long)
        same = [reply for reply in replies if reply.split()[0] in words] == wanted
        failed |= not same
        by_line = (whole - without) / count * 1e6
        print(f"{kind}: {count} lines in {whole - without:.3f} s, {by_line:.1f} us each, beside {without:.3f} s; replies {'as wanted' if same else 'DIFFER'}")
    return 1 if failed else 0


if __name__ == "__main__":
    sys.exit(main())
