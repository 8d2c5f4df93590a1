#!/usr/bin/env python3
"""What each crate costs the gate, in minutes of a processor: runs the gate and adds up what the checks of each crate take.

    gate_cost.py [--every SECONDS] [COMMAND ..]      the command is `rt ci` where none is given

Run it at the top of a clean clone, on a machine that has kept no earlier run of the same files (or with `rt ci --anew`): what is kept
costs nothing and is missing here. What the command prints goes on as it is; at the end comes the table, as lines for docs/CRATES.md.

`rt ci` prints no times, so the processes below the command are looked at every so often. Each check says which crate it is of, by its
words `--crate-name NAME`; one that builds tests is told by what it writes, and one of a wrong body by the temporary folder that it
works in. The row `rest` is what no check took (programs and tests as they ran, rt itself), and what short checks took
after they were looked at last.
"""
import argparse
import os
import re
import resource
import subprocess
import sys
import threading
import time

TICKS = os.sysconf("SC_CLK_TCK")
KINDS = ("proof", "tests", "wrong bodies")


def processes():
    """The processes that run: number, parent, when it began, and its own time of a processor in seconds."""
    for number in filter(str.isdigit, os.listdir("/proc")):
        try:
            with open(f"/proc/{number}/stat", encoding="utf-8", errors="replace") as it:
                words = it.read().rpartition(")")[2].split()
        except OSError:
            continue
        yield int(number), int(words[1]), int(words[19]), (int(words[11]) + int(words[12])) / TICKS


def check_of(number):
    """The crate and the kind of the check that a process does, if it does one."""
    try:
        with open(f"/proc/{number}/cmdline", "rb") as it:
            words = it.read().decode(errors="replace").split("\0")
        folder = os.readlink(f"/proc/{number}/cwd")
    except OSError:
        return None
    if "--crate-name" not in words[:-1]:
        return None
    crate = words[words.index("--crate-name") + 1]
    if re.search(r"/rt-edits?-", folder):
        return crate, "wrong bodies"
    is_of_tests = "--test" in words or any(it.startswith(f"out/{crate}_tests") for it in words)
    return crate, "tests" if is_of_tests else "proof"


class Watch(threading.Thread):
    """Keeps the last time that was seen of each process below this one."""

    def __init__(self, every):
        super().__init__(daemon=True)
        self.every, self.is_over = every, threading.Event()
        # by number and beginning, since numbers are used again
        self.checks, self.took = {}, {}

    def look(self):
        found = list(processes())
        below, parents = {os.getpid()}, {number: parent for number, parent, _, _ in found}
        for number in parents:
            chain, at = [], number
            while at in parents and at not in below and at not in chain:
                chain.append(at)
                at = parents[at]
            if at in below:
                below.update(chain)
        for number, _, began, took in found:
            if number not in below:
                continue
            key = number, began
            if self.checks.get(key) is None:
                # (a process has its words only once it runs its program)
                self.checks[key] = check_of(number)
            self.took[key] = took

    def run(self):
        while not self.is_over.wait(self.every):
            self.look()

    def by_crate(self):
        costs = {}
        for key, check in self.checks.items():
            if check:
                crate, kind = check
                costs.setdefault(crate, dict.fromkeys(KINDS, 0.0))[kind] += self.took[key]
        return costs


def crates_in_order():
    with open("crates.txt", encoding="utf-8") as it:
        return re.findall(r"^([a-z][a-z0-9_]*)\b[^#:\n]*:", it.read(), re.M)


def main():
    reader = argparse.ArgumentParser(description=__doc__, formatter_class=argparse.RawDescriptionHelpFormatter)
    reader.add_argument("--every", type=float, default=0.2)
    reader.add_argument("command", nargs=argparse.REMAINDER)
    options = reader.parse_args()
    watch, began = Watch(options.every), time.monotonic()
    watch.start()
    status = subprocess.run(options.command or ["rt", "ci"], check=False).returncode
    watch.is_over.set()
    watch.join()
    took = time.monotonic() - began
    used = resource.getrusage(resource.RUSAGE_CHILDREN)
    costs, whole = watch.by_crate(), used.ru_utime + used.ru_stime

    print("\n| crate | proof | tests | wrong bodies | together |\n|---|---|---|---|---|")
    known = crates_in_order()
    for crate in [*known, *sorted(set(costs) - set(known))]:
        of = costs.get(crate, dict.fromkeys(KINDS, 0.0))
        print(f"| `{crate}` | {' | '.join(f'{it / 60:.1f}' for it in (*of.values(), sum(of.values())))} |")
    of_kinds = [sum(of[kind] for of in costs.values()) for kind in KINDS]
    print(f"| rest | | | | {max(0.0, whole - sum(of_kinds)) / 60:.1f} |")
    print(f"| all | {' | '.join(f'{it / 60:.1f}' for it in (*of_kinds, whole))} |")
    print(f"\nMinutes of a processor. The run took {took / 60:.1f} minutes on {len(os.sched_getaffinity(0))} processors.", flush=True)
    return status


if __name__ == "__main__":
    sys.exit(main())
