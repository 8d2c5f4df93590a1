#!/usr/bin/env python3
"""Compares the built program with reference.py, which walks every header, over random networks of a few bits.

    compare_random.py [--program PATH] [--runs N] [--seed N] [--commands plan,trial,check,run]

Each run makes a random network text (now and then with a faulty line, in either version), random words, and for `check` and `run`
random policies and session lines. What the program writes, its status and its line on standard error must be what the reference
says. The first difference is printed with its input, and ends the script.

Build the program first: (cd crates/atpg && rt run -- plan < ../../examples/one_box.net)
"""
import argparse
import os
import random
import subprocess
import sys

sys.path.insert(0, os.path.dirname(os.path.abspath(__file__)))
import reference

HERE = os.path.dirname(os.path.abspath(__file__))
ROLES = ["send", "send", "receive", "receive", "both"]


class Maker:
    """Random texts."""

    def __init__(self, random):
        self.random = random
        self.bits = random.choice([1, 2, 3, 3, 4, 4, 5])
        self.version = random.choice([1, 2, 2])
        self.boxes = random.randint(1, 4)
        self.ports = [(10 * box + n, box) for box in range(1, self.boxes + 1) for n in range(1, random.randint(2, 4))]
        self.terms, self.rules = [], []

    def letters(self):
        return "".join(self.random.choice("01xxx") for _ in range(self.bits))

    def items(self):
        if self.version == 2 and self.random.random() < 0.4:
            some = ["0", "1", "-"] + [f"b{n}" for n in range(1, self.bits + 1)]
            return "@" + ",".join(self.random.choice(some) for _ in range(self.bits))
        return "".join(self.random.choice("01---") for _ in range(self.bits))

    def rule(self, id):
        box = self.random.randint(1, self.boxes)
        own = [port for port, at in self.ports if at == box] or [1]
        inp = "*" if self.random.random() < 0.6 else self.random.choice(own)
        out = "drop" if self.random.random() < 0.12 else self.random.choice(own)
        words = [id, box, self.random.randint(0, 3), inp, self.letters(), out]
        return words + ([self.items()] if out != "drop" and self.random.random() < 0.3 else [])

    def small(self):
        """One or two boxes in a row, from some senders to one receiver, so that most packets arrive."""
        self.boxes = self.random.choice([1, 1, 2])
        self.ports = [(10 * box + n, box) for box in range(1, self.boxes + 1) for n in range(1, 4)]
        lines = [f"atpg-net {self.version} {self.bits}"]
        lines += [f"box {box}" for box in range(1, self.boxes + 1)] + [f"port {port} {box}" for port, box in self.ports]
        lines += ["link 13 21"] if self.boxes == 2 else []
        self.terms = [1, 2, 3]
        lines += ["term 1 11 send", "term 2 12 both", f"term 3 {10 * self.boxes + 3} receive", f"permit 1 {'x' * self.bits}", f"permit 2 {self.letters()}"]
        for id in range(1, self.random.randint(3, 9)):
            self.rules.append(id)
            box = self.random.randint(1, self.boxes)
            items = [self.items()] if self.random.random() < 0.2 else []
            lines.append(" ".join(map(str, ["rule", id, box, self.random.randint(0, 3), "*", self.letters(), 10 * box + 3, *items])))
        return lines

    def network(self):
        if self.random.random() < 0.5:
            return self.small()
        lines = [f"atpg-net {self.version} {self.bits}"]
        lines += [f"box {box}" for box in range(1, self.boxes + 1)] + [f"port {port} {box}" for port, box in self.ports]
        free = [port for port, _ in self.ports]
        self.random.shuffle(free)
        for _ in range(self.random.randint(0, 3)):
            if len(free) > 3:
                lines.append(f"link {free.pop()} {free.pop()}")
        for term in range(1, self.random.randint(2, 5)):
            if free:
                self.terms.append(term)
                lines.append(f"term {term} {free.pop()} {self.random.choice(ROLES)}")
                lines += [f"permit {term} {self.letters()}" for _ in range(self.random.randint(0, 2))]
                lines += [f"permit {term} {'x' * self.bits}"] * (self.random.random() < 0.5)
                if self.version == 2 and self.random.random() < 0.3:
                    lines.append(f"forbid {term} {self.letters()}")
        for id in range(1, self.random.randint(2, 10)):
            self.rules.append(id)
            lines.append("rule " + " ".join(map(str, self.rule(id))))
        if self.random.random() < 0.06:
            lines.insert(self.random.randint(0, len(lines)), self.faulty())
        return lines

    def faulty(self):
        return self.random.choice(["", "# nothing", "box 1", "box", "port 11 9", "bogus", "term 1 11 sender", "permit 9 x", "rule 1 1", "link 11 11",
                                   f"permit 1 {'x' * (self.bits + 1)}", "port 4294967296 1", "permit 1 2", "atpg-net 1 3", "forbid 1 x", "box 01"])

    def text(self, lines):
        end = self.random.choice(["\n", "\n", "\r\n"])
        return "".join(line + end for line in lines)

    def policies(self):
        lines = [self.random.choice(["policy", "  policy # these"])]
        for _ in range(self.random.randint(0, 6)):
            one, other = self.random.choice(self.terms + [9]), self.random.choice(self.terms + [1])
            kind = self.random.choice(["never", "must", "via"])
            box = [self.random.randint(1, self.boxes)] if kind == "via" else []
            lines.append(" ".join(map(str, [kind, one, other, *box, self.letters()])))
        if self.random.random() < 0.1:
            lines.append(self.random.choice(["never 1", "must x 1 1", "via 1 1 0", "", "never 1 1 2"]))
        return lines

    def session(self):
        lines, round = ["session"], 0
        if self.random.random() < 0.7:
            lines, round = ["session", "open", "plan 1"], 1
        for _ in range(self.random.randint(0, 40)):
            kind = self.random.choices(
                ["open", "plan", "depart", "arrive", "both", "locate", "close", "current", "add", "cut", "bad", "empty", "quit"],
                [4, 6, 6, 6, 14, 4, 2, 2, 3, 2, 2, 1, 0.3])[0]
            of = max(1, round - self.random.choice([0, 0, 0, 1, 2])) if self.random.random() < 0.95 else self.random.randint(0, 9)
            entry = self.random.choice([1, 1, 2, 2, 3, 4, 5, 0, 9])
            verdict = self.random.choice(["pass", "fail"])
            if kind == "open":
                lines += ["open"] * (20 if self.random.random() < 0.03 else 1)
                round += 1
                lines += [f"plan {round}"] * (self.random.random() < 0.7)
            elif kind == "both":
                lines += [f"depart {of} {entry}", f"arrive {of} {entry} {verdict}"]
            elif kind in ("plan", "locate", "close"):
                lines.append(f"{kind} {of}")
            elif kind == "depart":
                lines.append(f"depart {of} {entry}")
            elif kind == "arrive":
                lines.append(f"arrive {of} {entry} {verdict}")
            elif kind == "add":
                lines.append("add " + " ".join(map(str, self.rule(self.random.choice([20, 21, 22, 1, 2])))))
            elif kind == "cut":
                lines.append(f"cut {self.random.choice(self.rules + [20, 99])}")
            elif kind == "bad":
                lines.append(self.random.choice(["hello", "open 1", "plan", "plan x", "depart 1", "arrive 1 1 maybe", "arrive 1 x maybe", "add 1 2", "cut -1", "stop now",
                                                 "add 9 1 1 * 2 drop", "add 9 1 1 * x drop 1", "session", "plan 4294967296"]))
            elif kind == "empty":
                lines.append(self.random.choice(["", "  ", "# nothing", "\t"]))
            else:
                lines.append(self.random.choice(["quit", "stop", "quit # now"]))
        if self.random.random() < 0.01:
            lines.insert(self.random.randint(1, len(lines)), "a" * self.random.choice([4096, 4097, 9000]))
        return lines


def case(random, command):
    """Words, an input, and what the reference makes of them."""
    maker = Maker(random)
    lines = maker.network()
    hops = random.choice([16, 16, 1, 2, 3, 4])
    entries = random.choice([65536] * 6 + [1, 2, 4])
    words = [command, "--hops", str(hops)]
    named = {"hops": hops}
    if command != "check":
        words += ["--entries", str(entries), "--workers", str(random.choice([1, 1, 2, 3]))]
        named["entries"] = entries
    if command == "trial":
        bad = [random.choice(maker.rules + [77] * (random.random() < 0.1)) for _ in range(random.randint(0, 3))]
        words += ["--faults", ",".join(map(str, bad))] if bad else []
        named["bad"] = bad
    if command == "run":
        log = random.choice([65536] * 12 + [1, 2, 5, 20])
        words += ["--log", str(log)]
        named["log"] = log
        lines += maker.session()
    if command == "check":
        lines += maker.policies()
    text = maker.text(lines).encode()
    if random.random() < 0.2:
        text = text[:-1]
    if random.random() < 0.02:
        text = text[: random.randint(0, len(text))]
    answer = {"plan": reference.plan_text, "trial": reference.trial_text, "check": reference.check_text, "run": reference.session_text}[command]
    try:
        return words, text, (0, answer(text, **named), b"")
    except reference.Fault as it:
        return words, text, (it.number, it.wrote, f"{it.text}\n".encode())


def main():
    given = argparse.ArgumentParser(description=__doc__, formatter_class=argparse.RawDescriptionHelpFormatter)
    given.add_argument("--program", default=f"{HERE}/../crates/atpg/out/atpg")
    given.add_argument("--runs", type=int, default=1000)
    given.add_argument("--seed", type=int, default=1)
    given.add_argument("--commands", default="plan,trial,check,run")
    words = given.parse_args()
    ends = {}
    for n in range(words.seed, words.seed + words.runs):
        chance = random.Random(n)
        command = chance.choice(words.commands.split(","))
        asked, text, wanted = case(chance, command)
        ran = subprocess.run([words.program, *asked], input=text, capture_output=True, timeout=120)
        if (ran.returncode, ran.stdout, ran.stderr) != wanted:
            print(f"seed {n}: {' '.join(asked)}\n--- input\n{text.decode()}\n--- wanted: status {wanted[0]} {wanted[2].decode()}\n{wanted[1].decode()}"
                  f"--- status {ran.returncode} {ran.stderr.decode()}\n{ran.stdout.decode()}")
            sys.exit(1)
        ends[(command, wanted[0])] = ends.get((command, wanted[0]), 0) + 1
    print(f"{words.runs} runs, no difference: " + ", ".join(f"{command} status {status}: {count}" for (command, status), count in sorted(ends.items())))


if __name__ == "__main__":
    main()
