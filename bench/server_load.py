#!/usr/bin/env python3
"""Puts the built server under load by many clients at once, and looks whether what they were answered can be so.

    server_load.py [--program PATH] [--clients N,..] [--seconds N] [--runs N] [--events N] [--seed N] [--port N] [--boxes N]

For each number of clients the server is started with as many seats on a small network. First come short runs: in each, every client
sends --events random lines, of many clients fewer, and keeps its replies, and then one of them closes all rounds, so that the desk has none as the next
run begins. One history is sought that has the lines of all clients, each client's in its order, and then those that close, in
which a plain desk of this script gives every reply. It knows nothing of the server but the replies. Such a history must exist; a
run without one is printed, and the script ends with status 1. After that all clients send lines for --seconds, and the events
that were answered a second are printed, for random lines and for `current` alone. At last every client sends `stop`, and the
server must end with status 0.

With --boxes a server of two seats is also started on a chain of so many boxes. While one client waits for its plan of that network, the
other one, whose round was planned before, sends `depart` again and again, and how long it waits for each reply is printed. It has to wait
while the desk takes the plan.

A line `plan` is two events, a pin and a post, between which other events may stand.

Build the program first: (cd crates/atpgd && rt run)
"""
import argparse
import os
import random
import socket
import subprocess
import sys
import threading
import time

HERE = os.path.dirname(os.path.abspath(__file__))
NETWORK = """atpg-net 2 4
box 1
port 11 1
port 12 1
box 2
port 21 2
port 22 2
link 12 21
term 1 11 send
term 2 22 receive
permit 1 xxxx
rule 1 1 1 * 0xxx 12
rule 2 1 1 * 1xxx 12
rule 3 2 1 * xxx0 22
rule 4 2 1 * xxx1 22
rule 5 2 2 * x11x 22
"""
MOST_ROUNDS = 16
SPARE = [61, 62, 63]  # the rules that clients add and cut


class Round:
    """A round: the version at its opening, its plan (rules of each entry, reserved entries), who sent what, and verdicts."""

    def __init__(self, pinned):
        self.pinned = pinned
        self.plan = None
        self.sender = {}
        self.verdict = {}

    def copy(self):
        other = Round(self.pinned)
        other.plan = self.plan
        other.sender = dict(self.sender)
        other.verdict = dict(self.verdict)
        return other

    def key(self):
        return self.pinned, self.plan is not None, tuple(sorted(self.sender.items())), tuple(sorted(self.verdict.items()))

    def report(self):
        if self.plan is None:
            return "suspects - guilty - odd - next -"
        entries, reserved = self.plan
        failed = sorted(e for e, v in self.verdict.items() if v == "fail")
        good = {r for e, v in self.verdict.items() if v == "pass" for r in entries[e - 1]}
        suspects = {r for e in failed for r in entries[e - 1]} - good
        guilty = set()
        odd = None
        for e in failed:
            outside = set(entries[e - 1]) - good
            if len(outside) == 1:
                guilty |= outside
            if not outside and odd is None:
                odd = e
        following = next((e for e in reserved if e not in self.verdict and len(set(entries[e - 1]) & suspects) == 1), None)
        return f"suspects {listed(suspects)} guilty {listed(guilty)} odd {odd or '-'} next {following or '-'}"


def listed(numbers):
    return ",".join(str(n) for n in sorted(numbers)) or "-"


class Desk:
    """A plain desk: the rules that may be added and cut, the version, and the rounds that are open."""

    def __init__(self):
        self.there = frozenset()
        self.version = 0
        self.opened = 0
        self.rounds = {}

    def copy(self):
        other = Desk()
        other.there, other.version, other.opened = self.there, self.version, self.opened
        other.rounds = {r: one.copy() for r, one in self.rounds.items()}
        return other

    def key(self):
        return self.there, self.version, self.opened, tuple((r, one.key()) for r, one in sorted(self.rounds.items()))

    def answer(self, caller, words, plan):
        """The reply to an event, and whether it changed anything. `plan` is what a post posts."""
        kind = words[0]
        if kind == "current":
            return f"current {self.version}", False
        if kind in ("add", "cut"):
            rule = int(words[1])
            if kind == "add" and rule in self.there:
                return "no twice", False
            if kind == "cut" and rule not in self.there:
                return "no unknown", False
            self.there = self.there | {rule} if kind == "add" else self.there - {rule}
            self.version += 1
            return f"version {self.version}", True
        if kind == "open":
            if len(self.rounds) == MOST_ROUNDS:
                return "no rounds-full", False
            self.opened += 1
            self.rounds[self.opened] = Round(self.version)
            return f"opened {self.opened} {self.version}", True
        number = int(words[1])
        one = self.rounds.get(number)
        if one is None:
            return f"no round {number}", False
        if kind == "pin":
            return f"pinned {one.pinned}", False
        if kind == "post":
            if one.plan is not None:
                return f"no already-posted {number}", False
            one.plan = plan
            return f"planned {number} {one.pinned}", True
        if kind == "close":
            del self.rounds[number]
            return f"closed {number} {one.report()}", True
        if one.plan is None:
            return f"no plan {number}", False
        if kind == "locate":
            return f"found {number} {one.report()}", False
        entry = int(words[2])
        if not 1 <= entry <= len(one.plan[0]):
            return f"no entry {entry}", False
        if one.pinned != self.version:
            return f"no moved {one.pinned} {self.version}", False
        if entry in one.verdict:
            return f"no already-counted {one.verdict[entry]}", False
        if kind == "depart":
            one.sender[entry] = caller
            return f"departed {number} {entry}", True
        if one.sender.get(entry) != caller:
            return "no not-sent", False
        one.verdict[entry] = words[3]
        return f"counted {number} {entry} {words[3]}", True


def plan_of(lines):
    """The rules of each entry of a plan text, and its reserved entries."""
    entries = [tuple(int(r) for r in l.split()[7].split(",")) for l in lines if l.startswith("entry ")]
    return tuple(entries), tuple(int(l.split()[1]) for l in lines if l.startswith("reserved "))


def events_of(said):
    """The ways in which a line and its reply can be events: for each a list of (words, reply, plan). A reply None is a pin that succeeded."""
    line, reply = said
    words = line.split()
    if words[0] != "plan":
        return [[(words, reply[0], None)]]
    pin, post = ["pin", words[1]], ["post", words[1]]
    plan = plan_of(reply) if reply[0].startswith("planned ") else None
    ways = [[(pin, None, None), (post, reply[0], plan)]]
    if reply[0].startswith("no round"):
        ways.append([(pin, reply[0], None)])
    return ways


def closed(desk, after):
    """The desk after the lines that close, or None where it gives another reply."""
    desk = desk.copy()
    for line, reply in after:
        if desk.answer(0, line.split(), None)[0] != reply[0]:
            return None
    return desk


def history(desk, told, after):
    """The desk after a history that gives all replies, or None. `told` has the lines and replies of each client, in order, and
    `after` those that follow them."""
    clients = len(told)
    seen = set()
    ways = [[events_of(said) for said in one] for one in told]
    # a place is how many lines of a client are done, which way the next one goes, and how many of its events are done
    stack = [(desk, tuple((0, 0, 0) for _ in range(clients)))]
    while stack:
        desk, places = stack.pop()
        if all(place[0] == len(told[i]) for i, place in enumerate(places)):
            last = closed(desk, after)
            if last is not None:
                return last
            continue
        key = (desk.key(), places)
        if key in seen:
            continue
        seen.add(key)
        further = []
        for i, (done, way, step) in enumerate(places):
            if done == len(told[i]):
                continue
            choices = [way] if step else range(len(ways[i][done]))
            for choice in choices:
                events = ways[i][done][choice]
                words, wanted, plan = events[step]
                then = desk.copy()
                reply, changed = then.answer(i + 1, words, plan)
                if reply.startswith("pinned ") if wanted is None else reply == wanted:
                    place = (done, choice, step + 1) if step + 1 < len(events) else (done + 1, 0, 0)
                    next_places = places[:i] + (place,) + places[i + 1:]
                    further.append((then, next_places, changed, len(choices)))
        # an event that fits and changes nothing can always be the next one
        free = next((f for f in further if not f[2] and f[3] == 1), None)
        if free:
            further = [free]
        stack.extend((then, places) for then, places, _, _ in reversed(further))
    return None


class Client:
    def __init__(self, port):
        for _ in range(200):
            try:
                self.line = socket.create_connection(("127.0.0.1", port), timeout=60)
                break
            except ConnectionRefusedError:
                time.sleep(0.05)
        else:
            raise SystemExit("the server can't be reached")
        self.line.setsockopt(socket.IPPROTO_TCP, socket.TCP_NODELAY, 1)
        self.replies = self.line.makefile("r", newline="\n")

    def ask(self, line):
        self.line.sendall((line + "\n").encode())
        lines = [self.replies.readline().rstrip("\n")]
        if lines[0].startswith("planned "):
            while not lines[-1].startswith("end "):
                lines.append(self.replies.readline().rstrip("\n"))
        return lines

    def close(self):
        self.replies.close()
        self.line.close()


def chain(boxes, rules):
    """A network of boxes in a row, with so many prefixes at each that its plan takes long."""
    dice = random.Random(boxes)
    out = ["atpg-net 2 32"]
    for box in range(1, boxes + 1):
        out += [f"box {box}", f"port {1000 + box} {box}", f"port {2000 + box} {box}"]
    out += [f"link {2000 + box} {1001 + box}" for box in range(1, boxes)]
    out += ["term 1 1001 send", f"term 2 {2000 + boxes} receive", "permit 1 " + "x" * 32]
    number = 0
    for box in range(1, boxes + 1):
        for _ in range(rules):
            number += 1
            length = dice.choice([0, 8, 12, 16, 16, 20, 20, 24])
            bits = "".join(dice.choice("01") for _ in range(length))
            out.append(f"rule {number} {box} {length} {1000 + box} {bits.ljust(32, 'x')} {2000 + box}")
    return "\n".join(out) + "\n"


def beside_a_plan(program, port, boxes):
    """Measures `depart` by one client while another one waits for a plan. Whether all went well."""
    words = [program, "--port", str(port), "--seats", "2", "--hops", "255", "--entries", "262144", "--log", "4194304"]
    server = subprocess.Popen(words, stdin=subprocess.PIPE)
    server.stdin.write(chain(boxes, 100).encode())
    server.stdin.close()
    planner, sender = Client(port), Client(port)
    for client in (planner, sender):
        client.line.settimeout(600)
    sender.ask("open")
    entries = sum(line.startswith("entry ") for line in sender.ask("plan 1"))
    planner.ask("open")
    planned = threading.Event()
    told = []

    def wait_for_plan():
        told.append(planner.replies.readline())
        planned.set()

    begin = time.perf_counter()
    planner.line.sendall(b"plan 2\n")
    waiting = threading.Thread(target=wait_for_plan)
    waiting.start()
    times, ends = [], []
    well = True
    while not planned.is_set():
        entry = len(times) % entries + 1
        before = time.perf_counter()
        well = sender.ask(f"depart 1 {entry}") == [f"departed 1 {entry}"] and well
        ends.append(time.perf_counter())
        times.append(ends[-1] - before)
    took = time.perf_counter() - begin
    waiting.join()
    while not told[-1].startswith("end "):
        told.append(planner.replies.readline())
    well = told[0].startswith("planned 2 ") and well
    for client in (planner, sender):
        well = client.ask("stop") == ["bye"] and well
        client.close()
    status = server.wait(60)
    late = sorted(times)[len(times) * 999 // 1000]
    longest = max(times)
    left = took - (ends[times.index(longest)] - begin)
    print(
        f"a plan of {entries} entries took {took:.1f} seconds; meanwhile {len(times)} times `depart` were answered, each after "
        f"{1000 * sum(times) / len(times):.2f} milliseconds on average, all but one in a thousand within {1000 * late:.2f}, "
        f"and after {1000 * longest:.0f} at most, which was {left:.2f} seconds before the plan came; {'well' if well else 'WRONG'}; status {status}"
    )
    return well and status == 0


def random_line(dice, opened):
    """A line that a client may send, about one of the rounds that are likely to be there."""
    number = max(1, opened - dice.randrange(3))
    entry = dice.randrange(1, 7)
    rule = dice.choice(SPARE)
    return dice.choices(
        [
            "current", "open", f"plan {number}", f"depart {number} {entry}", f"arrive {number} {entry} {dice.choice(['pass', 'fail'])}",
            f"locate {number}", f"close {number}", f"add {rule} 1 {dice.randrange(3)} * {dice.choice(['00xx', '1x1x', '01xx'])} 12", f"cut {rule}",
        ],
        [3, 2, 3, 5, 5, 3, 1.5, 0.7, 0.7],
    )[0]


def beside(clients, work):
    threads = [threading.Thread(target=work, args=(i, client)) for i, client in enumerate(clients)]
    for thread in threads:
        thread.start()
    for thread in threads:
        thread.join()


def short_runs(clients, runs, events, seed):
    """Plays short runs and seeks their histories. The number of runs that have one."""
    desk = Desk()
    for run in range(runs):
        told = [[] for _ in clients]
        opened = desk.opened

        def play(i, client):
            dice = random.Random(f"{seed}/{len(clients)}/{run}/{i}")
            for _ in range(events):
                line = random_line(dice, opened + 1)
                told[i].append((line, client.ask(line)))

        beside(clients, play)
        last = max([opened] + [int(reply[0].split()[1]) for one in told for _, reply in one if reply[0].startswith("opened ")])
        closing = [f"close {number}" for number in range(opened + 1, last + 1)]
        after = [(line, clients[0].ask(line)) for line in closing]
        desk = history(desk, told, after)
        if desk is None:
            print(f"no history gives the replies of run {run}:")
            for i, one in enumerate(told):
                for line, reply in one:
                    print(f"  client {i + 1}: {line} -> {reply[0]}")
            for line, reply in after:
                print(f"  then: {line} -> {reply[0]}")
            return run
    return runs


def rate(clients, seconds, line_of):
    """Events answered a second."""
    counts = [0] * len(clients)
    end = time.perf_counter() + seconds

    def play(i, client):
        dice = random.Random(i)
        while time.perf_counter() < end:
            client.ask(line_of(dice))
            counts[i] += 1

    begin = time.perf_counter()
    beside(clients, play)
    return sum(counts) / (time.perf_counter() - begin)


def main():
    parser = argparse.ArgumentParser(description=__doc__.split("\n")[0])
    parser.add_argument("--program", default=os.path.join(HERE, "../crates/atpgd/out/atpgd"))
    parser.add_argument("--clients", default="2,4,16")
    parser.add_argument("--seconds", type=float, default=10)
    parser.add_argument("--runs", type=int, default=100)
    parser.add_argument("--events", type=int, default=6)
    parser.add_argument("--seed", type=int, default=1)
    parser.add_argument("--port", type=int, default=4180)
    parser.add_argument("--boxes", type=int, help="how many boxes the chain has that is planned beside other calls, at most 255")
    options = parser.parse_args()
    bad = False
    for at, number in enumerate(int(n) for n in options.clients.split(",")):
        port = options.port + at
        words = [options.program, "--port", str(port), "--seats", str(number), "--log", "4194304"]
        server = subprocess.Popen(words, stdin=subprocess.PIPE)
        server.stdin.write(NETWORK.encode())
        server.stdin.close()
        # a worker serves one line at a time, so the order in which clients come needn't be that of the passes
        clients = [Client(port) for _ in range(number)]
        right = short_runs(clients, options.runs, max(2, min(options.events, 48 // number)), options.seed)
        bad = bad or right != options.runs
        mixed = rate(clients, options.seconds, lambda dice: random_line(dice, 20))
        plain = rate(clients, options.seconds, lambda dice: "current")
        for client in clients:
            if client.ask("stop") != ["bye"]:
                bad = True
                print("no bye")
            client.close()
        status = server.wait(60)
        bad = bad or status != 0
        print(f"{number} clients: {right} of {options.runs} short runs have a history; {mixed:.0f} random events and {plain:.0f} times `current` a second; status {status}")
    if options.boxes and not beside_a_plan(options.program, options.port - 1, options.boxes):
        bad = True
    return 1 if bad else 0


if __name__ == "__main__":
    sys.exit(main())
