"""A plain reading of docs/FORMATS.md, which walks every header by itself: for networks of a few bits.

Every answer is found by searching: the first faulty line by going over all earlier declarations, a plan by walking each header, and
a session's replies by going over the whole history at each event. It shares nothing with the crates.
"""
import functools
import re

DECIMAL = re.compile(rb"0|[1-9][0-9]*")
PATTERN = re.compile(rb"[01x]{1,128}")
REWRITE = re.compile(rb"[01-]{1,128}")
MOST_NUMBER = 4294967295
MOST_INPUT = 67108864
MOST_SESSION_LINE = 4096
MOST_OPEN = 16


class Fault(Exception):
    """A program's end: its status and its line on standard error, and what was written before."""

    def __init__(self, number, text, wrote=b""):
        super().__init__(text)
        self.number, self.text, self.wrote = number, text, wrote


class Wrong(Exception):
    """A line's fault."""

    def __init__(self, fault):
        super().__init__(fault)
        self.fault = fault


def words_of(line):
    line = line.split(b"#", 1)[0]
    return [word for word in re.split(rb"[ \t\r]+", line) if word]


def number(word, most=MOST_NUMBER, least=0):
    if not DECIMAL.fullmatch(word) or not least <= int(word) <= most:
        raise Wrong("number")
    return int(word)


def pattern(word):
    if not PATTERN.fullmatch(word):
        raise Wrong("letters")
    return word.decode()


def rewrite(word, version):
    """A list of items: '0', '1', or the place of an old bit, counted from 0."""
    if word[:1] == b"@" and version == 2:
        items = word[1:].split(b",")
        if not 1 <= len(items) <= 128:
            raise Wrong("letters")
        return [item_of(item, place, len(items)) for place, item in enumerate(items)]
    if not REWRITE.fullmatch(word):
        raise Wrong("letters")
    return [place if letter == "-" else letter for place, letter in enumerate(word.decode())]


def item_of(item, place, count):
    if item in (b"0", b"1"):
        return item.decode()
    if item == b"-":
        return place
    if item[:1] == b"b" and DECIMAL.fullmatch(item[1:]) and 1 <= int(item[1:]) <= count:
        return int(item[1:]) - 1
    raise Wrong("letters")


def rewritten(items, header):
    return "".join(header[item] if isinstance(item, int) else item for item in items)


def matches(letters, header):
    return all(letter in ("x", bit) for letter, bit in zip(letters, header))


class Rule:
    def __init__(self, id, at, priority, inp, letters, out, items):
        self.id, self.at, self.priority, self.inp = id, at, priority, inp
        self.letters, self.out, self.items = letters, out, items


def rule_of(words, version):
    """The rule of the words behind `rule` or `add`; it keeps all bits where it has no rewrite."""
    if not 6 <= len(words) <= 7 or (words[5] == b"drop" and len(words) == 7):
        raise Wrong("words")
    id, at, priority = number(words[0]), number(words[1]), number(words[2])
    inp = None if words[3] == b"*" else number(words[3])
    letters = pattern(words[4])
    out = None if words[5] == b"drop" else number(words[5])
    items = rewrite(words[6], version) if len(words) == 7 else None
    return Rule(id, at, priority, inp, letters, out, items)


class Net:
    def __init__(self, bits):
        self.bits = bits
        self.boxes = set()
        self.ports = {}
        self.links = {}
        self.terms = {}
        self.permits = {}
        self.forbids = {}
        self.rules = {}

    def copy(self):
        other = Net(self.bits)
        other.boxes = set(self.boxes)
        for name in ("ports", "links", "terms", "rules"):
            setattr(other, name, dict(getattr(self, name)))
        other.permits = {term: list(them) for term, them in self.permits.items()}
        other.forbids = {term: list(them) for term, them in self.forbids.items()}
        return other

    def term_at(self, port):
        return next((term for term, (at, _) in self.terms.items() if at == port), None)

    def add_box(self, box):
        refuse("twice", box in self.boxes)
        refuse("limit", len(self.boxes) >= 4096)
        self.boxes.add(box)

    def add_port(self, port, box):
        refuse("twice", port in self.ports)
        refuse("unknown", box not in self.boxes)
        refuse("limit", len(self.ports) >= 16384)
        self.ports[port] = box

    def add_link(self, one, other):
        refuse("unknown", one not in self.ports or other not in self.ports)
        refuse("link-taken", one == other or one in self.links or other in self.links)
        refuse("edge-linked", self.term_at(one) is not None or self.term_at(other) is not None)
        self.links[one], self.links[other] = other, one

    def add_term(self, term, port, role):
        refuse("twice", term in self.terms)
        refuse("unknown", port not in self.ports)
        refuse("limit", len(self.terms) >= 256)
        refuse("port-taken", self.term_at(port) is not None)
        refuse("edge-linked", port in self.links)
        self.terms[term] = (port, role)
        self.permits[term], self.forbids[term] = [], []

    def add_pattern(self, lists, term, letters):
        refuse("unknown", term not in self.terms)
        refuse("limit", len(lists[term]) >= 64)
        refuse("width", len(letters) != self.bits)
        lists[term].append(letters)

    def add_rule(self, rule):
        refuse("twice", rule.id in self.rules)
        refuse("unknown", rule.at not in self.boxes or any(
            port is not None and self.ports.get(port) != rule.at for port in (rule.inp, rule.out)))
        refuse("limit", len(self.rules) >= 65536)
        refuse("width", len(rule.letters) != self.bits or (rule.items is not None and len(rule.items) != self.bits))
        self.rules[rule.id] = rule

    def cut_rule(self, id):
        refuse("unknown", id not in self.rules)
        del self.rules[id]

    def declare(self, words, version):
        name, rest = words[0], words[1:]
        counts = {b"box": 1, b"port": 2, b"link": 2, b"term": 3, b"permit": 2, b"forbid": 2}
        if name == b"rule":
            self.add_rule(rule_of(rest, version))
            return
        if name not in counts or (name == b"forbid" and version == 1) or len(rest) != counts[name]:
            raise Wrong("words")
        if name == b"box":
            self.add_box(number(rest[0]))
        elif name == b"port":
            self.add_port(number(rest[0]), number(rest[1]))
        elif name == b"link":
            self.add_link(number(rest[0]), number(rest[1]))
        elif name == b"term":
            term, port = number(rest[0]), number(rest[1])
            if rest[2] not in (b"send", b"receive", b"both"):
                raise Wrong("words")
            self.add_term(term, port, rest[2].decode())
        else:
            lists = self.permits if name == b"permit" else self.forbids
            self.add_pattern(lists, number(rest[0]), pattern(rest[1]))

    def may_send(self, term, header):
        return (self.terms[term][1] != "receive" and any(matches(it, header) for it in self.permits[term])
                and not any(matches(it, header) for it in self.forbids[term]))

    def headers(self, term):
        every = (format(n, f"0{self.bits}b") for n in range(2**self.bits))
        return [header for header in every if self.may_send(term, header)]

    def hit(self, port, header):
        fits = [rule for rule in self.rules.values()
                if rule.at == self.ports[port] and rule.inp in (None, port) and matches(rule.letters, header)]
        return min(fits, key=lambda rule: (-rule.priority, rule.id), default=None)

    def walk(self, port, header, hops):
        """The rules met, and where and how the header is delivered, or None."""
        met = []
        for _ in range(hops):
            rule = self.hit(port, header)
            if rule is None or rule.out is None:
                return met, None
            met.append(rule.id)
            header = header if rule.items is None else rewritten(rule.items, header)
            term = self.term_at(rule.out)
            if term is not None and self.terms[term][1] != "send":
                return met, (term, header)
            if rule.out not in self.links:
                return met, None
            port = self.links[rule.out]
        return met, None


def refuse(fault, holds):
    if holds:
        raise Wrong(fault)


def network(text):
    """The network of a text."""
    net, version = None, 1
    lines = text.split(b"\n")
    for place, line in enumerate(lines, 1):
        words = words_of(line)
        if not words:
            continue
        try:
            if net is None:
                if words[0] != b"atpg-net" or len(words) != 3:
                    raise Wrong("no-head")
                if words[1] not in (b"1", b"2"):
                    raise Wrong("version")
                version = int(words[1])
                bits = number(words[2])
                refuse("width", not 1 <= bits <= 128)
                net = Net(bits)
            else:
                net.declare(words, version)
        except Wrong as it:
            raise Fault(6, f"bad network at line {place}: {it.fault}") from None
    if net is None:
        raise Fault(6, f"bad network at line {len(lines)}: no-head")
    return net


class Entry:
    def __init__(self, term, to, rules, least, greatest, arrives):
        self.term, self.to, self.rules = term, to, rules
        self.least, self.greatest, self.arrives = least, greatest, arrives


class Plan:
    def __init__(self, net, hops):
        found = {}
        for term in net.terms:
            for header in net.headers(term):
                met, end = net.walk(net.terms[term][0], header, hops)
                if end is not None:
                    found.setdefault((term, tuple(met)), []).append((header, end))
        self.net, self.hops = net, hops
        self.table = [Entry(term, them[0][1][0], rules, them[0][0], them[-1][0], them[0][1][1])
                      for (term, rules), them in sorted(found.items())]
        self.probes, covered = [], set()
        while True:
            gains = [len(set(entry.rules) - covered) for entry in self.table]
            if not gains or max(gains) == 0:
                break
            best = gains.index(max(gains))
            self.probes.append(best + 1)
            covered |= set(self.table[best].rules)
        self.reserved = [n for n in range(1, len(self.table) + 1) if n not in self.probes]
        self.idle = sorted(set(net.rules) - {rule for entry in self.table for rule in entry.rules})

    def text(self):
        lines = [f"atpg-plan 1 {self.net.bits} {self.hops}"]
        for n, entry in enumerate(self.table, 1):
            lines.append(f"entry {n} {entry.term} {entry.to} {entry.least} {entry.greatest} {entry.arrives} {listed(entry.rules)}")
        lines += [f"probe {n}" for n in self.probes] + [f"reserved {n}" for n in self.reserved] + [f"idle {rule}" for rule in self.idle]
        lines.append(f"end {len(self.table)} {len(self.probes)} {len(self.reserved)} {len(self.idle)}")
        return told(lines)

    def findings(self, verdicts):
        """Suspects, guilty rules, the odd entry and the telling one, of a verdict for some entries."""
        rules = {n: set(self.table[n - 1].rules) for n in range(1, len(self.table) + 1)}
        passed = set().union(*(rules[n] for n, verdict in verdicts.items() if verdict == "pass"))
        failed = {n: rules[n] for n in sorted(verdicts) if verdicts[n] == "fail"}
        suspects = set().union(*failed.values()) - passed
        guilty = {next(iter(left)) for left in (them - passed for them in failed.values()) if len(left) == 1}
        odd = next((n for n, them in failed.items() if them <= passed), None)
        telling = next((n for n in self.reserved if n not in verdicts and len(rules[n] & suspects) == 1), None)
        return sorted(suspects), sorted(guilty), odd, telling


def told(lines):
    return "".join(f"{line}\n" for line in lines).encode()


def listed(numbers):
    return ",".join(map(str, numbers)) or "-"


def within(plan, limit):
    if len(plan.table) > limit:
        raise Fault(8, f"more than {limit} entries")
    return plan


def plan_text(text, hops=16, entries=65536):
    return within(Plan(network(text), hops), entries).text()


def trial_text(text, bad, hops=16, entries=65536):
    net = network(text)
    for rule in bad:
        if rule not in net.rules:
            raise Fault(7, f"no rule {rule}")
    plan = within(Plan(net, hops), entries)
    verdicts, sent = {}, []

    def send(n):
        verdicts[n] = "fail" if set(plan.table[n - 1].rules) & set(bad) else "pass"
        sent.append(n)

    for n in plan.probes:
        send(n)
    while plan.findings(verdicts)[3] is not None:
        send(plan.findings(verdicts)[3])
    suspects, guilty, _, _ = plan.findings(verdicts)
    lines = [f"sent {n} {verdicts[n]}" for n in sent] + [f"suspects {listed(suspects)}", f"guilty {listed(guilty)}"]
    lines.append(f"done {len(sent)} {sum(verdict == 'fail' for verdict in verdicts.values())}")
    return plan.text() + told(lines)


def parts(text, word):
    """What stands before and behind the first line whose only word is this one."""
    lines = text.split(b"\n")
    for place, line in enumerate(lines):
        if words_of(line) == [word]:
            return b"".join(it + b"\n" for it in lines[:place]), b"\n".join(lines[place + 1:])
    return text, b""


def policy_of(words, net):
    kinds = {b"never": 4, b"must": 4, b"via": 5}
    if kinds.get(words[0]) != len(words):
        raise Wrong("words")
    numbers = [number(word) for word in words[1:-1]]
    letters = pattern(words[-1])
    refuse("unknown", any(term not in net.terms for term in numbers[:2]) or (len(numbers) == 3 and numbers[2] not in net.boxes))
    refuse("width", len(letters) != net.bits)
    return words[0], numbers, letters


def obeys(net, kind, numbers, met, end):
    arrived = end is not None and end[0] == numbers[1]
    if kind == b"never":
        return not arrived
    if kind == b"must":
        return arrived
    return not arrived or any(net.rules[rule].at == numbers[2] for rule in met)


def check_text(text, hops=16):
    before, behind = parts(text, b"policy")
    net, policies = network(before), []
    for place, line in enumerate(behind.split(b"\n"), 1):
        words = words_of(line)
        try:
            policies += [policy_of(words, net)] if words else []
        except Wrong as it:
            raise Fault(13, f"bad policy at line {place}: {it.fault}") from None
    lines, broken = [], 0
    for n, (kind, numbers, letters) in enumerate(policies, 1):
        wrong = [header for header in net.headers(numbers[0]) if matches(letters, header)
                 and not obeys(net, kind, numbers, *net.walk(net.terms[numbers[0]][0], header, hops))]
        lines.append(f"broken {n} {wrong[0]}" if wrong else f"ok {n}")
        broken += bool(wrong)
    return told(lines + [f"checked {len(policies)} {broken}"])


def once(call):
    """The log only grows, so that what was found of its first events stays."""
    @functools.wraps(call)
    def kept(self, *given):
        key = (call.__name__, *given)
        if key not in self.found_before:
            self.found_before[key] = call(self, *given)
        return self.found_before[key]
    return kept


class History:
    """The events so far, each with its caller, over the network that the desk began with. What is asked of them is found by searching them."""

    def __init__(self, net, hops, room):
        self.net, self.hops, self.room, self.log, self.found_before = net, hops, room, [], {}

    @once
    def state(self, upto):
        """The network and version after so many events."""
        net, version = self.net.copy(), 0
        for _, event in self.log[:upto]:
            if event[0] in ("add", "cut"):
                try:
                    changed(net, event)
                    version += 1
                except Wrong:
                    pass
        return net, version

    @once
    def opening(self, upto):
        """For each round the place at which it was opened."""
        places = []
        for place, (_, event) in enumerate(self.log[:upto]):
            if event[0] == "open" and sum(self.is_open(n, place) for n in range(1, len(places) + 1)) < MOST_OPEN:
                places.append(place)
        return places

    @once
    def is_open(self, round, upto):
        places = self.opening(upto)
        return 1 <= round <= len(places) and not any(event == ("close", round) for _, event in self.log[places[round - 1]:upto])

    @once
    def is_posted(self, round, upto):
        return any(event == ("post", round) and self.is_open(round, place) for place, (_, event) in enumerate(self.log[:upto]))

    def pinned(self, round, upto):
        return self.state(self.opening(upto)[round - 1])

    @once
    def is_live(self, round, entry, upto):
        return (self.is_open(round, upto) and self.is_posted(round, upto)
                and self.pinned(round, upto)[1] == self.state(upto)[1] and 1 <= entry <= len(self.plan(round, upto).table))

    def plan(self, round, upto):
        return self.plan_at(self.opening(upto)[round - 1])

    @once
    def plan_at(self, place):
        return Plan(self.state(place)[0], self.hops)

    @once
    def sender(self, round, entry, upto):
        for place in reversed(range(upto)):
            caller, event = self.log[place]
            if event == ("depart", round, entry) and self.is_live(round, entry, place):
                return caller
        return None

    @once
    def counted(self, round, entry, upto):
        for place in range(upto):
            caller, event = self.log[place]
            if event[:3] == ("arrive", round, entry) and self.is_live(round, entry, place) and self.sender(round, entry, place) == caller:
                return event[3]
        return None

    def found(self, round, upto):
        if not self.is_posted(round, upto):
            return [], [], None, None
        plan = self.plan(round, upto)
        verdicts = {n: self.counted(round, n, upto) for n in range(1, len(plan.table) + 1)}
        return plan.findings({n: verdict for n, verdict in verdicts.items() if verdict})

    def ask(self, caller, event):
        here = len(self.log)
        if here == self.room:
            return f"no log-full {self.room}"
        reply = self.reply(caller, event, here)
        self.log.append((caller, event))
        return reply

    def reply(self, caller, event, here):
        kind = event[0]
        if kind in ("add", "cut"):
            net, version = self.state(here)
            try:
                changed(net, event)
            except Wrong as it:
                return f"no {it.fault}"
            return f"version {version + 1}"
        if kind == "current":
            return f"current {self.state(here)[1]}"
        if kind == "open":
            places = self.opening(here)
            if sum(self.is_open(n, here) for n in range(1, len(places) + 1)) >= MOST_OPEN:
                return "no rounds-full"
            return f"opened {len(places) + 1} {self.state(here)[1]}"
        round = event[1]
        if not self.is_open(round, here):
            return f"no round {round}"
        if kind in ("depart", "arrive", "locate") and not self.is_posted(round, here):
            return f"no plan {round}"
        if kind == "post":
            return f"no already-posted {round}" if self.is_posted(round, here) else "posted"
        if kind == "pin":
            return self.pinned(round, here)
        if kind in ("depart", "arrive"):
            return self.outcome(caller, event, here)
        suspects, guilty, odd, telling = self.found(round, here)
        return (f"{'found' if kind == 'locate' else 'closed'} {round} suspects {listed(suspects)} guilty {listed(guilty)} "
                f"odd {odd or '-'} next {telling or '-'}")

    def outcome(self, caller, event, here):
        round, entry = event[1:3]
        if not 1 <= entry <= len(self.plan(round, here).table):
            return f"no entry {entry}"
        pinned, now = self.pinned(round, here)[1], self.state(here)[1]
        if pinned != now:
            return f"no moved {pinned} {now}"
        counted = self.counted(round, entry, here)
        if counted:
            return f"no already-counted {counted}"
        if event[0] == "depart":
            return f"departed {round} {entry}"
        if self.sender(round, entry, here) != caller:
            return "no not-sent"
        return f"counted {round} {entry} {event[3]}"


def changed(net, event):
    if event[0] == "add":
        net.add_rule(event[1])
    else:
        net.cut_rule(event[1])


def command_of(words):
    counts = {b"cut": 1, b"open": 0, b"plan": 1, b"depart": 2, b"arrive": 3, b"locate": 1, b"close": 1, b"current": 0, b"quit": 0, b"stop": 0}
    name, rest = words[0], words[1:]
    if name == b"add":
        return "add", rule_of(rest, 2)
    if counts.get(name) != len(rest):
        raise Wrong("words")
    numbers = tuple(number(word) for word in rest[:2])
    if name == b"arrive":
        if rest[2] not in (b"pass", b"fail"):
            raise Wrong("words")
        return ("arrive", *numbers, rest[2].decode())
    return (name.decode(), *numbers)


def session_text(text, hops=16, entries=65536, log=65536):
    before, behind = parts(text, b"session")
    history, wrote = History(network(before), hops, log), b""
    for place, line in enumerate(behind.split(b"\n"), 1):
        if len(line) > MOST_SESSION_LINE:
            raise Fault(9, f"session line {place} too long", wrote)
        words = words_of(line)
        if not words:
            continue
        try:
            command = command_of(words)
        except Wrong as it:
            wrote += told([f"no bad-line {it.fault}"])
            continue
        if command[0] in ("quit", "stop"):
            return wrote + b"bye\n"
        wrote += planned(history, command[1], entries) if command[0] == "plan" else told([history.ask(1, command)])
    return wrote


def planned(history, round, entries):
    pinned = history.ask(1, ("pin", round))
    if isinstance(pinned, str):
        return told([pinned])
    plan = history.plan(round, len(history.log))
    if len(plan.table) > entries:
        return told([f"no table-full {entries}"])
    posted = history.ask(1, ("post", round))
    return told([f"planned {round} {pinned[1]}"]) + plan.text() if posted == "posted" else told([posted])
