#!/usr/bin/env python3
"""Times the built program beside a yardstick: another program that writes the same plan texts, and tells what is possible.

    against_yardstick.py FOLDER [--program PATH] [--workloads NAME,..] [--runs N] [--seconds N] [--seed N]
                         [--workers N]

FOLDER is the yardstick's, built there: it has target/release/yardstick and workloads/gen.py, which writes NAME.net and the words for
it, NAME.opts, into a folder. A NAME may also be the path of a network text. Both programs get the same words, --workers among them, the runs alternate, and
what they write must be the same. Printed are the least wall times, their ratio (the program's by the yardstick's), and the most
memory of each; at the end the median and the greatest ratio. A run that takes longer than --seconds is stopped and said so.

Build the program first: (cd crates/atpg && rt run -- plan < ../../examples/one_box.net)
"""
import argparse
import hashlib
import os
import signal
import statistics
import subprocess
import sys
import tempfile
import time

HERE = os.path.dirname(os.path.abspath(__file__))
USUAL = "fattree-4,fattree-8,chain-16,chain-64,chain-255,acl-2k,acl-10k,backbone-10k,backbone-30k,backbone-10k-32t"


class Run:
    """One run of a program: its seconds of wall time, the sum of what it wrote, and why it gave no answer, if it gave none."""

    def __init__(self, program, words, network, seconds):
        self.why = None
        with open(network, "rb") as given, tempfile.TemporaryFile() as wrote, tempfile.TemporaryFile() as said:
            begin = time.perf_counter()
            started = subprocess.Popen([*program, *words], stdin=given, stdout=wrote, stderr=said, start_new_session=True)
            try:
                status = started.wait(seconds)
            except subprocess.TimeoutExpired:
                os.killpg(started.pid, signal.SIGKILL)
                status = started.wait()
                self.why = f"no answer in {seconds:g} s"
            self.seconds = time.perf_counter() - begin
            wrote.seek(0)
            self.sum = hashlib.sha256(wrote.read()).hexdigest()
            said.seek(0)
            if status and not self.why:
                self.why = f"status {status}: {said.read().decode(errors='replace').strip()[:80]}"


def peak(program, words, network, seconds):
    """A first run, whose time doesn't count, and its most KiB of memory: a process that Python starts would count Python's own."""
    with tempfile.NamedTemporaryFile("r") as told:
        first = Run(["/usr/bin/time", "-f", "%M", "-o", told.name, program], words, network, seconds)
        return first, 0 if first.why else int(told.read().split()[-1])


def workload(folder, name, seed, data):
    """The network of a workload and the words for it."""
    if os.path.isfile(name):
        return name, ["plan", "--entries", "1048576"]
    network = os.path.join(data, f"{name}.net")
    if not os.path.isfile(network):
        made = subprocess.run([sys.executable, os.path.join(folder, "workloads", "gen.py"), data, name, "--seed", str(seed)], stdout=subprocess.DEVNULL, stderr=subprocess.DEVNULL)
        if made.returncode or not os.path.isfile(network):
            return None, []
    with open(network[:-4] + ".opts", encoding="ascii") as it:
        return network, ["plan", *it.read().split()]


def measure(options, programs, name):
    """Prints a line for one workload; the ratio of its least times, or None where there is none."""
    network, words = workload(options.folder, name, options.seed, options.data)
    words += ["--workers", str(options.workers)]
    if not network:
        print(f"{name:<18} the yardstick's generator writes no such network")
        return None
    runs, kib = {}, {}
    for of, program in programs.items():
        first, kib[of] = peak(program, words, network, options.seconds)
        runs[of] = [first]
    for number in range(options.runs):
        for of in list(programs) if number % 2 == 0 else reversed(programs):
            if not any(it.why for it in runs[of]):
                runs[of].append(Run([programs[of]], words, network, options.seconds))
    told, least = f"{name:<18}", {}
    for of, found in runs.items():
        why = next((it.why for it in found if it.why), None)
        if why:
            told += f" {of}: {why};"
        else:
            least[of] = min(it.seconds for it in found[1:])
            told += f" {of} {1000 * least[of]:9.1f} ms {kib[of] / 1024:7.1f} MiB;"
    ratio = None
    if len(least) == len(programs):
        if len({it.sum for found in runs.values() for it in found}) > 1:
            options.differ.append(name)
            told += " WHAT THEY WROTE DIFFERS"
        else:
            ratio = least["program"] / least["yardstick"]
            told += f" ratio {ratio:.2f}"
    print(told, flush=True)
    return ratio


def main():
    reader = argparse.ArgumentParser(description=__doc__, formatter_class=argparse.RawDescriptionHelpFormatter)
    reader.add_argument("folder")
    reader.add_argument("--program", default=os.path.join(HERE, "..", "crates", "atpg", "out", "atpg"))
    reader.add_argument("--workloads", default=USUAL)
    reader.add_argument("--runs", type=int, default=5)
    reader.add_argument("--seconds", type=float, default=60)
    reader.add_argument("--seed", type=int, default=11)
    reader.add_argument("--workers", type=int, default=1)
    options = reader.parse_args()
    options.differ, options.data = [], os.path.join(HERE, "data", f"yardstick-{options.seed}")
    os.makedirs(options.data, exist_ok=True)
    programs = {"yardstick": os.path.join(options.folder, "target", "release", "yardstick"), "program": options.program}
    for of, path in programs.items():
        if not os.access(path, os.X_OK):
            sys.exit(f"no {of} stands at {path}: build it first")
    ratios = [measure(options, programs, name) for name in options.workloads.split(",")]
    ratios = [it for it in ratios if it is not None]
    if ratios:
        print(f"{len(ratios)} workloads: median ratio {statistics.median(ratios):.2f}, greatest {max(ratios):.2f}")
    if options.differ:
        sys.exit(f"what the programs wrote differs on: {', '.join(options.differ)}")


if __name__ == "__main__":
    main()
