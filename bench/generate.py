#!/usr/bin/env python3
"""Writes large network texts for timing the built program.

    generate.py comments MIB      a small network behind so many MiB of comment lines
    generate.py rules COUNT       one network of 12 bits with so many rules over 4,096 boxes
    generate.py ports COUNT       so many ports, boxes for them, links between neighbours, terminals at the ends

The text goes to standard output. Nothing is random, so each call writes the same bytes.
"""
import sys


def comments(mib):
    line = "# " + "x" * 77 + "\n"
    out = ["atpg-net 1 4\n"]
    out += [line] * (mib * 1024 * 1024 // len(line) - 10)
    out += [
        "box 1\nport 11 1\nport 12 1\nterm 1 11 send\nterm 2 12 receive\n",
        "permit 1 xxxx\nrule 5 1 10 * 1xx0 12\n",
    ]
    return out


def rules(count):
    boxes = min(4096, max(1, count // 16))
    out = ["atpg-net 1 12\n"]
    for box in range(boxes):
        out.append(f"box {box}\n")
        out.append(f"port {4 * box} {box}\nport {4 * box + 1} {box}\n")
    out.append("term 1 0 send\nterm 2 1 receive\npermit 1 xxxxxxxxxxxx\n")
    for rule in range(count):
        box = rule % boxes
        at_box = rule // boxes
        bits = format(at_box % 4096, "012b")
        out.append(f"rule {rule} {box} {at_box % 7} * {bits} {4 * box + 1}\n")
    return out


def ports(count):
    boxes = min(4096, max(2, count // 4))
    out = ["atpg-net 1 4\n"]
    out += [f"box {box}\n" for box in range(boxes)]
    out += [f"port {port} {port % boxes}\n" for port in range(count)]
    out += [f"link {port} {port + 1}\n" for port in range(1, count - 2, 2)]
    out.append(f"term 1 0 send\nterm 2 {count - 1} receive\npermit 1 xxxx\n")
    return out


def main():
    kinds = {"comments": comments, "rules": rules, "ports": ports}
    if len(sys.argv) != 3 or sys.argv[1] not in kinds:
        sys.exit(__doc__)
    sys.stdout.writelines(kinds[sys.argv[1]](int(sys.argv[2])))


if __name__ == "__main__":
    main()
