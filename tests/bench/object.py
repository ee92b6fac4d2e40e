#!/usr/bin/env python3
"""Reads object code and instruction counts, and prints tab-separated lines of results.

object.py code ARCHIVE
    size   archive  part      bytes     a crate, the exported functions, or constants
    stack  archive  function  bytes  chain  leaves
        The most stack that an exported function takes, its return address included. For each function of the
        archive: 8 for the return address, 8 for each push, the numbers taken off rsp, and what a function addresses
        below rsp; added up along the chain of calls that takes most. Every push and subtraction of a function counts,
        so a bound. Leaves are the functions called outside the archive; their stack is not in it.
object.py instructions FILE
    instructions  power  function  instructions  mispredicted     of one call
        FILE has lines of power, number of calls, function, instructions, mispredicted branches; what 0 calls take
        is taken off.
"""

import re
import subprocess
import sys

# Calls that are made a hundredth as often: by their names, and by how their names begin.
WHOLE = ("strip_fill", "tree_fill", "strip_verify", "tree_verify", "image_freeze", "row_freeze", "image_inspect", "row_inspect")
PAIRS = ("strip_pair_", "pair_", "strip_waiting_", "waiting_", "strip_burst", "burst_")


def output(*command):
    return subprocess.run(command, check=True, capture_output=True, text=True).stdout


def functions(archive):
    """The frame and the callees of each function."""
    found, name = {}, None
    for text in output("objdump", "-dr", "--no-show-raw-insn", archive).splitlines():
        head = re.match(r"[0-9a-f]+ <(.+)>:$", text)
        if head:
            name = head[1]
            found[name] = {"frame": 8, "below": 0, "calls": set(), "indirect": False}
            continue
        if name is None:
            continue
        of = found[name]
        target = re.search(r"R_X86_64_(?:PLT32|PC32|GOTPCRELX?|REX_GOTPCRELX)\s+(\S+?)(?:[-+]0x[0-9a-f]+)?$", text)
        if target and of["jump"]:
            of["calls"].add(re.sub(r"^\.text\.(unlikely\.)?", "", target[1]))
        part = re.match(r"\s*[0-9a-f]+:\t(\S+)\s*(.*)", text)
        if not part or target:
            continue
        operation, operands = part[1], part[2]
        of["jump"] = operation.startswith(("call", "jmp", "j"))
        if operation.startswith("call") and operands.startswith("*"):
            of["indirect"] = True
        if operation == "push":
            of["frame"] += 8
        taken = re.match(r"\$0x([0-9a-f]+),%rsp$", operands)
        if operation == "sub" and taken:
            of["frame"] += int(taken[1], 16)
        for offset in re.findall(r"-0x([0-9a-f]+)\(%rsp", operands):
            of["below"] = max(of["below"], int(offset, 16))
    return found


def deepest(found, name, path=()):
    """The most stack from `name` on, its chain, and the functions called outside the archive."""
    if name in path:
        sys.exit(f"recursion: {name}")
    of = found[name]
    if of["indirect"]:
        print(f"an indirect call in {name}: not counted", file=sys.stderr)
    best, chain, leaves = of["below"], (), set()
    for callee in of["calls"]:
        if callee not in found:
            leaves.add(callee)
            continue
        depth, under, out = deepest(found, callee, path + (name,))
        leaves |= out
        if depth > best:
            best, chain = depth, under
    return of["frame"] + best, (f"{name} {of['frame'] + (0 if chain else of['below'])}", *chain), leaves


def code(archive):
    title = re.sub(r".*/lib(.*)\.a", r"\1", archive)
    found = functions(archive)
    exported = [text.split()[2] for text in output("nm", "-C", archive).splitlines() if " T " in text]
    parts = {}
    for text in output("size", "-A", "-d", archive).splitlines():
        section = re.match(r"(\.\S+)\s+(\d+)\s", text)
        if not section:
            continue
        name, bytes_ = section[1], int(section[2])
        if name.startswith(".text.") and "::" in name:
            part = "crate " + name.removeprefix(".text.").split("::")[0]
        elif name.startswith(".text"):
            part = "exported functions"
        elif name.startswith((".rodata", ".data", ".bss")):
            part = "constants"
        elif name.startswith(".eh_frame"):
            part = "unwinding tables"
        else:
            continue
        parts[part] = parts.get(part, 0) + bytes_
    for part, bytes_ in sorted(parts.items()):
        print("size", title, part, bytes_, sep="\t")
    totals = output("size", "-t", archive).splitlines()[-1].split()
    print("size", title, "text", totals[0], sep="\t")
    print("size", title, "data and bss", int(totals[1]) + int(totals[2]), sep="\t")
    for name in sorted(exported):
        bytes_, chain, leaves = deepest(found, name)
        print("stack", title, name, bytes_, ", ".join(chain), " ".join(sorted(leaves)), sep="\t")


def instructions(path):
    counts = {}
    for text in open(path, encoding="utf-8"):
        power, number, name, *figures = text.split()
        counts.setdefault((int(power), name), {})[int(number)] = [0 if x == "." else int(x) for x in figures]
    for (power, name), runs in sorted(counts.items()):
        most = max(runs)
        made = most // 100 if name in WHOLE or name.startswith(PAIRS) else most
        more = [a - b for a, b in zip(runs[most], runs.get(0, [0, 0]))]
        if most and more[0] >= made:
            print("instructions", power, name, round(more[0] / made, 1), round(more[1] / made, 2), sep="\t")


if __name__ == "__main__":
    {"code": code, "instructions": instructions}[sys.argv[1]](sys.argv[2])
